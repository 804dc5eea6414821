//! The plain Rust twin of the loops `types-..` of giop_bench.
const VALUES: u32 = 100_000;
const TIMES: u32 = 10;
const MANY: u32 = 200;

use std::collections::BTreeMap;

#[allow(dead_code)]
enum Desc {
    Boolean,
    Octet,
    UShort,
    Long,
    LongLong,
    Text(u32),
    Members(Vec<(Vec<u8>, Desc)>),
    Items(Box<Desc>, u32),
}

#[allow(dead_code)]
enum Value {
    Boolean(bool),
    Octet(u8),
    UShort(u16),
    Long(i32),
    LongLong(i64),
    Text(Vec<u8>),
    Choice(i128, Option<Box<Value>>),
    Members(Vec<Value>),
    Items(Vec<Value>),
}

#[derive(Debug)]
#[allow(dead_code)]
enum Kind {
    Short,
    BadBoolean,
    BadCount,
    BadString,
    BoundPassed,
}

#[derive(Debug)]
#[allow(dead_code)]
struct Fault {
    at: usize,
    kind: Kind,
}

struct Input<'a> {
    octets: &'a [u8],
    at: usize,
}

impl<'a> Input<'a> {
    #[inline]
    fn field<const N: usize>(&mut self) -> Result<[u8; N], Fault> {
        let at = self.at + (self.at.wrapping_neg() & (N - 1));
        match self.octets.get(at..at + N) {
            Some(octets) => {
                self.at = at + N;
                Ok(octets.try_into().unwrap())
            }
            None => Err(Fault {
                at,
                kind: Kind::Short,
            }),
        }
    }

    fn count(&mut self, bound: u32) -> Result<usize, Fault> {
        let count = u32::from_be_bytes(self.field()?) as usize;
        let at = self.at - 4;
        if self.octets.len() - self.at < count {
            return Err(Fault {
                at,
                kind: Kind::BadCount,
            });
        }
        if bound != 0 && bound as usize <= count {
            return Err(Fault {
                at,
                kind: Kind::BoundPassed,
            });
        }
        Ok(count)
    }

    fn text(&mut self, bound: u32) -> Result<Vec<u8>, Fault> {
        let count = self.count(bound)?;
        let counted = &self.octets[self.at..self.at + count];
        let text = match counted.split_last() {
            None => counted,
            Some((0, text)) if !text.contains(&0) => text,
            _ => {
                return Err(Fault {
                    at: self.at - 4,
                    kind: Kind::BadString,
                });
            }
        };
        self.at += count;
        Ok(text.to_vec())
    }
}

fn decode(desc: &Desc, input: &mut Input) -> Result<Value, Fault> {
    Ok(match desc {
        Desc::Boolean => match input.field::<1>()? {
            [0] => Value::Boolean(false),
            [1] => Value::Boolean(true),
            _ => {
                return Err(Fault {
                    at: input.at - 1,
                    kind: Kind::BadBoolean,
                })
            }
        },
        Desc::Octet => Value::Octet(u8::from_be_bytes(input.field()?)),
        Desc::UShort => Value::UShort(u16::from_be_bytes(input.field()?)),
        Desc::Long => Value::Long(i32::from_be_bytes(input.field()?)),
        Desc::LongLong => Value::LongLong(i64::from_be_bytes(input.field()?)),
        Desc::Text(bound) => Value::Text(input.text(*bound)?),
        Desc::Members(members) => {
            let mut values = Vec::with_capacity(members.len());
            for (_, member) in members {
                values.push(decode(member, input)?);
            }
            Value::Members(values)
        }
        Desc::Items(item, bound) => {
            let count = input.count(*bound)?;
            let mut values = Vec::new();
            for _ in 0..count {
                values.push(decode(item, input)?);
            }
            Value::Items(values)
        }
    })
}

// What is written: the octets, in big-endian order from offset 0.
struct Output {
    octets: Vec<u8>,
}

#[derive(Debug)]
struct Unfit;

impl Output {
    #[inline]
    fn field<const N: usize>(&mut self, field: [u8; N]) {
        let end = (self.octets.len() + N - 1) & !(N - 1);
        self.octets.resize(end, 0);
        self.octets.extend_from_slice(&field);
    }
}

fn encode(desc: &Desc, value: &Value, out: &mut Output) -> Result<(), Unfit> {
    match (desc, value) {
        (Desc::Boolean, Value::Boolean(b)) => out.field([u8::from(*b)]),
        (Desc::Octet, Value::Octet(n)) => out.field(n.to_be_bytes()),
        (Desc::UShort, Value::UShort(n)) => out.field(n.to_be_bytes()),
        (Desc::Long, Value::Long(n)) => out.field(n.to_be_bytes()),
        (Desc::LongLong, Value::LongLong(n)) => out.field(n.to_be_bytes()),
        (Desc::Text(bound), Value::Text(text)) => {
            if (*bound != 0 && text.len() > *bound as usize) || text.contains(&0) {
                return Err(Unfit);
            }
            let length = u32::try_from(text.len() + 1).map_err(|_| Unfit)?;
            out.field(length.to_be_bytes());
            out.octets.extend_from_slice(text);
            out.octets.push(0);
        }
        (Desc::Members(members), Value::Members(values)) => {
            if members.len() != values.len() {
                return Err(Unfit);
            }
            for ((_, member), value) in members.iter().zip(values) {
                encode(member, value, out)?;
            }
        }
        (Desc::Items(item, bound), Value::Items(values)) => {
            let count = u32::try_from(values.len()).map_err(|_| Unfit)?;
            if *bound != 0 && count > *bound {
                return Err(Unfit);
            }
            out.field(count.to_be_bytes());
            for value in values {
                encode(item, value, out)?;
            }
        }
        _ => return Err(Unfit),
    }
    Ok(())
}

// JSON, with the members of an object by the names' order.
#[allow(dead_code)]
enum Json {
    Null,
    Bool(bool),
    Positive(u64),
    Negative(i64),
    Float(f64),
    String(String),
    Array(Vec<Json>),
    Object(BTreeMap<String, Json>),
}

fn number(number: i64) -> Json {
    match u64::try_from(number) {
        Ok(number) => Json::Positive(number),
        Err(_) => Json::Negative(number),
    }
}

// The characters U+0000 to U+00FF stand for the octets.
fn text_of(octets: &[u8]) -> String {
    let mut text = String::with_capacity(octets.len());
    for octet in octets {
        text.push(char::from(*octet));
    }
    text
}

fn to_json(desc: &Desc, value: &Value) -> Json {
    match (desc, value) {
        (Desc::Boolean, Value::Boolean(b)) => Json::Bool(*b),
        (Desc::Octet, Value::Octet(n)) => number(i64::from(*n)),
        (Desc::UShort, Value::UShort(n)) => number(i64::from(*n)),
        (Desc::Long, Value::Long(n)) => number(i64::from(*n)),
        (Desc::LongLong, Value::LongLong(n)) => number(*n),
        (Desc::Text(_), Value::Text(text)) => Json::String(text_of(text)),
        (Desc::Members(members), Value::Members(values)) => {
            let mut object = BTreeMap::new();
            for ((name, member), value) in members.iter().zip(values) {
                object.insert(text_of(name), to_json(member, value));
            }
            Json::Object(object)
        }
        (Desc::Items(item, _), Value::Items(values)) => {
            let mut list = Vec::with_capacity(values.len());
            for value in values {
                list.push(to_json(item, value));
            }
            Json::Array(list)
        }
        _ => Json::Null,
    }
}

fn octets_of(text: &str) -> Option<Vec<u8>> {
    let mut octets = Vec::with_capacity(text.len());
    for c in text.chars() {
        octets.push(u8::try_from(u32::from(c)).ok()?);
    }
    Some(octets)
}

fn whole(json: &Json) -> Option<i128> {
    match json {
        Json::Positive(number) => Some(i128::from(*number)),
        Json::Negative(number) => Some(i128::from(*number)),
        _ => None,
    }
}

fn from_json(desc: &Desc, json: &Json) -> Option<Value> {
    Some(match (desc, json) {
        (Desc::Boolean, Json::Bool(b)) => Value::Boolean(*b),
        (Desc::Octet, json) => Value::Octet(whole(json)?.try_into().ok()?),
        (Desc::UShort, json) => Value::UShort(whole(json)?.try_into().ok()?),
        (Desc::Long, json) => Value::Long(whole(json)?.try_into().ok()?),
        (Desc::LongLong, json) => Value::LongLong(whole(json)?.try_into().ok()?),
        (Desc::Text(bound), Json::String(text)) => {
            let octets = octets_of(text)?;
            if (*bound != 0 && octets.len() > *bound as usize) || octets.contains(&0) {
                return None;
            }
            Value::Text(octets)
        }
        (Desc::Members(members), Json::Object(object)) => {
            if members.len() != object.len() {
                return None;
            }
            let mut values = Vec::with_capacity(members.len());
            for (name, member) in members {
                values.push(from_json(member, object.get(&text_of(name))?)?);
            }
            Value::Members(values)
        }
        (Desc::Items(item, bound), Json::Array(list)) => {
            if *bound != 0 && list.len() > *bound as usize {
                return None;
            }
            let mut values = Vec::with_capacity(list.len());
            for json in list {
                values.push(from_json(item, json)?);
            }
            Value::Items(values)
        }
        _ => return None,
    })
}

fn structs(count: u32) -> Vec<u8> {
    let mut out = Output { octets: Vec::new() };
    out.field(count.to_be_bytes());
    for i in 0..count {
        out.field([7]);
        out.field(i64::from(i).to_be_bytes());
        out.field(17u32.to_be_bytes());
        out.octets.extend_from_slice(b"a text of length\0");
        out.field(9u16.to_be_bytes());
        out.field([1]);
    }
    out.octets
}

fn longs() -> Vec<u8> {
    let mut out = Output { octets: Vec::new() };
    out.field(VALUES.to_be_bytes());
    for i in 0..VALUES {
        out.field(i.to_be_bytes());
    }
    out.octets
}

fn mixed(sum: u64, value: u64) -> u64 {
    sum.rotate_left(5) ^ value
}

fn leaf(value: &Value) -> u64 {
    match value {
        Value::Octet(n) => u64::from(*n),
        Value::LongLong(n) => u64::from(n.to_le_bytes()[0]),
        Value::Long(n) => u64::from(n.to_le_bytes()[0]),
        Value::UShort(n) => u64::from(*n),
        Value::Text(text) => text.len() as u64,
        _ => 1,
    }
}

fn checksum(value: &Value) -> u64 {
    let Value::Items(items) = value else {
        return 0;
    };
    let mut sum = 0;
    for item in items {
        sum = match item {
            Value::Members(members) => members.iter().fold(sum, |sum, member| mixed(sum, leaf(member))),
            other => mixed(sum, leaf(other)),
        };
    }
    sum
}

// A copy of 100,000 longs in the machine's own order, and a tree of them, MANY times.
fn copied_and_made() -> u64 {
    let mut message = VALUES.to_le_bytes().to_vec();
    message.extend((0..VALUES).flat_map(u32::to_le_bytes));
    let mut sum = 0;
    for _ in 0..MANY {
        let message = std::hint::black_box(&message);
        let longs = message[4..].chunks_exact(4).map(|long| i32::from_le_bytes(long.try_into().unwrap()));
        let value = Value::Items(longs.map(Value::Long).collect());
        sum = mixed(sum, checksum(&value));
        let copy = std::hint::black_box(message.to_vec());
        sum = mixed(sum, u64::from(*copy.last().unwrap()));
        sum = mixed(sum, copy.len() as u64);
    }
    sum
}

fn main() {
    let name = std::env::args().nth(1).unwrap();
    if name == "longs-both" {
        return println!("{}", copied_and_made());
    }
    let (item, message) = if name != "longs-read" && name != "longs-write" {
        let count = match name.as_str() {
            "json-write" | "json-again" => VALUES / 10,
            _ => VALUES,
        };
        let members = vec![
            (b"a".to_vec(), Desc::Octet),
            (b"b".to_vec(), Desc::LongLong),
            (b"c".to_vec(), Desc::Text(0)),
            (b"d".to_vec(), Desc::UShort),
            (b"e".to_vec(), Desc::Boolean),
        ];
        (Desc::Members(members), structs(count))
    } else {
        (Desc::Long, longs())
    };
    let desc = Desc::Items(Box::new(item), 0);
    let read = || {
        let mut input = Input {
            octets: &message,
            at: 0,
        };
        decode(&desc, &mut input).unwrap()
    };
    let mut sum = 0;
    if name.starts_with("json") {
        let value = read();
        sum = checksum(&value);
        for _ in 0..TIMES {
            let json = std::hint::black_box(to_json(&desc, &value));
            if name.starts_with("json-again") {
                sum = mixed(sum, checksum(&from_json(&desc, &json).unwrap()));
            }
        }
    } else if name.ends_with("read") {
        for _ in 0..TIMES {
            sum = mixed(sum, checksum(&read()));
        }
    } else {
        let value = read();
        for _ in 0..TIMES {
            let mut out = Output { octets: Vec::new() };
            encode(&desc, &value, &mut out).unwrap();
            sum = mixed(sum, u64::from(*out.octets.last().unwrap()));
            sum = mixed(sum, out.octets.len() as u64);
        }
    }
    println!("{sum}");
}
