//! The plain Rust twin of the loops `msg-..` of giop_bench.
use std::collections::BTreeMap;
use std::hint::black_box;

const MESSAGES: u32 = 100_000;
const OCTETS: usize = 67_108_864;
const TIMES: u32 = 10;

#[allow(dead_code)]
enum Desc {
    Boolean,
    Octet,
    UShort,
    Long,
    LongLong,
    Text(u32),
    Members(Vec<(Vec<u8>, Desc)>),
}

#[allow(dead_code)]
enum Value {
    Boolean(bool),
    Octet(u8),
    UShort(u16),
    Long(i32),
    LongLong(i64),
    Text(Vec<u8>),
    Choice(i128, Option<Box<Value>>),
    Members(Vec<Value>),
}

#[derive(Debug)]
#[allow(dead_code)]
enum Kind {
    Short,
    BadBoolean,
    BadCount,
    BadString,
    BadLabel,
    Trailing,
}

#[derive(Debug)]
#[allow(dead_code)]
struct Fault {
    at: usize,
    kind: Kind,
}

#[derive(Debug)]
#[allow(dead_code)]
enum RequestFault {
    Header(Fault),
    Operation,
    Body(Fault),
}

struct Operation {
    ins: Vec<(Vec<u8>, Desc)>,
}

#[allow(dead_code)]
enum Target {
    Key(Vec<u8>),
    Profile(u32, Vec<u8>),
    Reference(u32, Vec<u8>, Vec<(u32, Vec<u8>)>),
}

struct Request {
    id: u32,
    flags: u8,
    target: Target,
    operation: Vec<u8>,
    contexts: Vec<(u32, Vec<u8>)>,
    body: Vec<Value>,
}

// The octets of a message, of which the first has offset 12.
struct Input<'a> {
    octets: &'a [u8],
    at: usize,
}

impl Input<'_> {
    #[inline]
    fn align(&mut self, n: usize) {
        self.at = ((self.at + 12 + n - 1) & !(n - 1)) - 12;
    }

    #[inline]
    fn field<const N: usize>(&mut self) -> Result<[u8; N], Fault> {
        self.align(N);
        match self.octets.get(self.at..self.at + N) {
            Some(octets) => {
                self.at += N;
                Ok(octets.try_into().unwrap())
            }
            None => Err(self.fault(0, Kind::Short)),
        }
    }

    fn fault(&self, back: usize, kind: Kind) -> Fault {
        Fault {
            at: self.at + 12 - back,
            kind,
        }
    }

    fn ulong(&mut self) -> Result<u32, Fault> {
        Ok(u32::from_be_bytes(self.field()?))
    }

    fn count(&mut self) -> Result<usize, Fault> {
        let count = self.ulong()? as usize;
        if self.octets.len() - self.at < count {
            return Err(self.fault(4, Kind::BadCount));
        }
        Ok(count)
    }

    fn octets(&mut self) -> Result<Vec<u8>, Fault> {
        let count = self.count()?;
        let octets = self.octets[self.at..self.at + count].to_vec();
        self.at += count;
        Ok(octets)
    }

    fn text(&mut self) -> Result<Vec<u8>, Fault> {
        let count = self.count()?;
        let counted = &self.octets[self.at..self.at + count];
        let text = match counted.split_last() {
            None => counted,
            Some((0, text)) if !text.contains(&0) => text,
            _ => return Err(self.fault(4, Kind::BadString)),
        };
        self.at += count;
        Ok(text.to_vec())
    }

    fn tagged(&mut self) -> Result<Vec<(u32, Vec<u8>)>, Fault> {
        let count = self.count()?;
        let mut all = Vec::new();
        for _ in 0..count {
            let tag = self.ulong()?;
            all.push((tag, self.octets()?));
        }
        Ok(all)
    }

    fn target(&mut self) -> Result<Target, Fault> {
        Ok(match u16::from_be_bytes(self.field()?) {
            0 => Target::Key(self.octets()?),
            1 => Target::Profile(self.ulong()?, self.octets()?),
            2 => Target::Reference(self.ulong()?, self.text()?, self.tagged()?),
            _ => return Err(self.fault(2, Kind::BadLabel)),
        })
    }
}

fn decode_value(desc: &Desc, input: &mut Input) -> Result<Value, Fault> {
    Ok(match desc {
        Desc::Boolean => match input.field::<1>()? {
            [0] => Value::Boolean(false),
            [1] => Value::Boolean(true),
            _ => return Err(input.fault(1, Kind::BadBoolean)),
        },
        Desc::Octet => Value::Octet(u8::from_be_bytes(input.field()?)),
        Desc::UShort => Value::UShort(u16::from_be_bytes(input.field()?)),
        Desc::Long => Value::Long(i32::from_be_bytes(input.field()?)),
        Desc::LongLong => Value::LongLong(i64::from_be_bytes(input.field()?)),
        Desc::Text(_) => Value::Text(input.text()?),
        Desc::Members(members) => {
            let mut values = Vec::with_capacity(members.len());
            for (_, member) in members {
                values.push(decode_value(member, input)?);
            }
            Value::Members(values)
        }
    })
}

type Interface = BTreeMap<Vec<u8>, Operation>;

fn decode_body(operation: &Operation, input: &mut Input) -> Result<Vec<Value>, Fault> {
    input.align(8);
    let mut values = Vec::new();
    for (_, desc) in &operation.ins {
        values.push(decode_value(desc, input)?);
    }
    if input.at < input.octets.len() {
        return Err(input.fault(0, Kind::Trailing));
    }
    Ok(values)
}

fn decode_head(input: &mut Input) -> Result<Request, Fault> {
    let id = input.ulong()?;
    let [flags] = input.field::<1>()?;
    if !matches!(flags, 0 | 1 | 3) {
        return Err(input.fault(1, Kind::BadLabel));
    }
    for _ in 0..3 {
        input.field::<1>()?;
    }
    Ok(Request {
        id,
        flags,
        target: input.target()?,
        operation: input.text()?,
        contexts: input.tagged()?,
        body: Vec::new(),
    })
}

#[inline(never)]
fn decode(interface: &Interface, octets: &[u8]) -> Result<Request, RequestFault> {
    let mut input = Input { octets, at: 0 };
    let mut request = decode_head(&mut input).map_err(RequestFault::Header)?;
    let operation = interface.get(&request.operation).ok_or(RequestFault::Operation)?;
    request.body = decode_body(operation, &mut input).map_err(RequestFault::Body)?;
    Ok(request)
}

// What is written: the octets, in big-endian order from offset 12.
struct Output {
    octets: Vec<u8>,
}

#[derive(Debug)]
struct Unfit;

impl Output {
    #[inline]
    fn align(&mut self, n: usize) {
        let end = ((self.octets.len() + 12 + n - 1) & !(n - 1)) - 12;
        self.octets.resize(end, 0);
    }

    #[inline]
    fn field<const N: usize>(&mut self, field: [u8; N]) {
        self.align(N);
        self.octets.extend_from_slice(&field);
    }

    fn count(&mut self, count: usize) -> Result<(), Unfit> {
        self.field(u32::try_from(count).map_err(|_| Unfit)?.to_be_bytes());
        Ok(())
    }

    fn counted(&mut self, octets: &[u8]) -> Result<(), Unfit> {
        self.count(octets.len())?;
        self.octets.extend_from_slice(octets);
        Ok(())
    }

    fn text(&mut self, text: &[u8]) -> Result<(), Unfit> {
        if text.contains(&0) {
            return Err(Unfit);
        }
        self.count(text.len() + 1)?;
        self.octets.extend_from_slice(text);
        self.octets.push(0);
        Ok(())
    }

    fn tagged(&mut self, all: &[(u32, Vec<u8>)]) -> Result<(), Unfit> {
        self.count(all.len())?;
        for (tag, octets) in all {
            self.field(tag.to_be_bytes());
            self.counted(octets)?;
        }
        Ok(())
    }

    fn target(&mut self, target: &Target) -> Result<(), Unfit> {
        match target {
            Target::Key(key) => {
                self.field(0u16.to_be_bytes());
                self.counted(key)
            }
            Target::Profile(tag, octets) => {
                self.field(1u16.to_be_bytes());
                self.field(tag.to_be_bytes());
                self.counted(octets)
            }
            Target::Reference(index, id, profiles) => {
                self.field(2u16.to_be_bytes());
                self.field(index.to_be_bytes());
                self.text(id)?;
                self.tagged(profiles)
            }
        }
    }
}

fn encode_value(desc: &Desc, value: &Value, out: &mut Output) -> Result<(), Unfit> {
    match (desc, value) {
        (Desc::Boolean, Value::Boolean(b)) => out.field([u8::from(*b)]),
        (Desc::Octet, Value::Octet(n)) => out.field(n.to_be_bytes()),
        (Desc::UShort, Value::UShort(n)) => out.field(n.to_be_bytes()),
        (Desc::Long, Value::Long(n)) => out.field(n.to_be_bytes()),
        (Desc::LongLong, Value::LongLong(n)) => out.field(n.to_be_bytes()),
        (Desc::Text(_), Value::Text(text)) => out.text(text)?,
        (Desc::Members(members), Value::Members(values)) => {
            if members.len() != values.len() {
                return Err(Unfit);
            }
            for ((_, member), value) in members.iter().zip(values) {
                encode_value(member, value, out)?;
            }
        }
        _ => return Err(Unfit),
    }
    Ok(())
}

#[inline(never)]
fn encode(interface: &Interface, request: &Request) -> Result<Vec<u8>, Unfit> {
    let operation = interface.get(&request.operation).ok_or(Unfit)?;
    if !matches!(request.flags, 0 | 1 | 3) || operation.ins.len() != request.body.len() {
        return Err(Unfit);
    }
    let mut out = Output { octets: Vec::new() };
    out.field(request.id.to_be_bytes());
    out.field([request.flags]);
    out.octets.extend_from_slice(&[0; 3]);
    out.target(&request.target)?;
    out.text(&request.operation)?;
    out.tagged(&request.contexts)?;
    let end = out.octets.len();
    out.align(8);
    let padded = out.octets.len();
    for ((_, desc), value) in operation.ins.iter().zip(&request.body) {
        encode_value(desc, value, &mut out)?;
    }
    if out.octets.len() == padded {
        out.octets.truncate(end);
    }
    Ok(out.octets)
}

fn interface() -> Interface {
    let named = |name: &[u8], desc| (name.to_vec(), desc);
    let mut interface = BTreeMap::new();
    let ins = vec![named(b"a", Desc::Long), named(b"b", Desc::Long)];
    interface.insert(b"add".to_vec(), Operation { ins });
    let members = vec![
        named(b"a", Desc::Octet),
        named(b"b", Desc::LongLong),
        named(b"c", Desc::Text(0)),
        named(b"d", Desc::UShort),
        named(b"e", Desc::Boolean),
    ];
    let ins = vec![named(b"s", Desc::Members(members))];
    interface.insert(b"put".to_vec(), Operation { ins });
    interface
}

fn message(name: &str) -> Vec<u8> {
    let mut out = Output { octets: Vec::new() };
    out.octets.extend_from_slice(&[0, 0, 0, 4, 3, 0, 0, 0, 0, 0, 0, 0, 0, 0, 0, 1, 0x6B, 0, 0, 0]);
    out.text(if name == "add" { b"add" } else { b"put" }).unwrap();
    out.field([0u8; 4]);
    out.align(8);
    if name == "add" {
        out.field(2u32.to_be_bytes());
        out.field(5u32.to_be_bytes());
    } else {
        out.field([7]);
        out.field(9u64.to_be_bytes());
        out.text(b"a text of length").unwrap();
        out.field(9u16.to_be_bytes());
        out.field([1]);
    }
    out.octets
}

fn mixed(sum: u64, value: u64) -> u64 {
    sum.wrapping_mul(1_099_511_628_211) ^ value
}

fn leaf(value: &Value) -> u64 {
    match value {
        Value::Octet(n) => u64::from(*n),
        Value::LongLong(n) => u64::from(n.to_le_bytes()[0]),
        Value::Long(n) => u64::from(n.to_le_bytes()[0]),
        Value::UShort(n) => u64::from(*n),
        Value::Text(text) => text.len() as u64,
        _ => 1,
    }
}

fn checksum(sum: u64, request: &Request) -> u64 {
    let mut sum = mixed(sum, u64::from(request.id));
    sum = mixed(sum, request.operation.len() as u64);
    for value in &request.body {
        sum = match value {
            Value::Members(members) => members.iter().fold(sum, |sum, member| mixed(sum, leaf(member))),
            other => mixed(sum, leaf(other)),
        };
    }
    sum
}

fn read(name: &str) -> u64 {
    let (interface, octets) = (interface(), message(name));
    let mut sum = 0;
    for k in 0..MESSAGES * TIMES {
        sum = mixed(sum, u64::from(k));
        sum = checksum(sum, &decode(black_box(&interface), black_box(&octets)).unwrap());
    }
    sum
}

fn write(name: &str) -> u64 {
    let (interface, octets) = (interface(), message(name));
    let request = decode(&interface, &octets).unwrap();
    let mut sum = 0;
    for k in 0..MESSAGES * TIMES {
        sum = mixed(sum, u64::from(k));
        let written = encode(black_box(&interface), black_box(&request)).unwrap();
        sum = mixed(sum, u64::from(*written.last().unwrap()));
        sum = mixed(sum, written.len() as u64);
    }
    sum
}

fn octets() -> Vec<u8> {
    (0..OCTETS).map(|n| (n % 251) as u8).collect()
}

// The payloads of the messages that `cut` gives.
fn cut(joined: &[u8]) -> Vec<Vec<u8>> {
    let (first, rest) = joined.split_at(4096 - 12);
    let mut messages = vec![first.to_vec()];
    for part in rest.chunks(4096 - 16) {
        let mut payload = Vec::with_capacity(part.len() + 4);
        payload.extend_from_slice(&joined[..4]);
        payload.extend_from_slice(part);
        messages.push(payload);
    }
    messages
}

fn ends(sum: u64, messages: &[Vec<u8>]) -> u64 {
    let sum = mixed(sum, messages.len() as u64);
    messages.iter().fold(sum, |sum, message| mixed(sum, u64::from(*message.last().unwrap())))
}

fn cut_all() -> u64 {
    let joined = octets();
    (0..TIMES).fold(0, |sum, _| ends(sum, &cut(black_box(&joined))))
}

fn join_all() -> u64 {
    let messages = cut(&octets());
    let mut sum = 0;
    for _ in 0..TIMES {
        let mut joined = Vec::new();
        for (k, message) in black_box(&messages).iter().enumerate() {
            joined.extend_from_slice(if k == 0 { message } else { &message[4..] });
        }
        sum = mixed(sum, black_box(&joined).len() as u64);
    }
    sum
}

// 64 MB copied once, TIMES times.
fn copy_all() -> u64 {
    let joined = octets();
    (0..TIMES).fold(0, |sum, _| mixed(sum, black_box(black_box(&joined).to_vec()).len() as u64))
}

fn main() {
    let name = std::env::args().nth(1).unwrap();
    let sum = match name.as_str() {
        "cut" => cut_all(),
        "join" => join_all(),
        "copy" => copy_all(),
        name => match name.split_once('-') {
            Some((name, "read")) => read(name),
            Some((name, _)) => write(name),
            None => panic!("no such loop"),
        },
    };
    println!("{sum}");
}
