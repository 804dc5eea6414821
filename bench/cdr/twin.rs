//! The plain Rust twin of the loops `read` and `write` of giop_bench.
use std::env;
use std::hint::black_box;

const ULONGS: u32 = 1_000_000;
const STRINGS: u32 = 100_000;
const OCTETS: [u8; 4096] = [7; 4096];
const PIECES: u32 = 256;
const GROUPS: u32 = 100_000;

#[derive(Clone, Copy)]
enum Order {
    Big,
    Little,
}

#[derive(Debug)]
enum Kind {
    Short,
    BadBoolean,
    BadString,
    BadCount,
    BoundPassed,
}

#[derive(Debug)]
#[allow(dead_code)]
struct Fault {
    at: usize,
    kind: Kind,
}

struct Input<'a> {
    octets: &'a [u8],
    at: usize,
    order: Order,
}

macro_rules! read_number {
    ($name:ident, $number:ty) => {
        #[inline]
        fn $name(&mut self) -> Result<$number, Fault> {
            let octets = self.field()?;
            Ok(match self.order {
                Order::Big => <$number>::from_be_bytes(octets),
                Order::Little => <$number>::from_le_bytes(octets),
            })
        }
    };
}

impl<'a> Input<'a> {
    #[inline]
    fn field<const N: usize>(&mut self) -> Result<[u8; N], Fault> {
        let at = self.at + (self.at.wrapping_neg() & (N - 1));
        match self.octets.get(at..at + N) {
            Some(octets) => {
                self.at = at + N;
                Ok(octets.try_into().unwrap())
            }
            None => Err(Fault {
                at,
                kind: Kind::Short,
            }),
        }
    }

    read_number!(octet, u8);
    read_number!(short, i16);
    read_number!(ushort, u16);
    read_number!(long, i32);
    read_number!(ulong, u32);
    read_number!(longlong, i64);
    read_number!(ulonglong, u64);

    #[inline]
    fn boolean(&mut self) -> Result<bool, Fault> {
        let at = self.at;
        match self.octet()? {
            0 => Ok(false),
            1 => Ok(true),
            _ => {
                self.at = at;
                Err(Fault {
                    at,
                    kind: Kind::BadBoolean,
                })
            }
        }
    }

    // The octets that a length counts, and the reader behind them.
    fn counted(&mut self) -> Result<&'a [u8], Fault> {
        let before = self.at;
        let count = self.ulong()? as usize;
        let start = self.at;
        let octets = self.octets;
        match octets[start..].get(..count) {
            Some(counted) => {
                self.at = start + count;
                Ok(counted)
            }
            None => {
                self.at = before;
                Err(Fault {
                    at: start - 4,
                    kind: Kind::BadCount,
                })
            }
        }
    }

    fn read_octets(&mut self, bound: u32) -> Result<Vec<u8>, Fault> {
        let before = self.at;
        let counted = self.counted()?;
        if bound != 0 && (bound as usize) < counted.len() {
            let at = self.at - counted.len() - 4;
            self.at = before;
            return Err(Fault {
                at,
                kind: Kind::BoundPassed,
            });
        }
        Ok(counted.to_vec())
    }

    fn read_string(&mut self, bound: u32) -> Result<Vec<u8>, Fault> {
        let before = self.at;
        let counted = self.counted()?;
        let kind = match counted.split_last() {
            None => return Ok(Vec::new()),
            Some((0, text)) if !text.contains(&0) => {
                if bound == 0 || text.len() <= bound as usize {
                    return Ok(text.to_vec());
                }
                Kind::BoundPassed
            }
            _ => Kind::BadString,
        };
        let at = self.at - counted.len() - 4;
        self.at = before;
        Err(Fault { at, kind })
    }
}

struct Output {
    octets: Vec<u8>,
    order: Order,
}

macro_rules! write_number {
    ($name:ident, $number:ty) => {
        #[inline]
        fn $name(&mut self, value: $number) {
            let field = match self.order {
                Order::Big => value.to_be_bytes(),
                Order::Little => value.to_le_bytes(),
            };
            self.field(field);
        }
    };
}

impl Output {
    #[inline]
    fn field<const N: usize>(&mut self, field: [u8; N]) {
        let pad = self.octets.len().wrapping_neg() & (N - 1);
        if pad != 0 {
            self.octets.extend_from_slice(&[0; 8][..pad]);
        }
        self.octets.extend_from_slice(&field);
    }

    write_number!(octet, u8);
    write_number!(short, i16);
    write_number!(ushort, u16);
    write_number!(long, i32);
    write_number!(ulong, u32);
    write_number!(longlong, i64);
    write_number!(ulonglong, u64);

    #[inline]
    fn boolean(&mut self, value: bool) {
        self.octet(u8::from(value));
    }

    // In a library, which has its callers in other crates, these two aren't inlined, and no length is
    // known.
    #[inline(never)]
    fn write_octets(&mut self, octets: &[u8]) {
        self.octets.reserve(16 + octets.len());
        self.ulong(octets.len() as u32);
        self.octets.extend_from_slice(octets);
    }

    #[inline(never)]
    fn write_string(&mut self, text: &[u8]) {
        self.octets.reserve(16 + text.len());
        self.ulong(text.len() as u32 + 1);
        self.octets.extend_from_slice(text);
        self.octets.push(0);
    }
}

fn mixed(sum: u64, value: u64) -> u64 {
    sum.rotate_left(5) ^ value
}

fn narrow_out(out: &mut Output, i: u32) {
    out.boolean(i % 2 == 1);
    out.octet(200);
    out.short(-2);
    out.octet(b'x');
    out.ushort(50_000);
}

fn wide_out(out: &mut Output, i: u32) {
    out.long(-3);
    out.ulong(i);
    out.longlong(-4);
    out.ulonglong(u64::from(i));
}

fn message(values: &str, order: Order) -> Vec<u8> {
    let mut out = Output {
        octets: Vec::new(),
        order,
    };
    match values {
        "ulong" => (0..ULONGS).for_each(|i| out.ulong(i.rotate_left(7) ^ 0x9E37_79B1)),
        "string" => (0..STRINGS).for_each(|_| out.write_string(black_box(b"a text of length"))),
        "octets" => (0..PIECES).for_each(|_| out.write_octets(black_box(&OCTETS))),
        _ => (0..GROUPS).for_each(|i| {
            narrow_out(&mut out, i);
            wide_out(&mut out, i);
        }),
    }
    out.octets
}

fn write(values: &str, order: Order, times: u32) -> u64 {
    let mut sum = 0;
    for _ in 0..times {
        let message = message(values, order);
        sum = mixed(sum, message.len() as u64);
        sum = mixed(sum, message.last().map_or(0, |&octet| u64::from(octet)));
    }
    sum
}

#[inline(never)]
fn ulongs(input: &mut Input) -> Result<u64, Fault> {
    let mut sum = 0;
    for _ in 0..ULONGS {
        sum = mixed(sum, u64::from(input.ulong()?));
    }
    Ok(sum)
}

#[inline(never)]
fn strings(input: &mut Input) -> Result<u64, Fault> {
    let mut sum = 0;
    for _ in 0..STRINGS {
        // (a copy that nothing looks at would be left out)
        let text = black_box(input.read_string(0)?);
        sum = mixed(sum, text.len() as u64);
    }
    Ok(sum)
}

#[inline(never)]
fn octets(input: &mut Input) -> Result<u64, Fault> {
    let mut sum = 0;
    for _ in 0..PIECES {
        let octets = black_box(input.read_octets(0)?);
        sum = mixed(sum, octets.len() as u64);
    }
    Ok(sum)
}

fn narrow(input: &mut Input, sum: u64) -> Result<u64, Fault> {
    let sum = mixed(sum, u64::from(input.boolean()?));
    let sum = mixed(sum, u64::from(input.octet()?));
    let sum = mixed(sum, u64::from(input.short()?.to_le_bytes()[0]));
    let sum = mixed(sum, u64::from(input.octet()?));
    Ok(mixed(sum, u64::from(input.ushort()?)))
}

fn wide(input: &mut Input, sum: u64) -> Result<u64, Fault> {
    let sum = mixed(sum, u64::from(input.long()?.to_le_bytes()[0]));
    let sum = mixed(sum, u64::from(input.ulong()?));
    let sum = mixed(sum, u64::from(input.longlong()?.to_le_bytes()[0]));
    Ok(mixed(sum, input.ulonglong()?))
}

#[inline(never)]
fn widths(input: &mut Input) -> Result<u64, Fault> {
    let mut sum = 0;
    for _ in 0..GROUPS {
        sum = narrow(input, sum)?;
        sum = wide(input, sum)?;
    }
    Ok(sum)
}

fn read(values: &str, order: Order, times: u32) -> Result<u64, Fault> {
    let message = message(values, order);
    let mut sum = 0;
    for _ in 0..times {
        let mut input = Input {
            octets: &message,
            at: 0,
            order,
        };
        let read = match values {
            "ulong" => ulongs(&mut input)?,
            "string" => strings(&mut input)?,
            "octets" => octets(&mut input)?,
            _ => widths(&mut input)?,
        };
        sum = mixed(sum, read);
    }
    Ok(sum)
}

fn main() {
    let words: Vec<String> = env::args().collect();
    let parts: Vec<&str> = words[1].split('-').collect();
    let times = words[2].parse().unwrap();
    let order = match parts[2] {
        "big" => Order::Big,
        _ => Order::Little,
    };
    let sum = match parts[0] {
        "read" => read(parts[1], order, times).unwrap(),
        _ => write(parts[1], order, times),
    };
    println!("{sum}");
}
