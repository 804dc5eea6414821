//! The plain Rust twin of the loops `ior-..` of giop_bench.
const PROFILES: u32 = 1_000;
const ADDRESSES: u32 = 10_000;
const TIMES: u32 = 100;

#[derive(Debug)]
#[allow(dead_code)]
enum Kind {
    Short,
    BadCount,
    BadString,
    BadLabel,
    BadOrder,
    BadPrefix,
    BadHex,
}

#[derive(Debug)]
#[allow(dead_code)]
struct Fault {
    at: usize,
    kind: Kind,
}

#[allow(dead_code)]
struct Tagged {
    tag: u32,
    octets: Vec<u8>,
}

struct Ior {
    type_id: Vec<u8>,
    profiles: Vec<Tagged>,
}

#[allow(dead_code)]
struct Profile {
    major: u8,
    minor: u8,
    host: Vec<u8>,
    port: u16,
    key: Vec<u8>,
    components: Vec<Tagged>,
}

// ---- reading octets

struct Input<'a> {
    octets: &'a [u8],
    at: usize,
    little: bool,
}

impl<'a> Input<'a> {
    // Of an encapsulation: the offsets count from its byte order.
    fn open(octets: &'a [u8]) -> Result<Input<'a>, Fault> {
        let little = match octets.first() {
            Some(0) => false,
            Some(1) => true,
            Some(_) => return Err(Fault { at: 0, kind: Kind::BadOrder }),
            None => return Err(Fault { at: 0, kind: Kind::Short }),
        };
        Ok(Input { octets, at: 1, little })
    }

    fn field<const N: usize>(&mut self) -> Result<[u8; N], Fault> {
        let at = self.at + (self.at.wrapping_neg() & (N - 1));
        match self.octets.get(at..at + N) {
            Some(octets) => {
                self.at = at + N;
                Ok(octets.try_into().unwrap())
            }
            None => Err(Fault { at, kind: Kind::Short }),
        }
    }

    fn octet(&mut self) -> Result<u8, Fault> {
        Ok(self.field::<1>()?[0])
    }

    fn ushort(&mut self) -> Result<u16, Fault> {
        let octets = self.field()?;
        Ok(if self.little { u16::from_le_bytes(octets) } else { u16::from_be_bytes(octets) })
    }

    fn ulong(&mut self) -> Result<u32, Fault> {
        let octets = self.field()?;
        Ok(if self.little { u32::from_le_bytes(octets) } else { u32::from_be_bytes(octets) })
    }

    fn counted(&mut self) -> Result<&'a [u8], Fault> {
        let count = self.ulong()? as usize;
        let at = self.at - 4;
        match self.octets.get(self.at..self.at + count) {
            Some(octets) => {
                self.at += count;
                Ok(octets)
            }
            None => Err(Fault { at, kind: Kind::BadCount }),
        }
    }

    fn text(&mut self) -> Result<Vec<u8>, Fault> {
        let at = self.at;
        match self.counted()?.split_last() {
            None => Ok(Vec::new()),
            Some((0, text)) if !text.contains(&0) => Ok(text.to_vec()),
            _ => Err(Fault { at, kind: Kind::BadString }),
        }
    }

    fn tagged(&mut self) -> Result<Vec<Tagged>, Fault> {
        let count = self.ulong()? as usize;
        if self.octets.len() - self.at < count {
            return Err(Fault { at: self.at - 4, kind: Kind::BadCount });
        }
        let mut list = Vec::new();
        for _ in 0..count {
            let tag = self.ulong()?;
            list.push(Tagged { tag, octets: self.counted()?.to_vec() });
        }
        Ok(list)
    }
}

fn view(octets: &[u8]) -> Result<Profile, Fault> {
    let mut input = Input::open(octets)?;
    let major = input.octet()?;
    if major != 1 {
        return Err(Fault { at: 1, kind: Kind::BadLabel });
    }
    let minor = input.octet()?;
    Ok(Profile {
        major,
        minor,
        host: input.text()?,
        port: input.ushort()?,
        key: input.counted()?.to_vec(),
        components: if minor == 0 { Vec::new() } else { input.tagged()? },
    })
}

fn digit(octet: u8) -> Option<u8> {
    match octet {
        b'0'..=b'9' => Some(octet - b'0'),
        b'a'..=b'f' => Some(octet - b'a' + 10),
        b'A'..=b'F' => Some(octet - b'A' + 10),
        _ => None,
    }
}

fn decoded(digits: &[u8]) -> Option<Vec<u8>> {
    if digits.len() % 2 != 0 {
        return None;
    }
    digits.chunks_exact(2).map(|pair| Some(digit(pair[0])? << 4 | digit(pair[1])?)).collect()
}

fn ior_from_text(text: &[u8]) -> Result<Ior, Fault> {
    let prefix = text.get(..4).filter(|prefix| prefix.eq_ignore_ascii_case(b"IOR:"));
    if prefix.is_none() {
        return Err(Fault { at: 0, kind: Kind::BadPrefix });
    }
    let octets = decoded(&text[4..]).ok_or(Fault { at: 0, kind: Kind::BadHex })?;
    let mut input = Input::open(&octets)?;
    Ok(Ior { type_id: input.text()?, profiles: input.tagged()? })
}

// ---- writing octets

fn align(out: &mut Vec<u8>, to: usize) {
    while out.len() % to != 0 {
        out.push(0);
    }
}

fn put_ulong(out: &mut Vec<u8>, value: u32) {
    align(out, 4);
    out.extend_from_slice(&value.to_be_bytes());
}

fn put_counted(out: &mut Vec<u8>, octets: &[u8]) {
    put_ulong(out, octets.len() as u32);
    out.extend_from_slice(octets);
}

fn put_text(out: &mut Vec<u8>, text: &[u8]) {
    put_ulong(out, text.len() as u32 + 1);
    out.extend_from_slice(text);
    out.push(0);
}

fn put_tagged(out: &mut Vec<u8>, list: &[Tagged]) {
    put_ulong(out, list.len() as u32);
    for one in list {
        put_ulong(out, one.tag);
        put_counted(out, &one.octets);
    }
}

fn ior_to_text(ior: &Ior) -> Vec<u8> {
    let mut out = vec![0];
    put_text(&mut out, &ior.type_id);
    put_tagged(&mut out, &ior.profiles);
    let mut text = Vec::with_capacity(4 + 2 * out.len());
    text.extend_from_slice(b"IOR:");
    for octet in out {
        text.push(b"0123456789abcdef"[usize::from(octet >> 4)]);
        text.push(b"0123456789abcdef"[usize::from(octet & 15)]);
    }
    text
}

fn profile() -> Tagged {
    let mut out = vec![0, 1, 2];
    put_text(&mut out, b"printer.example");
    align(&mut out, 2);
    out.extend_from_slice(&2809u16.to_be_bytes());
    put_counted(&mut out, b"the key");
    put_tagged(&mut out, &[Tagged { tag: 1, octets: vec![7; 440] }]);
    Tagged { tag: 0, octets: out }
}

fn mixed(sum: u64, value: u64) -> u64 {
    sum.rotate_left(5) ^ value
}

fn viewed(profile: &Tagged) -> u64 {
    if profile.tag != 0 {
        return 1;
    }
    let Ok(view) = view(&profile.octets) else {
        return 2;
    };
    let sum = mixed(u64::from(view.port), view.host.len() as u64);
    mixed(mixed(sum, view.key.len() as u64), view.components.len() as u64)
}

fn converted(text: &[u8]) -> u64 {
    let ior = ior_from_text(text).unwrap();
    let mut sum = ior.type_id.len() as u64;
    for profile in &ior.profiles {
        sum = mixed(sum, viewed(profile));
    }
    let again = ior_to_text(&ior);
    mixed(mixed(sum, again.len() as u64), u64::from(*again.last().unwrap()))
}

// ---- corbaloc

struct Address {
    minor: u8,
    host: Vec<u8>,
    port: u16,
}

struct Corbaloc {
    addresses: Vec<Address>,
    key: Vec<u8>,
}

fn cut(octet: u8, text: &[u8]) -> Option<(&[u8], &[u8])> {
    let i = text.iter().position(|x| *x == octet)?;
    Some((&text[..i], &text[i + 1..]))
}

fn number(most: usize, text: &[u8]) -> Option<u32> {
    if text.is_empty() || text.len() > most || !text.iter().all(u8::is_ascii_digit) {
        return None;
    }
    Some(text.iter().fold(0, |n, digit| n * 10 + u32::from(digit - b'0')))
}

fn version(text: &[u8]) -> Option<u8> {
    let (major, minor) = cut(b'.', text)?;
    if number(3, major)? != 1 {
        return None;
    }
    u8::try_from(number(3, minor)?).ok()
}

fn address(text: &[u8]) -> Option<Address> {
    let text = text.strip_prefix(b":").or_else(|| text.strip_prefix(b"iiop:"))?;
    let (minor, text) = match cut(b'@', text) {
        Some((before, text)) => (version(before)?, text),
        None => (0, text),
    };
    let (host, port) = match cut(b':', text) {
        Some((host, port)) => (host, u16::try_from(number(5, port)?).ok()?),
        None => (text, 2809),
    };
    let good = |octet: &u8| octet.is_ascii_alphanumeric() || b"-_.".contains(octet);
    if host.is_empty() || !host.iter().all(good) {
        return None;
    }
    Some(Address { minor, host: host.to_vec(), port })
}

fn key(text: &[u8]) -> Option<Vec<u8>> {
    let mut key = Vec::new();
    let mut rest = text;
    while let Some((octet, more)) = rest.split_first() {
        if octet.is_ascii_alphanumeric() || b";/:?@&=+$,-_.!~*'()".contains(octet) {
            key.push(*octet);
            rest = more;
        } else if let [high, low, more @ ..] = more {
            key.push(digit(*high)? << 4 | digit(*low)?);
            rest = more;
        } else {
            return None;
        }
    }
    Some(key)
}

fn corbaloc_from_text(text: &[u8]) -> Option<Corbaloc> {
    let body = text.strip_prefix(b"corbaloc:")?;
    let (list, escaped) = cut(b'/', body).unwrap_or((body, b""));
    let mut addresses = Vec::new();
    for one in list.split(|octet| *octet == b',') {
        addresses.push(address(one)?);
    }
    Some(Corbaloc { addresses, key: key(escaped)? })
}

fn corbaloc_text(count: u32) -> Vec<u8> {
    let list: Vec<String> = (0..count).map(|i| format!("iiop:1.2@printer{i}.example:2809")).collect();
    format!("corbaloc:{}/the%20key", list.join(",")).into_bytes()
}

fn read(text: &[u8]) -> u64 {
    let corbaloc = corbaloc_from_text(text).unwrap();
    let mut sum = corbaloc.key.len() as u64;
    for address in &corbaloc.addresses {
        sum = mixed(sum, u64::from(address.minor) ^ u64::from(address.port));
        sum = mixed(sum, address.host.len() as u64);
    }
    sum
}

fn main() {
    let name = std::env::args().nth(1).unwrap();
    let count = if name.ends_with("-10") { 10 } else { 1 };
    let is_reference = name.starts_with("text");
    let text = if is_reference {
        let profiles = (0..count * PROFILES).map(|_| profile()).collect();
        ior_to_text(&Ior { type_id: b"IDL:Printer:1.0".to_vec(), profiles })
    } else {
        corbaloc_text(count * ADDRESSES)
    };
    let mut sum = 0;
    for _ in 0..TIMES / count {
        sum = mixed(sum, if is_reference { converted(&text) } else { read(&text) });
    }
    println!("{sum}");
}
