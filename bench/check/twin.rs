//! What `giopctl check --interface examples/calculator.json FILE` prints of a file of whole Requests,
//! in plain Rust, for bench/check/run to compare with.
use std::collections::BTreeMap;
use std::fmt::Write as _;
use std::fs::File;
use std::io::{self, BufWriter, Read, Write};

const MESSAGE_LIMIT: u32 = 1 << 20;
const CALLS_LIMIT: usize = 1024;
const READ: usize = 65_536;

#[derive(Clone, Copy)]
enum Desc {
    Long,
    Text,
    Longs,
}

enum Value {
    Long(i32),
    Text(Vec<u8>),
    Longs(Vec<i32>),
}

struct Operation {
    name: &'static [u8],
    ins: &'static [Desc],
}

const INTERFACE: [Operation; 4] = [
    Operation { name: b"add", ins: &[Desc::Long, Desc::Long] },
    Operation { name: b"list", ins: &[Desc::Longs] },
    Operation { name: b"ping", ins: &[] },
    Operation { name: b"tell", ins: &[Desc::Text] },
];

#[allow(dead_code)]
enum Target {
    Key(Vec<u8>),
    Profile(u32, Vec<u8>),
    Reference(u32, Vec<u8>, Vec<(u32, Vec<u8>)>),
}

#[allow(dead_code)]
struct Request {
    flags: u8,
    target: Target,
    operation: Vec<u8>,
    contexts: Vec<(u32, Vec<u8>)>,
    ins: Vec<Value>,
}

#[allow(dead_code)]
struct Fault {
    at: usize,
    kind: &'static str,
}

enum Undecoded {
    Header(Fault),
    Operation,
    Body(Fault),
}

enum Entry {
    Asked(Request),
    Delivered(Request),
    Undecoded(Undecoded),
}

// The joined octets of a message, of which the first has offset 12.
struct Input<'a> {
    octets: &'a [u8],
    at: usize,
    little: bool,
}

impl Input<'_> {
    fn fault(&self, back: usize, kind: &'static str) -> Fault {
        Fault { at: self.at + 12 - back, kind }
    }

    fn align(&mut self, n: usize) {
        self.at = ((self.at + 12 + n - 1) & !(n - 1)) - 12;
    }

    fn field<const N: usize>(&mut self) -> Result<[u8; N], Fault> {
        self.align(N);
        let field = self.octets.get(self.at..self.at + N).ok_or(Fault { at: self.at + 12, kind: "Short" })?;
        self.at += N;
        Ok(field.try_into().unwrap())
    }

    fn ulong(&mut self) -> Result<u32, Fault> {
        let field = self.field()?;
        Ok(if self.little { u32::from_le_bytes(field) } else { u32::from_be_bytes(field) })
    }

    fn ushort(&mut self) -> Result<u16, Fault> {
        let field = self.field()?;
        Ok(if self.little { u16::from_le_bytes(field) } else { u16::from_be_bytes(field) })
    }

    fn count(&mut self) -> Result<usize, Fault> {
        let count = self.ulong()? as usize;
        if self.octets.len() - self.at < count {
            return Err(self.fault(4, "BadCount"));
        }
        Ok(count)
    }

    fn octets(&mut self) -> Result<Vec<u8>, Fault> {
        let count = self.count()?;
        let octets = self.octets[self.at..self.at + count].to_vec();
        self.at += count;
        Ok(octets)
    }

    fn text(&mut self) -> Result<Vec<u8>, Fault> {
        let count = self.count()?;
        let counted = &self.octets[self.at..self.at + count];
        let text = match counted.split_last() {
            None => counted,
            Some((0, text)) if !text.contains(&0) => text,
            _ => return Err(self.fault(4, "BadString")),
        };
        self.at += count;
        Ok(text.to_vec())
    }

    fn tagged(&mut self) -> Result<Vec<(u32, Vec<u8>)>, Fault> {
        let count = self.count()?;
        let mut all = Vec::new();
        for _ in 0..count {
            let tag = self.ulong()?;
            all.push((tag, self.octets()?));
        }
        Ok(all)
    }

    fn target(&mut self) -> Result<Target, Fault> {
        Ok(match self.ushort()? {
            0 => Target::Key(self.octets()?),
            1 => Target::Profile(self.ulong()?, self.octets()?),
            2 => Target::Reference(self.ulong()?, self.text()?, self.tagged()?),
            _ => return Err(self.fault(2, "BadLabel")),
        })
    }

    fn value(&mut self, desc: Desc) -> Result<Value, Fault> {
        Ok(match desc {
            Desc::Long => Value::Long(self.ulong()? as i32),
            Desc::Text => Value::Text(self.text()?),
            Desc::Longs => {
                let count = self.count()?;
                let mut all = Vec::new();
                for _ in 0..count {
                    all.push(self.ulong()? as i32);
                }
                Value::Longs(all)
            }
        })
    }

    fn head(&mut self) -> Result<Request, Fault> {
        self.ulong()?;
        let [flags] = self.field::<1>()?;
        if !matches!(flags, 0 | 1 | 3) {
            return Err(self.fault(1, "BadLabel"));
        }
        for _ in 0..3 {
            self.field::<1>()?;
        }
        Ok(Request {
            flags,
            target: self.target()?,
            operation: self.text()?,
            contexts: self.tagged()?,
            ins: Vec::new(),
        })
    }

    fn ins(&mut self, operation: &Operation) -> Result<Vec<Value>, Fault> {
        if !operation.ins.is_empty() {
            self.align(8);
        }
        let mut values = Vec::new();
        for desc in operation.ins {
            values.push(self.value(*desc)?);
        }
        if self.at < self.octets.len() {
            return Err(self.fault(0, "Trailing"));
        }
        Ok(values)
    }
}

fn request(octets: &[u8], little: bool) -> Result<Request, Undecoded> {
    let mut input = Input { octets, at: 0, little };
    let mut request = input.head().map_err(Undecoded::Header)?;
    let found = INTERFACE.binary_search_by(|it| it.name.cmp(&request.operation));
    let operation = &INTERFACE[found.map_err(|_| Undecoded::Operation)?];
    request.ins = input.ins(operation).map_err(Undecoded::Body)?;
    Ok(request)
}

struct Header {
    little: bool,
    size: u32,
}

impl Header {
    // Judges a header of 1.2 that is to be one of a whole Request.
    fn judge(octets: &[u8]) -> Result<Header, &'static str> {
        if octets[..4] != *b"GIOP" {
            return Err("BadMagic");
        }
        if octets[4] != 1 || octets[5] != 2 {
            return Err("BadVersion");
        }
        if octets[6] > 1 {
            return Err("ReservedFlags");
        }
        if octets[7] != 0 {
            return Err("BadKind");
        }
        let little = octets[6] == 1;
        let size = octets[8..12].try_into().unwrap();
        let size = if little { u32::from_le_bytes(size) } else { u32::from_be_bytes(size) };
        if size > MESSAGE_LIMIT {
            return Err("TooLarge");
        }
        if size < 4 {
            return Err("BadSize");
        }
        Ok(Header { little, size })
    }
}

type Table = BTreeMap<u32, Entry>;

fn hear(table: &mut Table, header: &Header, payload: &[u8]) -> Result<(), &'static str> {
    let id = payload[..4].try_into().unwrap();
    let id = if header.little { u32::from_le_bytes(id) } else { u32::from_be_bytes(id) };
    match table.get(&id) {
        Some(Entry::Asked(_) | Entry::Undecoded(_)) => return Err("IdInUse"),
        None if table.len() >= CALLS_LIMIT => return Err("TooManyCalls"),
        _ => {}
    }
    let entry = match request(payload, header.little) {
        Ok(request) if request.flags == 0 => Entry::Delivered(request),
        Ok(request) => Entry::Asked(request),
        Err(fault) => Entry::Undecoded(fault),
    };
    table.insert(id, entry);
    Ok(())
}

// Hears the whole messages, and gives how many octets they are.
fn hear_all(table: &mut Table, unread: &[u8]) -> Result<usize, &'static str> {
    let mut at = 0;
    while unread.len() - at >= 12 {
        let header = Header::judge(&unread[at..at + 12])?;
        let end = at + 12 + header.size as usize;
        let Some(payload) = unread.get(at + 12..end) else {
            break;
        };
        hear(table, &header, payload)?;
        at = end;
    }
    Ok(at)
}

fn escaped(text: &[u8]) -> String {
    let mut line = String::new();
    for octet in text {
        match octet {
            b'%' | 0..=0x20 | 0x7f.. => write!(line, "%{octet:02X}").unwrap(),
            _ => line.push(char::from(*octet)),
        }
    }
    if line.is_empty() { "-".to_string() } else { line }
}

fn json(value: &Value) -> String {
    match value {
        Value::Long(n) => n.to_string(),
        Value::Text(text) => format!("{:?}", text.iter().map(|it| char::from(*it)).collect::<String>()),
        Value::Longs(all) => format!("[{}]", all.iter().map(i32::to_string).collect::<Vec<_>>().join(",")),
    }
}

fn line(out: &mut impl Write, id: u32, entry: &Entry) -> io::Result<()> {
    let (name, request) = match entry {
        Entry::Asked(request) => ("Asked", request),
        Entry::Delivered(request) => ("Delivered", request),
        Entry::Undecoded(Undecoded::Operation) => return writeln!(out, "{id} Undecoded operation"),
        Entry::Undecoded(Undecoded::Header(it)) => return writeln!(out, "{id} Undecoded header {} at {}", it.kind, it.at),
        Entry::Undecoded(Undecoded::Body(it)) => return writeln!(out, "{id} Undecoded body {} at {}", it.kind, it.at),
    };
    let ins: Vec<String> = request.ins.iter().map(json).collect();
    writeln!(out, "{id} {name} {} [{}]", escaped(&request.operation), ins.join(","))
}

fn main() -> io::Result<()> {
    let mut file = File::open(std::env::args().nth(1).expect("a file"))?;
    let mut table = Table::new();
    let mut unread = Vec::new();
    let mut buffer = vec![0; READ];
    let mut heard = Ok(0);
    while heard.is_ok() {
        let n = file.read(&mut buffer)?;
        if n == 0 {
            break;
        }
        unread.extend_from_slice(&buffer[..n]);
        heard = hear_all(&mut table, &unread);
        if let Ok(n) = heard {
            unread.drain(..n);
        }
    }
    let mut out = BufWriter::new(io::stdout().lock());
    for (id, entry) in &table {
        line(&mut out, *id, entry)?;
    }
    match heard {
        Ok(_) => writeln!(out, "rest {}", unread.len()),
        Err(fault) => writeln!(out, "fault {fault}"),
    }
}
