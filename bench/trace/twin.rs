//! What `giopctl trace --interface examples/calculator.json CLIENT SERVER` prints of two files of
//! whole Requests and Replies of 1.2, in plain Rust, for bench/trace/run to compare with.
use std::collections::BTreeMap;
use std::fmt::{self, Write as _};
use std::fs::File;
use std::io::{self, BufWriter, Read, Write};
use std::process::ExitCode;

const LIMIT: u32 = 1 << 20;
const READ: usize = 65_536;

#[derive(Clone, Copy)]
enum Desc {
    Long,
    Text,
    Longs,
}

enum Value {
    Long(i32),
    Text(Vec<u8>),
    Longs(Vec<i32>),
}

struct Operation {
    name: &'static [u8],
    ins: &'static [Desc],
    outs: &'static [Desc],
}

const INTERFACE: [Operation; 4] = [
    Operation { name: b"add", ins: &[Desc::Long, Desc::Long], outs: &[Desc::Long] },
    Operation { name: b"list", ins: &[Desc::Longs], outs: &[] },
    Operation { name: b"ping", ins: &[], outs: &[] },
    Operation { name: b"tell", ins: &[Desc::Text], outs: &[] },
];

#[derive(Clone, Copy)]
struct Fault(u32, &'static str, usize);

impl fmt::Display for Fault {
    fn fmt(&self, f: &mut fmt::Formatter) -> fmt::Result {
        write!(f, "{} {} at {}", self.0, self.1, self.2)
    }
}

enum Target {
    Key(Vec<u8>),
    Profile(u32),
    Reference(u32),
}

// A decoded Request.
struct Request {
    flags: u8,
    target: Target,
    name: Vec<u8>,
    operation: &'static Operation,
    ins: Vec<Value>,
}

enum Undecoded {
    Header(Fault),
    Operation,
    Body(Fault),
}

enum Reply {
    Result(Vec<Value>),
    System(Vec<u8>, u32, u32),
    Undecoded(Fault),
}

// A whole message.
struct Message {
    kind: u8,
    little: bool,
    payload: Vec<u8>,
}

fn number(octets: &[u8], little: bool) -> u32 {
    let field = octets[..4].try_into().unwrap();
    if little { u32::from_le_bytes(field) } else { u32::from_be_bytes(field) }
}

impl Message {
    fn id(&self) -> u32 {
        number(&self.payload, self.little)
    }

    fn input(&self) -> Input<'_> {
        Input { octets: &self.payload, at: 0, little: self.little }
    }
}

// The joined octets of a message, of which the first has offset 12.
struct Input<'a> {
    octets: &'a [u8],
    at: usize,
    little: bool,
}

impl<'a> Input<'a> {
    fn fault(&self, back: usize, number: u32, name: &'static str) -> Fault {
        Fault(number, name, self.at + 12 - back)
    }

    fn align(&mut self, n: usize) {
        self.at = (self.at + 12).next_multiple_of(n) - 12;
    }

    fn field<const N: usize>(&mut self) -> Result<[u8; N], Fault> {
        self.align(N);
        let field = self.octets.get(self.at..self.at + N).ok_or(self.fault(0, 1, "Short"))?;
        self.at += N;
        Ok(field.try_into().unwrap())
    }

    fn ulong(&mut self) -> Result<u32, Fault> {
        let field = self.field()?;
        Ok(if self.little { u32::from_le_bytes(field) } else { u32::from_be_bytes(field) })
    }

    fn ushort(&mut self) -> Result<u16, Fault> {
        let field = self.field()?;
        Ok(if self.little { u16::from_le_bytes(field) } else { u16::from_be_bytes(field) })
    }

    fn count(&mut self) -> Result<usize, Fault> {
        let count = self.ulong()? as usize;
        if self.octets.len() - self.at < count {
            return Err(self.fault(4, 4, "BadCount"));
        }
        Ok(count)
    }

    fn octets(&mut self) -> Result<Vec<u8>, Fault> {
        let count = self.count()?;
        let octets = self.octets[self.at..self.at + count].to_vec();
        self.at += count;
        Ok(octets)
    }

    fn text(&mut self) -> Result<Vec<u8>, Fault> {
        let count = self.count()?;
        let counted = &self.octets[self.at..self.at + count];
        let text = match counted.split_last() {
            None => counted,
            Some((0, text)) if !text.contains(&0) => text,
            _ => return Err(self.fault(4, 3, "BadString")),
        };
        self.at += count;
        Ok(text.to_vec())
    }

    fn tagged(&mut self) -> Result<Vec<(u32, Vec<u8>)>, Fault> {
        let count = self.count()?;
        let mut all = Vec::new();
        for _ in 0..count {
            let tag = self.ulong()?;
            all.push((tag, self.octets()?));
        }
        Ok(all)
    }

    fn target(&mut self) -> Result<Target, Fault> {
        Ok(match self.ushort()? {
            0 => Target::Key(self.octets()?),
            1 => {
                let tag = self.ulong()?;
                self.octets()?;
                Target::Profile(tag)
            }
            2 => {
                let index = self.ulong()?;
                self.text()?;
                self.tagged()?;
                Target::Reference(index)
            }
            _ => return Err(self.fault(2, 5, "BadLabel")),
        })
    }

    fn flags(&mut self) -> Result<u8, Fault> {
        self.ulong()?;
        let [flags] = self.field::<1>()?;
        if !matches!(flags, 0 | 1 | 3) {
            return Err(self.fault(1, 5, "BadLabel"));
        }
        self.field::<1>()?;
        self.field::<1>()?;
        self.field::<1>()?;
        Ok(flags)
    }

    fn value(&mut self, desc: Desc) -> Result<Value, Fault> {
        Ok(match desc {
            Desc::Long => Value::Long(self.ulong()? as i32),
            Desc::Text => Value::Text(self.text()?),
            Desc::Longs => {
                let count = self.count()?;
                let mut all = Vec::new();
                for _ in 0..count {
                    all.push(self.ulong()? as i32);
                }
                Value::Longs(all)
            }
        })
    }

    // The values of a body, behind which nothing stands.
    fn values(&mut self, descs: &[Desc]) -> Result<Vec<Value>, Fault> {
        if !descs.is_empty() {
            self.align(8);
        }
        let mut values = Vec::new();
        for desc in descs {
            values.push(self.value(*desc)?);
        }
        self.end(values)
    }

    fn end<T>(&self, value: T) -> Result<T, Fault> {
        if self.at < self.octets.len() {
            return Err(self.fault(0, 8, "Trailing"));
        }
        Ok(value)
    }
}

// Whether a Request expects no reply.
fn is_oneway(message: &Message) -> bool {
    message.kind == 0 && matches!(message.input().flags(), Ok(0))
}

fn request(message: &Message) -> Result<Request, Undecoded> {
    let mut input = message.input();
    let head = |input: &mut Input| {
        let flags = input.flags()?;
        let target = input.target()?;
        let name = input.text()?;
        input.tagged()?;
        Ok((flags, target, name))
    };
    let (flags, target, name) = head(&mut input).map_err(Undecoded::Header)?;
    let found = INTERFACE.binary_search_by(|it| it.name.cmp(&name));
    let operation = &INTERFACE[found.map_err(|_| Undecoded::Operation)?];
    let ins = input.values(operation.ins).map_err(Undecoded::Body)?;
    Ok(Request { flags, target, name, operation, ins })
}

// A Reply that brings a result or a system exception, to a Request that was decoded.
fn reply(request: &Request, message: &Message) -> Reply {
    let mut input = message.input();
    let mut read = || {
        input.ulong()?;
        let status = input.ulong()?;
        input.tagged()?;
        match status {
            0 if request.flags == 3 => Ok(Reply::Result(input.values(request.operation.outs)?)),
            0 => Ok(Reply::Result(input.end(Vec::new())?)),
            2 => {
                input.align(8);
                let (id, minor, completion) = (input.text()?, input.ulong()?, input.ulong()?);
                input.end(Reply::System(id, minor, completion))
            }
            _ => Err(input.fault(4, 5, "BadLabel")),
        }
    };
    read().unwrap_or_else(Reply::Undecoded)
}

struct Header {
    kind: u8,
    little: bool,
    size: u32,
}

impl Header {
    // Judges a header of 1.2 that is to be one of a whole Request or Reply.
    fn judge(octets: &[u8]) -> Result<Header, Fault> {
        if let Some(at) = (0..4).find(|at| octets[*at] != b"GIOP"[*at]) {
            return Err(Fault(1, "BadMagic", at));
        }
        if octets[4] != 1 || octets[5] != 2 {
            return Err(Fault(2, "BadVersion", if octets[4] != 1 { 4 } else { 5 }));
        }
        if octets[6] > 1 {
            return Err(Fault(3, "ReservedFlags", 6));
        }
        if octets[7] > 1 {
            return Err(Fault(4, "BadKind", 7));
        }
        let little = octets[6] == 1;
        let size = number(&octets[8..], little);
        if size > LIMIT {
            return Err(Fault(5, "TooLarge", 8));
        }
        if size < 4 {
            return Err(Fault(6, "BadSize", 8));
        }
        Ok(Header { kind: octets[7], little, size })
    }
}

// What one direction sent.
struct Incoming {
    file: File,
    buffer: Vec<u8>,
    unread: Vec<u8>,
    at: usize,
    fault: Option<Fault>,
}

impl Incoming {
    fn open(path: &str) -> io::Result<Incoming> {
        let file = File::open(path)?;
        Ok(Incoming { file, buffer: vec![0; READ], unread: Vec::new(), at: 0, fault: None })
    }

    // The message that is there whole.
    fn framed(&mut self) -> Result<Option<Message>, Fault> {
        let rest = &self.unread[self.at..];
        if rest.len() < 12 {
            return Ok(None);
        }
        let Header { kind, little, size } = Header::judge(&rest[..12])?;
        let end = 12 + size as usize;
        let Some(payload) = rest.get(12..end) else {
            return Ok(None);
        };
        self.at += end;
        Ok(Some(Message { kind, little, payload: payload.to_vec() }))
    }

    fn next(&mut self, out: &mut impl Write) -> io::Result<Option<Message>> {
        loop {
            match self.framed() {
                Ok(Some(message)) => return Ok(Some(message)),
                Ok(None) => {}
                Err(fault) => {
                    self.fault = Some(fault);
                    return Ok(None);
                }
            }
            out.flush()?;
            let n = self.file.read(&mut self.buffer)?;
            if n == 0 {
                return Ok(None);
            }
            self.unread.drain(..self.at);
            self.at = 0;
            self.unread.extend_from_slice(&self.buffer[..n]);
        }
    }

    fn write_end(&self, name: &str, out: &mut impl Write) -> io::Result<bool> {
        let rest = self.unread.len() - self.at;
        match self.fault {
            Some(fault) => writeln!(out, "{name} fault {fault}")?,
            None => writeln!(out, "{name} rest {rest}")?,
        }
        Ok(self.fault.is_none() && rest == 0)
    }
}

struct Hex<'a>(&'a [u8]);

impl fmt::Display for Hex<'_> {
    fn fmt(&self, f: &mut fmt::Formatter) -> fmt::Result {
        if self.0.is_empty() {
            return f.write_str("-");
        }
        self.0.iter().try_for_each(|octet| write!(f, "{octet:02x}"))
    }
}

struct Escaped<'a>(&'a [u8]);

impl fmt::Display for Escaped<'_> {
    fn fmt(&self, f: &mut fmt::Formatter) -> fmt::Result {
        if self.0.is_empty() {
            return f.write_str("-");
        }
        self.0.iter().try_for_each(|octet| match octet {
            b'!'..=b'~' if *octet != b'%' => f.write_char(char::from(*octet)),
            _ => write!(f, "%{octet:02X}"),
        })
    }
}

impl fmt::Display for Target {
    fn fmt(&self, f: &mut fmt::Formatter) -> fmt::Result {
        match self {
            Target::Key(key) => write!(f, "key {}", Hex(key)),
            Target::Profile(tag) => write!(f, "profile {tag}"),
            Target::Reference(index) => write!(f, "reference {index}"),
        }
    }
}

// Values as a compact JSON list.
fn json(values: &[Value]) -> String {
    let mut text = String::from("[");
    for (at, value) in values.iter().enumerate() {
        if at > 0 {
            text.push(',');
        }
        match value {
            Value::Long(n) => write!(text, "{n}").unwrap(),
            Value::Text(octets) => {
                let chars: String = octets.iter().map(|it| char::from(*it)).collect();
                write!(text, "{chars:?}").unwrap();
            }
            Value::Longs(all) => {
                let all: Vec<_> = all.iter().map(i32::to_string).collect();
                write!(text, "[{}]", all.join(",")).unwrap();
            }
        }
    }
    text.push(']');
    text
}

// The line of a call without its end, and its Request, where it is decoded.
fn write_asked(id: u32, message: &Message, out: &mut impl Write) -> io::Result<Option<Request>> {
    let octets = Hex(&message.payload);
    match request(message) {
        Ok(request) => {
            let (target, name) = (&request.target, Escaped(&request.name));
            write!(out, "{id} Asked {target} {name} {}", json(&request.ins))?;
            return Ok(Some(request));
        }
        Err(Undecoded::Header(fault)) => write!(out, "{id} Undecoded header {fault} {octets}")?,
        Err(Undecoded::Operation) => write!(out, "{id} Undecoded operation {octets}")?,
        Err(Undecoded::Body(fault)) => write!(out, "{id} Undecoded body {fault} {octets}")?,
    }
    Ok(None)
}

fn write_call(id: u32, asked: &Message, answer: Option<&Message>, out: &mut impl Write) -> io::Result<()> {
    let asked_request = write_asked(id, asked, out)?;
    match (answer, &asked_request) {
        (None, _) if is_oneway(asked) => writeln!(out, " OnewaySent"),
        (None, _) => writeln!(out, " NoAnswer"),
        (Some(_), None) => writeln!(out),
        (Some(answer), Some(request)) => match reply(request, answer) {
            Reply::Result(outs) => writeln!(out, " Done 0 {}", json(&outs)),
            Reply::System(id, minor, completion) => {
                writeln!(out, " Done 2 {} {minor} 0x{minor:08x} {completion}", Escaped(&id))
            }
            Reply::Undecoded(fault) => {
                writeln!(out, " Undecoded reply {fault} {}", Hex(&answer.payload))
            }
        },
    }
}

// The calls that are open.
type Table = BTreeMap<u32, Message>;

fn hear_client(table: &mut Table, message: Message, out: &mut impl Write) -> io::Result<()> {
    let id = message.id();
    if let Some(earlier) = table.remove(&id) {
        write_call(id, &earlier, None, out)?;
    }
    if is_oneway(&message) {
        return write_call(id, &message, None, out);
    }
    table.insert(id, message);
    Ok(())
}

fn hear_server(table: &mut Table, message: Message, out: &mut impl Write) -> io::Result<()> {
    let id = message.id();
    match table.remove(&id) {
        Some(asked) => write_call(id, &asked, Some(&message), out),
        None => writeln!(out, "{id} Unasked Undecoded reply {}", Hex(&message.payload)),
    }
}

fn main() -> io::Result<ExitCode> {
    let paths: Vec<String> = std::env::args().skip(1).collect();
    let mut client = Incoming::open(&paths[0])?;
    let mut server = Incoming::open(&paths[1])?;
    let mut out = BufWriter::new(io::stdout().lock());
    let mut table = Table::new();
    let mut held = None;
    loop {
        let message = client.next(&mut out)?;
        let waits = message.is_some();
        if let Some(message) = message {
            hear_client(&mut table, message, &mut out)?;
        }
        while let Some(message) = held.take().map_or_else(|| server.next(&mut out), |it| Ok(Some(it)))? {
            if waits && !table.contains_key(&message.id()) {
                held = Some(message);
                break;
            }
            hear_server(&mut table, message, &mut out)?;
        }
        if !waits {
            break;
        }
    }
    for (id, asked) in &table {
        write_call(*id, asked, None, &mut out)?;
    }
    let ended = [client.write_end("client", &mut out)?, server.write_end("server", &mut out)?];
    out.flush()?;
    Ok(ExitCode::from(if ended == [true, true] { 0 } else { 1 }))
}
