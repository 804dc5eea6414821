// What `giopctl dump FILE` prints, in plain Rust, for bench/dump/run to compare with; with `--interface` in front
// of the file what `giopctl dump --interface examples/calculator.json FILE` prints of unfragmented messages.
use std::fmt;
use std::io::{self, BufWriter, Write};
use std::process::ExitCode;

const LIMIT: u32 = 1_048_576;
const KINDS: [&str; 8] = [
    "Request",
    "Reply",
    "CancelRequest",
    "LocateRequest",
    "LocateReply",
    "CloseConnection",
    "MessageError",
    "Fragment",
];
const REQUEST: u8 = 0;
const REPLY: u8 = 1;
const CANCEL_REQUEST: u8 = 2;
const LOCATE_REQUEST: u8 = 3;
const LOCATE_REPLY: u8 = 4;
const CLOSE_CONNECTION: u8 = 5;
const MESSAGE_ERROR: u8 = 6;

#[derive(Clone, Copy)]
enum Desc {
    Long,
    Text,
    Longs,
}

enum Value<'a> {
    Long(i32),
    Text(&'a [u8]),
    Longs(Vec<i32>),
}

// Each operation of the interface, by name, with its ins.
const INTERFACE: [(&[u8], &[Desc]); 4] = [
    (b"add", &[Desc::Long, Desc::Long]),
    (b"list", &[Desc::Longs]),
    (b"ping", &[]),
    (b"tell", &[Desc::Text]),
];

struct Fault(u32, &'static str, usize);

// Why a head isn't read: number, name and place.
type Refused = Fault;

struct Header {
    minor: u8,
    kind: u8,
    little: bool,
    more: bool,
    size: u32,
}

fn number(octets: &[u8], at: usize, little: bool) -> u32 {
    let field = octets[at..at + 4].try_into().unwrap();
    if little {
        u32::from_le_bytes(field)
    } else {
        u32::from_be_bytes(field)
    }
}

fn header(octets: &[u8]) -> Result<Header, Fault> {
    for (at, letter) in b"GIOP".iter().enumerate() {
        if octets[at] != *letter {
            return Err(Fault(1, "BadMagic", at));
        }
    }
    let minor = octets[5];
    if octets[4] != 1 {
        return Err(Fault(2, "BadVersion", 4));
    }
    if minor > 2 {
        return Err(Fault(2, "BadVersion", 5));
    }
    let (flags, kind) = (octets[6], octets[7]);
    if flags > if minor == 0 { 1 } else { 3 } {
        return Err(Fault(3, "ReservedFlags", 6));
    }
    if kind > if minor == 2 { 7 } else { 6 } {
        return Err(Fault(4, "BadKind", 7));
    }
    let little = flags & 1 == 1;
    let more = flags & 2 == 2;
    let size = number(octets, 8, little);
    let fixed = match kind {
        CANCEL_REQUEST => size == 4,
        CLOSE_CONNECTION | MESSAGE_ERROR => size == 0,
        _ => size >= 4,
    };
    if size > LIMIT {
        return Err(Fault(5, "TooLarge", 8));
    }
    if !fixed {
        return Err(Fault(6, "BadSize", 8));
    }
    if more && minor == 2 && size % 8 != 4 {
        return Err(Fault(7, "FragmentSize", 8));
    }
    if more && (minor < 2 || matches!(kind, CANCEL_REQUEST | CLOSE_CONNECTION | MESSAGE_ERROR)) {
        return Err(Fault(8, "NotFragmentable", 6));
    }
    Ok(Header { minor, kind, little, more, size })
}

// Reads a message from its first octet on.
struct Reader<'a> {
    octets: &'a [u8],
    at: usize,
    little: bool,
}

enum Target<'a> {
    Key(&'a [u8]),
    Profile(u32),
    Reference(u32),
}

impl<'a> Reader<'a> {
    fn take(&mut self, n: usize) -> Result<&'a [u8], Refused> {
        let from = self.at.next_multiple_of(n);
        match self.octets.get(from..from + n) {
            Some(taken) => {
                self.at = from + n;
                Ok(taken)
            }
            None => Err(Fault(1, "Short", from)),
        }
    }

    fn ulong(&mut self) -> Result<u32, Refused> {
        let little = self.little;
        self.take(4).map(|field| number(field, 0, little))
    }

    // A count, and where it stands.
    fn count(&mut self) -> Result<(usize, usize), Refused> {
        let place = self.at.next_multiple_of(4);
        let count = self.ulong()? as usize;
        if count > self.octets.len() - self.at {
            return Err(Fault(4, "BadCount", place));
        }
        Ok((count, place))
    }

    fn counted(&mut self) -> Result<(&'a [u8], usize), Refused> {
        let (count, place) = self.count()?;
        let taken = &self.octets[self.at..self.at + count];
        self.at += count;
        Ok((taken, place))
    }

    fn string(&mut self) -> Result<&'a [u8], Refused> {
        match self.counted()? {
            ([], _) => Ok(&[]),
            ([text @ .., 0], _) if !text.contains(&0) => Ok(text),
            (_, place) => Err(Fault(3, "BadString", place)),
        }
    }

    // Numbers with octets: how many there are.
    fn tagged(&mut self) -> Result<usize, Refused> {
        let (count, _) = self.count()?;
        for _ in 0..count {
            self.ulong()?;
            self.counted()?;
        }
        Ok(count)
    }

    fn status(&mut self, last: u32) -> Result<u32, Refused> {
        let place = self.at.next_multiple_of(4);
        match self.ulong()? {
            status if status <= last => Ok(status),
            _ => Err(Fault(5, "BadLabel", place)),
        }
    }

    fn target(&mut self, minor: u8) -> Result<Target<'a>, Refused> {
        if minor < 2 {
            return Ok(Target::Key(self.counted()?.0));
        }
        let place = self.at.next_multiple_of(2);
        let field = self.take(2)?.try_into().unwrap();
        let disposition = if self.little {
            u16::from_le_bytes(field)
        } else {
            u16::from_be_bytes(field)
        };
        match disposition {
            0 => Ok(Target::Key(self.counted()?.0)),
            1 => {
                let tag = self.ulong()?;
                self.counted()?;
                Ok(Target::Profile(tag))
            }
            2 => {
                let index = self.ulong()?;
                self.string()?;
                self.tagged()?;
                Ok(Target::Reference(index))
            }
            _ => Err(Fault(5, "BadLabel", place)),
        }
    }

    // The number of octets of the body behind a head.
    fn body(&self, minor: u8) -> usize {
        let align = if minor < 2 { 1 } else { 8 };
        self.octets.len().saturating_sub(self.at.next_multiple_of(align))
    }

    fn value(&mut self, desc: Desc) -> Result<Value<'a>, Refused> {
        Ok(match desc {
            Desc::Long => Value::Long(self.ulong()? as i32),
            Desc::Text => Value::Text(self.string()?),
            Desc::Longs => {
                let (count, _) = self.count()?;
                let mut all = Vec::new();
                for _ in 0..count {
                    all.push(self.ulong()? as i32);
                }
                Value::Longs(all)
            }
        })
    }

    // The values of a body, behind which nothing stands.
    fn values(&mut self, minor: u8, descs: &[Desc]) -> Result<Vec<Value<'a>>, Refused> {
        if minor == 2 && !descs.is_empty() {
            self.at = self.at.next_multiple_of(8);
        }
        let mut values = Vec::new();
        for desc in descs {
            values.push(self.value(*desc)?);
        }
        if self.at < self.octets.len() {
            return Err(Fault(8, "Trailing", self.at));
        }
        Ok(values)
    }

    // Three octets of any value.
    fn reserved(&mut self) -> Result<(), Refused> {
        for _ in 0..3 {
            self.take(1)?;
        }
        Ok(())
    }

    fn id(&mut self, kind: u8, minor: u8) -> Result<u32, Refused> {
        if minor < 2 && matches!(kind, REQUEST | REPLY) {
            self.tagged()?;
        }
        self.ulong()
    }
}

struct Request<'a> {
    flags: u8,
    target: Target<'a>,
    operation: &'a [u8],
    contexts: usize,
    body: usize,
}

fn request<'a>(reader: &mut Reader<'a>, minor: u8) -> Result<Request<'a>, Refused> {
    let early = if minor < 2 { reader.tagged()? } else { 0 };
    reader.ulong()?;
    let place = reader.at;
    let flags = match (reader.take(1)?[0], minor) {
        (flags @ (0 | 1 | 3), 2) => flags,
        (_, 2) => return Err(Fault(5, "BadLabel", place)),
        (0, _) => 0,
        (1, _) => 3,
        _ => return Err(Fault(2, "BadBoolean", place)),
    };
    if minor > 0 {
        reader.reserved()?;
    }
    let target = reader.target(minor)?;
    let operation = reader.string()?;
    let contexts = if minor < 2 {
        reader.counted()?;
        early
    } else {
        reader.tagged()?
    };
    let body = reader.body(minor);
    Ok(Request { flags, target, operation, contexts, body })
}

// The status, the contexts and the body of a Reply.
fn reply(reader: &mut Reader, minor: u8) -> Result<(u32, usize, usize), Refused> {
    if minor < 2 {
        let contexts = reader.tagged()?;
        reader.ulong()?;
        let status = reader.status(3)?;
        return Ok((status, contexts, reader.body(minor)));
    }
    reader.ulong()?;
    let status = reader.status(5)?;
    let contexts = reader.tagged()?;
    Ok((status, contexts, reader.body(minor)))
}

fn locate_request<'a>(reader: &mut Reader<'a>, minor: u8) -> Result<Target<'a>, Refused> {
    reader.ulong()?;
    let target = reader.target(minor)?;
    if reader.at < reader.octets.len() {
        return Err(Fault(8, "Trailing", reader.at));
    }
    Ok(target)
}

fn locate_reply(reader: &mut Reader, minor: u8) -> Result<(u32, usize), Refused> {
    reader.ulong()?;
    let status = reader.status(if minor < 2 { 2 } else { 5 })?;
    Ok((status, reader.octets.len() - reader.at))
}

impl fmt::Display for Target<'_> {
    fn fmt(&self, f: &mut fmt::Formatter) -> fmt::Result {
        match self {
            Target::Key(key) => write!(f, "key {}", Hex(key)),
            Target::Profile(tag) => write!(f, "profile {tag}"),
            Target::Reference(index) => write!(f, "reference {index}"),
        }
    }
}

impl fmt::Display for Value<'_> {
    fn fmt(&self, f: &mut fmt::Formatter) -> fmt::Result {
        match self {
            Value::Long(number) => write!(f, "{number}"),
            Value::Text(octets) => write!(f, "\"{}\"", Quoted(octets)),
            Value::Longs(numbers) => write!(f, "[{}]", Listed(numbers)),
        }
    }
}

// The octets of a text of JSON, each as the character of its number.
struct Quoted<'a>(&'a [u8]);

impl fmt::Display for Quoted<'_> {
    fn fmt(&self, f: &mut fmt::Formatter) -> fmt::Result {
        self.0.iter().try_for_each(|octet| match octet {
            b'"' | b'\\' => write!(f, "\\{}", *octet as char),
            b'\n' => f.write_str("\\n"),
            b'\r' => f.write_str("\\r"),
            b'\t' => f.write_str("\\t"),
            0x08 => f.write_str("\\b"),
            0x0C => f.write_str("\\f"),
            0..0x20 => write!(f, "\\u{octet:04x}"),
            _ => write!(f, "{}", *octet as char),
        })
    }
}

// Items with commas between them.
struct Listed<'a, T>(&'a [T]);

impl<T: fmt::Display> fmt::Display for Listed<'_, T> {
    fn fmt(&self, f: &mut fmt::Formatter) -> fmt::Result {
        for (i, item) in self.0.iter().enumerate() {
            if i > 0 {
                f.write_str(",")?;
            }
            write!(f, "{item}")?;
        }
        Ok(())
    }
}

// The third line of a Request, from its body on.
fn third(reader: &mut Reader, minor: u8, operation: &[u8], out: &mut impl Write) -> io::Result<()> {
    let Ok(found) = INTERFACE.binary_search_by(|it| it.0.cmp(operation)) else {
        return writeln!(out, "  undecoded operation");
    };
    match reader.values(minor, INTERFACE[found].1) {
        Ok(values) => writeln!(out, "  ins [{}]", Listed(&values)),
        Err(Fault(number, name, at)) => writeln!(out, "  undecoded body {number} {name} at {at}"),
    }
}

// The second line of a message, where its kind has one, and the third where bodies are read.
fn second(octets: &[u8], header: &Header, bodies: bool, out: &mut impl Write) -> io::Result<()> {
    let Header { minor, kind, little, .. } = *header;
    let reader = &mut Reader { octets, at: 12, little };
    let refused = match kind {
        REQUEST => match request(reader, minor) {
            Ok(Request { flags, target, operation, contexts, body }) => {
                let shown = Escaped(operation);
                write!(out, "  flags {flags} {target} operation {shown}")?;
                writeln!(out, " contexts {contexts} body {body}")?;
                return if bodies { third(reader, minor, operation, out) } else { Ok(()) };
            }
            Err(fault) => fault,
        },
        REPLY => match reply(reader, minor) {
            Ok((status, contexts, body)) => {
                return writeln!(out, "  status {status} contexts {contexts} body {body}");
            }
            Err(fault) => fault,
        },
        LOCATE_REQUEST => match locate_request(reader, minor) {
            Ok(target) => return writeln!(out, "  {target}"),
            Err(fault) => fault,
        },
        LOCATE_REPLY => match locate_reply(reader, minor) {
            Ok((status, body)) => return writeln!(out, "  status {status} body {body}"),
            Err(fault) => fault,
        },
        _ => return Ok(()),
    };
    let Fault(number, name, place) = refused;
    writeln!(out, "  fault {number} {name} at {place}")
}

struct Hex<'a>(&'a [u8]);

impl fmt::Display for Hex<'_> {
    fn fmt(&self, f: &mut fmt::Formatter) -> fmt::Result {
        if self.0.is_empty() {
            return f.write_str("-");
        }
        self.0.iter().try_for_each(|octet| write!(f, "{octet:02x}"))
    }
}

struct Escaped<'a>(&'a [u8]);

impl fmt::Display for Escaped<'_> {
    fn fmt(&self, f: &mut fmt::Formatter) -> fmt::Result {
        if self.0.is_empty() {
            return f.write_str("-");
        }
        self.0.iter().try_for_each(|octet| match octet {
            b'!'..=b'~' if *octet != b'%' => write!(f, "{}", *octet as char),
            _ => write!(f, "%{octet:02X}"),
        })
    }
}

fn dump(octets: &[u8], bodies: bool, out: &mut impl Write) -> io::Result<bool> {
    let mut at = 0;
    loop {
        let rest = &octets[at..];
        if rest.len() < 12 {
            break;
        }
        let header = match header(rest) {
            Ok(header) => header,
            Err(Fault(number, name, place)) => {
                writeln!(out, "{at} fault {number} {name} at {place}")?;
                return Ok(false);
            }
        };
        let end = 12 + header.size as usize;
        if rest.len() < end {
            break;
        }
        let message = &rest[..end];
        let order = if header.little { "LE" } else { "BE" };
        let more = if header.more { " more" } else { "" };
        let name = KINDS[header.kind as usize];
        let version = ["", " 1.0", " 1.1"][usize::from(header.minor + 1) % 3];
        write!(out, "{at} {name}{version} {order}{more} size {}", header.size)?;
        if !matches!(header.kind, CLOSE_CONNECTION | MESSAGE_ERROR) {
            let reader = &mut Reader { octets: message, at: 12, little: header.little };
            if let Ok(id) = reader.id(header.kind, header.minor) {
                write!(out, " id {id}")?;
            }
        }
        writeln!(out)?;
        if !header.more {
            second(message, &header, bodies, out)?;
        }
        at += end;
    }
    writeln!(out, "rest {}", octets.len() - at)?;
    Ok(at == octets.len())
}

fn main() -> io::Result<ExitCode> {
    let mut words: Vec<String> = std::env::args().skip(1).collect();
    let file = words.pop().expect("usage: twin [--interface] FILE");
    let octets = std::fs::read(file)?;
    let mut out = BufWriter::new(io::stdout().lock());
    let whole = dump(&octets, words == ["--interface"], &mut out)?;
    out.flush()?;
    Ok(ExitCode::from(if whole { 0 } else { 1 }))
}
