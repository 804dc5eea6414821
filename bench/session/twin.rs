//! The plain Rust twin of the loops `session-..` of giop_bench.
use std::collections::BTreeMap;
use std::io::{Read, Write};
use std::net::{Ipv4Addr, TcpListener, TcpStream};

const CALLS: u32 = 1_000_000;
const IDS: u32 = 512;
const TOGETHER: u32 = 64;
const PUT: usize = 16_384;
const ROUNDS: u32 = 640;
// No loop meets it.
const CALLS_LIMIT: usize = 131_072;
const MESSAGE_LIMIT: u32 = 1 << 20;
const GATHERED_LIMIT: usize = 8 << 20;
const PIECE: usize = 4096;
const FLOOD: u32 = 625_000;
const ONE_READ: usize = 4096;
const WAVES: u32 = 6_250;
const OUTSTANDING: u32 = 16;

enum Desc {
    Long,
    Octets(u32),
}

enum Value {
    Long(i32),
    Octets(Vec<u8>),
}

#[derive(Debug)]
#[allow(dead_code)]
enum Kind {
    Short,
    BadCount,
    BadString,
    BadLabel,
    OverBound,
    Trailing,
}

#[derive(Debug)]
#[allow(dead_code)]
struct Fault {
    at: usize,
    kind: Kind,
}

#[derive(Debug)]
#[allow(dead_code)]
enum SessionFault {
    BadMagic,
    BadVersion,
    ReservedFlags,
    BadKind,
    TooLarge,
    FragmentSize,
    WrongDirection,
    NoId,
    IdInUse,
    Stray,
    NotOpen,
    StillOpen,
    Unfit,
    TooManyCalls,
    GatherFull,
}

struct Operation {
    ins: Vec<(Vec<u8>, Desc)>,
    outs: Vec<(Vec<u8>, Desc)>,
}

type Interface = BTreeMap<Vec<u8>, Operation>;

#[allow(dead_code)]
enum Target {
    Key(Vec<u8>),
    Profile(u32, Vec<u8>),
    Reference(u32, Vec<u8>, Vec<(u32, Vec<u8>)>),
}

#[allow(dead_code)]
struct Request {
    id: u32,
    flags: u8,
    target: Target,
    operation: Vec<u8>,
    contexts: Vec<(u32, Vec<u8>)>,
    body: Vec<Value>,
}

struct Reply {
    id: u32,
    contexts: Vec<(u32, Vec<u8>)>,
    outs: Vec<Value>,
}

// The joined octets of a message, of which the first has offset 12.
struct Input<'a> {
    octets: &'a [u8],
    at: usize,
    little: bool,
}

impl Input<'_> {
    #[inline]
    fn align(&mut self, n: usize) {
        self.at = ((self.at + 12 + n - 1) & !(n - 1)) - 12;
    }

    #[inline]
    fn field<const N: usize>(&mut self) -> Result<[u8; N], Fault> {
        self.align(N);
        match self.octets.get(self.at..self.at + N) {
            Some(octets) => {
                self.at += N;
                Ok(octets.try_into().unwrap())
            }
            None => Err(self.fault(0, Kind::Short)),
        }
    }

    fn fault(&self, back: usize, kind: Kind) -> Fault {
        Fault {
            at: self.at + 12 - back,
            kind,
        }
    }

    fn ulong(&mut self) -> Result<u32, Fault> {
        Ok(ulong(self.little, self.field()?))
    }

    fn ushort(&mut self) -> Result<u16, Fault> {
        let field = self.field()?;
        Ok(if self.little { u16::from_le_bytes(field) } else { u16::from_be_bytes(field) })
    }

    fn count(&mut self) -> Result<usize, Fault> {
        let count = self.ulong()? as usize;
        if self.octets.len() - self.at < count {
            return Err(self.fault(4, Kind::BadCount));
        }
        Ok(count)
    }

    fn octets(&mut self) -> Result<Vec<u8>, Fault> {
        let count = self.count()?;
        let octets = self.octets[self.at..self.at + count].to_vec();
        self.at += count;
        Ok(octets)
    }

    fn text(&mut self) -> Result<Vec<u8>, Fault> {
        let count = self.count()?;
        let counted = &self.octets[self.at..self.at + count];
        let text = match counted.split_last() {
            None => counted,
            Some((0, text)) if !text.contains(&0) => text,
            _ => return Err(self.fault(4, Kind::BadString)),
        };
        self.at += count;
        Ok(text.to_vec())
    }

    fn tagged(&mut self) -> Result<Vec<(u32, Vec<u8>)>, Fault> {
        let count = self.count()?;
        let mut all = Vec::new();
        for _ in 0..count {
            let tag = self.ulong()?;
            all.push((tag, self.octets()?));
        }
        Ok(all)
    }

    fn target(&mut self) -> Result<Target, Fault> {
        Ok(match self.ushort()? {
            0 => Target::Key(self.octets()?),
            1 => Target::Profile(self.ulong()?, self.octets()?),
            2 => Target::Reference(self.ulong()?, self.text()?, self.tagged()?),
            _ => return Err(self.fault(2, Kind::BadLabel)),
        })
    }

    fn value(&mut self, desc: &Desc) -> Result<Value, Fault> {
        Ok(match desc {
            Desc::Long => Value::Long(self.ulong()? as i32),
            Desc::Octets(bound) => {
                let octets = self.octets()?;
                if *bound > 0 && octets.len() > *bound as usize {
                    return Err(self.fault(octets.len() + 4, Kind::OverBound));
                }
                Value::Octets(octets)
            }
        })
    }

    fn head(&mut self) -> Result<Request, Fault> {
        let id = self.ulong()?;
        let [flags] = self.field::<1>()?;
        if !matches!(flags, 0 | 1 | 3) {
            return Err(self.fault(1, Kind::BadLabel));
        }
        for _ in 0..3 {
            self.field::<1>()?;
        }
        Ok(Request {
            id,
            flags,
            target: self.target()?,
            operation: self.text()?,
            contexts: self.tagged()?,
            body: Vec::new(),
        })
    }

    fn body(&mut self, operation: &Operation) -> Result<Vec<Value>, Fault> {
        self.align(8);
        let mut values = Vec::new();
        for (_, desc) in &operation.ins {
            values.push(self.value(desc)?);
        }
        if self.at < self.octets.len() {
            return Err(self.fault(0, Kind::Trailing));
        }
        Ok(values)
    }
}

#[derive(Debug)]
#[allow(dead_code)]
enum RequestFault {
    Header(Fault),
    Operation,
    Body(Fault),
}

fn decode(interface: &Interface, little: bool, octets: &[u8]) -> Result<Request, RequestFault> {
    let mut input = Input {
        octets,
        at: 0,
        little,
    };
    let mut request = input.head().map_err(RequestFault::Header)?;
    let operation = interface.get(&request.operation).ok_or(RequestFault::Operation)?;
    request.body = input.body(operation).map_err(RequestFault::Body)?;
    Ok(request)
}

// What is written: the octets, in a byte order from offset 12.
struct Output {
    octets: Vec<u8>,
    little: bool,
}

impl Output {
    #[inline]
    fn align(&mut self, n: usize) {
        let end = ((self.octets.len() + 12 + n - 1) & !(n - 1)) - 12;
        self.octets.resize(end, 0);
    }

    #[inline]
    fn field<const N: usize>(&mut self, field: [u8; N]) {
        self.align(N);
        self.octets.extend_from_slice(&field);
    }

    #[inline]
    fn ulong(&mut self, n: u32) {
        self.field(if self.little { n.to_le_bytes() } else { n.to_be_bytes() });
    }

    fn counted(&mut self, octets: &[u8]) -> Result<(), SessionFault> {
        let count = u32::try_from(octets.len()).map_err(|_| SessionFault::Unfit)?;
        self.ulong(count);
        self.octets.extend_from_slice(octets);
        Ok(())
    }

    fn tagged(&mut self, all: &[(u32, Vec<u8>)]) -> Result<(), SessionFault> {
        let count = u32::try_from(all.len()).map_err(|_| SessionFault::Unfit)?;
        self.ulong(count);
        for (tag, octets) in all {
            self.ulong(*tag);
            self.counted(octets)?;
        }
        Ok(())
    }

    fn value(&mut self, desc: &Desc, value: &Value) -> Result<(), SessionFault> {
        match (desc, value) {
            (Desc::Long, Value::Long(n)) => self.ulong(*n as u32),
            (Desc::Octets(_), Value::Octets(octets)) => self.counted(octets)?,
            _ => return Err(SessionFault::Unfit),
        }
        Ok(())
    }
}

fn encode(operation: &Operation, reply: &Reply, little: bool) -> Result<Vec<u8>, SessionFault> {
    if operation.outs.len() != reply.outs.len() {
        return Err(SessionFault::Unfit);
    }
    let mut out = Output {
        octets: Vec::new(),
        little,
    };
    out.ulong(reply.id);
    out.ulong(0);
    out.tagged(&reply.contexts)?;
    let end = out.octets.len();
    out.align(8);
    let padded = out.octets.len();
    for ((_, desc), value) in operation.outs.iter().zip(&reply.outs) {
        out.value(desc, value)?;
    }
    if out.octets.len() == padded {
        out.octets.truncate(end);
    }
    Ok(out.octets)
}

fn ulong(little: bool, field: [u8; 4]) -> u32 {
    if little { u32::from_le_bytes(field) } else { u32::from_be_bytes(field) }
}

#[derive(Clone, Copy)]
struct Header {
    little: bool,
    more: bool,
    kind: u8,
    size: u32,
}

impl Header {
    fn judge(octets: &[u8]) -> Result<Header, SessionFault> {
        if octets[..4] != *b"GIOP" {
            return Err(SessionFault::BadMagic);
        }
        if octets[4] != 1 || octets[5] != 2 {
            return Err(SessionFault::BadVersion);
        }
        if octets[6] & !3 != 0 {
            return Err(SessionFault::ReservedFlags);
        }
        if octets[7] > 7 {
            return Err(SessionFault::BadKind);
        }
        let little = octets[6] & 1 != 0;
        let size = ulong(little, octets[8..12].try_into().unwrap());
        if size > MESSAGE_LIMIT {
            return Err(SessionFault::TooLarge);
        }
        let more = octets[6] & 2 != 0;
        if more && size % 8 != 4 {
            return Err(SessionFault::FragmentSize);
        }
        Ok(Header {
            little,
            more,
            kind: octets[7],
            size,
        })
    }

    fn octets(self) -> [u8; 12] {
        let size = if self.little { self.size.to_le_bytes() } else { self.size.to_be_bytes() };
        let [a, b, c, d] = size;
        let flags = u8::from(self.more) << 1 | u8::from(self.little);
        [b'G', b'I', b'O', b'P', 1, 2, flags, self.kind, a, b, c, d]
    }
}

#[allow(dead_code)]
enum Entry {
    Gathering { little: bool, octets: Vec<u8> },
    Asked(Request),
    Undecoded(RequestFault),
    Answered {
        request: Request,
        reply: Reply,
        // The messages that aren't put out yet.
        left: Vec<Vec<u8>>,
    },
}

impl Entry {
    fn is_closed(&self) -> bool {
        matches!(self, Entry::Answered { left, .. } if left.is_empty())
    }
}

struct Server<'a> {
    interface: &'a Interface,
    unread: Vec<u8>,
    table: BTreeMap<u32, Entry>,
    gathered: usize,
    outgoing: Vec<u8>,
}

impl<'a> Server<'a> {
    fn new(interface: &'a Interface) -> Server<'a> {
        Server {
            interface,
            unread: Vec::new(),
            table: BTreeMap::new(),
            gathered: 0,
            outgoing: Vec::new(),
        }
    }

    #[inline(never)]
    fn feed(&mut self, octets: &[u8]) -> Result<(), SessionFault> {
        self.unread.extend_from_slice(octets);
        let unread = std::mem::take(&mut self.unread);
        let mut at = 0;
        let mut fed = Ok(());
        while fed.is_ok() && unread.len() - at >= 12 {
            match Header::judge(&unread[at..at + 12]) {
                Ok(header) => {
                    let end = at + 12 + header.size as usize;
                    let Some(payload) = unread.get(at + 12..end) else {
                        break;
                    };
                    fed = self.hear(header, payload);
                    at = end;
                }
                Err(fault) => fed = Err(fault),
            }
        }
        self.unread = unread;
        self.unread.drain(..at);
        fed
    }

    fn hear(&mut self, header: Header, payload: &[u8]) -> Result<(), SessionFault> {
        let (id, behind) = payload.split_first_chunk::<4>().ok_or(SessionFault::NoId)?;
        let id = ulong(header.little, *id);
        match (header.kind, header.more) {
            (0, true) => self.begin(id, header.little, payload),
            (0, false) => self.come(id, header.little, payload),
            (7, true) => self.add(id, header.little, behind),
            (7, false) => self.complete(id, header.little, behind),
            _ => Err(SessionFault::WrongDirection),
        }
    }

    fn is_free(&self, id: u32) -> Result<(), SessionFault> {
        match self.table.get(&id) {
            Some(entry) if !entry.is_closed() => Err(SessionFault::IdInUse),
            None if self.table.len() >= CALLS_LIMIT => Err(SessionFault::TooManyCalls),
            _ => Ok(()),
        }
    }

    fn has_room(&self, more: usize) -> Result<(), SessionFault> {
        if more > GATHERED_LIMIT - self.gathered {
            return Err(SessionFault::GatherFull);
        }
        Ok(())
    }

    fn whole(&self, little: bool, octets: &[u8]) -> Entry {
        match decode(self.interface, little, octets) {
            Ok(request) => Entry::Asked(request),
            Err(fault) => Entry::Undecoded(fault),
        }
    }

    fn begin(&mut self, id: u32, little: bool, octets: &[u8]) -> Result<(), SessionFault> {
        self.is_free(id)?;
        self.has_room(octets.len())?;
        let gathering = Entry::Gathering {
            little,
            octets: octets.to_vec(),
        };
        self.table.insert(id, gathering);
        self.gathered += octets.len();
        Ok(())
    }

    fn come(&mut self, id: u32, little: bool, octets: &[u8]) -> Result<(), SessionFault> {
        self.is_free(id)?;
        let entry = self.whole(little, octets);
        self.table.insert(id, entry);
        Ok(())
    }

    // The pieces under the id, which are in this byte order.
    fn pieces(&mut self, id: u32, little: bool) -> Result<&mut Vec<u8>, SessionFault> {
        match self.table.get_mut(&id) {
            Some(Entry::Gathering { little: held, octets }) if *held == little => Ok(octets),
            _ => Err(SessionFault::Stray),
        }
    }

    fn add(&mut self, id: u32, little: bool, octets: &[u8]) -> Result<(), SessionFault> {
        self.has_room(octets.len())?;
        self.pieces(id, little)?.extend_from_slice(octets);
        self.gathered += octets.len();
        Ok(())
    }

    fn complete(&mut self, id: u32, little: bool, octets: &[u8]) -> Result<(), SessionFault> {
        self.has_room(octets.len())?;
        let mut joined = std::mem::take(self.pieces(id, little)?);
        self.gathered -= joined.len();
        joined.extend_from_slice(octets);
        let entry = self.whole(little, &joined);
        self.table.insert(id, entry);
        Ok(())
    }

    #[inline(never)]
    fn answer(&mut self, reply: Reply, little: bool) -> Result<(), SessionFault> {
        let id = reply.id;
        let Some(entry) = self.table.get_mut(&id) else {
            return Err(SessionFault::NotOpen);
        };
        let Entry::Asked(request) = entry else {
            return Err(SessionFault::NotOpen);
        };
        let operation = self.interface.get(&request.operation).ok_or(SessionFault::Unfit)?;
        let joined = encode(operation, &reply, little)?;
        if joined.len() > GATHERED_LIMIT {
            return Err(SessionFault::Unfit);
        }
        let left = put(&joined, little, &mut self.outgoing);
        let Some(Entry::Asked(request)) = self.table.remove(&id) else {
            return Err(SessionFault::NotOpen);
        };
        let answered = Entry::Answered {
            request,
            reply,
            left,
        };
        self.table.insert(id, answered);
        Ok(())
    }

    fn take(&mut self, id: u32) -> Result<Option<Entry>, SessionFault> {
        match self.table.get(&id) {
            Some(entry) if !entry.is_closed() => Err(SessionFault::StillOpen),
            _ => Ok(self.table.remove(&id)),
        }
    }
}

fn append(header: Header, id: &[u8], octets: &[u8], out: &mut Vec<u8>) {
    out.extend_from_slice(&header.octets());
    out.extend_from_slice(id);
    out.extend_from_slice(octets);
}

// Puts out the first message of a Reply, and gives the others.
fn put(joined: &[u8], little: bool, out: &mut Vec<u8>) -> Vec<Vec<u8>> {
    let whole = |more, size: usize| Header {
        little,
        more,
        kind: 1,
        size: size as u32,
    };
    if joined.len() + 12 <= PIECE {
        append(whole(false, joined.len()), &[], joined, out);
        return Vec::new();
    }
    let (first, rest) = joined.split_at(PIECE - 12);
    append(whole(true, first.len()), &[], first, out);
    let count = rest.len().div_ceil(PIECE - 16);
    let parts = rest.chunks(PIECE - 16).enumerate();
    parts
        .map(|(k, part)| {
            let mut message = Vec::with_capacity(part.len() + 16);
            let header = Header {
                little,
                more: k + 1 < count,
                kind: 7,
                size: part.len() as u32 + 4,
            };
            append(header, &joined[..4], part, &mut message);
            message
        })
        .collect()
}

fn interface() -> Interface {
    let named = |name: &[u8], desc| (name.to_vec(), desc);
    let mut interface = BTreeMap::new();
    let mut insert = |name: &[u8], ins, outs| interface.insert(name.to_vec(), Operation { ins, outs });
    insert(b"ping", Vec::new(), Vec::new());
    let ins = vec![named(b"a", Desc::Long), named(b"b", Desc::Long)];
    insert(b"add", ins, vec![named(b"sum", Desc::Long)]);
    insert(b"put", vec![named(b"o", Desc::Octets(0))], Vec::new());
    interface
}

fn mixed(sum: u64, value: u64) -> u64 {
    sum.wrapping_mul(1_099_511_628_211) ^ value
}

fn leaf(value: &Value) -> u64 {
    match value {
        Value::Long(n) => u64::from(n.to_le_bytes()[0]),
        Value::Octets(octets) => octets.last().map_or(0, |octet| u64::from(*octet)),
    }
}

fn checksum(sum: u64, request: &Request) -> u64 {
    let sum = mixed(sum, u64::from(request.id));
    let sum = mixed(sum, request.operation.len() as u64);
    request.body.iter().fold(sum, |sum, value| mixed(sum, leaf(value)))
}

fn outs(request: &Request) -> Vec<Value> {
    if request.operation != b"add" {
        return Vec::new();
    }
    let sum = request.body.iter().fold(0, |sum: i32, value| match value {
        Value::Long(n) => sum.wrapping_add(*n),
        Value::Octets(_) => sum,
    });
    vec![Value::Long(sum)]
}

fn serve(end: &mut Server, id: u32, sum: u64) -> u64 {
    let Some(Entry::Asked(request)) = end.table.get(&id) else {
        panic!("nothing is asked");
    };
    let sum = checksum(sum, request);
    let reply = Reply {
        id,
        contexts: Vec::new(),
        outs: outs(request),
    };
    end.answer(reply, false).unwrap();
    let n = end.outgoing.len();
    let sum = mixed(sum, u64::from(*end.outgoing.last().unwrap()));
    end.outgoing.drain(..n);
    let sum = mixed(sum, n as u64);
    match end.take(id).unwrap() {
        Some(Entry::Answered { left, .. }) => mixed(sum, left.len() as u64),
        _ => panic!("nothing is answered"),
    }
}

fn set_id(message: &mut [u8], id: u32) {
    message[12..16].copy_from_slice(&id.to_be_bytes());
}

// A Request, of an operation and the octets of its body.
fn request(operation: &[u8], body: &[u8]) -> Vec<u8> {
    let mut out = Output {
        octets: Vec::new(),
        little: false,
    };
    out.octets.extend_from_slice(&[0, 0, 0, 0, 3, 0, 0, 0, 0, 0, 0, 0]);
    out.counted(b"k").unwrap();
    out.counted(operation).unwrap();
    out.field([0u8; 4]);
    if !body.is_empty() {
        out.align(8);
        out.octets.extend_from_slice(body);
    }
    out.octets
}

fn message(header: Header, id: &[u8], octets: &[u8]) -> Vec<u8> {
    let mut message = Vec::new();
    append(header, id, octets, &mut message);
    message
}

fn whole(joined: Vec<u8>) -> Vec<u8> {
    let size = joined.len() as u32;
    let header = Header {
        little: false,
        more: false,
        kind: 0,
        size,
    };
    message(header, &[], &joined)
}

fn calls(count: u32, ids: u32, waiting: u32) -> u64 {
    let mut ping = whole(request(b"ping\0", &[]));
    let mut add = whole(request(b"add\0", &[0, 0, 0, 2, 0, 0, 0, 5]));
    let interface = interface();
    let mut end = Server::new(&interface);
    let mut sum = 0;
    for k in 0..count {
        let next = if k % 2 == 0 { &mut ping } else { &mut add };
        set_id(next, k % ids);
        end.feed(next).unwrap();
        if k + 1 >= waiting {
            sum = serve(&mut end, (k + 1 - waiting) % ids, sum);
        }
    }
    for k in count + 1 - waiting..count {
        sum = serve(&mut end, k % ids, sum);
    }
    mixed(sum, end.unread.len() as u64)
}

// The joined octets of a Request of `put`.
fn put_request() -> Vec<u8> {
    let mut body = (PUT as u32).to_be_bytes().to_vec();
    body.extend((0..PUT).map(|n| (n % 251) as u8));
    request(b"put\0", &body)
}

// 10 GB, fed as reads bring it.
fn flood() -> u64 {
    let mut message = whole(put_request());
    let interface = interface();
    let mut end = Server::new(&interface);
    let mut sum = 0;
    for k in 0..FLOOD {
        set_id(&mut message, k % IDS);
        for part in message.chunks(ONE_READ) {
            end.feed(part).unwrap();
        }
        sum = serve(&mut end, k % IDS, sum);
    }
    mixed(sum, end.unread.len() as u64)
}

// The messages of a Request of `put`, of 512 octets each.
fn pieces() -> Vec<Vec<u8>> {
    let joined = put_request();
    let (first, rest) = joined.split_at(500);
    let header = |kind, more, size: usize| Header {
        little: false,
        more,
        kind,
        size: size as u32,
    };
    let mut pieces = vec![message(header(0, true, 500), &[], first)];
    let count = rest.len().div_ceil(496);
    for (k, part) in rest.chunks(496).enumerate() {
        let header = header(7, k + 1 < count, part.len() + 4);
        pieces.push(message(header, &[0; 4], part));
    }
    pieces
}

fn put_all() -> u64 {
    let mut pieces = pieces();
    let interface = interface();
    let mut end = Server::new(&interface);
    let mut sum = 0;
    for _ in 0..ROUNDS {
        for piece in &mut pieces {
            for id in 0..TOGETHER {
                set_id(piece, id);
                end.feed(piece).unwrap();
            }
        }
        for id in 0..TOGETHER {
            sum = serve(&mut end, id, sum);
        }
    }
    mixed(sum, end.unread.len() as u64)
}

// What stands at a client: a Request that waits for its Reply, or both.
enum Called {
    Waiting(Request),
    Done(#[allow(dead_code)] Request, Vec<Value>),
}

struct Client<'a> {
    interface: &'a Interface,
    unread: Vec<u8>,
    table: BTreeMap<u32, Called>,
    outgoing: Vec<u8>,
}

impl Client<'_> {
    #[inline(never)]
    fn call(&mut self, request: Request, little: bool) -> Result<(), SessionFault> {
        match self.table.get(&request.id) {
            Some(Called::Waiting(_)) => return Err(SessionFault::IdInUse),
            None if self.table.len() >= CALLS_LIMIT => return Err(SessionFault::TooManyCalls),
            _ => {}
        }
        let operation = self.interface.get(&request.operation).ok_or(SessionFault::Unfit)?;
        let joined = encode_request(operation, &request, little)?;
        if joined.len() > GATHERED_LIMIT {
            return Err(SessionFault::Unfit);
        }
        let header = Header {
            little,
            more: false,
            kind: 0,
            size: joined.len() as u32,
        };
        append(header, &[], &joined, &mut self.outgoing);
        self.table.insert(request.id, Called::Waiting(request));
        Ok(())
    }

    #[inline(never)]
    fn feed(&mut self, octets: &[u8]) -> Result<(), SessionFault> {
        self.unread.extend_from_slice(octets);
        let unread = std::mem::take(&mut self.unread);
        let mut at = 0;
        let mut fed = Ok(());
        while fed.is_ok() && unread.len() - at >= 12 {
            match Header::judge(&unread[at..at + 12]) {
                Ok(header) => {
                    let end = at + 12 + header.size as usize;
                    let Some(payload) = unread.get(at + 12..end) else {
                        break;
                    };
                    fed = self.hear(header, payload);
                    at = end;
                }
                Err(fault) => fed = Err(fault),
            }
        }
        self.unread = unread;
        self.unread.drain(..at);
        fed
    }

    fn hear(&mut self, header: Header, payload: &[u8]) -> Result<(), SessionFault> {
        let (id, _) = payload.split_first_chunk::<4>().ok_or(SessionFault::NoId)?;
        let id = ulong(header.little, *id);
        if header.kind != 1 || header.more {
            return Err(SessionFault::WrongDirection);
        }
        let Some(Called::Waiting(request)) = self.table.get(&id) else {
            return Err(SessionFault::Stray);
        };
        let operation = self.interface.get(&request.operation).ok_or(SessionFault::Unfit)?;
        let outs = decode_reply(operation, header.little, payload).map_err(|_| SessionFault::Unfit)?;
        let Some(Called::Waiting(request)) = self.table.remove(&id) else {
            return Err(SessionFault::Stray);
        };
        self.table.insert(id, Called::Done(request, outs));
        Ok(())
    }

    fn take(&mut self, id: u32) -> Result<Option<Called>, SessionFault> {
        match self.table.get(&id) {
            Some(Called::Waiting(_)) => Err(SessionFault::StillOpen),
            _ => Ok(self.table.remove(&id)),
        }
    }
}

fn encode_request(operation: &Operation, request: &Request, little: bool) -> Result<Vec<u8>, SessionFault> {
    if operation.ins.len() != request.body.len() {
        return Err(SessionFault::Unfit);
    }
    let Target::Key(key) = &request.target else {
        return Err(SessionFault::Unfit);
    };
    let mut out = Output {
        octets: Vec::new(),
        little,
    };
    out.ulong(request.id);
    out.octets.extend_from_slice(&[request.flags, 0, 0, 0, 0, 0]);
    out.counted(key)?;
    out.ulong(request.operation.len() as u32 + 1);
    out.octets.extend_from_slice(&request.operation);
    out.octets.push(0);
    out.tagged(&request.contexts)?;
    let end = out.octets.len();
    out.align(8);
    let padded = out.octets.len();
    for ((_, desc), value) in operation.ins.iter().zip(&request.body) {
        out.value(desc, value)?;
    }
    if out.octets.len() == padded {
        out.octets.truncate(end);
    }
    Ok(out.octets)
}

fn decode_reply(operation: &Operation, little: bool, octets: &[u8]) -> Result<Vec<Value>, Fault> {
    let mut input = Input {
        octets,
        at: 0,
        little,
    };
    input.ulong()?;
    if input.ulong()? != 0 {
        return Err(input.fault(4, Kind::BadLabel));
    }
    input.tagged()?;
    if !operation.outs.is_empty() {
        input.align(8);
    }
    let mut values = Vec::new();
    for (_, desc) in &operation.outs {
        values.push(input.value(desc)?);
    }
    if input.at < octets.len() {
        return Err(input.fault(0, Kind::Trailing));
    }
    Ok(values)
}

fn write_out(outgoing: &mut Vec<u8>, mut stream: &TcpStream) {
    while !outgoing.is_empty() {
        let n = stream.write(outgoing).unwrap();
        outgoing.drain(..n);
    }
}

fn asked(id: u32) -> Request {
    Request {
        id,
        flags: 3,
        target: Target::Key(b"k".to_vec()),
        operation: b"add".to_vec(),
        contexts: Vec::new(),
        body: vec![Value::Long(2), Value::Long(id as i32)],
    }
}

fn answer_all(server: &mut Server, stream: &TcpStream) {
    for id in 0..OUTSTANDING {
        let Some(Entry::Asked(request)) = server.table.get(&id) else {
            panic!("nothing is asked");
        };
        let reply = Reply {
            id,
            contexts: Vec::new(),
            outs: outs(request),
        };
        server.answer(reply, false).unwrap();
        server.take(id).unwrap();
    }
    write_out(&mut server.outgoing, stream);
}

fn take_all(client: &mut Client, mut sum: u64) -> u64 {
    for id in 0..OUTSTANDING {
        let Ok(Some(Called::Done(_, outs))) = client.take(id) else {
            panic!("nothing is done");
        };
        sum = mixed(sum, leaf(&outs[0]));
    }
    sum
}

// Calls of `add` on one connection, so many at a time.
fn loopback() -> u64 {
    let listener = TcpListener::bind((Ipv4Addr::LOCALHOST, 0)).unwrap();
    let calling = TcpStream::connect(listener.local_addr().unwrap()).unwrap();
    let (serving, _) = listener.accept().unwrap();
    let interface = interface();
    let mut server = Server::new(&interface);
    let mut client = Client {
        interface: &interface,
        unread: Vec::new(),
        table: BTreeMap::new(),
        outgoing: Vec::new(),
    };
    let mut sum = 0;
    for _ in 0..WAVES {
        for id in 0..OUTSTANDING {
            client.call(asked(id), false).unwrap();
        }
        write_out(&mut client.outgoing, &calling);
        let mut left = OUTSTANDING as usize * 56;
        while left > 0 {
            let mut buffer = [0; 4096];
            let n = (&serving).read(&mut buffer).unwrap();
            server.feed(&buffer[..n]).unwrap();
            left -= n;
        }
        answer_all(&mut server, &serving);
        let mut left = OUTSTANDING as usize * 28;
        while left > 0 {
            let mut buffer = [0; 4096];
            let n = (&calling).read(&mut buffer).unwrap();
            client.feed(&buffer[..n]).unwrap();
            left -= n;
        }
        sum = take_all(&mut client, sum);
    }
    sum
}

fn main() {
    let name = std::env::args().nth(1).unwrap();
    let sum = match name.as_str() {
        "calls" => calls(CALLS, IDS, 1),
        "calls-512" => calls(CALLS, IDS, IDS),
        "open-1" => calls(CALLS, 1, 1),
        "open-1000" => calls(CALLS, 1_000, 1_000),
        "open-100000" => calls(CALLS, 100_000, 100_000),
        "ids" => calls(4 * CALLS, CALLS, 1),
        "flood" => flood(),
        "pieces" => put_all(),
        "loopback" => loopback(),
        _ => panic!("no such loop"),
    };
    println!("{sum}");
}
