//! A stream of octets, split into GIOP messages (1.0, 1.1 and 1.2): safe types over libgiop, whose calls
//! are proved. This crate is Rust as usual, and not proved; it is short on purpose.
//!
//! ```
//! use giop::{Framer, Kind};
//!
//! // A CloseConnection of GIOP 1.2, little endian, in two pieces.
//! let mut framer = Framer::new(1_048_576)?;
//! framer.feed(b"GIOP\x01\x02\x01")?;
//! assert!(framer.next()?.is_none());
//! framer.feed(b"\x05\0\0\0\0")?;
//! let message = framer.next()?.expect("a whole message");
//! assert_eq!(message.kind(), Kind::CloseConnection);
//! assert_eq!(message.payload(), []);
//! # Ok::<(), giop::Error>(())
//! ```
#![warn(missing_docs)]

mod client;
mod end;
mod interface;
mod reference;
mod server;
mod values;

pub use client::{Call, Client, ClientEntry, ClientKind, Target};
pub use end::{EndError, EndFault, Form, Limits};
pub use interface::{Interface, InterfaceError};
pub use reference::{corbaloc_reference, reference_corbaloc, reference_octets, reference_profile, reference_text};
pub use reference::{reference_type_id, CorbalocError, IiopParts, IiopProfile, PartsError, ProfileError, TaggedProfile};
pub use server::{Awaits, CallKind, Entry, RequestFault, Server};
pub use values::{ValueForm, Values};

use std::error;
use std::ffi::c_void;
use std::fmt;
use std::ptr;

#[repr(C)]
struct Handle {
    at: *mut c_void,
}

#[repr(C)]
#[derive(Clone, Copy)]
struct Head {
    minor: u8,
    little_endian: u8,
    more: u8,
    kind: u8,
    size: u32,
    id: u32,
    has_id: u8,
}

#[repr(C)]
struct CRequest {
    body: usize,
    operation: usize,
    key: usize,
    id: u32,
    flags: u8,
    target: u8,
}

#[repr(C)]
struct CFault {
    at: usize,
    number: u32,
}

extern "C" {
    fn giop_framer_new(framer: *mut Handle, limit: u32) -> u32;
    fn giop_framer_feed(framer: *mut Handle, octets: *const u8, size: usize) -> u32;
    fn giop_framer_next(framer: *mut Handle, message: *mut Head, fault: *mut CFault) -> u32;
    fn giop_framer_payload(framer: *mut Handle, buffer: *mut u8, room: usize, size: *mut usize) -> u32;
    fn giop_framer_rest(framer: *mut Handle, rest: *mut usize) -> u32;
    fn giop_framer_free(framer: *mut Handle);
    fn giop_header(
        octets: *const u8,
        size: usize,
        limit: u32,
        message: *mut Head,
        fault: *mut CFault,
    ) -> u32;
    fn giop_reply_head(
        message: *const Head,
        payload: *const u8,
        size: usize,
        reply: *mut ReplyHead,
        fault: *mut CFault,
    ) -> u32;
    fn giop_request_head(
        message: *const Head,
        payload: *const u8,
        size: usize,
        request: *mut CRequest,
        operation: *mut u8,
        operation_room: usize,
        key: *mut u8,
        key_room: usize,
        fault: *mut CFault,
    ) -> u32;
}

const OK: u32 = 0;
const CLOSED: u32 = 1;
const NO_MEMORY: u32 = 2;
const WAITS: u32 = 3;
const FAULT: u32 = 4;
const SMALL: u32 = 5;

/// What is wrong with a header, in the order in which headers are judged.
#[derive(Clone, Copy, Debug, PartialEq, Eq)]
#[non_exhaustive]
pub enum FaultKind {
    /// The first four octets aren't `GIOP`.
    BadMagic,
    /// The version is none of 1.0, 1.1 and 1.2.
    BadVersion,
    /// One of the six upper flags is set; in 1.0 the byte order is above 1.
    ReservedFlags,
    /// The message type is above 7, or 7 before 1.2.
    BadKind,
    /// The message size is above the limit.
    TooLarge,
    /// The message size isn't one of the message type.
    BadSize,
    /// More fragments follow, and the message is no multiple of 8 octets.
    FragmentSize,
    /// More fragments follow a message that none may continue.
    NotFragmentable,
}

/// Why octets are refused, and where.
#[derive(Clone, Copy, Debug, PartialEq, Eq)]
pub struct Fault {
    /// The offset of what is wrong, from the first octet of the message's header.
    pub at: usize,
    /// What is wrong there.
    pub kind: FaultKind,
}

impl Fault {
    fn of(fault: &CFault) -> Fault {
        let kind = match fault.number {
            1 => FaultKind::BadMagic,
            2 => FaultKind::BadVersion,
            3 => FaultKind::ReservedFlags,
            4 => FaultKind::BadKind,
            5 => FaultKind::TooLarge,
            6 => FaultKind::BadSize,
            7 => FaultKind::FragmentSize,
            _ => FaultKind::NotFragmentable,
        };
        Fault { at: fault.at, kind }
    }
}

impl fmt::Display for Fault {
    fn fmt(&self, f: &mut fmt::Formatter<'_>) -> fmt::Result {
        write!(f, "{:?} at {}", self.kind, self.at)
    }
}

impl error::Error for Fault {}

/// Why the head of a Request is refused, and where.
#[derive(Clone, Copy, Debug, PartialEq, Eq)]
pub struct HeadFault {
    /// The offset of what is wrong, from the first octet of the message's header.
    pub at: usize,
    /// The number of what is wrong: one of `GIOP_CDR_` in giop.h.
    pub number: u32,
}

impl fmt::Display for HeadFault {
    fn fmt(&self, f: &mut fmt::Formatter<'_>) -> fmt::Result {
        write!(f, "CDR fault {} at {}", self.number, self.at)
    }
}

impl error::Error for HeadFault {}

/// What the head of a Reply says (9.4.3).
#[repr(C)]
#[derive(Clone, Copy, Debug, PartialEq, Eq)]
pub struct ReplyHead {
    /// Where the body stands, from the first octet of the message's header.
    pub body: usize,
    /// How many service contexts it has.
    pub contexts: usize,
    /// The id of the request that is answered.
    pub id: u32,
    /// The reply status: 0 NO_EXCEPTION, 1 USER_EXCEPTION, 2 SYSTEM_EXCEPTION, 3 LOCATION_FORWARD; and in 1.2 alone
    /// 4 LOCATION_FORWARD_PERM, 5 NEEDS_ADDRESSING_MODE.
    pub status: u32,
}

/// What the head of a Request says (9.4.2).
#[derive(Clone, Debug, PartialEq, Eq)]
pub struct RequestHead {
    /// The request id.
    pub id: u32,
    /// The response flags: 0 for no reply, 1 for one without a body, 3 for a reply.
    pub flags: u8,
    /// The name of the operation, without its null.
    pub operation: Vec<u8>,
    /// The object's key, where the target is one.
    pub key: Option<Vec<u8>>,
    /// Where the body stands, from the first octet of the message's header.
    pub body: usize,
}

/// Why a call didn't do what it is for.
#[derive(Clone, Copy, Debug, PartialEq, Eq)]
pub enum Error {
    /// Memory ran out. Nothing has changed, and the call can be made again.
    NoMemory,
    /// The octets are refused, and stay so.
    Fault(Fault),
}

impl fmt::Display for Error {
    fn fmt(&self, f: &mut fmt::Formatter<'_>) -> fmt::Result {
        match self {
            Error::NoMemory => f.write_str("out of memory"),
            Error::Fault(fault) => fault.fmt(f),
        }
    }
}

impl error::Error for Error {
    fn source(&self) -> Option<&(dyn error::Error + 'static)> {
        match self {
            Error::NoMemory => None,
            Error::Fault(fault) => Some(fault),
        }
    }
}

/// The message types (9.4.1).
#[derive(Clone, Copy, Debug, PartialEq, Eq)]
pub enum Kind {
    /// Type 0.
    Request,
    /// Type 1.
    Reply,
    /// Type 2.
    CancelRequest,
    /// Type 3.
    LocateRequest,
    /// Type 4.
    LocateReply,
    /// Type 5.
    CloseConnection,
    /// Type 6.
    MessageError,
    /// Type 7.
    Fragment,
}

/// A message: what its header says, and its payload. One that was taken borrows the framer, so the next call of the
/// framer ends it; one that was [split off](Message::split_from) borrows the octets.
#[derive(Clone, Copy)]
pub struct Message<'a> {
    head: Head,
    payload: &'a [u8],
}

impl<'a> Message<'a> {
    /// The message at the front of octets, where all of it is there, and the octets behind it. Its size, which
    /// doesn't count the header, is at most the limit. It copies nothing.
    ///
    /// ```
    /// use giop::{Kind, Message};
    ///
    /// let octets = b"GIOP\x01\x02\x01\x05\0\0\0\0GIOP";
    /// let (message, behind) = Message::split_from(octets, 1_048_576)?.expect("a whole message");
    /// assert_eq!((message.kind(), behind), (Kind::CloseConnection, &b"GIOP"[..]));
    /// assert!(Message::split_from(behind, 1_048_576)?.is_none());
    /// # Ok::<(), giop::Fault>(())
    /// ```
    ///
    /// # Errors
    /// Why no header stands there, as soon as its twelve octets are there.
    pub fn split_from(octets: &'a [u8], limit: u32) -> Result<Option<(Message<'a>, &'a [u8])>, Fault> {
        let mut head = Head { minor: 0, little_endian: 0, more: 0, kind: 0, size: 0, id: 0, has_id: 0 };
        let mut fault = CFault { at: 0, number: 0 };
        // SAFETY: the slice is that long, and both structs may be written.
        match unsafe { giop_header(octets.as_ptr(), octets.len(), limit, &mut head, &mut fault) } {
            OK => Ok(octets.get(12..12 + head.size as usize).map(|payload| {
                (Message { head, payload }, &octets[12 + payload.len()..])
            })),
            WAITS => Ok(None),
            _ => Err(Fault::of(&fault)),
        }
    }

    /// The minor number of the version: 0, 1 or 2.
    pub fn minor(&self) -> u8 {
        self.head.minor
    }

    /// Whether the message is little endian.
    pub fn is_little_endian(&self) -> bool {
        self.head.little_endian == 1
    }

    /// Whether more fragments follow.
    pub fn has_more(&self) -> bool {
        self.head.more == 1
    }

    /// The message type.
    pub fn kind(&self) -> Kind {
        match self.head.kind {
            0 => Kind::Request,
            1 => Kind::Reply,
            2 => Kind::CancelRequest,
            3 => Kind::LocateRequest,
            4 => Kind::LocateReply,
            5 => Kind::CloseConnection,
            6 => Kind::MessageError,
            _ => Kind::Fragment,
        }
    }

    /// The request id (9.4.2 to 9.4.9); `None` of a CloseConnection, of a MessageError, and where the service
    /// contexts before it are wrong. An end that is fed the octets of messages changes what it has stored for
    /// their ids, and for no other.
    pub fn request_id(&self) -> Option<u32> {
        (self.head.has_id == 1).then_some(self.head.id)
    }

    /// The octets after the header.
    pub fn payload(&self) -> &'a [u8] {
        self.payload
    }

    /// The head of a Request that no Fragment continues; `None` of another message.
    ///
    /// # Errors
    /// Where and why the head is refused.
    pub fn request_head(&self) -> Option<Result<RequestHead, HeadFault>> {
        if self.kind() != Kind::Request || self.has_more() {
            return None;
        }
        let mut fault = CFault { at: 0, number: 0 };
        let mut head = CRequest { body: 0, operation: 0, key: 0, id: 0, flags: 0, target: 0 };
        // Neither is longer than the payload that it stands in.
        let (mut operation, mut key) = (vec![0; self.payload.len()], vec![0; self.payload.len()]);
        // SAFETY: each slice has the length that is said, and none overlaps another.
        let status = unsafe {
            giop_request_head(
                &self.head,
                self.payload.as_ptr(),
                self.payload.len(),
                &mut head,
                operation.as_mut_ptr(),
                operation.len(),
                key.as_mut_ptr(),
                key.len(),
                &mut fault,
            )
        };
        if status != OK {
            return Some(Err(HeadFault { at: fault.at, number: fault.number }));
        }
        operation.truncate(head.operation);
        key.truncate(head.key);
        let key = (head.target == 0).then_some(key);
        Some(Ok(RequestHead { id: head.id, flags: head.flags, operation, key, body: head.body }))
    }

    /// The head of a Reply that no Fragment continues; `None` of another message.
    ///
    /// # Errors
    /// Where and why the head is refused.
    pub fn reply_head(&self) -> Option<Result<ReplyHead, HeadFault>> {
        if self.kind() != Kind::Reply || self.has_more() {
            return None;
        }
        let mut fault = CFault { at: 0, number: 0 };
        let mut head = ReplyHead { body: 0, contexts: 0, id: 0, status: 0 };
        // SAFETY: the slice has the length that is said, and nothing overlaps it.
        let status = unsafe {
            giop_reply_head(&self.head, self.payload.as_ptr(), self.payload.len(), &mut head, &mut fault)
        };
        Some(match status {
            OK => Ok(head),
            _ => Err(HeadFault { at: fault.at, number: fault.number }),
        })
    }
}

impl fmt::Debug for Message<'_> {
    fn fmt(&self, f: &mut fmt::Formatter<'_>) -> fmt::Result {
        f.debug_struct("Message")
            .field("kind", &self.kind())
            .field("minor", &self.minor())
            .field("payload", &self.payload)
            .finish()
    }
}

/// Takes the octets of a stream in pieces of any size, and gives its messages.
///
/// It may go to another thread: that it is `Send` is proved of the handle. It isn't `Sync`.
pub struct Framer {
    handle: Handle,
    payload: Vec<u8>,
}

impl Framer {
    /// A framer that refuses each message whose size, which doesn't count the header, is above the limit.
    ///
    /// # Errors
    /// `NoMemory`.
    pub fn new(limit: u32) -> Result<Framer, Error> {
        let mut framer = Framer {
            handle: Handle { at: ptr::null_mut() },
            payload: Vec::new(),
        };
        // SAFETY: the handle is zeroed, which is a handle that holds nothing.
        match unsafe { giop_framer_new(&mut framer.handle, limit) } {
            OK => Ok(framer),
            _ => Err(Error::NoMemory),
        }
    }

    /// Appends octets to those that are unread, and judges none of them.
    ///
    /// # Errors
    /// `NoMemory`.
    pub fn feed(&mut self, octets: &[u8]) -> Result<(), Error> {
        // SAFETY: the handle was opened, and the slice is that long.
        match unsafe { giop_framer_feed(&mut self.handle, octets.as_ptr(), octets.len()) } {
            OK => Ok(()),
            _ => Err(Error::NoMemory),
        }
    }

    /// Takes the first message of the unread octets; `None` where more octets have to be fed.
    ///
    /// # Errors
    /// A fault of the octets, which stands for good; or `NoMemory`, and the message stands there still.
    #[allow(clippy::should_implement_trait)]
    pub fn next(&mut self) -> Result<Option<Message<'_>>, Error> {
        let mut head = Head { minor: 0, little_endian: 0, more: 0, kind: 0, size: 0, id: 0, has_id: 0 };
        let mut fault = CFault { at: 0, number: 0 };
        // SAFETY: the handle was opened, and both structs are written.
        match unsafe { giop_framer_next(&mut self.handle, &mut head, &mut fault) } {
            OK => {
                self.payload.resize(head.size as usize, 0);
                let mut size = 0;
                // SAFETY: the handle was opened, and the buffer has so much room.
                let _status = unsafe {
                    giop_framer_payload(&mut self.handle, self.payload.as_mut_ptr(), self.payload.len(), &mut size)
                };
                Ok(Some(Message { head, payload: &self.payload }))
            }
            WAITS => Ok(None),
            FAULT => Err(Error::Fault(Fault::of(&fault))),
            NO_MEMORY => Err(Error::NoMemory),
            other => unreachable!("giop_framer_next answered {other}"),
        }
    }

    /// The number of octets that are unread.
    pub fn rest(&mut self) -> usize {
        let mut rest = 0;
        // SAFETY: the handle was opened, and the number is written.
        let _status = unsafe { giop_framer_rest(&mut self.handle, &mut rest) };
        rest
    }
}

// SAFETY: crates/giop_c proves that the handle may go to another thread, and each call takes it by `&mut`, so that no
// two overlap.
unsafe impl Send for Framer {}

impl Drop for Framer {
    fn drop(&mut self) {
        // SAFETY: the handle was opened, or holds nothing.
        unsafe { giop_framer_free(&mut self.handle) }
    }
}
