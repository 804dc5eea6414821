//! What both ends of a connection share: limits, forms and faults.
use crate::{CLOSED, FAULT, NO_MEMORY, OK, SMALL, WAITS};
use std::error;
use std::fmt;

/// What an end may hold at most. A limit is met where the next message would pass it.
#[repr(C)]
#[derive(Clone, Copy, Debug, PartialEq, Eq)]
pub struct Limits {
    /// The octets of all messages of which a piece is still to come: at most 2^62.
    pub gathered: u64,
    /// Entries in the table, those of calls that are over and not taken out included.
    pub calls: u32,
    /// The size of a message in octets, without its header.
    pub message: u32,
}

impl Default for Limits {
    /// 8 MiB of gathered octets, 1,024 entries and messages of 1 MiB.
    fn default() -> Limits {
        Limits { gathered: 8 << 20, calls: 1 << 10, message: 1 << 20 }
    }
}

#[repr(C)]
pub(crate) struct CForm {
    piece: u32,
    little_endian: u32,
}

/// How a message is sent.
#[derive(Clone, Copy, Debug, PartialEq, Eq)]
pub struct Form {
    /// How many octets a piece has at most, its header counted: a multiple of 8, and 24 at least.
    pub piece: u32,
    /// Whether the message is little endian.
    pub little_endian: bool,
}

impl Default for Form {
    /// Big endian, in pieces of 4,096 octets.
    fn default() -> Form {
        Form { piece: 4096, little_endian: false }
    }
}

impl Form {
    pub(crate) fn written(self) -> CForm {
        CForm { piece: self.piece, little_endian: self.little_endian.into() }
    }
}

/// Why an end fails, or refuses a call of its program: the numbers are `GIOP_END_` in giop.h.
#[repr(C)]
#[derive(Clone, Copy, Debug, Default, PartialEq, Eq)]
pub struct EndFault {
    /// The place of what is wrong with octets; else 0.
    pub at: usize,
    /// What is wrong.
    pub number: u32,
    /// What is wrong in the part that the fault is of; else 0.
    pub part: u32,
    /// The request id of the call that it is of; else 0.
    pub id: u32,
}

/// Why a call of an end did nothing.
#[derive(Clone, Copy, Debug, PartialEq, Eq)]
pub enum EndError {
    /// Memory ran out. Where it did so in `feed`, the end has failed for good.
    NoMemory,
    /// It is refused, or the end has failed.
    Fault(EndFault),
}

impl fmt::Display for EndFault {
    fn fmt(&self, f: &mut fmt::Formatter<'_>) -> fmt::Result {
        write!(f, "fault {}.{} of call {} at {}", self.number, self.part, self.id, self.at)
    }
}

impl error::Error for EndFault {}

impl fmt::Display for EndError {
    fn fmt(&self, f: &mut fmt::Formatter<'_>) -> fmt::Result {
        match self {
            EndError::NoMemory => f.write_str("out of memory"),
            EndError::Fault(fault) => fault.fmt(f),
        }
    }
}

impl error::Error for EndError {
    fn source(&self) -> Option<&(dyn error::Error + 'static)> {
        match self {
            EndError::NoMemory => None,
            EndError::Fault(fault) => Some(fault),
        }
    }
}

// Octets that a call copies into a buffer: it is asked for their size first.
pub(crate) fn copied(mut call: impl FnMut(*mut u8, usize, *mut usize) -> u32) -> Result<Option<Vec<u8>>, u32> {
    let (mut octets, mut size) = (Vec::new(), 0);
    loop {
        match call(octets.as_mut_ptr(), octets.len(), &mut size) {
            OK => {
                octets.truncate(size);
                return Ok(Some(octets));
            }
            SMALL => octets.resize(size, 0),
            WAITS => return Ok(None),
            other => return Err(other),
        }
    }
}

pub(crate) fn told(status: u32, fault: EndFault) -> Result<(), EndError> {
    match status {
        OK => Ok(()),
        other => Err(error_of(other, fault)),
    }
}

pub(crate) fn error_of(status: u32, fault: EndFault) -> EndError {
    match status {
        FAULT => EndError::Fault(fault),
        NO_MEMORY => EndError::NoMemory,
        CLOSED => unreachable!("the handle was opened"),
        other => unreachable!("an end answered {other}"),
    }
}
