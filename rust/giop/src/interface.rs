//! An interface: what the operations of an object take and give.
use crate::end::{copied, error_of, EndError, EndFault};
use crate::{Handle, ValueForm, Values, FAULT, OK};
use std::error;
use std::fmt;
use std::ptr;

#[repr(C)]
struct CTextFault {
    number: u32,
    description: u32,
}

extern "C" {
    fn giop_interface_new(interface: *mut Handle, json: *const u8, size: usize, fault: *mut CTextFault) -> u32;
    fn giop_interface_free(interface: *mut Handle);
    fn giop_interface_convert(
        interface: *mut Handle,
        which: u32,
        name: *const u8,
        name_size: usize,
        given_values: u32,
        given: *const u8,
        given_size: usize,
        wanted_values: u32,
        buffer: *mut u8,
        room: usize,
        size: *mut usize,
        fault: *mut EndFault,
    ) -> u32;
}

/// Why an interface wasn't made.
#[derive(Clone, Copy, Debug, PartialEq, Eq)]
pub enum InterfaceError {
    /// Memory ran out.
    NoMemory,
    /// The text is refused: one of `GIOP_TEXT_` in giop.h, and the number of a description's fault, or 0.
    Refused {
        /// What is wrong with the text.
        number: u32,
        /// What is wrong with a description.
        description: u32,
    },
}

impl fmt::Display for InterfaceError {
    fn fmt(&self, f: &mut fmt::Formatter<'_>) -> fmt::Result {
        match self {
            InterfaceError::NoMemory => f.write_str("out of memory"),
            InterfaceError::Refused { number, .. } => write!(f, "no interface: fault {number}"),
        }
    }
}

impl error::Error for InterfaceError {}

/// What the operations of an object take and give.
///
/// It may go to another thread: that it is `Send` is proved of the handle. It isn't `Sync`.
pub struct Interface {
    pub(crate) handle: Handle,
}

impl Interface {
    /// The interface that a text of JSON says (docs/FORMATS.md). Types may have names in it.
    ///
    /// # Errors
    /// Why the text is refused.
    pub fn from_json(json: &[u8]) -> Result<Interface, InterfaceError> {
        let mut interface = Interface { handle: Handle { at: ptr::null_mut() } };
        let mut fault = CTextFault { number: 0, description: 0 };
        // SAFETY: the handle is zeroed, which is one that holds nothing, and the slice is that long.
        match unsafe { giop_interface_new(&mut interface.handle, json.as_ptr(), json.len(), &mut fault) } {
            OK => Ok(interface),
            FAULT => Err(InterfaceError::Refused { number: fault.number, description: fault.description }),
            _ => Err(InterfaceError::NoMemory),
        }
    }

    /// Values of the interface in another form than the one in which they are given; `None` where it has no
    /// such operation or exception.
    ///
    /// # Errors
    /// Why what is given is refused.
    pub fn convert(
        &mut self,
        values: Values<'_>,
        given: ValueForm,
        octets: &[u8],
        wanted: ValueForm,
    ) -> Result<Option<Vec<u8>>, EndError> {
        let (mut fault, (which, name)) = (EndFault::default(), values.written());
        // SAFETY: the handle was opened, each slice is that long, and the buffer has so much room.
        let call = |at, room, size| unsafe {
            giop_interface_convert(
                &mut self.handle,
                which,
                name.as_ptr(),
                name.len(),
                given.number(),
                octets.as_ptr(),
                octets.len(),
                wanted.number(),
                at,
                room,
                size,
                &mut fault,
            )
        };
        copied(call).map_err(|status| error_of(status, fault))
    }
}

// SAFETY: crates/giop_c proves that the handle may go to another thread, and each call takes it by `&mut` or this
// type by `&`, which isn't `Sync`, so that no two overlap.
unsafe impl Send for Interface {}

impl Drop for Interface {
    fn drop(&mut self) {
        // SAFETY: the handle was opened, or holds nothing.
        unsafe { giop_interface_free(&mut self.handle) }
    }
}

