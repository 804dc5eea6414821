//! References, corbalocs and IIOP profiles (CORBA 3.3 Part 2, 7.6 and 9.7.2).
//!
//! ```
//! use giop::{corbaloc_reference, reference_profile, IiopProfile};
//!
//! let text = corbaloc_reference(b"corbaloc::1.2@h/k")?;
//! let profile = reference_profile(&text, 0)?.expect("a profile");
//! let iiop = IiopProfile::read(&profile.octets)?;
//! assert_eq!((iiop.host.as_slice(), iiop.port, iiop.key.as_slice()), (&b"h"[..], 2809, &b"k"[..]));
//! # Ok::<(), Box<dyn std::error::Error>>(())
//! ```
//!
//! And the way back:
//!
//! ```
//! use giop::{reference_corbaloc, reference_octets, reference_text, reference_type_id, IiopParts};
//!
//! let parts = IiopParts { minor: 2, host: b"h", port: 2809, key: b"k" };
//! let text = parts.reference(b"IDL:Calculator:1.0")?;
//! assert_eq!(reference_type_id(&text)?, b"IDL:Calculator:1.0");
//! assert_eq!(reference_text(&reference_octets(&text)?)?, text);
//! assert_eq!(reference_corbaloc(&text)?.as_deref(), Some(&b"corbaloc:iiop:1.2@h:2809/k"[..]));
//! # Ok::<(), Box<dyn std::error::Error>>(())
//! ```
use crate::end::{copied, error_of};
use crate::{CFault, EndError, EndFault, HeadFault, NO_MEMORY, OK};
use std::error;
use std::fmt;

#[repr(C)]
struct CProfile {
    host: usize,
    key: usize,
    components: usize,
    port: u16,
    minor: u8,
}

extern "C" {
    fn giop_reference_profile(
        text: *const u8,
        size: usize,
        index: usize,
        tag: *mut u32,
        buffer: *mut u8,
        room: usize,
        octets: *mut usize,
        fault: *mut EndFault,
    ) -> u32;
    fn giop_iiop_profile(
        octets: *const u8,
        size: usize,
        profile: *mut CProfile,
        host: *mut u8,
        host_room: usize,
        key: *mut u8,
        key_room: usize,
        fault: *mut CFault,
    ) -> u32;
    fn giop_corbaloc_reference(
        text: *const u8,
        size: usize,
        buffer: *mut u8,
        room: usize,
        octets: *mut usize,
        fault: *mut CFault,
    ) -> u32;
    fn giop_reference_type_id(
        text: *const u8,
        size: usize,
        buffer: *mut u8,
        room: usize,
        octets: *mut usize,
        fault: *mut EndFault,
    ) -> u32;
    fn giop_reference_octets(
        text: *const u8,
        size: usize,
        buffer: *mut u8,
        room: usize,
        octets: *mut usize,
        fault: *mut EndFault,
    ) -> u32;
    fn giop_reference_text(
        octets: *const u8,
        size: usize,
        buffer: *mut u8,
        room: usize,
        text_size: *mut usize,
        fault: *mut EndFault,
    ) -> u32;
    fn giop_reference_corbaloc(
        text: *const u8,
        size: usize,
        buffer: *mut u8,
        room: usize,
        octets: *mut usize,
        fault: *mut EndFault,
    ) -> u32;
    fn giop_iiop_octets(
        minor: u8,
        host: *const u8,
        host_size: usize,
        port: u16,
        key: *const u8,
        key_size: usize,
        buffer: *mut u8,
        room: usize,
        octets: *mut usize,
    ) -> u32;
    fn giop_iiop_reference(
        type_id: *const u8,
        type_id_size: usize,
        minor: u8,
        host: *const u8,
        host_size: usize,
        port: u16,
        key: *const u8,
        key_size: usize,
        buffer: *mut u8,
        room: usize,
        octets: *mut usize,
    ) -> u32;
}

/// One way to reach an object (7.6.2): its octets mean what the tag says.
#[derive(Clone, Debug, PartialEq, Eq)]
pub struct TaggedProfile {
    /// What the octets are: 0 is an IIOP profile.
    pub tag: u32,
    /// The octets.
    pub octets: Vec<u8>,
}

/// The profile at an index of the reference that a text is, the first at 0; `None` where it has no such one. The text
/// is `IOR:` and hexadecimal digits (7.6.9).
///
/// # Errors
/// Why the text is refused, as TEXT or REFERENCE; or `NoMemory`.
pub fn reference_profile(text: &[u8], index: usize) -> Result<Option<TaggedProfile>, EndError> {
    let (mut tag, mut fault) = (0, EndFault::default());
    let octets = copied(|buffer, room, size| {
        // SAFETY: each buffer has the length that is said, and none overlaps another.
        unsafe {
            giop_reference_profile(text.as_ptr(), text.len(), index, &mut tag, buffer, room, size, &mut fault)
        }
    });
    match octets {
        Ok(octets) => Ok(octets.map(|octets| TaggedProfile { tag, octets })),
        Err(status) => Err(error_of(status, fault)),
    }
}

// A call of this form: octets in, a copy of octets out.
type ReferenceCall =
    unsafe extern "C" fn(*const u8, usize, *mut u8, usize, *mut usize, *mut EndFault) -> u32;

// What such a call copies; `None` where it answers that there is none.
fn called(call: ReferenceCall, given: &[u8]) -> Result<Option<Vec<u8>>, EndError> {
    let mut fault = EndFault::default();
    let copy = copied(|buffer, room, size| {
        // SAFETY: each buffer has the length that is said, and none overlaps another.
        unsafe { call(given.as_ptr(), given.len(), buffer, room, size, &mut fault) }
    });
    copy.map_err(|status| error_of(status, fault))
}

/// The type id (7.6.2) of the reference that a text is, which may be empty.
///
/// # Errors
/// Why the text is refused, as TEXT or REFERENCE; or `NoMemory`.
pub fn reference_type_id(text: &[u8]) -> Result<Vec<u8>, EndError> {
    Ok(called(giop_reference_type_id, text)?.unwrap_or_default())
}

/// The octets that the text of a reference says, of which the first is the byte order.
///
/// # Errors
/// Why the text is refused, as TEXT or REFERENCE; or `NoMemory`.
pub fn reference_octets(text: &[u8]) -> Result<Vec<u8>, EndError> {
    Ok(called(giop_reference_octets, text)?.unwrap_or_default())
}

/// The text that says the octets of a reference, of which the first is the byte order.
///
/// # Errors
/// Why the octets are refused, as REFERENCE; or `NoMemory`.
pub fn reference_text(octets: &[u8]) -> Result<Vec<u8>, EndError> {
    Ok(called(giop_reference_text, octets)?.unwrap_or_default())
}

/// The corbaloc (7.6.10.1) that says where the object of a reference is: an address for each IIOP profile that can be
/// read, and their key. `None` where none says it: there is no such profile, two have different keys, or a host has an
/// octet that none may have.
///
/// # Errors
/// Why the text of the reference is refused, as TEXT or REFERENCE; or `NoMemory`.
pub fn reference_corbaloc(text: &[u8]) -> Result<Option<Vec<u8>>, EndError> {
    called(giop_reference_corbaloc, text)
}

/// How an object is reached over IIOP (9.7.2).
#[derive(Clone, Debug, PartialEq, Eq)]
pub struct IiopProfile {
    /// The minor number of the version of IIOP; the major number is 1.
    pub minor: u8,
    /// The host's name or address.
    pub host: Vec<u8>,
    /// The TCP port.
    pub port: u16,
    /// The object's key.
    pub key: Vec<u8>,
    /// How many components it has.
    pub components: usize,
}

/// Why octets are no IIOP profile.
#[derive(Clone, Copy, Debug, PartialEq, Eq)]
pub enum ProfileError {
    /// Memory ran out.
    NoMemory,
    /// They are refused: the place counts from the first of them.
    Fault(HeadFault),
}

impl fmt::Display for ProfileError {
    fn fmt(&self, f: &mut fmt::Formatter<'_>) -> fmt::Result {
        match self {
            ProfileError::NoMemory => f.write_str("out of memory"),
            ProfileError::Fault(fault) => fault.fmt(f),
        }
    }
}

impl error::Error for ProfileError {}

impl IiopProfile {
    /// The profile that the octets of tag 0 are.
    ///
    /// # Errors
    /// Where and why they are refused; or `NoMemory`, of octets that are a profile.
    pub fn read(octets: &[u8]) -> Result<IiopProfile, ProfileError> {
        let mut fault = CFault { at: 0, number: 0 };
        let mut profile = CProfile { host: 0, key: 0, components: 0, port: 0, minor: 0 };
        // Neither is longer than the octets that it stands in.
        let (mut host, mut key) = (vec![0; octets.len()], vec![0; octets.len()]);
        // SAFETY: each slice has the length that is said, and none overlaps another.
        let status = unsafe {
            giop_iiop_profile(
                octets.as_ptr(),
                octets.len(),
                &mut profile,
                host.as_mut_ptr(),
                host.len(),
                key.as_mut_ptr(),
                key.len(),
                &mut fault,
            )
        };
        match status {
            OK => {
                host.truncate(profile.host);
                key.truncate(profile.key);
                let CProfile { components, port, minor, .. } = profile;
                Ok(IiopProfile { minor, host, port, key, components })
            }
            NO_MEMORY => Err(ProfileError::NoMemory),
            _ => Err(ProfileError::Fault(HeadFault { at: fault.at, number: fault.number })),
        }
    }
}

/// Why a profile or a reference can't be made of its parts.
#[derive(Clone, Copy, Debug, PartialEq, Eq)]
pub enum PartsError {
    /// Memory ran out.
    NoMemory,
    /// A null is in the type id or the host, or a part is too long for its count.
    Unfit,
}

impl fmt::Display for PartsError {
    fn fmt(&self, f: &mut fmt::Formatter<'_>) -> fmt::Result {
        f.write_str(match self {
            PartsError::NoMemory => "out of memory",
            PartsError::Unfit => "a null in a part, or a part that is too long",
        })
    }
}

impl error::Error for PartsError {}

/// Where an object is reached over IIOP, and by which key: of this profiles and references are made.
#[derive(Clone, Copy, Debug, PartialEq, Eq)]
pub struct IiopParts<'a> {
    /// The minor number of the version of IIOP; the major number is 1.
    pub minor: u8,
    /// The host's name or address.
    pub host: &'a [u8],
    /// The TCP port.
    pub port: u16,
    /// The object's key.
    pub key: &'a [u8],
}

impl IiopParts<'_> {
    /// The octets of the profile of these, without components.
    ///
    /// # Errors
    /// `Unfit`; or `NoMemory`.
    pub fn octets(&self) -> Result<Vec<u8>, PartsError> {
        let IiopParts { minor, host, port, key } = *self;
        made(|buffer, room, size| {
            // SAFETY: each buffer has the length that is said, and none overlaps another.
            unsafe {
                giop_iiop_octets(minor, host.as_ptr(), host.len(), port, key.as_ptr(), key.len(), buffer, room, size)
            }
        })
    }

    /// The text of the reference of this type id, which may be empty, with the profile of these alone.
    ///
    /// # Errors
    /// `Unfit`; or `NoMemory`.
    pub fn reference(&self, type_id: &[u8]) -> Result<Vec<u8>, PartsError> {
        let IiopParts { minor, host, port, key } = *self;
        made(|buffer, room, size| {
            // SAFETY: each buffer has the length that is said, and none overlaps another.
            unsafe {
                giop_iiop_reference(
                    type_id.as_ptr(),
                    type_id.len(),
                    minor,
                    host.as_ptr(),
                    host.len(),
                    port,
                    key.as_ptr(),
                    key.len(),
                    buffer,
                    room,
                    size,
                )
            }
        })
    }
}

// What a call copies that makes something of its parts.
fn made(call: impl FnMut(*mut u8, usize, *mut usize) -> u32) -> Result<Vec<u8>, PartsError> {
    match copied(call) {
        Ok(octets) => Ok(octets.unwrap_or_default()),
        Err(NO_MEMORY) => Err(PartsError::NoMemory),
        Err(_) => Err(PartsError::Unfit),
    }
}

/// Why a text is no corbaloc: the numbers are `GIOP_CORBALOC_` in giop.h.
#[derive(Clone, Copy, Debug, PartialEq, Eq)]
pub enum CorbalocError {
    /// Memory ran out.
    NoMemory,
    /// The text is refused.
    Refused {
        /// The place of what is wrong, from the first octet of the text.
        at: usize,
        /// What is wrong.
        number: u32,
    },
}

impl fmt::Display for CorbalocError {
    fn fmt(&self, f: &mut fmt::Formatter<'_>) -> fmt::Result {
        match self {
            CorbalocError::NoMemory => f.write_str("out of memory"),
            CorbalocError::Refused { at, number } => write!(f, "no corbaloc: fault {number} at {at}"),
        }
    }
}

impl error::Error for CorbalocError {}

/// The text of the reference of a corbaloc (7.6.10.1): no type id, and an IIOP profile for each address.
///
/// # Errors
/// Where and why the text is refused; or `NoMemory`.
pub fn corbaloc_reference(text: &[u8]) -> Result<Vec<u8>, CorbalocError> {
    let mut fault = CFault { at: 0, number: 0 };
    let copy = copied(|buffer, room, size| {
        // SAFETY: each buffer has the length that is said, and none overlaps another.
        unsafe { giop_corbaloc_reference(text.as_ptr(), text.len(), buffer, room, size, &mut fault) }
    });
    match copy {
        Ok(octets) => Ok(octets.unwrap_or_default()),
        Err(NO_MEMORY) => Err(CorbalocError::NoMemory),
        Err(_) => Err(CorbalocError::Refused { at: fault.at, number: fault.number }),
    }
}
