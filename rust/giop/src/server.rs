//! The end of a connection that answers calls.
use crate::end::{copied, error_of, told, CForm, EndError, EndFault, Form, Limits};
use crate::{Handle, HeadFault, Interface, ValueForm, OK};
use std::ptr;

#[repr(C)]
#[derive(Clone, Copy, Default)]
struct CEntry {
    operation: usize,
    key: usize,
    contexts: usize,
    at: usize,
    number: u32,
    left: u32,
    status: u32,
    part: u8,
    kind: u8,
    awaits: u8,
    over: u8,
    outcome: u8,
    flags: u8,
}

/// What is stored for the id of a call.
#[derive(Clone, Copy, Debug, PartialEq, Eq)]
#[non_exhaustive]
pub enum CallKind {
    /// Nothing.
    Nothing,
    /// A first piece of it came, its last didn't.
    Gathering,
    /// A Request that expects a reply came whole, and isn't answered.
    Asked,
    /// A Request or a LocateRequest came whole that can't be decoded.
    Undecoded,
    /// A LocateRequest came whole, and isn't answered.
    LocateAsked,
    /// A Request was answered.
    Answered,
    /// A LocateRequest was answered.
    LocateAnswered,
    /// A Request without a reply came whole.
    Delivered,
    /// A CancelRequest came for it.
    Cancelled,
}

/// What a call waits for.
#[derive(Clone, Copy, Debug, PartialEq, Eq)]
pub enum Awaits {
    /// Nothing.
    Nothing,
    /// A Reply.
    Reply,
    /// A LocateReply.
    LocateReply,
}

/// Why a call can't be decoded: in its head, its operation or its body.
#[derive(Clone, Copy, Debug, PartialEq, Eq)]
pub enum RequestFault {
    /// A field of the head is refused.
    Head(HeadFault),
    /// The interface has no such operation.
    Operation,
    /// A value of the body is refused, or octets are left behind it.
    Body(HeadFault),
}

/// What is stored for an id, but its octets.
#[derive(Clone, Copy, Debug, PartialEq, Eq)]
pub struct Entry {
    /// What it is.
    pub kind: CallKind,
    /// What the call waits for.
    pub awaits: Awaits,
    /// Whether the call is over, and may be taken out.
    pub is_over: bool,
    /// How many pieces of the reply aren't sent yet.
    pub left: u32,
    /// The reply status of an answered Request, or the locate status; else 0.
    pub status: u32,
    /// The response flags of the Request; 0 where none is known.
    pub flags: u8,
    /// How many service contexts the Request has; 0 where none is known.
    pub contexts: usize,
    /// What is wrong with a call that can't be decoded, and where.
    pub fault: Option<RequestFault>,
}

extern "C" {
    fn giop_server_new(server: *mut Handle, interface: *mut Handle, limits: *const Limits) -> u32;
    fn giop_server_feed(server: *mut Handle, octets: *const u8, size: usize, fault: *mut EndFault) -> u32;
    fn giop_server_outgoing(server: *mut Handle, buffer: *mut u8, room: usize, size: *mut usize) -> u32;
    fn giop_server_wrote(server: *mut Handle, size: usize) -> u32;
    fn giop_server_ids(server: *mut Handle, ids: *mut u32, room: usize, count: *mut usize) -> u32;
    fn giop_server_entry_of(server: *mut Handle, id: u32, entry: *mut CEntry) -> u32;
    fn giop_server_operation(server: *mut Handle, id: u32, buffer: *mut u8, room: usize, size: *mut usize) -> u32;
    fn giop_server_key(server: *mut Handle, id: u32, buffer: *mut u8, room: usize, size: *mut usize) -> u32;
    fn giop_server_ins(
        server: *mut Handle,
        id: u32,
        values: u32,
        buffer: *mut u8,
        room: usize,
        size: *mut usize,
    ) -> u32;
    fn giop_server_answer(
        server: *mut Handle,
        id: u32,
        values: u32,
        outs: *const u8,
        size: usize,
        form: *const CForm,
        fault: *mut EndFault,
    ) -> u32;
    fn giop_server_answer_user(
        server: *mut Handle,
        id: u32,
        exception: *const u8,
        exception_size: usize,
        values: u32,
        members: *const u8,
        members_size: usize,
        form: *const CForm,
        fault: *mut EndFault,
    ) -> u32;
    fn giop_server_answer_system(
        server: *mut Handle,
        id: u32,
        exception: *const u8,
        exception_size: usize,
        minor: u32,
        completion: u32,
        form: *const CForm,
        fault: *mut EndFault,
    ) -> u32;
    fn giop_server_answer_forward(
        server: *mut Handle,
        id: u32,
        reference: *const u8,
        size: usize,
        permanent: u32,
        form: *const CForm,
        fault: *mut EndFault,
    ) -> u32;
    fn giop_server_context(
        server: *mut Handle,
        id: u32,
        index: usize,
        service: *mut u32,
        buffer: *mut u8,
        room: usize,
        size: *mut usize,
    ) -> u32;
    fn giop_server_answer_locate(
        server: *mut Handle,
        id: u32,
        here: u32,
        little_endian: u32,
        fault: *mut EndFault,
    ) -> u32;
    fn giop_server_send(server: *mut Handle, id: u32, fault: *mut EndFault) -> u32;
    fn giop_server_take(server: *mut Handle, id: u32, fault: *mut EndFault) -> u32;
    fn giop_server_close(server: *mut Handle, fault: *mut EndFault) -> u32;
    fn giop_server_error_message(server: *mut Handle, buffer: *mut u8, room: usize, size: *mut usize) -> u32;
    fn giop_server_rest(server: *mut Handle, rest: *mut usize) -> u32;
    fn giop_server_blocks(server: *mut Handle, count: *mut usize) -> u32;
    fn giop_server_free(server: *mut Handle);
}

/// The end of a connection that answers calls, without IO: it is fed what was read of the client, keeps the
/// calls by their request ids, and says what is to be written.
///
/// Values cross in the form that you say, a [`ValueForm`]: as CDR octets or as JSON.
/// It may go to another thread: that it is `Send` is proved of the handle. It isn't `Sync`.
///
/// ```
/// use giop::{Awaits, Form, Interface, Limits, Server, ValueForm};
///
/// let json = br#"{"operations":{"twice":{"ins":[["n","long"]],"outs":[["r","long"]]}}}"#;
/// let mut server = Server::new(&mut Interface::from_json(json)?, Limits::default())?;
/// // A Request of 1.2, big endian, of id 5 to the key "k": twice 21. It comes in two reads.
/// server.feed(b"GIOP\x01\x02\0\0\0\0\0\x28\0\0\0\x05\x03\0\0\0\0\0\0\0\0\0\0\x01k\0\0\0")?;
/// server.feed(b"\0\0\0\x06twice\0\0\0\0\0\0\0\0\0\0\x15")?;
/// assert_eq!(server.ids()?, [5]);
/// assert_eq!(server.entry(5).awaits, Awaits::Reply);
/// assert_eq!(server.operation(5).as_deref(), Some(&b"twice"[..]));
/// assert_eq!(server.ins(5, ValueForm::BigEndian)?.as_deref(), Some(&[0, 0, 0, 21][..]));
/// server.answer(5, ValueForm::Json, b"[42]", Form::default())?;
/// let written = server.outgoing().len();
/// assert_eq!(written, 28);
/// assert!(server.wrote(written));
/// server.take(5)?;
/// # Ok::<(), Box<dyn std::error::Error>>(())
/// ```
pub struct Server {
    handle: Handle,
    octets: Vec<u8>,
}

impl Server {
    /// A server's end without calls, which keeps a share of the interface.
    ///
    /// # Errors
    /// `NoMemory`; or a `Fault` of number 0, where the limit `gathered` is above 2^62.
    pub fn new(interface: &mut Interface, limits: Limits) -> Result<Server, EndError> {
        let mut server = Server { handle: Handle { at: ptr::null_mut() }, octets: Vec::new() };
        // SAFETY: the handle is zeroed, which is one that holds nothing, and the interface's was opened.
        let status = unsafe { giop_server_new(&mut server.handle, &mut interface.handle, &limits) };
        told(status, EndFault::default()).map(|()| server)
    }

    /// Takes in octets of the client, any number of them.
    ///
    /// # Errors
    /// The fault that has failed the end, which it has from then on.
    pub fn feed(&mut self, octets: &[u8]) -> Result<(), EndError> {
        let mut fault = EndFault::default();
        // SAFETY: the handle was opened, and the slice is that long.
        let status = unsafe { giop_server_feed(&mut self.handle, octets.as_ptr(), octets.len(), &mut fault) };
        told(status, fault)
    }

    /// The octets that are to be written, which stay until `wrote`.
    pub fn outgoing(&mut self) -> &[u8] {
        let mut size = 0;
        // SAFETY: the handle was opened, and nothing is copied where there is no room.
        unsafe { giop_server_outgoing(&mut self.handle, ptr::null_mut(), 0, &mut size) };
        self.octets.resize(size, 0);
        // SAFETY: the handle was opened, and the buffer has so much room.
        unsafe { giop_server_outgoing(&mut self.handle, self.octets.as_mut_ptr(), size, &mut size) };
        &self.octets
    }

    /// The first octets that are to be written were, so many of them. False, where fewer are to be written,
    /// and nothing has changed.
    #[must_use]
    pub fn wrote(&mut self, size: usize) -> bool {
        // SAFETY: the handle was opened.
        unsafe { giop_server_wrote(&mut self.handle, size) == OK }
    }

    /// The request ids for which something is stored, ascending.
    ///
    /// # Errors
    /// `NoMemory`.
    pub fn ids(&mut self) -> Result<Vec<u32>, EndError> {
        let (mut ids, mut count) = (Vec::new(), 0);
        loop {
            // SAFETY: the handle was opened, and the array has so much room.
            let status = unsafe { giop_server_ids(&mut self.handle, ids.as_mut_ptr(), ids.len(), &mut count) };
            told(status, EndFault::default())?;
            if count <= ids.len() {
                ids.truncate(count);
                return Ok(ids);
            }
            ids.resize(count, 0);
        }
    }

    /// What is stored for an id.
    pub fn entry(&mut self, id: u32) -> Entry {
        let mut entry = CEntry::default();
        // SAFETY: the handle was opened, and the struct is written.
        unsafe { giop_server_entry_of(&mut self.handle, id, &mut entry) };
        let kind = match entry.kind {
            1 => CallKind::Gathering,
            2 => CallKind::Asked,
            3 => CallKind::Undecoded,
            4 => CallKind::LocateAsked,
            5 => CallKind::Answered,
            6 => CallKind::LocateAnswered,
            7 => CallKind::Delivered,
            8 => CallKind::Cancelled,
            _ => CallKind::Nothing,
        };
        let awaits = match entry.awaits {
            1 => Awaits::Reply,
            2 => Awaits::LocateReply,
            _ => Awaits::Nothing,
        };
        let CEntry { over, left, status, flags, contexts, at, number, .. } = entry;
        let fault = match entry.part {
            1 => Some(RequestFault::Head(HeadFault { at, number })),
            2 => Some(RequestFault::Operation),
            3 => Some(RequestFault::Body(HeadFault { at, number })),
            _ => None,
        };
        Entry { kind, awaits, is_over: over == 1, left, status, flags, contexts, fault }
    }

    /// The operation of the Request under an id, without its null; `None` where no Request is known.
    pub fn operation(&mut self, id: u32) -> Option<Vec<u8>> {
        // SAFETY: the handle was opened, and the buffer has so much room.
        let call = |at, room, size| unsafe { giop_server_operation(&mut self.handle, id, at, room, size) };
        copied(call).ok().flatten()
    }

    /// The key of the object of the Request or the LocateRequest under an id, empty where the target is no key;
    /// `None` where neither is known.
    pub fn key(&mut self, id: u32) -> Option<Vec<u8>> {
        // SAFETY: the handle was opened, and the buffer has so much room.
        let call = |at, room, size| unsafe { giop_server_key(&mut self.handle, id, at, room, size) };
        copied(call).ok().flatten()
    }

    /// A service context (7.7) of the Request under an id, the first at index 0: the id of its service, and its
    /// octets. `None` where there is no such context.
    pub fn context(&mut self, id: u32, index: usize) -> Option<(u32, Vec<u8>)> {
        let mut service = 0;
        // SAFETY: the handle was opened, and the buffer has so much room.
        let call = |at, room, size| unsafe {
            giop_server_context(&mut self.handle, id, index, &mut service, at, room, size)
        };
        let octets = copied(call).ok().flatten()?;
        Some((service, octets))
    }

    /// The ins of the Request under an id, in a form; `None` where no Request is known.
    ///
    /// # Errors
    /// `NoMemory`.
    pub fn ins(&mut self, id: u32, values: ValueForm) -> Result<Option<Vec<u8>>, EndError> {
        let form = values.number();
        // SAFETY: the handle was opened, and the buffer has so much room.
        let call = |at, room, size| unsafe { giop_server_ins(&mut self.handle, id, form, at, room, size) };
        copied(call).map_err(|status| error_of(status, EndFault::default()))
    }

    /// Answers a Request without an exception, by the octets of its outs in a form. The first piece of the
    /// Reply is outgoing then, and `send` puts out each other one.
    ///
    /// # Errors
    /// Why it isn't sent; nothing has changed then.
    pub fn answer(&mut self, id: u32, values: ValueForm, outs: &[u8], form: Form) -> Result<(), EndError> {
        let (mut fault, values, form) = (EndFault::default(), values.number(), form.written());
        // SAFETY: the handle was opened, and the slice is that long.
        let status = unsafe {
            giop_server_answer(&mut self.handle, id, values, outs.as_ptr(), outs.len(), &form, &mut fault)
        };
        told(status, fault)
    }

    /// Answers a Request by an exception of the interface: its repository id, and the octets of its members
    /// in a form.
    ///
    /// # Errors
    /// Why it isn't sent; nothing has changed then.
    pub fn answer_user(
        &mut self,
        id: u32,
        exception: &[u8],
        values: ValueForm,
        members: &[u8],
        form: Form,
    ) -> Result<(), EndError> {
        let (mut fault, form) = (EndFault::default(), form.written());
        // SAFETY: the handle was opened, and both slices are that long.
        let status = unsafe {
            giop_server_answer_user(
                &mut self.handle,
                id,
                exception.as_ptr(),
                exception.len(),
                values.number(),
                members.as_ptr(),
                members.len(),
                &form,
                &mut fault,
            )
        };
        told(status, fault)
    }

    /// Answers a Request by an exception of the broker: its repository id, a minor code, and whether the
    /// operation was completed, where that is known.
    ///
    /// # Errors
    /// Why it isn't sent; nothing has changed then.
    pub fn answer_system(
        &mut self,
        id: u32,
        exception: &[u8],
        minor: u32,
        completed: Option<bool>,
        form: Form,
    ) -> Result<(), EndError> {
        let (mut fault, form) = (EndFault::default(), form.written());
        let completion = completed.map_or(2, |yes| u32::from(!yes));
        let (at, size) = (exception.as_ptr(), exception.len());
        // SAFETY: the handle was opened, and the slice is that long.
        let status = unsafe {
            giop_server_answer_system(&mut self.handle, id, at, size, minor, completion, &form, &mut fault)
        };
        told(status, fault)
    }

    /// Answers a Request by where its object is: a reference, as its text, `IOR:` and digits. It is from now on
    /// where it is permanent, in 1.2 alone; else for this request.
    ///
    /// # Errors
    /// Why it isn't sent; nothing has changed then.
    pub fn answer_forward(&mut self, id: u32, reference: &str, permanent: bool, form: Form) -> Result<(), EndError> {
        let (mut fault, form) = (EndFault::default(), form.written());
        let (at, size) = (reference.as_ptr(), reference.len());
        // SAFETY: the handle was opened, and the text is that long.
        let status = unsafe {
            giop_server_answer_forward(&mut self.handle, id, at, size, permanent.into(), &form, &mut fault)
        };
        told(status, fault)
    }

    /// Answers a LocateRequest: whether the object is here.
    ///
    /// # Errors
    /// Why it isn't sent; nothing has changed then.
    pub fn answer_locate(&mut self, id: u32, here: bool, little_endian: bool) -> Result<(), EndError> {
        let mut fault = EndFault::default();
        // SAFETY: the handle was opened.
        let status = unsafe {
            giop_server_answer_locate(&mut self.handle, id, here.into(), little_endian.into(), &mut fault)
        };
        told(status, fault)
    }

    /// Puts out the next piece of a Reply.
    ///
    /// # Errors
    /// Why there is none; nothing has changed then.
    pub fn send(&mut self, id: u32) -> Result<(), EndError> {
        let mut fault = EndFault::default();
        // SAFETY: the handle was opened.
        let status = unsafe { giop_server_send(&mut self.handle, id, &mut fault) };
        told(status, fault)
    }

    /// Takes what is stored for an id out of the table, where its call is over.
    ///
    /// # Errors
    /// That it isn't over; nothing has changed then.
    pub fn take(&mut self, id: u32) -> Result<(), EndError> {
        let mut fault = EndFault::default();
        // SAFETY: the handle was opened.
        let status = unsafe { giop_server_take(&mut self.handle, id, &mut fault) };
        told(status, fault)
    }

    /// Closes the connection: a CloseConnection is outgoing then.
    ///
    /// # Errors
    /// The fault that the end has.
    pub fn close(&mut self) -> Result<(), EndError> {
        let mut fault = EndFault::default();
        // SAFETY: the handle was opened.
        let status = unsafe { giop_server_close(&mut self.handle, &mut fault) };
        told(status, fault)
    }

    /// The MessageError that the client is to be sent after the end's fault, where that asks for one.
    pub fn error_message(&mut self) -> Option<Vec<u8>> {
        // SAFETY: the handle was opened, and the buffer has so much room.
        let call = |at, room, size| unsafe { giop_server_error_message(&mut self.handle, at, room, size) };
        copied(call).ok().flatten()
    }

    /// The number of octets that are unread.
    pub fn rest(&mut self) -> usize {
        let mut rest = 0;
        // SAFETY: the handle was opened, and the number is written.
        unsafe { giop_server_rest(&mut self.handle, &mut rest) };
        rest
    }

    /// How many blocks of 512 octets the end has taken for pieces of Requests.
    pub fn blocks(&mut self) -> usize {
        let mut count = 0;
        // SAFETY: the handle was opened, and the number is written.
        unsafe { giop_server_blocks(&mut self.handle, &mut count) };
        count
    }
}

// SAFETY: crates/giop_c proves that the handle may go to another thread, and each call takes it by `&mut` or this
// type by `&`, which isn't `Sync`, so that no two overlap.
unsafe impl Send for Server {}

impl Drop for Server {
    fn drop(&mut self) {
        // SAFETY: the handle was opened, or holds nothing.
        unsafe { giop_server_free(&mut self.handle) }
    }
}
