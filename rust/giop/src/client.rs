//! The end of a connection that calls.
use crate::end::{copied, error_of, told, CForm, EndError, EndFault, Form, Limits};
use crate::{Handle, HeadFault, Interface, ValueForm, OK};
use std::ptr;

#[repr(C)]
struct CCall {
    minor: u8,
    flags: u8,
    target: u8,
}

/// Which object a call is for.
#[derive(Clone, Copy, Debug, PartialEq, Eq)]
pub enum Target<'a> {
    /// The object's key, as its own broker reads it.
    Key(&'a [u8]),
    /// The data of an IIOP profile of it (9.7.2): in 1.2 alone.
    Profile(&'a [u8]),
}

/// How a call is made, and for which object.
#[derive(Clone, Copy, Debug, PartialEq, Eq)]
pub struct Call<'a> {
    /// The minor number of the version: 0, 1 or 2.
    pub minor: u8,
    /// The response flags of a Request: 0 for no reply, 1 for one whose body is empty unless it is an
    /// exception, 3 for a reply; before 1.2 0 or 3.
    pub flags: u8,
    /// The object.
    pub target: Target<'a>,
}

impl<'a> Call<'a> {
    /// A call in 1.2, with a reply, of the object that has this key.
    pub fn of_key(key: &'a [u8]) -> Call<'a> {
        Call { minor: 2, flags: 3, target: Target::Key(key) }
    }

    fn written(&self) -> (CCall, &'a [u8]) {
        let (target, octets) = match self.target {
            Target::Key(octets) => (0, octets),
            Target::Profile(octets) => (1, octets),
        };
        (CCall { minor: self.minor, flags: self.flags, target }, octets)
    }
}

#[repr(C)]
#[derive(Clone, Copy, Default)]
struct CEntry {
    exception: usize,
    contexts: usize,
    at: usize,
    number: u32,
    left: u32,
    status: u32,
    minor: u32,
    completion: u32,
    addressing: i16,
    kind: u8,
    over: u8,
    outcome: u8,
}

/// What is stored for the id of a call.
#[derive(Clone, Copy, Debug, PartialEq, Eq)]
#[non_exhaustive]
pub enum ClientKind {
    /// Nothing.
    Nothing,
    /// The first piece of its reply came, the last didn't.
    Gathering,
    /// Its reply came and can't be decoded.
    Undecoded,
    /// It was cancelled.
    Cancelled,
    /// Its first piece went out, its last didn't.
    Sending,
    /// All of it went out, and nothing of its reply came.
    Waiting,
    /// It was a Request, and its Reply came.
    Done,
    /// It was a LocateRequest, and its LocateReply came.
    LocateDone,
    /// It was a Request without a reply, and all of it went out.
    OnewaySent,
}

/// What is stored for an id, but its octets.
#[derive(Clone, Copy, Debug, PartialEq, Eq)]
pub struct ClientEntry {
    /// What it is.
    pub kind: ClientKind,
    /// Whether the call is over, and may be taken out.
    pub is_over: bool,
    /// How many pieces of the call aren't sent yet.
    pub left: u32,
    /// The reply status of the Reply (9.4.3), or the locate status of the LocateReply (9.4.6); else 0.
    pub status: u32,
    /// The minor code of an exception of the broker; else 0.
    pub minor: u32,
    /// Whether the operation of such an exception was completed; `None` where that isn't known.
    pub completed: Option<bool>,
    /// The addressing disposition that a Reply of status 5 asks for; else 0.
    pub addressing: i16,
    /// How many service contexts the Reply has; 0 where none came.
    pub contexts: usize,
    /// What is wrong with a reply that can't be decoded, and where.
    pub fault: Option<HeadFault>,
}

impl ClientEntry {
    fn of(entry: &CEntry) -> ClientEntry {
        let kind = match entry.kind {
            1 => ClientKind::Gathering,
            3 => ClientKind::Undecoded,
            8 => ClientKind::Cancelled,
            9 => ClientKind::Sending,
            10 => ClientKind::Waiting,
            11 => ClientKind::Done,
            12 => ClientKind::LocateDone,
            13 => ClientKind::OnewaySent,
            _ => ClientKind::Nothing,
        };
        let completed = match (kind, entry.status, entry.completion) {
            (ClientKind::Done, 2, 0) => Some(true),
            (ClientKind::Done, 2, 1) => Some(false),
            _ => None,
        };
        let &CEntry { over, left, status, minor, addressing, contexts, at, number, .. } = entry;
        let fault = (kind == ClientKind::Undecoded).then_some(HeadFault { at, number });
        ClientEntry { kind, is_over: over == 1, left, status, minor, completed, addressing, contexts, fault }
    }
}

extern "C" {
    fn giop_client_new(client: *mut Handle, interface: *mut Handle, limits: *const Limits) -> u32;
    fn giop_client_feed(client: *mut Handle, octets: *const u8, size: usize, fault: *mut EndFault) -> u32;
    fn giop_client_outgoing(client: *mut Handle, buffer: *mut u8, room: usize, size: *mut usize) -> u32;
    fn giop_client_wrote(client: *mut Handle, size: usize) -> u32;
    fn giop_client_call(
        client: *mut Handle,
        id: u32,
        call: *const CCall,
        target: *const u8,
        target_size: usize,
        operation: *const u8,
        operation_size: usize,
        values: u32,
        ins: *const u8,
        size: usize,
        form: *const CForm,
        fault: *mut EndFault,
    ) -> u32;
    fn giop_client_locate(
        client: *mut Handle,
        id: u32,
        call: *const CCall,
        target: *const u8,
        target_size: usize,
        form: *const CForm,
        fault: *mut EndFault,
    ) -> u32;
    fn giop_client_cancel(client: *mut Handle, id: u32, little_endian: u32, fault: *mut EndFault) -> u32;
    fn giop_client_send(client: *mut Handle, id: u32, fault: *mut EndFault) -> u32;
    fn giop_client_ids(client: *mut Handle, ids: *mut u32, room: usize, count: *mut usize) -> u32;
    fn giop_client_entry_of(client: *mut Handle, id: u32, entry: *mut CEntry) -> u32;
    fn giop_client_outs(
        client: *mut Handle,
        id: u32,
        values: u32,
        buffer: *mut u8,
        room: usize,
        size: *mut usize,
    ) -> u32;
    fn giop_client_exception(client: *mut Handle, id: u32, buffer: *mut u8, room: usize, size: *mut usize) -> u32;
    fn giop_client_members(
        client: *mut Handle,
        id: u32,
        values: u32,
        buffer: *mut u8,
        room: usize,
        size: *mut usize,
    ) -> u32;
    fn giop_client_forward(client: *mut Handle, id: u32, buffer: *mut u8, room: usize, size: *mut usize) -> u32;
    fn giop_client_context(
        client: *mut Handle,
        id: u32,
        index: usize,
        service: *mut u32,
        buffer: *mut u8,
        room: usize,
        size: *mut usize,
    ) -> u32;
    fn giop_client_take(client: *mut Handle, id: u32, fault: *mut EndFault) -> u32;
    fn giop_client_close(client: *mut Handle, fault: *mut EndFault) -> u32;
    fn giop_client_error_message(client: *mut Handle, buffer: *mut u8, room: usize, size: *mut usize) -> u32;
    fn giop_client_rest(client: *mut Handle, rest: *mut usize) -> u32;
    fn giop_client_blocks(client: *mut Handle, count: *mut usize) -> u32;
    fn giop_client_free(client: *mut Handle);
}

/// The end of a connection that calls, without IO: it calls, is fed what was read of the server, keeps the
/// calls by their request ids, and says what is to be written.
///
/// Values cross in the form that you say, a [`ValueForm`]: as CDR octets or as JSON.
/// It may go to another thread: that it is `Send` is proved of the handle. It isn't `Sync`.
///
/// ```
/// use giop::{Call, Client, ClientKind, Form, Interface, Limits, ValueForm};
///
/// let json = br#"{"operations":{"twice":{"ins":[["n","long"]],"outs":[["r","long"]]}}}"#;
/// let mut client = Client::new(&mut Interface::from_json(json)?, Limits::default())?;
/// client.call(5, Call::of_key(b"k"), b"twice", ValueForm::Json, b"[21]", Form::default())?;
/// let written = client.outgoing().len();
/// assert_eq!(written, 52);
/// assert!(client.wrote(written));
/// assert_eq!(client.entry(5).kind, ClientKind::Waiting);
/// // The Reply of 1.2, big endian, of id 5, in two reads: 42.
/// client.feed(b"GIOP\x01\x02\0\x01\0\0\0\x10\0\0\0\x05\0\0\0\0")?;
/// client.feed(b"\0\0\0\0\0\0\0\x2a")?;
/// assert_eq!(client.ids()?, [5]);
/// assert_eq!(client.outs(5, ValueForm::Json)?.as_deref(), Some(&b"[42]"[..]));
/// assert_eq!(client.outs(5, ValueForm::LittleEndian)?.as_deref(), Some(&[42, 0, 0, 0][..]));
/// client.take(5)?;
/// # Ok::<(), Box<dyn std::error::Error>>(())
/// ```
pub struct Client {
    handle: Handle,
    octets: Vec<u8>,
}

impl Client {
    /// A client's end without calls, which keeps a share of the interface.
    ///
    /// # Errors
    /// `NoMemory`; or a `Fault` of number 0, where the limit `gathered` is above 2^62.
    pub fn new(interface: &mut Interface, limits: Limits) -> Result<Client, EndError> {
        let mut client = Client { handle: Handle { at: ptr::null_mut() }, octets: Vec::new() };
        // SAFETY: the handle is zeroed, which is one that holds nothing, and the interface's was opened.
        let status = unsafe { giop_client_new(&mut client.handle, &mut interface.handle, &limits) };
        told(status, EndFault::default()).map(|()| client)
    }

    /// Takes in octets of the server, any number of them.
    ///
    /// # Errors
    /// The fault that has failed the end, which it has from then on.
    pub fn feed(&mut self, octets: &[u8]) -> Result<(), EndError> {
        let mut fault = EndFault::default();
        // SAFETY: the handle was opened, and the slice is that long.
        let status = unsafe { giop_client_feed(&mut self.handle, octets.as_ptr(), octets.len(), &mut fault) };
        told(status, fault)
    }

    /// The octets that are to be written, which stay until `wrote`.
    pub fn outgoing(&mut self) -> &[u8] {
        let mut size = 0;
        // SAFETY: the handle was opened, and nothing is copied where there is no room.
        unsafe { giop_client_outgoing(&mut self.handle, ptr::null_mut(), 0, &mut size) };
        self.octets.resize(size, 0);
        // SAFETY: the handle was opened, and the buffer has so much room.
        unsafe { giop_client_outgoing(&mut self.handle, self.octets.as_mut_ptr(), size, &mut size) };
        &self.octets
    }

    /// The first octets that are to be written were, so many of them. False, where fewer are to be written,
    /// and nothing has changed.
    #[must_use]
    pub fn wrote(&mut self, size: usize) -> bool {
        // SAFETY: the handle was opened.
        unsafe { giop_client_wrote(&mut self.handle, size) == OK }
    }

    /// Calls an operation under an id, by the octets of its ins in a form. The first piece of the
    /// Request is outgoing then, and `send` puts out each other one.
    ///
    /// # Errors
    /// Why it isn't sent; nothing has changed then.
    pub fn call(
        &mut self,
        id: u32,
        call: Call<'_>,
        operation: &[u8],
        values: ValueForm,
        ins: &[u8],
        form: Form,
    ) -> Result<(), EndError> {
        let (mut fault, form, (head, target)) = (EndFault::default(), form.written(), call.written());
        // SAFETY: the handle was opened, and each slice is that long.
        let status = unsafe {
            giop_client_call(
                &mut self.handle,
                id,
                &head,
                target.as_ptr(),
                target.len(),
                operation.as_ptr(),
                operation.len(),
                values.number(),
                ins.as_ptr(),
                ins.len(),
                &form,
                &mut fault,
            )
        };
        told(status, fault)
    }

    /// Asks under an id where an object is. The flags of the call aren't used.
    ///
    /// # Errors
    /// Why it isn't sent; nothing has changed then.
    pub fn locate(&mut self, id: u32, call: Call<'_>, form: Form) -> Result<(), EndError> {
        let (mut fault, form, (head, target)) = (EndFault::default(), form.written(), call.written());
        // SAFETY: the handle was opened, and the slice is that long.
        let status = unsafe {
            giop_client_locate(&mut self.handle, id, &head, target.as_ptr(), target.len(), &form, &mut fault)
        };
        told(status, fault)
    }

    /// Cancels the call of an id, whose reply isn't whole.
    ///
    /// # Errors
    /// Why it isn't sent; nothing has changed then.
    pub fn cancel(&mut self, id: u32, little_endian: bool) -> Result<(), EndError> {
        let mut fault = EndFault::default();
        // SAFETY: the handle was opened.
        let status = unsafe { giop_client_cancel(&mut self.handle, id, little_endian.into(), &mut fault) };
        told(status, fault)
    }

    /// Puts out the next piece of a call.
    ///
    /// # Errors
    /// Why there is none; nothing has changed then.
    pub fn send(&mut self, id: u32) -> Result<(), EndError> {
        let mut fault = EndFault::default();
        // SAFETY: the handle was opened.
        let status = unsafe { giop_client_send(&mut self.handle, id, &mut fault) };
        told(status, fault)
    }

    /// The request ids for which something is stored, ascending.
    ///
    /// # Errors
    /// `NoMemory`.
    pub fn ids(&mut self) -> Result<Vec<u32>, EndError> {
        let (mut ids, mut count) = (Vec::new(), 0);
        loop {
            // SAFETY: the handle was opened, and the array has so much room.
            let status = unsafe { giop_client_ids(&mut self.handle, ids.as_mut_ptr(), ids.len(), &mut count) };
            told(status, EndFault::default())?;
            if count <= ids.len() {
                ids.truncate(count);
                return Ok(ids);
            }
            ids.resize(count, 0);
        }
    }

    /// What is stored for an id.
    pub fn entry(&mut self, id: u32) -> ClientEntry {
        let mut entry = CEntry::default();
        // SAFETY: the handle was opened, and the struct is written.
        unsafe { giop_client_entry_of(&mut self.handle, id, &mut entry) };
        ClientEntry::of(&entry)
    }

    /// What the Reply under an id brought without an exception: the octets, in a form, of the result and then
    /// of the inout and out parameters. `None` where there is no such Reply.
    ///
    /// # Errors
    /// `NoMemory`.
    pub fn outs(&mut self, id: u32, values: ValueForm) -> Result<Option<Vec<u8>>, EndError> {
        let form = values.number();
        // SAFETY: the handle was opened, and the buffer has so much room.
        let call = |at, room, size| unsafe { giop_client_outs(&mut self.handle, id, form, at, room, size) };
        copied(call).map_err(|status| error_of(status, EndFault::default()))
    }

    /// The repository id of the exception that the Reply under an id brought, without its null; `None` where
    /// there is no such Reply.
    pub fn exception(&mut self, id: u32) -> Option<Vec<u8>> {
        // SAFETY: the handle was opened, and the buffer has so much room.
        let call = |at, room, size| unsafe { giop_client_exception(&mut self.handle, id, at, room, size) };
        copied(call).ok().flatten()
    }

    /// The octets, in a form, of the members of the exception of the interface that the Reply under an id
    /// brought; `None` where there is no such Reply.
    ///
    /// # Errors
    /// `NoMemory`.
    pub fn members(&mut self, id: u32, values: ValueForm) -> Result<Option<Vec<u8>>, EndError> {
        let form = values.number();
        // SAFETY: the handle was opened, and the buffer has so much room.
        let call = |at, room, size| unsafe { giop_client_members(&mut self.handle, id, form, at, room, size) };
        copied(call).map_err(|status| error_of(status, EndFault::default()))
    }

    /// The reference to which the Reply under an id forwards, as its text, `IOR:` and digits; `None` where
    /// there is no such Reply.
    ///
    /// # Errors
    /// `NoMemory`.
    pub fn forward(&mut self, id: u32) -> Result<Option<String>, EndError> {
        // SAFETY: the handle was opened, and the buffer has so much room.
        let call = |at, room, size| unsafe { giop_client_forward(&mut self.handle, id, at, room, size) };
        let text = copied(call).map_err(|status| error_of(status, EndFault::default()))?;
        Ok(text.map(|octets| String::from_utf8_lossy(&octets).into_owned()))
    }

    /// A service context (7.7) of the Reply under an id, the first at index 0: the id of its service, and its
    /// octets. `None` where there is no such context.
    pub fn context(&mut self, id: u32, index: usize) -> Option<(u32, Vec<u8>)> {
        let mut service = 0;
        // SAFETY: the handle was opened, and the buffer has so much room.
        let call = |at, room, size| unsafe {
            giop_client_context(&mut self.handle, id, index, &mut service, at, room, size)
        };
        let octets = copied(call).ok().flatten()?;
        Some((service, octets))
    }

    /// Takes what is stored for an id out of the table, where its call is over.
    ///
    /// # Errors
    /// That it isn't over; nothing has changed then.
    pub fn take(&mut self, id: u32) -> Result<(), EndError> {
        let mut fault = EndFault::default();
        // SAFETY: the handle was opened.
        let status = unsafe { giop_client_take(&mut self.handle, id, &mut fault) };
        told(status, fault)
    }

    /// Closes the connection: a CloseConnection is outgoing then.
    ///
    /// # Errors
    /// The fault that the end has.
    pub fn close(&mut self) -> Result<(), EndError> {
        let mut fault = EndFault::default();
        // SAFETY: the handle was opened.
        let status = unsafe { giop_client_close(&mut self.handle, &mut fault) };
        told(status, fault)
    }

    /// The MessageError that the server is to be sent after the end's fault, where that asks for one.
    pub fn error_message(&mut self) -> Option<Vec<u8>> {
        // SAFETY: the handle was opened, and the buffer has so much room.
        let call = |at, room, size| unsafe { giop_client_error_message(&mut self.handle, at, room, size) };
        copied(call).ok().flatten()
    }

    /// The number of octets that are unread.
    pub fn rest(&mut self) -> usize {
        let mut rest = 0;
        // SAFETY: the handle was opened, and the number is written.
        unsafe { giop_client_rest(&mut self.handle, &mut rest) };
        rest
    }

    /// How many blocks of 512 octets the end has taken for pieces of replies.
    pub fn blocks(&mut self) -> usize {
        let mut count = 0;
        // SAFETY: the handle was opened, and the number is written.
        unsafe { giop_client_blocks(&mut self.handle, &mut count) };
        count
    }
}

// SAFETY: crates/giop_c proves that the handle may go to another thread, and each call takes it by `&mut` or this
// type by `&`, which isn't `Sync`, so that no two overlap.
unsafe impl Send for Client {}

impl Drop for Client {
    fn drop(&mut self) {
        // SAFETY: the handle was opened, or holds nothing.
        unsafe { giop_client_free(&mut self.handle) }
    }
}
