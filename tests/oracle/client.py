"""A client's end of a connection: the Requests that `giopctl call` writes, and what becomes of each
call by what a server sends (CORBA 3.3 Part 2, 9.4; the tables of docs/PROFILE.md). A call is not
cancelled here, since `call` cancels none."""
from dataclasses import dataclass, field

from cdr import Fault, Writer, place
from descriptions import Number, REFERENCE
from forms import value_text
from messages import Message, body_values, messages, number_below, reply_head
from random_streams import message
from references import text_of
from server import SessionFault
from text import escaped

CALL_FAULTS = {'IdInUse': 1, 'Stray': 2, 'OrderDiffers': 3, 'UnknownReply': 4, 'WrongKind': 5}
OVER = ('Done', 'Undecoded', 'OnewaySent')


@dataclass(frozen=True)
class Form:
    """How messages are written: the minor version, the byte order, and the size of a piece in
    1.2."""
    minor: int = 2
    little: bool = False
    piece: int = 4096


# What is written

def written_request(call, operation, key, kinds, values, expects, form):
    """The octets of a Request behind its header, without contexts."""
    writer = Writer(form.little, 12)
    if form.minor == 2:
        writer.ulong(call)
        for octet in (3 if expects else 0, 0, 0, 0):
            writer.octet(octet)
        writer.ushort(0)
        writer.octet_list(key)
        writer.string(operation)
        writer.ulong(0)
    else:
        writer.ulong(0)
        writer.ulong(call)
        for octet in (int(expects),) + (0, 0, 0) * form.minor:
            writer.octet(octet)
        writer.octet_list(key)
        writer.string(operation)
        writer.ulong(0)
    return with_body(writer, kinds, values, form)


def with_body(writer, kinds, values, form):
    """The values behind a head; in 1.2 they begin at a multiple of 8, where there are any."""
    if kinds and form.minor == 2:
        writer.align(8)
    for kind, value in zip(kinds, values):
        kind.write(writer, value)
    return bytes(writer.octets)


def pieces(kind, call, joined, form):
    """A message, or in 1.2 a first one and its Fragments, each of `form.piece` octets at most."""
    if form.minor < 2 or len(joined) + 12 <= form.piece:
        return [message(kind, form.minor, form.little, joined)]
    first, rest = joined[:form.piece - 12], joined[form.piece - 12:]
    made, step = [message(kind, 2, form.little, first, True)], form.piece - 16
    front = Writer(form.little)
    front.ulong(call)
    for at in range(0, len(rest), step):
        more = at + step < len(rest)
        octets = bytes(front.octets) + rest[at:at + step]
        made.append(message('Fragment', 2, form.little, octets, more))
    return made


def in_turn(lists):
    """The first of each list, then the second of each, and so on."""
    longest = max(map(len, lists), default=0)
    return b''.join(each[at] for at in range(longest) for each in lists if at < len(each))


# What is heard

@dataclass
class Call:
    """A call that was sent whole: what is printed of it, and the Reply as far as it has come."""
    outs: list
    oneway: bool
    name: str = 'Waiting'
    told: str = ''
    message: Message = None


@dataclass
class Client:
    interface: object
    minor: int
    table: dict = field(default_factory=dict)

    def is_over(self):
        return all(call.name in OVER for call in self.table.values())

    def hear(self, heard):
        """A message does what it is there for, or raises what ends the session."""
        if heard.kind in ('Request', 'LocateRequest', 'CancelRequest'):
            raise SessionFault('WrongDirection')
        if heard.kind in ('CloseConnection', 'MessageError'):
            raise SessionFault('Closed' if heard.kind == 'CloseConnection' else 'PeerError')
        try:
            call = heard.id()
        except Fault as fault:
            raise SessionFault('NoId', f' {fault}') from fault
        if heard.kind == 'Fragment':
            self.go_on(call, heard)
        else:
            self.begin(call, heard)

    def begin(self, call, heard):
        """A Reply or a LocateReply, whole or its first piece."""
        entry = self.table.get(call)
        if not entry or entry.name != 'Waiting':
            raise refused(call, 'UnknownReply')
        if heard.kind != 'Reply' or heard.minor != self.minor:
            raise refused(call, 'WrongKind')
        if heard.more:
            entry.name, entry.message = 'Gathering', heard
        else:
            self.judge(entry, heard)

    def go_on(self, call, fragment):
        entry = self.table.get(call)
        if not entry or entry.name != 'Gathering':
            raise refused(call, 'Stray')
        if fragment.little != entry.message.little:
            raise refused(call, 'OrderDiffers')
        entry.message.octets += fragment.octets[4:]
        if not fragment.more:
            self.judge(entry, entry.message)

    def judge(self, entry, reply):
        try:
            reader = reply.reader()
            entry.name, entry.told = 'Done', self.body(entry, reply_head(reply, reader), reader)
        except Fault as fault:
            entry.name, entry.told = 'Undecoded', f' reply {fault}'

    def body(self, entry, head, reader):
        """What is printed of a body, by the status of its reply."""
        if head.status == 0:
            return ' 0 ' + listed(entry.outs, body_values(reader, head, entry.outs))
        reader.at = head.body
        told = {1: self.user_exception, 2: system_exception, 3: forward, 4: forward,
                5: disposition}[head.status](reader)
        reader.must_end()
        return f' {head.status} {told}'

    def user_exception(self, reader):
        """An exception of the interface, and its members."""
        at = place(reader.at, 4)
        name = reader.string()
        if name not in self.interface.exceptions:
            raise Fault('BadLabel', at)
        kinds = [kind for _, kind in self.interface.exceptions[name]]
        return f'{escaped(name)} {listed(kinds, [kind.read(reader) for kind in kinds])}'


def refused(call, name):
    return SessionFault('Call', f' {call} {CALL_FAULTS[name]} {name}')


def listed(kinds, values):
    return '[' + ','.join(value_text(kind, value) for kind, value in zip(kinds, values)) + ']'


def system_exception(reader):
    """Its id, a minor code, and whether the operation was completed: yes, no or maybe."""
    name, minor = reader.string(), reader.ulong()
    return f'{escaped(name)} {minor} {number_below(reader, 4, 3)}'


def forward(reader):
    return text_of(REFERENCE.read(reader))


def disposition(reader):
    return Number(2, True).read(reader)


def heard(client, stream):
    """Hears a stream to its end; the text of the fault that ends it, or None."""
    found, _, wire_fault = messages(stream)
    try:
        for _, each in found:
            client.hear(each)
        if wire_fault:
            raise SessionFault('Wire', f' {wire_fault}')
    except SessionFault as fault:
        return fault
    return None
