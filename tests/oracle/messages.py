"""GIOP messages (CORBA 3.3 Part 2, 9.4): their headers, how a stream is cut into them, and their
heads and bodies in versions 1.0, 1.1 and 1.2.

Offsets count from the first octet of the header, so that what follows it begins at 12. The pieces
of a fragmented message are joined first, as if they had come in one.
"""
from dataclasses import dataclass

from cdr import Fault, Reader, place
from descriptions import REFERENCE

KINDS = ('Request', 'Reply', 'CancelRequest', 'LocateRequest', 'LocateReply', 'CloseConnection',
         'MessageError', 'Fragment')
WIRE_FAULTS = ('BadMagic', 'BadVersion', 'ReservedFlags', 'BadKind', 'TooLarge', 'BadSize',
               'FragmentSize', 'NotFragmentable')
EMPTY = ('CloseConnection', 'MessageError')
CONTINUED = ('Request', 'Reply', 'LocateRequest', 'LocateReply', 'Fragment')
HEADER = 12
LARGEST_MESSAGE = 1_048_576


class WireFault(Exception):
    """What is wrong with a header, and where."""

    def __init__(self, kind, at):
        super().__init__(kind, at)
        self.kind, self.at = kind, at

    def number(self):
        return WIRE_FAULTS.index(self.kind) + 1

    def __str__(self):
        return f'{self.number()} {self.kind} at {self.at}'


@dataclass
class Message:
    """A message; its octets are those behind the header, joined where it came in pieces."""
    kind: str
    minor: int
    little: bool
    more: bool
    octets: bytes

    def reader(self):
        return Reader(self.octets, self.little, HEADER)

    def id(self):
        """The request id, which before 1.2 stands behind the contexts in a Request and a Reply."""
        reader = self.reader()
        if self.kind in ('Request', 'Reply') and self.minor < 2:
            reader.items(context)
        return reader.ulong()


# The stream

def messages(stream):
    """The messages at the front of a stream, each with its offset; then the rest: its offset, and
    the fault of the header that stands there, or None."""
    found, at = [], 0
    while len(stream) - at >= HEADER:
        try:
            message, size = header(stream[at:at + HEADER])
        except WireFault as fault:
            return found, at, fault
        if len(stream) - at - HEADER < size:
            break
        message.octets = stream[at + HEADER:at + HEADER + size]
        found.append((at, message))
        at += HEADER + size
    return found, at, None


def header(octets):
    """The message that a header begins, without its octets, and how many these are to be."""
    judge_front(octets)
    minor, flags, kind = octets[5], octets[6], KINDS[octets[7]]
    message = Message(kind, minor, flags & 1 == 1, flags & 2 == 2, b'')
    size = int.from_bytes(octets[8:12], 'little' if message.little else 'big')
    judge_size(message, size)
    return message, size


def judge_front(octets):
    """The tests of the first eight octets."""
    for at, octet in enumerate(b'GIOP'):
        if octets[at] != octet:
            raise WireFault('BadMagic', at)
    major, minor, flags, kind = octets[4:8]
    if major != 1:
        raise WireFault('BadVersion', 4)
    if minor > 2:
        raise WireFault('BadVersion', 5)
    if flags > (1 if minor == 0 else 3):
        raise WireFault('ReservedFlags', 6)
    if kind > (7 if minor == 2 else 6):
        raise WireFault('BadKind', 7)


def judge_size(message, size):
    """The tests of the size, and of more fragments to come."""
    kind = message.kind
    if size > LARGEST_MESSAGE:
        raise WireFault('TooLarge', 8)
    if (size != 0 if kind in EMPTY else size != 4 if kind == 'CancelRequest' else size < 4):
        raise WireFault('BadSize', 8)
    if not message.more:
        return
    if message.minor == 2 and (size + HEADER) % 8 != 0:
        raise WireFault('FragmentSize', 8)
    if message.minor < 2 or kind not in CONTINUED:
        raise WireFault('NotFragmentable', 6)


# Heads: a field a line, in the order of the standard's tables

@dataclass
class Head:
    """What stands before a body; `body` is the offset where that begins."""
    id: int = 0
    flags: int = 0
    target: tuple = None  # ('key', octets), ('profile', tag, octets) or ('reference', index, ior)
    operation: bytes = b''
    contexts: list = None
    status: int = 0
    body: int = 0


def context(reader):
    """A service context: its id and its octets."""
    return reader.ulong(), reader.octet_list()


def number_below(reader, width, limit):
    """A number that stands for one of so many things."""
    at = place(reader.at, width)
    number = reader.number(width)
    if number >= limit:
        raise Fault('BadLabel', at)
    return number


def response_flags(reader):
    """1.2: 0 wants no reply, 1 an empty one, 3 a reply."""
    at = reader.at
    flags = reader.octet()
    if flags not in (0, 1, 3):
        raise Fault('BadLabel', at)
    return flags


def reserved(reader):
    for _ in range(3):
        reader.octet()


def target(reader):
    """1.2: a key, a profile, or a reference and the index of one of its profiles."""
    disposition = number_below(reader, 2, 3)
    if disposition == 0:
        return 'key', reader.octet_list()
    if disposition == 1:
        return 'profile', reader.ulong(), reader.octet_list()
    return 'reference', reader.ulong(), REFERENCE.read(reader)


def request_head(message, reader):
    return request_head_12(reader) if message.minor == 2 else older_request_head(message, reader)


def request_head_12(reader):
    head = Head()
    head.id = reader.ulong()
    head.flags = response_flags(reader)
    reserved(reader)
    head.target = target(reader)
    head.operation = reader.string()
    head.contexts = reader.items(context)
    head.body = place(reader.at, 8)
    return head


def older_request_head(message, reader):
    head = Head()
    head.contexts = reader.items(context)
    head.id = reader.ulong()
    head.flags = 3 if reader.boolean() else 0
    if message.minor == 1:
        reserved(reader)
    head.target = 'key', reader.octet_list()
    head.operation = reader.string()
    reader.octet_list()  # the principal, which nobody reads
    head.body = reader.at
    return head


def reply_head(message, reader):
    head = Head()
    if message.minor == 2:
        head.id = reader.ulong()
        head.status = number_below(reader, 4, 6)
        head.contexts = reader.items(context)
        head.body = place(reader.at, 8)
        return head
    head.contexts = reader.items(context)
    head.id = reader.ulong()
    head.status = number_below(reader, 4, 4)
    head.body = reader.at
    return head


def locate_request_head(message, reader):
    """A LocateRequest is its head: nothing stands behind the target."""
    head = Head()
    head.id = reader.ulong()
    head.target = target(reader) if message.minor == 2 else ('key', reader.octet_list())
    reader.must_end()
    return head


def locate_reply_head(message, reader):
    head = Head()
    head.id = reader.ulong()
    head.status = number_below(reader, 4, 6 if message.minor == 2 else 3)
    head.body = reader.at
    return head


HEADS = {'Request': request_head, 'Reply': reply_head, 'LocateRequest': locate_request_head,
         'LocateReply': locate_reply_head}


# Bodies

def body_values(reader, head, kinds):
    """The values of a body, each where the last one ended, and nothing behind them. Octets before
    the body's offset are padding, which needn't be there where no value is wanted."""
    reader.at = head.body
    values = [kind.read(reader) for kind in kinds]
    reader.must_end()
    return values
