"""A server's end of a connection: what becomes of each call by what a client sends (CORBA 3.3 Part
2, 9.4; the tables of docs/PROFILE.md). It answers nothing; answering.py does.

Under each request id stands an entry; a message does something to the entry of its id, or it is a
fault, and then nothing behind it is heard.
"""
from dataclasses import dataclass, field

from cdr import Fault
from forms import value_text
from messages import Message, body_values, locate_request_head, messages, request_head
from text import escaped

CALLS = 1024
GATHERED = 8_388_608
ANSWERED = ('Answered', 'LocateAnswered')
CALL_FAULTS = ('IdInUse', 'Stray', 'OrderDiffers')
SESSION_FAULTS = {'Wire': 1, 'Call': 2, 'WrongDirection': 3, 'TooManyCalls': 4, 'GatherFull': 5,
                  'PeerError': 6, 'Closed': 7, 'NoId': 10}


class SessionFault(Exception):
    """What ends a session: its name, and what is told of it besides."""

    def __init__(self, name, told=''):
        super().__init__(name, told)
        self.name, self.told = name, told

    def __str__(self):
        return f'fault {SESSION_FAULTS[self.name]} {self.name}{self.told}'


def call_fault(call, name):
    return SessionFault('Call', f' {call} {CALL_FAULTS.index(name) + 1} {name}')


@dataclass
class Entry:
    """What stands under an id: its name, what is printed behind that, and whether a reply is
    expected of it. While it is Gathering it holds the message as far as that has come."""
    name: str
    told: str = ''
    expects: bool = True
    message: Message = None

    def is_closed(self):
        """The id may be used again."""
        return (self.name in ('Cancelled', 'Delivered', *ANSWERED)
                or self.name == 'Undecoded' and not self.expects)

    def may_be_cancelled(self):
        """What is answered may be cancelled yet: the client didn't know."""
        return self.name in ANSWERED or not self.is_closed()


@dataclass
class Server:
    interface: object
    table: dict = field(default_factory=dict)  # from ids
    gathered: int = 0  # octets of all messages that aren't whole

    def hear(self, message):
        """A message does what it is there for, or raises what ends the session."""
        if message.kind in ('Reply', 'LocateReply'):
            raise SessionFault('WrongDirection')
        if message.kind == 'CloseConnection':
            raise SessionFault('Closed')
        if message.kind == 'MessageError':
            raise SessionFault('PeerError')
        try:
            call = message.id()
        except Fault as fault:
            raise SessionFault('NoId', f' {fault}') from fault
        if message.kind == 'CancelRequest':
            self.cancel(call)
        elif message.kind == 'Fragment':
            self.go_on(call, message)
        else:
            self.begin(call, message)

    def begin(self, call, message):
        """A Request or a LocateRequest, whole or its first piece."""
        entry = self.table.get(call)
        if entry and not entry.is_closed():
            raise call_fault(call, 'IdInUse')
        if not entry and len(self.table) == CALLS:
            raise SessionFault('TooManyCalls')
        if message.more:
            self.gather(len(message.octets))
            self.table[call] = Entry('Gathering', message=message)
        else:
            self.table[call] = self.judged(message)

    def go_on(self, call, fragment):
        """A Fragment, whose octets behind its id continue the message of its id."""
        entry = self.table.get(call)
        if entry and entry.name == 'Cancelled':
            return
        if not entry or entry.name != 'Gathering':
            raise call_fault(call, 'Stray')
        message = entry.message
        if fragment.little != message.little:
            raise call_fault(call, 'OrderDiffers')
        self.gather(len(fragment.octets) - 4)
        message.octets += fragment.octets[4:]
        if not fragment.more:
            self.gathered -= len(message.octets)
            self.table[call] = self.judged(message)

    def gather(self, count):
        """So many more octets are kept, if there is room."""
        if self.gathered + count > GATHERED:
            raise SessionFault('GatherFull')
        self.gathered += count

    def cancel(self, call):
        """What still waits for an answer, or for its end, is cancelled."""
        entry = self.table.get(call)
        if not entry or not entry.may_be_cancelled():
            return
        if entry.name == 'Gathering':
            self.gathered -= len(entry.message.octets)
        self.table[call] = Entry('Cancelled')

    def judged(self, message):
        """The entry of a message that is whole."""
        return self.request(message) if message.kind == 'Request' else locate_request(message)

    def request(self, message):
        reader = message.reader()
        try:
            head = request_head(message, reader)
        except Fault as fault:
            return Entry('Undecoded', f' header {fault}')
        expects = head.flags != 0
        operation = self.interface.operations.get(head.operation)
        if not operation:
            return Entry('Undecoded', ' operation', expects)
        kinds = [kind for _, kind in operation.ins]
        try:
            values = body_values(reader, head, kinds)
        except Fault as fault:
            return Entry('Undecoded', f' body {fault}', expects)
        told = ','.join(value_text(kind, value) for kind, value in zip(kinds, values))
        return Entry('Asked' if expects else 'Delivered', f' {escaped(head.operation)} [{told}]',
                     expects)


def locate_request(message):
    try:
        locate_request_head(message, message.reader())
    except Fault as fault:
        return Entry('Undecoded', f' header {fault}')
    return Entry('LocateAsked')


def heard(interface, stream):
    """The table after a stream, and what its last line says."""
    server = Server(interface)
    found, at, wire_fault = messages(stream)
    try:
        for _, message in found:
            server.hear(message)
        if wire_fault:
            raise SessionFault('Wire', f' {wire_fault}')
    except SessionFault as fault:
        return server.table, str(fault)
    return server.table, f'rest {len(stream) - at}'
