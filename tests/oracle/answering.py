"""A server's end that answers, as `giopctl serve` does: what it writes for what it is sent, and
what becomes of each call (docs/FORMATS.md)."""
from dataclasses import dataclass

from cdr import Writer
from client import Form, in_turn, pieces, with_body
from descriptions import Number, String
from messages import locate_request_head, messages, request_head
from random_streams import message
from server import Entry, Server, SessionFault

# Faults behind which the peer is sent a MessageError
TOLD = ('Wire', 'Call', 'WrongDirection', 'NoId')
MESSAGE_ERROR = message('MessageError', 2, False, b'')


@dataclass
class Answer:
    """A result, an exception or a forward: its status, and the body's types and values."""
    status: int
    kinds: list
    values: list


def system_exception(name):
    """One of CORBA's own exceptions, minor 0; the operation was not completed (1)."""
    told = f'IDL:omg.org/CORBA/{name}:1.0'.encode()
    return Answer(2, [String(), Number(4), Number(4)], [told, 0, 1])


NEEDS_ADDRESSING = Answer(5, [Number(2, True)], [0])


class Object:
    """The object of a key, with an answer to each operation that isn't oneway."""

    def __init__(self, interface, answers, key, form):
        self.server = Server(interface)
        self.answers, self.key, self.form = answers, key, form
        self.open = {}  # the messages of the calls that wait, from their ids

    def read(self, octets):
        """One read: what is heard, and what is written for it. Answers the octets that are written,
        and the fault that ends the session, or None."""
        found, _, wire_fault = messages(octets)
        try:
            for _, each in found:
                self.hear(each)
            if wire_fault:
                raise SessionFault('Wire', f' {wire_fault}')
        except SessionFault as fault:
            return MESSAGE_ERROR if fault.name in TOLD else b'', fault
        return self.answered(), None

    def hear(self, each):
        self.server.hear(each)
        if each.kind in ('Request', 'LocateRequest', 'Fragment'):
            call = each.id()
            self.open[call] = self.open.get(call, each) if each.kind == 'Fragment' else each

    def answered(self):
        """Each call that waits is answered, in ascending order of the ids; then pieces in turn."""
        written = []
        for call, entry in sorted(self.server.table.items()):
            if entry.name in ('Asked', 'LocateAsked') or (
                    entry.name == 'Undecoded' and entry.expects):
                written.append(self.answer(call, entry, self.open.pop(call)))
        return in_turn(written)

    def answer(self, call, entry, asked):
        """The pieces of the reply to a call; its entry tells the answer."""
        form = Form(asked.minor, self.form.little, self.form.piece)
        if asked.kind == 'LocateRequest':
            here = int(entry.name == 'LocateAsked' and
                       locate_request_head(asked, asked.reader()).target == ('key', self.key))
            self.server.table[call] = Entry('LocateAnswered', f' {here}')
            return [located(call, here, form)]
        answer = self.reply(entry, asked)
        self.server.table[call] = Entry('Answered', f' {answer.status}')
        return pieces('Reply', call, replied(call, answer, form), form)

    def reply(self, entry, asked):
        if entry.told == ' operation':
            return system_exception('BAD_OPERATION')
        if entry.name == 'Undecoded':
            return system_exception('MARSHAL')
        head = request_head(asked, asked.reader())
        if head.target[0] != 'key':
            return NEEDS_ADDRESSING
        if head.target[1] != self.key:
            return system_exception('OBJECT_NOT_EXIST')
        answer = self.answers.get(head.operation, Answer(0, [], []))
        return Answer(0, [], []) if head.flags == 1 and answer.status == 0 else answer

    def lines(self):
        return [f'{call} {entry.name}{entry.told}'
                for call, entry in sorted(self.server.table.items())]


def replied(call, answer, form):
    """The octets of a Reply behind its header, without contexts."""
    writer = Writer(form.little, 12)
    numbers = (call, answer.status, 0) if form.minor == 2 else (0, call, answer.status)
    for number in numbers:
        writer.ulong(number)
    return with_body(writer, answer.kinds, answer.values, form)


def located(call, here, form):
    writer = Writer(form.little)
    writer.ulong(call)
    writer.ulong(here)
    return message('LocateReply', form.minor, form.little, bytes(writer.octets))
