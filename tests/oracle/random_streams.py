"""GIOP streams at random: what a client sends on one connection, in any version, byte order and
interleaving; replies; and damage of both."""
from cdr import Writer
from descriptions import REFERENCE
from forms import interface_form
from loose import LooseWriter, damaged
from messages import KINDS
from random_types import NAMES, octets, reference, value

IDS = (0, 1, 2, 3, 7, 256, 2 ** 31, 2 ** 32 - 1)


def message(kind, minor, little, payload, more=False):
    """A whole message, of its header and what stands behind that."""
    size = len(payload).to_bytes(4, 'little' if little else 'big')
    return bytes((*b'GIOP', 1, minor, little + 2 * more, KINDS.index(kind), *size)) + payload


class Peer:
    """One who writes messages: with an interface at hand, and with errors, or without."""

    def __init__(self, rng, interface, errs, key=None):
        self.rng, self.interface, self.errs = rng, interface_form(interface), errs
        self.key = key  # of the object that is meant more often than not

    def some_key(self):
        meant = self.key is not None and self.rng.random() < 0.8
        return self.key if meant else octets(self.rng, 0, 0)

    def slips(self, chance):
        """Whether something goes wrong here."""
        return self.errs and self.rng.random() < chance

    def form(self):
        """A version and a byte order."""
        return self.rng.choice((0, 1, 2, 2, 2, 2)), self.rng.random() < 0.5

    def contexts(self, writer):
        listed = [(self.rng.choice(IDS), octets(self.rng, 0, 0))
                  for _ in range(self.rng.choice((0, 0, 0, 1, 1, 2, 3)))]
        writer.items(listed, write_context)

    def target(self, writer, minor):
        """A key, or in 1.2 one of the other two targets."""
        disposition = self.rng.choice((0, 0, 0, 1, 2)) if minor == 2 else 0
        if self.slips(0.05):
            disposition = self.rng.choice((3, 256, 65535))
        if minor == 2:
            writer.ushort(disposition)
        if disposition == 0:
            writer.octet_list(self.some_key())
        elif disposition == 1:
            write_context(writer, (self.rng.choice(IDS), octets(self.rng, 0, 0)))
        else:
            writer.ulong(self.rng.choice((0, 1, 2 ** 32 - 1)))
            REFERENCE.write(writer, reference(self.rng))

    def writer(self, little):
        return LooseWriter(self.rng, little, 12)

    # What stands behind the header of each message

    def request(self, call, minor, little, expects):
        """A Request of some operation, whether the client wants a reply or not."""
        writer, name = self.writer(little), self.operation()
        if minor == 2:
            writer.ulong(call)
            writer.octet(self.flags(expects))
            for _ in range(3):
                writer.octet(self.rng.choice((0, 0, 255)))
        else:
            self.contexts(writer)
            writer.ulong(call)
            writer.octet(2 if self.slips(0.03) else int(expects))
            for _ in range(3 * minor):
                writer.octet(self.rng.choice((0, 0, 1)))
        self.target(writer, minor)
        writer.string(name)
        if minor == 2:
            self.contexts(writer)
        else:
            writer.octet_list(octets(self.rng, 0, 0))
        self.body(writer, minor, name)
        return bytes(writer.octets)

    def flags(self, expects):
        if self.slips(0.05):
            return self.rng.choice((2, 4, 255))
        return self.rng.choice((1, 3, 3)) if expects else 0

    def operation(self):
        if self.rng.random() < 0.08:
            return self.rng.choice(NAMES).encode('latin-1').replace(b'\0', b'') + b'?'
        return self.rng.choice(sorted(self.interface.operations))

    def body(self, writer, minor, name):
        """The ins of the operation; where there are none, padding may stand all the same."""
        operation = self.interface.operations.get(name)
        kinds = [kind for _, kind in operation.ins] if operation else []
        if minor == 2 and (kinds or self.rng.random() < 0.3):
            writer.align(8)
            if not kinds:
                del writer.octets[len(writer.octets) - self.rng.randrange(2):]
        begin = len(writer.octets)
        for kind in kinds:
            kind.write(writer, value(self.rng, kind))
        if self.slips(0.4):
            writer.octets[begin:] = damaged(self.rng, writer.octets[begin:] or b'\0')

    def some_message(self, call, minor, little):
        """The kind of a message that has a head, and what stands behind its header."""
        kind = self.rng.choice(('Request', 'Request', 'LocateRequest', 'Reply', 'LocateReply'))
        if kind == 'Request':
            return kind, self.request(call, minor, little, self.rng.random() < 0.7)
        if kind == 'LocateRequest':
            return kind, self.locate_request(call, minor, little)
        return kind, self.reply(kind, call, minor, little)

    def locate_request(self, call, minor, little):
        writer = self.writer(little)
        writer.ulong(call)
        self.target(writer, minor)
        if self.slips(0.1):
            writer.octets += self.rng.randbytes(self.rng.randint(1, 8))
        return bytes(writer.octets)

    def reply(self, kind, call, minor, little):
        """A Reply or a LocateReply, with any octets as its body."""
        writer = self.writer(little)
        if kind == 'Reply' and minor < 2:
            self.contexts(writer)
        writer.ulong(call)
        writer.ulong(self.rng.choice((0, 1, 2, 3, 4, 5, 6)))
        if kind == 'Reply' and minor == 2:
            self.contexts(writer)
        writer.octets += self.rng.randbytes(self.rng.choice((0, 0, 1, 4, 7, 8, 12, 20)))
        return bytes(writer.octets)

    # Messages of one id, in their order

    def pieces(self, kind, call, little, joined):
        """A message of 1.2 in two to five pieces, none the last of which leaves a multiple of
        eight."""
        end = self.rng.randrange(4, len(joined) + 1, 8)
        made, at = [message(kind, 2, little, joined[:end], True)], end
        front = number(call, little)
        while self.rng.random() < 0.6:
            end = min(at + self.rng.choice((0, 8, 8, 16, 32)), at + (len(joined) - at) // 8 * 8)
            if self.slips(0.03):
                little = not little
            made.append(message('Fragment', 2, little, front + joined[at:end], True))
            at = end
        return [*made, message('Fragment', 2, little, front + joined[at:])]

    def use(self, call):
        """The messages of one use of an id, and whether the id is free behind them."""
        minor, little = self.form()
        expects = self.rng.random() < 0.7
        if self.rng.random() < 0.25:
            kind, joined, expects = 'LocateRequest', self.locate_request(call, minor, little), True
        else:
            kind, joined = 'Request', self.request(call, minor, little, expects)
        if minor == 2 and self.rng.random() < 0.5:
            made = self.pieces(kind, call, little, joined)
        else:
            made = [message(kind, minor, little, joined)]
        return made, not expects

    def cancel(self, call):
        minor, little = self.form()
        return message('CancelRequest', minor, little, number(call, little))

    def lane(self, call):
        """All messages of an id: uses of it, one behind the other, and cancels among their
        pieces."""
        made, free = [], True
        while free and self.rng.random() < 0.8:
            used, free = self.use(call)
            if self.rng.random() < 0.2:
                used.insert(self.rng.randint(0, len(used)), self.cancel(call))
            made += used
            free = free or self.slips(0.1)
        return made

    def session(self):
        """The lanes of a few ids, interleaved."""
        lanes = [self.lane(call) for call in self.rng.sample(IDS, self.rng.randint(1, 4))]
        made = []
        while any(lanes):
            lane = self.rng.choice([lane for lane in lanes if lane])
            made.append(lane.pop(0))
        return made

    def stray(self):
        """A message that a server doesn't hear in the midst of a session, or that ends it."""
        minor, little = self.form()
        call = self.rng.choice(IDS)
        kind = self.rng.choice(('CloseConnection', 'MessageError', 'Reply', 'LocateReply',
                                'Fragment'))
        if kind in ('Reply', 'LocateReply'):
            return message(kind, minor, little, self.reply(kind, call, minor, little))
        if kind == 'Fragment':
            front = number(call, little) + self.rng.randbytes(8)
            return message(kind, 2, little, front, self.rng.random() < 0.3)
        return message(kind, minor, little, b'')


def number(call, little):
    writer = Writer(little)
    writer.ulong(call)
    return bytes(writer.octets)


def write_context(writer, pair):
    writer.ulong(pair[0])
    writer.octet_list(pair[1])
