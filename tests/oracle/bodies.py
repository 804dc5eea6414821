"""What `dump --interface` tells besides, of Requests: their values, and those that came in pieces
(docs/giopctl.md, "What a body says"). It plays no side, so nothing ends it but the stream."""
from dataclasses import replace

from cdr import Fault
from forms import value_text
from messages import body_values, request_head
from server import GATHERED

PIECE_FAULTS = {'OrderDiffers': 2, 'GatherFull': 3}


class PieceFault(Exception):
    """Why a piece can't be joined, by its name."""

    def __init__(self, name):
        super().__init__(name)
        self.name = name

    def __str__(self):
        return f'{PIECE_FAULTS[self.name]} {self.name}'


class Joiner:
    """The Requests of which pieces are still to come, by their ids."""

    def __init__(self):
        self.begun = {}

    def joined(self, message):
        """The Request that is whole by its last Fragment, or None. It raises what keeps a piece
        from being joined, and what was gathered under its id is dropped then."""
        call = id_of(message)
        if message.kind != 'Fragment':
            self.begun.pop(call, None)
            if message.kind == 'Request' and message.more:
                self.add(call, replace(message, octets=b''), message.octets)
            return None
        if call not in self.begun:
            return None
        request = self.begun.pop(call)
        if message.little != request.little:
            raise PieceFault('OrderDiffers')
        self.add(call, request, message.octets[4:])
        return None if message.more else self.begun.pop(call)

    def add(self, call, request, octets):
        """So many octets more are kept, if there is room."""
        kept = sum(len(other.octets) for other in self.begun.values())
        if kept + len(request.octets) + len(octets) > GATHERED:
            raise PieceFault('GatherFull')
        request.octets += octets
        self.begun[call] = request


def id_of(message):
    """The request id, or None where there is none that can be read."""
    try:
        return None if message.kind in ('CloseConnection', 'MessageError') else message.id()
    except Fault:
        return None


def body_of(interface, message):
    """Of a Request, by its name what it says: its `ins`, or `undecoded`, its operation or the fault
    of its body; nothing where its head can't be read."""
    reader = message.reader()
    try:
        head = request_head(message, reader)
    except Fault:
        return {}
    operation = interface.operations.get(head.operation)
    if not operation:
        return {'undecoded': 'operation'}
    kinds = [kind for _, kind in operation.ins]
    try:
        values = body_values(reader, head, kinds)
    except Fault as fault:
        return {'undecoded': fault}
    return {'ins': '[' + ','.join(value_text(*pair) for pair in zip(kinds, values)) + ']'}
