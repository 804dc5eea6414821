"""Edges: each octet of a header with each value that matters, each act on each entry of a table,
and each limit met, and missed by one."""
from messages import LARGEST_MESSAGE
from random_streams import message, number as spelled
from server import CALLS, GATHERED

SIZES = (0, 1, 2, 3, 4, 5, 6, 7, 8, 11, 12, 13, 19, 20, 28,
         LARGEST_MESSAGE - 4, LARGEST_MESSAGE - 1, LARGEST_MESSAGE, LARGEST_MESSAGE + 1,
         LARGEST_MESSAGE + 4, 2 ** 31, 2 ** 32 - 4, 2 ** 32 - 1)

# An operation of each manner: with parameters and without, oneway and not.
ACTS = {'operations': {'ping': {}, 'add': {'ins': [['a', 'long'], ['b', 'long']]},
                       'tell': {'oneway': True, 'ins': [['t', 'string']]}}}


def header(rng):
    """A header with up to three of its octets wrong, what it asks for behind it, and a message
    more."""
    flags, size = rng.choice((0, 1, 2, 3)), rng.choice((rng.choice(SIZES), 0, 4, 20))
    octets = bytearray((*b'GIOP', 1, rng.choice((0, 1, 2, 2)), flags, rng.randrange(8),
                        *size.to_bytes(4, 'little' if flags & 1 else 'big')))
    for _ in range(rng.choice((0, 0, 1, 1, 2, 3))):
        octets[rng.randrange(8)] = rng.choice((0, 1, 2, 3, 4, 7, 8, 64, 127, 128, 255, ord('G')))
    behind = bytes(rng.choice((0, 0, 0, 1, 3)) for _ in range(min(size, 28)))
    if rng.random() < 0.2:
        return bytes(octets[:rng.randrange(12)])
    return bytes(octets) + behind + message('CloseConnection', 2, False, b'')


# A Request of `ping` with the key `k`, without its id: flags, reserved octets, target, operation
# and contexts, big-endian; and one of `add`, whose parameters begin at 48, of 2 and 5.
PING = '03000000' '00000000' '00000001' '6b000000' '00000005' '70696e67' '00000000' '00000000'
ADD = '03000000' '00000000' '00000001' '6b000000' '00000004' '61646400' '00000000' '00000000'


def number_of(call):
    """A request id, big-endian."""
    return spelled(call, False)


def request(call, more=False, flags=3, body=None):
    """A Request of `ping`, or of `add` with a body; the first piece of it where more are to
    come."""
    rest = bytearray(bytes.fromhex(PING if body is None else ADD)) + (body or b'')
    rest[0] = flags
    joined = number_of(call) + rest
    return message('Request', 2, False, joined[:12] if more else joined, more)


def fragment(call, little=False, more=False):
    """A Fragment; the last one of a Request of `ping` has the octets that its first piece left."""
    rest = bytes.fromhex(PING)[8:]
    octets = spelled(call, little) + (rest[:8] if more else rest)
    return message('Fragment', 2, little, octets, more)


def locate(call, more=False):
    octets = number_of(call) + bytes.fromhex('00000000' '00000004' '6b6b6b6b')
    return message('LocateRequest', 2, False, octets[:4] if more else octets, more)


def acts(rng):
    """Up to nine messages of two ids."""
    return b''.join(act(rng, rng.choice((1, 1, 2))) for _ in range(rng.randint(1, 9)))


def act(rng, call):
    """A message of each kind that does something, more often one that ends nothing."""
    return rng.choice((
        lambda: request(call, flags=rng.choice((0, 0, 0, 1, 3, 2))),
        lambda: request(call, flags=0, body=bytes.fromhex(rng.choice(ADD_BODIES))),
        lambda: request(call, body=bytes.fromhex(rng.choice(ADD_BODIES))),
        lambda: request(call, more=True), lambda: request(call, more=True),
        lambda: fragment(call, rng.random() < 0.1, rng.random() < 0.3),
        lambda: fragment(call, rng.random() < 0.1, rng.random() < 0.3),
        lambda: locate(call, rng.random() < 0.5),
        lambda: message('Fragment', 2, False, number_of(call) + bytes.fromhex('000000046b6b6b6b')),
        lambda: message('CancelRequest', rng.randrange(3), False, number_of(call)),
        lambda: message('CancelRequest', rng.randrange(3), True, spelled(call, True))))()


ADD_BODIES = ('0000000200000005', '00000002000000', '0000000200000005ff', '', '00000002')


# Limits: each case by its number

def full_table(number):
    """As many calls as there may be, one less, or one more, and one message behind them: of an id
    whose call is over, or of another."""
    count = CALLS + number // 7 % 3 - 1
    calls = [request(call, flags=0) for call in range(count)]
    more = (b'', request(3), request(count), locate(count + 1), request(count, True),
            message('CancelRequest', 2, False, number_of(count)), fragment(count))
    return b''.join(calls) + more[number % 7]


def full_gatherer(number):
    """Eight unfinished messages, of which one may be cancelled, or end, to make room for another;
    their octets are together at the limit, or eight past it or before. The last piece counts as it
    comes."""
    size, ends = LARGEST_MESSAGE - 4, number // 3 % 3
    first = [message('Request', 2, False, number_of(call) + bytes(size - 4), True)
             for call in range(8)]
    ended = (b'', message('CancelRequest', 2, False, number_of(7)),
             message('Fragment', 2, False, number_of(7) + bytes(1)))[ends]
    another = message('Request', 2, False, number_of(9) + bytes(size - 4), True) if ends else b''
    left = GATHERED - 8 * size + (-8, 0, 8)[number % 3]
    last = message('Fragment', 2, False, number_of(0) + bytes(left), number // 9 % 2 == 0)
    return b''.join(first) + ended + another + last


def large(number):
    """A message of the largest size, or one octet larger or smaller, whole or not."""
    octets = request(1, body=bytes(LARGEST_MESSAGE + number % 3 - 1 - 36))
    return octets[:len(octets) - number // 3 % 2]


FULL_TABLES, FULL_GATHERERS, LARGE = 21, 18, 6
