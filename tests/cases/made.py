"""Rows that are made: too many to stand in files.

Each subject yields a program, the text that it is given, and the text that it has to print. What is
expected is worked out here by hand or by a plain table, never by the program.
"""
import pathlib

INTERFACE = (pathlib.Path(__file__).with_name('interleavings.args')).read_text().split('\n')[0]
MASK = 2**64 - 1
SEEDS = (88172645463325252, 1070372123456789, 2862933555777941757, 3202034522624059733)


class Random:
    """Numbers that look random (Marsaglia's xorshift, of 64 bits)."""

    def __init__(self, seed):
        self.state = seed

    def below(self, n):
        for shift in (13, -7, 17):
            moved = self.state << shift if shift > 0 else self.state >> -shift
            self.state ^= moved & MASK
        return (self.state >> 33) % n


def piece(kind, order, more, request_id, octets=''):
    """A message of 1.2 with an id of four octets, by octets in hexadecimal digits."""
    size = len(octets) // 2 + 4
    digits = [size.to_bytes(4, order), request_id.to_bytes(4, order)]
    flags = (order == 'little') + 2 * more
    return f'47494f500102{flags:02x}{kind:02x}{digits[0].hex()}{digits[1].hex()}{octets}'


def pieces(order, request_id, kind, parts):
    """A message in pieces: the octets of each behind its id."""
    kinds = [kind] + [7] * (len(parts) - 1)
    return [piece(one, order, i + 1 < len(parts), request_id, part)
            for i, (one, part) in enumerate(zip(kinds, parts))]


def ulong(order, *numbers):
    return ''.join(number.to_bytes(4, order).hex() for number in numbers)


# Five calls: `ping` as id 1 and id 2, `add` of 2 and 5 as id 4, a LocateRequest as id 6, and `tell`
# of x, which expects no reply, as id 8. Each has the key 6b, and comes in pieces of 24 octets.
def calls(order):
    key = ulong(order, 1) + '6b000000'
    target = ['0300000000000000', key]
    ping = [*target, ulong(order, 5) + '70696e67', '0000000000000000']
    add = [*target, ulong(order, 4) + '61646400', '0000000000000000', ulong(order, 2, 5)]
    locate = ['00000000' + ulong(order, 1), '6b']
    tell = ['0000000000000000', key, ulong(order, 5) + '74656c6c', '0000000000000000',
            ulong(order, 2) + '7800']
    return [pieces(order, 1, 0, ping), pieces(order, 2, 0, ping), pieces(order, 4, 0, add),
            pieces(order, 6, 3, locate), pieces(order, 8, 0, tell)]


BIG, LITTLE = calls('big'), calls('little')
TABLE = '1 Asked ping, 2 Asked ping, 4 Asked add 2 5, 6 LocateAsked, 8 Delivered tell text, open'


def interleaved(random):
    """All pieces of the five calls, each call in a byte order and at places at random."""
    left = [list((BIG, LITTLE)[random.below(2)][call]) for call in range(5)]
    stream = ''
    while any(left):
        call = random.below(5)
        while not left[call]:
            call = (call + 1) % 5
        stream += left[call].pop(0)
    return stream


def interleavings():
    """Any interleaving, in reads of 1 to 60 octets, gives the one table."""
    for seed in SEEDS:
        random = Random(seed)
        for _ in range(2500):
            stream = interleaved(random)
            given, printed = ['ends'], ['ends']
            while stream:
                octets = 2 * (random.below(60) + 1)
                given.append(f'server hear {stream[:octets]}')
                printed.append('done')
                stream = stream[octets:]
            yield 'session_rows', [INTERFACE], given + ['server table'], printed + [TABLE]


class Table:
    """What is gathered, beside a gatherer: for each id its byte order and its octets."""

    def __init__(self, limit):
        self.limit = limit
        self.lists = {}
        self.blocks = 0

    def total(self):
        return sum(len(octets) for _, octets in self.lists.values())

    def put(self, request_id, order, octets):
        """The answer of a begin, or of an add where the id has a list."""
        if request_id in self.lists and self.lists[request_id][0] != order:
            return 'OrderDiffers'
        if self.total() + len(octets) > self.limit:
            return 'GatherFull'
        before = self.lists.get(request_id, (order, b''))[1]
        self.lists[request_id] = (order, before + octets)
        taken = sum((len(octets) + 511) // 512 for _, octets in self.lists.values())
        self.blocks = max(self.blocks, taken)
        return 'done'

    def shown(self, request_id):
        if request_id not in self.lists:
            return 'absent'
        order, octets = self.lists[request_id]
        return f'{order} {octets.hex() or "-"}'


def random_row(random, table, request_id, octets):
    """A call of a random kind, and its answer."""
    word = octets.hex() or '-'
    kind = random.below(10)
    order = ('big', 'little')[random.below(2)]
    if kind == 0:
        answer = table.shown(request_id).replace('absent', 'Stray')
        table.lists.pop(request_id, None)
        return f'finish {request_id}', answer
    if kind == 1:
        table.lists.pop(request_id, None)
        return f'discard {request_id}', 'done'
    if request_id in table.lists:
        order = order if kind == 2 else table.lists[request_id][0]
        return f'add {request_id} {order} {word}', table.put(request_id, order, octets)
    if kind == 2:
        return f'add {request_id} {order} {word}', 'Stray'
    return f'begin {request_id} {order} {word}', table.put(request_id, order, octets)


def random_calls():
    """Ten thousand random calls, after each of which what is gathered is the plain table's."""
    random, table = Random(SEEDS[0]), Table(6000)
    store = bytes(random.below(256) for _ in range(2048))
    given, printed = ['gather 6000'], ['gather 6000']
    for _ in range(10000):
        at, more = random.below(800), random.below(1200)
        request_id = random.below(8) * 2654435761 % 2**32
        row, answer = random_row(random, table, request_id, store[at:at + more])
        given += [row, f'joined {request_id}', 'total', 'len', 'blocks']
        printed += [answer, table.shown(request_id), str(table.total()), str(len(table.lists)),
                    str(table.blocks)]
    yield 'gather_rows', [], given, printed


LIMIT = 8388608


def filled(request_id, octet, count):
    """Rows that gather so many octets in pieces of 4,096."""
    sizes = [4096] * (count // 4096) + [count % 4096] * (count % 4096 > 0)
    words = ['begin'] + ['add'] * (len(sizes) - 1)
    return [f'{word} {request_id} big {octet}*{size}' for word, size in zip(words, sizes)]


def limits():
    """Lists that are all of the default limit together: one, in many pieces or one; and 1,001."""
    head = [f'gather {LIMIT}']
    one = filled(1, '07', LIMIT)
    yield 'gather_rows', [], head + one + [
        'total', 'blocks', 'add 1 big 01', 'begin 2 big 01', 'joined 1', 'finish 1', 'total',
    ], head + ['done'] * len(one) + [
        str(LIMIT), '16384', 'GatherFull', 'GatherFull', f'big 07*{LIMIT}', f'big 07*{LIMIT}', '0',
    ]
    yield 'gather_rows', [], head + [
        f'begin 1 big 07*{LIMIT}', 'total', 'discard 1', 'begin 1 big -', f'add 1 big 07*{LIMIT}',
        'blocks', 'joined 1', 'finish 1',
    ], head + [
        'done', str(LIMIT), 'done', 'done', 'done', '16384', f'big 07*{LIMIT}', f'big 07*{LIMIT}',
    ]
    many = [row for request_id in range(1000) for row in filled(request_id, '07', 8388)]
    many += filled(1000, '09', 608)
    lists = [(request_id, 'big 07*8388') for request_id in range(1000)] + [(1000, 'big 09*608')]
    out = [row for request_id, _ in lists for row in (f'joined {request_id}',
                                                      f'finish {request_id}')]
    yield 'gather_rows', [], head + many + ['total', 'len', 'blocks'] + out + ['empty'], (
        head + ['done'] * len(many) + [str(LIMIT), '1001', '17002']
        + [text for _, text in lists for _ in range(2)] + ['true'])


ASKED, ANSWER = 'whole request 3 1.2', 'answer 1.2 1'


def tables():
    """Tables as large as their limit: of a thousand calls, half of which are answered and taken; of
    the default limit, whose calls go one by one; and a run of two events for each call."""
    ids = [turn * 7 % 1000 for turn in range(1000)]
    given = ['server 1000'] + [f'{call} {ASKED}' for call in ids] + ['len', 'full']
    printed = ['server 1000'] + ['done'] * 1000 + ['1000', 'true']
    for call in range(500):
        given += [f'{call} {ANSWER}', f'take {call}']
        printed += ['done', 'answered 0']
    yield 'call_rows', [], given + ['len', 'ids'], printed + [
        '500', ' '.join(str(call) for call in range(500, 1000))]
    ids = [turn * 4099 for turn in range(1024)]
    given = ['server 1024'] + [f'{call} {ASKED}' for call in ids] + ['full', f'1 {ASKED}', 'ids']
    printed = ['server 1024'] + ['done'] * 1024 + ['true', 'TooManyCalls', ' '.join(map(str, ids))]
    for call in ids:
        given += [f'entry {call}', f'{call} {ANSWER}', f'take {call}']
        printed += ['asked', 'done', 'answered 0']
    yield 'call_rows', [], given + ['empty'], printed + ['true']
    given = [f'{call} {event}' for event in (ASKED, ANSWER) for call in range(1024)]
    yield 'call_rows', [], ['server-run 1024'] + given + ['full'], (
        ['server-run 1024'] + ['done'] * 2048 + ['true'])


SUBJECTS = {
    'any_interleaving_in_any_reads_gives_one_table': interleavings,
    'random_calls_gather_what_a_plain_table_does': random_calls,
    'lists_hold_all_octets_of_the_limit': limits,
    'calls_of_the_limit_stand_side_by_side': tables,
}

PROGRAMS = ['call_rows', 'gather_rows', 'session_rows']
