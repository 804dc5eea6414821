"""Descriptions, interfaces and values at random, as JSON that Python holds, small enough that many
fit in a minute. Most of them are lawful."""
from descriptions import (Array, Boolean, Char, Enum, Number, Octets, REFERENCE, Sequence, String,
                          Struct)
from forms import SIMPLE, description_form

NAMES = ('a', 'b', 'ab', 'disc', 'value', 'A', 'z9', '_x', 'ping', 'add', 'list',
         'a long name of it',
         '', ' ', '"', '\\', '%', '\x01', '\n', '\x7f', '\x80', '\xe9', '\xff')
# A struct that is the same as a reference
REFERENCE_IN_FULL = {'struct': [['type_id', 'string'], ['profiles', {
    'sequence': {'struct': [['tag', 'ulong'], ['octets', 'octets']]}}]]}
DISCRIMINANTS = ('boolean', 'char', 'short', 'ushort', 'long', 'ulong', 'longlong', 'ulonglong')


def names(rng, count):
    """So many names, of which any two differ."""
    return rng.sample(NAMES, count)


def description(rng, depth=3):
    """The JSON of a description that is at most so deep, the leaves of a reference apart."""
    if depth == 1 or rng.random() < 0.45:
        return simple(rng)
    return rng.choice((enum, struct, struct, union, union, sequence, array))(rng, depth - 1)


def simple(rng):
    if rng.random() < 0.2:
        return {rng.choice(('string', 'octets')): rng.choice((1, 2, 3, 4, 8, 2 ** 32 - 1))}
    return REFERENCE_IN_FULL if rng.random() < 0.03 else rng.choice(tuple(SIMPLE))


def enum(rng, _depth=1):
    return {'enum': names(rng, rng.randint(1, 4))}


def struct(rng, depth):
    return {'struct': members(rng, depth, 1)}


def members(rng, depth, least=0):
    return [[name, description(rng, depth)] for name in names(rng, rng.randint(least, 3))]


def sequence(rng, depth):
    form = {'sequence': description(rng, depth)}
    if rng.random() < 0.5:
        form['bound'] = rng.choice((1, 2, 3, 2 ** 32 - 1))
    return form


def array(rng, depth):
    return {'array': description(rng, depth), 'length': rng.choice((1, 2, 3, 4))}


def union(rng, depth):
    disc = enum(rng) if rng.random() < 0.3 else rng.choice(DISCRIMINANTS)
    labels = some_labels(rng, disc)
    named = names(rng, len(labels) + 1)
    cases = []
    while labels:
        count = rng.randint(1, len(labels))
        cases.append([labels[:count], named.pop(), description(rng, depth)])
        labels = labels[count:]
    form = {'union': disc, 'cases': cases}
    if rng.random() < 0.5:
        form['default'] = [named.pop(), description(rng, depth)]
    return form


def some_labels(rng, disc):
    """One to four labels of a discriminant, of which any two differ."""
    if isinstance(disc, dict):
        possible = disc['enum']
    elif disc == 'boolean':
        possible = [False, True]
    elif disc == 'char':
        possible = ['a', 'b', '\0', '\xff']
    else:
        span = SIMPLE[disc].range()
        possible = sorted({0, 1, 2, span[0], span[-1]})
    return rng.sample(possible, rng.randint(1, min(4, len(possible))))


def nested(rng, count):
    """A description with so many others around it."""
    form = rng.choice(('octet', 'reference', 'string'))
    for _ in range(count):
        form = rng.choice((
            {'sequence': form}, {'array': form, 'length': 1}, {'struct': [['a', form]]},
            {'union': 'boolean', 'cases': [[[True], 'a', form]]}))
    return form


def interface(rng):
    """The JSON of an interface of one to four operations."""
    form = {'operations': {name: operation(rng) for name in names(rng, rng.randint(1, 4))}}
    if rng.random() < 0.3:
        form['exceptions'] = {name: members(rng, 2) for name in names(rng, 2)}
    return form


def operation(rng):
    form = {}
    if rng.random() < 0.8:
        form['ins'] = members(rng, 3)
    if rng.random() < 0.3:
        form['oneway'] = rng.random() < 0.5
    if rng.random() < 0.3 and not form.get('oneway'):
        form['outs'] = members(rng, 2)
    return form


def widened(form):
    """The description with each bound one more, so that values of it may pass the bounds."""
    if isinstance(form, list):
        return [widened(part) for part in form]
    if not isinstance(form, dict):
        return form
    bounds = [key for key in ('string', 'octets', 'bound') if isinstance(form.get(key), int)]
    return {key: min(part + 1, 2 ** 32 - 1) if key in bounds else widened(part)
            for key, part in form.items()}


# Values, as descriptions.py has them

def value(rng, kind):
    """A value of the type."""
    if kind == REFERENCE:
        return reference(rng)
    if isinstance(kind, Boolean):
        return rng.random() < 0.5
    if isinstance(kind, Number):
        return number(rng, kind)
    if isinstance(kind, Char):
        return rng.choice((0, 1, 34, 65, 92, 127, 128, 255))
    if isinstance(kind, String):
        return octets(rng, kind.bound, 1)
    if isinstance(kind, Octets):
        return octets(rng, kind.bound, 0)
    if isinstance(kind, Enum):
        return rng.randrange(len(kind.names))
    if isinstance(kind, Struct):
        return [value(rng, part) for _, part in kind.members]
    if isinstance(kind, (Sequence, Array)):
        return [value(rng, kind.element) for _ in range(count_of(rng, kind))]
    return union_value(rng, kind)


def count_of(rng, kind):
    if isinstance(kind, Array):
        return kind.length
    return rng.randint(0, min(3, kind.bound or 3))


def number(rng, kind):
    """A number of the type, often one at an end of its range."""
    span = kind.range()
    return rng.choice((span[0], span[-1], 0, 1, rng.randint(span[0], span[-1])))


def octets(rng, bound, least):
    """A few octets, each of which is at least the one that is given."""
    length = rng.choice((0, 1, 2, 3, 4, 5, 7, 8, 15))
    return bytes(rng.choice((least, 34, 37, 65, 92, 97, 127, 128, 255))
                 for _ in range(min(length, bound or length)))


def union_value(rng, kind):
    """A union, whose discriminant is a label more often than not."""
    labels = [label for labels, _, _ in kind.cases for label in labels]
    disc = rng.choice(labels) if rng.random() < 0.7 else value(rng, kind.disc)
    member = kind.selected(disc)
    return disc, value(rng, member) if member else None


def reference(rng):
    """A reference of a few profiles."""
    type_id = rng.choice((b'', b'IDL:Demo/Printer:1.0', b'IDL:\xff%:1.0'))
    return [type_id, [profile(rng) for _ in range(rng.choice((0, 1, 1, 2, 3)))]]


def profile(rng):
    """A tag and its octets; these are random_texts' concern."""
    return [rng.choice((0, 1, 3, 2 ** 32 - 1)), octets(rng, 0, 0)]


def kind_of(form):
    """The type of the JSON of a description."""
    return description_form(form)
