"""Interface files in which types have names, at random (docs/FORMATS.md, "Names of types"): lawful
ones, spoilt ones, and those at a limit."""
import json

import random_types
from names import LEVELS, ROOM
from random_texts import SCRAPS, places, spoilt

NAMES = ('Point', 'Line', 'a', 'type', 'struct', 'types', '', ' ', '"', '\xe9', '\u20ac', '\0')
TEXTS = ('', 'IDL:Demo/Calculator:1.0', 'what it does', '\xe9\0', '\u20ac')


def interface(rng):
    """A lawful file, as often as not one in which types have names."""
    form = random_types.interface(rng)
    if rng.random() < 0.5:
        form = with_names(rng, form)
    return with_beside(rng, form)


def with_names(rng, form):
    """The file with some of its descriptions under names."""
    types = {}
    for members in lists_of(form):
        for pair in members:
            pair[1] = named(rng, types, pair[1])
    if rng.random() < 0.2:
        under_name(rng, types, random_types.description(rng, 2))
    return {**form, 'types': mixed(rng, types)}


def lists_of(form):
    """All lists of parameters and members."""
    for operation in form['operations'].values():
        yield from (operation[key] for key in ('ins', 'outs') if key in operation)
    yield from form.get('exceptions', {}).values()


def mixed(rng, form):
    """An object with its members in any order."""
    return dict(rng.sample(list(form.items()), len(form)))


def named(rng, types, form):
    """The description with some parts of it under names, and itself perhaps."""
    made = form
    if isinstance(form, dict):
        made = {key: part_named(rng, types, key, part) for key, part in form.items()}
    return under_name(rng, types, made) if rng.random() < 0.4 else made


def part_named(rng, types, key, part):
    """What stands under a key of a description."""
    if key in ('sequence', 'array', 'union'):
        return named(rng, types, part)
    if key == 'default':
        return [part[0], named(rng, types, part[1])]
    if key in ('struct', 'cases'):
        return [[*front, named(rng, types, form)] for *front, form in part]
    return part


def under_name(rng, types, form):
    """A name of the description: one that it has already, a new one, or a name of such a name."""
    known = [name for name, other in types.items() if other == form]
    if known and rng.random() < 0.7:
        return {'type': rng.choice(known)}
    free = [name for name in NAMES if name not in types] or [f'T{len(types)}']
    name = rng.choice(free)
    types[name] = form
    return {'type': name} if rng.random() < 0.8 else under_name(rng, types, {'type': name})


def with_beside(rng, form):
    """The file with an id, comments and what operations raise, here and there."""
    form = {**form}
    for key in ('id', 'comment'):
        if rng.random() < 0.3:
            form[key] = rng.choice(TEXTS)
    for operation in form['operations'].values():
        if rng.random() < 0.2:
            operation['comment'] = rng.choice(TEXTS)
        if rng.random() < 0.3:
            raised = list(form.get('exceptions', {}))
            operation['raises'] = rng.sample(raised, rng.randint(0, len(raised)))
            operation['raises'] += operation['raises'][:rng.randrange(2)]
    return mixed(rng, form)


# Spoilt files: each has one thing that it may have, or may not

def spoilt_file(rng, form):
    """The file with one thing changed, by which it may be refused."""
    form = json.loads(json.dumps(form))
    form.setdefault('types', {})
    return rng.choice((spoilt, spoilt, unknown, loop, misfit, no_name, moved, misplaced,
                       beside, beside_operation, raised, unused, missing))(rng, form) or form


def some_part(rng, form):
    """A part somewhere below the operations, the exceptions or the types: what holds it, and the
    key there."""
    found = [place for key in ('operations', 'exceptions', 'types') if key in form
             for place in places(form[key])]
    return rng.choice(found) if found else (form, 'operations')


def unknown(rng, form):
    """A name that isn't there, or of any type."""
    holder, key = some_part(rng, form)
    holder[key] = {'type': rng.choice((*form['types'], 'unknown'))}


def loop(rng, form):
    """A type that stands within what it stands for, if that has the key; used, or not."""
    name = rng.choice((*form['types'], 'loop'))
    again = rng.choice(({'type': name}, {'sequence': {'type': name}}, {'type': 'another'}))
    form['types'][name] = again
    form['types']['another'] = rng.choice(({'struct': [['a', {'type': name}]]}, 'octet'))
    if rng.random() < 0.7:
        use(rng, form, name)


def use(rng, form, name):
    """An operation more, which has this type among its parameters."""
    form['operations']['uses'] = {rng.choice(('ins', 'outs')): [['p', {'type': name}]]}


def misfit(rng, form):
    """A union by any type, whose label may be none of it."""
    union = {'union': {'type': rng.choice((*form['types'], 'unknown'))},
             'cases': [[[rng.choice((0, True, 'a', 'long'))], 'm', 'octet']]}
    form['types']['union'] = union
    use(rng, form, 'union')


def no_name(rng, form):
    """An object that is no name, but looks like one."""
    holder, key = some_part(rng, form)
    name = rng.choice((*form['types'], 'unknown'))
    holder[key] = rng.choice(({'type': rng.choice(SCRAPS)}, {'type': name, 'comment': ''},
                              {'type': {'type': name}}, {'types': name}, {'type': None}))


def moved(rng, form):
    """A name in place of any part, which stands for that part."""
    holder, key = some_part(rng, form)
    form['types']['moved'], holder[key] = holder[key], {'type': 'moved'}


def misplaced(rng, form):
    """A name in place of all operations, of all exceptions, or of an operation."""
    form['types']['moved'] = form.get(rng.choice(('operations', 'exceptions')), {})
    if rng.random() < 0.6:
        form[rng.choice(('operations', 'exceptions'))] = {'type': 'moved'}
    else:
        form['operations'][rng.choice(list(form['operations']))] = {'type': 'moved'}


def beside(rng, form):
    """Anything as what stands beside the plain form of the file."""
    form[rng.choice(('id', 'comment', 'types'))] = rng.choice(SCRAPS)


def beside_operation(rng, form):
    operation = rng.choice(list(form['operations'].values()))
    operation[rng.choice(('raises', 'comment', 'id'))] = rng.choice(SCRAPS)


def raised(rng, form):
    """An exception that may be there or not, or no text."""
    operation = rng.choice(list(form['operations'].values()))
    ids = [*form.get('exceptions', {}), 'unknown', rng.choice(SCRAPS)]
    operation['raises'] = rng.sample(ids, rng.randint(1, len(ids)))


def unused(rng, form):
    """Anything under a name that no part has."""
    form['types']['unused'] = rng.choice((*SCRAPS, {'type': 'unknown'}, {'type': 'unused'}))


def missing(rng, form):
    """A type, an exception, all types or all exceptions are gone."""
    key = rng.choice(('types', 'exceptions'))
    if not form.get(key) or rng.random() < 0.2:
        form.pop(key, None)
    else:
        del form[key][rng.choice(list(form[key]))]


# Limits: each file by its number

def at_limit(number):
    """What names stand for takes all the room that there is, or one more; names and parts are
    nested as deep as they may, or one deeper; or the plain form is."""
    more = number % 2
    types = (full(more), deep_names(more), deep_names(more, 3), deep_plain(more))[number // 2]
    return {'operations': {'ping': {}, 'add': {'ins': [['a', {'type': 'T0'}]]}}, 'types': types}


LIMITS = 8


def full(more):
    """T0 to T9 stand for the next one twice, T10 for a name of 400 characters, which are two octets
    each, and T0 besides for a name that takes the rest of the room."""
    types, taken = {}, 0
    for number in range(10):
        following = {'type': f'T{number + 1}'}
        types[f'T{number}'] = {'struct': [['a', following], ['b', following]]}
        # The object, its key, the list, two pairs, their names of one octet, and two names.
        taken += 2 ** number * (1 + 7 + 1 + 2 + 2 * 2 + 2)
    # An object, its key, a list and the name take 8 beside the octets of that.
    types['T10'] = {'enum': ['\xe9' * 400]}
    taken += 2 ** 10 * (8 + 800)
    # A pair and its name take 3, and 8 as before.
    types['T0']['struct'].append(['c', {'enum': ['x' * (ROOM + more - taken - 3 - 8)]}])
    return types


def deep_names(more, within=0):
    """T0 stands for T1, and so on to an octet, or to an object and two lists within one another.
    The file is the first level, the operations, one of them, its ins, a pair, and the parameter's
    type the next five; what each name stands for is one more."""
    count = LEVELS - 7 - within + more
    types = {f'T{number}': {'type': f'T{number + 1}'} for number in range(count)}
    return {**types, f'T{count}': {'struct': [['a', 'octet']]} if within else 'octet'}


def deep_plain(more):
    """Of T0 to T39 each is a struct of the next, three levels of arrays and objects each, below the
    five of a parameter's pair: 125 in all. T40 has two more, or three."""
    types = {f'T{number}': {'struct': [['a', {'type': f'T{number + 1}'}]]} for number in range(40)}
    last = 'octet'
    for _ in range(2 + more):
        last = {'sequence': last}
    return {**types, 'T40': last}
