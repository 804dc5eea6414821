"""The cases, each named KIND:N. The name is the seed of all that is random in it, so that a case
can be had again by its name alone."""
import json
import random
from dataclasses import dataclass

import commands
import random_edges
import random_names
import random_sessions
import random_texts
import random_types
from forms import json_form
from loose import LooseWriter, damaged
from random_streams import Peer, message


@dataclass
class Case:
    """A command line of giopctl, where FILE, OTHER and SERVER stand for files of these octets."""
    words: list
    file: bytes
    other: bytes = None  # of an interface or a description
    server: bytes = None  # what a server sent

    def foretold(self):
        """What is to be printed, and the exit status."""
        return commands.foretold(self.words, self.file, self.other, self.server)


def dump(file):
    return Case(['dump', 'FILE'], file)


def dump_by(interface, file):
    return Case(['dump', '--interface', 'OTHER', 'FILE'], file, interface)


def as_json(case):
    """The same case, told as JSON."""
    return Case([case.words[0], '--json', *case.words[1:]], case.file, case.other)


def check(interface, file):
    return Case(['check', '--interface', 'OTHER', 'FILE'], file, interface)


def compact(form):
    return json.dumps(form).encode()


# Streams

def some_stream(rng, errs):
    """An interface, and what a client sends: perhaps a message that ends it, perhaps cut short."""
    interface = random_names.interface(rng)
    peer = Peer(rng, interface, errs)
    made = peer.session()
    if rng.random() < 0.3:
        made.insert(rng.randint(0, len(made)) if errs else len(made), peer.stray())
    stream = b''.join(made)
    if rng.random() < 0.1:
        stream = stream[:rng.randrange(len(stream) + 1)]
    return interface, stream


def dump_lawful(rng):
    return dump(some_stream(rng, False)[1])


def dump_replies(rng):
    """What a server sends."""
    peer = Peer(rng, {'operations': {}}, True)
    made = b''.join(peer.stray() for _ in range(rng.randint(1, 5)))
    return dump(made if rng.random() < 0.7 else damaged(rng, made))


def dump_damaged(rng):
    return dump(damaged(rng, some_stream(rng, True)[1]))


def dump_header(rng):
    return dump(random_edges.header(rng))


def check_lawful(rng):
    interface, stream = some_stream(rng, False)
    return check(compact(interface), stream)


def check_wrong(rng):
    interface, stream = some_stream(rng, True)
    return check(compact(interface), stream)


def check_damaged(rng):
    interface, stream = some_stream(rng, True)
    return check(compact(interface), damaged(rng, stream))


def check_acts(rng):
    """Messages of two ids in any order."""
    return check(compact(random_edges.ACTS), random_edges.acts(rng))


def check_cut(rng):
    """A message whose octets end before they should, whose header tells so."""
    interface, cut = a_cut_message(rng)
    return check(compact(interface), cut)


def dump_cut(rng):
    return dump(a_cut_message(rng)[1])


def a_cut_message(rng):
    interface = random_names.interface(rng)
    peer, (minor, little) = Peer(rng, interface, False), (rng.randrange(3), rng.random() < 0.5)
    kind, payload = peer.some_message(7, minor, little)
    return interface, message(kind, minor, little, payload[:rng.randrange(4, len(payload) + 1)])


def check_json(rng):
    """Any of the above, as JSON."""
    recipe = rng.choice((check_lawful, check_wrong, check_damaged, check_acts, check_cut,
                         check_interface, check_names))
    return as_json(recipe(rng))


def dump_bodies(rng):
    """What `check` is given, told by `dump`, as text or as JSON."""
    recipe = rng.choice((check_lawful, check_wrong, check_damaged, check_acts, check_cut,
                         check_interface, check_names))
    case = recipe(rng)
    made = dump_by(case.other, case.file)
    return as_json(made) if rng.random() < 0.4 else made


def check_table(number):
    return check(compact(random_edges.ACTS), random_edges.full_table(number))


def check_gatherer(number):
    return check(compact(random_edges.ACTS), random_edges.full_gatherer(number))


def dump_gatherer(number):
    case = dump_by(compact(random_edges.ACTS), random_edges.full_gatherer(number))
    return as_json(case) if number % 2 else case


def check_limit(number):
    """An interface whose names stand for as much as they may, or for more."""
    return check(compact(random_names.at_limit(number)), random_edges.request(1))


def dump_json(rng):
    """Any of the above, as JSON."""
    recipe = rng.choice((dump_lawful, dump_replies, dump_damaged, dump_header, dump_cut))
    return as_json(recipe(rng))


def dump_large(number):
    return dump(random_edges.large(number))


def check_interface(rng):
    """An interface that is spoilt, and a stream of it as it was."""
    interface, stream = some_stream(rng, False)
    if rng.random() < 0.1:
        changed = rng.choice(list(interface['operations'].values()))
        changed.update(oneway=rng.random() < 0.5, outs=random_types.members(rng, 2))
        text = compact(interface)
    elif rng.random() < 0.8:
        text = random_texts.json_text(rng, random_texts.spoilt(rng, interface))
    else:
        text = random_texts.broken_text(rng, random_texts.json_text(rng, interface))
    return check(text, stream)


def check_names(rng):
    """An interface in which something of its names is spoilt, and a stream of it as it was."""
    interface, stream = some_stream(rng, False)
    return check(random_texts.json_text(rng, random_names.spoilt_file(rng, interface)), stream)


# Both directions of a connection

def trace(rng, session):
    """In text or as JSON, and now and then of the client alone."""
    form, client, server = session
    words = ['trace', '--interface', 'OTHER', 'FILE', *['--json'] * rng.randrange(2)]
    if rng.random() < 0.1:
        return Case(words, client, compact(form))
    return Case([*words, 'SERVER'], client, compact(form), server)


def trace_lawful(rng):
    return trace(rng, random_sessions.session(rng, False))


def trace_wrong(rng):
    return trace(rng, random_sessions.session(rng, True))


def trace_damaged(rng):
    return trace(rng, random_sessions.session(rng, True, True))


# References and corbalocs

def ended(rng, text):
    """The text, with newlines at its end."""
    return text + (rng.choice((b'', b'\n\n', b'\r\n')) if rng.random() < 0.06 else b'\n')


def ior(rng):
    return Case(['convert', 'ior', 'FILE'], ended(rng, random_texts.ior_text(rng)))


def ior_damaged(rng):
    return Case(['convert', 'ior', 'FILE'], ended(rng, damaged(rng, random_texts.ior_text(rng))))


def corbaloc(rng):
    return Case(['convert', 'corbaloc', 'FILE'], ended(rng, random_texts.corbaloc_text(rng)))


def corbaloc_damaged(rng):
    return Case(['convert', 'corbaloc', 'FILE'],
                ended(rng, damaged(rng, random_texts.corbaloc_text(rng))))


def reference_json(rng):
    """Any of the above, as JSON."""
    case = rng.choice((ior, ior_damaged, corbaloc, corbaloc_damaged))(rng)
    return Case([*case.words[:2], '--json', *case.words[2:]], case.file)


# Values

def some_description(rng):
    if rng.random() < 0.1:
        return random_types.nested(rng, rng.choice((1, 5, 28, 29, 30, 31, 32, 33, 40)))
    return random_types.description(rng, rng.choice((1, 2, 3, 4)))


def conversion(rng, kind, file, description):
    little = ['--little'] if rng.random() < 0.5 else []
    words = ['convert', kind, 'FILE', '--desc', 'OTHER', *little]
    return Case(words, ended(rng, file), description)


def value_form(rng, description):
    """A value of the description, as JSON."""
    kind = random_types.kind_of(description)
    return json_form(kind, random_types.value(rng, kind))


def encode(rng):
    description = some_description(rng)
    text = random_texts.json_text(rng, value_form(rng, description))
    return conversion(rng, 'encode', text, random_texts.json_text(rng, description))


def encode_bounds(rng):
    """A value that may pass a bound, or be too deep."""
    description = some_description(rng)
    value = compact(value_form(rng, random_types.widened(description)))
    return conversion(rng, 'encode', value if rng.random() < 0.8 else random_texts.deep_text(rng),
                      compact(description))


def encode_spoilt(rng):
    description = some_description(rng)
    form = value_form(rng, description)
    if rng.random() < 0.8:
        text = random_texts.json_text(rng, random_texts.spoilt(rng, form))
    else:
        text = random_texts.broken_text(rng, random_texts.json_text(rng, form))
    return conversion(rng, 'encode', text, compact(description))


def encode_description(rng):
    """A description that is spoilt, and a value of it as it was."""
    description = some_description(rng)
    value = compact(value_form(rng, description))
    if rng.random() < 0.8:
        text = random_texts.json_text(rng, random_texts.spoilt(rng, description))
    else:
        text = random_texts.broken_text(rng, random_texts.json_text(rng, description))
    return conversion(rng, 'encode', value, text)


def octets_of(rng, description):
    """Octets that spell a value of the description, with any padding; the order is told by a
    guess."""
    kind = random_types.kind_of(description)
    writer = LooseWriter(rng, rng.random() < 0.5)
    kind.write(writer, random_types.value(rng, kind))
    return writer


def decode(rng):
    description = some_description(rng)
    writer = octets_of(rng, description)
    case = conversion(rng, 'decode', writer.octets.hex().encode(), compact(description))
    if rng.random() < 0.9:
        case.words = case.words[:5] + ['--little'] * writer.little
    return case


def decode_bounds(rng):
    """Octets of a value that may pass a bound."""
    description = some_description(rng)
    writer = octets_of(rng, random_types.widened(description))
    case = conversion(rng, 'decode', writer.octets.hex().encode(), compact(description))
    case.words = case.words[:5] + ['--little'] * writer.little
    return case


def decode_damaged(rng):
    description = some_description(rng)
    octets = damaged(rng, octets_of(rng, description).octets)
    digits = random_texts.either_case(rng, octets.hex().encode())
    if rng.random() < 0.1:
        digits = damaged(rng, digits)
    return conversion(rng, 'decode', digits, compact(description))


# How many of each kind there are; each case of the last five is told by its number
RECIPES = {
    dump_lawful: 1500, dump_replies: 1500, dump_damaged: 1500, dump_header: 1500, dump_cut: 1500,
    dump_json: 3000,
    trace_lawful: 1000, trace_wrong: 1000, trace_damaged: 1000,
    check_lawful: 2500, check_wrong: 2000, check_damaged: 1000, check_acts: 2500, check_cut: 1000,
    check_interface: 2000, check_names: 2000, check_json: 3000, dump_bodies: 2000,
    ior: 1500, ior_damaged: 500, corbaloc: 1500, corbaloc_damaged: 500,
    reference_json: 2000,
    encode: 1000, encode_spoilt: 1500, encode_bounds: 700, encode_description: 1500,
    decode: 1000, decode_bounds: 700, decode_damaged: 1500,
    dump_large: random_edges.LARGE, check_table: random_edges.FULL_TABLES,
    check_gatherer: random_edges.FULL_GATHERERS, dump_gatherer: random_edges.FULL_GATHERERS,
    check_limit: random_names.LIMITS}
LISTED = (dump_large, check_table, check_gatherer, dump_gatherer, check_limit)
KINDS = {recipe.__name__: recipe for recipe in RECIPES}


def names(times=1):
    """The names of all cases; so many times as many of those that are random."""
    return [f'{recipe.__name__}:{number}' for recipe, count in RECIPES.items()
            for number in range(count if recipe in LISTED else count * times)]


def case_of(name):
    """The case of a name."""
    kind, number = name.split(':')
    recipe = KINDS[kind]
    return recipe(int(number)) if recipe in LISTED else recipe(random.Random(name))
