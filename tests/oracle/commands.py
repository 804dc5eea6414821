"""What giopctl's `dump`, `check` and `convert` print for given octets, and their exit status, by
docs/FORMATS.md. Each command answers both: (text, status)."""
import json

from bodies import Joiner, PieceFault, body_of
from cdr import Fault, Reader, Writer
from forms import FormFault, description_of, interface_of, value_of, value_text
from messages import HEADS, messages
from references import BadText, corbaloc_of, iiop_profile, octets_of_hex, reference_of, text_of
from server import heard
from text import escaped, hexed, quoted, unescaped
from tracing import Raw, traced


def foretold(words, file, other, server=None):
    """What a command line prints, and its exit status; of it, FILE is a file of the first octets,
    OTHER one of the second, an interface or a description, and SERVER one of the third."""
    if words[0] == 'trace':
        return printed(*traced(interface_of(other), file, server, '--json' in words))
    if words[0] == 'dump':
        return dump_json(file, other) if '--json' in words else dump(file, other)
    if words[0] == 'check':
        return check_json(other, file) if '--json' in words else check(other, file)
    if '--json' in words:
        return convert_json(words[1], file)
    return convert(words[1], file, other, '--little' in words)


def printed(lines, status):
    return ''.join(line + '\n' for line in lines), status


# dump

def dump(stream, interface=None):
    """Of a stream, and perhaps of an interface's text, by which bodies are told."""
    try:
        bodies = Bodies(interface)
    except FormFault as fault:
        return printed([f'fault {fault}'], 1)
    found, at, fault = messages(stream)
    lines = [line for offset, message in found
             for line in (*message_lines(offset, message), *bodies.lines(message))]
    if fault:
        return printed([*lines, f'{at} fault {fault}'], 1)
    left = len(stream) - at
    return printed([*lines, f'rest {left}'], 1 if left else 0)


def message_lines(offset, message):
    """The line of a message, and that of its head where it isn't fragmented."""
    yield (f'{offset} {message.kind}' + ('' if message.minor == 2 else f' 1.{message.minor}')
           + (' LE' if message.little else ' BE') + (' more' if message.more else '')
           + f' size {len(message.octets)}' + id_text(message))
    if message.kind in HEADS and not message.more:
        yield '  ' + head_text(message)


class Bodies:
    """What is told besides by an interface's text, where there is one."""

    def __init__(self, interface):
        self.interface = None if interface is None else interface_of(interface)
        self.joiner = Joiner()

    def lines(self, message):
        """The lines behind those of a message."""
        if not self.interface:
            return
        try:
            joined = self.joiner.joined(message)
        except PieceFault as fault:
            yield f'  unjoined {fault}'
            return
        if joined:
            yield f'  joined Request size {len(joined.octets)}'
            yield '  ' + head_text(joined)
        if joined or is_whole_request(message):
            yield from self.body_line(joined or message)

    def body_line(self, message):
        for name, told in body_of(self.interface, message).items():
            yield f'  {name} body {told}' if isinstance(told, Fault) else f'  {name} {told}'

    def members(self, message):
        """The members behind those of a message."""
        if not self.interface:
            return {}
        try:
            joined = self.joiner.joined(message)
        except PieceFault as fault:
            return {'unjoined': named(str(fault))}
        if joined:
            return {'joined': {'message': 'Request', 'size': len(joined.octets),
                               'head': head_members(joined), **self.body_members(joined)}}
        return self.body_members(message) if is_whole_request(message) else {}

    def body_members(self, message):
        made = body_of(self.interface, message)
        if 'ins' in made:
            return {'ins': Raw(made['ins'])}
        return {name: {'part': 'operation'} if told == 'operation'
                else {'part': 'body', 'fault': fault_members(told)} for name, told in made.items()}


def is_whole_request(message):
    return message.kind == 'Request' and not message.more


def id_text(message):
    try:
        return f' id {message.id()}'
    except Fault:
        return ''


def head_text(message):
    reader = message.reader()
    try:
        head = HEADS[message.kind](message, reader)
    except Fault as fault:
        return f'fault {fault}'
    body = f'body {max(reader.end - head.body, 0)}'
    if message.kind == 'Request':
        return (f'flags {head.flags} {target_text(head.target)} operation '
                f'{escaped(head.operation)} contexts {len(head.contexts)} {body}')
    if message.kind == 'Reply':
        return f'status {head.status} contexts {len(head.contexts)} {body}'
    if message.kind == 'LocateRequest':
        return target_text(head.target)
    return f'status {head.status} {body}'


def target_text(target):
    return f'{target[0]} {hexed(target[1]) if target[0] == "key" else target[1]}'


# dump --json

def dump_json(stream, interface=None):
    """As docs/FORMATS.md, "Lines of dump", has it."""
    try:
        bodies = Bodies(interface)
    except FormFault as fault:
        return printed([compact({'refused': named(str(fault))})], 1)
    found, at, fault = messages(stream)
    lines = [compact({**message_members(offset, message), **bodies.members(message)})
             for offset, message in found]
    if fault:
        return printed([*lines, compact({'at': at, 'fault': fault_members(fault)})], 1)
    left = len(stream) - at
    return printed([*lines, compact({'rest': left})], 1 if left else 0)


def compact(value):
    """JSON without blanks, in which octets are a text."""
    if isinstance(value, Raw):
        return str(value)
    if isinstance(value, dict):
        return '{' + ','.join(f'"{name}":{compact(member)}' for name, member in value.items()) + '}'
    if isinstance(value, list):
        return '[' + ','.join(compact(item) for item in value) + ']'
    return quoted(value) if isinstance(value, bytes) else json.dumps(value)


def fault_members(fault):
    return {'number': fault.number(), 'name': fault.kind, 'at': fault.at}


def message_members(offset, message):
    members = {'at': offset, 'message': message.kind, 'version': f'1.{message.minor}',
               'order': 'little' if message.little else 'big', 'more': bool(message.more),
               'size': len(message.octets), 'id': id_or_none(message)}
    if not message.more and message.kind in HEADS:
        members['head'] = head_members(message)
    return members


def id_or_none(message):
    try:
        return message.id()
    except Fault:
        return None


def head_members(message):
    reader = message.reader()
    try:
        head = HEADS[message.kind](message, reader)
    except Fault as fault:
        return {'fault': fault_members(fault)}
    body = {'body': max(reader.end - head.body, 0)}
    if message.kind == 'Request':
        return {'flags': head.flags, **target_members(head.target),
                'operation': bytes(head.operation),
                'contexts': len(head.contexts), **body}
    if message.kind == 'Reply':
        return {'status': head.status, 'contexts': len(head.contexts), **body}
    if message.kind == 'LocateRequest':
        return target_members(head.target)
    return {'status': head.status, **body}


def target_members(target):
    kind, told = target[:2]
    if kind != 'key':
        return {'profile_tag' if kind == 'profile' else 'reference_index': told}
    key = bytes(told)
    printable = all(0x20 <= octet <= 0x7E for octet in key)
    return {'key': key.hex(), **({'key_text': key} if printable else {})}


# check

def check(interface, stream):
    """Of an interface's text, and what a client sent."""
    try:
        interface = interface_of(interface)
    except FormFault as fault:
        return printed([f'fault {fault}'], 1)
    table, last = heard(interface, stream)
    lines = [f'{call} {entry.name}{entry.told}' for call, entry in sorted(table.items())]
    return printed([*lines, last], check_status(last))


def check_status(last):
    return 0 if last in ('rest 0', 'fault 7 Closed') else 1


# check --json

WHATS = {'LocateAsked': 'locate_asked'}


def check_json(interface, stream):
    """As docs/FORMATS.md, "Lines of check", has it."""
    try:
        interface = interface_of(interface)
    except FormFault as fault:
        return printed([compact({'refused': named(str(fault))})], 1)
    table, last = heard(interface, stream)
    lines = [entry_line(call, table[call]) for call in sorted(table)]
    return printed([*lines, compact(last_members(last))], check_status(last))


def named(text):
    """A fault by its text: NUMBER NAME, and at PLACE where it has one."""
    number, name, *place = text.split()
    return {'number': int(number), 'name': name, **({'at': int(place[1])} if place else {})}


def entry_line(call, entry):
    members = {'id': call, 'what': WHATS.get(entry.name, entry.name.lower())}
    first, _, behind = entry.told[1:].partition(' ')
    if entry.name == 'Undecoded':
        members |= {'part': first, **({'fault': named(behind)} if behind else {})}
    if entry.name not in ('Asked', 'Delivered'):
        return compact(members)
    return compact({**members, 'operation': unescaped(first)})[:-1] + f',"ins":{behind}}}'


def last_members(last):
    kind, number, *words = last.split()
    if kind == 'rest':
        return {'rest': int(number)}
    fault = {'number': int(number), 'name': words.pop(0)}
    if fault['name'] == 'Call':
        fault['id'] = int(words.pop(0))
    return {'fault': {**fault, **({'fault': named(' '.join(words))} if words else {})}}


# convert

def convert(kind, text, description=b'', little=False):
    """Of the octets of FILE, and of the file of --desc."""
    text = text.removesuffix(b'\n')
    try:
        return printed(CONVERSIONS[kind](text, description, little), 0)
    except (BadText, FormFault, Fault) as fault:
        return printed([f'fault {fault}'], 1)


def convert_ior(text, _description, _little):
    type_id, profiles = reference = reference_of(text)
    return [f'type {escaped(type_id)}', *(profile_line(*profile) for profile in profiles),
            text_of(reference)]


def profile_line(tag, octets):
    profile = iiop_profile(tag, octets)
    if not profile:
        return f'profile {tag} {hexed(octets)}'
    return (f'iiop {profile.major}.{profile.minor} {escaped(profile.host)} {profile.port} '
            f'{hexed(profile.key)} components {len(profile.components)}')


def convert_corbaloc(text, _description, _little):
    corbaloc = corbaloc_of(text)
    return [corbaloc.text(), text_of(corbaloc.reference())]


def convert_encode(text, description, little):
    kind = description_of(description)
    writer = Writer(little)
    kind.write(writer, value_of(kind, text))
    return [writer.octets.hex()]


def convert_decode(text, description, little):
    kind = description_of(description)
    reader = Reader(octets_of_hex(text), little)
    value = kind.read(reader)
    reader.must_end()
    return [value_text(kind, value)]


CONVERSIONS = {'ior': convert_ior, 'corbaloc': convert_corbaloc, 'encode': convert_encode,
               'decode': convert_decode}


# convert --json

def convert_json(kind, text):
    """As docs/FORMATS.md, "Lines of convert", has it: of a reference or a corbaloc."""
    try:
        return printed([compact(JSON_CONVERSIONS[kind](text.removesuffix(b'\n')))], 0)
    except (BadText, FormFault, Fault) as fault:
        return printed([compact({'refused': named(str(fault))})], 1)


def ior_members(text):
    type_id, profiles = reference = reference_of(text)
    return {'type_id': bytes(type_id),
            'profiles': [profile_members(*profile) for profile in profiles],
            'ior': text_of(reference).encode()}


def profile_members(tag, octets):
    profile = iiop_profile(tag, octets)
    if not profile:
        return {'tag': tag, 'octets': bytes(octets).hex()}
    return {'tag': 0, 'version': f'{profile.major}.{profile.minor}', 'host': bytes(profile.host),
            'port': profile.port, **target_members(('key', profile.key)),
            'components': len(profile.components)}


def corbaloc_members(text):
    corbaloc = corbaloc_of(text)
    return {'corbaloc': corbaloc.text().encode(), 'ior': text_of(corbaloc.reference()).encode()}


JSON_CONVERSIONS = {'ior': ior_members, 'corbaloc': corbaloc_members}
