"""The JSON forms of docs/FORMATS.md: descriptions, values and interfaces.

A form is judged as a whole before what it says: BadJson, then BadShape anywhere, then BadDesc
anywhere, then Unfit. So each reader here answers what the text says, and raises BadShape alone; the
others are told by `description_of`, `interface_of` and `value_of`.
"""
import re
from dataclasses import dataclass

from descriptions import (Array, Boolean, Char, Enum, Number, Octets, REFERENCE, Sequence, String,
                          Struct, Union, all_differ, is_sound)
from json_text import BadJson, compact, json_of, whole
from names import NotPlain, plain
from references import BadText, reference_of, text_of

FAULTS = ('BadJson', 'BadShape', 'BadDesc', 'Unfit')
SIMPLE = {
    'boolean': Boolean(), 'octet': Number(1), 'char': Char(), 'short': Number(2, True),
    'ushort': Number(2), 'long': Number(4, True), 'ulong': Number(4), 'longlong': Number(8, True),
    'ulonglong': Number(8), 'string': String(), 'octets': Octets(), 'reference': REFERENCE}
LARGEST = 2 ** 32 - 1


class FormFault(Exception):
    """Why a text is refused, by its name."""

    def __init__(self, name):
        super().__init__(name)
        self.name = name

    def __str__(self):
        return f'{FAULTS.index(self.name) + 1} {self.name}'


def parsed(octets):
    try:
        return json_of(octets)
    except BadJson as fault:
        raise FormFault('BadJson') from fault


def demand(holds):
    """The form of a part is the one that stands in docs/FORMATS.md, or the whole is BadShape."""
    if not holds:
        raise FormFault('BadShape')


def octets_of(json):
    """A text stands for octets: its characters are U+0000 to U+00FF."""
    demand(isinstance(json, str) and all(ord(char) < 256 for char in json))
    return json.encode('latin-1')


def keys_of(json, needed, optional=()):
    """An object with these keys: all of the first, any of the others."""
    demand(isinstance(json, dict) and set(needed) <= set(json) <= {*needed, *optional})
    return json


def list_of(json, length=None):
    demand(isinstance(json, list) and length in (None, len(json)))
    return json


def is_whole(json):
    return isinstance(json, int) and not isinstance(json, bool)


def whole_of(json):
    """A whole number, or the text of one, in the characters of a JSON number."""
    if isinstance(json, str) and re.fullmatch('0|-?[1-9][0-9]{0,19}', json):
        json = whole(json)
    demand(is_whole(json))
    return json


def number_of(json, least):
    """A bound or a length: from 1, or from 0, to the largest unsigned long."""
    demand(is_whole(json) and least <= json <= LARGEST)
    return json


# Descriptions

def description_of(octets):
    """The description of a text."""
    kind = description_form(parsed(octets))
    if not is_sound(kind):
        raise FormFault('BadDesc')
    return kind


def description_form(json):
    """The description that the form shows, whether it describes a type or not."""
    if isinstance(json, str):
        demand(json in SIMPLE)
        return SIMPLE[json]
    demand(isinstance(json, dict))
    for key, reader in COMPOSED.items():
        if key in json:
            return reader(json)
    raise FormFault('BadShape')


def bounded_string(json):
    return String(number_of(keys_of(json, ['string'])['string'], 1))


def bounded_octets(json):
    return Octets(number_of(keys_of(json, ['octets'])['octets'], 1))


def enum_form(json):
    return Enum(tuple(octets_of(name) for name in list_of(keys_of(json, ['enum'])['enum'])))


def struct_form(json):
    return Struct(members_form(keys_of(json, ['struct'])['struct']))


def members_form(json):
    """A list of pairs of a name and a description."""
    return tuple(member_form(pair) for pair in list_of(json))


def member_form(json):
    name, kind = list_of(json, 2)
    return octets_of(name), description_form(kind)


def union_form(json):
    keys_of(json, ['union', 'cases'], ['default'])
    disc = description_form(json['union'])
    cases = tuple(case_form(disc, case) for case in list_of(json['cases']))
    return Union(disc, cases, member_form(json['default']) if 'default' in json else None)


def case_form(disc, json):
    labels, name, kind = list_of(json, 3)
    labels = tuple(label_form(disc, label) for label in list_of(labels))
    return labels, octets_of(name), description_form(kind)


def label_form(disc, json):
    """A label of the discriminant's type; of an enum its ordinal, None where no name is the
    label's."""
    if isinstance(disc, Boolean):
        demand(isinstance(json, bool))
        return json
    if isinstance(disc, Char):
        return char_form(json)
    if isinstance(disc, Enum):
        name = octets_of(json)
        return disc.names.index(name) if name in disc.names else None
    return whole_of(json)


def char_form(json):
    octets = octets_of(json)
    demand(len(octets) == 1)
    return octets[0]


def sequence_form(json):
    keys_of(json, ['sequence'], ['bound'])
    bound = number_of(json['bound'], 1) if 'bound' in json else 0
    return Sequence(description_form(json['sequence']), bound)


def array_form(json):
    keys_of(json, ['array', 'length'])
    return Array(description_form(json['array']), number_of(json['length'], 0))


COMPOSED = {'string': bounded_string, 'octets': bounded_octets, 'enum': enum_form,
            'struct': struct_form, 'union': union_form, 'sequence': sequence_form,
            'array': array_form}


# Values

def value_of(kind, octets):
    """The value of a text, which is one of the type."""
    value = value_form(kind, parsed(octets))
    if not kind.fits(value):
        raise FormFault('Unfit')
    return value


def value_form(kind, json):
    """The value that the form shows, whether it fits or not."""
    if kind == REFERENCE:
        return reference_form(json)
    if isinstance(kind, (Boolean, Char, Enum)):
        return label_form(kind, json)
    if isinstance(kind, Number):
        return whole_of(json)
    if isinstance(kind, String):
        return octets_of(json)
    if isinstance(kind, Octets):
        return hex_form(json)
    if isinstance(kind, Struct):
        names = [text(name) for name, _ in kind.members]
        keys_of(json, names)
        return [value_form(part, json[name]) for name, (_, part) in zip(names, kind.members)]
    if isinstance(kind, Union):
        return union_value_form(kind, json)
    return [value_form(kind.element, part) for part in list_of(json)]


def reference_form(json):
    try:
        return reference_of(octets_of(json))
    except BadText as fault:
        raise FormFault('BadShape') from fault


def hex_form(json):
    digits = octets_of(json)
    demand(len(digits) % 2 == 0 and all(digit in b'0123456789abcdefABCDEF' for digit in digits))
    return bytes.fromhex(digits.decode())


def union_value_form(kind, json):
    keys_of(json, ['disc', 'value'])
    disc = label_form(kind.disc, json['disc'])
    member = kind.selected(disc)
    if member is None:
        demand(json['value'] is None)
    return disc, value_form(member, json['value']) if member else None


def text(octets):
    """Octets as a text of the characters U+0000 to U+00FF."""
    return octets.decode('latin-1')


def value_text(kind, value):
    """A value as compact JSON."""
    return compact(json_form(kind, value))


def json_form(kind, value):
    if kind == REFERENCE:
        return text_of(value)
    if isinstance(kind, String):
        return text(value)
    if isinstance(kind, Char):
        return chr(value)
    if isinstance(kind, Octets):
        return value.hex()
    if isinstance(kind, Enum):
        return text(kind.names[value])
    if isinstance(kind, Struct):
        return {text(name): json_form(part, item)
                for (name, part), item in zip(kind.members, value)}
    if isinstance(kind, Union):
        member = kind.selected(value[0])
        return {'disc': json_form(kind.disc, value[0]),
                'value': json_form(member, value[1]) if member else None}
    if isinstance(kind, (Sequence, Array)):
        return [json_form(kind.element, item) for item in value]
    return value


# Interfaces

@dataclass(frozen=True)
class Operation:
    ins: tuple  # of (name, type)
    outs: tuple
    oneway: bool


@dataclass(frozen=True)
class Interface:
    operations: dict  # from the name's octets
    exceptions: dict  # from the id's octets to members


def interface_of(octets):
    """The interface of a text."""
    interface = interface_form(parsed(octets))
    lists = [members for operation in interface.operations.values()
             for members in (operation.ins, operation.outs)] + list(interface.exceptions.values())
    if not all(is_sound(kind) for members in lists for _, kind in members):
        raise FormFault('BadDesc')
    return interface


def interface_form(json):
    try:
        json = plain(json)
    except NotPlain as fault:
        raise FormFault('BadShape') from fault
    keys_of(json, ['operations'], ['exceptions'])
    operations, exceptions = json['operations'], json.get('exceptions', {})
    demand(isinstance(operations, dict) and isinstance(exceptions, dict))
    return Interface({name_form(name): operation_form(form) for name, form in operations.items()},
                     {name_form(name): parameters_form(form) for name, form in exceptions.items()})


def operation_form(json):
    keys_of(json, [], ['ins', 'outs', 'oneway'])
    operation = Operation(parameters_form(json.get('ins', [])),
                          parameters_form(json.get('outs', [])), json.get('oneway', False))
    demand(isinstance(operation.oneway, bool) and not (operation.oneway and operation.outs))
    return operation


def name_form(json):
    name = octets_of(json)
    demand(0 not in name)
    return name


def parameters_form(json):
    """Parameters, or members of an exception: no name stands twice."""
    members = members_form(json)
    names = [name_form(text(name)) for name, _ in members]
    demand(all_differ(names))
    return members
