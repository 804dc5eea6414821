"""Descriptions: what a value looks like, as IDL's types say it, and how it lies in octets.

Each type is a class with the same three calls: `read` takes a value from a Reader or raises the
Fault of the first field that is wrong; `fits` tells whether a value is one of the type; `write`
appends a value that fits. In Python a boolean is a bool, a number an int, a char its octet, a
string and octets are bytes, an enum its ordinal (None: no such name), a struct, a sequence and an
array are lists, and a union is a pair of its discriminant and its member, which is None where it
has none.
"""
from dataclasses import dataclass

from cdr import Fault, place

DEEPEST = 32


@dataclass(frozen=True)
class Boolean:
    def read(self, reader):
        return reader.boolean()

    def fits(self, value):
        return True

    def write(self, writer, value):
        writer.octet(int(value))


@dataclass(frozen=True)
class Number:
    """short to unsigned long long, by width and sign; an octet is a number of width 1."""
    width: int
    signed: bool = False

    def range(self):
        bits = 8 * self.width
        return range(-1 << bits - 1, 1 << bits - 1) if self.signed else range(1 << bits)

    def read(self, reader):
        return reader.number(self.width, self.signed)

    def fits(self, value):
        return value in self.range()

    def write(self, writer, value):
        writer.number(value, self.width)


@dataclass(frozen=True)
class Char:
    def read(self, reader):
        return reader.octet()

    def fits(self, value):
        return True

    def write(self, writer, value):
        writer.octet(value)


@dataclass(frozen=True)
class String:
    bound: int = 0

    def read(self, reader):
        return reader.string(self.bound)

    def fits(self, value):
        return 0 not in value and (self.bound == 0 or len(value) <= self.bound)

    def write(self, writer, value):
        writer.string(value)


@dataclass(frozen=True)
class Octets:
    bound: int = 0

    def read(self, reader):
        return reader.octet_list(self.bound)

    def fits(self, value):
        return self.bound == 0 or len(value) <= self.bound

    def write(self, writer, value):
        writer.octet_list(value)


@dataclass(frozen=True)
class Enum:
    names: tuple

    def read(self, reader):
        at = place(reader.at, 4)
        ordinal = reader.ulong()
        if ordinal >= len(self.names):
            raise Fault('BadLabel', at)
        return ordinal

    def fits(self, value):
        return value is not None

    def write(self, writer, value):
        writer.ulong(value)


@dataclass(frozen=True)
class Struct:
    members: tuple  # of (name, type); names are octets

    def read(self, reader):
        return [kind.read(reader) for _, kind in self.members]

    def fits(self, value):
        return all(kind.fits(part) for (_, kind), part in zip(self.members, value))

    def write(self, writer, value):
        for (_, kind), part in zip(self.members, value):
            kind.write(writer, part)


@dataclass(frozen=True)
class Union:
    """A label and a discriminant are what the discriminant's type reads: True, an octet, an ordinal
    or a number."""
    disc: object
    cases: tuple  # of (labels, name, type)
    default: tuple = None  # of (name, type)

    def selected(self, disc):
        """The type of the member that the discriminant selects, None where there is none."""
        for labels, _, kind in self.cases:
            if disc in labels:
                return kind
        return self.default[1] if self.default else None

    def read(self, reader):
        disc = self.disc.read(reader)
        kind = self.selected(disc)
        return disc, kind.read(reader) if kind else None

    def fits(self, value):
        disc, member = value
        kind = self.selected(disc)
        return self.disc.fits(disc) and (kind.fits(member) if kind else member is None)

    def write(self, writer, value):
        disc, member = value
        self.disc.write(writer, disc)
        if self.selected(disc):
            self.selected(disc).write(writer, member)


@dataclass(frozen=True)
class Sequence:
    element: object
    bound: int = 0

    def read(self, reader):
        return [self.element.read(reader) for _ in range(reader.count(self.bound))]

    def fits(self, value):
        return ((self.bound == 0 or len(value) <= self.bound)
                and all(self.element.fits(part) for part in value))

    def write(self, writer, value):
        writer.ulong(len(value))
        for part in value:
            self.element.write(writer, part)


@dataclass(frozen=True)
class Array:
    element: object
    length: int

    def read(self, reader):
        if self.length > reader.left():
            raise Fault('BadCount', reader.at)
        return [self.element.read(reader) for _ in range(self.length)]

    def fits(self, value):
        return len(value) == self.length and all(self.element.fits(part) for part in value)

    def write(self, writer, value):
        for part in value:
            self.element.write(writer, part)


PROFILE = Struct(((b'tag', Number(4)), (b'octets', Octets())))
REFERENCE = Struct(((b'type_id', String()), (b'profiles', Sequence(PROFILE))))


# Which descriptions describe a type. Each node has to be at most 32 deep and to have its parts; the
# discriminant of a union is a boolean, a char, a number of 2, 4 or 8 octets or an enum, and its
# labels are values of it; and no name or label stands twice.

def is_sound(kind, depth=1):
    """Whether the description, and all that is in it, describes a type."""
    return (depth <= DEEPEST and is_sound_itself(kind)
            and all(is_sound(part, depth + 1) for part in parts(kind)))


def parts(kind):
    """The descriptions that stand in this one."""
    if isinstance(kind, Struct):
        return [part for _, part in kind.members]
    if isinstance(kind, Union):
        return [kind.disc, *(part for _, _, part in kind.cases)] + (
            [kind.default[1]] if kind.default else [])
    return [kind.element] if isinstance(kind, (Sequence, Array)) else []


def is_sound_itself(kind):
    if isinstance(kind, Enum):
        return bool(kind.names) and all_differ(kind.names)
    if isinstance(kind, Struct):
        return bool(kind.members) and all_differ([name for name, _ in kind.members])
    if isinstance(kind, Array):
        return kind.length > 0
    return is_sound_union(kind) if isinstance(kind, Union) else True


def is_sound_union(union):
    names = [name for _, name, _ in union.cases] + ([union.default[0]] if union.default else [])
    labels = [label for labels, _, _ in union.cases for label in labels]
    return (bool(union.cases) and all(labels for labels, _, _ in union.cases)
            and is_discriminant(union.disc) and all(union.disc.fits(label) for label in labels)
            and all_differ(names) and all_differ(labels))


def is_discriminant(kind):
    return isinstance(kind, (Boolean, Char, Enum)) or (
        isinstance(kind, Number) and kind.width > 1)


def all_differ(items):
    return len(set(items)) == len(items)
