"""CDR, the common data representation (CORBA 3.3 Part 2, 9.3): how numbers, texts and lists lie in
octets. All that is above it is made of the calls of Reader and Writer.

A number stands at a multiple of its width, counted from the first octet of the message or of the
encapsulation that holds it. What lies before it to get there is padding, of any value.
"""

KINDS = ('Short', 'BadBoolean', 'BadString', 'BadCount', 'BadLabel', 'BadOrder', 'BoundPassed',
         'Trailing')


class Fault(Exception):
    """What is wrong with octets, and where: the offset of the value that is refused, behind its
    padding. A string, or a sequence, is refused at its length."""

    def __init__(self, kind, at):
        super().__init__(kind, at)
        self.kind, self.at = kind, at

    def number(self):
        return KINDS.index(self.kind) + 1

    def __str__(self):
        return f'{self.number()} {self.kind} at {self.at}'


def place(offset, width):
    """The first multiple of the width at or past the offset."""
    return (offset + width - 1) // width * width


class Reader:
    """Reads values from octets, the first of which has the offset `start`."""

    def __init__(self, octets, little, start=0):
        self.octets, self.little = octets, little
        self.start, self.at, self.end = start, start, start + len(octets)

    def left(self):
        """How many octets are left; none where the reader stands past the end."""
        return max(self.end - self.at, 0)

    def take(self, count):
        """The next octets, which are there."""
        begin = self.at - self.start
        self.at += count
        return bytes(self.octets[begin:begin + count])

    def number(self, width, signed=False):
        """A number of so many octets."""
        at = place(self.at, width)
        if at + width > self.end:
            raise Fault('Short', at)
        self.at = at
        return int.from_bytes(self.take(width), 'little' if self.little else 'big', signed=signed)

    def octet(self):
        return self.number(1)

    def ushort(self):
        return self.number(2)

    def ulong(self):
        return self.number(4)

    def boolean(self):
        """The octet 0 or 1."""
        at = self.at
        octet = self.octet()
        if octet > 1:
            raise Fault('BadBoolean', at)
        return octet == 1

    def length(self):
        """A length or a count, which can't be more than there are octets behind it; and its
        place."""
        at = place(self.at, 4)
        length = self.ulong()
        if length > self.left():
            raise Fault('BadCount', at)
        return length, at

    def count(self, bound=0):
        """The count of a sequence; a bound of 0 is none."""
        count, at = self.length()
        if 0 < bound < count:
            raise Fault('BoundPassed', at)
        return count

    def octet_list(self, bound=0):
        """A sequence of octets."""
        return self.take(self.count(bound))

    def string(self, bound=0):
        """A string, whose length counts the null at its end; a length of 0 is the empty string."""
        length, at = self.length()
        if length == 0:
            return b''
        text = self.take(length)
        if text.find(0) != length - 1:
            raise Fault('BadString', at)
        if 0 < bound < length - 1:
            raise Fault('BoundPassed', at)
        return text[:-1]

    def items(self, read):
        """A sequence, each element of which is read by the call that is given."""
        return [read(self) for _ in range(self.count())]

    def must_end(self):
        """Nothing may be left."""
        if self.left():
            raise Fault('Trailing', self.at)


def encapsulated(octets):
    """A reader of what an encapsulation holds (9.3.3): its first octet is the byte order of the
    rest, and offsets count from that octet."""
    reader = Reader(octets, False)
    order = reader.octet()
    if order > 1:
        raise Fault('BadOrder', 0)
    reader.little = order == 1
    return reader


class Writer:
    """Writes values one behind the other, the first at the offset `start`; padding is zeros."""

    def __init__(self, little=False, start=0):
        self.little, self.start, self.octets = little, start, bytearray()

    def align(self, width):
        at = self.start + len(self.octets)
        self.octets += bytes(place(at, width) - at)

    def number(self, value, width):
        self.align(width)
        value %= 256 ** width
        self.octets += value.to_bytes(width, 'little' if self.little else 'big')

    def octet(self, value):
        self.number(value, 1)

    def ushort(self, value):
        self.number(value, 2)

    def ulong(self, value):
        self.number(value, 4)

    def octet_list(self, octets):
        self.ulong(len(octets))
        self.octets += octets

    def string(self, text):
        self.octet_list(text + b'\0')

    def items(self, items, write):
        self.ulong(len(items))
        for item in items:
            write(self, item)
