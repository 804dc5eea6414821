"""A writer as hostile peers have one, and damage of octets."""
from cdr import Writer

NUMBERS = (0, 1, 2, 3, 4, 5, 8, 127, 128, 255, 256, 2 ** 16, 2 ** 31 - 1, 2 ** 31, 2 ** 32 - 2,
           2 ** 32 - 1)


class LooseWriter(Writer):
    """Writes padding of any value, and now and then the empty string by a length of 0."""

    def __init__(self, rng, little, start=0):
        super().__init__(little, start)
        self.rng, self.padded = rng, rng.random() < 0.5

    def align(self, width):
        before = len(self.octets)
        super().align(width)
        if self.padded:
            self.octets[before:] = self.rng.randbytes(len(self.octets) - before)

    def string(self, text):
        if text or not self.padded:
            super().string(text)
        else:
            self.ulong(0)


def damaged(rng, octets):
    """The octets with one to three things wrong."""
    octets = bytearray(octets)
    for _ in range(rng.choice((1, 1, 1, 2, 3))):
        rng.choice(DAMAGES)(rng, octets)
    return bytes(octets)


def somewhere(rng, octets):
    """An offset, as often in the first forty octets as behind them."""
    end = min(len(octets), 40) if rng.random() < 0.5 else len(octets)
    return rng.randrange(end) if octets else 0


def flip(rng, octets):
    if octets:
        octets[somewhere(rng, octets)] ^= 1 << rng.randrange(8)


def put(rng, octets):
    if octets:
        octets[somewhere(rng, octets)] = rng.choice((0, 1, 2, 3, 4, 5, 6, 7, 8, 127, 128, 255))


def nudge(rng, octets):
    """One more or one less."""
    if octets:
        at = somewhere(rng, octets)
        octets[at] = (octets[at] + rng.choice((1, -1))) % 256


def cut(rng, octets):
    del octets[somewhere(rng, octets):]


def drop(rng, octets):
    at = somewhere(rng, octets)
    del octets[at:at + rng.choice((1, 1, 2, 4, 8))]


def insert(rng, octets):
    at = somewhere(rng, octets)
    octets[at:at] = rng.randbytes(rng.choice((1, 1, 2, 4, 8)))


def swap(rng, octets):
    if len(octets) > 1:
        a, b = somewhere(rng, octets), somewhere(rng, octets)
        octets[a], octets[b] = octets[b], octets[a]


def number(rng, octets):
    """A number at a multiple of four."""
    at = somewhere(rng, octets) // 4 * 4
    order = rng.choice(('big', 'little'))
    octets[at:at + 4] = rng.choice(NUMBERS).to_bytes(4, order)


DAMAGES = (flip, put, nudge, nudge, cut, drop, insert, swap, number)
