"""Mutants: bytes that differ from others at a few places, as chance has it. All chance comes from the dice that are handed in."""

import random

WORDS = (0, 1, 2, 3, 4, 8, 16, 0x7F, 0x80, 0xFF, 0x100, 0xFFFF, 0x10000, 0x7FFFFFFF, 0x80000000)
WORDS += (0xDFFFFFFF, 0xE0000000, 0xFFFFFFF0, 0xFFFFFFFF)
BYTES = (0, 1, 0x20, 0x22, 0x5C, 0x7F, 0x80, 0xFE, 0xFF)


class Dice(random.Random):
    """Chance that costs little: a number or a choice is one multiplication."""

    def randrange(self, begin, end=None):
        """A number from the first up to the second, or from 0 up to the only one."""
        if end is None:
            begin, end = 0, begin
        return begin + int(self.random() * (end - begin))

    def choice(self, items):
        """One of some items."""
        return items[int(self.random() * len(items))]


def span(dice, content, most=64):
    """A part of the bytes, by its two ends."""
    begin = dice.randrange(len(content) + 1)
    return begin, min(len(content), begin + dice.randrange(most))


def flipped(dice, content):
    """One bit is another."""
    if content:
        content[dice.randrange(len(content))] ^= 1 << dice.randrange(8)


def byte_set(dice, content):
    """One byte is a telling one."""
    if content:
        content[dice.randrange(len(content))] = dice.choice(BYTES)


def word_set(dice, content):
    """A number of 2 or 4 bytes is a telling one, or near to what it was."""
    size = dice.choice((2, 4))
    if len(content) >= size:
        at = dice.randrange(len(content) - size + 1)
        old = int.from_bytes(content[at : at + size], "little")
        new = dice.choice((dice.choice(WORDS), old + dice.choice((-4, -1, 1, 4)), len(content), dice.getrandbits(32)))
        content[at : at + size] = (new % (1 << 8 * size)).to_bytes(size, "little")


def cut(dice, content):
    """A part is gone."""
    begin, end = span(dice, content)
    del content[begin:end]


def doubled(dice, content):
    """A part stands twice, or many times."""
    begin, end = span(dice, content)
    content[end:end] = content[begin:end] * dice.choice((1, 1, 1, 2, 30))


def moved(dice, content):
    """A part stands somewhere else."""
    begin, end = span(dice, content)
    part = content[begin:end]
    del content[begin:end]
    at = dice.randrange(len(content) + 1)
    content[at:at] = part


def filled(dice, content):
    """Bytes of chance stand in between."""
    at = dice.randrange(len(content) + 1)
    content[at:at] = dice.randbytes(dice.randrange(1, 24))


def short(dice, content):
    """The end is gone."""
    del content[dice.randrange(len(content) + 1) :]


STEPS = (flipped, flipped, byte_set, byte_set, word_set, word_set, word_set, cut, doubled, moved, filled, short)


def mutant(dice, content):
    """The bytes after one to eight steps."""
    made = bytearray(content)
    for _ in range(dice.choice((1, 1, 1, 2, 2, 3, 5, 8))):
        dice.choice(STEPS)(dice, made)
    return bytes(made)
