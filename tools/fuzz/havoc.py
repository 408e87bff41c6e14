"""Mutations of texts: bits, bytes, cuts, repeated parts, splices of two texts, numbers changed for interesting ones, lengths near the longest."""
import pathlib
import re
import sys

sys.dont_write_bytecode = True
sys.path.append(str(pathlib.Path(__file__).parent.parent / "jobs"))
from texts import damaged

MOST_BYTES = 65_535
LONGEST = 2 * MOST_BYTES
NUMBERS = [
    *(0, 1, 2, 9, 10, 63, 64, 65, 127, 128, 191, 192, 255, 256, 257, 1_023, 1_024, 65_534, 65_535, 65_536, 999_999, 1_000_000, 1_000_001),
    *(99_999_999, 999_999_999, 1_000_000_000, 2**31, 2**32 - 1, 2**32, 2**63 - 1, 2**63, 2**63 + 1, 2**64 - 1, 2**64, 10**30),
]
WRITTEN = [b"%d" % number for number in NUMBERS] + [b"", b"00", b"01", b"-1", b"+1", b" 1", b"0x1", b"1e3", b"\xff"]
WORDS = [b"cap\t", b"width\t", b"cut\tlel\n", b"cut\tfrontier\n", b"item\t", b"\t", b"\n", b"\r\n", b" ", b"\0", b"item\t0\t0\n", b"item\t1\t1\n"]
NUMBER = re.compile(rb"[0-9]+")


def part(dice, text):
    """Two places of the text, mostly near each other."""
    start = dice.randrange(len(text) + 1)
    return start, min(len(text), start + dice.choice((1, 2, 4, 8, 16, len(text))))


def flip(dice, text, other):
    if not text:
        return b"\0"
    at = dice.randrange(len(text))
    return text[:at] + bytes([text[at] ^ 1 << dice.randrange(8)]) + text[at + 1:]


def cut(dice, text, other):
    start, end = part(dice, text)
    return text[:start] + text[end:]


def repeat(dice, text, other):
    start, end = part(dice, text)
    return text[:end] + text[start:end] * dice.choice((1, 1, 2, 7, 64)) + text[end:]


def put(dice, text, other):
    at = dice.randrange(len(text) + 1)
    return text[:at] + dice.choice((dice.choice(WORDS), dice.randbytes(dice.randint(1, 4)))) + text[at:]


def splice(dice, text, other):
    if dice.random() < 0.5:
        lines, others = text.splitlines(keepends=True), other.splitlines(keepends=True)
        return b"".join(lines[:dice.randint(0, len(lines))] + others[dice.randint(0, len(others)):])
    return text[:dice.randint(0, len(text))] + other[dice.randint(0, len(other)):]


def number(dice, text, other):
    found = list(NUMBER.finditer(text[:4_096]))
    if not found:
        return text + dice.choice(WRITTEN)
    one = dice.choice(found)
    near = b"%d" % max(0, int(one[0][:20]) + dice.choice((-2, -1, 1, 2)))
    return text[:one.start()] + dice.choice((near, dice.choice(WRITTEN))) + text[one.end():]


def lengthen(dice, text, other):
    """To about the longest text, by its last line or by a part of it."""
    lines = text.splitlines(keepends=True)
    more = dice.choice((lines[-1] if lines else b"\n", b"item\t0\t0\n", b"\n"))
    length = MOST_BYTES + dice.choice((-9, -1, 0, 0, 1, 2, 9, 4_096))
    return (text + more * (max(0, length - len(text)) // len(more) + 1))[:length]


def one_fault(dice, text, other):
    return damaged(dice, text)


WAYS = [flip] * 3 + [cut] * 3 + [repeat] * 3 + [put] * 3 + [splice] * 2 + [number] * 8 + [one_fault] * 2


def mutant(dice, text, other):
    """The text after one to eight mutations; the other is what it may be spliced with."""
    for _ in range(dice.choice((1, 1, 1, 2, 2, 4, 8))):
        text = dice.choice(WAYS)(dice, text, other)[:LONGEST]
    return lengthen(dice, text, other) if dice.random() < 0.005 else text
