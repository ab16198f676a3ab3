#!/usr/bin/env python3
"""Writes questions for second/leaves.c and the program leaves_run:  make_leaves.py > crates/leaves_run/stdin

Every element and tag that could be a known pair, with the octet of defaults and others; UTF-8 at its edges; document 01's time vectors, the
edges of each field, and lengths that the flags don't say; bearers of every first octet.  compare_leaves.py
takes random ones too.
"""
import random
import sys

from make_cases import BAD_OCTETS, BEARER, DEFAULT, DEFAULTS, TIME, Maker


def question(letter, octets):
    return letter.encode() + bytes([len(octets)]) + octets


def kinds():
    for tag in range(0x80):
        yield question("K", bytes([0, tag]))
    for element in range(0x80):
        for tag in range(0x80, 0x8A):
            yield question("K", bytes([element, tag]))
    yield question("K", bytes([0x28, 0xFF]))


def defaults():
    """The octet 01 in each pair that could be a known one; in those that have a default, and some others, octets that differ in one bit, and other lengths."""
    for element in range(0x40):
        for tag in range(0x80, 0x88):
            yield question("D", bytes([element, tag]) + DEFAULT)
    values = [bytes([1 ^ 1 << bit]) for bit in range(8)] + [b"", b"\1", b"\2", b"\xff", b"\1\1", b"\1\0", b"\0\1", b"\1\1\1"]
    for pair in DEFAULTS + [(0x23, 0x83), (0x2B, 0x83), (0x14, 0x80), (0x1C, 0x01), (0x1C, 0xFF), (0x9C, 0x83), (0x83, 0x1C)]:
        for value in values:
            yield question("D", bytes(pair) + value)


def utf8(point, size):
    """A code point in so many octets, whether it may be written so or not."""
    if size == 1:
        return bytes([point])
    lead = (0, 0, 0xC0, 0xE0, 0xF0)[size]
    later = [0x80 | point >> 6 * i & 0x3F for i in reversed(range(size - 1))]
    return bytes([lead | point >> 6 * (size - 1)] + later)


def texts():
    for first in range(0x100):
        for later in (b"", b"\x80", b"\x80\x80", b"\x80\x80\x80", b"\x80\x80\x80\x80", b"\xbf", b"\xbf\xbf", b"\xbf\xbf\xbf", b"a"):
            yield question("U", b"\0" + bytes([first]) + later)
        yield question("U", b"\1" + bytes([first]))
    edges = {1: (0x00, 0x1F, 0x20, 0x7F), 2: (0x00, 0x7F, 0x80, 0x7FF),
             3: (0x7FF, 0x800, 0xD7FF, 0xD800, 0xDBFF, 0xDC00, 0xDFFF, 0xE000, 0xF8FF, 0xF900, 0xFFFD, 0xFFFF),
             4: (0xFFFF, 0x10000, 0x10FFFF, 0x110000, 0x1FFFFF)}
    for size, points in edges.items():
        for point in points:
            for flag in (b"\0", b"\1"):
                octets = utf8(point, size)
                yield question("U", flag + octets)
                yield question("U", flag + b"a" + octets + b"b")
                yield question("U", flag + octets[:-1])
    yield question("U", b"\0")
    yield question("U", b"\0" + "Čeština, 日本語, 𝄞".encode())


def time(date, hours, minutes, seconds=None, offset=None, reserved=0):
    head = date << 14 | hours << 6 | minutes | (seconds is not None) << 11 | (offset is not None) << 12
    head |= (reserved & 1) << 31 | (reserved >> 1 & 1) << 13
    octets = head.to_bytes(4, "big")
    if seconds is not None:
        octets += bytes([seconds << 2 | reserved & 3, reserved & 0xFF])
    if offset is not None:
        octets += bytes([offset | (reserved & 3) << 6])
    return octets


def times():
    vectors = [bytes.fromhex(text) for text in ("30D4131E02", "30D40B1E3C00", "30D4100020")]
    for date in (0, 1, 50000, 99999, 100000, 131071):
        for hours, minutes in ((0, 0), (0, 10), (23, 59), (24, 0), (12, 60), (31, 63)):
            for seconds in (None, 0, 59, 60, 63):
                for offset in (None, 0, 0x20, 1, 0x21, 28, 0x3C, 31, 0x3F):
                    vectors.append(time(date, hours, minutes, seconds, offset))
    vectors += [time(50000, 12, 30, 15, 0x22, reserved) for reserved in (1, 2, 3, 0xFF)]
    for fields in ((50000, 12, 30), (131071, 31, 63)):
        for seconds in (None, 15, 63):
            for offset in (None, 2, 0x3F):
                vectors += [(time(*fields, seconds, offset) + bytes(8))[:size] for size in range(9)]
    for octets in vectors:
        yield question("T", octets)
        yield question("O", octets)


def bearers():
    for first in range(0x100):
        for size in (3, 5, 6, 8):
            yield question("B", bytes([first, 0xE1, 0xC1, 0x85, 0x12, 0x34, 0x56, 0x78])[:size])
    for size in range(10):
        yield question("B", bytes([0x50] + [7] * 9)[:size])


def fixed_questions():
    for group in (kinds, defaults, texts, times, bearers):
        yield from group()


def random_octets(rng, letter):
    """What a question asks of: most often a good value or one with a single fault, now and then any octets."""
    if letter == "K":
        return bytes([rng.choice([0, rng.randrange(0x40), rng.randrange(256)]), rng.randrange(256)])
    if letter == "D":
        pair = bytes(rng.choice([rng.choice(DEFAULTS), (rng.choice(DEFAULTS)[0], rng.randrange(0x80, 0x88)), (rng.randrange(0x40), rng.randrange(256))]))
        return pair + rng.choice([DEFAULT, DEFAULT, rng.randbytes(1), rng.randbytes(rng.randrange(4))])
    maker = Maker(rng)
    if letter == "U":
        text = rng.choice([maker.letters, maker.characters])(rng.choice([0, 1, 2, 7, 8, 9, 15, 16, 17, 31, 33, 60]))
        at = rng.randint(0, len(text))
        return rng.choice([b"\0", b"\1"]) + text[:at] + rng.choice(BAD_OCTETS + [b""] * len(BAD_OCTETS)) + text[at:]
    kind = BEARER if letter == "B" else TIME
    octets = maker.value(kind).encoded(rng)
    fault = rng.randrange(6)
    if fault == 0:
        return octets[:rng.randint(0, len(octets))] + rng.randbytes(rng.randint(0, 3))
    if fault == 1:
        return rng.randbytes(len(octets))
    return maker.bad_value(kind).normal if fault == 2 else octets


def random_questions(seed, count):
    for index in range(count):
        rng = random.Random(f"leaves {seed} {index}")
        letter = rng.choice("KDUTOB")
        yield question(letter, random_octets(rng, letter))


if __name__ == "__main__":
    sys.stdout.buffer.write(b"".join(fixed_questions()))
