#!/usr/bin/env python3
"""Makes the objects of the benchmark:  make_objects.py FOLDER

    day-N-I.spi     a day's programmes: English and accented text, tokens, times, bearers
    other-N-I.spi   the day again in its longest forms, without tokens: other octets, the same meaning
    small-N-I.spi   many small items: numbers, times and short names
    twin-N-I.spi    the small items again without tokens
    named-N-I.spi   the day without its items of plain octets, so that it has an XML
    numbers-N-I.spi the small items likewise
    basic-N-I.spi   a day's programmes within the Basic profile, so that the small receiver's gate lets them pass
    names-N-I.spi   the day in two, to be merged: what its programmes are called and when they come
    words-N-I.spi   the same programmes with all else that is said of them

N is 1, 4, 16 and 32: the object and its normal form have as many octets as fit N * 1024. I counts the objects of a size, 32 / N of
them, so that a round over those of one size is as many octets as over those of another: a processor that has learnt the branches of one
small object by heart would make small objects look cheap.

    texts           texts on which all checks of text have to agree: those that the leaves are asked about, every way that a sequence can
                    begin, and random ones; for each its size in two octets, an octet that says whether tokens may stand in it, and its own
"""
import random
import sys
from itertools import product
from pathlib import Path

import make_leaves
from make_cases import Bearer, Fixed, Node, Text, Time, item

KILO = 1024
TOKENS = {0x01: "the ", 0x02: "Radio ", 0x03: " and ", 0x04: "Programme", 0x05: "music ", 0x06: "of the day", 0x07: "presented by ", 0x08: "à la ",
          0x0B: "São Paulo", 0x0C: "http://www.example.org/"}
WORDS = ("morning evening news weather traffic jazz concert live studio guest story garden history science football report letters from a small town "
         "with words that people use every day when they talk on air while others listen at home or in cars").split()
ACCENTED = "café Müller Żubrówka señor garçon København naïve Zürich Łódź déjà-vu crème brûlée São façade Ærø Györ Šibenik".split()
MINUTES = 24 * 60


def text(rng, size, limit):
    """About `size` octets of text, at most `limit`, in pieces of which some are tokens."""
    pieces, total = [], 0
    while total < size:
        roll, token = rng.random(), 0
        if roll < 0.2:
            token = rng.choice(list(TOKENS))
            octets = TOKENS[token].encode()
        else:
            octets = (rng.choice(ACCENTED if roll < 0.3 else WORDS) + " ").encode()
        if total + len(octets) > limit:
            break
        pieces.append((octets, token))
        total += len(octets)
    return Text(pieces)


def element(tag, *parts):
    node = Node(tag)
    for part in parts:
        (node.attributes if part.tag >= 0x80 else node.children).append(part)
    return node


def shown(rng, tag, size, limit):
    return element(tag, Node(0x01, text(rng, size, limit)))


def number(rng, tag, octets):
    return Node(tag, Fixed(rng.randbytes(octets)))


def time(rng, tag, minute):
    return Node(tag, Time(58800 + minute // MINUTES, minute // 60 % 24, minute % 60, rng.choice([0, 0, 30]), False, rng.choice([0, 2])))


def bearer(tag):
    return Node(tag, Bearer(b"\xe1\xc1\x85", b"\xc2\x21", 0))


def programme(rng, minute):
    """A programme with names, its place in the schedule, descriptions, a genre and a link."""
    return element(
        0x1C, Node(0x80, text(rng, 30, 60)), number(rng, 0x81, 3), number(rng, 0x82, 2), number(rng, 0x83, 1),
        shown(rng, 0x11, 12, 16), shown(rng, 0x12, 40, 128),
        element(0x19, element(0x2C, time(rng, 0x80, minute), number(rng, 0x81, 2)), element(0x2D, bearer(0x80))),
        element(0x13, shown(rng, 0x1A, 120, 180)), element(0x13, shown(rng, 0x1B, rng.choice([200, 400]), 1200)),
        element(0x14, number(rng, 0x80, 4), number(rng, 0x81, 1)), element(0x18, Node(0x80, text(rng, 40, 80))))


def small(rng, minute):
    """A programme of many items with little in them."""
    return element(
        0x1C, number(rng, 0x81, 3), number(rng, 0x82, 2), number(rng, 0x83, 1), shown(rng, 0x10, 6, 8),
        element(0x19, element(0x2C, time(rng, 0x80, minute), number(rng, 0x81, 2)), element(0x2F, number(rng, 0x80, 2), number(rng, 0x81, 2))),
        element(0x14, number(rng, 0x80, 1), number(rng, 0x81, 1)), element(0x17, number(rng, 0x81, 3), number(rng, 0x82, 2)))


def basic(rng, minute):
    """A programme of what annex A of 002 has alone."""
    return element(
        0x1C, number(rng, 0x81, 3), number(rng, 0x83, 1), shown(rng, 0x11, 12, 16), shown(rng, 0x12, 40, 128),
        element(0x19, element(0x2C, time(rng, 0x80, minute), number(rng, 0x81, 2)), element(0x2D, bearer(0x80))),
        element(0x13, shown(rng, 0x1A, 120, 180)), element(0x14, number(rng, 0x80, 4), number(rng, 0x81, 1)),
        element(0x17, number(rng, 0x81, 3), number(rng, 0x82, 2)))


def parted(node):
    """A schedule or programme in two elements with the same key, its version or short id: names and times, and the rest."""
    if node.tag not in (0x1C, 0x21):
        named = node.tag in (0x10, 0x11, 0x12, 0x19, 0x24)
        return ([node], []) if named else ([], [node])
    parts = [parted(child) for child in node.children]
    key = [attribute for attribute in node.attributes if attribute.tag == (0x80 if node.tag == 0x21 else 0x81)]
    names = element(node.tag, *node.attributes, *(name for part in parts for name in part[0]))
    words = element(node.tag, *key, *(word for part in parts for word in part[1]))
    return [names], [words]


def octets(rng, node, form, tokens):
    """An element or value as it stands: its length in one of the three forms, tokens as such or replaced."""
    if node.value is None:
        return item(node.tag, b"".join(octets(rng, part, form, tokens) for part in node.items()), form)
    if isinstance(node.value, Text):
        return item(node.tag, b"".join(bytes([token]) if token and tokens else piece for piece, token in node.value.pieces), form)
    return item(node.tag, node.value.encoded(rng), form)


def whole(rng, schedule, form, tokens):
    table = b"".join(bytes([tag, len(word.encode())]) + word.encode() for tag, word in TOKENS.items())
    front = (item(0x04, table) if tokens else b"") + item(0x06, b"en")
    return item(0x02, front + octets(rng, schedule, form, tokens), form)


def grown(make, limit, number_of, form):
    """As many programmes as fit the limit: their octets with tokens and without, the latter with lengths of a form; with tokens in two parts; and with tokens,
    but no plain octets."""
    rng = random.Random(f"{make.__name__} {limit} {number_of}")
    version = number(rng, 0x80, 2)
    made = [] if make is basic else [time(rng, 0x81, 0), Node(0x82, text(rng, 20, 40))]
    scope = element(0x24, time(rng, 0x80, 0), time(rng, 0x81, MINUTES - 1), element(0x25, bearer(0x80)))
    schedule = element(0x21, version, *made, scope)
    kept = None
    for count in range(4 * limit):
        seed = f"{limit} {number_of} {count}"
        forms = whole(random.Random(seed), schedule, 0, True), whole(random.Random(seed), schedule, form, False)
        if max(map(len, forms)) > limit:
            schedule.children.pop()
            (names,), (words,) = parted(schedule)
            parts = [whole(random.Random(seed), part, 0, True) for part in (names, words)]
            schedule.leave_plain_out()
            return *kept, *parts, whole(random.Random(seed), schedule, 0, True)
        kept = forms
        schedule.children.append(make(rng, 5 * count % MINUTES))
    raise ValueError("the programmes never fill the object")


def texts():
    """Texts with an octet before each that says whether tokens may stand in it."""
    yield from (question[2:] for question in make_leaves.texts())
    some = 0x7F, 0x80, 0x8F, 0x90, 0x9F, 0xA0, 0xA3, 0xA4, 0xBF, 0xC0
    starts = [[range(0x100)] * 2, [range(0xE0, 0xF0), range(0x100), some], [range(0xF0, 0x100), range(0x100), some, (0x80, 0xC0)]]
    for start in starts:
        yield from (b"\1plain text " + bytes(octets) for octets in product(*start))
    rng = random.Random("texts")
    for number_of in range(20000):
        flag, *octets = make_leaves.random_octets(rng, "U")
        yield bytes([flag]) + bytes(octets) * (1 if number_of % 20 else rng.randint(1, 50))


def main():
    folder = Path(sys.argv[1])
    (folder / "texts").write_bytes(b"".join((len(text) - 1).to_bytes(2, "big") + text for text in texts()))
    for kilo in (1, 4, 16, 32):
        for i in range(32 // kilo):
            day, other, names, words, named = grown(programme, kilo * KILO, i, 2)
            items, twin, _, _, numbers = grown(small, kilo * KILO, i, 0)
            made = {"day": day, "other": other, "names": names, "words": words, "named": named, "small": items, "twin": twin, "numbers": numbers,
                    "basic": grown(basic, kilo * KILO, i, 0)[0]}
            for name, octets_made in made.items():
                (folder / f"{name}-{kilo}-{i}.spi").write_bytes(octets_made)


if __name__ == "__main__":
    main()
