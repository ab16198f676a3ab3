"""The fixed edge cases (make_cases.py --edges): every pair, every limit, each refusal, pairs of them."""
from datetime import date
from itertools import permutations, product

from make_cases import (ATTRIBUTES, BEARER, DEFAULT, DEFAULTS, ENUM, HOLDERS, NUMBER, PLAIN, SHORT_ID, SHOWN, TEXT, TIME, TOKEN_TAGS, case_l,
                        case_n, case_s, case_w, case_x, item)

ANNEX_C = bytes.fromhex(
    "02 52 21 50 24 16 80 04 33 BF C4 40 81 04 33 BF C4 80 25 08 80 06 40 E1 CE 15 C2 24"
    "1C 36 81 03 FA E4 51 80 1B 63 72 69 64 3A 2F 2F 62 62 63 2E 63 6F 2E 75 6B 2F 34 39 36 39 37 35 38"
    "39 38 38"
    "11 04 01 02 50 4D 19 0C 2C 0A 80 04 33 BF C4 40 81 02 0E 10")


def each(text):
    """Octets in hexadecimal, parted by bars; an empty part stands for no octets."""
    return [bytes.fromhex(part) for part in text.split("|")]


def top(*items, tag=0x03):
    return item(tag, b"".join(items))


def entry(tag, text=b""):
    return bytes([tag, len(text)]) + text


def nest(depth, inner=b"", tag=0x20):
    """A top with a chain of elements whose last has this depth; `inner` is that one's body."""
    body = inner
    for _ in range(depth - 1):
        body = item(tag, body)
    return item(0x03, body)


def both(octets, places=65535):
    """The listing and the normal form with plenty lent."""
    yield case_l(places, octets)
    yield case_n(places, 65536, 65536, octets)


def other_tokens(size, last):
    """A text of so many octets, `radio` over and over but for the last letter, in tokens of 250."""
    radio = b"radio" * 50
    whole, rest = divmod(size - 1, len(radio))
    return top(item(0x04, entry(0x13, radio)), item(0x01, b"\x13" * whole + radio[:rest] + last))


def large_meanings(table):
    """Many items whose tokens together make them large: attributes in two orders, with values exchanged, one item fewer."""
    def link(uri, description, turned=False):
        attributes = item(0x80, uri), item(0x83, description)
        return item(0x18, b"".join(reversed(attributes) if turned else attributes))
    forms = [top(table, link(b"\x01\x01", b"\x01") * 60), top(table, link(b"\x01\x01", b"\x01", True) * 60),
             top(table, link(b"\x01\x01", b"\x01") * 59 + link(b"\x01", b"\x01\x01")), top(table, link(b"\x01\x01", b"\x01") * 59)]
    for first in forms:
        for second in forms:
            yield case_s(first, second)


def sizes():
    """Bodies around the length forms, objects around the limits, long forms of small sizes."""
    for size in (0, 1, 252, 253, 254, 255, 256, 8000):
        for form in (0, 1, 2):
            yield from both(top(item(0x01, b"a" * size, form)))
            yield from both(top(item(0x07, b"a" * size, form)))
            yield from both(item(0x03, b"\x90\x00" * (size // 2) + b"\x90\x01\xff" * (size % 2), form))
    for total in (32767, 32768, 32769, 65535, 65536):
        yield from both(top(item(0x01, b"a" * (total - 8))))
        odd = total % 2
        yield from both(top(b"\x90\x01\x00" * odd + b"\x90\x00" * ((total - 4 - 3 * odd) // 2)))
        yield from both(bytes(total))
    yield from both(top(b"\x10\x00" * 16382))
    yield case_l(16383, top(b"\x10\x00" * 16382))
    yield case_l(16382, top(b"\x10\x00" * 16382))
    yield from both(b"")
    # a token of 255 octets: the output and the store grow past their limits, and nothing limits what is compared
    table = item(0x04, entry(0x01, b"radio" * 51))
    for uses in (128, 129, 257, 258, 6000, 32000):
        grown, size = top(table, item(0x01, b"\x01" * uses)), 255 * uses
        yield from both(grown)
        for other in (top(), grown, b"", other_tokens(size, b"o"), other_tokens(size, b"x"), other_tokens(size + 1, b"r")):
            yield case_s(grown, other)
            yield case_s(other, grown)
    yield from large_meanings(table)
    # output of exactly 32,768 and one more from a shorter object
    for rest in (119, 120, 121):
        grown = top(table, item(0x01, b"\x01" * 128 + b"a" * rest))
        for room in (32767, 32768, 32769, 65536):
            yield case_n(9, 65536, room, grown)
        yield case_s(grown, grown)
    # the store is full although the output is not the question
    for rest in (0, 1):
        yield case_n(9, 65536, 65536, top(table, item(0x01, b"\x01" * 257 + b"a" * rest)))


def pairs():
    """Every element with the first sixteen attribute tags, with bodies that tell the kinds apart."""
    bodies = [bytes(n) for n in range(8)] + each("40 0000000000 | 50 00000000000000 | 6F6B | 01")
    for tag in [0x02, 0x03] + HOLDERS:
        for attribute in range(0x80, 0x8A):
            for body in bodies:
                inner = item(attribute, body)
                octets = item(tag, inner) if tag < 0x04 else top(item(tag, inner))
                yield case_l(9, octets)
            twice = item(attribute, b"") * 2
            yield case_l(9, item(tag, twice) if tag < 0x04 else top(item(tag, twice)))
        others = b"".join(item(a, b"") for a in range(0x88, 0x100))
        yield case_l(200, item(tag, others) if tag < 0x04 else top(item(tag, others)))
    for tag in range(0x100):
        for body in (b"", b"\x80\x00", b"\x00", b"\xff"):
            yield case_l(9, item(tag, body))
            yield case_l(9, top(item(tag, body)))
            yield case_l(9, top(item(0x20, item(tag, body))))
            yield case_n(9, 99, 99, top(item(0x20, item(tag, body))))


def texts():
    """Each single octet, and sequences around every border of UTF-8, in CDATA, attribute, 0x06, entry."""
    samples = [bytes([o]) for o in range(256)]
    for code in (0x7F, 0x80, 0x7FF, 0x800, 0xFFF, 0xD7FF, 0xD800, 0xDBFF, 0xDC00, 0xDFFF, 0xE000, 0xF8FF, 0xF900,
                 0xFFFD, 0xFFFF, 0x10000, 0x10FFFF):
        good = chr(code).encode("utf-8", "surrogatepass")
        samples += [good, good[:-1], good[:-1] + b"a", good + b"\x80", b"abcdefg" + good, b"abcdefgh" + good]
    samples += each("C080|C1BF|E08080|E09FBF|F0808080|F08FBFBF|F4908080|F5808080|F7BFBFBF|F888808080|FC8480808080")
    samples += each("EE8080|EFA3BF|EFA480|ED9FBF|EDA080|EDBFBF|C3|C328|E28228|E228A1|F0288CBC|F09028BC|F0908C28")
    samples += each("8280|BFBF|A08080|B0908080|F8908080|FB908080|FC908080|FF908080|FE|FF|61C3A9|2009|0A0D|1F20|7F")
    for sample in samples:
        yield case_l(9, top(item(0x01, sample)))
        yield case_l(9, top(item(0x06, sample)))
        yield case_l(9, top(item(0x82, sample)))
        yield case_l(9, top(item(0x20, item(0x82, sample))))
        yield case_l(9, top(item(0x04, entry(0x01, sample))))
        yield case_n(9, 99, 99, top(item(0x04, entry(0x01, b"tok")), item(0x01, sample)))
    for at in range(20):
        for octet in (0x00, 0x01, 0x1F, 0x80, 0xC3, 0xFF):
            text = bytearray(b"abcdefghijklmnopqrst")
            text[at] = octet
            yield case_l(9, top(item(0x01, bytes(text))))


def token_tables():
    for tag in range(0x100):
        yield from both(top(item(0x04, entry(tag, b"x")), item(0x01, b"a\x01b\x13c")))
    whole = b"".join(entry(t, b"x" * i) for i, t in enumerate(TOKEN_TAGS))
    every = bytes(TOKEN_TAGS)
    yield from both(top(item(0x04, whole), item(0x01, every)))
    for tag in TOKEN_TAGS:
        yield case_l(9, top(item(0x04, whole + entry(tag, b"x"))))
        others = b"".join(entry(t) for t in TOKEN_TAGS if t != tag)
        yield case_l(9, top(item(0x04, others), item(0x01, every)))
    bodies = each("|01|0101|0100|01FE000161|010102|010109|01000100|010002")
    bodies += [b"\x01\xff" + b"a" * size for size in (254, 255, 256)]
    for body in bodies:
        name = item(0x10, item(0x80, b"\x01") + item(0x01, b"\x01"))
        yield from both(top(item(0x04, body), item(0x06, b"e\x01n"), name))


def shown_texts(count):
    """Texts of so many characters: letters of one to four octets, by turns, an accent behind a letter, and all but the first or the last plain."""
    for letters in ("n", "é", "€", "𝄞", "né", "€n", "n𝄞", "né€𝄞", "𝄞€én", "e\u0301"):
        yield (letters * count)[:count]
    for wide in "é€𝄞":
        yield wide + "n" * (count - 1)
        yield "n" * (count - 1) + wide


def shown_in_tokens(count):
    """A token's entry, and a text of so many characters once the token is replaced: before letters, behind them, between them."""
    for word in ("tt", "é", "é€", "abcdefgé", "𝄞" * 8, "é" * 127):
        uses, rest = divmod(count, len(word))
        yield word, "\2" * uses + "é" * rest
        yield word, ("né" * rest)[:rest] + "\2" * uses
        around = count - len(word)
        if around > 0:
            yield word, "é" * (around // 2) + "\2" + "€" * (around - around // 2)


def shown_lengths():
    def name(tag, text):
        return item(tag, item(0x01, text.encode()))
    for tag, limit in SHOWN.items():
        yield from both(top(name(tag, "")))
        for count in (limit - 1, limit, limit + 1):
            for text in shown_texts(count):
                yield from both(top(name(tag, text)))
            for word, text in shown_in_tokens(count):
                table = item(0x04, entry(0x02, word.encode()) + entry(0x03))
                folded, plain = top(table, name(tag, text)), text.replace("\2", word)
                yield from both(folded)
                yield from both(top(table, name(tag, text + "\3" * 1300)))
                for other in (plain, plain[:-1] + "z", plain[1:]):
                    yield case_s(folded, top(name(tag, other)))
                    yield case_s(top(name(tag, other)), folded)
        for text in shown_texts(limit + 1):
            yield from both(top(item(tag, item(0x80, text.encode()))))
            yield from both(top(item(tag, name(0x20, text))))
        yield from both(top(item(0x04, entry(0x02, b"t" * 255)), name(tag, "\2\2" + "a" * limit)))
        # as many octets as the limit has characters, and one more
        for wide, octets in (("é", 2), ("€", 3), ("𝄞", 4)):
            text = wide * (limit // octets) + "e" * (limit % octets)
            yield from both(top(name(tag, text)))
            yield from both(top(name(tag, text + "e")))


def time_octets(date=50000, reserved=0, offset=None, seconds=None, hours=12, minutes=30, low=0):
    flags = (offset is not None) << 12 | (seconds is not None) << 11
    word = date << 14 | flags | hours << 6 | minutes | reserved
    out = word.to_bytes(4, "big")
    if seconds is not None:
        out += (seconds << 10 | low).to_bytes(2, "big")
    if offset is not None:
        out += bytes([offset])
    return out


def times():
    def wrapped(octets):
        yield from both(top(item(0x81, octets)))
    for date in (0, 1, 99999, 100000, 131071):
        yield from wrapped(time_octets(date=date))
    for hours in range(32):
        yield from wrapped(time_octets(hours=hours))
    for minutes in range(64):
        yield from wrapped(time_octets(minutes=minutes))
        yield from wrapped(time_octets(seconds=minutes))
        yield from wrapped(time_octets(seconds=minutes, low=0x3FF, reserved=0x80002000))
    for offset in range(256):
        yield from wrapped(time_octets(offset=offset))
        yield from wrapped(time_octets(offset=offset, seconds=offset % 60))
    for flags in range(4):
        value = time_octets(offset=2 if flags & 2 else None, seconds=9 if flags & 1 else None)
        for size in range(10):
            yield from wrapped((value + bytes(9))[:size])
    alike = ({}, {"seconds": 0}, {"offset": 0}, {"offset": 0x20}, {"offset": 0xC0}, {"reserved": 0x80000000},
             {"reserved": 0x2000}, {"offset": 0xE0, "seconds": 0, "low": 1}, {"offset": 1}, {"offset": 0x21},
             {"seconds": 1}, {"minutes": 31}, {"hours": 13}, {"date": 50001})
    for first in alike:
        for second in alike:
            yield case_s(top(item(0x81, time_octets(**first))), top(item(0x81, time_octets(**second))))


def by_all(octets):
    """An object by each letter that takes one, with nothing lent; S has it first, second and twice."""
    yield from both(octets, 0)
    yield case_x(0, octets)
    for first, second in ((octets, top()), (top(), octets), (octets, octets)):
        yield case_s(first, second)


def time_fields():
    """Which field of a time is wrong: fields at and above their ends, in right and wrong lengths, by every letter, in every attribute."""
    for day in (99999, 100000, 131071):
        for hours, minutes in ((23, 59), (23, 60), (24, 59), (24, 60), (31, 63)):
            for seconds in (None, 59, 60, 63):
                for offset in (None, 0x1F, 0xFF):
                    octets = time_octets(date=day, hours=hours, minutes=minutes, seconds=seconds, offset=offset, low=0x3FF)
                    yield from by_all(top(item(0x81, octets)))
                    yield case_w(2, [[0x03, 0, 1, 0, 0, 0], [0x81, 1, 2, 0, 0, len(octets)]], 65536, octets)
                    for size in range(10):
                        yield case_l(9, top(item(0x81, (octets + b"\xff" * 9)[:size])))
    bad = [time_octets(date=100000), time_octets(hours=24), time_octets(minutes=60), time_octets(seconds=60), time_octets()[:3],
           time_octets(date=131071, hours=31, minutes=63, seconds=63, offset=0xFF) + b"\xff"]
    for tag, known in ATTRIBUTES.items():
        wrap = top if tag > 0x03 else bytes
        for attribute in sorted({0x80, 0x81, 0x82, 0x84, *known}):
            for octets in bad:
                yield case_l(9, wrap(item(tag, item(attribute, octets))))
    for octets in bad:
        for other in bad + [time_octets()]:
            yield case_l(9, top(item(0x24, item(0x80, octets) + item(0x81, other))))
            yield case_l(9, top(item(0x24, item(0x81, other, 1) + item(0x80, octets, 2))))
            yield case_s(top(item(0x81, octets)), top(item(0x24, item(0x81, other))))
        yield from by_all(top(item(0x81, octets, 1)))
        yield case_l(9, top(item(0x07, item(0x81, octets))))
        yield case_l(9, top(item(0x34, item(0x81, octets))))
        yield case_l(9, top(item(0x24, item(0x80, octets)) + b"\x10"))
        yield case_l(9, top(item(0x82, b"\x01"), item(0x81, octets), item(0x04, entry(1))))


# ---- Defaults ----------------------------------------------------------------------------------

def defaults_alone():
    """Each attribute that has a default with that and other octets, in each length form, with what is lent at its edges; and 01 in all other attributes."""
    for element, tag in DEFAULTS:
        none = top(item(element))
        for octet in (0, 1, 2, 3, 0x11, 0x81, 0xFF):
            for form in (0, 1, 2):
                octets = top(item(element, item(tag, bytes([octet]), form)))
                room = 4 if octet == 1 else 7
                for places, store, lent_room in product((0, 2, 3), (0, 1), (room - 1, room, room + 1)):
                    yield case_n(places, store, lent_room, octets)
                yield from by_all(octets)
                yield case_l(3, octets)
                yield whole_xml(octets)
                for other in (none, top(item(element, item(tag, DEFAULT))), top(item(element, item(tag, b"\x02")))):
                    yield case_s(octets, other)
                    yield case_s(other, octets)
        for octets in each("|0101|0001|0100|010101"):
            yield from by_all(top(item(element, item(tag, octets))))
    for element in HOLDERS:
        for tag in range(0x80, 0x8A):
            octets = top(item(element, item(tag, DEFAULT)))
            yield case_n(9, 9, 9, octets)
            yield whole_xml(octets)
            yield case_s(octets, top(item(element)))


def attribute_choices(element):
    """An element with each of its attributes that have a default absent, default or other, in each order."""
    tags = [tag for holder, tag in DEFAULTS if holder == element]
    for octets in product((b"", b"\x01", b"\x02"), repeat=len(tags)):
        present = [item(tag, octet) for tag, octet in zip(tags, octets) if octet]
        for order in permutations(present):
            yield item(element, b"".join(order))


def defaults_together():
    """All choices of one element with each other, and where they stand among unknown and other attributes, before children, in one another."""
    for element in sorted({element for element, _ in DEFAULTS}):
        choices = list(attribute_choices(element))
        for first, second in product(choices, repeat=2):
            yield case_s(top(first), top(second))
            yield case_s(top(first, second), top(second, first))
        yield from both(top(*choices))
        yield whole_xml(top(*choices))
        for choice in choices:
            yield from both(top(choice))
            yield whole_xml(top(choice, tag=0x02))
            yield case_s(top(item(element, choice[2:] + item(0x10))), top(item(element, item(0x10))))
            yield case_s(top(item(element, choice[2:] + item(0x01))), top(item(element)))
            yield case_s(top(choice, item(0x10)), top(item(element, item(0x10))))
            yield case_n(99, 9, 99, nest(15, choice))
    among = item(0x83, DEFAULT), item(0x84, DEFAULT), item(0x80, b"c"), item(0x85, DEFAULT), item(0x83, b"\x02")
    for count in (2, 3, 4):
        for parts in permutations(among, count):
            octets = top(item(0x1C, b"".join(parts)))
            yield from by_all(octets)
            yield case_n(9, 9, 99, octets)
            yield whole_xml(octets)
            yield case_s(octets, top(item(0x1C, item(0x80, b"c"))))
    for a, b, c in product(*((b"", item(tag, DEFAULT)) for tag in (0x83, 0x84, 0x81))):
        octets = top(item(0x1C, a + item(0x2E, b + item(0x14, c))))
        yield from both(octets)
        yield case_s(octets, top(item(0x1C, item(0x2E, item(0x14)))))


def defaults_at_limits():
    """Bodies and objects that are shorter without a default, around the length forms and 32,768 octets, with what is lent at its edges."""
    choices = [b"", item(0x83, DEFAULT), item(0x84, DEFAULT) + item(0x83, DEFAULT), item(0x83, b"\x02"), item(0x84, b"\x02") + item(0x83, DEFAULT)]
    for attributes in choices:
        for size in range(244, 257):
            text = item(0x01, b"a" * size)
            yield from both(top(item(0x1C, attributes + text)))
            yield from both(top(item(0x1C, attributes), text))
        table = item(0x04, entry(0x01, b"radio" * 51))
        count, store = 3 + len(attributes) // 3, len(attributes) // 3
        kept = attributes.count(b"\x02") * 3
        for rest in range(111, 121):
            grown = top(table, item(0x1C, attributes), item(0x01, b"\x01" * 128 + b"a" * rest))
            text, room = 32640 + rest, 32650 + rest + kept
            for lent in ((count, store + text, room), (count - 1, store + text, room), (count, store + text - 1, room), (count, store + text, room - 1),
                         (count, text, room), (count, store + text, 65536), (65535, 65536, 32768), (65535, 65536, 32767)):
                yield case_n(*lent, grown)
        for rest in (117, 118):
            grown = top(table, item(0x1C, attributes), item(0x01, b"\x01" * 128 + b"a" * 118))
            yield case_s(grown, top(item(0x1C), item(0x01, b"radio" * 6528 + b"a" * rest)))
        for size in (32752, 32753, 32755, 32756, 32758, 32759):
            yield case_n(9, 65536, 65536, top(item(0x1C, attributes), item(0x01, b"a" * size)))
        swollen = item(0x01, b"\x01" * 258)
        for other in choices:
            yield case_s(top(table, item(0x1C, attributes), swollen), top(table, item(0x1C, other), swollen))
            yield case_s(top(table, item(0x2E, attributes), swollen), top(table, item(0x2E, other), swollen))


def element_records(element, *attributes):
    """Records of a top with one element, and of that element's attributes: each a tag, where its octets begin, and how many they are."""
    return [[0x03, 0, 1, 0, 0, 0], [element, 0, 2, 0, 0, 0]] + [[tag, 1, 3, 1, start, size] for tag, start, size in attributes]


def defaults_written():
    """Records with defaults: in every room around what is written, twice, of a wrong length, beside others, at the limits."""
    octets = b"\x01\x02\x01"
    for element, tag in DEFAULTS:
        for start, size, room in product(range(4), range(4), (3, 4, 6, 7)):
            yield case_w(3, element_records(element, (tag, start, size)), room, octets)
        for first, second in product(range(3), repeat=2):
            yield case_w(4, element_records(element, (tag, first, 1), (tag, second, 1)), 99, octets)
            two = element_records(element, (tag, first, 1)) + [[element, 0, 2, 0, 0, 0], [tag, 1, 3, 3, second, 1]]
            yield case_w(5, two, 99, octets)
            for _, other in [pair for pair in DEFAULTS if pair[0] == element and pair[1] != tag]:
                for room in range(3, 12):
                    yield case_w(4, element_records(element, (tag, first, 1), (other, second, 1)), room, octets)
        for octet in range(256):
            yield case_w(3, element_records(element, (tag, 0, 1)), 7, bytes([octet]))
        for octet, size in product((b"\x01", b"\x02"), (*range(244, 257), 32755, 32756, 32758, 32759)):
            records = element_records(element, (tag, 0, 1)) + [[0x01, 2, 2, 0, 1, size]]
            whole = len(top(item(element, b"" if octet == DEFAULT else item(tag, octet)), item(0x01, b"a" * size)))
            for room in (whole - 1, whole) if size < 32755 else (65536,):
                yield case_w(4, records, room, octet + b"a" * size)
    for element, tag in product(HOLDERS, range(0x80, 0x8A)):
        yield case_w(3, element_records(element, (tag, 0, 1)), 99, DEFAULT)


def bearers():
    for first in range(256):
        size = 1 + (3 if first & 0x40 else 0) + (4 if first & 0x10 else 2)
        for length in (size - 1, size, size + 1):
            yield from both(top(item(0x29, item(0x80, bytes([first]) + bytes(range(1, length))))))
    forms = each("00C224 | 80C224 | 20C224 | 01C224 | 100000C224 | 40E1CE15C224 | E0E1CE15C224 | 50E1CE150000C224"
                 "| 50E1CE160000C224")
    for first in forms:
        for second in forms:
            yield case_s(top(item(0x2D, item(0x80, first))), top(item(0x25, item(0x80, second))))
            yield case_s(top(item(0x2D, item(0x80, first))), top(item(0x2D, item(0x80, second))))


def depths():
    inners = each("|80020000|9000|010178|340178|1000|0700|7F021000|0600|0400|0200|0000|10|1001|01001000")
    for depth in (15, 16, 17, 18):
        for inner in inners:
            yield from both(nest(depth, inner))


def order():
    """Every ordered choice of three items from the stages, in the top and in an element."""
    parts = each("80020001|90013F|0403010174|0602656E|1000|0700|340170|010163")
    for a in parts:
        for b in parts:
            for c in parts:
                yield case_l(9, top(a, b, c))
            yield case_l(9, top(a, b, tag=0x02))
            yield case_l(9, top(item(0x21, a + b)))
            yield case_n(9, 99, 99, top(item(0x21, a + b)))


# Items that are refused in a top's list, a line for each of the numbers 2, 3, 4 and 8 to 13.
FAULTS = (
    each("10 | 10FE00 | 80FF0000 | 00 | 04")
    + each("1001 | 80FE0001 | 0401 | 0001 | 9001 | 07FF000001")
    + each("0000 | 0200 | 0300")
    + each("80020000 80020000 | 80020000 8000")
    + each("8000 | 8104FFFFFFFF | 8003000000 | 810461A80000 | 810430D40600 | 810430D4003C | 810630D40800F000")
    + each("820100 | 0601FF | 010180 | 82020100 | 010201FF")
    + each("040101 | 04020900 | 040401000100 | 0403010102 | 04020101")
    + each("820101 | 830102 | 060101 | 010105")
    + each("100B 0109 6E6E6E6E6E6E6E6E6E | 1014 0112 C3A9C3A9C3A9C3A9C3A9C3A9C3A9C3A9C3A9")
)
GOOD = each("|900101|820178|0400|0403010174|04020200|0602656E|1000|070101|010163")


def faults():
    """Each fault alone, after and before a good item, two in a row, and with octets after the top."""
    for fault in FAULTS:
        for good in GOOD:
            yield case_l(9, top(good, fault))
            yield case_l(9, top(fault, good))
        for other in FAULTS:
            yield case_l(9, top(fault, other))
        yield case_l(9, top(fault) + b"\x00")
        yield case_l(9, top(item(0x21, fault), b"\x10\x00\x10\x00"))
        yield case_l(0, top(fault))
        yield case_n(0, 0, 0, top(fault))


def late_twelve():
    waiting = each("820101|830102|820101 830102|830102 820101|820178 83020102|820101 900101|900101 830102")
    tables = each("|0400|0403010174|0403020174|0406 010174 020175|04|0409|040101|04FE00|04020900")
    after = each("|1000|10|1009|0000|80020001|800100|80|0400|060103|0101FF|0700 0400|9005|820178")
    for attributes in waiting:
        for table in tables:
            for rest in after:
                yield case_l(9, top(attributes, table, rest))
                yield case_l(9, top(attributes, rest, table))
            yield case_n(9, 99, 99, top(attributes, table))
            yield case_l(9, top(attributes, table, tag=0x02))
            yield case_l(9, top(attributes, table) + b"\x00")


def lent_memory():
    """Places, store and room at, around and far from what annex C and others need."""
    grown = top(item(0x82, b"a\x01"), item(0x04, entry(1, b"tttt")), item(0x10, item(0x01, b"\x01\x01")),
                item(0x34, b"12345"))
    for octets, records, store, room in ((ANNEX_C, 16, 52, 84), (grown, 5, 18, 28), (top(), 1, 0, 2)):
        for places in (0, records - 1, records, records + 1, 65535):
            yield case_l(places, octets)
            for lent_store in (0, store - 1, store, store + 1, 65536):
                for lent_room in (0, room - 2, room - 1, room, room + 1, 65536):
                    yield case_n(places, max(0, lent_store), lent_room, octets)


def written():
    """Records for the writer: good ones, each field changed, and trees that are not in reading order."""
    octets = b"en" + b"\x00\x01" + b"crid" + b"\x30\xd4\x10\x00\x20" + b"\xa0\xc2\x24" + b"PM" + bytes(3)
    good = [[0x03, 0, 1, 0, 0, 0], [0x82, 1, 2, 0, 4, 4], [0x81, 1, 2, 0, 8, 5], [0x80, 1, 2, 0, 2, 2],
            [0x06, 0, 2, 0, 0, 2], [0x28, 0, 2, 0, 0, 21], [0x80, 1, 3, 5, 2, 2], [0x29, 0, 3, 5, 21, 0],
            [0x80, 1, 4, 7, 13, 3], [0x10, 0, 3, 5, 0, 0], [0x01, 2, 4, 9, 16, 2], [0x34, 0, 2, 0, 18, 3],
            [0x01, 2, 2, 0, 0, 0]]
    for room in (0, 65, 66, 67, 68, 69, 70, 32768, 65536):
        yield case_w(len(good), good, room, octets)
    for count in (0, 1, 2, 12, 13, 14, 65535):
        yield case_w(count, good, 65536, octets)
    yield case_w(0, [], 65536, octets)
    yield case_w(1, [], 65536, octets)
    values = {
        0: [0, 1, 2, 3, 4, 5, 6, 7, 0x10, 0x34, 0x7F, 0x80, 0x81, 0x82, 0x83, 0x84, 0xFF],
        1: [0, 1, 2, 3, 255],
        2: [0, 1, 2, 3, 4, 5, 16, 17, 255],
        3: [0, 1, 5, 7, 9, 12, 13, 65535],
        4: [0, 1, 18, 20, 21, 22, 65535],
        5: [0, 1, 2, 3, 4, 21, 22, 65535],
    }
    for at in range(len(good)):
        for field, choices in values.items():
            for choice in choices:
                changed = [list(r) for r in good]
                changed[at][field] = choice
                yield case_w(len(changed), changed, 65536, octets)
        for to in range(len(good)):
            moved = [list(r) for r in good]
            moved.insert(to, moved.pop(at))
            yield case_w(len(moved), moved, 65536, octets)
        doubled = good[:at + 1] + good[at:]
        yield case_w(len(doubled), doubled, 65536, octets)
        yield case_w(len(good) - 1, good[:at] + good[at + 1:], 65536, octets)
    # depth: a chain, and each kind of item below its end
    for depth in (15, 16, 17):
        chain = [[0x03, 0, 1, 0, 0, 0]] + [[0x21, 0, d, d - 2, 0, 0] for d in range(2, depth + 1)]
        yield case_w(len(chain), chain, 65536, b"ab")
        for tag, kind in ((0x80, 1), (0x01, 2), (0x34, 0)):
            records = chain + [[tag, kind, depth + 1, depth - 1, 0, 2]]
            yield case_w(len(records), records, 65536, b"ab")
    # text, shown lengths, sizes, spans at the end of the lent octets
    head = [0x03, 0, 1, 0, 0, 0]
    for text in (b"", b"a", b"\x01", b"\x13", b"\x00", b"\xff", "é".encode(), b"\xee\x80\x80", b"\t\n\r"):
        for tag, kind in ((0x01, 2), (0x06, 0), (0x82, 1)):
            yield case_w(2, [head, [tag, kind, 2, 0, 0, len(text)]], 65536, text)
    for tag, limit in SHOWN.items():
        for count in (limit - 1, limit, limit + 1):
            for octets in (text.encode() for text in shown_texts(count)):
                name, size = [head, [tag, 0, 2, 0, 0, 0], [0x01, 2, 3, 1, 0, len(octets)]], len(top(item(tag, item(0x01, octets))))
                for room in (size - 1, size, 65536):
                    yield case_w(3, name, room, octets + "é€".encode())
    for size in (253, 254, 32759, 32760, 32761, 65535):
        for room in (size + 5, size + 6, size + 8, 65536):
            yield case_w(2, [head, [0x01, 2, 2, 0, 0, size]], min(65536, room), b"n" * 65535)
    for start, length, size in ((65535, 0, 65535), (65535, 1, 65535), (65535, 1, 65536), (1, 65535, 65536),
                                (2, 65535, 65536), (0, 0, 0), (1, 0, 0), (32768, 32768, 65536),
                                (32769, 32768, 65536), (65535, 65535, 65536)):
        yield case_w(2, [head, [0x34, 0, 2, 0, start, length]], 65536, b"n" * size)
        yield case_w(1, [[0x03, 0, 1, 0, start, length]], 65536, b"n" * size)
        yield case_w(2, [head, [0x10, 0, 2, 0, start, length]], 65536, b"n" * size)
    rows = [head]
    for index in range(1, 1200, 2):
        rows += [[0x10, 0, 2, 0, 0, 0], [0x80, 1, 3, index, 0, 2]]
    yield case_w(len(rows), rows, 65536, b"ab")
    for parent in (1198 & 0xFF, 1197, 1199 & 0xFF):
        yield case_w(len(rows), rows[:-1] + [[0x80, 1, 3, parent, 0, 2]], 65536, b"ab")
    many = [head] + [[0x01 if i == 2000 else 0x10, 2 if i == 2000 else 0, 2, 0, 0, 0] for i in range(1, 2001)]
    yield case_w(len(many), many, 65536, b"")
    # two tops, items below leaves, and first records that are no top
    below_leaves = [[head, [tag, kind, 2, 0, 0, 2], [0x80, 1, 3, 1, 0, 2]]
                    for tag, kind in ((0x80, 1), (0x01, 2), (0x06, 0), (0x34, 0), (0x28, 0))]
    lone = [[0x10, 0, 1, 0, 0, 0], [0x03, 0, 1, 1, 0, 0], [0x03, 0, 2, 0, 0, 0], [0x03, 1, 1, 0, 0, 0],
            [0x01, 2, 1, 0, 0, 0], [0x80, 1, 1, 0, 0, 0], [0x02, 0, 1, 0, 0, 0]]
    lists = below_leaves + [[record] for record in lone] + [[record, [0x80, 1, 2, 0, 0, 2]] for record in lone]
    for records in lists + [[head, head], [head, [0x02, 0, 2, 0, 0, 0]]]:
        yield case_w(len(records), records, 65536, b"ab")
    for octet in range(0, 256, 5):
        for size in (1, 3, 5, 6, 8):
            records = [head, [0x25, 0, 2, 0, 0, 0], [0x80, 1, 3, 1, 0, size]]
            yield case_w(3, records, 65536, bytes([octet]) + bytes(7))


def sameness():
    name = item(0x10, item(0x01, b"BBC"))
    empty, none = item(0x10, item(0x01, b"")), item(0x10)
    table = item(0x04, entry(1, b"BBC"))
    forms = [top(name), top(table, item(0x10, item(0x01, b"\x01"))),
             top(item(0x90, b"?"), item(0x10, item(0x01, b"BBC", 2), 1)), top(name, item(0x07)), top(empty),
             top(none), top(name, tag=0x02), top(item(0x11, item(0x01, b"BBC"))), top(name, name), b"", bytes(65536),
             top(item(0x82, b"x"), item(0x83, b"y")), top(item(0x83, b"y"), item(0x82, b"x")),
             top(item(0x82, b"y"), item(0x83, b"x")), top(item(0x06, b"en")), top(item(0x06, b"")), top(item(0x04)),
             top(), top() + b"\0", top(b"\x10"), top(item(0x01, b"\x02")), ANNEX_C,
             top(item(0x1C, item(0x84, b"\x01"))), top(item(0x1C)), top(item(0x10), item(0x11)),
             top(item(0x11), item(0x10))]
    for first in forms:
        for second in forms:
            yield case_s(first, second)


# ---- XML ---------------------------------------------------------------------------------------

def whole_xml(octets):
    """The XML with the largest room that a case may lend."""
    return case_x(65536, octets)


def xml_names():
    """Every element with nothing, empty CDATA, text, a child or both in it; every attribute, alone and with all others in two orders."""
    bodies = [b"", item(0x01), item(0x01, b"t"), item(0x10), item(0x10) + item(0x01), item(0x10, item(0x01, b"t")) + item(0x01, b"u")]
    good = {TEXT: b"t", NUMBER: b"\x01\x02", SHORT_ID: b"\x01\x02\x03", ENUM: b"\x02", TIME: time_octets(), BEARER: bytes.fromhex("40E1CE15C224")}
    for tag in [0x02, 0x03] + HOLDERS:
        attributes = [item(attribute, good[kind]) for attribute, kind in ATTRIBUTES[tag].items() if kind != PLAIN]
        sets = [[]] + [[one] for one in attributes] + [attributes, attributes[::-1]]
        for chosen in sets:
            for body in bodies if len(chosen) != 1 else bodies[:1]:
                element = item(tag, b"".join(chosen) + body)
                yield whole_xml(element if tag < 0x04 else top(element))
    for text in (b"", b"en", b"\x01", b"\x02"):
        yield whole_xml(top(item(0x04, entry(1) + entry(2, b"fr")), item(0x06, text), item(0x10)))
    for depth in (2, 16):
        for inner in (b"", item(0x01), item(0x01, b"t"), item(0x82, b"t")):
            yield whole_xml(nest(depth, inner))
    unknown = item(0x90, b"?"), item(0x07, item(0x34, b"?")), item(0x22)
    yield whole_xml(top(*unknown))
    yield whole_xml(top(item(0x2E, item(0x85) + item(0x80, b"t") + item(0x87)), *unknown[1:], item(0x01)))


def xml_numbers():
    """Numbers around every count of digits, and each octet of the enumerated attributes."""
    for tag, known in ATTRIBUTES.items():
        wrap = top if tag > 0x03 else bytes
        for attribute, kind in known.items():
            octets = {NUMBER: 2, SHORT_ID: 3, ENUM: 1}.get(kind, 0)
            values = range(256) if kind == ENUM else [n + step for n in [10 ** digits for digits in range(8)] + [1 << 8 * octets] for step in (-1, 0)]
            for value in values:
                if octets and value < 1 << 8 * octets:
                    yield whole_xml(wrap(item(tag, item(attribute, value.to_bytes(octets, "big")))))


def day_of(*when):
    return date(*when).toordinal() - date(1858, 11, 17).toordinal()


def xml_times():
    """Offsets of all kinds, at both ends of the dates and of the day; ends of months and years, leap days, and where there is none."""
    def wrapped(**fields):
        return whole_xml(top(item(0x81, time_octets(**fields))))
    for offset in range(256):
        for fields in ({"date": 0, "hours": 0, "minutes": 0}, {"date": 99999, "hours": 23, "minutes": 59, "seconds": 59}, {}):
            yield wrapped(offset=offset, **fields)
    for hours in range(24):
        for minutes in (0, 29, 30, 59):
            for offset in (None, 1, 0x21, 16, 0x30, 31, 0x3F):
                yield wrapped(hours=hours, minutes=minutes, offset=offset)
    days = [0, 1, 99998, 99999, day_of(1858, 12, 31), day_of(1859, 1, 1), day_of(2132, 2, 29), day_of(2132, 8, 31)]
    for year in (1860, 1899, 1900, 1901, 1999, 2000, 2001, 2004, 2099, 2100, 2101, 2104):
        for month in range(1, 13):
            days += [day_of(year, month, 1), day_of(year, month, 1) - 1, day_of(year, month, 1) - 2]
    for day in days:
        yield wrapped(date=day)
        yield wrapped(date=day, hours=0, minutes=29, seconds=1, offset=0x21)
        yield wrapped(date=day, hours=23, minutes=30, seconds=59, offset=1)
    for seconds in range(60):
        yield wrapped(seconds=seconds, minutes=seconds, low=0x3FF, reserved=0x80002000)


def xml_bearers():
    for first in range(256):
        size = (3 if first & 0x40 else 0) + (4 if first & 0x10 else 2)
        for tag in (0x25, 0x29, 0x2D):
            for octets in (bytes(size), bytes([0xFF] * size), bytes.fromhex("0A1B2C3D4E5F6A")[:size]):
                yield whole_xml(top(item(tag, item(0x80, bytes([first]) + octets))))


def xml_texts():
    """Each octet and the borders of UTF-8 as a text, as a token and beside one; what is escaped at every place among plain letters."""
    samples = [bytes([octet]) for octet in range(256)]
    samples += [chr(code).encode() for code in (0x80, 0x7FF, 0x800, 0x2028, 0xD7FF, 0xF900, 0xFFFD, 0xFFFE, 0xFFFF, 0x10000, 0x10FFFF)]
    samples += [b"<>&'\"", b"]]>", b"<![CDATA[]]>", b"&amp;", b"&&&&&&&&&", b"\r\n\t ", b" t ", b"\r\r\n", "\u0085\xe9\U0001f4fb".encode()]
    for text in samples:
        yield whole_xml(top(item(0x01, text)))
        yield whole_xml(top(item(0x82, text)))
        yield whole_xml(top(item(0x06, text)))
        yield whole_xml(top(item(0x82, b"a\x01"), item(0x04, entry(1, text)), item(0x06, b"\x01"), item(0x10, item(0x01, b"\x01b"))))
        yield whole_xml(top(item(0x04, entry(1, b"t")), item(0x33, item(0x01, b"\x01" + text + b"\x01"))))
    for size in (7, 8, 9, 16, 17, 24):
        for at in range(size):
            for octet in b"<>&'\"\t\x01\x7f":
                text = bytearray(b"abcdefghijklmnopqrstuvwx"[:size])
                text[at] = octet
                yield whole_xml(top(item(0x82, bytes(text)), item(0x04, entry(1, b"<>")), item(0x01, bytes(text))))
    for tag in TOKEN_TAGS:
        yield whole_xml(top(item(0x04, entry(tag, b"'")), item(0x01, bytes([tag]))))
        yield whole_xml(top(item(0x04, entry(tag)), item(0x06, bytes([tag])), item(0x10, item(0x80, bytes([tag])) + item(0x01, bytes([tag, tag])))))


# Items of plain octets, in elements that may stand in a top's list.
PLAIN_ITEMS = [item(0x14, item(0x80)), item(0x14, item(0x81, b"\x01") + item(0x80, b"\x03", 1)), item(0x14, item(0x80, b"\x03", 2) + item(0x81, b"\x01")),
               item(0x26, item(0x80, bytes.fromhex("E1CE15")), 1), item(0x26, item(0x10) + item(0x34)), item(0x34), item(0x35, bytes(12), 2)]


def xml_plain():
    """Refusal 17: where the first of them stands, behind 1 to 13 of any item, before 15; octets that only look like plain ones."""
    for plain in PLAIN_ITEMS:
        for good in GOOD:
            if good[:1] != b"\x01":
                yield whole_xml(top(good, plain))
            yield whole_xml(top(plain, good))
        for fault in FAULTS:
            yield whole_xml(top(plain, fault))
            yield whole_xml(top(fault, plain))
            yield whole_xml(top(plain, item(0x21, fault)))
        for other in PLAIN_ITEMS:
            yield whole_xml(top(plain, other, tag=0x02))
        for room in (0, 1, 64):
            yield case_x(room, top(plain))
        yield whole_xml(top(plain) + b"\x00")
        yield whole_xml(top(item(0x82, b"\x01"), plain))
        yield whole_xml(top(item(0x82, b"\x01"), item(0x04, entry(1)), plain))
        yield whole_xml(top(item(0x07, plain)))
        for depth in (3, 15, 16):
            yield whole_xml(nest(depth, plain))
    for octets in each("2602 8100 | 1402 8200 | 2804 80020001 | 3400 1000 | 1000 3500 | 2F02 8000"):
        yield whole_xml(top(octets))


def xml_rooms():
    """All rooms up to what small objects need; XML of 65,536 octets and one more, far more, and the same through tokens."""
    for octets, size in ((top(), 21), (ANNEX_C, 339), (top(item(0x04, entry(1, b"<&>")), item(0x06, b"\x01"), item(0x01)), 101)):
        for room in list(range(size + 3)) + [32767, 32768, 65535, 65536]:
            yield case_x(room, octets)
    for extra in (-1, 0, 1, 2):
        text = b"&" * 13098 + b"a" * (5 + extra)
        for room in (0, 32768, 65534, 65535, 65536):
            yield case_x(room, top(item(0x01, text)))
            yield case_x(room, top(item(0x04, entry(1, b"&" * 37)), item(0x01, b"\x01" * 354 + b"a" * (5 + extra))))
    table = item(0x04, entry(1, b"'" * 255) + entry(2))
    for uses in (42, 43, 6000, 32000):
        yield whole_xml(top(table, item(0x01, b"\x01" * uses)))
        yield whole_xml(top(table, item(0x01, b"\x02" * uses)))
    for count in (5457, 5458, 16382):
        yield whole_xml(top(b"\x10\x00" * count))
    for octets in (b"", bytes(65536), top(item(0x01, b"a" * 32760)), top(item(0x01, b"a" * 32761))):
        yield case_x(0, octets)
        yield whole_xml(octets)


def edge_cases():
    for group in (sizes, pairs, texts, token_tables, shown_lengths, times, time_fields, defaults_alone, defaults_together, defaults_at_limits,
                  defaults_written, bearers, depths, order, faults, late_twelve, lent_memory, written, sameness, xml_names, xml_numbers, xml_times, xml_bearers,
                  xml_texts, xml_plain, xml_rooms):
        yield from group()
    for octets in [ANNEX_C] + [ANNEX_C[:size] for size in range(84)]:
        yield from both(octets)
    for at in range(84):
        for change in (0x01, 0x80, 0xFF):
            changed = ANNEX_C[:at] + bytes([ANNEX_C[at] ^ change]) + ANNEX_C[at + 1:]
            yield from both(changed)
            yield whole_xml(changed)
    from edit_edges import edit_edge_cases  # which stands on this file, as the next ones do
    from fold_edges import fold_edge_cases
    from gate_edges import gate_edge_cases
    from header_edges import header_edge_cases, no_list_edge_cases
    from merge_edges import merge_edge_cases
    yield from edit_edge_cases()
    yield from gate_edge_cases()
    yield from header_edge_cases()
    yield from fold_edge_cases()
    yield from no_list_edge_cases()
    yield from merge_edge_cases()
