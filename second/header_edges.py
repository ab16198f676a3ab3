"""The fixed edge cases of letters C and J: what is one item and what is none, the insides of unknown items, the most headers, a place too few, refusals."""
from itertools import product

from edges import ANNEX_C, FAULTS, GOOD, entry, nest, top
from edit_edges import VALUES
from make_cases import ATTRIBUTES, COORDINATES, DEFAULT, DEFAULTS, OBJECT_LIMIT, TOKEN_TAGS, UNKNOWN_ELEMENTS, case_c, case_j, item

FORMS = 0, 1, 2
OBJECT_AT = len(case_c(0, b""))  # where the object of a case begins
# Bodies that look like items, good ones and bad: where no items are looked for, nothing of them counts.
INSIDES = (b"", item(0x10), item(0x10) * 5, item(0x21, item(0x1C, item(0x80, b"t") + item(0x10, item(0x01, b"c")))), item(0x07, item(0x07)), item(0x90),
           item(0x01, b"c") * 2, item(0x04, entry(1, b"t")) + item(0x06, b"en"), item(0x02), top(item(0x10)), b"\x00", b"\x10", b"\x10\x09", b"\x10\xfe\x00")


def around(octets, records):
    """Just the places that are needed, one fewer, one more, none and many."""
    for places in sorted({records - 1, records, records + 1, 0, 65535}):
        yield case_c(places, octets)


def tops():
    """Empty ones in each form of the length, alone and with octets behind them; and with each single item of any tag."""
    for tag, form in product((0x02, 0x03), FORMS):
        yield from around(item(tag, form=form), 1)
        yield from around(item(tag, form=form) + b"\x00", 1)
    for tag, form in product(range(0x100), FORMS):
        yield case_c(9, top(item(tag, form=form)))
        yield case_c(9, top(item(0x21, item(tag, form=form), form)))


# ---- One item each --------------------------------------------------------------------------------------

def unknown_items():
    """In the top, in elements within it and in the deepest; beside known items before and behind; one in the other."""
    unknown = [item(tag, inside, form) for tag, inside, form in product((0x05, 0x07, 0x7F, 0x88, 0xFF), INSIDES, FORMS)]
    for octets in unknown:
        yield from around(top(octets), 1)
        yield from around(top(item(0x21, octets)), 2)
        yield from around(nest(16, octets), 16)
        if octets[0] >= 0x80:
            yield from around(top(octets, item(0x82, b"o"), octets, item(0x10)), 3)
        else:
            yield from around(top(item(0x82, b"o"), octets, item(0x10), octets, item(0x01)), 4)
            yield from around(top(item(0x07, octets), item(0x10)), 2)
    for tag in UNKNOWN_ELEMENTS + list(range(0x80, 0x100)):
        yield case_c(9, top(item(tag, item(0x10) * 3)))
        yield case_c(9, item(0x02, item(tag, item(0x10) * 3)))


def token_tables():
    """Of no entry up to all sixteen, with texts that look like items; before the language and other elements; tokens in use."""
    for count, text, form in product(range(len(TOKEN_TAGS) + 1), (b"", b"t", b"a text of some length"), FORMS):
        table = item(0x04, b"".join(entry(tag, text) for tag in TOKEN_TAGS[:count]), form)
        yield from around(top(table), 1)
        yield from around(top(item(0x82, b"\x01" * (count > 0)), table, item(0x06, b"\x01" * (count > 0)), item(0x07), item(0x01, b"\x01" * (count > 0))), 4)
    for inside in (b"1\x00", b"10", "é\n".encode(), b"  " * 100):
        yield from around(top(item(0x04, entry(1, inside) + entry(2, inside))), 1)


def without_items():
    """The language, elements and attributes of plain octets, texts and CDATA: whatever is in them, each is one."""
    for inside, form in product(INSIDES, FORMS):
        for tag in COORDINATES:
            yield from around(top(item(tag, inside, form)), 2)
            yield from around(top(item(0x32, item(tag, inside, form) * 3)), 5)
        yield from around(top(item(0x26, item(0x80, inside, form))), 3)
        yield from around(top(item(0x14, item(0x80, inside, form) + item(0x81, DEFAULT))), 4)
        for tag in (0x82, 0x06, 0x01):
            yield from around(top(item(tag, inside, form)), 2)
    for text, form in product((b"", b"e", b"en", b"10" * 200), FORMS):
        yield from around(top(item(0x06, text, form)), 2)
        yield from around(top(item(0x82, text, form), item(0x06, text, form), item(0x10), item(0x01, text, form)), 5)


def every_pair():
    """Each element that holds items, with each of its attributes and all of them, with children and CDATA; in each form of the length."""
    for (element, known), form in product(ATTRIBUTES.items(), FORMS):
        attributes = [item(tag, VALUES[kind], form) for tag, kind in known.items()]
        for body in (b"", *attributes, b"".join(attributes), b"".join(attributes) + item(0x10, form=form) * 3 + item(0x01, b"c", form)):
            yield case_c(99, item(element, body, form) if element < 0x04 else top(item(element, body, form)))
    for element, tag in DEFAULTS:  # which have records, and no place in the normal form
        yield from around(top(item(element, item(tag, DEFAULT))), 3)
        yield from around(top(item(element, item(0x90) + item(tag, DEFAULT) + item(0x91))), 3)


def length_forms():
    """Bodies at the borders of the three forms, of known items and unknown ones, each with more items behind it."""
    for size, form, tag in product((0, 1, 252, 253, 254, 255, 256, 8000), FORMS, (0x82, 0x90, 0x06, 0x07, 0x34)):
        body = b"a" * size
        yield from around(top(item(tag, body, form), item(0x10)), 3 - (tag in (0x90, 0x07)))
    for count, form in product((0, 1, 125, 126, 127, 128, 129, 300), FORMS):
        yield from around(item(0x03, b"\x10\x00" * count, form), 1 + count)
        yield from around(top(item(0x21, b"\x10\x00" * count, form)), 2 + count)
        yield from around(item(0x03, b"\x07\x00" * count, form), 1)


def depths():
    """Chains down to the deepest element and one further, with known and unknown items at the end."""
    for depth, inner in product((1, 2, 15, 16, 17), (b"", item(0x90), item(0x90) + item(0x01), item(0x07), item(0x10), item(0x07, item(0x10)), item(0x34))):
        yield case_c(99, nest(depth, inner))
        yield case_c(depth, nest(depth, inner))


# ---- The most, and refusals -----------------------------------------------------------------------------

def most_headers():
    """Items of two octets up to the limit and past it: the top's own header takes four octets or five there, so they are one fewer than half the octets."""
    for pair, form in product((b"\x10\x00", b"\x07\x00", b"\x90\x00", b"\x34\x00"), (1, 2)):
        for count in (16380, 16381, 16382, 16383):
            octets = item(0x03, pair * count, form)
            yield from around(octets, 1 if pair in (b"\x07\x00", b"\x90\x00") else 1 + count)
    for total, pair in product((OBJECT_LIMIT - 1, OBJECT_LIMIT, OBJECT_LIMIT + 1), (b"\x10\x00", b"\x07\x00")):
        yield case_c(65535, top(b"\x90\x01\x00" * (total % 2), pair * ((total - 4 - 3 * (total % 2)) // 2)))
    for tag, inner in product((0x10, 0x07), (b"\x10\x00", b"\x90\x00")):
        yield case_c(65535, top(item(tag, inner * ((OBJECT_LIMIT - 8) // 2))))
    yield case_c(65535, top(item(0x90, b"\x10\x00" * 8190), b"\x10\x00" * 8190))


def refusals():
    """Each fault behind items that were judged already, known and unknown, whatever is lent; and each good item."""
    for good in GOOD:
        for places in range(4):
            yield case_c(places, top(good))
    for fault in FAULTS:
        for good in GOOD:
            yield case_c(65535, top(good, fault))
            yield case_c(65535, top(fault, good))
            yield case_c(0, top(good, item(0x21, fault)))
        yield case_c(65535, top(item(0x07, fault)))
        yield case_c(65535, top(item(0x21) * 20, fault))
        yield case_c(65535, top(fault) + b"\x00")
    for octets in (b"", b"\x03", b"\x02\x01", b"\x04\x00", b"\x10\x00", b"\x07\x00", top(item(0x10)) + b"\x00", bytes(OBJECT_LIMIT + 1), bytes(65536)):
        yield case_c(0, octets)
        yield case_c(65535, octets)


def annex_c():
    """It has 16 items, all known; cut off, and with an octet changed."""
    yield from around(ANNEX_C, 16)
    for size in range(len(ANNEX_C)):
        yield case_c(65535, ANNEX_C[:size])
    for at, change in product(range(len(ANNEX_C)), (0x01, 0x80, 0xFF)):
        yield case_c(65535, ANNEX_C[:at] + bytes([ANNEX_C[at] ^ change]) + ANNEX_C[at + 1:])


def header_edge_cases():
    for group in (tops, unknown_items, token_tables, without_items, every_pair, length_forms, depths, most_headers, refusals, annex_c):
        yield from group()


def no_list_edge_cases():
    """The same objects with no list, each once."""
    for octets in dict.fromkeys(case[OBJECT_AT:] for case in header_edge_cases()):
        yield case_j(octets)
