"""The fixed edge cases of letter E: each edit on each kind of record, each refusal alone and with others, headers that grow, memory that is just full."""
from itertools import product

from edges import ANNEX_C, FAULTS, GOOD, each, entry, nest, shown_texts, time_octets, top
from make_cases import (ATTRIBUTES, BEARER, DEFAULT, DEFAULTS, ENUM, HOLDERS, NUMBER, OBJECT_LIMIT, PLAIN, SHORT_ID, SHOWN, TEXT, TIME, TOKEN_TAGS, case_e,
                        edit_d, edit_i, edit_t, item)

PLENTY = 65535, 65536  # places and store
VALUES = {TEXT: b"t", NUMBER: b"\x01\x02", SHORT_ID: b"\x01\x02\x03", ENUM: b"\x02", TIME: time_octets(), BEARER: bytes.fromhex("40E1CE15C224"),
          PLAIN: b"\x03"}
NAME = item(0x10, item(0x01, b"PM"))  # two records, two octets of store


def run(octets, *edits, lent=PLENTY):
    return case_e(*lent, octets, edits)


def wrapped(tag, body):
    """An object in which an element of this tag has this body; the tops are objects themselves."""
    return item(tag, body) if tag < 0x04 else top(item(tag, body))


# ---- Each edit on each kind of record ------------------------------------------------------------------

def every_edit(octets, records):
    """Each edit on each record and on some that there aren't."""
    for record in [*range(records + 2), 255, 256, 65535]:
        yield run(octets, edit_t(record, b"new"))
        yield run(octets, edit_t(record, b""))
        yield run(octets, edit_d(record))
        for place in (0, 1, 2, 65535):
            yield run(octets, edit_i(record, place, NAME))


def each_kind():
    """An attribute of each pair, with and without a child element and CDATA beside it; a language; plain octets; elements that hold nothing."""
    for tag in [0x02, 0x03] + HOLDERS:
        for attribute, kind in ATTRIBUTES[tag].items():
            value = item(attribute, VALUES[kind])
            above = 1 if tag < 0x04 else 2
            for record in range(above + 1):
                yield run(wrapped(tag, value), edit_t(record, b"new"), edit_d(record), edit_i(record, 0, NAME))
            yield run(wrapped(tag, value + item(0x11) + item(0x01, b"c")), *(edit_i(record, place, NAME) for record in range(above + 3) for place in range(3)))
        yield from every_edit(wrapped(tag, item(0x01, b"c")), 3)
    yield from every_edit(top(item(0x82, b"o"), item(0x06, b"en"), item(0x34, b"12"), item(0x35), item(0x16, item(0x80, b"l") + NAME + item(0x01))), 9)
    yield from every_edit(top(), 1)
    for tag in [0x34, 0x35]:
        for size in (0, 1, 253, 254):
            yield run(top(item(tag, bytes(size))), edit_t(1, b"a"), edit_i(1, 0, NAME), edit_i(0, 1, item(tag, bytes(size), 2)))


def annex_c():
    """Its sixteen records: each edit on each, and a removal before each other edit."""
    yield from every_edit(ANNEX_C, 16)
    for first, second in product(range(17), repeat=2):
        yield run(ANNEX_C, edit_d(first), edit_t(second, b"crid://x"), edit_i(second, 0, NAME), edit_d(second))
    programme = ANNEX_C[28:]
    for size in range(0, len(programme), 3):
        yield run(ANNEX_C, *(edit_i(1, 0, programme[:cut]) for cut in range(size, size + 3)))
    for change in (0x01, 0x80, 0xFF):
        for at in range(len(programme)):
            changed = programme[:at] + bytes([programme[at] ^ change]) + programme[at + 1:]
            yield run(ANNEX_C, edit_i(1, 2, changed), edit_i(1, 3, changed + b"\x00"))


def attribute_order():
    """Records, and so sizes, stand as in the object; what is written stands by tag."""
    first, second, third = item(0x80, b"long id"), item(0x86, b"en"), item(0x84, b"\x02")
    for parts in ((first, second, third), (third, second, first), (second, first, third)):
        octets = top(item(0x1C, b"".join(parts) + NAME))
        yield run(octets)
        for record in range(7):
            yield run(octets, edit_t(record, b"another"))
            yield run(octets, edit_d(record), edit_t(record, b"x"))
        yield run(octets, edit_i(0, 0, item(0x2E, b"".join(parts))), edit_i(0, 2, item(0x1C, b"".join(parts[::-1]))))


# ---- Refusals ------------------------------------------------------------------------------------------

def text_refusals():
    """18, 16 and 15 of a text, alone and together; 15 by the store and by the whole form."""
    octets = top(item(0x82, b"abc"), item(0x10, item(0x01, b"PM")), item(0x34, b"12"))
    texts = [b"", b"ab", b"abc", b"abcd", b"\x01", b"\xff", b"\x00" * 40000, b"a" * 9, b"a" * 40000, b"a" * 65535, b"\xe2\x82", b"a" * 32745, b"a" * 32749,
             b"a" * 32750, b"a" * 32751]
    for text, record, store in product(texts, (0, 1, 2, 3, 4, 5), (7, 8, 9, 65536)):
        yield run(octets, edit_t(record, text), lent=(5, store))


def place_refusals():
    """18, 16, 14 and 15 of an element, alone and together."""
    octets = top(item(0x82, b"abc"), item(0x10, item(0x01, b"PM")), item(0x34, b"12"))  # 5 records, 7 octets of store, 20 in all
    elements = [item(0x11), NAME, item(0x11, item(0x01, b"a" * 17)), item(0x07), item(0x06, b"en"), item(0x06, b"\x01"), b"", b"\x10", item(0x34, b"a" * 40000),
                item(0x16, item(0x01, b"a" * 32740)), item(0x16, item(0x01, b"a" * 32741)), item(0x16, item(0x01, b"a" * 40000 + b"\xff")), NAME + b"\x00",
                item(0x20, NAME * 3), item(0x20, NAME * 3 + b"\x00"), item(0x20, b"\x10\x00" * 20000), item(0x20, b"\x10\x00" * 16382),
                item(0x34, b"a" * 32764)]
    for element, (record, place), lent in product(elements, ((0, 0), (0, 1), (0, 2), (0, 3), (1, 0), (2, 0), (2, 1), (4, 0), (5, 0)),
                                                  ((5, 7), (6, 7), (7, 9), (12, 12), (12, 13), PLENTY)):
        yield run(octets, edit_i(record, place, element), lent=lent)


def not_taken_in():
    """1 to 13, then 14, then 15 of the object; no edit is made of it."""
    edits = edit_t(1, b"new"), edit_d(1), edit_i(0, 0, NAME)
    grown = top(item(0x82, b"a\x01"), item(0x04, entry(1, b"tttt")), item(0x10, item(0x01, b"\x01\x01")), item(0x34, b"12345"))  # 5 records, 18 octets
    for octets, records, store in ((ANNEX_C, 16, 52), (grown, 5, 18), (top(), 1, 0), (top(item(0x1C, item(0x83, DEFAULT))), 3, 1)):
        for places, lent_store in product((0, records - 1, records, records + 1), (0, max(0, store - 1), store, store + 1, 65536)):
            yield run(octets, lent=(places, lent_store))
            yield run(octets, *edits, lent=(places, lent_store))
    for fault in FAULTS:
        yield run(top(fault), *edits, lent=(0, 0))
        yield run(top(item(0x21, fault)), *edits)
    for octets in (b"", b"\x03", top() + b"\x00", bytes(65536), top(item(0x01, b"a" * 32761))):
        yield run(octets, *edits, lent=(0, 0))
    table = item(0x04, entry(0x01, b"radio" * 51))
    for uses, rest in ((128, 119), (128, 120), (128, 121), (129, 0), (257, 0), (257, 1), (258, 0), (32000, 0)):
        whole = top(table, item(0x01, b"\x01" * uses + b"a" * rest))
        for places, store in ((2, 65536), (1, 65536), (2, 32759), (2, 32760), (2, 32761)):
            yield run(whole, edit_t(1, b"radio"), edit_d(1), lent=(places, store))


def languages():
    """0x06: where it may be put in, what may be put in before it, twice, below another element; as a text."""
    language, octets = item(0x06, b"en"), top(item(0x82, b"o"), item(0x06, b"de"), NAME, item(0x01, b"c"))
    without = top(item(0x82, b"o"), item(0x07), NAME, item(0x01, b"c"))
    for element in (language, item(0x06), item(0x06, b"\x01"), item(0x06, b"\xff"), item(0x06, b"en", 1), item(0x06, b"en", 2), item(0x34), NAME, item(0x04),
                    item(0x04, entry(1)), item(0x05)):
        for place in range(4):
            for parent in (0, 1, 2, 3, 4):
                yield run(octets, edit_i(parent, place, element))
                yield run(without, edit_i(parent, place, element))
            yield run(octets, edit_d(2), edit_i(0, place, element), edit_i(0, 0, NAME), edit_i(0, 1, language))
            yield run(top(tag=0x02), edit_i(0, 0, NAME), edit_i(0, place, element), edit_t(1, b"fr"), edit_i(0, 0, item(0x11)))


# ---- Elements to put in --------------------------------------------------------------------------------

def element_tags():
    """Every tag with a body of items and others, in the top and in an element, before and behind another; in each length form."""
    octets = top(item(0x20, item(0x11)))
    for tag in range(0x100):
        for body in (b"", b"\x80\x00", b"\x00", b"\x01\x01t"):
            yield run(octets, edit_i(0, 0, item(tag, body)))
            yield run(octets, edit_i(1, 1, item(tag, body)))
    for element, form in product([0x06, 0x34] + HOLDERS, (0, 1, 2)):
        for size in (0, 1, 7, 252, 253, 254, 255):
            body = b"a" * size if element in (0x06, 0x34) else item(0x01, b"a" * size, form) if element not in SHOWN else b"\x90\x01a" * size
            yield run(top(), edit_i(0, 0, item(element, body, form)))
    for octets in each("10FE|10FE00|10FE0000|10FF0000|10FF000000|10FF000001|10FF000002 0100|10FE0002 0100|10FD|10FEFFFF|10FFFFFFFF|10FF000002 010000"):
        yield run(top(), edit_i(0, 0, octets))


def element_faults():
    """Each fault and each good item in an element that is put in, at several depths."""
    for inner in FAULTS + GOOD:
        for tag in (0x20, 0x16, 0x29):
            yield run(top(item(0x21)), edit_i(0, 0, item(tag, inner)), edit_i(1, 0, item(0x21, item(tag, inner))))
    for first, second in product(GOOD, FAULTS):
        yield run(top(item(0x21)), edit_i(0, 1, item(0x20, first + second)), edit_i(0, 0, item(0x20, second + first)))
    parts = each("80020001|90013F|0403010174|0602656E|1000|0700|340170|010163")
    for a, b in product(parts, repeat=2):
        yield run(top(item(0x21)), edit_i(1, 0, item(0x21, a + b)), edit_i(0, 0, item(0x20, b + a + b)))


def element_depths():
    """Chains of elements under parents down to depth 16, with items of every kind at the end."""
    def chain(length, inner):
        body = inner
        for _ in range(length):
            body = item(0x20, body)
        return body
    inners = each("|80020000|9000|010178|340178|1000|0700|7F021000|0600")
    for depth, length in product((1, 13, 14, 15, 16), (1, 2, 3, 4, 14, 15, 16)):
        if depth + length in (15, 16, 17, 18):
            for inner in inners:
                yield run(nest(depth), edit_i(depth - 1, 0, chain(length, inner)))
                yield run(nest(depth, item(0x01, b"c")), edit_i(depth - 1, 0, chain(length, inner)), edit_i(depth - 1, 1, NAME), edit_t(depth, b"x"))


def places_among_brothers():
    """Each place among children of all kinds, with and without attributes and CDATA, with children of children, and unknown ones, which have no place."""
    parts = (item(0x82, b"o"), item(0x83, b"s")), (NAME, item(0x34, b"1"), item(0x20, NAME + item(0x11) + item(0x01))), (item(0x01, b"c"),)
    for attributes, children, cdata in product((0, 1, 2), (0, 1, 2, 3), (0, 1)):
        for unknown in (b"", item(0x07, b"?")):
            inner = b"".join(parts[0][:attributes]) + unknown + unknown.join(parts[1][:children]) + unknown + b"".join(parts[2][:cdata])
            for place in range(children + 3):
                yield run(top(inner), edit_i(0, place, item(0x12)))
                yield run(top(inner), edit_i(0, place, item(0x1C, item(0x83, b"\x02") + NAME)), edit_i(0, place, item(0x35, b"2")), edit_d(1 + attributes))
            yield run(top(NAME, item(0x21, item(0x80, b"\x00\x01") + NAME), tag=0x02), *(edit_i(3, place, item(0x20, NAME)) for place in (2, 1, 0, 3, 5, 2)))


def unknown_inside():
    """Unknown items in what is put in: they have no record, and still obey the order and the depth; octets up to 32,768 and above that mean little."""
    for parts in each("9000|9000 9000|0700|0700 1000|1000 0700|0700 0101 63|8000 8000|0500|0101 63 0700|1000 9000|07FE0001 3F|7F00 8000|0702 0200"):
        yield run(top(), edit_i(0, 0, item(0x33, parts)), edit_i(0, 0, item(0x20, item(0x33, parts))))
    for size in (32000, 32755, 32759, 32760, 32761, 32764, 32765, 32766, 65520):
        for unknown in (item(0x90, bytes(size)), item(0x07, bytes(size))):
            yield run(top(NAME), edit_i(0, 1, item(0x33, unknown)), edit_t(3, b"x"))
    for count in (16382, 16383, 32760):
        many = item(0x20, b"\x90\x00" * count)
        yield run(top(), edit_i(0, 0, many), edit_i(0, 0, many), lent=(3, 0))


# ---- Texts ---------------------------------------------------------------------------------------------

def text_octets():
    """Each octet and the borders of UTF-8 in each kind of text."""
    octets = top(item(0x82, b"o"), item(0x06, b"en"), item(0x16, item(0x80, b"l") + item(0x01, b"c")))
    samples = [bytes([octet]) for octet in range(256)]
    for code in (0x7F, 0x80, 0x7FF, 0x800, 0xD7FF, 0xD800, 0xDFFF, 0xE000, 0xF8FF, 0xF900, 0xFFFD, 0xFFFF, 0x10000, 0x10FFFF):
        good = chr(code).encode("utf-8", "surrogatepass")
        samples += [good, good[:-1], b"abcdefg" + good, good + b"\x80"]
    samples += each("C080|E09FBF|F08FBFBF|F4908080|F888808080|C3|C328|0A0D09|7F")
    for sample in samples:
        yield run(octets, *(edit_t(record, sample) for record in range(6)))
    table = item(0x04, entry(1, b"tok") + entry(0x13))
    tokens = top(item(0x82, b"\x01\x13"), table, item(0x06, b"\x01"), item(0x10, item(0x80, b"\x13") + item(0x01, b"\x01\x01")))  # 6 records, 12 octets
    for record, token in product(range(6), TOKEN_TAGS):
        yield run(tokens, edit_t(record, bytes([token])), edit_i(0, 1, item(0x10, item(0x01, bytes([token])))))
    for record in range(6):
        yield run(tokens, edit_t(record, b"tok"), edit_d(record), lent=(6, 12))


def text_lengths():
    """Shown texts at and around their limits, replaced and put in; other texts of the same element have no limit."""
    for tag, limit in SHOWN.items():
        for count in (0, limit - 1, limit, limit + 1):
            for text in shown_texts(count) if count else [""]:
                text = text.encode()
                yield run(top(item(tag, item(0x80, b"en") + item(0x01, b"a"))), edit_t(3, text), edit_t(2, text))
                yield run(top(NAME), edit_i(0, 0, item(tag, item(0x01, text))), edit_i(0, 0, item(tag, item(0x16, item(0x01, text)))))


# ---- Sizes ---------------------------------------------------------------------------------------------

def headers_grow():
    """A text that makes the bodies of several elements around it pass 253 octets, up and down; an element that does, put in and removed."""
    for depth in (1, 2, 3, 5, 16):
        for size in range(254 - 4 * depth, 258):
            text = b"a" * size
            yield run(nest(depth, item(0x01, b"c")), edit_t(depth, text))
            yield run(nest(depth, item(0x01, b"c" * 300)), edit_t(depth, text))
            if depth < 16:
                yield run(nest(depth, item(0x16, item(0x01, b"c" * 20)) + item(0x01, b"a" * (size - 24))), edit_i(depth - 1, 1, NAME))
                yield run(nest(depth, NAME + item(0x01, b"a" * (size - 6))), edit_d(depth))
                yield run(nest(depth, item(0x18)), edit_i(depth - 1, 1, item(0x18, item(0x80, text))), edit_d(depth))
    for size in range(238, 257):
        two = top(item(0x20, item(0x01, b"a" * size)), item(0x21, item(0x01, b"b" * size)))
        yield run(two, edit_t(2, b"a" * (size + 1)), edit_t(4, b"b" * (size - 1)))
        yield run(two, edit_t(2, b"a" * 254), edit_t(2, b"a" * 253), edit_t(4, b""), edit_t(4, b"b" * 254))
    for size in (65532, 65533):
        yield run(top(item(0x34)), edit_i(0, 0, item(0x35, bytes(size - 4))), edit_t(0, bytes(size)))


def whole_limit():
    """Normal forms of 32,768 octets and one more, by each edit; a text that a header's two octets more push over it."""
    for size in (32758, 32759, 32760, 32761, 32767, 65535):
        yield run(top(item(0x01, b"c")), edit_t(1, b"a" * size), lent=(2, 65536))
        yield run(top(item(0x01, b"c")), edit_t(1, b"a" * size), lent=(2, size - 1))
        yield run(top(), edit_i(0, 0, item(0x34, bytes(size - 5))), lent=(2, 65536))
        yield run(top(), edit_i(0, 0, item(0x35, bytes(min(size, 65530)))), lent=(2, 65536))
    for size, lent in product((32763, 32764, 32765), ((1, 0), (2, 0), (2, 65536))):
        yield run(top(), edit_i(0, 0, item(0x34, bytes(size))), lent=lent)
    for depth in (1, 2, 4):
        for rest in range(5 + 4 * depth):
            inner = item(0x01, b"c" * (253 - 2 * depth))
            body = nest(depth, inner)[2:]
            octets = top(item(0x34, bytes(OBJECT_LIMIT - 8 - len(body) - rest)), body)
            for size in (252 - 2 * depth, 254 - 2 * depth, 254):
                yield run(octets, edit_t(depth + 1, b"c" * size))
    full = top(item(0x01, b"a" * 32760))
    for edit in (edit_i(0, 0, item(0x10)), edit_i(0, 0, item(0x34)), edit_i(0, 0, item(0x06)), edit_t(1, b"a" * 32760), edit_t(1, b"b" * 32758), edit_d(1)):
        yield run(full, edit, edit_i(0, 0, item(0x10)), edit_t(1, b""), edit_i(0, 0, item(0x11)))


def memory_full():
    """Places and store exactly full, freed and used again, one short."""
    octets = top(item(0x82, b"abc"), NAME, NAME, item(0x34, b"12"))  # 7 records, 9 octets of store
    edits = [edit_d(1), edit_d(2), edit_d(3), edit_d(6), edit_t(1, b""), edit_t(1, b"abcd"), edit_t(3, b"P"), edit_t(3, b"PMs"), edit_t(5, b""),
             edit_i(0, 0, NAME), edit_i(0, 2, item(0x10)), edit_i(0, 3, item(0x35, b"3")), edit_i(2, 0, item(0x34, b"4")), edit_i(0, 0, item(0x20, NAME * 2))]
    for first, second in product(edits, repeat=2):
        for lent in ((7, 9), (8, 9), (7, 10), (9, 11)):
            yield run(octets, first, second, lent=lent)
    for places, store in product(range(7, 14), range(9, 16)):
        yield run(octets, *edits, lent=(places, store))
        yield run(octets, *edits[::-1], lent=(places, store))
        yield run(octets, *(edits[9:10] * 4), *(edits[1:2] * 3), *(edits[9:10] * 4), lent=(places, store))
    yield run(top(), *[edit_i(0, 0, NAME)] * 127, *[edit_d(1)] * 128, lent=(255, 254))
    yield run(top(), *[edit_i(0, 0, NAME)] * 128, *[edit_d(2)] * 127, lent=(255, 254))
    grow = [edit_t(1, b"a" * size) for size in range(0, 254)]
    yield run(top(item(0x01)), *grow, edit_t(1, b"a" * 254), lent=(2, 253))
    yield run(top(item(0x01)), *grow[::-1], edit_d(1), lent=(2, 253))
    days = top(*[item(0x1C, item(0x80, b"crid://%03d" % day) + NAME + item(0x1B, item(0x01, b"d" * 60))) for day in range(300)])
    yield run(days, *(edit_t(6 * day + 6, b"e" * (60 + day)) for day in range(0, 250, 5)), lent=(1801, 22000))
    yield run(days, *(edit_d(6 * day + 1) for day in range(49, -1, -1)), lent=(1801, 21000))


def thousands():
    """As many records as an object can have, and more by defaults that are put in."""
    many = top(b"\x10\x00" * 16382)
    yield run(many, edit_d(1), edit_i(0, 16381, item(0x11)), edit_i(0, 0, item(0x12)), edit_d(16382), edit_d(16382), lent=(16383, 0))
    both = item(0x83, DEFAULT) + item(0x84, DEFAULT)
    crowds = [edit_i(0, place, item(0x20, item(0x1C, both) * 4000)) for place in (0, 1, 1, 0)]
    larger = item(0x20, item(0x1C, both) * 4095)
    yield run(top(), *crowds, edit_i(0, 1, larger), edit_d(65535), edit_d(48000), edit_t(48000, b""))
    yield run(top(), *crowds[:3], edit_i(0, 1, larger), edit_d(12001), edit_d(1), edit_i(0, 1, larger), edit_d(49000))
    for lent in ((48004, 32000), (48005, 32000), (48005, 31999)):
        yield run(top(), *crowds, lent=lent)


# ---- Defaults ------------------------------------------------------------------------------------------

def defaults_edited():
    """A default keeps its record and its octet of store, and adds nothing to its element; taken in, put in, removed, beside others."""
    for element, tag in DEFAULTS:
        for octet in (0, 1, 2):
            attribute = item(tag, bytes([octet]))
            octets = top(item(element, attribute + NAME))
            for lent in ((5, 3), (4, 3), (5, 2)):
                yield run(octets, lent=lent)
            for record in range(6):
                yield run(octets, edit_t(record, b"x"), edit_d(record), edit_t(record, b"x"), edit_i(record, 0, item(0x11)), lent=(6, 3))
            for lent in ((6, 4), (5, 4), (6, 3)):
                yield run(top(NAME, item(0x11)), edit_i(0, 0, item(element, attribute)), lent=lent)
            yield run(octets, *(edit_i(1, 1, item(element, inner)) for inner in (attribute * 2, item(tag, b""), item(tag, b"\x01\x01"))))
            yield run(octets, edit_i(0, 0, item(element, attribute, 1)), edit_i(0, 2, item(element, item(tag, bytes([octet]), 2))))
            for size in range(236, 256):
                yield run(top(item(element, attribute + item(0x01, b"c" * 9))), edit_t(3, b"c" * size))
                yield run(top(item(element, attribute + item(0x01, b"c" * size))), edit_d(2))
    both = item(0x84, DEFAULT) + item(0x83, DEFAULT)
    for edit in (edit_t(4, b"a" * 32758), edit_t(4, b"a" * 32759), edit_d(2), edit_i(1, 0, item(0x10)), edit_i(0, 0, item(0x1C, both))):
        yield run(top(item(0x1C, both), item(0x01, b"a" * 32740)), edit_t(4, b"a" * 32758), edit, edit_d(1), edit_i(0, 0, item(0x1C, both)))


def edit_edge_cases():
    for group in (each_kind, annex_c, attribute_order, text_refusals, place_refusals, not_taken_in, languages, element_tags, element_faults, element_depths,
                  places_among_brothers, unknown_inside, text_octets, text_lengths, headers_grow, whole_limit, memory_full, thousands, defaults_edited):
        yield from group()
