"""The fixed edge cases of letter G: each row of annex A, each item beside them, where the first offender stands, what never offends, refusals at once."""
from itertools import product

from edges import ANNEX_C, FAULTS, GOOD, each, entry, nest, top
from edit_edges import NAME, VALUES
from gate import DATA_TYPES, GI, NO_DATA_TYPES, PI, ROWS, SI, TOPS
from make_cases import ATTRIBUTES, COORDINATES, DEFAULT, DEFAULTS, HOLDERS, OBJECT_LIMIT, Raw, case_g, item

EVERY = *DATA_TYPES, *NO_DATA_TYPES
KEYWORDS = item(0x16)  # in no table
ELEMENTS = HOLDERS + COORDINATES


def asked(octets, data_types=EVERY, places=65535):
    for data_type in data_types:
        yield case_g(data_type, places, octets)


def chain(path, body=b"", form=0):
    """Elements of these tags, each in the one before it; `body` is the last one's."""
    for tag in reversed(path):
        body = item(tag, body, form)
    return body


def attribute_item(element, tag, form=0):
    """An attribute with a good value; where annex E has none of that tag, any octets."""
    return item(tag, VALUES.get(ATTRIBUTES[element].get(tag), b"?"), form)


def all_rows():
    """Each row with its data type: the path of its element, and the tags of its attributes."""
    return ((data_type, path, attributes) for data_type, rows in ROWS.items() for path, attributes in rows)


def full_object(data_type):
    """An object that has every row of a data type's tables, its items as Raw."""
    found = {}
    for path, attributes in ROWS[data_type]:
        raw = found.setdefault(tuple(path), Raw(path[-1], []))
        held = {part.tag for part in raw.body}
        raw.body += [Raw(tag, VALUES[ATTRIBUTES[path[-1]][tag]]) for tag in attributes if tag not in held]
        if len(path) > 1 and not any(raw is part for part in found[tuple(path[:-1])].body):
            found[tuple(path[:-1])].body.append(raw)
    return found[TOPS[data_type],]


# ---- Rows and what isn't one ---------------------------------------------------------------------------

def each_row():
    """Alone, with each of its attributes, with all of them in both orders, with CDATA; asked with every data type."""
    for _, path, attributes in all_rows():
        items = [attribute_item(path[-1], tag) for tag in attributes]
        for body in (b"", *items, b"".join(items), b"".join(reversed(items)), b"".join(items) + item(0x01, b"c")):
            yield from asked(chain(path, body))


def other_elements():
    """Each known element in the element of each row; before and behind one that is allowed."""
    for (data_type, path, _), tag in product(all_rows(), ELEMENTS):
        yield from asked(chain(path, item(tag)), [data_type])
    for (data_type, path, _), tag in product(all_rows(), ELEMENTS):
        if len(path) > 1:
            yield from asked(chain(path[:-1], item(path[-1]) + item(tag)), [data_type])
            yield from asked(chain(path[:-1], item(tag) + item(path[-1])), [data_type])
    for tag, inner in product(ELEMENTS, (b"", item(0x01, b"c"))):
        for above in TOPS.values():
            yield from asked(chain([above, tag], inner))


def other_attributes():
    """The first sixteen attributes, known or not, of the element of each row; before and behind one that is allowed."""
    for (data_type, path, attributes), tag in product(all_rows(), range(0x80, 0x90)):
        value = attribute_item(path[-1], tag)
        yield from asked(chain(path, value), [data_type])
        for allowed in attributes:
            if allowed != tag:
                yield from asked(chain(path, attribute_item(path[-1], allowed) + value), [data_type])
                yield from asked(chain(path, value + attribute_item(path[-1], allowed)), [data_type])


def data_types():
    """Every number of a data type with each top, empty and with all rows; and whatever places are named."""
    for above in (0x02, 0x03):
        yield from asked(item(above), range(256))
    for data_type in DATA_TYPES:
        yield from asked(full_object(data_type).octets(), range(256))
        for places in (0, 1, 2, 255, 256):
            yield from asked(full_object(data_type).octets(), places=places)
            yield from asked(item(0x02, KEYWORDS), places=places)


# ---- Where the first offender stands -------------------------------------------------------------------

def everywhere():
    """An offending element at each place of an object that has all rows, alone and before another; before an attribute it is refused by 6."""
    for data_type, stray in product(DATA_TYPES, (Raw(0x16, []), Raw(0x36, [Raw(0x16, [])], 1), Raw(0x34, b"1", 2))):
        for index, body in enumerate(full_object(data_type).lists()):
            for place in range(len(body) + 1):
                raw = full_object(data_type)
                list(raw.lists())[index].insert(place, stray.copy())
                yield from asked(raw.octets(), [data_type])
                raw.body.append(Raw(0x18, b""))
                yield from asked(raw.octets(), [data_type])


def length_forms():
    """Each of the three forms of the lengths around an offender, before it, and of itself; bodies at the border of two forms."""
    for (data_type, path, attributes), around, own in product(all_rows(), (0, 1, 2), (0, 1, 2)):
        yield from asked(chain(path, item(0x07, KEYWORDS, own), around), [data_type])
        for before in [b""] + [attribute_item(path[-1], tag, form) for tag in attributes[:1] for form in (0, 1, 2)]:
            yield from asked(chain(path, before + item(0x16, item(0x01, b"c"), own), around), [data_type])
    for form, size in product((0, 1, 2), (0, 252, 253, 254, 255, 256)):
        unknown = item(0x90, bytes(size), form), item(0x07, bytes(size), form)
        for before in (*unknown, item(0x04, b"", form), item(0x06, b"a" * size, form)):
            yield from asked(top(before, KEYWORDS))
        for before in unknown:
            yield from asked(top(item(0x26, before + KEYWORDS)))
        yield from asked(item(0x03, item(0x26, item(0x80, bytes(size), form)) + item(0x28, item(0x80, b"\0\1", form), form), form))
        yield from asked(item(0x02, item(0x21, item(0x1C, item(0x12, item(0x01, b"a" * min(size, 128), form), form) + KEYWORDS, form), form), form))


def two_offenders():
    """The first in reading order, which isn't that of tags or of depths."""
    strays = item(0x81, VALUES["time"]), item(0x82, b"o"), item(0x83, b"s"), KEYWORDS, item(0x18, item(0x80, b"u")), item(0x34), item(0x28, KEYWORDS)
    for first, second in product(strays, repeat=2):
        yield from asked(top(first, second))
        yield from asked(top(item(0x26, item(0x10, KEYWORDS) + first), second))
        yield from asked(top(first, item(0x26, second), second))
    for first, second in product((0x80, 0x82), repeat=2):
        yield from asked(chain([0x02, 0x21, 0x1C], attribute_item(0x1C, first) + attribute_item(0x1C, 0x81) + attribute_item(0x1C, second)))


# ---- What never offends --------------------------------------------------------------------------------

def unknown_items():
    """Offenders, tops and faults inside unknown elements, and octets in unknown attributes that look like them; alone and beside an offender."""
    insides = (KEYWORDS, item(0x21, KEYWORDS), item(0x02), item(0x16, item(0x80, b"en")), b"\x00", b"\x16", b"\x16\x09", item(0x80, b""), item(0x01) * 2)
    for (data_type, path, _), inside in product(all_rows(), insides):
        for tag in (0x05, 0x15, 0x7F):
            yield from asked(chain(path, item(tag, inside)), [data_type])
        yield from asked(chain(path, item(0xFF, inside)), [data_type])
        yield from asked(chain(path, item(0x88, inside) + item(0x07, inside) + KEYWORDS), [data_type])
        yield from asked(chain(path, item(0x07, KEYWORDS)), [data_type])
    for data_type, tag in product(DATA_TYPES, range(0x100)):
        yield from asked(item(TOPS[data_type], item(tag)), [data_type])
        yield from asked(item(TOPS[data_type], item(0x07, item(tag))), [data_type])


def table_and_language():
    """0x04 and 0x06 under each top, alone and together, before what is allowed and what isn't; their names elsewhere are refused by 4."""
    table = item(0x04, entry(1, b"tok") + entry(0x13))
    tables = b"", item(0x04), table, item(0x04, entry(1, b"tok"), 2)
    languages = b"", item(0x06), item(0x06, b"en"), item(0x06, b"\x01"), item(0x06, b"e", 1)
    rests = b"", item(0x21), item(0x20), item(0x26), item(0x28), KEYWORDS, item(0x07, KEYWORDS), item(0x01, b"\x01"), item(0x01)
    for above, before, language, rest in product((0x02, 0x03), tables, languages, rests):
        yield from asked(item(above, before + language + rest), DATA_TYPES)
    for data_type, path, _ in all_rows():
        for inner in (item(0x01, b"\x01"), item(0x01), item(0x01, b"c", 1)):
            yield from asked(item(path[0], table + (chain(path[1:], inner) if path[1:] else inner)), [data_type])
        for inner in (table, item(0x04), item(0x06, b"en")):
            yield from asked(chain(path, inner + KEYWORDS), [data_type])


def defaults():
    """Defaults are items as any other: each alone and in both orders, in each element that may hold them, allowed or not."""
    for element, tag in DEFAULTS:
        for octet, path in product((DEFAULT, b"\x00", b"\x02"), ([0x02, 0x21, 0x1C], [0x02, 0x20, 0x23], [0x02, 0x21], [0x02], [0x03, 0x28])):
            yield from asked(chain([*path, element], item(tag, octet)))
            yield from asked(chain([*path, element], item(tag, octet) + KEYWORDS))
    both = item(0x84, DEFAULT), item(0x83, DEFAULT)
    for attributes in (b"".join(both), b"".join(reversed(both)), both[0] * 2):
        yield from asked(chain([0x02, 0x21, 0x1C], attributes))
        yield from asked(chain([0x02, 0x21, 0x1C], attributes + NAME))


def bearers():
    """Both tags of a bearer under each element that annex D names, with its id, its url, and in a geolocation's place."""
    for tag, path in product((0x29, 0x2D), ([0x03, 0x28], [0x03, 0x26, 0x28], [0x02, 0x21, 0x1C, 0x19], [0x02, 0x21, 0x1C, 0x36])):
        for inner in (b"", attribute_item(tag, 0x80), attribute_item(tag, 0x82), attribute_item(tag, 0x81), item(0x32)):
            yield from asked(chain([*path, tag], inner))


# ---- Refusals at once ----------------------------------------------------------------------------------

def refused_before():
    """1 to 13 of any item, before an offender and behind it, with any data type."""
    offenders = KEYWORDS, item(0x82, b"o"), item(0x26, KEYWORDS), item(0x21)
    for fault in FAULTS:
        yield from asked(top(fault))
        for offender in offenders:
            yield from asked(top(offender, fault))
            yield from asked(top(fault, offender))
        yield from asked(top(KEYWORDS, item(0x26, fault)))
        yield from asked(item(0x02, KEYWORDS + item(0x21, fault)))
        for good in GOOD:
            yield from asked(top(good, fault), [SI])
            yield from asked(top(good, KEYWORDS), [SI])
    for octets in (b"", b"\x03", b"\x02\x01", b"\x04\x00", b"\x16\x00", top(KEYWORDS) + b"\x00", top(KEYWORDS + b"\x16"), bytes(65536)):
        yield from asked(octets)
    for attributes, table in product(each("820101|820101 800101|8001 01|820178"), each("|0400|0403010174|040101")):
        yield from asked(top(attributes, table, KEYWORDS))
    for text in (b"n" * 8, b"n" * 9, "é".encode() * 8, "é".encode() * 9):
        yield from asked(chain([0x03, 0x26, 0x10], item(0x01, text)))
        yield from asked(chain([0x03, 0x26], KEYWORDS + item(0x10, item(0x01, text))))


def limits():
    """Objects of 32,768 octets and one more with an offender last; as many records as fit; the deepest elements, all below an offender."""
    for total, last in product((OBJECT_LIMIT - 1, OBJECT_LIMIT, OBJECT_LIMIT + 1), (b"", KEYWORDS, item(0x28))):
        for tag in (0x06, 0x07):
            yield from asked(top(item(tag, b"a" * (total - 8 - len(last))), last), [SI])
    for many, last in product((b"\x26\x00", b"\x28\x00", b"\x16\x00"), (b"\x26\x00", b"\x16\x00", b"\x00\x00")):
        yield from asked(top(many * 16381 + last), [SI, PI], places=0)
    for data_type, tag in ((PI, 0x21), (GI, 0x20)):
        yield from asked(item(0x02, bytes([tag, 0]) * 16381 + KEYWORDS), [data_type])
    for depth, inner in product((2, 15, 16, 17), (b"", KEYWORDS)):
        yield from asked(nest(depth, inner))
        yield from asked(nest(depth, inner, 0x28))


def annex_c():
    """It has a programme with an id, which table A.3 lacks; the same without it, cut off, and with an octet changed."""
    basic = chain([0x02, 0x21], ANNEX_C[4:28] + item(0x1C, ANNEX_C[30:35] + ANNEX_C[64:]))
    for octets in (ANNEX_C, basic):
        yield from asked(octets)
        yield from (case for size in range(len(octets)) for case in asked(octets[:size], [PI]))
        for at, change in product(range(len(octets)), (0x01, 0x80, 0xFF)):
            yield from asked(octets[:at] + bytes([octets[at] ^ change]) + octets[at + 1:], [PI])


def gate_edge_cases():
    for group in (each_row, other_elements, other_attributes, data_types, everywhere, length_forms, two_offenders, unknown_items, table_and_language, defaults,
                  bearers, refused_before, limits, annex_c):
        yield from group()
