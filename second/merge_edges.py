"""The fixed edge cases of letter M: each key, each reason of 20 and 21, what isn't repeated, the order of children, memory that just does, refusals at once."""
from itertools import combinations_with_replacement, product

from edges import ANNEX_C, FAULTS, GOOD, each, entry, nest, top
from make_cases import (ATTRIBUTES, BEARER, COORDINATES, DEFAULT, DEFAULTS, ENUM, HOLDERS, NUMBER, PLAIN, SHORT_ID, TEXT, TIME, case_m, item)
from merge import BY_BEARERS, BY_TAG, KEYS, SERVICES, UNNAMED

PLENTY = 65535, 65536  # places and store
# Two values of each kind that differ, and the first of them in other octets where there are some.
VALUES = {TEXT: (b"t", b""), NUMBER: (b"\x01\x02", b"\x00\x00"), SHORT_ID: (b"\x01\x02\x03", b"\x01\x02\x04"), ENUM: (b"\x02", b"\x03"),
          PLAIN: (b"\x03", b"\x03\x00"), TIME: each("30D40000|30D41300 02"), BEARER: each("00C224|40E1CE15C224")}
FORMS = {TIME: bytes.fromhex("30D4100020"), BEARER: bytes.fromhex("A0C224")}
SHORT, LONG = item(0x10, item(0x01, b"PM")), item(0x12, item(0x01, b"The news"))
MERGING = [0x02, 0x03, *KEYS, *UNNAMED]  # elements that can become one


def merge(basic, advanced, services=SERVICES, lent=PLENTY):
    for way in services:
        yield case_m(way, *lent, basic, advanced)


def wrapped(tag, body):
    """An object in which an element of this tag has this body; the tops are objects themselves."""
    return item(tag, body) if tag < 0x04 else top(item(tag, body))


def attribute_bodies(tag):
    """No attribute, and each that annex E gives to an element, with two values."""
    return [b""] + [item(attribute, value) for attribute, kind in ATTRIBUTES[tag].items() for value in VALUES[kind]]


# ---- Keys ------------------------------------------------------------------------------------------------

def each_element():
    """Two elements of each tag, with each attribute, alone in the tops: whether they become one, and what of it."""
    for tag in HOLDERS:
        for first, second in product(attribute_bodies(tag), repeat=2):
            yield from merge(top(item(tag, first + SHORT)), top(item(tag, second + LONG)), SERVICES if tag in UNNAMED else [BY_TAG])
    for tag, first, second in product(COORDINATES, (b"", b"1", b"12"), (b"", b"1", b"12")):
        yield from merge(top(item(tag, first)), top(item(tag, second)), [BY_TAG])
    for first, second in product(HOLDERS + COORDINATES, repeat=2):
        yield from merge(top(item(first)), top(item(second)), [BY_TAG])


def each_twice():
    """Two brothers of each tag in one object, with the same key or not, in the top, below an element that merges, and below one that doesn't."""
    for tag in HOLDERS:
        values = attribute_bodies(tag) if tag in MERGING else attribute_bodies(tag)[:2]
        for first, second in combinations_with_replacement(values, 2):
            brothers = item(tag, first) + item(tag, second + SHORT)
            for inner in (brothers, item(0x21, brothers), item(0x16, brothers)):
                yield from merge(top(inner), top(), SERVICES if tag in UNNAMED else [BY_TAG])
                yield from merge(top(SHORT), top(inner), SERVICES if tag in UNNAMED else [BY_TAG])
    for tag in COORDINATES:
        yield from merge(top(item(tag, b"1") * 2), top(item(tag, b"1") * 2), [BY_TAG])


def apart():
    """One key twice, but under two parents; one key in elements of two tags; an unknown item that looks like a second one."""
    programme = item(0x1C, item(0x81, VALUES[SHORT_ID][0]))
    parents = [item(0x21, item(0x80, b"\0\1") + programme), item(0x21, programme), programme, item(0x16, programme), item(0x23, programme)]
    for first, second in product(parents, repeat=2):
        for advanced in (b"", programme, first, second):
            yield from merge(top(first, second, tag=0x02), top(advanced, tag=0x02), [BY_TAG])
    for tag in list(KEYS) + UNNAMED:
        for unknown in (item(0x07, item(tag)), item(0x90, item(tag)), item(0x7F, item(tag) * 2)):
            yield from merge(top(unknown, item(tag)), top(unknown, item(tag)))


def keys_in_other_forms():
    """Keys that mean the same in other octets: reserved bits, long lengths, and those that don't: an SId of another width, an ensemble."""
    bearers = each("00C224|80C224|20C224|A0C224|01C224|1000 00C224|00C225|40E1CE15C224|C0E1CE15C224|40E1CE14C224|50E1CE150000C224")
    for first, second in product(bearers, repeat=2):
        yield from merge(top(item(0x28, item(0x29, item(0x80, first) + SHORT))), top(item(0x28, item(0x29, item(0x80, second, 1) + LONG))))
    for tag, attribute in KEYS.items():
        value = VALUES[ATTRIBUTES[tag][attribute]][0]
        for forms in product((0, 1, 2), repeat=2):
            other = item(tag, item(0x90) + item(attribute, value, forms[1]) + SHORT, forms[1])
            yield from merge(top(item(tag, item(attribute, value, forms[0]))), top(other), [BY_TAG])
    for first, second in product(each("|E1CE15|E1CE15 00|00E1CE15"), repeat=2):
        yield from merge(top(item(0x26, item(0x80, first) + SHORT)), top(item(0x26, item(0x80, second) + LONG)), [BY_TAG])


def sets_of_bearers():
    """Services with the same and other bearers, in any order, some twice, some without an id, one below another element; in an ensemble and in the top."""
    ids = each("00C221|00C222|00C223")
    bearer = [item(0x29, item(0x80, one)) for one in ids] + [item(0x29), item(0x29, item(0x82, b"u"))]
    lists = [[], [0], [1], [0, 1], [1, 0], [0, 0], [0, 1, 2], [2, 0, 1], [1, 1, 0], [3], [0, 3], [3, 4], [4]]
    inside = [b"".join(bearer[one] for one in some) for some in lists] + [item(0x16, bearer[0]), item(0x2D, item(0x80, ids[0]))]
    for first, second in product(inside, repeat=2):
        one, other = item(0x28, first + SHORT), item(0x28, LONG + second)
        yield from merge(top(one), top(other))
        yield from merge(top(item(0x26, one)), top(item(0x26, other)))
        yield from merge(top(one, other), top())
        yield from merge(top(), top(item(0x26, other + one)))
        yield from merge(top(one, item(0x28, bearer[2])), top(item(0x28, bearer[2] + SHORT), other))
        yield from merge(top(item(0x16, one)), top(item(0x16, other)), [BY_BEARERS])


# ---- Refusal 20 ------------------------------------------------------------------------------------------

def values_at_odds():
    """Each attribute of the elements that merge: none, one value, the same in another form, another; beside another attribute; in a pair below a pair."""
    for tag in MERGING:
        for attribute, kind in ATTRIBUTES[tag].items():
            values = [b""] + [item(attribute, value) for value in VALUES[kind]] + [item(attribute, VALUES[kind][0], 2)]
            values += [item(attribute, FORMS[kind])] if kind in FORMS else []
            values += [item(attribute, DEFAULT)] if kind == ENUM else []
            for first, second in product(values, repeat=2):
                yield from merge(wrapped(tag, first), wrapped(tag, second), [BY_TAG])
                yield from merge(wrapped(tag, item(0x26, item(tag, first) if tag > 0x03 else first)), wrapped(tag, item(0x26, second)), [BY_TAG])


def defaults():
    """Each default in one, both or none, beside other values; in elements that merge and in ones that are repeated or aren't."""
    for element, tag in DEFAULTS:
        values = [b""] + [item(tag, bytes([octet])) for octet in (0, 1, 2)]
        for first, second in product(values, repeat=2):
            yield from merge(top(item(element, first)), top(item(element, second + SHORT)), [BY_TAG])
            yield from merge(top(item(0x26, item(element, SHORT + item(0x14, first)))), top(item(0x26, item(element, item(0x14, second)))), [BY_TAG])
            yield from merge(top(item(element, first)), top(item(element, second)), [BY_TAG], (2, 0))
            yield from merge(top(item(element, first)), top(item(element, second)), [BY_TAG], (3, 1))
    both = item(0x83, DEFAULT) + item(0x84, b"\x02"), item(0x84, DEFAULT) + item(0x83, b"\x02"), item(0x83, DEFAULT) + item(0x84, DEFAULT)
    for first, second in product(both, repeat=2):
        yield from merge(top(item(0x1C, first)), top(item(0x1C, second)), [BY_TAG])


def cdata_at_odds():
    """CDATA, empty too, in one or both: of the tops, of elements that merge, of ones that don't, of ones below these."""
    texts = [b"", item(0x01), item(0x01, b"c"), item(0x01, b"c", 1), item(0x01, b"d")]
    for tag, (first, second) in product([0x02, *HOLDERS], product(texts, repeat=2)):
        yield from merge(wrapped(tag, first), wrapped(tag, second), [BY_TAG])
    for first, second in product(texts, repeat=2):
        for tag in (0x16, 0x1C, 0x28):
            yield from merge(top(item(0x26, item(tag, SHORT + first))), top(item(0x26, item(tag, SHORT + second))))
            yield from merge(top(item(0x16, item(tag, first))), top(item(0x16, item(tag, second))))


def languages():
    """0x06 in one, both or none, empty, in tokens, with others behind it."""
    forms = [b"", item(0x06), item(0x06, b"en"), item(0x06, b"en", 1), item(0x06, b"de"), item(0x04, entry(1, b"en")) + item(0x06, b"\x01"),
             item(0x04, entry(2, b"e") + entry(3)) + item(0x06, b"\x02\x03n"), item(0x04, entry(1, b"d")) + item(0x06, b"\x01e")]
    for (first, second), tag in product(product(forms, repeat=2), (0x02, 0x03)):
        for rest in (b"", SHORT + LONG, item(0x01, b"c")):
            yield from merge(top(first, tag=tag), top(second, rest, tag=tag), [BY_TAG])
            yield from merge(top(first, rest, tag=tag), top(second, tag=tag), [BY_TAG])
        yield from merge(top(first, LONG, tag=tag), top(second, SHORT, LONG, tag=tag), [BY_TAG])


def tops():
    """Both tops, with what both can hold: the same, nothing, or what is at odds or twice anyway."""
    insides = b"", SHORT, item(0x01, b"c"), item(0x06, b"en"), item(0x28) * 2, item(0x1C, item(0x83, b"\x02"))
    for tags, first, second in product(product((0x02, 0x03), repeat=2), insides, insides):
        yield from merge(item(tags[0], first), item(tags[1], second))


# ---- What isn't repeated, and the order of children ------------------------------------------------------

def repeated():
    """Children that mean the same in other octets, once or more often in either; the tops' own, and those of elements that merge."""
    genres = [item(0x14, item(0x80, b"\x03")), item(0x14, item(0x81, DEFAULT) + item(0x80, b"\x03", 1)), item(0x14, item(0x80, b"\x03") + item(0x81, b"\x02")),
              item(0x14, item(0x90) + item(0x80, b"\x03") + item(0x07, SHORT)), item(0x14)]
    for first, second in product(genres, repeat=2):
        for times in product((0, 1, 2), repeat=2):
            yield from merge(top(first * times[0]), top(second * times[1]), [BY_TAG])
        for tag in (0x1C, 0x28, 0x19, 0x16):
            yield from merge(top(item(tag, SHORT + first)), top(item(tag, second + SHORT)), [BY_TAG])
    words = [b"", item(0x04, entry(1, b"ne")), item(0x04, entry(2, b"news"))]
    texts = [b"news", b"\x01ws", b"\x02"]
    for first, second in product(range(3), repeat=2):
        for tag in (0x16, 0x33):
            yield from merge(top(words[first], item(tag, item(0x01, texts[first]))), top(words[second], item(tag, item(0x01, texts[second]))), [BY_TAG])
        yield from merge(top(words[first], item(0x18, item(0x80, texts[first]))), top(words[second], item(0x18, item(0x80, texts[second]))), [BY_TAG])
        yield from merge(top(item(0x82, texts[first]), words[first]), top(item(0x82, texts[second]), words[second]), [BY_TAG])
    names = SHORT + LONG
    nested = [item(0x19, names), item(0x19, LONG + SHORT), item(0x19, SHORT), item(0x19, item(0x19, names)), item(0x19, names + item(0x01))]
    for first, second in product(nested, repeat=2):
        yield from merge(top(first), top(second), [BY_TAG])
        yield from merge(top(item(0x1C, first + SHORT)), top(item(0x1C, SHORT + second)), [BY_TAG])


def orders():
    """Children that merge and ones that don't, in each order in both; a child of Advanced that means what Basic's partner became, but not what it was."""
    parts = [SHORT, item(0x1C, item(0x81, b"\0\0\1")), item(0x1C, item(0x81, b"\0\0\2") + LONG), item(0x16, item(0x01, b"k"))]
    others = [LONG, item(0x1C, item(0x81, b"\0\0\2") + SHORT), item(0x1C, item(0x81, b"\0\0\3")), item(0x16, item(0x01, b"k"))]
    chosen = [(0, 1, 2, 3), (3, 2, 1, 0), (2, 0), (1, 3), (2,), (0, 2, 1)]
    for first, second in product(chosen, repeat=2):
        ours, theirs = b"".join(parts[one] for one in first), b"".join(others[one] for one in second)
        yield from merge(top(ours), top(theirs), [BY_TAG])
        yield from merge(top(item(0x06, b"en"), item(0x21, ours), item(0x01, b"c")), top(item(0x21, theirs), SHORT), [BY_TAG])
    became = item(0x1C, SHORT + LONG)
    yield from merge(top(item(0x1C, SHORT)), top(item(0x1C, LONG), item(0x16, became)), [BY_TAG])
    yield from merge(top(item(0x16, became), item(0x1C, SHORT)), top(item(0x1C, LONG), item(0x16, became)), [BY_TAG])
    yield from merge(top(item(0x1C, SHORT)), top(item(0x1C, SHORT + LONG + LONG)), [BY_TAG])


def depths():
    """Chains of elements that merge down to depth 16, with something in one, the other or both at the end; chains that don't merge from some depth on."""
    inners = each("|820178|1000|010178|340178|1C00")
    for depth, tag in product((2, 3, 14, 15, 16), (0x20, 0x28, 0x1C, 0x16)):
        for first, second in product(inners, repeat=2):
            yield from merge(nest(depth, first, tag), nest(depth, second, tag), [BY_TAG])
    for depth, other in product((3, 8, 16), (3, 8, 16)):
        yield from merge(nest(depth, b"", 0x20), nest(other, b"", 0x20))
        yield from merge(nest(depth, b"", 0x28), nest(other, b"", 0x28))


# ---- Objects with themselves and with empty tops ---------------------------------------------------------

def with_themselves():
    """Good objects of every sort: with themselves, and with an empty top in either place, in each of its forms."""
    service = item(0x28, item(0x80, b"\0\1") + item(0x29, item(0x80, bytes.fromhex("00C224"))) + SHORT + LONG)
    ensemble = item(0x26, item(0x80, b"\xe1\xce\x15") + SHORT + service)
    objects = [ANNEX_C, top(), top(tag=0x02), top(ensemble), top(ensemble, item(0x26, service * 2))]
    objects += [top(item(0x80, b"\0\1"), item(0x06, b"en"), ensemble, service)]
    objects += [top(good) for good in GOOD] + [top(first, second) for first, second in product(GOOD, repeat=2)] + [top(item(0x1C, good)) for good in GOOD]
    for octets in objects:
        empty = octets[:1]
        yield from merge(octets, octets)
        for form in each("00|FE0000|FF000000|029000|020700|020400"):
            yield from merge(octets, empty + form)
            yield from merge(empty + form, octets)
    for at, change in product(range(len(ANNEX_C)), (0x01, 0x80, 0xFF)):
        changed = ANNEX_C[:at] + bytes([ANNEX_C[at] ^ change]) + ANNEX_C[at + 1:]
        yield from merge(ANNEX_C, changed, [BY_TAG])
        yield from merge(changed, ANNEX_C, [BY_TAG])
    for size in range(len(ANNEX_C)):
        yield from merge(ANNEX_C[:size], ANNEX_C, [BY_TAG])
        yield from merge(ANNEX_C, ANNEX_C[:size], [BY_TAG])


# ---- Refusals at once, and memory ------------------------------------------------------------------------

def refused_at_once():
    """1 to 13 of each before 20, 20 before 21, both before 14 and 15; 20 in a pair that has no part in the result, since a key is twice."""
    programmes = [item(0x1C, body) for body in (b"", item(0x83, b"\x02"), item(0x83, b"\x03"), item(0x01, b"c"))]
    twice, odds = programmes[0] * 2, programmes[1]
    for lent in (PLENTY, (0, 0), (1, 0), (9, 0)):
        for basic, advanced in product((b"", twice, odds, programmes[2], twice + odds, programmes[0] + odds, SHORT), repeat=2):
            yield from merge(top(basic), top(advanced), [BY_TAG], lent)
        for fault in FAULTS:
            yield from merge(top(fault), top(odds), [BY_TAG], lent)
            yield from merge(top(twice), top(fault), [BY_TAG], lent)
            yield from merge(top(fault), top(SHORT, fault, tag=0x02), [BY_TAG], lent)
    for first, second in product(product(programmes, repeat=2), repeat=2):
        yield from merge(top(*first), top(*second), [BY_TAG])
        yield from merge(top(item(0x21, b"".join(first))), top(item(0x21, second[0]), item(0x21, second[1])), [BY_TAG])
    for octets in (b"", b"\x03", b"\x03\x01", b"\x04\x00", top() + b"\x00", bytes(32769), top(item(0x01, b"a" * 32761))):
        yield from merge(octets, top())
        yield from merge(top(), octets)
        yield from merge(octets, octets)


def memory():
    """Places and store that just do, or are one too few, for results of several sorts; what the two objects have by themselves doesn't count."""
    pairs = [(top(), top(), 1, 0), (top(SHORT), top(SHORT), 3, 2), (top(SHORT), top(LONG), 5, 10), (top(item(0x06, b"en")), top(item(0x06, b"en")), 2, 2),
             (top(item(0x1C, item(0x81, b"\0\0\1") + item(0x83, DEFAULT))), top(item(0x1C, item(0x81, b"\0\0\1") + item(0x84, DEFAULT) + LONG)), 5, 11),
             (top(item(0x04, entry(1, b"tok")), item(0x16, item(0x01, b"\x01"))), top(item(0x04, entry(2, b"to")), item(0x16, item(0x01, b"\x02k"))), 3, 3),
             (top(item(0x34, b"12")), top(item(0x34, b"1"), item(0x34, b"12")), 3, 3),
             (top(item(0x81, FORMS[TIME])), top(item(0x81, VALUES[TIME][0]), item(0x29, item(0x80, FORMS[BEARER]))), 4, 7)]
    for basic, advanced, records, store in pairs:
        for places, lent_store in product((0, records - 1, records, records + 1), (0, max(0, store - 1), store, store + 1, 65536)):
            yield from merge(basic, advanced, [BY_TAG], (places, lent_store))


def whole_limit():
    """Results of 32,768 octets and around it: from two objects that are smaller, from tokens, and where what is repeated or united makes it fit."""
    for extra in (-2, -1, 0, 1, 2):
        half = item(0x16, item(0x01, b"a" * 16000))
        rest = item(0x16, item(0x01, b"b" * (32768 - 4 - 16008 - 8 + extra)))
        for store in (32744 + extra, 32743 + extra, 65536):
            yield from merge(top(half), top(rest), [BY_TAG], (5, store))
            yield from merge(top(half), top(half, rest), [BY_TAG], (5, store))
        yield from merge(top(half), top(rest), [BY_TAG], (4, 0))
        both = item(0x1C, item(0x80, b"c" * 16000)), item(0x1C, item(0x80, b"c" * 16000) + item(0x01, b"d" * (32768 - 8 - 16004 - 4 + extra)))
        yield from merge(top(both[0]), top(both[1]), [BY_TAG])
    table = item(0x04, entry(0x01, b"radio" * 51))
    for uses in (64, 65, 128, 129, 257, 8000, 32000):
        grown = top(table, item(0x16, item(0x01, b"\x01" * uses)))
        yield from merge(grown, grown, [BY_TAG])
        yield from merge(grown, top(table, item(0x33, item(0x01, b"\x01" * uses))), [BY_TAG])
        yield from merge(top(), grown, [BY_TAG], (3, min(65536, 255 * uses)))
        yield from merge(grown, top(item(0x16, item(0x01, b"radio" * min(51 * uses, 6500)))), [BY_TAG])
    for rest in (115, 116, 117):
        yield from merge(top(table, item(0x16, item(0x01, b"\x01" * 100))), top(table, item(0x33, item(0x01, b"\x01" * 28 + b"a" * (rest - 8)))), [BY_TAG])


def headers_grow():
    """Elements whose bodies pass 253 octets only together."""
    for tag, size in product((0x02, 0x1C, 0x28), range(236, 256)):
        yield from merge(wrapped(tag, item(0x10, item(0x01, b"PM"))), wrapped(tag, item(0x01, b"a" * (size - 6))), [BY_TAG])
        yield from merge(top(item(0x28, wrapped(0x1C, b"")[2:])), top(item(0x28, item(0x1C, item(0x01, b"a" * size)))), [BY_TAG])


def many():
    """Many children: that merge, that don't, that are repeated; the last key twice; as many records as fit."""
    programmes = [item(0x1C, item(0x81, number.to_bytes(3, "big"))) for number in range(150)]
    whole, turned = b"".join(programmes), b"".join(reversed(programmes))
    for basic, advanced in product((whole, turned + programmes[0], whole[:-7], b""), (whole, turned, whole + programmes[0])):
        yield from merge(top(item(0x21, basic), tag=0x02), top(item(0x21, advanced), tag=0x02), [BY_TAG])
    genres = b"".join(item(0x14, item(0x80, number.to_bytes(2, "big"))) for number in range(200))
    yield from merge(top(genres), top(genres), [BY_TAG])
    yield from merge(top(genres), top(genres + item(0x14)), [BY_TAG])
    services = [item(0x28, item(0x29, item(0x80, bytes([0, 0xC2, number])))) for number in range(40)]
    for basic, advanced in product((services, services[::-1], services + services[:1]), repeat=2):
        yield from merge(top(item(0x26, b"".join(basic))), top(item(0x26, b"".join(advanced))))
    branches = [item(tag, b"\x10\x00" * 8000) for tag in (0x16, 0x33)]
    for more, lent in product((378, 379, 380), ((16379, 0), (16380, 0), (16381, 0), (16382, 0), PLENTY)):
        yield from merge(top(branches[0]), top(branches[1], b"\x11\x00" * more), [BY_TAG], lent)


def merge_edge_cases():
    for group in (each_element, each_twice, apart, keys_in_other_forms, sets_of_bearers, values_at_odds, defaults, cdata_at_odds, languages, tops, repeated,
                  orders, depths, with_themselves, refused_at_once, memory, whole_limit, headers_grow, many):
        yield from group()
