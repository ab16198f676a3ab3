#!/usr/bin/env python3
"""Makes streams of test cases for the two programs (docs/STREAM.md).

    make_cases.py SEED COUNT [--letters LNWSXEGCFPJM]   COUNT random cases, the same for the same seed
    make_cases.py --edges [--letters LNWSXEGCFPJM]      the fixed edge cases of edges.py

A random case begins as a tree of known items with its meaning.  From the tree come its octets (in
any of the many forms that mean the same), its normal form, its records and what has to be lent;
about half of the cases are then damaged.  Written from documents 01, 02, 002 and, for defaults, 003 alone.
"""
import argparse
import random
import sys

# ---- Annexes D and E ---------------------------------------------------------------------------

TEXT, PLAIN, TIME, BEARER, ENUM, NUMBER, SHORT_ID = "text plain time bearer enum number shortid".split()
SIZES = {ENUM: 1, NUMBER: 2, SHORT_ID: 3}
JUDGED = [TIME, BEARER, ENUM, NUMBER, SHORT_ID]  # kinds that refusal 9 is for

PROGRAMME = {0x80: TEXT, 0x81: SHORT_ID, 0x82: NUMBER, 0x83: ENUM, 0x84: ENUM, 0x86: TEXT}
ATTRIBUTES = {
    0x02: {},
    0x03: {0x80: NUMBER, 0x81: TIME, 0x82: TEXT, 0x83: TEXT},
    0x10: {0x80: TEXT},
    0x11: {0x80: TEXT},
    0x12: {0x80: TEXT},
    0x13: {},
    0x14: {0x80: PLAIN, 0x81: ENUM},
    0x16: {0x80: TEXT},
    0x17: {0x80: TEXT, 0x81: SHORT_ID, 0x82: NUMBER},
    0x18: {0x80: TEXT, 0x81: TEXT, 0x82: TEXT, 0x83: TEXT, 0x84: TIME},
    0x19: {},
    0x1A: {0x80: TEXT},
    0x1B: {0x80: TEXT},
    0x1C: PROGRAMME,
    0x20: {0x80: NUMBER, 0x81: TIME, 0x82: TEXT},
    0x21: {0x80: NUMBER, 0x81: TIME, 0x82: TEXT},
    0x23: {0x80: TEXT, 0x81: SHORT_ID, 0x82: NUMBER, 0x83: ENUM, 0x84: NUMBER},
    0x24: {0x80: TIME, 0x81: TIME},
    0x25: {0x80: BEARER},
    0x26: {0x80: PLAIN},
    0x28: {0x80: NUMBER},
    0x29: {0x80: BEARER, 0x82: TEXT},
    0x2B: {0x80: TEXT, 0x81: TEXT, 0x82: TEXT, 0x83: ENUM, 0x84: NUMBER, 0x85: NUMBER},
    0x2C: {0x80: TIME, 0x81: NUMBER, 0x82: TIME, 0x83: NUMBER},
    0x2D: {0x80: BEARER, 0x82: TEXT},
    0x2E: PROGRAMME,
    0x2F: {0x80: NUMBER, 0x81: NUMBER, 0x82: NUMBER, 0x83: NUMBER},
    0x31: {0x80: TEXT, 0x81: TEXT},
    0x32: {0x80: TEXT, 0x81: TEXT},
    0x33: {},
    0x36: {},
    0x37: {0x80: TIME, 0x81: TIME, 0x82: NUMBER},
    0x38: {0x80: TIME, 0x81: TIME},
}
HOLDERS = [tag for tag in ATTRIBUTES if tag > 0x03]  # elements that hold items, the tops apart
COORDINATES = [0x34, 0x35]
UNKNOWN_ELEMENTS = [t for t in range(0x05, 0x80) if t != 0x06 and t not in ATTRIBUTES and t not in COORDINATES]
# The attributes whose default, by 003, means the same as their absence (2026-05): each is enumerated, and annex F gives a default the octet 0x01.
DEFAULTS = [(0x14, 0x81), (0x1C, 0x83), (0x1C, 0x84), (0x2E, 0x83), (0x2E, 0x84)]
DEFAULT = b"\x01"
SHOWN = {0x10: 8, 0x11: 16, 0x12: 128, 0x1A: 180, 0x1B: 1200}  # the most characters of each one's CDATA (2026-01)
CHILDREN = HOLDERS + list(SHOWN) + sorted({element for element, _ in DEFAULTS}) * 4  # these stand in trees more often
TOKEN_TAGS = [t for t in range(0x01, 0x14) if t not in (0x09, 0x0A, 0x0D)]
ELEMENT, ATTRIBUTE, CDATA = 0, 1, 2
OBJECT_LIMIT = 32768
FIELD_LIMIT = 65536
# code points by the octets that each takes
LETTERS = {1: range(0x20, 0x80), 2: (0x80, 0xE9, 0x301, 0x7FF), 3: (0x800, 0x20AC, 0xD7FF, 0xF900, 0xFFFD, 0xFFFF), 4: (0x10000, 0x1F4FB, 0x10FFFF)}


# ---- Cases -------------------------------------------------------------------------------------

def number(value, octets):
    return value.to_bytes(octets, "big")


def bounded(value):
    """A field that may be at most 65,536."""
    if value > FIELD_LIMIT:
        raise ValueError(f"{value} is above what a case may hold")
    return number(value, 3)


def sized(octets):
    return bounded(len(octets)) + octets


def case_l(places, octets):
    return b"L" + number(places, 2) + sized(octets)


def case_n(places, store, room, octets):
    return b"N" + number(places, 2) + bounded(store) + bounded(room) + sized(octets)


def case_w(count, records, room, octets):
    packed = b"".join(bytes(r[:3]) + b"".join(number(field, 2) for field in r[3:]) for r in records)
    return b"W" + number(count, 2) + number(len(records), 2) + packed + bounded(room) + sized(octets)


def case_s(first, second):
    return b"S" + sized(first) + sized(second)


def case_x(room, octets):
    return b"X" + bounded(room) + sized(octets)


def edit_t(record, text):
    return b"T" + number(record, 2) + number(len(text), 2) + text


def edit_d(record):
    return b"D" + number(record, 2)


def edit_i(parent, place, element):
    return b"I" + number(parent, 2) + number(place, 2) + number(len(element), 2) + element


def case_e(places, store, octets, edits):
    return b"E" + number(places, 2) + bounded(store) + sized(octets) + number(len(edits), 1) + b"".join(edits)


def case_g(data_type, places, octets):
    return b"G" + number(data_type, 1) + number(places, 2) + sized(octets)


def case_c(places, octets):
    return b"C" + number(places, 2) + sized(octets)


def case_j(octets):
    return b"J" + sized(octets)


def case_f(normal, packed):
    return b"F" + sized(normal) + sized(packed)


def case_p(room, octets):
    return b"P" + bounded(room) + sized(octets)


def case_m(services, places, store, basic, advanced):
    return b"M" + number(services, 1) + number(places, 2) + bounded(store) + sized(basic) + sized(advanced)


# ---- Items as they stand in octets -------------------------------------------------------------

def header(tag, size, form=0):
    """Tag and length; form 0 is the shortest, 1 and 2 the 16-bit and 24-bit fields where they do."""
    if form == 0 and size <= 0xFD:
        return bytes([tag, size])
    if form <= 1 and size <= 0xFFFF:
        return bytes([tag, 0xFE]) + number(size, 2)
    return bytes([tag, 0xFF]) + number(size, 3)


def item(tag, body=b"", form=0):
    return header(tag, len(body), form) + body


class Raw:
    """An item to be written: its body is octets or a list of items, its length field may lie; `node` is the known item that it writes."""

    def __init__(self, tag, body, form=0, lie=0, node=None):
        self.tag, self.body, self.form, self.lie, self.node = tag, body, form, lie, node

    def octets(self):
        body = self.body if isinstance(self.body, bytes) else b"".join(part.octets() for part in self.body)
        return header(self.tag, max(0, len(body) + self.lie), self.form) + body

    def copy(self):
        body = self.body if isinstance(self.body, bytes) else [part.copy() for part in self.body]
        return Raw(self.tag, body, self.form, self.lie, self.node)

    def walk(self, depth=1):
        """Itself and all items in it, each with its depth, in reading order."""
        yield self, depth
        if isinstance(self.body, list):
            for part in self.body:
                yield from part.walk(depth + 1)

    def lists(self):
        """Every list of items in it, its own first."""
        return (part.body for part, _ in self.walk() if isinstance(part.body, list))

    def first_item(self, fits, at=0):
        """The first item in it, in reading order, that fits, asked of its parent and it, and its place; None where none does.  `at` is its own place."""
        at += len(self.octets()) - sum(len(part.octets()) for part in self.body)
        for part in self.body:
            if fits(self, part):
                return part, at
            found = part.first_item(fits, at) if isinstance(part.body, list) else None
            if found is not None:
                return found
            at += len(part.octets())
        return None


# ---- Values and their meaning ------------------------------------------------------------------

LENGTH, DATE, HOURS, MINUTES, SECONDS = range(1, 6)  # the fields of a time by which refusal 9 tells what is wrong (2026-04)
TOO_LARGE = {DATE: range(100000, 1 << 17), HOURS: range(24, 1 << 5), MINUTES: range(60, 1 << 6), SECONDS: range(60, 1 << 6)}


def characters_in(text):
    """How many characters a text without tokens has: code points, whatever octets they take."""
    return len(text.decode())


class Fixed:
    """Octets that are kept as they stand."""

    def __init__(self, octets):
        self.normal = octets

    def encoded(self, rng):
        return self.normal


class Bad(Fixed):
    """Octets that are no value of their kind; `field` is what refusal 9 says beside the place."""

    def __init__(self, octets, field):
        super().__init__(octets)
        self.field = field


class Text:
    """Pieces of (octets, token that may stand for them, or 0)."""

    def __init__(self, pieces):
        self.pieces = pieces
        self.normal = b"".join(octets for octets, _ in pieces)

    def encoded(self, rng):
        return b"".join(bytes([token]) if token and rng.random() < 0.7 else octets for octets, token in self.pieces)


class Time:
    def __init__(self, date, hours, minutes, seconds, sense, half_hours):
        self.fields = date, hours, minutes, seconds, sense if half_hours else 0, half_hours
        self.normal = self.octets(seconds > 0, half_hours > 0)

    def octets(self, long, offset, minus_zero=False, reserved=0):
        """`reserved` has the bits of the whole 7-octet form that are to be set where they exist."""
        date, hours, minutes, seconds, sense, half_hours = self.fields
        word = date << 14 | offset << 12 | long << 11 | hours << 6 | minutes
        word |= reserved >> 24 & 0x80002000
        out = number(word, 4)
        if long:
            out += number(seconds << 10 | reserved >> 8 & 0x3FF, 2)
        if offset:
            out += bytes([(sense or minus_zero) << 5 | half_hours | reserved & 0xC0])
        return out

    def encoded(self, rng):
        seconds, half_hours = self.fields[3], self.fields[5]
        return self.octets(
            seconds > 0 or rng.random() < 0.3,
            half_hours > 0 or rng.random() < 0.3,
            half_hours == 0 and rng.random() < 0.5,
            rng.getrandbits(56) if rng.random() < 0.3 else 0,
        )


class Bearer:
    def __init__(self, ensemble, sid, scids):
        self.ensemble, self.sid, self.scids = ensemble, sid, scids
        self.first = (0x40 if ensemble else 0) | (0x10 if len(sid) == 4 else 0) | scids
        self.rest = ensemble + sid
        self.normal = bytes([self.first]) + self.rest

    def encoded(self, rng):
        return bytes([self.first | (rng.choice([0x80, 0x20, 0xA0]) if rng.random() < 0.4 else 0)]) + self.rest


# ---- Trees of known items ----------------------------------------------------------------------

class Node:
    """A known item: `value` for a leaf, else its attributes, children and CDATA are its items."""

    def __init__(self, tag, value=None):
        self.tag, self.value = tag, value
        self.attributes, self.children = [], []  # children: 0x06, elements and CDATA in order

    def items(self):
        return self.attributes + self.children

    def is_default(self, part):
        """Whether an item of it is a default: that has a record and its octet in a store, but no meaning and no place in the normal form."""
        return (self.tag, part.tag) in DEFAULTS and part.value.normal == DEFAULT

    def meant(self):
        """Its attributes but for defaults."""
        return [part for part in self.attributes if not self.is_default(part)]

    def ordered(self):
        """Its items as they stand in the normal form."""
        return sorted(self.meant(), key=lambda a: a.tag) + self.children

    def normal(self):
        return item(self.tag, b"".join(part.normal() for part in self.ordered()) if self.value is None else self.value.normal)

    def walk(self):
        yield self
        for part in self.items():
            yield from part.walk()

    def defaults(self):
        """How many defaults it holds; each is an octet."""
        return sum(len(node.attributes) - len(node.meant()) for node in self.walk())

    def records(self):
        return sum(1 for _ in self.walk())

    def store(self):
        return sum(len(node.value.normal) for node in self.walk() if node.value is not None)

    def is_over(self, part):
        """Whether an item of it is a text with more characters than may be shown."""
        return part.tag == 0x01 and characters_in(part.value.normal) > SHOWN.get(self.tag, FIELD_LIMIT)

    def too_long(self):
        return any(node.is_over(part) for node in self.walk() for part in node.children)

    def leave_plain_out(self):
        """Takes all items of plain octets out of it: no XML can be made of these."""
        self.attributes = [part for part in self.attributes if ATTRIBUTES[self.tag][part.tag] != PLAIN]
        self.children = [part for part in self.children if part.tag not in COORDINATES]
        for part in self.children:
            part.leave_plain_out()

    def copy(self):
        twin = Node(self.tag, self.value)
        twin.attributes = [part.copy() for part in self.attributes]
        twin.children = [part.copy() for part in self.children]
        return twin

    def with_other_defaults(self, rng):
        """A copy in which each default that may stand in it does so or not, by chance."""
        twin = self.copy()
        for node in twin.walk():
            node.attributes = node.meant()
            free = [tag for element, tag in DEFAULTS if element == node.tag and all(part.tag != tag for part in node.attributes)]
            node.attributes += [Node(tag, Fixed(DEFAULT)) for tag in free if rng.random() < 0.5]
        return twin


class Maker:
    """Makes random trees; all of one maker's texts may use its table of tokens."""

    def __init__(self, rng):
        self.rng = rng
        self.table = {}
        if rng.random() < 0.4:
            for tag in rng.sample(TOKEN_TAGS, rng.choice([0, 1, 2, 3, 5, 16])):
                if rng.random() < 0.4:
                    self.table[tag] = self.characters(rng.choice([1, 2, 4, 7, 8, 16]))
                else:
                    self.table[tag] = self.letters(rng.choice([0, 1, 1, 2, 3, 5, 8, 20, 255]))

    def letters(self, size):
        """Good text of at most `size` octets, most often of exactly that many."""
        rng, out = self.rng, b""
        while len(out) < size:
            if rng.random() < 0.85:
                out += bytes(rng.randint(0x20, 0x7F) for _ in range(min(rng.randint(1, 12), size - len(out))))
            else:
                code = rng.choice([0x09, 0x0A, 0x0D, *LETTERS[2], *LETTERS[3], *LETTERS[4], rng.randint(0x80, 0xD7FF)])
                wide = chr(code).encode()
                if len(out) + len(wide) <= size:
                    out += wide
        return out

    def characters(self, count):
        """Good text of just so many characters: letters of one width, or of several."""
        rng = self.rng
        widths = rng.choice([[2], [2], [3], [4], [1, 2], [1, 1, 1, 2], [1, 2, 3, 4]])
        return "".join(chr(rng.choice(LETTERS[rng.choice(widths)])) for _ in range(count)).encode()

    def pieces(self, size, letters, measure):
        """Text that measures just so much, as `letters` makes it, in pieces of which some are entries of the table."""
        rng, pieces, left = self.rng, [], size
        while left > 0:
            token = rng.choice(list(self.table)) if self.table and rng.random() < 0.4 else 0
            octets = self.table[token] if token else letters(rng.randint(1, left))
            if measure(octets) > left:
                octets, token = letters(left), 0
            pieces.append((octets, token))
            left -= measure(octets)
        return Text(pieces)

    def text(self, limit=FIELD_LIMIT):
        """Text of at most `limit` octets."""
        sizes = [0, 1, 2, 3, 5, 8, 8, 12, 16, 30] if self.rng.random() < 0.97 else [100, 253, 254, 300]
        return self.pieces(min(self.rng.choice(sizes), limit), self.letters, len)

    def shown_text(self, tag):
        """Text for the CDATA of an element; where that has a limit, every other text comes to it or within one of it, in letters of any width."""
        limit = SHOWN.get(tag)
        if limit is None or self.rng.random() < 0.5:
            return self.text(limit or FIELD_LIMIT)
        count = limit + self.rng.choice([-1, 0, 0, 0, 1, 1])
        return self.pieces(count, *self.rng.choice([(self.characters, characters_in), (self.letters, len)]))

    def time(self):
        rng = self.rng
        return Time(
            rng.choice([0, 1, 50000, 52992, 99998, 99999, rng.randint(0, 99999)]),
            rng.choice([0, 12, 23, rng.randint(0, 23)]),
            rng.choice([0, 30, 59, rng.randint(0, 59)]),
            rng.choice([0, 0, 1, 59, rng.randint(0, 59)]),
            rng.random() < 0.5,
            rng.choice([0, 0, 1, 2, 28, 31, rng.randint(0, 31)]),
        )

    def bearer(self):
        rng = self.rng
        return Bearer(rng.choice([b"", rng.randbytes(3)]), rng.randbytes(rng.choice([2, 4])), rng.randrange(16))

    def value(self, kind):
        rng = self.rng
        if kind == TEXT:
            return self.text()
        if kind == TIME:
            return self.time()
        if kind == BEARER:
            return self.bearer()
        if kind == ENUM:
            return Fixed(bytes([rng.randrange(rng.choice([10, 256]))]))  # annex F names octets below 10 alone
        return Fixed(rng.randbytes(SIZES[kind] if kind in SIZES else rng.choice([0, 1, 2, 3, 4, 6, 12])))

    def resized(self, octets):
        """Octets of another length than these have; flags that tell the length stay, where there is room for them."""
        return (octets + self.rng.randbytes(9))[:self.rng.choice([size for size in range(10) if size != len(octets)])]

    def bad_time(self):
        """One or more fields wrong, of which the lowest is told."""
        rng, fields = self.rng, list(self.time().fields)
        wrong = rng.sample([DATE, HOURS, MINUTES, SECONDS], rng.choice([0, 1, 1, 1, 1, 2, 2, 3, 4]))
        for field in wrong:
            fields[field - DATE] = rng.choice([TOO_LARGE[field][0], TOO_LARGE[field][-1], rng.choice(TOO_LARGE[field])])
        octets = Time(*fields).encoded(rng)
        if not wrong or rng.random() < 0.1:
            return Bad(self.resized(octets), LENGTH)
        return Bad(octets, min(wrong))

    def bad_value(self, kind):
        """A value that refusal 9 is for; of what is no time only the length can be wrong."""
        return self.bad_time() if kind == TIME else Bad(self.resized(self.value(kind).encoded(self.rng)), 0)

    def fill(self, node, depth, budget):
        """Gives an element that holds items its attributes, children and CDATA."""
        rng, known = self.rng, list(ATTRIBUTES[node.tag].items())
        for tag, kind in rng.sample(known, rng.randint(0, min(len(known), budget))):
            node.attributes.append(Node(tag, self.value(kind)))
        budget -= len(node.attributes)
        if depth == 1 and rng.random() < 0.3:
            node.children.append(Node(0x06, self.text()))
        while budget > 0 and depth < 16 and rng.random() < (0.95 if depth == 1 else 0.75):
            share = budget if rng.random() < 0.3 else rng.randint(1, budget)
            budget -= share
            if rng.random() < 0.06:
                node.children.append(Node(rng.choice(COORDINATES), self.value(PLAIN)))
            else:
                node.children.append(self.fill(Node(rng.choice(CHILDREN)), depth + 1, share - 1))
        if rng.random() < (0.8 if node.tag in SHOWN else 0.2):
            node.children.append(Node(0x01, self.shown_text(node.tag)))
        return node

    def tree(self):
        rng = self.rng
        return self.fill(Node(rng.choice([0x02, 0x03, 0x03])), 1, rng.choice([0, 1, 2, 3, 4, 6, 8, 12, 20]))

    def deep_tree(self):
        """A chain of elements down to depth 16, with items at several depths."""
        rng = self.rng
        top = here = Node(rng.choice([0x02, 0x03]))
        for depth in range(2, rng.choice([16, 16, 16, 15, 9]) + 1):
            below = Node(rng.choice(HOLDERS))
            if rng.random() < 0.3:
                self.fill(here, 15, 1)
                here.children = [part for part in here.children if part.tag not in (0x01, 0x06)]
            here.children.append(below)
            here = below
        self.fill(here, 16, 3)
        return top

    def large_tree(self):
        """Many small items, few large ones, or a text that tokens make large."""
        rng, roll = self.rng, self.rng.random()
        top = Node(rng.choice([0x02, 0x03]))
        if roll < 0.4:
            for _ in range(rng.randint(20, 60)):
                top.children.append(self.fill(Node(rng.choice(HOLDERS)), 2, rng.choice([1, 3, 6])))
        elif roll < 0.8:
            for _ in range(rng.randint(1, 4)):
                branch = Node(rng.choice([0x16, 0x18, 0x33]))
                branch.children.append(Node(0x01, Text([(self.letters(rng.randint(200, 6000)), 0)])))
                top.children.append(branch)
        else:
            top.children.append(Node(0x01, self.swollen_text([120, 128, 129, 256, 257, 258, 263])))
        return top

    def swollen_text(self, uses):
        """A text that a token, used so often, makes large; no text that uses the table may have been made before."""
        token = self.rng.choice(TOKEN_TAGS)
        self.table[token] = self.letters(self.rng.choice([250, 255]))
        return Text([(self.table[token], token)] * self.rng.choice(uses))

    def swollen_tree(self):
        """A tree whose normal form is above 32,768 octets, though tokens can write it in fewer."""
        text, tree, branch = self.swollen_text([132, 200, 257, 258, 263]), self.tree(), Node(0x16)
        if self.rng.random() < 0.5:
            branch.attributes.append(Node(0x80, text))
        else:
            branch.children.append(Node(0x01, text))
        tree.children.insert(sum(1 for part in tree.children if part.tag == 0x06), branch)
        return tree


# ---- Octets that mean a tree -------------------------------------------------------------------

class Encoder:
    """Writes a tree in one of its forms.  `wildness` 0 uses no unknown items and no long lengths."""

    def __init__(self, maker, wildness):
        self.rng, self.table, self.wildness = maker.rng, maker.table, wildness

    def form(self):
        return self.rng.choice([1, 2]) if self.rng.random() < self.wildness else 0

    def unknown_attributes(self, parent):
        while self.rng.random() < self.wildness:
            tag = self.rng.choice([t for t in range(0x80, 0x90) if t not in ATTRIBUTES[parent]] + [0xFF])
            yield Raw(tag, self.rng.randbytes(self.rng.choice([0, 1, 2, 5])), self.form())

    def unknown_elements(self):
        while self.rng.random() < self.wildness:
            body = self.rng.randbytes(self.rng.choice([0, 1, 2, 9]))
            yield Raw(self.rng.choice(UNKNOWN_ELEMENTS), body, self.form())

    def table_item(self):
        entries = list(self.table.items())
        self.rng.shuffle(entries)
        return Raw(0x04, b"".join(bytes([tag, len(octets)]) + octets for tag, octets in entries), self.form())

    def raw(self, node, depth=1):
        if node.value is not None:
            return Raw(node.tag, node.value.encoded(self.rng), self.form(), node=node)
        attributes = [self.raw(part) for part in node.attributes] + list(self.unknown_attributes(node.tag))
        self.rng.shuffle(attributes)
        language, elements, cdata = [], [], []
        for part in node.children:
            if part.tag not in (0x01, 0x06) and depth < 16:
                elements += self.unknown_elements()
            stage = language if part.tag == 0x06 else cdata if part.tag == 0x01 else elements
            stage.append(self.raw(part, depth + 1))
        if depth < 16:
            elements += self.unknown_elements()
        table = [self.table_item()] if depth == 1 and self.table else []
        return Raw(node.tag, attributes + table + language + elements + cdata, self.form(), node=node)


# ---- Damage ------------------------------------------------------------------------------------

TAGS_OF_INTEREST = bytes.fromhex("00 01 02 03 04 05 06 07 10 14 21 34 7F 80 81 82 83 FF")
BAD_OCTETS = [bytes.fromhex(octets) for octets in (
    "00 14 1F 80 C080 C3 EDA080 EE8080 EFA3BF F4908080 F888808080 E09FBF F08FBFBF FF 01 13").split()]


def pick_item(rng, raw):
    """A list of items that isn't empty and an index in it, or None."""
    lists = [part for part in raw.lists() if part]
    if not lists:
        return None
    chosen = rng.choice(lists)
    return chosen, rng.randrange(len(chosen))


def damage_table(rng, raw, table):
    """Leaves the token table out, empties it, cuts its first entry off or repeats it."""
    first = 2 + table.body[1] if len(table.body) > 1 else 0
    choice = rng.randrange(4)
    if choice == 0:
        raw.body.remove(table)
    else:
        table.body = [b"", table.body[first:], table.body + table.body[:first]][choice - 1]


def damage_value(rng, raw):
    """Puts a bad value in the place of a good one; False where there is none."""
    values = [(part, ATTRIBUTES[parent.tag][part.tag]) for parent, _ in raw.walk() if isinstance(parent.body, list)
              for part in parent.body if ATTRIBUTES.get(parent.tag, {}).get(part.tag) in JUDGED]
    times = [(part, kind) for part, kind in values if kind == TIME]
    if values:
        part, kind = rng.choice(times if times and rng.random() < 0.7 else values)
        part.body = Maker(rng).bad_value(kind).normal
    return bool(values)


def damage_item(rng, raw):
    """Damages the tree of items once, keeping the lengths around the damage right."""
    if rng.random() < 0.2 and damage_value(rng, raw):
        return
    picked = pick_item(rng, raw)
    if picked is None:
        raw.tag = rng.choice(TAGS_OF_INTEREST)
        return
    items, at = picked
    victim = items[at]
    action = rng.randrange(10)
    tables = [part for part in raw.body if part.tag == 0x04 and isinstance(part.body, bytes)]
    if tables and rng.random() < 0.2:
        damage_table(rng, raw, tables[0])
    elif action == 0:
        items.insert(rng.randint(0, len(items)), victim.copy())
    elif action == 1:
        target = rng.choice(list(raw.lists()))
        target.insert(rng.randint(0, len(target)), victim.copy())
    elif action == 2:
        items.insert(rng.randrange(len(items)), items.pop(at))
    elif action == 3:
        victim.tag = rng.choice(TAGS_OF_INTEREST + rng.randbytes(1))
    elif action == 4:
        victim.lie = rng.choice([-2, -1, 1, 2, 3, 10, 300, 70000])
    elif action == 5 and isinstance(victim.body, bytes):
        cut = rng.randint(0, len(victim.body))
        victim.body = victim.body[:cut] + rng.choice(BAD_OCTETS) + victim.body[cut:]
    elif action == 6 and isinstance(victim.body, bytes):
        victim.body = victim.body[:-1] if rng.random() < 0.5 else victim.body + rng.randbytes(1)
    elif action == 7:
        for _ in range(rng.choice([1, 13, 14, 15, 16])):
            items[at] = Raw(rng.choice(HOLDERS), [items[at]])
    elif action == 8:
        items.insert(rng.randint(0, len(items)), Raw(rng.choice(TAGS_OF_INTEREST), rng.choice(BAD_OCTETS)))
    else:
        victim.form = rng.choice([1, 2])
        victim.lie = rng.choice([0, 0, -1, 1])


def damage_octets(rng, octets):
    """Damages the octets once, whatever they are."""
    action, at = rng.randrange(6), rng.randrange(len(octets))
    if action == 0:
        return octets[:at] + bytes([octets[at] ^ 1 << rng.randrange(8)]) + octets[at + 1:]
    if action == 1:
        return octets[:at] + bytes([rng.choice([0, 1, 0xFD, 0xFE, 0xFF, rng.randrange(256)])]) + octets[at + 1:]
    if action == 2:
        return octets[:at]
    if action == 3:
        return octets + rng.randbytes(rng.choice([1, 1, 4]))
    if action == 4:
        return octets[:at] + octets[at + 1:]
    return octets[:at] + rng.randbytes(1) + octets[at:]


def damage(rng, raw):
    """Octets of a tree that was damaged one to three times."""
    raw = raw.copy()
    for _ in range(rng.choice([1, 1, 1, 2, 3])):
        if rng.random() < 0.8:
            damage_item(rng, raw)
    octets = raw.octets()
    if rng.random() < 0.25:
        octets = damage_octets(rng, octets)
    return octets


# ---- Random cases ------------------------------------------------------------------------------

def random_tree(maker):
    """Half of the trees get defaults."""
    roll = maker.rng.random()
    tree = maker.deep_tree() if roll < 0.06 else maker.large_tree() if roll < 0.10 else maker.tree()
    return tree.with_other_defaults(maker.rng) if maker.rng.random() < 0.5 else tree


def random_raw(rng, draw=random_tree):
    """A tree and one of the ways to write it, in bounds."""
    while True:
        maker = Maker(rng)
        tree = draw(maker)
        raw = Encoder(maker, rng.choice([0, 0.05, 0.2])).raw(tree)
        if len(raw.octets()) <= OBJECT_LIMIT:
            return maker, tree, raw


def lent(rng, need, most):
    """What to lend where `need` would do."""
    enough = rng.random() < 0.93
    choices = [need, need, need + 1, need + 7, most, most] if enough else [need - 1, 0]
    return max(0, min(most, rng.choice(choices)))


def pad(rng, raw):
    """Adds an unknown attribute that brings the object to its limit, one below or above it, or near."""
    raw.form, attribute = 1, Raw(0x90, b"", 1)
    raw.body.insert(0, attribute)
    attribute.body = bytes(max(0, OBJECT_LIMIT + rng.choice([-1, 0, 0, 1, 9]) - len(raw.octets())))


def random_object(rng, draw=random_tree):
    """A tree and octets for it, damaged so often that about half of them are refused."""
    _, tree, raw = random_raw(rng, draw)
    if rng.random() < 0.01:
        pad(rng, raw)
    return tree, damage(rng, raw)[:FIELD_LIMIT] if rng.random() < 0.7 else raw.octets()


def random_l(rng):
    tree, octets = random_object(rng)
    return case_l(lent(rng, tree.records(), 65535), octets)


def random_n(rng):
    tree, octets = random_object(rng)
    return case_n(lent(rng, tree.records(), 65535), lent(rng, tree.store(), FIELD_LIMIT),
                  lent(rng, len(tree.normal()), FIELD_LIMIT), octets)


def place_body(rng, pool, body):
    """Where a body lies in the lent octets; it may share octets with others, or is added."""
    found = pool.find(body) if rng.random() < 0.5 else -1
    if found >= 0:
        return found
    if rng.random() < 0.2:
        pool.extend(rng.randbytes(rng.randint(1, 5)))
    pool.extend(body)
    return len(pool) - len(body)


def make_records(rng, node, depth, parent, pool, records):
    """Records of a tree in reading order, attributes in any order, spans of lists anywhere."""
    index = len(records)
    kind = ATTRIBUTE if node.tag >= 0x80 else CDATA if node.tag == 0x01 else ELEMENT
    record = [node.tag, kind, depth, parent, 0, 0]
    records.append(record)
    if node.value is None:
        record[4] = rng.randint(0, len(pool))
        record[5] = rng.randint(0, len(pool) - record[4])
        parts = rng.sample(node.attributes, len(node.attributes)) + node.children
        for part in parts:
            make_records(rng, part, depth + 1, index, pool, records)
    else:
        body = node.value.normal if isinstance(node.value, Text) else node.value.encoded(rng)
        record[4], record[5] = place_body(rng, pool, body), len(body)


def damage_records(rng, records, octets):
    """Damages one record, or the list, once."""
    at = rng.randrange(len(records))
    record = records[at]
    action = rng.randrange(10)
    if action == 0:
        record[0] = rng.choice(TAGS_OF_INTEREST + rng.randbytes(1))
    elif action == 1:
        record[1] = rng.choice([0, 1, 2, 3, 255])
    elif action == 2:
        record[2] = rng.choice([0, 1, 2, 16, 17, 18, 255, max(0, record[2] - 1), record[2] + 1])
    elif action == 3:
        record[3] = rng.choice([0, at, max(0, at - 1), at + 1, len(records), 65535, max(0, record[3] - 1)])
    elif action == 4:
        record[4] = rng.choice([0, record[4] + 1, max(0, record[4] - 1), len(octets), len(octets) + 1, 65535])
    elif action == 5:
        record[5] = rng.choice([0, record[5] + 1, max(0, record[5] - 1), len(octets) - record[4],
                                len(octets) - record[4] + 1, 65535])
    elif action == 6:
        records.insert(rng.randint(0, len(records)), list(record))
    elif action == 7:
        records.insert(rng.randrange(len(records)), records.pop(at))
    elif action == 8:
        records.pop(at)
    elif octets:
        cut = rng.randrange(len(octets))
        octets[cut:cut + 1] = rng.choice([b"", b"\x01", b"\xff", rng.randbytes(1)])
    record[3:] = [max(0, min(65535, field)) for field in record[3:]]


def random_w(rng):
    """Records of a tree, every other time damaged, now and then with a bad value."""
    from meanings import valued  # which stands on the trees of this file
    while True:
        maker = Maker(rng)
        tree = random_tree(maker)
        kind = rng.choice(JUDGED)
        part = valued(rng, tree, kind) if rng.random() < 0.1 else None
        if part:
            part.value = maker.bad_value(kind)
        pool, records = bytearray(rng.randbytes(rng.choice([0, 0, 1, 5]))), []
        make_records(rng, tree, 1, 0, pool, records)
        if len(pool) <= 65535:
            break
    if rng.random() < 0.45:
        for _ in range(rng.choice([1, 1, 2])):
            if records:
                damage_records(rng, records, pool)
    count = len(records)
    roll = rng.random()
    if roll < 0.1:
        records += [[rng.randrange(256) for _ in range(6)] for _ in range(rng.randint(1, 3))]
    elif roll < 0.15:
        count = rng.choice([0, count + 1, max(0, count - 1), 65535])
    return case_w(count, records, lent(rng, len(tree.normal()), FIELD_LIMIT), bytes(pool))


def random_s(rng):
    """Two objects of which it is known whether they mean the same, or two ways to write one tree; now and then damaged."""
    from meanings import SWOLLEN_WAYS, WAYS, WRITTEN_TWICE, known_pair  # which stands on the trees of this file
    roll = rng.random()
    if roll < 0.1:
        maker, tree, first = random_raw(rng)
        second = Encoder(maker, 0.2).raw(tree.with_other_defaults(rng))
    elif roll < 0.15:
        first, second = known_pair(rng, *rng.choice([WRITTEN_TWICE, rng.choice(SWOLLEN_WAYS)]), Maker.swollen_tree)
    else:
        first, second = known_pair(rng, *rng.choice(WAYS))
    damaged = rng.choice([0, 0, 0, 0, 0, 0, 0, 1, 2, 3])
    first, second = damage(rng, first) if damaged & 1 else first.octets(), damage(rng, second) if damaged & 2 else second.octets()
    return case_s(first[:FIELD_LIMIT], second[:FIELD_LIMIT])


def named_tree(maker):
    """A tree without plain octets."""
    tree = random_tree(maker)
    tree.leave_plain_out()
    return tree


def random_x(rng):
    """Now and then an object with plain octets; often a room that just does, or doesn't."""
    from as_xml import has_plain, xml  # which stands on the trees of this file
    tree, octets = random_object(rng, random_tree if rng.random() < 0.2 else named_tree)
    return case_x(lent(rng, FIELD_LIMIT if has_plain(tree) else len(xml(tree)), FIELD_LIMIT), octets)


def random_e(rng):
    """A run of edits, of an object that now and then is damaged; elements that are put in may be damaged too."""
    from edits import random_run  # which stands on the trees of this file
    return random_run(rng).case()


def random_g(rng):
    """An object within a profile, or with strays, or any; now and then damaged, or asked about with another data type."""
    from gate import random_gate  # which stands on the trees of this file
    return random_gate(rng)


def random_c(rng):
    """An object, most often with unknown items that hold what looks like known ones; now and then damaged, or with a place too few."""
    from headers import random_counted  # which stands on the trees of this file
    return random_counted(rng)


def random_j(rng):
    """The same with no list."""
    from headers import random_judged  # which stands on the trees of this file
    return random_judged(rng)


def random_m(rng):
    """Two parts of one day, most often with something at odds, or any two objects; now and then damaged, or with a place or an octet too few."""
    from merge import random_merging  # which stands on the trees of this file
    return random_merging(rng)


def random_f(rng):
    """A normal form and what a packer may propose for it; now and then damaged."""
    from folds import random_check  # which stands on the trees of this file
    return random_check(rng)


def random_p(rng):
    """A normal form whose texts are of few words, and often a room that just does, or doesn't; now and then another form, or damaged."""
    from folds import random_packing  # which stands on the trees of this file
    return random_packing(rng)


RANDOM = {"L": random_l, "N": random_n, "W": random_w, "S": random_s, "X": random_x, "E": random_e, "G": random_g, "C": random_c,
          "F": random_f, "P": random_p, "J": random_j, "M": random_m}
# The letters that are made and tried where none are named.
CASE_LETTERS = "LNWSXEGCFPJM"


def random_cases(seed, count, letters=CASE_LETTERS):
    """Yields `count` cases; each has a generator of its own, so that cases can be found again."""
    for index in range(count):
        rng = random.Random(f"drangosk {seed} {index}")
        yield RANDOM[rng.choice(letters)](rng)


def main():
    parser = argparse.ArgumentParser(description="Makes a stream of test cases on standard output.")
    parser.add_argument("seed", nargs="?")
    parser.add_argument("count", nargs="?", type=int)
    parser.add_argument("--letters", default=CASE_LETTERS)
    parser.add_argument("--edges", action="store_true", help="the fixed edge cases instead of random ones")
    options = parser.parse_args()
    if not options.letters or set(options.letters) - set(RANDOM):
        parser.error(f"letters are of {''.join(RANDOM)}")
    if options.edges:
        from edges import edge_cases
        cases = (case for case in edge_cases() if chr(case[0]) in options.letters)
    elif options.count is None:
        parser.error("SEED and COUNT, or --edges")
    else:
        cases = random_cases(options.seed, options.count, options.letters)
    for case in cases:
        sys.stdout.buffer.write(case)


if __name__ == "__main__":
    main()
