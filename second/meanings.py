"""Pairs of objects that are known to mean the same, or to mean different things, from documents 01, 02, 002 and 003 alone.

`meaning` is document 01's definition, as request 2026-05 amends it, over the trees of make_cases.py.  DIFFERENT has ways to change a tree's meaning in one
point, SAME ways to change only how it is written; known_pair makes a pair of objects in one of these ways.
"""
from make_cases import (ATTRIBUTES, BEARER, COORDINATES, DEFAULT, DEFAULTS, ENUM, HOLDERS, NUMBER, OBJECT_LIMIT, PLAIN, SHORT_ID, TEXT, TIME, TOKEN_TAGS,
                        UNKNOWN_ELEMENTS, Bearer, Encoder, Fixed, Maker, Node, Raw, Text, Time, random_tree)

LANGUAGE, CDATA = "language", "cdata"


def meaning(node):
    """What an item means: attributes but for defaults are a set, children stand in order, texts are expanded, minus 0 is 0."""
    value = node.value
    if value is None:
        return node.tag, frozenset(meaning(part) for part in node.meant()), tuple(meaning(part) for part in node.children)
    if isinstance(value, Time):
        *instant, minus, half_hours = value.fields
        return node.tag, tuple(instant), -half_hours if minus else half_hours
    if isinstance(value, Bearer):
        return node.tag, value.ensemble, len(value.sid), value.sid, value.scids
    return node.tag, value.normal


# ---- Places in a tree ------------------------------------------------------------------------------

def kind_of(parent, part):
    """The kind of an item that has a value."""
    if part.tag in (0x01, 0x06):
        return CDATA if part.tag == 0x01 else LANGUAGE
    return ATTRIBUTES[parent.tag][part.tag] if part.tag >= 0x80 else PLAIN


def any_of(rng, found):
    found = list(found)
    return rng.choice(found) if found else None


def valued(rng, tree, *kinds):
    """An item with a value of one of these kinds, or None."""
    return any_of(rng, (part for parent in tree.walk() for part in parent.items() if part.value is not None and kind_of(parent, part) in kinds))


def with_depth(node, depth=1):
    """The elements that hold items, each with its depth."""
    if node.value is None:
        yield node, depth
        for part in node.children:
            yield from with_depth(part, depth + 1)


def height(node):
    return max(depth for _, depth in with_depth(node)) if node.value is None else 1


def holder(rng, tree, fits=lambda node, depth: True):
    return any_of(rng, (node for node, depth in with_depth(tree) if fits(node, depth)))


def count_attributes(parts):
    return sum(1 for part in parts if part.tag >= 0x80)


def span_of_elements(parts):
    """Where child elements may stand among items: behind attributes, token table and language, before CDATA."""
    first = count_attributes(parts) + sum(1 for part in parts if part.tag in (0x04, 0x06))
    return first, len(parts) - any(part.tag == 0x01 for part in parts)


def neighbours(tree):
    """Each element with the number of a child element whose next brother is an element too."""
    for node, depth in with_depth(tree):
        first, end = span_of_elements(node.children)
        for at in range(first, end - 1):
            yield node, depth, at


def flipped(rng, octets):
    """One bit changed; None where there is none."""
    if not octets:
        return None
    at = rng.randrange(len(octets))
    return octets[:at] + bytes([octets[at] ^ 1 << rng.randrange(8)]) + octets[at + 1:]


# ---- Ways to mean something else ---------------------------------------------------------------------
# Each changes the tree and says so, or finds nothing to change in its way.

def value_changed(kinds, change):
    """An item of these kinds gets the value that `change` makes of its own."""
    def way(rng, tree):
        part = valued(rng, tree, *kinds)
        value = change(rng, part.value) if part else None
        if value is not None:
            part.value = value
        return value is not None
    return way


def octets_changed(*kinds, change=flipped):
    def changed(rng, value):
        octets = change(rng, value.normal)
        return None if octets is None else Fixed(octets)
    return value_changed(kinds, changed)


def text_changed(change, *kinds):
    def changed(rng, value):
        text = change(rng, value.normal.decode())
        return None if text is None else Text([(text.encode(), 0)])
    return value_changed(kinds, changed)


def other_letter(rng, text, letters="aZ 0~"):
    if not text:
        return None
    at = rng.randrange(len(text))
    return text[:at] + rng.choice([letter for letter in letters if letter != text[at]]) + text[at + 1:]


def other_case(rng, text):
    at = any_of(rng, (at for at, letter in enumerate(text) if letter.isascii() and letter.isalpha()))
    return None if at is None else text[:at] + text[at].swapcase() + text[at + 1:]


def other_order(rng, text):
    at = any_of(rng, (at for at in range(len(text) - 1) if text[at] != text[at + 1]))
    return None if at is None else text[:at] + text[at + 1] + text[at] + text[at + 2:]


def time_changed(change):
    def changed(_, value):
        fields = change(*value.fields)
        return None if fields is None else Time(*fields)
    return value_changed([TIME], changed)


def same_local_time(date, hours, minutes, seconds, minus, half_hours):
    """An hour later in UTC, with an offset that is an hour less."""
    offset = (-half_hours if minus else half_hours) - 2
    return (date, hours + 1, minutes, seconds, offset < 0, abs(offset)) if hours < 23 and abs(offset) < 32 else None


def bearer_changed(change):
    def changed(rng, value):
        fields = change(rng, value.ensemble, value.sid, value.scids)
        return None if fields is None else Bearer(*fields)
    return value_changed([BEARER], changed)


def attribute_absent(rng, tree):
    node = holder(rng, tree, lambda node, _: node.meant())
    if node:
        node.attributes.remove(rng.choice(node.meant()))
    return bool(node)


def free_places(tree, pairs):
    """Elements that hold items, each with the tag of an attribute, of these pairs, that it has not."""
    return [(node, tag) for node, _ in with_depth(tree) for element, tag in pairs if element == node.tag and all(part.tag != tag for part in node.attributes)]


def attribute_more(pairs, octets):
    """An attribute of one of these pairs, with one of these octets, where there was none."""
    def way(rng, tree):
        choices = free_places(tree, pairs)
        if choices:
            node, tag = rng.choice(choices)
            node.attributes.append(Node(tag, Fixed(bytes([rng.choice(octets)]))))
        return bool(choices)
    return way


def other_than_default(rng, tree):
    """Another value where a default was."""
    part = any_of(rng, (part for node in tree.walk() for part in node.attributes if node.is_default(part)))
    if part:
        part.value = Fixed(bytes([rng.choice(OTHER_OCTETS)]))
    return bool(part)


def attribute_tag(rng, tree):
    """The value of an attribute under another tag, of the same kind, that the element has not."""
    choices = [(part, tag) for node, _ in with_depth(tree) for part in node.meant() for tag, kind in ATTRIBUTES[node.tag].items()
               if kind == kind_of(node, part) and all(other.tag != tag for other in node.attributes)]
    if choices:
        part, part.tag = rng.choice(choices)
    return bool(choices)


def values_exchanged(rng, tree):
    choices = [(a, b) for node, _ in with_depth(tree) for a in node.attributes for b in node.attributes
               if kind_of(node, a) == kind_of(node, b) and meaning(a)[1:] != meaning(b)[1:]]
    if choices:
        a, b = rng.choice(choices)
        a.value, b.value = b.value, a.value
    return bool(choices)


def empty_cdata(rng, tree):
    """Empty CDATA where there was none."""
    node = holder(rng, tree, lambda node, _: all(part.tag != 0x01 for part in node.children))
    if node:
        node.children.append(Node(0x01, Text([])))
    return bool(node)


def empty_language(_, tree):
    absent = all(part.tag != 0x06 for part in tree.children)
    if absent:
        tree.children.insert(0, Node(0x06, Text([])))
    return absent


def child_more(rng, tree):
    node = holder(rng, tree, lambda _, depth: depth < 16)
    node.children.insert(rng.randint(*span_of_elements(node.children)), Node(rng.choice(HOLDERS)))
    return True


def child_twice(rng, tree):
    choices = [(node, at) for node, _ in with_depth(tree) for at in range(*span_of_elements(node.children))]
    if choices:
        node, at = rng.choice(choices)
        node.children.insert(at, node.children[at].copy())
    return bool(choices)


def children_exchanged(rng, tree):
    choices = [(node, at) for node, _, at in neighbours(tree) if meaning(node.children[at]) != meaning(node.children[at + 1])]
    if choices:
        node, at = rng.choice(choices)
        node.children[at:at + 2] = reversed(node.children[at:at + 2])
    return bool(choices)


def child_deeper(rng, tree):
    """A child element becomes the last child element of the brother before it."""
    choices = [(node, at) for node, depth, at in neighbours(tree)
               if node.children[at].value is None and depth + 1 + height(node.children[at + 1]) <= 16]
    if choices:
        node, at = rng.choice(choices)
        into = node.children[at].children
        into.insert(span_of_elements(into)[1], node.children.pop(at + 1))
    return bool(choices)


def element_tag(tags):
    """Another of these tags for an element that has one, where its attributes are of the same kinds under both."""
    def way(rng, tree):
        choices = [(node, tag) for node, _ in with_depth(tree) for tag in tags if node.tag in tags and tag != node.tag
                   and all(ATTRIBUTES[tag].get(part.tag) == kind_of(node, part) for part in node.attributes)]
        if choices:
            node, node.tag = rng.choice(choices)
        return bool(choices)
    return way


def coordinates_tag(rng, tree):
    part = any_of(rng, (part for part in tree.walk() if part.tag in COORDINATES))
    if part:
        part.tag = sum(COORDINATES) - part.tag
    return bool(part)


OTHER_OCTETS = [octet for octet in range(256) if bytes([octet]) != DEFAULT]
WITHOUT_DEFAULT = [(element, tag) for element, known in ATTRIBUTES.items() for tag, kind in known.items() if kind == ENUM and (element, tag) not in DEFAULTS]

DIFFERENT = {
    "a number": octets_changed(NUMBER),
    "a short id": octets_changed(SHORT_ID),
    "an enumerated octet": octets_changed(ENUM),
    "plain octets": octets_changed(PLAIN),
    "one plain octet more": octets_changed(PLAIN, change=lambda rng, octets: octets + bytes([rng.choice([0, 0, 255])])),
    "a letter of CDATA": text_changed(other_letter, CDATA),
    "a letter of an attribute": text_changed(other_letter, TEXT),
    "a letter of the language": text_changed(other_letter, LANGUAGE),
    "a wide letter, as many characters": text_changed(lambda rng, text: other_letter(rng, text, "é€𝄞"), CDATA, TEXT, LANGUAGE),
    "capital or small": text_changed(other_case, CDATA, TEXT, LANGUAGE),
    "the order of two letters": text_changed(other_order, CDATA, TEXT, LANGUAGE),
    "a blank behind a text": text_changed(lambda _, text: text + " ", CDATA, TEXT, LANGUAGE),
    "a date": time_changed(lambda date, *others: (date - 1 if date else 1, *others)),
    "an hour": time_changed(lambda date, hours, *others: (date, (hours + 1) % 24, *others)),
    "a minute": time_changed(lambda date, hours, minutes, *others: (date, hours, (minutes + 1) % 60, *others)),
    "a second": time_changed(lambda *fields: (*fields[:3], (fields[3] + 1) % 60, *fields[4:])),
    "an offset, at the same instant": time_changed(lambda *fields: (*fields[:5], fields[5] + 1 if fields[5] < 31 else 0)),
    "plus or minus": time_changed(lambda *fields: (*fields[:4], not fields[4], fields[5]) if fields[5] else None),
    "an instant, at the same local time": time_changed(same_local_time),
    "ensemble or none": bearer_changed(lambda rng, ensemble, sid, scids: (b"" if ensemble else rng.randbytes(3), sid, scids)),
    "an ensemble": bearer_changed(lambda rng, ensemble, sid, scids: (flipped(rng, ensemble), sid, scids) if ensemble else None),
    "an SId": bearer_changed(lambda rng, ensemble, sid, scids: (ensemble, flipped(rng, sid), scids)),
    "an SId of 16 or 32 bits": bearer_changed(lambda _, ensemble, sid, scids: (ensemble, bytes(2) + sid, scids) if len(sid) == 2 else None),
    "an SCIdS": bearer_changed(lambda rng, ensemble, sid, scids: (ensemble, sid, scids ^ 1 << rng.randrange(4))),
    "an attribute or none": attribute_absent,
    "another value than a default, or none": attribute_more(DEFAULTS, OTHER_OCTETS),
    "a default or another value": other_than_default,
    "an octet that is no default, or none": attribute_more(WITHOUT_DEFAULT, DEFAULT),
    "an attribute's tag": attribute_tag,
    "the values of two attributes exchanged": values_exchanged,
    "empty CDATA or none": empty_cdata,
    "empty language or none": empty_language,
    "a child more": child_more,
    "a child twice": child_twice,
    "the order of children": children_exchanged,
    "a child one deeper": child_deeper,
    "the top's tag": element_tag([0x02, 0x03]),
    "an element's tag": element_tag(HOLDERS),
    "the tag of coordinates": coordinates_tag,
}


# ---- Ways to write the same ----------------------------------------------------------------------------
# Each changes the items of a normal form, or finds nothing to change in its way.

def written(node):
    """The items of a tree's normal form, each with the item of the tree that it writes."""
    return Raw(node.tag, node.value.normal if node.value is not None else [written(part) for part in node.ordered()], node=node)


def holding(rng, raw, fits=lambda part, depth: True):
    return any_of(rng, (part for part, depth in raw.walk() if isinstance(part.body, list) and fits(part, depth)))


def long_length(rng, raw):
    """A longer length form than an item needs; one above 65,535 octets, in a tree that is no object, has none."""
    part, _ = rng.choice(list(raw.walk()))
    size = len(part.octets())
    part.form = rng.choice([1, 2]) if size < 250 else 2
    return size <= 0xFFFF


def unknown_attribute(rng, raw):
    """An unknown attribute, which may stand there twice."""
    part = holding(rng, raw)
    tag = rng.choice([tag for tag in range(0x80, 0x90) if tag not in ATTRIBUTES[part.tag]] + [0xFF])
    for _ in range(rng.choice([1, 2])):
        part.body.insert(rng.randint(0, count_attributes(part.body)), Raw(tag, rng.randbytes(rng.choice([0, 1, 2, 5]))))
    return True


def unknown_element(rng, raw):
    part = holding(rng, raw, lambda _, depth: depth < 16)
    part.body.insert(rng.randint(*span_of_elements(part.body)), Raw(rng.choice(UNKNOWN_ELEMENTS), rng.randbytes(rng.choice([0, 1, 2, 9]))))
    return True


def default_written(element, tag):
    """The default of an attribute, in any place among the others, in one or more of the elements that have none."""
    def way(rng, raw):
        free = [part for part, _ in raw.walk() if part.tag == element and isinstance(part.body, list) and all(below.tag != tag for below in part.body)]
        for part in rng.sample(free, rng.randint(1, len(free)) if free else 0):
            part.body.insert(rng.randint(0, count_attributes(part.body)), Raw(tag, DEFAULT))
        return bool(free)
    return way


def defaults_written(rng, raw):
    """Defaults of more than one attribute."""
    return sum(default_written(*pair)(rng, raw) for pair in rng.sample(DEFAULTS, rng.randint(2, len(DEFAULTS)))) > 1


def attributes_exchanged(rng, raw):
    part = holding(rng, raw, lambda part, _: count_attributes(part.body) > 1)
    if part:
        at = rng.randrange(count_attributes(part.body) - 1)
        part.body[at:at + 2] = reversed(part.body[at:at + 2])
    return bool(part)


def body_changed(kind, change):
    """A value of this kind in the octets that `change` makes of it."""
    def way(rng, raw):
        part = any_of(rng, (part for part, _ in raw.walk() if isinstance(part.node.value, kind)))
        octets = change(rng, part.node.value) if part else None
        if octets is not None:
            part.body = octets
        return octets is not None
    return way


def time_written(**choices):
    """A time with what it can do without: seconds of 0, an offset octet of 0, minus 0."""
    def change(_, time):
        seconds, half_hours = time.fields[3], time.fields[5]
        if seconds and "long" in choices or half_hours and "offset" in choices:
            return None
        return time.octets(**{"long": seconds > 0, "offset": half_hours > 0, **choices})
    return body_changed(Time, change)


def time_reserved(rng, time):
    """Each reserved bit alone and all of them; a short time without offset has two."""
    seconds, half_hours = time.fields[3], time.fields[5]
    bits = [1 << 55, 1 << 37] + [1 << 8, 1 << 17] * (seconds > 0) + [1 << 6, 1 << 7] * (half_hours > 0)
    return time.octets(seconds > 0, half_hours > 0, reserved=rng.choice(bits + [(1 << 56) - 1]))


def put_table(raw, entries):
    raw.body.insert(count_attributes(raw.body), Raw(0x04, b"".join(bytes([tag, len(text)]) + text for tag, text in entries)))


def token(rng, raw):
    """A token for some letters of a text, or for none of them."""
    part = any_of(rng, (part for part, _ in raw.walk() if isinstance(part.node.value, Text)))
    if part is None:
        return False
    text = part.body.decode()
    first, end = sorted(rng.randint(0, len(text)) for _ in range(2))
    end = min(end, first + 60)  # at most four octets each
    tag = rng.choice(TOKEN_TAGS)
    part.body = text[:first].encode() + bytes([tag]) + text[end:].encode()
    put_table(raw, [(tag, text[first:end].encode())])
    return True


def unused_entries(rng, raw):
    put_table(raw, [(tag, b"unused"[:rng.randint(0, 6)]) for tag in rng.sample(TOKEN_TAGS, rng.choice([0, 1, 3, 16]))])
    return True


SAME = {
    "a long length": long_length,
    "an unknown attribute": unknown_attribute,
    "an unknown element": unknown_element,
    "main of a genre": default_written(0x14, 0x81),
    "no of a programme": default_written(0x1C, 0x83),
    "on-air of a programme": default_written(0x1C, 0x84),
    "no of an event": default_written(0x2E, 0x83),
    "on-air of an event": default_written(0x2E, 0x84),
    "defaults of several attributes": defaults_written,
    "the order of attributes": attributes_exchanged,
    "seconds of 0": time_written(long=True),
    "an offset of 0": time_written(offset=True),
    "an offset of minus 0": time_written(offset=True, minus_zero=True),
    "reserved bits of a time": body_changed(Time, time_reserved),
    "reserved bits of a bearer": body_changed(Bearer, lambda rng, bearer: bytes([bearer.first | rng.choice([0x80, 0x20, 0xA0])]) + bearer.rest),
    "a token": token,
    "entries that no text uses": unused_entries,
}

# One tree in two of its forms, each with defaults of its own. Neither need be the normal form, so that may be above 32,768 octets: no object then, but a meaning.
WRITTEN_TWICE = ("same", "all of it at once")
SWOLLEN_WAYS = [("different", way) for way in DIFFERENT] + [WRITTEN_TWICE]

WAYS = SWOLLEN_WAYS + [("same", way) for way in SAME]

# The ways that trees without plain octets can be changed in.
NAMED_WAYS = [(answer, way) for answer, way in WAYS if way not in ("plain octets", "one plain octet more", "the tag of coordinates")]


# ---- Pairs ---------------------------------------------------------------------------------------------

def drawn_pair(rng, answer, way, draw):
    """The items of two objects, or None where the tree that was drawn has nothing to change in this way."""
    maker = Maker(rng)
    tree = draw(maker)
    encoder = Encoder(maker, rng.choice([0, 0.1, 0.3]))
    if tree.too_long():
        return None
    if answer == "different":
        twin = tree.copy()
        if not DIFFERENT[way](rng, twin) or twin.too_long():
            return None
        assert meaning(tree) != meaning(twin), way
        return encoder.raw(tree), encoder.raw(twin)
    if (answer, way) == WRITTEN_TWICE:
        return encoder.raw(tree), encoder.raw(tree.with_other_defaults(rng))
    again = written(tree)
    if not SAME[way](rng, again):
        return None
    assert again.octets() != tree.normal(), way
    return written(tree), again


def known_pair(rng, answer, way, draw=random_tree):
    """The items of two accepted objects, of which the answer is true, in either order."""
    while True:
        pair = drawn_pair(rng, answer, way, draw)
        if pair is not None and max(len(raw.octets()) for raw in pair) <= OBJECT_LIMIT:
            return rng.sample(pair, 2)
