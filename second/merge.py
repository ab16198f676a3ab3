"""Merging Basic and Advanced (document 02, request 2026-10), from 01, 02 and 002 (5.2 to 5.4, annex D) alone: what two trees become, and random pairs.

`outcome` says it over the trees of make_cases.py.  Tables 8 to 10 and annex D's column of parents stand here by their names, so that which elements have a
key follows from them.  `drawn_pair` draws pairs: two parts of one day, most often with something at odds; one object twice; an empty top; any two objects.
"""
import re
from collections import Counter

from as_xml import CODES, pairs_named
from make_cases import (ATTRIBUTES, DEFAULT, DEFAULTS, FIELD_LIMIT, OBJECT_LIMIT, SHOWN, TOKEN_TAGS, Encoder, Fixed, Maker, Node, Text, case_m, damage, lent,
                        random_tree)
from meanings import OTHER_OCTETS, any_of, meaning, span_of_elements

BY_TAG, BY_BEARERS = SERVICES = range(2)
CONTRADICTION, KEY_TWICE, TOO_FEW_PLACES, TOO_LARGE = 20, 21, 14, 15
LANGUAGE, CDATA = 0x06, 0x01
TOPS = 0x02, 0x03

# Tables 8 to 10, without the column of delivery systems.
MERGING_ATTRIBUTES = """
serviceInformation: version
serviceInformation.ensemble: id
serviceInformation.ensemble.service.bearer: id
serviceInformation.service.bearer: id
epg.schedule: version
programme: shortId
epg.programmeGroups: version
epg.programmeGroup: shortId
"""

# Table D.1: an element that holds items, its code, and its possible parents.  Of two codes with one name, the first is the parent.
POSSIBLE_PARENTS = """
shortName 10: programmeGroup, ensemble, service, programme, programmeEvent
mediumName 11: programmeGroup, ensemble, service, programme, programmeEvent
longName 12: programmeGroup, ensemble, service, programme, programmeEvent
mediaDescription 13: programmeGroup, ensemble, service, programme, programmeEvent
genre 14: programmeGroup, service, programme, programmeEvent
keywords 16: programmeGroup, ensemble, service, programme, programmeEvent
memberOf 17: programmeGroup, programme, programmeEvent
link 18: programmeGroup, ensemble, service, programme, programmeEvent
location 19: programme, programmeEvent
shortDescription 1A: mediaDescription
longDescription 1B: mediaDescription
programme 1C: schedule
programmeGroups 20: epg
schedule 21: epg
programmeGroup 23: programmeGroups
scope 24: schedule
serviceScope 25: scope
ensemble 26: serviceInformation
service 28: ensemble, serviceInformation
bearer 29: service
multimedia 2B: mediaDescription
time 2C: location
bearer 2D: location, onDemand
programmeEvent 2E: programme
relativeTime 2F: location
radiodns 31: service
geolocation 32: service, bearer
country 33: geolocation
onDemand 36: programme, programmeEvent
presentationTime 37: onDemand
acquisitionTime 38: onDemand
"""


def lines_of(table):
    return [line.split(": ") for line in table.strip().split("\n")]


def children_of_annex_d():
    """Of each element the elements that may stand in it."""
    children = {}
    for child, parents in lines_of(POSSIBLE_PARENTS):
        for parent in parents.split(", "):
            children.setdefault(CODES[parent][0], []).append(int(child.split()[1], 16))
    return children


def merging_attributes():
    """The attribute that is an element's key, by the last name of a path; a top is told from nothing, so its row is no key."""
    keys = {}
    for path, attribute in lines_of(MERGING_ATTRIBUTES):
        name = path.split(".")[-1]
        code = CODES[name][0]
        if code not in TOPS:
            keys[code] = dict(pairs_named(name, attribute))[code]
    return keys


CHILDREN = children_of_annex_d()
KEYS = merging_attributes()
BEARER = CODES["bearer"][0]


def can_hold_named(tag):
    """Whether an element of this tag can hold one that tables 8 to 10 name, directly or below."""
    return any(child in KEYS or can_hold_named(child) for child in CHILDREN.get(tag, []) if child != tag)


UNNAMED = [tag for tag in ATTRIBUTES if tag not in KEYS and tag not in TOPS and can_hold_named(tag)]
assert UNNAMED == CODES["service"], "services are the only ones that the parameter has to tell apart"


# ---- What two trees become ---------------------------------------------------------------------------------

def key(node, services):
    """The merging key of an item, or None where it has none."""
    if node.tag in KEYS:
        return node.tag, next((meaning(part) for part in node.attributes if part.tag == KEYS[node.tag]), None)
    if node.tag not in UNNAMED:
        return None
    bearers = [part for part in node.children if part.tag == BEARER]
    return node.tag, frozenset(key(bearer, services) for bearer in bearers) if services else None


def pairs_of_one_key(basic, advanced, services):
    """Each child of the one with each child of the other that has its key."""
    partners = {}
    for part in advanced.children:
        partners.setdefault(key(part, services), []).append(part)
    return [(part, partner) for part in basic.children if key(part, services) for partner in partners.get(key(part, services), [])]


def one_of(node, tag):
    return next((part for part in node.children if part.tag == tag), None)


def contradict(basic, advanced, services):
    """Whether two elements that become one contradict each other, or a pair below them does."""
    values = {part.tag: meaning(part) for part in basic.meant()}
    first, second = one_of(basic, LANGUAGE), one_of(advanced, LANGUAGE)
    return (basic.tag != advanced.tag
            or any(values.get(part.tag, meaning(part)) != meaning(part) for part in advanced.meant())
            or bool(first and second) and meaning(first) != meaning(second)
            or bool(one_of(basic, CDATA) and one_of(advanced, CDATA))
            or any(contradict(*pair, services) for pair in pairs_of_one_key(basic, advanced, services)))


def has_key_twice(tree, services):
    """Whether an element anywhere in a tree holds one key twice."""
    for node in tree.walk():
        keys = Counter(key(part, services) for part in node.children)
        del keys[None]
        if keys and max(keys.values()) > 1:
            return True
    return False


def bare(node):
    """A copy without defaults."""
    twin = node.copy()
    for part in twin.walk():
        part.attributes = part.meant()
    return twin


def merged(basic, advanced, services):
    """What two elements become that don't contradict each other and hold no key twice."""
    both = Node(basic.tag, basic.value)
    ours, theirs = ([part for part in node.children if part.tag not in (LANGUAGE, CDATA)] for node in (basic, advanced))
    partners = {id(part): partner for part, partner in pairs_of_one_key(basic, advanced, services)}
    taken, known = {id(partner) for partner in partners.values()}, {meaning(part) for part in ours}
    values = {part.tag: part for part in advanced.meant() + basic.meant()}
    both.attributes = [part.copy() for part in values.values()]
    both.children = [merged(part, partners[id(part)], services) if id(part) in partners else bare(part) for part in ours]
    both.children += [bare(part) for part in theirs if id(part) not in taken and meaning(part) not in known]
    language, cdata = (one_of(basic, tag) or one_of(advanced, tag) for tag in (LANGUAGE, CDATA))
    both.children = [part.copy() for part in [language] if part] + both.children + [part.copy() for part in [cdata] if part]
    return both


def outcome(basic, advanced, services):
    """The refusal of two accepted objects, 20 or 21, and no tree; or 0 and the tree that they become."""
    if contradict(basic, advanced, services):
        return CONTRADICTION, None
    if has_key_twice(basic, services) or has_key_twice(advanced, services):
        return KEY_TWICE, None
    return 0, merged(basic, advanced, services)


def line_of(refusal, tree, places, store):
    """The line that is printed for an outcome."""
    if not refusal and tree.records() > places:
        refusal = TOO_FEW_PLACES
    if not refusal and (tree.store() > store or len(tree.normal()) > OBJECT_LIMIT):
        refusal = TOO_LARGE
    return f"refused {refusal} at 0" if refusal else f"merged {tree.normal().hex()}"


# ---- Days --------------------------------------------------------------------------------------------------

def without_twins(node, services):
    """Takes out of a tree, in place, each child whose key, or whose meaning, a brother before it has."""
    found, left = set(), []
    for part in node.children:
        if part.value is None:
            without_twins(part, services)
        marks = {key(part, services) or meaning(part), meaning(part)}
        if not marks & found:
            left.append(part)
        found |= marks
    node.children = left
    return node


def fill_day(maker, node, depth):
    """Gives an element of a day attributes, most often its key, what annex D lets stand in it, and CDATA now and then."""
    rng = maker.rng
    for tag, kind in ATTRIBUTES[node.tag].items():
        if rng.random() < (0.9 if tag == KEYS.get(node.tag) else 0.3):
            node.attributes.append(Node(tag, maker.value(kind)))
    for tag in CHILDREN.get(node.tag, []):
        told_apart = tag in KEYS or tag in UNNAMED
        for _ in range(rng.choice([0, 1, 1, 2, 3]) if told_apart else rng.choice([0] * 8 + [1, 1, 2])):
            node.children.append(fill_day(maker, Node(tag), depth + 1))
    if rng.random() < 0.05:
        node.children.append(maker.fill(Node(rng.choice(list(KEYS) + UNNAMED + [0x16, 0x33])), depth + 1, 4))
    rng.shuffle(node.children)
    if rng.random() < (0.8 if not CHILDREN.get(node.tag) else 0.1):
        node.children.append(Node(CDATA, maker.shown_text(node.tag) if rng.random() < 0.1 else maker.text(SHOWN.get(node.tag, FIELD_LIMIT))))
    return node


def day(maker):
    """A tree in the order of annex D, of service information or of programmes and groups."""
    tree = fill_day(maker, Node(maker.rng.choice(TOPS)), 1)
    if maker.rng.random() < 0.4:
        tree.children.insert(0, Node(LANGUAGE, maker.text()))
    return tree


# ---- Two parts of a day ------------------------------------------------------------------------------------

BASIC, ADVANCED, BOTH = (True, False), (False, True), (True, True)


def split(rng, node, services, shared):
    """Two parts that become a tree again but for the order of its children.  `shared` is how often both have what one of them could have alone."""
    parts = Node(node.tag), Node(node.tag)
    for part in node.attributes:
        places = BOTH if part.tag == KEYS.get(node.tag) or rng.random() < shared else rng.choice([BASIC, ADVANCED])
        for twin, has in zip(parts, places):
            twin.attributes += [part.copy()] * has
    for part in node.children:
        is_bearer = node.tag in UNNAMED and part.tag == BEARER and services == BY_BEARERS  # all of them are the key of their service
        if key(part, services) and (is_bearer or rng.random() < 0.6):
            twins = split(rng, part, services, shared)
        else:
            places = BOTH if part.tag != CDATA and not key(part, services) and rng.random() < shared else rng.choice([BASIC, ADVANCED])
            twins = [part.copy() if has else None for has in places]
        for twin, below in zip(parts, twins):
            twin.children += [below] * (below is not None)
    return parts


def pairs_below(basic, advanced, services):
    """Two elements that become one, and all such pairs below them; none where the tops differ."""
    if basic.tag == advanced.tag:
        yield basic, advanced
        for pair in pairs_of_one_key(basic, advanced, services):
            yield from pairs_below(*pair, services)


# ---- What can be at odds -----------------------------------------------------------------------------------
# Each changes two parts of a day, where they have something for it.

def some_pair(rng, trees, services, fits=lambda basic, advanced: True):
    return any_of(rng, (pair for pair in pairs_below(*trees, services) if fits(*pair)))


def put_attribute(node, tag, value):
    node.attributes = [part for part in node.attributes if part.tag != tag] + [Node(tag, value)]


def put_cdata(node, texts):
    node.children = [part for part in node.children if part.tag != CDATA] + [Node(CDATA, text) for text in texts]


def two_values(maker, trees, services):
    """One attribute in both elements of a pair, which may be a key; now and then with one value."""
    pair = some_pair(maker.rng, trees, services, lambda basic, _: ATTRIBUTES[basic.tag])
    if pair:
        tag, kind = maker.rng.choice(list(ATTRIBUTES[pair[0].tag].items()))
        values = [maker.value(kind), maker.value(kind)]
        for node, value in zip(pair, values if maker.rng.random() < 0.7 else values[:1] * 2):
            put_attribute(node, tag, value)


def default_and_value(maker, trees, services):
    """A default in one element of a pair; none, the same or another value in the other."""
    rng, elements = maker.rng, [element for element, _ in DEFAULTS]
    pair = some_pair(rng, trees, services, lambda basic, _: basic.tag in elements)
    if pair:
        tag = rng.choice([tag for element, tag in DEFAULTS if element == pair[0].tag])
        for node, octet in zip(rng.sample(pair, 2), (DEFAULT, rng.choice([None, DEFAULT, bytes([rng.choice(OTHER_OCTETS)])]))):
            node.attributes = [part for part in node.attributes if part.tag != tag]
            if octet:
                put_attribute(node, tag, Fixed(octet))


def two_cdata(maker, trees, services):
    """CDATA in both elements of a pair, the same every other time."""
    pair = some_pair(maker.rng, trees, services)
    if pair:
        texts = [maker.shown_text(pair[0].tag), maker.shown_text(pair[0].tag)]
        for node, text in zip(pair, texts if maker.rng.random() < 0.5 else texts[:1] * 2):
            put_cdata(node, [text])


def languages(maker, trees, _):
    """A language in both, the same every other time; it may be empty."""
    texts = [maker.text(), maker.text()]
    for tree, text in zip(trees, texts if maker.rng.random() < 0.5 else texts[:1] * 2):
        tree.children = [Node(LANGUAGE, text)] + [part for part in tree.children if part.tag != LANGUAGE]


def tops_differ(maker, trees, _):
    tree = maker.rng.choice(trees)
    tree.tag, tree.attributes = sum(TOPS) - tree.tag, []


def twice(maker, trees, services):
    """A key a second time under its parent, in one of the two: all of the element, or only what is its key."""
    rng, tree = maker.rng, maker.rng.choice(trees)
    found = any_of(rng, ((node, part) for node in tree.walk() for part in node.children if key(part, services)))
    if found:
        node, part = found
        twin = part.copy()
        if rng.random() < 0.5:
            twin.attributes = [below for below in twin.attributes if below.tag == KEYS.get(part.tag)]
            twin.children = [below for below in twin.children if below.tag == BEARER]
        node.children.insert(rng.randint(*span_of_elements(node.children)), twin)


def twin_at_odds(maker, trees, services):
    """One element of a pair a second time under its parent: the second alone contradicts their partner, since both have CDATA."""
    rng = maker.rng
    found = any_of(rng, ((above, pair) for above in pairs_below(*trees, services) for pair in pairs_of_one_key(*above, services)))
    if found:
        above, pair = found
        which = rng.randrange(2)
        twin, children = pair[which].copy(), above[which].children
        put_cdata(pair[which], [])
        put_cdata(twin, [maker.text(8)])
        put_cdata(pair[1 - which], [maker.text(8)])
        children.insert(rng.randint(*span_of_elements(children)), twin)


def key_gone(maker, trees, services):
    """A key that is no longer there, in one element of a pair or in both."""
    pair = some_pair(maker.rng, trees, services, lambda basic, _: basic.tag in KEYS)
    for node in maker.rng.sample(pair, maker.rng.choice([1, 2])) if pair else []:
        node.attributes = [part for part in node.attributes if part.tag != KEYS[node.tag]]


def bearer_gone(maker, trees, services):
    """A bearer that only one of two services has, or one a second time."""
    pair = some_pair(maker.rng, trees, services, lambda basic, _: basic.tag in UNNAMED)
    bearers = [part for part in pair[0].children if part.tag == BEARER] if pair else []
    if bearers:
        bearer = maker.rng.choice(bearers)
        if maker.rng.random() < 0.5:
            pair[0].children.remove(bearer)
        else:
            pair[0].children.insert(0, bearer.copy())


def in_other_order(maker, trees, _):
    """The child elements of one element in another order: bearers are a set, children aren't."""
    node = any_of(maker.rng, (node for tree in trees for node in tree.walk() if node.value is None))
    first, end = span_of_elements(node.children)
    node.children[first:end] = maker.rng.sample(node.children[first:end], end - first)


def repeated(maker, trees, services):
    """A child of one element of a pair, any but language and CDATA, in the other too, once or twice, now and then with a default more."""
    rng, pair = maker.rng, some_pair(maker.rng, trees, services)
    source, target = rng.sample(pair, 2) if pair else trees
    part = any_of(rng, source.children[slice(*span_of_elements(source.children))]) if pair else None
    for _ in range(rng.choice([1, 1, 2]) if part else 0):
        twin = part.with_other_defaults(rng)
        target.children.insert(rng.randint(*span_of_elements(target.children)), twin)


ODDS = [two_values, two_values, default_and_value, two_cdata, languages, tops_differ, twice, twice, twin_at_odds, key_gone, bearer_gone, in_other_order,
        repeated, repeated]


# ---- Pairs -------------------------------------------------------------------------------------------------

def drawn_day(maker, services):
    draw = maker.rng.choice([day, day, day, random_tree])
    return without_twins(draw(maker), services)


def split_day(maker, services):
    return split(maker.rng, drawn_day(maker, services), services, 0)


def shared_day(maker, services):
    return split(maker.rng, drawn_day(maker, services), services, 0.2)


def day_at_odds(maker, services):
    trees = shared_day(maker, services)
    for _ in range(maker.rng.choice([1, 1, 1, 2, 3])):
        maker.rng.choice(ODDS)(maker, trees, services)
    return trees


def any_object(maker, services):
    """With or without keys that are twice."""
    tree = maker.rng.choice([day, random_tree])(maker)
    return tree if maker.rng.random() < 0.3 else without_twins(tree, services)


def with_itself(maker, services):
    tree = any_object(maker, services)
    return tree, tree.copy()


def with_empty(maker, services):
    tree = any_object(maker, services)
    return maker.rng.sample([tree, Node(tree.tag)], 2)


def any_two(maker, services):
    return any_object(maker, services), any_object(maker, services)


class Spelling:
    """A table of tokens for one tree, whose texts are spelt anew in place; an Encoder takes it as it takes a Maker."""

    def __init__(self, rng, tree):
        self.rng, self.table = rng, {}
        texts = [node for node in tree.walk() if isinstance(node.value, Text)]
        for tag in rng.sample(TOKEN_TAGS, rng.choice([0, 0, 1, 2, 4])) if texts else []:
            letters = rng.choice(texts).value.normal.decode()
            first = rng.randint(0, len(letters))
            self.table[tag] = letters[first:first + rng.choice([0, 1, 2, 3, 8, 60])].encode()
        for node in texts:
            node.value = Text(self.pieces(node.value.normal))

    def pieces(self, text):
        """A text cut at the entries that it holds, wherever one begins first; an empty entry may stand before it."""
        tags = {word: tag for tag, word in self.table.items()}
        pieces, at = [(b"", tags[b""])] if b"" in tags else [], 0
        for found in re.finditer(b"|".join(re.escape(word) for word in tags if word) or b"(?!)", text):
            pieces += [(text[at:found.start()], 0), (found[0], tags[found[0]])]
            at = found.end()
        return pieces + [(text[at:], 0)]


class Merging:
    """Two trees and how services are told apart, with the objects that were made of them."""

    def __init__(self, services, trees):
        self.services, self.trees = services, trees
        self.refusal, self.tree = outcome(*trees, services)

    def written(self, rng):
        """The octets of both, each in one of its forms with tokens of its own."""
        forms = []
        for tree in self.trees:
            twin = tree.with_other_defaults(rng) if rng.random() < 0.3 else tree.copy()
            forms.append(Encoder(Spelling(rng, twin), rng.choice([0, 0, 0.05, 0.2])).raw(twin))
        return forms

    def case(self, places, store, forms):
        return case_m(self.services, places, store, *forms)

    def answer(self, places, store):
        return line_of(self.refusal, self.tree, places, store)


KINDS = {"parts of a day": split_day, "parts of a day that share": shared_day, "parts of a day at odds": day_at_odds, "an object and itself": with_itself,
         "an object and an empty top": with_empty, "any two objects": any_two}


def drawn_merging(rng, draw):
    """Two objects of one kind, accepted, with their octets."""
    while True:
        services = rng.choice(SERVICES)
        trees = draw(Maker(rng), services)
        if any(tree.too_long() for tree in trees):
            continue
        merging = Merging(services, trees)
        forms = merging.written(rng)
        if max(len(raw.octets()) for raw in forms) <= OBJECT_LIMIT:
            return merging, forms


def random_merging(rng):
    merging, forms = drawn_merging(rng, rng.choice([day_at_odds] * 4 + list(KINDS.values())))
    damaged = rng.choice([0] * 12 + [1, 2, 3])
    octets = [damage(rng, raw)[:FIELD_LIMIT] if damaged & bit else raw.octets() for bit, raw in zip((1, 2), forms)]
    needs = (0, 0) if merging.refusal else (merging.tree.records(), merging.tree.store())
    return merging.case(lent(rng, needs[0], 65535), lent(rng, needs[1], FIELD_LIMIT), octets)
