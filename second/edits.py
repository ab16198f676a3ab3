"""Edits of trees (document 02, request 2026-06), from documents 01, 02 and 002 alone: what they make of the maker's trees, and random runs of them.

`Edited` says what a tree in lent memory answers to an edit and what it writes, over the trees of make_cases.py.  `Editor` draws edits of which it is known
what they do by themselves: good ones, and ones that 18 or 16 refuse; 14 and 15 follow from what is lent.
"""
from make_cases import (BAD_OCTETS, CHILDREN, COORDINATES, FIELD_LIMIT, HOLDERS, OBJECT_LIMIT, PLAIN, SHOWN, TEXT, UNKNOWN_ELEMENTS, Encoder,
                        Maker, Node, Raw, Text, case_e, characters_in, damage, damage_octets, damage_value, edit_d, edit_i, edit_t, header, random_raw)
from meanings import CDATA, LANGUAGE, kind_of, written

SIZE_LIMIT = 65535  # octets that can come with an edit
DEEPEST = 16


# ---- What edits make of a tree -------------------------------------------------------------------------

def listed(raw):
    """The tree that was written, as its records stand: attributes in the order in which they stand in the octets, and texts without tokens."""
    value = raw.node.value
    tree = Node(raw.tag, Text([(value.normal, 0)]) if isinstance(value, Text) else value)
    for part in raw.body if value is None else []:
        if part.node is not None:
            (tree.attributes if part.tag >= 0x80 else tree.children).append(listed(part))
    return tree


def with_parents(node, parent=None, depth=1):
    """Each item of a tree in record order, with its parent and its depth."""
    yield node, parent, depth
    for part in node.items():
        yield from with_parents(part, node, depth + 1)


def height(element):
    return 1 + max((height(part) for part in element.children if part.tag != 0x01), default=0)


def child_elements(node):
    return [part for part in node.children if part.tag != 0x01]


def sizes(node):
    """The size of each body in normal form, in record order.  A default has its octet, and adds nothing to its element."""
    if node.value is not None:
        return [len(node.value.normal)]
    below = [(part, sizes(part)) for part in node.items()]
    own = sum(len(header(part.tag, size)) + size for part, (size, *_) in below if not node.is_default(part))
    return [own] + [size for _, parts in below for size in parts]


class Edit:
    """An edit: its octets, the refusal that it asks for by itself (18, 16 or 0), and else what it does to a tree."""

    def __init__(self, octets, refusal=0, change=None):
        self.octets, self.refusal, self.change = octets, refusal, change


def replaced(record, text, refusal=0):
    def change(tree):
        list(tree.walk())[record].value = Text([(text, 0)])
    return Edit(edit_t(record, text), refusal, change)


def removed(record, refusal=0):
    def change(tree):
        node, parent, _ = list(with_parents(tree))[record]
        (parent.attributes if node.tag >= 0x80 else parent.children).remove(node)
    return Edit(edit_d(record), refusal, change)


def put_in(parent, place, octets, element=None, refusal=0):
    """CDATA is the last child, so a place among the child elements is one among the children."""
    def change(tree):
        list(tree.walk())[parent].children.insert(place, element.copy())
    return Edit(edit_i(parent, place, octets), refusal, change)


class Edited:
    """A tree in lent memory."""

    def __init__(self, tree, places, store):
        self.tree, self.places, self.store = tree, places, store

    def too_much(self, tree):
        """The refusal of a tree that breaks no rule, for what is lent; 0 where it fits."""
        if tree.records() > self.places:
            return 14
        return 15 if tree.store() > self.store or len(tree.normal()) > OBJECT_LIMIT else 0

    def answer(self, edit):
        """The line that an edit is answered with; the tree changes only where it is made."""
        refusal = edit.refusal
        if not refusal:
            tree = self.tree.copy()
            edit.change(tree)
            refusal = self.too_much(tree)
        if refusal:
            return f"refused {refusal} at 0"
        self.tree = tree
        return "edited"

    def lines(self):
        """What is printed behind the edits."""
        return [f"written {self.tree.normal().hex()}", "sizes " + " ".join(str(size) for size in sizes(self.tree))]


# ---- Elements that can't be put in ---------------------------------------------------------------------

# Items that are refused wherever they stand in an element that is no top: by rules 4 and 10, and by 12, since there is no table.
NOWHERE = [bytes.fromhex(octets) for octets in "0000 0200 0300 0400 0403010174 0600 0602656E 010100 010101 010113 0101FF 0103EE8080".split()]
NO_ELEMENTS = [0x00, 0x01, 0x02, 0x03, 0x04, *UNKNOWN_ELEMENTS, 0x80, 0x81, 0xFF]


def cut_off(rng, raw):
    octets = raw.octets()
    return octets[:rng.randrange(len(octets))]


def more_behind(rng, raw):
    return raw.octets() + rng.choice([b"\x00", b"\x10\x00", b"\x01\x00", raw.octets(), rng.randbytes(3)])


def longer_length(rng, raw):
    raw.lie = rng.choice([1, 2, 3, 200, 60000])
    return raw.octets()


def no_element(rng, raw):
    raw.tag = rng.choice(NO_ELEMENTS)
    return raw.octets()


def bad_item(rng, raw):
    """An item that is refused anywhere, in any place of a list in it."""
    items = rng.choice(list(raw.lists()) or [None])
    if items is None:
        return None
    octets = rng.choice(NOWHERE)
    items.insert(rng.randint(0, len(items)), Raw(octets[0], octets[2:]))
    return raw.octets()


def attribute_twice(rng, raw):
    known = [(part.body, below) for part, _ in raw.walk() if isinstance(part.body, list) for below in part.body if below.node and below.tag >= 0x80]
    if not known:
        return None
    items, twin = rng.choice(known)
    items.insert(0, twin.copy())
    return raw.octets()


def bad_value(rng, raw):
    return raw.octets() if damage_value(rng, raw) else None


def bad_text(rng, raw):
    texts = [part for part, _ in raw.walk() if part.node and isinstance(part.node.value, Text)]
    if not texts:
        return None
    part = rng.choice(texts)
    part.body = spoiled_text(rng, part.body)
    return raw.octets()


def too_deep(rng, raw):
    """Below so many elements one is at depth 17 wherever the outermost stands, be it known or not."""
    inner = rng.choice([raw, Raw(rng.choice(UNKNOWN_ELEMENTS), b"")])
    for _ in range(DEEPEST):
        inner = Raw(rng.choice(HOLDERS), [inner])
    return inner.octets()


def too_large(rng, raw):
    """More octets than an object may have, most of them in an attribute that is unknown."""
    if not isinstance(raw.body, list):
        return None
    raw.body.insert(0, Raw(0x90, bytes(rng.choice([OBJECT_LIMIT, 40000]))))
    return raw.octets()


SPOILED = [lambda rng, raw: b"", cut_off, more_behind, longer_length, no_element, bad_item, bad_item, attribute_twice, bad_value, bad_text, too_deep, too_large]


def spoiled(rng, raw):
    """Octets that can be put in nowhere."""
    while True:
        octets = rng.choice(SPOILED)(rng, raw.copy())
        if octets is not None and len(octets) <= SIZE_LIMIT:
            return octets


def spoiled_text(rng, text):
    """A text with something bad at the end of one of its characters; without a table a token octet is bad too."""
    letters = text.decode()
    at = rng.randint(0, len(letters))
    return letters[:at].encode() + rng.choice(BAD_OCTETS) + letters[at:].encode()


# ---- Random edits --------------------------------------------------------------------------------------

class Editor:
    """Draws edits of a tree as it stands.  Each way to draw one answers None where the tree has nothing for it."""

    def __init__(self, rng, edited, normal=False):
        self.rng, self.edited, self.normal = rng, edited, normal
        self.maker = Maker(rng)
        self.maker.table = {}  # what is put in has no tokens

    def pick(self, fits):
        """A record that fits, with its number, parent and depth."""
        found = [(record, *place) for record, place in enumerate(with_parents(self.edited.tree)) if fits(*place)]
        return self.rng.choice(found) if found else None

    def none_such(self):
        """A number that no record has."""
        count = self.edited.tree.records()
        return self.rng.choice([count, count, count + 1, max(count, 255), max(count, 256), 65535])

    def pick_text(self):
        return self.pick(lambda node, parent, _: is_text(node, parent))

    def fitting_size(self, node):
        """A size for a text by which a body comes to 253 or 254 octets or near, or the store is full or nearly so."""
        rng, tree, size = self.rng, self.edited.tree, len(node.value.normal)
        more = rng.choice([253 - rng.choice(sizes(tree)), self.edited.store - tree.store(), 253 - size])
        wanted = size + more + rng.choice([-4, -2, -1, 0, 0, 0, 1, 1, 2])
        return wanted if 0 <= wanted <= 4000 else rng.choice([253, 254])

    def full_size(self, record):
        """A size for a text by which the whole form is full, or has one octet too many or too few; headers around it grow too, so it is looked for twice."""
        tree = self.edited.tree.copy()
        node = list(tree.walk())[record]
        for _ in range(2):
            node.value = Text([(b"a" * (len(node.value.normal) + OBJECT_LIMIT - len(tree.normal())), 0)])
        return len(node.value.normal) + self.rng.choice([-1, 0, 0, 1])

    def text(self):
        """Another text for one; too many characters for a name are refused."""
        picked = self.pick_text()
        if picked is None:
            return None
        record, node, parent, _ = picked
        if self.edited.store > OBJECT_LIMIT and self.rng.random() < 0.15:
            text = b"a" * self.full_size(record)
        elif self.rng.random() < 0.3:
            text = self.maker.letters(self.fitting_size(node))
        else:
            text = (self.maker.shown_text(parent.tag) if node.tag == 0x01 else self.maker.text()).normal
        too_long = node.tag == 0x01 and characters_in(text) > SHOWN.get(parent.tag, FIELD_LIMIT)
        return replaced(record, text, 16 if too_long else 0)

    def bad_text(self):
        picked = self.pick_text()
        return replaced(picked[0], spoiled_text(self.rng, self.maker.text().normal), 16) if picked else None

    def no_text(self):
        """A text, good or bad, for what is none."""
        picked = self.pick(lambda node, parent, _: not is_text(node, parent))
        record = self.none_such() if self.rng.random() < 0.3 else picked[0]
        text = self.maker.text().normal
        return replaced(record, spoiled_text(self.rng, text) if self.rng.random() < 0.3 else text, 18)

    def removal(self):
        """Small items more often than large ones, so that trees live on."""
        picked = [self.pick(lambda _, parent, __: parent is not None) for _ in range(2)]
        return removed(min(picked, key=lambda one: one[1].records())[0]) if picked[0] else None

    def no_removal(self):
        return removed(self.rng.choice([0, self.none_such()]), 18)

    def element(self, depth):
        """An element for this depth, often one of the tree's own; where it is too deep, or has a text that is too long, it is refused."""
        rng, roll = self.rng, self.rng.random()
        own = self.pick(lambda node, parent, _: parent is not None and node.tag < 0x80 and node.tag not in (0x01, 0x06)) if roll < 0.25 else None
        if own:
            return own[1].copy()
        if roll < 0.35:
            return Node(rng.choice(COORDINATES), self.maker.value(PLAIN))
        if roll < 0.42:
            return Node(0x06, self.maker.text())
        budget = rng.choice([0, 0, 1, 2, 3, 5, 8, 8, 20])
        element = self.maker.fill(Node(rng.choice(CHILDREN)), min(depth, DEEPEST), budget)
        if roll > 0.95:
            for _ in range(max(0, rng.choice([15, 16, 17]) - depth - height(element) + 1)):
                outer = Node(rng.choice(HOLDERS))
                outer.children.append(element)
                element = outer
        return element.with_other_defaults(rng) if rng.random() < 0.3 else element

    def drawn_insertion(self):
        """An element, one of its forms, and where to put it in: record, place, parent and depth."""
        record, parent, _, depth = self.pick(lambda node, *_: node.value is None)
        element = self.element(depth + 1)
        encoder = Encoder(self.maker, self.rng.choice([0, 0, 0.1, 0.3]))
        raw = written(element) if self.normal else encoder.raw(element, min(depth + 1, DEEPEST))
        place = self.rng.randint(0, len(child_elements(parent)))
        if element.tag == 0x06 and self.rng.random() < 0.7:
            record, place, parent, depth = 0, 0, self.edited.tree, 1
        return raw, record, place, parent, depth

    def insertion(self):
        raw, record, place, parent, depth = self.drawn_insertion()
        element, octets = listed(raw), raw.octets()
        if len(octets) > SIZE_LIMIT:
            return None
        refused = len(octets) > OBJECT_LIMIT or depth + height(element) > DEEPEST or element.too_long() or not in_order(parent, place, element)
        return put_in(record, place, octets, element, 16 if refused else 0)

    def bad_insertion(self):
        raw, record, place, *_ = self.drawn_insertion()
        return put_in(record, place, spoiled(self.rng, raw), refusal=16)

    def no_insertion(self):
        """An element, good or bad, for a record that there isn't, for one that holds no items, or for a place that there isn't."""
        raw, record, place, parent, _ = self.drawn_insertion()
        wrong = self.pick(lambda node, *_: node.value is not None)
        roll = self.rng.randrange(3)
        if roll == 0:
            record = self.none_such()
        elif roll == 1 and wrong:
            record = wrong[0]
        else:
            last = len(child_elements(parent))
            place = self.rng.choice([last + 1, last + 1, last + 2, 65535])
        octets = spoiled(self.rng, raw) if self.rng.random() < 0.3 else raw.octets()
        return put_in(record, place, octets, refusal=18) if len(octets) <= SIZE_LIMIT else None

    def damaged_insertion(self):
        """Octets of which it isn't known whether they are an element; most often they aren't, so the tree is taken to be as before."""
        raw, record, place, *_ = self.drawn_insertion()
        octets = damage(self.rng, raw) if self.rng.random() < 0.8 else damage_octets(self.rng, raw.octets())
        return put_in(record, place, octets, refusal=16) if len(octets) <= SIZE_LIMIT else None

    def draw(self, ways):
        while True:
            edit = self.rng.choice(ways)(self)
            if edit is not None:
                return edit


KNOWN = ([Editor.text] * 9 + [Editor.removal] * 6 + [Editor.insertion] * 9
         + [Editor.bad_text, Editor.no_text, Editor.no_removal, Editor.bad_insertion, Editor.bad_insertion, Editor.no_insertion])
ALL = KNOWN + [Editor.damaged_insertion] * 4


def is_text(node, parent):
    return node.value is not None and kind_of(parent, node) in (TEXT, CDATA, LANGUAGE)


def in_order(parent, place, element):
    """Whether an element may stand there among its brothers: the language is the top's, the first child element, and the only one."""
    has_language = any(part.tag == 0x06 for part in parent.children)
    if element.tag == 0x06:
        return parent.tag in (0x02, 0x03) and place == 0 and not has_language
    return place > 0 or not has_language


# ---- Random runs ---------------------------------------------------------------------------------------

class Run:
    """An object, what is lent, and edits; `answer` has the lines that must be printed, where all of it is known."""

    def __init__(self, places, store, octets):
        self.places, self.store, self.octets = places, store, octets
        self.edits, self.answer = [], []

    def case(self):
        return case_e(self.places, self.store, self.octets, self.edits)

    def without(self, indexes):
        """The same run without some of its edits."""
        twin = Run(self.places, self.store, self.octets)
        twin.edits = [edit for index, edit in enumerate(self.edits) if index not in indexes]
        return twin


def lent_for(rng, need, most):
    """What to lend where `need` takes the object in: often no more, or so much more that some edits fit."""
    more = rng.choice([0, 0, 0, 1, 2, 3, 5, 10, 20, 50, 200, most, most])
    return max(0, min(most, need + more if rng.random() < 0.97 else need - 1))


def run_of(rng, tree, octets, ways, normal=False):
    """A run of edits on an object that holds this tree; where `normal` is asked for, elements are put in by their normal forms."""
    edited = Edited(tree, lent_for(rng, tree.records(), 65535), lent_for(rng, tree.store(), FIELD_LIMIT))
    run, editor = Run(edited.places, edited.store, octets), Editor(rng, edited, normal)
    refusal = edited.too_much(tree)
    for _ in range(rng.choice([0, 1, 1, 1, 2, 2, 3, 4, 6, 10, 20, 50])):
        edit = editor.draw(ways)
        run.edits.append(edit.octets)
        if not refusal:
            run.answer.append(edited.answer(edit))
    run.answer = [f"refused {refusal} at 0"] if refusal else run.answer + edited.lines()
    return run


def known_run(rng):
    """A run of which all answers are known."""
    while True:
        _, tree, raw = random_raw(rng)
        if not tree.too_long():
            return run_of(rng, listed(raw), raw.octets(), KNOWN)


def normal_run(rng):
    """A run on a normal form, by normal forms: its records stand as those of what it writes, none of them has its default."""
    while True:
        _, tree, _ = random_raw(rng)
        raw = written(tree)
        if not tree.too_long() and len(raw.octets()) <= OBJECT_LIMIT:
            return run_of(rng, listed(raw), raw.octets(), KNOWN, True)


def random_run(rng):
    """A run with elements of which it isn't known whether they can be put in; now and then the object is damaged too."""
    _, _, raw = random_raw(rng)
    octets = damage(rng, raw)[:FIELD_LIMIT] if rng.random() < 0.12 else raw.octets()
    return run_of(rng, listed(raw), octets, ALL)
