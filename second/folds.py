"""Folding (document 02, request 2026-11), from 01 and 02 alone: what the plain packer makes of a tree, what other packers might propose, random cases of both.

The packer stands here in another form than in the second program: over the texts of a tree, whose runs of letters are found by a pattern and sorted.
"""
import re
from collections import Counter
from types import SimpleNamespace

from make_cases import FIELD_LIMIT, OBJECT_LIMIT, SHOWN, TOKEN_TAGS, Encoder, Fixed, Maker, Node, Text, case_f, case_p, damage, lent
from meanings import span_of_elements, written

PASSES, NOT_FOLDED = "passes", "refused 22 at 0"
RUN = re.compile(rb"[A-Za-z]+")


# ---- The plain packer ------------------------------------------------------------------------------------

def texts(node):
    """The texts of a tree in the reading order of its normal form."""
    return [node.value.normal] if isinstance(node.value, Text) else [text for part in node.ordered() for text in texts(part)]


def saved(word, uses):
    return uses * (len(word) - 1) - (len(word) + 2)


def chosen_words(tree):
    """The words that get a token, by octets saved; of those that save as much the earlier first, since a counter keeps the order and sorting does."""
    uses = Counter(run for text in texts(tree) for run in RUN.findall(text) if 4 <= len(run) <= 255)
    return sorted((word for word in uses if saved(word, uses[word]) > 0), key=lambda word: -saved(word, uses[word]))[:len(TOKEN_TAGS)]


def retold(tree, change):
    """A copy with what `change` makes of each text."""
    twin = tree.copy()
    for node in twin.walk():
        if isinstance(node.value, Text):
            node.value = change(node.value.normal)
    return twin


def table_of(entries):
    return Node(0x04, Fixed(b"".join(bytes([tag, len(text)]) + text for tag, text in entries)))


def folded(tree):
    """The tree with tokens and their table, whether it is shorter or not; as octets, lengths in their shortest form."""
    tokens = {word: bytes([tag]) for tag, word in zip(TOKEN_TAGS, chosen_words(tree))}
    twin = retold(tree, lambda text: Fixed(RUN.sub(lambda run: tokens.get(run[0], run[0]), text)))
    twin.children.insert(0, table_of((token[0], word) for word, token in tokens.items()))
    return twin.normal()


def packed(tree):
    return min(tree.normal(), folded(tree), key=len)  # the normal form where both are as long


# ---- Trees with words ------------------------------------------------------------------------------------

BETWEEN = [" "] * 12 + ["", ", ", ". ", "-", "'", "7", "\n", "é", "e\u0301", "€", "𝄞", "@", "[", "`", "{", "\x7f"]


class WordMaker(Maker):
    """Makes trees without tokens whose texts are of few words, most of them used often."""

    def __init__(self, rng):
        self.rng, self.table = rng, {}
        alphabet = rng.choice(["ab", "aAzZ", "abcdefghijklmnopqrstuvwxyzABCDEFGHIJKLMNOPQRSTUVWXYZ"])
        sizes = rng.choice([[4, 5], [3, 4, 5, 6], [1, 2, 3, 4, 5, 6, 7, 8, 12], [4, 8, 40, 254, 255, 256]])
        self.words = ["".join(rng.choices(alphabet, k=rng.choice(sizes))) for _ in range(rng.choice([1, 2, 3, 5, 10, 16, 17, 18, 40]))]

    def sentence(self, octets):
        """Words with something between them, until there are so many octets."""
        text = ""
        while len(text.encode()) < octets:
            text += self.rng.choice(self.words) + self.rng.choice(BETWEEN)
        return text

    def letters(self, size):
        return self.sentence(size).encode()[:size].decode(errors="ignore").encode()

    def text(self, limit=FIELD_LIMIT):
        sizes = [0, 4, 5, 12, 20, 30, 60, 60, 100, 150] if self.rng.random() < 0.9 else [250, 253, 254, 260, 300, 600]
        return Text([(self.letters(min(self.rng.choice(sizes), limit)), 0)])

    def shown_text(self, tag):
        return self.text(SHOWN.get(tag, FIELD_LIMIT))

    def worded_tree(self):
        rng = self.rng
        tree = self.fill(Node(rng.choice([0x02, 0x03, 0x03])), 1, rng.choice([0, 1, 2, 4, 8, 12, 20, 40]))
        for _ in range(rng.choice([0, 1, 2])):
            branch = Node(rng.choice([0x13, 0x16, 0x18, 0x19]))
            branch.children.append(Node(0x01, self.text()))
            tree.children.insert(rng.randint(*span_of_elements(tree.children)), branch)
        return tree


def random_worded(rng):
    """A tree with words whose normal form is an object."""
    while True:
        tree = WordMaker(rng).worded_tree()
        if len(tree.normal()) <= OBJECT_LIMIT:
            return tree


# ---- What other packers propose ----------------------------------------------------------------------------

def part_of(rng, text):
    """Some letters of a text that follow each other, at most 255 octets."""
    letters = text.decode()
    first = rng.randrange(len(letters) + 1)
    return letters[first:first + rng.choice([0, 1, 2, 4, 6, 20])].encode()[:255].decode(errors="ignore").encode()


def other_table(rng, tree):
    """Entries of any packer: words and other parts of the texts, and some that stand nowhere; tags in any order, any of them."""
    found = texts(tree)
    words = chosen_words(tree) or [run for text in found for run in RUN.findall(text)[:20] if len(run) <= 255]
    table = {}
    for tag in rng.sample(TOKEN_TAGS, rng.choice([0, 1, 1, 2, 3, 5, 16])):
        roll = rng.random()
        if roll < 0.6 and words:
            table[tag] = rng.choice(words)
        elif roll < 0.9 and found:
            table[tag] = part_of(rng, rng.choice(found))
        else:
            table[tag] = rng.choice([b"", b"nowhere"])
    return table


def in_pieces(rng, text, table):
    """A text whose parts that are entries may be written by their tokens; now and then with a token that stands for nothing."""
    tags = {entry: tag for tag, entry in table.items()}
    parts = sorted((entry for entry in tags if entry), key=len, reverse=rng.random() < 0.8)
    at, pieces = 0, []
    for match in re.finditer(b"|".join(map(re.escape, parts)), text) if parts else []:
        pieces += [(text[at:match.start()], 0), (match[0], tags[match[0]])]
        at = match.end()
    if b"" in tags and rng.random() < 0.1:
        pieces.append((b"", tags[b""]))
    return Text(pieces + [(text[at:], 0)])


def proposal(rng, tree):
    """The items of another packer's object of the same meaning: attributes in any order, now and then unknown items, long lengths and defaults."""
    table = other_table(rng, tree)
    twin = retold(tree.with_other_defaults(rng) if rng.random() < 0.2 else tree, lambda text: in_pieces(rng, text, table))
    return Encoder(SimpleNamespace(rng=rng, table=table), rng.choice([0, 0, 0, 0.02, 0.1])).raw(twin)


def changed(rng, tree):
    """The plain packer's object with one octet changed, or another object."""
    octets = packed(tree) if rng.random() < 0.8 else packed(random_worded(rng))
    at = rng.randrange(len(octets))
    return octets[:at] + bytes([octets[at] ^ 1 << rng.randrange(8)]) + octets[at + 1:]


# ---- Random cases ------------------------------------------------------------------------------------------

def random_check(rng):
    """Most often a normal form, and what a packer may propose for it."""
    tree = random_worded(rng)
    normal, roll = tree.normal(), rng.random()
    if roll < 0.2:
        given = packed(tree)
    elif roll < 0.7:
        given = proposal(rng, tree).octets()
    elif roll < 0.8:
        given = changed(rng, tree)
    else:
        given = damage(rng, proposal(rng, tree))
    first = normal if rng.random() < 0.9 else rng.choice([given, proposal(rng, tree).octets(), damage(rng, written(tree))])
    return case_f(first[:FIELD_LIMIT], given[:FIELD_LIMIT])


def random_packing(rng):
    """Most often a normal form, and a room that just does, or doesn't."""
    tree, roll = random_worded(rng), rng.random()
    octets = tree.normal() if roll < 0.8 else proposal(rng, tree).octets() if roll < 0.9 else damage(rng, written(tree))
    return case_p(lent(rng, len(packed(tree)), FIELD_LIMIT), octets[:FIELD_LIMIT])
