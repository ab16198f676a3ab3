"""The fixed edge cases of letters F and P: what is a word, what it saves, ties and the sixteenth, where texts stand, what is no normal form, other packers."""
from itertools import permutations, product

from edges import ANNEX_C, FAULTS, GOOD, entry, top
from edit_edges import VALUES
from folds import folded, packed
from make_cases import (ATTRIBUTES, COORDINATES, DEFAULT, DEFAULTS, FIELD_LIMIT, OBJECT_LIMIT, PLAIN, TEXT, TOKEN_TAGS, Fixed, Node, Text, case_f, case_p,
                        item)

ROOMS = 0, FIELD_LIMIT


def text(octets):
    return Text([(octets, 0)])


def element(tag, *children, attributes=()):
    node = Node(tag)
    node.attributes, node.children = list(attributes), list(children)
    return node


def said(*texts, tag=0x03):
    """A tree in which each text is the CDATA of an element that has no limit."""
    return element(tag, *(element(0x16, Node(0x01, text(octets))) for octets in texts))


def in_rooms(tree):
    """Packed in just the room that it needs, and in one octet less; the packer's object checked."""
    normal, answer = tree.normal(), packed(tree)
    yield case_p(len(answer), normal)
    yield case_p(len(answer) - 1, normal)
    yield case_f(normal, answer)


def tried(tree):
    """Packed in each room that could matter; and checked: the packer's object, the folded one even where it is longer, and both with the normal form."""
    normal, answer, longer = tree.normal(), packed(tree), folded(tree)
    for room in sorted({0, len(answer) - 1, len(answer), len(answer) + 1, len(normal) - 1, len(normal), FIELD_LIMIT}):
        yield case_p(room, normal)
    for first, second in ((normal, answer), (normal, longer), (normal, normal), (answer, normal), (answer, answer), (longer, longer)):
        yield case_f(first[:FIELD_LIMIT], second[:FIELD_LIMIT])


def word(number, size):
    """One of many words of so many letters."""
    letters = b""
    while len(letters) < size:
        letters += bytes([b"abcdefghijklmnopqrstuvwxyzABCDEFGHIJKLMNOPQRSTUVWXYZ"[number % 52]])
        number //= 52
    return letters


# ---- Words and what they save ------------------------------------------------------------------------------

def word_sizes():
    """Runs of three letters and four, of 255 and 256, in one text and in several, alone and behind others."""
    for size, uses in product((1, 2, 3, 4, 5, 6, 253, 254, 255, 256, 257, 510, 511), (1, 2, 3, 4)):
        yield from tried(said(b" ".join([b"a" * size] * uses)))
        yield from tried(said(*[b"B" * size] * uses))
        yield from tried(said(b"." + b".".join([b"z" * size] * uses) + b".", b"Z" * size))


def savings():
    """All small sizes and uses; one saves 0, another 1, and the table's own header takes two octets more."""
    for size, uses in product(range(4, 12), range(1, 6)):
        yield from tried(said(b" ".join([word(7, size)] * uses)))
        yield from tried(said(b" ".join([word(7, size)] * uses), b"wort " * 2, b"fives-fives"))
    for words in product((4, 5, 6, 7), repeat=2):
        yield from tried(said(b" ".join(word(number, size) for number, size in enumerate(words) for _ in range(2))))


def length_borders():
    """Texts, elements and tops whose length is at the border of two forms, before they are folded or behind it; tables there too."""
    for size in range(244, 262):
        for uses, letters in product((2, 3), (4, 5, 6, 7, 9)):
            words = b" ".join([word(3, letters)] * uses)
            yield from tried(said(words + b"." * (size - len(words))))
            yield from tried(element(0x03, Node(0x01, text(words + b"." * (size - len(words))))))
    for size, uses in product(range(247, 256), (2, 3)):
        yield from tried(said(*[b"w" * size] * uses))
        yield from tried(said(b" ".join([b"w" * size] * uses)))
        yield from tried(said(b" ".join([b"w" * (size - 20)] * uses + [b"v" * 16] * 2)))
    for count in range(10, 17):
        for size in (11, 12, 13, 14, 15, 16):
            yield from tried(said(b" ".join(word(number, size) for number in range(count) for _ in range(2))))


# ---- Which words -------------------------------------------------------------------------------------------

def ties():
    """Words of one saving in each order: four letters thrice and seven twice save three, five thrice and nine twice save five."""
    for order in permutations([b"four four four", b"seventh seventh", b"quad quad quad", b"septima septima"]):
        yield from tried(said(b" ".join(order)))
        yield from tried(said(*order))
    for order in permutations([b"fives", b"ninefolds", b"quint", b"noveniths"]):
        yield from tried(said(b" ".join([*order, *order, *(name for name in order if len(name) == 5)])))
    for first, second in permutations((b"alpha", b"Alpha", b"alphA", b"omega"), 2):
        yield from tried(said(*[first, second] * 3))
        yield from tried(said(second + b" " + first, *[first + b"," + second] * 2))


def many_words():
    """Sixteen words, one fewer and more, of one saving; with savings that rise and fall, and the last best."""
    for count in (1, 2, 8, 9, 10, 14, 15, 16, 17, 18, 32, 60):
        same, rising = [word(number, 5) for number in range(count)], [word(number, 5 + number) for number in range(count)]
        for words in (same, rising, rising[::-1], same + [b"bestofall"], rising[::2] + rising[1::2]):
            yield from tried(said(b" ".join(words * 3)))
        yield from tried(said(*(b" ".join([name] * (3 + number)) for number, name in enumerate(same))))
        yield from tried(said(*(b" ".join([name] * (3 + count - number)) for number, name in enumerate(same))))


def beside():
    """Each ASCII octet and wide letters before a word, behind it and between two; letters of either case are letters, and no others."""
    others = [bytes([octet]) for octet in [0x09, 0x0A, 0x0D, *range(0x20, 0x80)]]
    others += [letter.encode() for letter in ("é", "ñ", "ß", "Ω", "e\u0301", "ﬁ", "Ａ", "ａ", "€", "𝄞", "\u0131", "\u0660", "\u00a0")]
    for other in others:
        yield from tried(said(other.join([b"Word", b"Word", b"Word", b"Word"])))
        yield from tried(said(other + b"Words", b"Words" + other, b"Words", b"Words" + other + b"Words"))
    for wrong in (b"Word", b"WORD", b"worD", b"wor", b"words"):
        yield from tried(said(b"word word word " + b" ".join([wrong] * 3)))


def parts_of_words():
    """A word within a longer one isn't one."""
    for longer in (b"Evenings", b"GoodEvening", b"EveningEvening", b"Even", b"vening"):
        yield from tried(said(b"Evening " * 3 + longer))
        yield from tried(said(b" ".join([b"Evening", longer] * 3)))


# ---- Where texts stand -------------------------------------------------------------------------------------

def every_text():
    """Words in each attribute that is text and in each CDATA; in the top's own; in the language; in two of them."""
    for tag, known in ATTRIBUTES.items():
        texts = [attribute for attribute, kind in known.items() if kind == TEXT]
        for attributes in [[attribute] for attribute in texts] + [texts, texts[::-1]]:
            node = element(tag, attributes=[Node(attribute, text(b"crids-crids crids")) for attribute in attributes])
            yield from tried(node if tag < 0x04 else element(0x02, node))
            node = element(tag, Node(0x01, text(b"crids")), attributes=[Node(attribute, text(b"crids/crids")) for attribute in attributes])
            yield from tried(node if tag < 0x04 else element(0x03, Node(0x06, text(b"crids")), node, Node(0x01, text(b"crids"))))
    for language, inner, last in product((b"", b"lang", b"lang lang lang"), repeat=3):
        children = [Node(0x06, text(language)), element(0x16, Node(0x01, text(inner))), Node(0x01, text(last))]
        yield from tried(element(0x03, *children))
        yield from tried(element(0x02, *children[::2]))
        yield from tried(element(0x03, *children, attributes=[Node(0x83, text(last)), Node(0x82, text(inner)), Node(0x80, Fixed(b"la"))]))


def table_places():
    """Behind the top's attributes, of which there are none or some, before the language and all others."""
    words = b"table table table"
    attributes = [Node(0x80, Fixed(b"\x01\x02")), Node(0x81, Fixed(VALUES["time"])), Node(0x82, text(words)), Node(0x83, text(b"x"))]
    children = [Node(0x06, text(b"en")), Node(0x34, Fixed(words)), element(0x16, Node(0x01, text(words))), Node(0x01, text(words))]
    for first, second in product(range(5), range(5)):
        yield from tried(element(0x03, *children[second:], attributes=attributes[:first]))
        yield from tried(element(0x03, *children[:second], attributes=attributes[first:]))
        yield from tried(element(0x02, *children[second:]))


def no_texts():
    """Letters in what is no text: plain octets, numbers, identifiers and octets by name; neither a use nor a first use, so that the order stays."""
    words = b"Words Words Words Words"
    for tag, both in product(COORDINATES, (b"other other other Words Words Words", b"other other other other Words Words Words")):
        yield from tried(element(0x03, element(0x32, Node(tag, Fixed(words))), element(0x16, Node(0x01, text(both)))))
        yield from tried(element(0x03, element(0x14, attributes=[Node(0x80, Fixed(words))]), element(0x16, Node(0x01, text(both)))))
    for tag in COORDINATES:
        yield from tried(element(0x03, element(0x32, Node(tag, Fixed(words)), Node(tag, Fixed(words)))))
        yield from tried(element(0x03, element(0x32, Node(tag, Fixed(words))), element(0x16, Node(0x01, text(b"Words Words Words")))))
    for above, kinds in ATTRIBUTES.items():
        for tag, kind in kinds.items():
            if kind == PLAIN:
                yield from tried(element(0x03, *[element(above, attributes=[Node(tag, Fixed(words))])] * 3))
    member = element(0x17, attributes=[Node(0x81, Fixed(b"ABC")), Node(0x82, Fixed(b"DE"))])
    yield from tried(element(0x02, *[member] * 5, Node(0x01, text(b"ABCDE"))))
    for size in (0x41, 0x5A, 0x61, 0x7A):  # lengths that are letters, before a text of letters
        yield from tried(said(*[b"q" * size] * 3))


def nothing_to_fold():
    """No texts, empty ones, short words, each word once."""
    for tag in (0x02, 0x03):
        yield from tried(element(tag))
        yield from tried(element(tag, Node(0x06, text(b"")), Node(0x01, text(b""))))
        yield from tried(said(b"", b"", tag=tag))
        yield from tried(said(b"to be or not to be " * 9, tag=tag))
        yield from tried(said(b"Every word stands only once here", tag=tag))


def largest():
    """Objects of 32,768 octets: as many words as can be, each once or all the same; one octet more is none."""
    for total in (OBJECT_LIMIT - 1, OBJECT_LIMIT, OBJECT_LIMIT + 1):
        size = total - 8
        count = size // 5
        for words in (b"four " * count, b" ".join(word(number, 4) for number in range(count)), b" ".join(word(number % 700, 4) for number in range(count)),
                      b"a" * (size // 2) + b" " + b"b" * (size // 3)):
            yield from in_rooms(element(0x03, Node(0x01, text((words + b" " * size)[:size]))))
    yield from in_rooms(said(*[word(number, 255) + b" " + word(number, 255) for number in range(60)]))
    yield from in_rooms(element(0x03, *[element(0x16)] * 16381))
    yield from in_rooms(element(0x03, *[element(0x16, attributes=[Node(0x80, text(b"word"))])] * 4095))


# ---- What is no normal form, and refused octets ---------------------------------------------------------------

NORMAL = said(b"Evening news, Evening news", b"Evening")
EVENING = b"Evening news, Evening news", b"Evening"


def both_ways(octets, others):
    """Packed, with any room; and checked beside these, in both places."""
    for room in ROOMS:
        yield case_p(room, octets)
    yield case_f(octets, octets)
    for other in others:
        yield case_f(octets, other)
        yield case_f(other, octets)


def no_normal_forms():
    """Attributes out of order, a default, a table, unknown items, long lengths, reserved bits, long times: the octets, and the normal form of each."""
    cdata = item(0x16, item(0x01, EVENING[0]))
    short, full = item(0x82, b"o"), item(0x83, b"s")
    time, bearer = bytes.fromhex("30D413 1E02"), bytes.fromhex("40E1CE15C224")
    pairs = [(top(full, short, cdata), top(short, full, cdata)), (top(item(0x90), cdata), top(cdata)), (top(item(0x07), cdata), top(cdata)),
             (top(cdata, item(0x7F, cdata)), top(cdata)), (top(item(0x04), cdata), top(cdata)), (top(item(0x04, entry(1, b"Evening")), cdata), top(cdata)),
             (top(item(0x29, item(0x80, b"\xe0" + bearer[1:])), cdata), top(item(0x29, item(0x80, bearer)), cdata)),
             (top(item(0x81, b"\xb0" + time[1:]), cdata), top(item(0x81, time), cdata)),
             (top(item(0x81, time[:4] + b"\xc2"), cdata), top(item(0x81, time), cdata)),
             (top(item(0x81, bytes.fromhex("30D4100020")), cdata), top(item(0x81, bytes.fromhex("30D40000")), cdata)),
             (top(item(0x81, bytes.fromhex("30D408000000")), cdata), top(item(0x81, bytes.fromhex("30D40000")), cdata))]
    pairs += [(top(item(above, item(tag, DEFAULT)), cdata), top(item(above), cdata)) for above, tag in DEFAULTS]
    for form in (1, 2):
        pairs += [(item(0x03, cdata, form), top(cdata)), (top(item(0x16, item(0x01, EVENING[0]), form)), top(cdata)),
                  (top(item(0x16, item(0x01, EVENING[0], form))), top(cdata)), (top(item(0x82, b"o", form), cdata), top(short, cdata))]
    for octets, normal in pairs:
        yield from both_ways(octets, [normal, top(), ANNEX_C])
        yield case_p(FIELD_LIMIT, normal)
    for size, form in product((253, 254, 255), (0, 1, 2)):
        yield from both_ways(top(item(0x01, b"w" * size, form)), [top(item(0x01, b"w" * size))])


def refused_octets():
    """Faults by themselves and beside good items; nothing at all, and more than an object may have."""
    for fault in FAULTS:
        yield from both_ways(top(fault), [top(), NORMAL.normal()])
        yield from both_ways(top(fault) + b"\x00", [top(fault)])
        for good in GOOD:
            yield case_p(FIELD_LIMIT, top(good, fault))
            yield case_f(top(good), top(good, fault))
    for octets in (b"", b"\x03", b"\x03\x01", b"\x04\x00", b"\x03\x00\x00", bytes(OBJECT_LIMIT), bytes(OBJECT_LIMIT + 1), bytes(FIELD_LIMIT)):
        yield from both_ways(octets, [b"", top(), NORMAL.normal()])
    for size in range(len(ANNEX_C)):
        yield case_p(FIELD_LIMIT, ANNEX_C[:size])
        yield case_f(ANNEX_C, ANNEX_C[:size])
    for at, change in product(range(len(ANNEX_C)), (0x01, 0x20, 0x80)):
        changed = ANNEX_C[:at] + bytes([ANNEX_C[at] ^ change]) + ANNEX_C[at + 1:]
        yield case_p(FIELD_LIMIT, changed)
        yield case_f(ANNEX_C, changed)
        yield case_f(changed, changed)


# ---- Other packers -----------------------------------------------------------------------------------------

def other_packers():
    """Any tokens, unused entries, parts that are no words, tables in another order, damaged ones; all beside the same normal form."""
    normal = NORMAL.normal()

    def check(table, *texts, behind=b""):
        body = b"".join(item(0x16, item(0x01, octets)) for octets in texts)
        return case_f(normal, top(item(0x04, table), behind, body))
    for tag in range(0x100):
        yield check(entry(tag, b"Evening"), bytes([tag]) + b" news, " + bytes([tag]) + b" news", bytes([tag]))
    for first, second in product(TOKEN_TAGS, repeat=2):
        one, two = bytes([first]), bytes([second])
        yield check(entry(first, b"Evening") + entry(second, b" news"), one + two + b", " + one + two, one)
    for unused in (b"", b"x", b"Evening", b"unused", b"\x02", b"\xff", b"a" * 255):
        for entries in (entry(1, b"Evening") + entry(2, unused), entry(2, unused) + entry(1, b"Evening")):
            yield check(entries, b"\x01 news, \x01 news", b"\x01")
            yield check(entries, b"\x01\x02 news, \x01 news", b"\x01")
    for part, one in ((b"Evening news", b"\x01, \x01"), (b"Evening news, ", b"\x01Evening news"), (b"vening", b"E\x01 news, E\x01 news"),
                      (b"", b"\x01Evening\x01 news, Evening news"), (b"ning news", b"Eve\x01, Eve\x01"), (EVENING[0], b"\x01"),
                      (b"e", b"Ev\x01ning n\x01ws, Ev\x01ning n\x01ws")):
        for last in (b"Evening", b"E\x01", b"Ev\x01ning", b"\x01"):
            yield check(entry(1, part), one, last)
            yield check(entry(0x13, part), one.replace(b"\x01", b"\x13"), last.replace(b"\x01", b"\x13"))
    for table in (b"", b"\x01", b"\x01\x08Evening", entry(1, b"Evening") * 2, entry(1, b"\x02") + entry(2, b"Evening"), entry(1, "Év".encode()),
                  entry(1, b"evening")):
        yield check(table, b"\x01 news, \x01 news", b"\x01")
        yield check(table, *EVENING)
    words = item(0x16, item(0x01, b"\x01 news, \x01 news")), item(0x16, item(0x01, b"\x01"))
    table = item(0x04, entry(1, b"Evening"))
    for parts in permutations((table, *words)):
        yield case_f(normal, top(*parts))
        yield case_f(normal, top(*parts, tag=0x02))
    for extra in (table, item(0x04), item(0x06, b"en"), item(0x90), item(0x07), item(0x01), item(0x01, b"\x01"), item(0x16), item(0x82, b"\x01"), b"\x00",
                  b"\x16"):
        yield case_f(normal, top(table, extra, *words))
        yield case_f(normal, top(extra, table, *words))
        yield case_f(normal, top(table, *words, extra))
        yield case_f(normal, top(table, *words) + extra)
        yield case_f(normal, top(table, words[0], item(0x16, item(0x01, b"\x01") + extra)))
    for form, inner, last in product((0, 1, 2), repeat=3):
        body = table + item(0x16, item(0x01, b"\x01 news, \x01 news", last), inner) + words[1]
        yield case_f(normal, item(0x03, body, form))


def equal_lengths():
    """Proposals one octet shorter than the normal form, as long, and longer: by unknown items, by long lengths, by entries that aren't used."""
    tree = said(b"Words Words Words Words Words Words Words Words Words Words Words Words Words")
    normal, answer = tree.normal(), packed(tree)
    body = answer[2:]
    spare = len(normal) - len(answer)
    for size in range(spare - 4, spare + 4):
        yield case_f(normal, top(item(0x90, bytes(size - 2)), body))
        yield case_f(normal, top(body, item(0x07, bytes(size - 2))))
        table_end = 2 + body[1]
        yield case_f(normal, top(item(0x04, body[2:table_end] + entry(0x13, b"x" * (size - 2))), body[table_end:]))
    for form in (0, 1, 2):
        yield case_f(normal, item(0x03, normal[2:], form))
        yield case_f(normal, item(0x03, body, form))


def expanded():
    """Texts that tokens make large: to 32,768 octets and more, beside just these octets; and names that are too long then."""
    table = item(0x04, entry(0x01, b"radio" * 51))
    for rest in (119, 120, 121):
        octets = top(table, item(0x01, b"\x01" * 128 + b"a" * rest))
        normal = top(item(0x01, b"radio" * 51 * 128 + b"a" * rest))
        yield from both_ways(octets, [normal])
        yield from both_ways(normal, [normal])
    octets, whole = top(table, item(0x01, b"\x01" * 250)), top(item(0x01, b"radio" * 51 * 250))
    yield from both_ways(octets, [whole, whole[:OBJECT_LIMIT]])
    for letters in (7, 8, 9):
        name = item(0x10, item(0x01, b"n" * letters))
        yield from both_ways(top(item(0x04, entry(1, b"n" * letters)), item(0x10, item(0x01, b"\x01")) * 3), [top(name * 3)])


def same_octets_elsewhere():
    """A token in each text that can hold one, the top's own attributes among them, with and without its entry."""
    for has_entry in (True, False):
        table = item(0x04, entry(1, b"longer words") if has_entry else b"")
        for tag in (0x82, 0x83):
            yield case_f(top(item(tag, b"longer words" * 2)), top(item(tag, b"\x01\x01"), table))
        yield case_f(top(item(0x82, b"longer words") + item(0x83, b"longer words")), top(item(0x83, b"\x01"), item(0x82, b"\x01"), table))
        yield case_f(top(item(0x06, b"longer words" * 2)), top(table, item(0x06, b"\x01\x01")))
        yield case_f(top(item(0x01, b"longer words" * 2)), top(table, item(0x01, b"\x01\x01")))
        yield case_f(top(item(0x34, b"longer words" * 2)), top(table, item(0x34, b"\x01\x01")))
        yield case_f(top(item(0x28, item(0x31, item(0x80, b"longer words") + item(0x81, b"longer words")))),
                     top(table, item(0x28, item(0x31, item(0x81, b"\x01") + item(0x80, b"\x01")))))


def fold_edge_cases():
    for group in (word_sizes, savings, length_borders, ties, many_words, beside, parts_of_words, every_text, table_places, no_texts, nothing_to_fold, largest,
                  no_normal_forms, refused_octets, other_packers, equal_lengths, expanded, same_octets_elsewhere):
        yield from group()
