#!/usr/bin/env python3
"""Checks laws that hold for any right program:  check_laws.py PROGRAM SEED COUNT [--letters LNWSXEGCFPJM]

For random trees, of which the maker knows the meaning: each way to write a tree has the tree's normal
form, its number of records and just its needs in store and room; a normal form is its own normal form
and is listed; the writer makes it of the tree's records; and both ways to write a tree mean the same.
Defaults count for records and store, and not for room; the normal form has none, and two ways to write
a tree have each its own.
Where a text of the tree has too many characters, its normal form is refused there, and its records too.
Where values of a tree are made bad, the first is refused, by all letters, with the field of a time that was made wrong; where
a default stands twice, the second is.
Beside each tree, a pair of meanings.py that is known to mean the same or not; the ways to make one take turns, so
COUNT is at least the number of ways.  Then such pairs whose normal forms are no objects, since they are too large.

Of XML: a tree without plain octets has the XML that the maker makes of it, however it is written, in just its room; with
plain octets it is refused at the first of them.  Two objects of a pair without plain octets have the same XML exactly where
they mean the same, and that is UTF-8 and well-formed, by Python's own parser.

Of edits, where E is among the letters: the laws of edit_laws.py, on runs of three kinds, COUNT of each.  Of the gate, where G is: those of gate_laws.py, on
trees of seven kinds, COUNT of each, and on its edge cases.  Of the count of headers, where C is: those of header_laws.py, on COUNT trees, three times as many
objects, and its edge cases; of the same with no list, where J is.  Of folding, where F or P is: those of fold_laws.py, on COUNT trees, twice as many cases,
and its edge cases.  Of merging, where M is: those of merge_laws.py, on COUNT pairs of each kind, and its edge cases.  No others where there are no other
letters.
"""
import argparse
import random
import sys
from xml.parsers import expat

from as_xml import KINDS, has_plain, xml
from edit_laws import broken_edit_laws
from fold_laws import broken_fold_laws
from merge_laws import broken_merge_laws
from gate_laws import broken_gate_laws
from header_laws import broken_header_laws, broken_no_list_laws
from make_cases import (CASE_LETTERS, COORDINATES, DEFAULT, FIELD_LIMIT, JUDGED, OBJECT_LIMIT, PLAIN, TIME, Bad, Encoder, Fixed, Maker, Node, case_l, case_n,
                        case_s, case_w, case_x, make_records, named_tree, random_raw)
from meanings import NAMED_WAYS, SWOLLEN_WAYS, WAYS, known_pair, random_tree, valued, written
from streams import run, split_answers

TOO_LARGE = "refused 15 at 0"


def pair_law(rng, answer, way, draw=random_tree):
    """What is tried, the case and the answer."""
    first, second = known_pair(rng, answer, way, draw)
    return f"{answer}: {way}", case_s(first.octets(), second.octets()), answer


def records_of(rng, tree):
    pool, records = bytearray(), []
    make_records(rng, tree, 1, 0, pool, records)
    return records, bytes(pool)


def over_laws(rng, tree):
    """The same for a tree with such a text, whatever is lent."""
    normal = tree.normal()
    _, place = written(tree).first_item(lambda parent, part: parent.node.is_over(part.node))
    records, pool = records_of(rng, tree)
    yield case_l(rng.choice([0, 65535]), normal), f"refused 13 at {place}"
    yield case_n(rng.choice([0, 65535]), 65536, 65536, normal), f"refused 13 at {place}"
    yield case_w(len(records), records, rng.choice([0, 65536]), pool), "refused 16 at 0"
    yield case_s(normal, normal), f"refused 13 at {place} in first"
    yield case_s(b"\x03\x00", normal), f"refused 13 at {place} in second"


def tree_laws(rng):
    """Pairs of a case and the last line that its answer must have."""
    while True:
        maker, tree, raw = random_raw(rng)
        twin = tree.with_other_defaults(rng)
        normal, octets, again = tree.normal(), raw.octets(), Encoder(maker, 0.3).raw(twin).octets()
        if max(len(normal), len(again)) > OBJECT_LIMIT:
            continue
        if not tree.too_long():
            break
        yield from over_laws(rng, tree)
    records, pool = records_of(rng, tree)
    count, store, room = tree.records(), tree.store(), len(normal)
    count_left, store_left = count - tree.defaults(), store - tree.defaults()
    yield case_l(count, octets), f"records {count}"
    yield case_l(count_left, normal), f"records {count_left}"
    yield case_l(count - 1, octets), "refused 14 at 0"
    yield case_n(count, store, room, octets), f"normal {normal.hex()}"
    yield case_n(twin.records(), twin.store(), room, again), f"normal {normal.hex()}"
    yield case_n(count_left, store_left, room, normal), f"normal {normal.hex()}"
    yield case_n(count - 1, store, room, octets), "refused 14 at 0"
    yield case_n(count, store, room - 1, octets), "refused 15 at 0"
    if store > 0:
        yield case_n(count, store - 1, room, octets), "refused 15 at 0"
    yield case_w(count, records, room, pool), f"written {normal.hex()}"
    yield case_w(count, records, room - 1, pool), "refused 15 at 0"
    yield case_s(octets, again), "same"
    yield case_s(normal, octets), "same"


def is_plain(parent, part):
    return part.tag in COORDINATES or KINDS.get((parent.tag, part.tag)) == PLAIN


def xml_laws(rng, draw):
    """The XML of a tree in two of its forms, in just its room; or the refusal, whatever the room."""
    while True:
        maker, tree, raw = random_raw(rng, draw)
        again = Encoder(maker, 0.3).raw(tree.with_other_defaults(rng))
        if len(again.octets()) <= OBJECT_LIMIT and not tree.too_long() and (has_plain(tree) or len(xml(tree)) <= FIELD_LIMIT):
            break
    for form in (raw, again):
        if has_plain(tree):
            yield case_x(rng.choice([0, FIELD_LIMIT]), form.octets()), f"refused 17 at {form.first_item(is_plain)[1]}"
        else:
            octets = xml(tree)
            yield case_x(len(octets), form.octets()), f"xml {octets.hex()}"
            yield case_x(len(octets) - 1, form.octets()), TOO_LARGE


def field_laws(rng):
    """A tree in which some values are made bad, most often times: the first of them in reading order is refused, with the field that was made wrong."""
    while True:
        maker, tree, _ = random_raw(rng)
        for kind in rng.choice([[TIME], [TIME], [TIME, TIME], JUDGED, [rng.choice(JUDGED)]]):
            part = valued(rng, tree, kind)
            if part:
                part.value = maker.bad_value(kind)
        raw = Encoder(maker, rng.choice([0, 0.1, 0.3])).raw(tree)
        found = raw.first_item(lambda _, part: part.node is not None and isinstance(part.node.value, Bad))
        if found and not tree.too_long() and len(raw.octets()) <= OBJECT_LIMIT:
            break
    part, place = found
    yield from refused_laws(rng, tree, raw.octets(), f"refused 9 at {place} field {part.node.value.field}")


def twice_laws(rng):
    """A tree in which a default stands twice, or beside another value of its attribute: the second of the two is refused."""
    while True:
        maker, tree, _ = random_raw(rng)
        defaults = [(node, part) for node in tree.walk() for part in node.attributes if node.is_default(part)]
        if not defaults or tree.too_long():
            continue
        node, part = rng.choice(defaults)
        twins = part, Node(part.tag, Fixed(rng.choice([DEFAULT, rng.randbytes(1)])))
        node.attributes.append(twins[1])
        raw = Encoder(maker, rng.choice([0, 0.1, 0.3])).raw(tree)
        if len(raw.octets()) <= OBJECT_LIMIT:
            break
    _, second = (below for above, _ in raw.walk() if above.node is node for below in above.body if below.node in twins)
    _, place = raw.first_item(lambda _, part: part is second)
    yield from refused_laws(rng, tree, raw.octets(), f"refused 8 at {place}")


def refused_laws(rng, tree, octets, refused):
    """An object that is refused, by all letters, whatever is lent; and the records of its tree."""
    records, pool = records_of(rng, tree)
    yield case_l(rng.choice([0, 65535]), octets), refused
    yield case_n(rng.choice([0, 65535]), 65536, rng.choice([0, 65536]), octets), refused
    yield case_x(rng.choice([0, FIELD_LIMIT]), octets), refused
    yield case_s(octets, rng.choice([b"", b"\x03\x00", octets])), f"{refused} in first"
    yield case_s(b"\x03\x00", octets), f"{refused} in second"
    yield case_w(len(records), records, rng.choice([0, 65536]), pool), "refused 16 at 0"


def laws(seed, count):
    """What is tried, the case and the last line of its answer."""
    for index in range(count):
        rng = random.Random(f"laws {seed} {index}")
        for case, must in tree_laws(rng):
            yield "a tree", case, must
        yield pair_law(rng, *WAYS[index % len(WAYS)])
        for case, must in xml_laws(rng, rng.choice([named_tree, named_tree, random_tree])):
            yield "XML of a tree", case, must
        for case, must in field_laws(rng):
            yield "bad values", case, must
        for case, must in twice_laws(rng):
            yield "a default twice", case, must
    for answer, way in SWOLLEN_WAYS:
        yield pair_law(random.Random(f"swollen {seed} {way}"), answer, way, Maker.swollen_tree)


def xml_pairs(seed, count):
    """What is tried, the answer to S, and two cases of X."""
    for index in range(count):
        answer, way = NAMED_WAYS[index % len(NAMED_WAYS)]
        pair = known_pair(random.Random(f"xml {seed} {index}"), answer, way, named_tree)
        yield f"XML, {answer}: {way}", answer, [case_x(FIELD_LIMIT, raw.octets()) for raw in pair]


def parse_error(line):
    """What is wrong with an answer's XML, or None.  U+FFFE and U+FFFF are text for document 01 and for no XML reader, so
    other characters stand in for them."""
    try:
        text = bytes.fromhex(line.removeprefix("xml ")).decode()
        expat.ParserCreate().Parse(text.replace("\ufffe", "?").replace("\uffff", "?"), True)
    except (ValueError, expat.ExpatError) as error:
        return str(error)
    return None


def broken_pair(answer, first, second):
    """What is wrong with the XML of two objects, or None.  Where neither fits the room, nothing is known of it."""
    if first == second == TOO_LARGE:
        return None
    if (first == second) != (answer == "same"):
        return "the XML is the same" if first == second else "the XML differs"
    for line in (first, second):
        wrong = None if line == TOO_LARGE else parse_error(line)
        if wrong is not None:
            return f"{wrong}: {line[:200]}"
    return None


def broken_laws(program, seed, count):
    """What was tried, in words, and what is broken."""
    tried, tried_pairs = list(laws(seed, count)), list(xml_pairs(seed, count))
    cases = [case for _, case, _ in tried] + [case for _, _, pair in tried_pairs for case in pair]
    lines, status = run(program, b"".join(cases))
    answers = [answer[-1] for answer in split_answers(lines)]
    broken = [f"{what}: {chr(case[0])} {case.hex()[:200]}\n  must be: {must[:200]}\n  answered: {answer[:200]}"
              for (what, case, must), answer in zip(tried, answers) if answer != must]
    of_pairs = answers[len(tried):]
    for (what, answer, pair), first, second in zip(tried_pairs, of_pairs[::2], of_pairs[1::2]):
        wrong = broken_pair(answer, first, second)
        if wrong is not None:
            broken.append(f"{what}: {pair[0].hex()[:200]} {pair[1].hex()[:200]}\n  {wrong}")
    if status != 0 or len(answers) != len(cases):
        broken.append(f"the program ended with status {status} after {len(answers)} of {len(cases)} answers")
    if of_pairs.count(TOO_LARGE) * 10 >= len(of_pairs):
        broken.append("too many pairs whose XML doesn't fit the room")
    pairs = count + len(SWOLLEN_WAYS)
    return f"{len(tried)} answers, {pairs} of pairs in {len(WAYS)} ways, XML of {len(tried_pairs)} pairs in {len(NAMED_WAYS)} ways", broken


# Which laws are tried where one of these letters is asked for.
LAWS = [("LNWSX", broken_laws), ("E", broken_edit_laws), ("G", broken_gate_laws), ("C", broken_header_laws), ("FP", broken_fold_laws),
        ("J", broken_no_list_laws), ("M", broken_merge_laws)]


def main():
    parser = argparse.ArgumentParser(description="Checks laws that hold for any right program.")
    parser.add_argument("program")
    parser.add_argument("seed")
    parser.add_argument("count", type=int)
    parser.add_argument("--letters", default=CASE_LETTERS)
    options = parser.parse_args()
    if options.count < len(WAYS):
        parser.error(f"COUNT is at least {len(WAYS)}")
    parts = [part for letters, part in LAWS if set(letters) & set(options.letters)]
    results = [part(options.program, options.seed, options.count) for part in parts]
    broken = [what for _, found in results for what in found]
    for what in broken[:3]:
        print(what)
    print(f"laws of seed {options.seed}: {', '.join(tried for tried, _ in results)}: {'NOT ALL HOLD' if broken else 'all hold'}")
    sys.exit(1 if broken else 0)


if __name__ == "__main__":
    main()
