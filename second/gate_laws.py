"""Laws of the small receiver's gate (request 2026-07) that hold for any right program; check_laws.py tries them where letter G is asked for.

Of trees that the maker knows, however they are written: the gate says yes exactly where all pairs of the tree are in annex A's table for the data type, and
else names the first item that isn't.  Of any object, damaged ones and the edges among them, from the program's own listing: where that refuses, the gate
refuses alike with any data type; and else its answer is that of the records' pairs.
"""
import random

from gate import DATA_TYPES, NO_DATA_TYPES, TOPS, offence, offends, random_gate, tree_with_strays, tree_within
from gate_edges import gate_edge_cases
from make_cases import OBJECT_LIMIT, Encoder, case_g, case_l, header, random_raw, random_tree
from streams import LISTING, ask

YES = "yes"
ASKED = *DATA_TYPES, *NO_DATA_TYPES
OBJECT_AT = len(case_g(0, 0, b""))  # where the object of a case begins


def refusal(place):
    return YES if place is None else f"refused 19 at {place}"


def known_laws(rng, draw):
    """A tree in two of its forms, which have their offenders at places of their own."""
    while True:
        maker, tree, raw = random_raw(rng, draw)
        again = Encoder(maker, 0.3).raw(tree.with_other_defaults(rng))
        if len(again.octets()) <= OBJECT_LIMIT and not tree.too_long():
            break
    for form in (raw, again):
        for data_type in ASKED:
            yield case_g(data_type, rng.choice([0, 1, 65535]), form.octets()), refusal(offence(form, data_type))


def listed_offender(lines, data_type):
    """The first record of a listing that offends, as its tag, start and length, or None where none does."""
    tags = {}  # by depth, of the elements around a record
    for depth, tag, _, start, length in map(str.split, lines):
        depth, tag = int(depth), int(tag, 16)
        tags[depth] = tag
        if tag != TOPS.get(data_type) if depth == 1 else offends(data_type, tags[depth - 1], tag):
            return tag, int(start), int(length)
    return None


def is_right(octets, data_type, listing, answer):
    """Whether an answer agrees with the listing.  A record says where its body begins, so the header must stand before that in one of its forms."""
    if listing[0] != LISTING:
        return answer == listing
    found = listed_offender(listing[1:-1], data_type)
    if found is None:
        return answer == [YES]
    tag, start, length = found
    heads = [head for head in (header(tag, length, form) for form in (0, 1, 2)) if octets[:start].endswith(head)]
    return answer in [[refusal(start - len(head))] for head in heads]


def told(what, case, answer):
    return f"{what}: {case.hex()[:200]}\n  answered: {' | '.join(answer)[:200]}"


def broken_known(program, seed, count):
    """How many answers of known trees were looked at, how many of them are yes, and which are wrong."""
    kinds = [(f"a tree {words} data type {data_type}", draw(data_type)) for data_type in DATA_TYPES
             for words, draw in (("within", tree_within), ("with strays, of", tree_with_strays))] + [("any tree", random_tree)]
    tried = [(what, case, must) for index in range(count) for what, draw in kinds
             for case, must in known_laws(random.Random(f"gate, {what} {seed} {index}"), draw)]
    answers, status = ask(program, [case for _, case, _ in tried])
    broken = [told(f"{what}, must be {must}", case, answer) for (what, case, must), answer in zip(tried, answers) if answer != [must]]
    if status != 0 or len(answers) != len(tried):
        broken.append(f"the program ended with status {status} after {len(answers)} of {len(tried)} answers")
    return len(tried), sum(must == YES for _, _, must in tried), broken


def broken_listed(program, seed, count):
    """How many answers were held to a listing, and which disagree with it."""
    cases = list(gate_edge_cases()) + [random_gate(random.Random(f"gate, any {seed} {index}")) for index in range(count * 10)]
    objects = [case[OBJECT_AT:] for case in cases]
    answers, status = ask(program, [both for case, octets in zip(cases, objects) for both in (case_l(65535, octets), case)])
    broken = [told("held to its listing", case, answer) for case, octets, listing, answer in zip(cases, objects, answers[::2], answers[1::2])
              if not is_right(octets, case[1], listing, answer)]
    if status != 0 or len(answers) != 2 * len(cases):
        broken.append(f"the program ended with status {status} after {len(answers)} of {2 * len(cases)} answers")
    return len(cases), broken


def broken_gate_laws(program, seed, count):
    """What was tried, in words, and what is broken."""
    known, passed, broken = broken_known(program, seed, count)
    listed, broken_later = broken_listed(program, seed, count)
    if passed * 20 < known:
        broken.append("too few trees that pass the gate")
    return f"{known} answers of the gate, {passed} of them yes, {listed} held to listings", broken + broken_later
