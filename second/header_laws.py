"""Laws of the count of headers (request 2026-09) that hold for any right program; check_laws.py tries them where letter C or J is asked for.

Of trees that the maker knows, however they are written and whatever unknown items stand in them: the records and the headers are those that were written, and
with one place too few 14 refuses; a normal form has just as many headers as records.  Of any object, damaged ones and the edges among them, from the
program's own listing in as many places: where that refuses, C refuses alike; and else the headers are the top and the items in each element listed, at least
as many as the records and at most half the octets.

With no list (letter J, request 2026-14): the same counts of known trees, and of any object the answer is as the program's own listing in 65,535 places, which
are enough for every object; so 14 never refuses.
"""
import random

from header_edges import OBJECT_AT, header_edge_cases, no_list_edge_cases
from headers import counted, counts, random_counted, random_judged, with_unknown
from make_cases import ATTRIBUTES, OBJECT_LIMIT, Encoder, case_c, case_j, case_l, random_raw
from streams import LISTING, ask

TOO_FEW = "refused 14 at 0"
OBJECT_ALONE_AT = len(case_j(b""))  # where the object of a case of J begins


def known_forms(rng):
    """A tree, and two of its forms, each with unknown items put in too."""
    while True:
        maker, tree, raw = random_raw(rng)
        again, normal = Encoder(maker, 0.3).raw(tree), tree.normal()
        if max(len(again.octets()), len(normal)) <= OBJECT_LIMIT and not tree.too_long():
            return tree, (raw, with_unknown(rng, raw), again, with_unknown(rng, again))


def known_laws(rng):
    """The forms of a tree, and its normal form."""
    tree, forms = known_forms(rng)
    for form in forms:
        records, _ = counts(form)
        yield case_c(rng.choice([records, 65535]), form.octets()), counted(form)
        yield case_c(rng.choice([0, records - 1]), form.octets()), TOO_FEW
    records = tree.records() - tree.defaults()
    yield case_c(records, tree.normal()), f"records {records} headers {records}"


def no_list_laws(rng):
    for form in known_forms(rng)[1]:
        yield case_j(form.octets()), counted(form)


def items_in(body):
    """How many items a body holds, each told from the next by its length alone."""
    found, at = 0, 0
    while at < len(body):
        field = {0xFE: 2, 0xFF: 3}.get(body[at + 1], 0)
        start = at + 2 + field
        at = start + (int.from_bytes(body[at + 2:start], "big") if field else body[at + 1])
        found += 1
    return found


def is_right(octets, listing, answer):
    """Whether an answer agrees with the listing."""
    if listing[0] != LISTING:
        return answer == listing
    rows = [line.split() for line in listing[1:-1]]
    bodies = [octets[int(start):int(start) + int(length)] for _, tag, kind, start, length in rows if kind == "element" and int(tag, 16) in ATTRIBUTES]
    headers = 1 + sum(map(items_in, bodies))
    return answer == [f"records {len(rows)} headers {headers}"] and len(rows) <= headers <= len(octets) // 2


def told(what, case, answer):
    return f"{what}: {case.hex()[:200]}\n  answered: {' | '.join(answer)[:200]}"


def broken_known(program, seed, count, laws=known_laws):
    """How many answers of known trees were looked at, and which are wrong."""
    tried = [law for index in range(count) for law in laws(random.Random(f"headers, known {seed} {index}"))]
    answers, status = ask(program, [case for case, _ in tried])
    broken = [told(f"a tree's headers, must be {must}", case, answer) for (case, must), answer in zip(tried, answers) if answer != [must]]
    if status != 0 or len(answers) != len(tried):
        broken.append(f"the program ended with status {status} after {len(answers)} of {len(tried)} answers")
    return len(tried), broken


def broken_listed(program, cases, object_at, listing_of):
    """How many answers were held to a listing, and which disagree with it."""
    answers, status = ask(program, [both for case in cases for both in (listing_of(case), case)])
    broken = [told("headers held to the listing", case, answer) for case, listing, answer in zip(cases, answers[::2], answers[1::2])
              if not is_right(case[object_at:], listing, answer)]
    if status != 0 or len(answers) != 2 * len(cases):
        broken.append(f"the program ended with status {status} after {len(answers)} of {2 * len(cases)} answers")
    return len(cases), broken


def broken_header_laws(program, seed, count):
    """What was tried, in words, and what is broken."""
    known, broken = broken_known(program, seed, count)
    cases = list(header_edge_cases()) + [random_counted(random.Random(f"headers, any {seed} {index}")) for index in range(count * 3)]
    listed, broken_later = broken_listed(program, cases, OBJECT_AT, lambda case: b"L" + case[1:])
    return f"{known} answers of headers, {listed} held to listings", broken + broken_later


def broken_no_list_laws(program, seed, count):
    """The same with no list."""
    known, broken = broken_known(program, seed, count, no_list_laws)
    cases = list(no_list_edge_cases()) + [random_judged(random.Random(f"no list, any {seed} {index}")) for index in range(count * 3)]
    listed, broken_later = broken_listed(program, cases, OBJECT_ALONE_AT, lambda case: case_l(65535, case[OBJECT_ALONE_AT:]))
    return f"{known} answers with no list, {listed} held to listings", broken + broken_later
