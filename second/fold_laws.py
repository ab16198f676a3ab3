"""Laws of folding (request 2026-11) that hold for any right program; check_laws.py tries them where letters F and P are asked for.

Of trees that the maker knows: the plain packer's object is the one that the maker packs, in just its room, and 22 refuses every other form; that object, the
normal form and every other packer's object of the same meaning pass the check exactly where they aren't longer; an object of another meaning doesn't.  Of any
object, damaged ones and the edges among them, from the program's own normal forms: the packer takes just what is its own normal form, and what it answers
passes the check, means the same, has that normal form and isn't longer; the check passes exactly what has the normal form and isn't longer.
"""
import random

from fold_edges import fold_edge_cases
from folds import NOT_FOLDED, PASSES, packed, proposal, random_check, random_packing, random_worded
from make_cases import FIELD_LIMIT, OBJECT_LIMIT, case_f, case_n, case_p, case_s
from meanings import DIFFERENT
from streams import ask

TOO_LARGE = "refused 15 at 0"


def known_laws(rng):
    """The cases of one tree, each with its answer."""
    tree = random_worded(rng)
    normal, folded, other = tree.normal(), packed(tree), proposal(rng, tree).octets()
    yield case_p(rng.choice([len(folded), len(folded) + 1, FIELD_LIMIT]), normal), f"packed {folded.hex()}"
    yield case_p(rng.choice([0, len(folded) - 1]), normal), TOO_LARGE
    yield case_f(normal, folded), PASSES
    yield case_f(normal, normal), PASSES
    yield case_s(normal, folded), "same"
    yield whole_normal(folded), f"normal {normal.hex()}"
    for form in (folded, other):
        if form != normal:
            yield case_p(rng.choice([0, FIELD_LIMIT]), form), NOT_FOLDED
            yield case_f(form, form), NOT_FOLDED
            yield case_f(form, normal), NOT_FOLDED
    if len(other) <= FIELD_LIMIT:
        yield case_f(normal, other), PASSES if len(other) <= len(normal) else NOT_FOLDED
    twin = tree.copy()
    if DIFFERENT[rng.choice(list(DIFFERENT))](rng, twin) and not twin.too_long() and len(twin.normal()) <= OBJECT_LIMIT:
        yield case_f(normal, packed(twin)), NOT_FOLDED
        yield case_f(twin.normal(), folded), NOT_FOLDED


def whole_normal(octets):
    return case_n(65535, FIELD_LIMIT, FIELD_LIMIT, octets)


def whole_packed(octets):
    return case_p(FIELD_LIMIT, octets)


def objects_of(case):
    """The octets of a case of F or P: two objects, or one."""
    found, at = [], 1 if case[:1] == b"F" else 4
    while at < len(case):
        size = int.from_bytes(case[at:at + 3], "big")
        found.append(case[at + 3:at + 3 + size])
        at += 3 + size
    return found


def told(what, case, answer):
    return f"{what}: {case.hex()[:200]}\n  answered: {' | '.join(answer)[:200]}"


def asked(program, tried, what):
    """What is broken of cases with the answer that each must have."""
    answers, status = ask(program, [case for case, _ in tried])
    broken = [told(f"{what}, must be {must[:200]}", case, answer) for (case, must), answer in zip(tried, answers) if answer != [must]]
    if status != 0 or len(answers) != len(tried):
        broken.append(f"the program ended with status {status} after {len(answers)} of {len(tried)} answers")
    return broken


def follow_from(case, normals, packings):
    """The answer that a case must have by the program's own normal forms and by what it packs in the largest room."""
    *_, last = objects = objects_of(case)
    if normals[last] != f"normal {objects[0].hex()}" or len(last) > len(objects[0]):
        return NOT_FOLDED
    if case[:1] == b"F":
        return PASSES
    if not packings[last].startswith("packed "):
        return "packed, since it is a normal form"
    return packings[last] if len(packings[last].removeprefix("packed ")) // 2 <= int.from_bytes(case[1:4], "big") else TOO_LARGE


def follow_from_packing(octets, packing):
    """Cases with the answer that each must have, since these octets were packed so."""
    folded = bytes.fromhex(packing.removeprefix("packed "))
    yield case_f(octets, folded), PASSES if len(folded) <= len(octets) else "nothing, since the packed object is longer"
    yield case_s(octets, folded), "same"
    yield whole_normal(folded), f"normal {octets.hex()}"


def broken_fold_laws(program, seed, count):
    """What was tried, in words, and what is broken."""
    known = [law for index in range(count) for law in known_laws(random.Random(f"folds, known {seed} {index}"))]
    broken = asked(program, known, "folding a known tree")
    cases = list(fold_edge_cases())
    cases += [draw(random.Random(f"folds, any {seed} {index}")) for index in range(count) for draw in (random_check, random_packing)]
    objects = sorted({octets for case in cases for octets in objects_of(case)})
    normals, packings = (dict(zip(objects, (answer[0] for answer in ask(program, list(map(letter, objects)))[0]))) for letter in (whole_normal, whole_packed))
    if len(normals) != len(objects) or len(packings) != len(objects):
        return f"{len(known)} answers of folding", broken + ["the program didn't answer all cases of N and P"]
    following = [(case, follow_from(case, normals, packings)) for case in cases]
    following += [law for octets in objects if packings[octets].startswith("packed ") for law in follow_from_packing(octets, packings[octets])]
    return f"{len(known)} answers of folding, {len(following)} that follow from others", broken + asked(program, following, "folding")
