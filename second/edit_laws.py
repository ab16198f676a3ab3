"""Laws of edits (request 2026-06) that hold for any right program; check_laws.py tries them where letter E is asked for.

Of runs that the maker knows: every line of the answer.  Of any run, from the program's own answers: an object is taken in exactly where its normal form fits
the same lists and store, and refused alike; what was written is accepted and is its own normal form; taken in and written again it is the same, with the same
sizes but for those of defaults; and without the edits that were refused the run writes the same, with the same sizes.
"""
import random
from collections import Counter

from edits import known_run, normal_run, random_run
from make_cases import FIELD_LIMIT, OBJECT_LIMIT, case_e, case_l, case_n
from streams import ask

REFUSALS = {"T": (18, 16, 15), "D": (18,), "I": (18, 16, 14, 15)}
EDITED = "edited"


def may_be_answered(edit, line):
    return line == EDITED or line in [f"refused {number} at 0" for number in REFUSALS[chr(edit[0])]]


def sizes_in(line):
    return [int(size) for size in line.split()[1:]]


def same_but_for_defaults(first, again):
    """Whether sizes of a run are those of what it wrote: of records that were left out, each has one octet, and attributes may stand in another order."""
    more = Counter(first)
    more.subtract(Counter(again))
    return first[0] == again[0] and set(more.elements()) <= {1} and min(more.values()) >= 0


def laws_after(run, answer, normal):
    """What is tried, a case, and whether an answer to it is right, after what a run was answered; a run of normal forms keeps all sizes."""
    taken = case_n(run.places, run.store, FIELD_LIMIT, run.octets)
    if len(answer) == 1:
        yield "an object that isn't taken in", taken, lambda lines: lines == answer
        return
    *lines_of_edits, written, sizes = answer
    octets = bytes.fromhex(written.removeprefix("written "))
    made, refused = lines_of_edits.count(EDITED), {index for index, line in enumerate(lines_of_edits) if line != EDITED}
    yield "an object that is taken in", taken, lambda lines: lines[0].startswith("normal ") and (made > 0 or lines == [f"normal {octets.hex()}"])
    yield "what was written, listed", case_l(65535, octets), lambda lines: lines[-1].startswith("records ")
    yield "what was written, its normal form", case_n(65535, FIELD_LIMIT, OBJECT_LIMIT, octets), lambda lines: lines == [f"normal {octets.hex()}"]
    alike = (lambda first, again: first == again) if normal else same_but_for_defaults
    yield ("what was written, taken in", case_e(65535, FIELD_LIMIT, octets, []),
           lambda lines: len(lines) == 2 and lines[0] == written and alike(sizes_in(sizes), sizes_in(lines[1])))
    yield "without the edits that were refused", run.without(refused).case(), lambda lines: lines == [EDITED] * made + [written, sizes]


def wrong_in_form(run, answer):
    """Whether an answer has another form than a run's."""
    if len(answer) == 1:
        return not answer[0].startswith("refused ")
    *lines, written, sizes = answer
    return not (len(lines) == len(run.edits) and all(may_be_answered(*pair) for pair in zip(run.edits, lines))
                and written.startswith("written ") and sizes.startswith("sizes "))


def told(what, case, answer):
    return f"{what}: {case.hex()[:200]}\n  answered: {' | '.join(line[:60] for line in answer)[:400]}"


def broken_after(program, runs, answers):
    """How many laws were tried after these answers, and which are broken."""
    good = [(run, answer, kind == "a run of normal forms") for (kind, run), answer in zip(runs, answers) if not wrong_in_form(run, answer)]
    tried = [law for run in good for law in laws_after(*run)]
    after, status = ask(program, [case for _, case, _ in tried])
    broken = [told(what, case, answer) for (what, case, is_right), answer in zip(tried, after) if not is_right(answer)]
    if status != 0 or len(after) != len(tried):
        broken.append(f"the program ended with status {status} after {len(after)} of {len(tried)} answers")
    return len(tried), broken


def broken_edit_laws(program, seed, count):
    """What was tried, in words, and what is broken."""
    kinds = ("a run", known_run), ("a run of normal forms", normal_run), ("a run with damage", random_run)
    runs = [(kind, make(random.Random(f"{kind} {seed} {index}"))) for index in range(count) for kind, make in kinds]
    answers, status = ask(program, [run.case() for _, run in runs])
    broken = [told(kind, run.case(), answer) for (kind, run), answer in zip(runs, answers)
              if wrong_in_form(run, answer) or kind != "a run with damage" and answer != run.answer]
    if status != 0 or len(answers) != len(runs):
        broken.append(f"the program ended with status {status} after {len(answers)} of {len(runs)} answers")
    tried, broken_later = broken_after(program, runs, answers)
    return f"{len(runs)} runs of edits, {tried} answers after them", broken + broken_later
