#!/usr/bin/env python3
"""Compares the answers of two programs:  compare.py PROGRAM_A PROGRAM_B SEED COUNT [--letters LNWSXEGCFPJM]

Both get the fixed edge cases, then COUNT random cases of the seed.  The first three differences are
printed; the last line is `compared N cases of seed S: equal` or `...: DIFFERENT`, N counting both
streams, and the exit status is 0 only where all answers are equal.
"""
import argparse
import sys
from itertools import takewhile, zip_longest

from edges import edge_cases
from make_cases import CASE_LETTERS, random_cases
from streams import ask

SHOWN_DIFFERENCES = 3
SHOWN_WIDTH = 200


def cut(text):
    return text if len(text) <= SHOWN_WIDTH else text[:SHOWN_WIDTH] + "..."


def show(answer, other):
    """An answer from the first line on that differs from the other's."""
    if answer is None:
        return "(no answer)"
    same = sum(1 for _ in takewhile(lambda pair: pair[0] == pair[1], zip(answer, other or [])))
    return cut(" | ".join((["(as the other)"] if same else []) + answer[same:]))


def differences(programs, kind, cases):
    """Yields what to print for each case that the programs answer differently."""
    asked = [ask(program, cases) for program in programs]
    for name, (_, status) in zip("AB", asked):
        if status != 0:
            yield f"{kind} cases: program {name} ended with status {status}"
    for index, (case, a, b) in enumerate(zip_longest(cases, *(answers for answers, _ in asked))):
        if case is None:
            yield f"{kind} cases: answers after the last case\n  A: {show(a, b)}\n  B: {show(b, a)}"
            return
        if a != b or a is None:
            yield f"{kind} case {index}, letter {chr(case[0])}: {cut(case.hex())}\n  A: {show(a, b)}\n  B: {show(b, a)}"


def main():
    parser = argparse.ArgumentParser(description="Compares two programs on edge cases and random cases.")
    parser.add_argument("program_a")
    parser.add_argument("program_b")
    parser.add_argument("seed")
    parser.add_argument("count", type=int)
    parser.add_argument("--letters", default=CASE_LETTERS)
    options = parser.parse_args()
    edges = [case for case in edge_cases() if chr(case[0]) in options.letters]
    randoms = list(random_cases(options.seed, options.count, options.letters))
    programs = options.program_a, options.program_b
    found = list(differences(programs, "edge", edges)) + list(differences(programs, "random", randoms))
    for difference in found[:SHOWN_DIFFERENCES]:
        print(difference)
    if len(found) > SHOWN_DIFFERENCES:
        print(f"and {len(found) - SHOWN_DIFFERENCES} more")
    equal = not found and edges + randoms
    print(f"compared {len(edges) + len(randoms)} cases of seed {options.seed}: {'equal' if equal else 'DIFFERENT'}")
    sys.exit(0 if equal else 1)


if __name__ == "__main__":
    main()
