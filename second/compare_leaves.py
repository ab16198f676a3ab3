#!/usr/bin/env python3
"""Compares the leaves of two programs:  compare_leaves.py PROGRAM_A PROGRAM_B SEED COUNT

Both answer the questions below, whose answers are written by hand, the fixed questions of make_leaves.py and COUNT
random ones of the seed.  The first three faults are printed; the last line is `compared N questions of
seed S: equal` or `...: DIFFERENT`, and the exit status is 0 only where all answers are equal.
"""
import sys

from make_leaves import fixed_questions, question, random_questions
from streams import run

MOST_OCTETS = 131072  # that leaves_run reads

# Defaults, and octets that are none (2026-05); document 01's times; each field of a time that can be wrong, the lowest (2026-04); local times that leave
# the days of legal dates at either end.
BY_HAND = (
    ("K", "00 04", "kind tokens"), ("K", "00 05", "kind unknown"), ("K", "00 34", "kind plain"), ("K", "1C 81", "kind number 3"),
    ("K", "1C 85", "kind unknown"), ("K", "28 80", "kind number 2"), ("K", "29 80", "kind bearer"), ("K", "14 80", "kind plain"),
    ("D", "14 81 01", "default yes"), ("D", "1C 83 01", "default yes"), ("D", "1C 84 01", "default yes"), ("D", "2E 83 01", "default yes"),
    ("D", "2E 84 01", "default yes"), ("D", "1C 83 02", "default no"), ("D", "1C 83 00", "default no"), ("D", "1C 83", "default no"),
    ("D", "1C 83 01 01", "default no"), ("D", "1C 81 01", "default no"), ("D", "2B 83 01", "default no"), ("D", "23 83 01", "default no"),
    ("D", "14 80 01", "default no"), ("D", "9C 83 01", "default no"), ("D", "1C 01 01", "default no"),
    ("U", "00 01", "text no"), ("U", "01 01", "text yes"), ("U", "00 EE 80 80", "text no"), ("U", "00 EF A4 80", "text yes"),
    ("T", "30 D4 13 1E 02", "time 50000 12 30 0 plus 2 normal 30d4131e02"),
    ("T", "30 D4 0B 1E 3C 00", "time 50000 12 30 15 plus 0 normal 30d40b1e3c00"),
    ("T", "30 D4 10 00 20", "time 50000 0 0 0 plus 0 normal 30d40000"),
    ("T", "61 A8 00", "time bad 1"), ("T", "61 A8 06 3C 00", "time bad 1"), ("T", "61 A8 06 3C", "time bad 2"), ("T", "30 D4 06 3C", "time bad 3"),
    ("T", "30 D4 08 3C F0 00", "time bad 4"), ("T", "30 D4 08 00 F0 00", "time bad 5"), ("O", "61 A8 00 00", "local none"),
    ("O", "30 D4 13 1E 02", "local 50000 13 30 0"),
    ("O", "00 00 10 0A 21", "local -1 23 40 0"),
    ("O", "61 A7 D5 FB 01", "local 100000 0 29 0"),
    ("B", "E3 E1 CE 15 C2 24", "bearer e1 ce15 sid c224 scids 3 normal 43e1ce15c224"),
    ("B", "10 00 00 C2 24", "bearer sid 0000c224 scids 0 normal 100000c224"),
    ("B", "00 C2 24 00", "bearer none"),
)


def main():
    if len(sys.argv) != 5:
        sys.exit("usage: compare_leaves.py PROGRAM_A PROGRAM_B SEED COUNT")
    *programs, seed, count = sys.argv[1:]
    questions = [question(letter, bytes.fromhex(octets)) for letter, octets, _ in BY_HAND]
    rounds = [questions, list(fixed_questions()), list(random_questions(seed, int(count)))]
    faults = []
    for asked in rounds:
        stream = b"".join(asked)
        if not 0 < len(stream) <= MOST_OCTETS:
            faults.append(f"{len(stream)} octets of questions")
            continue
        answers = [run(program, stream) for program in programs]
        faults += [f"program {name} ended with status {status}" for name, (_, status) in zip("AB", answers) if status != 0]
        first, second = (lines[:-1] for lines, _ in answers)
        if not len(first) == len(second) == len(asked):
            faults.append(f"{len(asked)} questions have {len(first)} answers of A and {len(second)} of B")
        if asked is questions:
            faults += [f"{q.hex()}: A: {a}, must be: {must}" for q, a, (_, _, must) in zip(asked, first, BY_HAND) if a != must]
        faults += [f"{q.hex()}\n  A: {a}\n  B: {b}" for q, a, b in zip(asked, first, second) if a != b]
    for fault in faults[:3]:
        print(fault)
    total = sum(len(asked) for asked in rounds)
    print(f"compared {total} questions of seed {seed}: {'DIFFERENT' if faults else 'equal'}")
    sys.exit(1 if faults else 0)


if __name__ == "__main__":
    main()
