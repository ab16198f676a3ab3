#!/usr/bin/env python3
"""Compares a replay program with the second program:  compare_recordings.py PROGRAM SECOND SEED COUNT [--no-list]

PROGRAM is a command with words that reads a recording on standard input (docs/STREAM.md), with 1,024 places lent (request 2026-12) or, with --no-list, none
(request 2026-14); SECOND is the second program, which is asked likewise.  Both get the fixed recordings of recordings.py, all cuts of the small ones, and
COUNT random ones of the seed.

The first three differences are printed; the last line is `compared N recordings of seed S: equal` or `...: DIFFERENT`, and the exit status is 0 only where all
is equal.
"""
import argparse
import sys
from itertools import zip_longest

from recordings import Recording, cut_ones, fixed_recordings, random_recording
from replays import replay

SHOWN_DIFFERENCES = 3


def cuts():
    """All cuts of the small recordings, those of the head too."""
    for recording in cut_ones():
        octets = recording.octets()
        for size in range(len(octets)):
            yield Recording(f"{recording.name}, at {size}", [], octets[:size])


def first_difference(first, second):
    """The first two lines that differ."""
    return next(((a, b) for a, b in zip_longest(first, second, fillvalue="(nothing)") if a != b), None)


def differences(program, second, recordings):
    """Yields what to print for each recording that the programs replay differently."""
    for recording in recordings:
        octets = recording.octets()
        different = first_difference(replay(program, octets), replay(second, octets, usual=(0,)))
        if different is not None:
            yield "{}: {}\n  A: {:.200}\n  B: {:.200}".format(recording.name, octets.hex()[:200], *different)


def main():
    parser = argparse.ArgumentParser(description="Compares a replay program with the second program on recordings.")
    parser.add_argument("program")
    parser.add_argument("second")
    parser.add_argument("seed")
    parser.add_argument("count", type=int)
    parser.add_argument("--no-list", action="store_true", help="no record places are lent (request 2026-14)")
    options = parser.parse_args()
    recordings = [*fixed_recordings(), *cuts(), *(random_recording(options.seed, index) for index in range(options.count))]
    second = f"{options.second} replay-no-list" if options.no_list else f"{options.second} replay"
    found = list(differences(options.program, second, recordings))
    for difference in found[:SHOWN_DIFFERENCES]:
        print(difference)
    if len(found) > SHOWN_DIFFERENCES:
        print(f"and {len(found) - SHOWN_DIFFERENCES} more")
    print(f"compared {len(recordings)} recordings of seed {options.seed}: {'DIFFERENT' if found else 'equal'}")
    sys.exit(1 if found else 0)


if __name__ == "__main__":
    main()
