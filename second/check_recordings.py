#!/usr/bin/env python3
"""Holds a replay program to what request 2026-12 says:  check_recordings.py PROGRAM SEED COUNT [--no-list LISTED]

PROGRAM is a command with words that reads a recording on standard input.  First it is run on the named recordings of expected_recordings.txt; then laws are
tried that hold for any right program, on the small recordings of recordings.py and on COUNT random ones: cut at any octet from the fifth on, a recording
lists the whole objects before the cut just as the full one does, and is refused by 24 at the size of the one that is cut, or, cut between objects, not at all;
in the other order, objects have the same lines but for their numbers; behind a wrong head nothing is listed; and objects that the maker knows are listed with
the records that were written, or by 14 where these are more than 1,024.

With --no-list PROGRAM is lent no list (request 2026-14), and LISTED is a program that is lent one of 1,024 places: only lines with 14 are others, and these are
ok with more records than places.

Prints the first three of what is wrong; the exit status is 0 only where all holds.
"""
import argparse
import os
import random
import re
import sys

from header_laws import known_forms
from headers import counts
from make_cases import number
from recordings import HEAD, PLACES, Recording, cut_ones, of_records, random_recording, records
from replays import replay
from try_named import octets_of, read_named

SHOWN = 3
HERE = os.path.dirname(os.path.abspath(__file__))
ROOT = os.path.dirname(HERE)


def written_by_hand(name):
    """The octets of a file, which are those that the .hex file beside it has between its comments."""
    path = os.path.join(ROOT, name)
    with open(path, "rb") as file, open(os.path.splitext(path)[0] + ".hex", encoding="utf-8") as text:
        octets = file.read()
        if octets != bytes.fromhex(re.sub("#.*", "", text.read())):
            sys.exit(f"{name} is not what its .hex file says")
    return octets


class NamedRecording:
    """One recording: its name, its octets, and the lines that it must have with a list and with none."""

    def __init__(self, name):
        self.name, self.octets, self.listed, self.unlisted = name, b"", [], []

    def add(self, line):
        word, _, rest = line.partition(" ")
        if word == "head":
            self.octets += HEAD
        elif word == "object":
            octets = octets_of(rest)
            self.octets += number(len(octets), 2) + octets
        elif word == "octets":
            self.octets += octets_of(rest)
        elif word == "file":
            self.octets += written_by_hand(rest)
        elif word in (">", "list>", "none>"):
            self.listed += [rest] * (word != "none>")
            self.unlisted += [rest] * (word != "list>")
        else:
            raise ValueError(f"in recording {self.name}: {line}")


def told(what, must, lines):
    at = next((at for at, (a, b) in enumerate(zip(must, lines)) if a != b), min(len(must), len(lines)))
    return f"{what}, line {at + 1}\n  must be: {' | '.join(must[at:])[:200]}\n  printed: {' | '.join(lines[at:])[:200]}"


def broken_named(program, no_list):
    """How many named recordings were replayed, and which are not as they must be."""
    named = read_named(os.path.join(HERE, "expected_recordings.txt"), NamedRecording)
    tried = [(one.name, one.unlisted if no_list else one.listed, replay(program, one.octets)) for one in named]
    return len(named), [told(*one) for one in tried if one[1] != one[2]]


# ---- Laws: what is tried, the octets of a recording, and the lines that it must have --------------------------

def cut_at(recording, full, size):
    """A recording cut at an octet from the fifth on, where the full one has these lines."""
    starts = recording.starts()
    whole = sum(start <= size for start in starts[1:])
    must = full[:whole] + [f"refused 24 {starts[whole]}"] * (size > starts[whole])
    return f"{recording.name}, cut at {size}", recording.octets()[:size], must


def renumbered(lines):
    return [f"{index} {line.partition(' ')[2]}" for index, line in enumerate(lines, 1)]


def laws_of(rng, recording, full, sizes):
    """What follows from the lines of a recording with a good head."""
    objects = recording.objects
    for size in sizes:
        yield cut_at(recording, full, size)
    yield f"{recording.name}, turned about", Recording("", objects[::-1]).octets(), renumbered(full[:len(objects)][::-1])
    wrong = bytearray(recording.octets())
    wrong[rng.randrange(len(HEAD))] ^= 1 << rng.randrange(8)
    yield f"{recording.name}, head {wrong[:5].hex()}", bytes(wrong), ["refused 23 0"]


def known_law(rng, no_list):
    """Objects of which the records are known."""
    known = [(form.octets(), counts(form)[0]) for _ in range(4) for form in known_forms(rng)[1]]
    known += [(of_records(count), count) for count in rng.sample(range(PLACES - 2, PLACES + 4), 2)]
    rng.shuffle(known)
    must = [f"{index} ok {count}" if no_list or count <= PLACES else f"{index} 14 0" for index, (_, count) in enumerate(known, 1)]
    return "known objects", Recording("", [octets for octets, _ in known]).octets(), must


def is_longer_list(line, listed):
    """Whether a line with no list is right beside the line of the same object with one: the same, or, where there were too few places, its count."""
    index, _, refusal = listed.partition(" ")
    if refusal != "14 0":
        return line == listed
    begin, _, count = line.rpartition(" ")
    return begin == f"{index} ok" and count.isdecimal() and int(count) > PLACES


def broken_beside(program, listed, seed, count):
    """How many recordings were replayed with no list and with one, and which have other lines than they may."""
    recordings = [*records(), *(random_recording(seed, index) for index in range(count))]
    broken, too_few = [], 0
    for recording in recordings:
        lines, others = replay(program, recording.octets()), replay(listed, recording.octets())
        too_few += sum(line.endswith(" 14 0") for line in others)
        if len(lines) != len(others) or not all(map(is_longer_list, lines, others)):
            broken.append(told(f"{recording.name}, with no list and with one", others, lines))
    if too_few == 0:
        broken.append(f"{listed} never has too few places")
    return len(recordings), broken


def broken_laws(program, seed, count, no_list):
    """How many recordings were replayed, and which are not as they must be."""
    rng = random.Random(f"recordings {seed}")
    some = [random_recording(seed, index) for index in range(count)]
    tried, broken = [known_law(rng, no_list) for _ in range(max(1, count // 10))], []
    for recording in [*cut_ones(), *(one for one in some if one.head == HEAD)]:
        octets, full, objects = recording.octets(), replay(program, recording.octets()), len(recording.objects)
        refused = [f"refused 24 {recording.starts()[-1]}"] * bool(recording.rest)
        if full[objects:] != refused or [line.partition(" ")[0] for line in full[:objects]] != [str(index) for index in range(1, objects + 1)]:
            broken.append(f"{recording.name}: {octets.hex()[:200]}\n  not a line for each of {objects} objects: {' | '.join(full)[:200]}")
            continue
        sizes = range(len(HEAD), len(octets)) if recording not in some else [rng.choice(recording.starts()), rng.randint(len(HEAD), len(octets))]
        tried += laws_of(rng, recording, full, [size for size in sizes if size <= len(octets)])
    outcomes = ((what, must, replay(program, octets)) for what, octets, must in tried)
    return len(tried), broken + [told(*outcome) for outcome in outcomes if outcome[1] != outcome[2]]


def main():
    parser = argparse.ArgumentParser(description="Holds a replay program to named recordings and to laws.")
    parser.add_argument("program")
    parser.add_argument("seed")
    parser.add_argument("count", type=int)
    parser.add_argument("--no-list", metavar="LISTED", help="the program is lent no record places (request 2026-14), and this one 1,024")
    options = parser.parse_args()
    no_list = options.no_list is not None
    named, broken = broken_named(options.program, no_list)
    tried, broken_later = broken_laws(options.program, options.seed, options.count, no_list)
    broken += broken_later
    if no_list:
        beside, broken_later = broken_beside(options.program, options.no_list, options.seed, options.count)
        tried, broken = tried + beside, broken + broken_later
    for what in broken[:SHOWN]:
        print(what)
    print(f"recordings of seed {options.seed}: {named} named, {tried} of laws: {'NOT ALL HOLD' if broken else 'all hold'}")
    sys.exit(1 if broken else 0)


if __name__ == "__main__":
    main()
