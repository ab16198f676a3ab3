#!/usr/bin/env python3
"""Times programs that replay a recording:  time_replay.py FOLDER PROGRAM OTHER

The recordings are made of the objects that make_objects.py wrote to FOLDER, those of 1 KB and those of 32 KB, over and over; a program is a command with words
that reads a recording on standard input.  All have to list the same.  Printed are the objects that each lists in a second of processor time, by the least of
several runs in which the programs take turns, and the first program's share of the time of the other.
"""
import resource
import shlex
import subprocess
import sys
from pathlib import Path

TURNS = 5
OCTETS = 32 * 1024 * 1024


def recording(folder, kilo):
    objects = [file.read_bytes() for name in ("day", "small") for file in sorted(folder.glob(f"{name}-{kilo}-*.spi"))]
    recorded = b"".join(len(octets).to_bytes(2, "big") + octets for octets in objects)
    rounds = OCTETS // len(recorded)
    return b"SPR\x00\x01" + recorded * rounds, len(objects) * rounds


def run(words, path):
    """What a program lists, and the processor time that it takes."""
    before = resource.getrusage(resource.RUSAGE_CHILDREN)
    with open(path, "rb") as octets:
        listed = subprocess.run(words, stdin=octets, stdout=subprocess.PIPE, check=True).stdout
    after = resource.getrusage(resource.RUSAGE_CHILDREN)
    return listed, after.ru_utime + after.ru_stime - before.ru_utime - before.ru_stime


def main():
    folder, programs = Path(sys.argv[1]), [shlex.split(words) for words in sys.argv[2:]]
    for kilo in 1, 32:
        octets, count = recording(folder, kilo)
        path = folder / "recording.spr"
        path.write_bytes(octets)
        runs = [[run(words, path) for words in programs] for _ in range(TURNS)]
        if len({listed for turn in runs for listed, _ in turn}) != 1:
            sys.exit("bench: the programs list different lines")
        least = [min(turn[i][1] for turn in runs) for i in range(len(programs))]
        rates = ", ".join(f"{count / seconds:,.0f}" for seconds in least)
        print(f"replay of {count:,} objects of {kilo} KB: objects a second {rates}; ratio of the time {least[0] / least[1]:.2f}")


main()
