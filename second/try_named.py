#!/usr/bin/env python3
"""Runs a program on the named cases of expected.txt:  try_named.py PROGRAM [--letters LNWSXEGCFPJM]

Those of edits stand in expected_edits.txt, and are tried where E is among the letters; those of the gate in expected_gate.txt, where G is; those of folding
in expected_folds.txt, where F or P is; those of merging in expected_merge.txt, where M is.  Of each file, cases and streams that begin with a letter that isn't
among them are left out.

Prints each mismatch with its name and a last line `named cases: N held, M not`; the exit status is 0
only where there are cases and all of them hold.
"""
import argparse
import os
import re
import sys

from make_cases import (CASE_LETTERS, RANDOM, case_c, case_e, case_f, case_g, case_j, case_l, case_m, case_n, case_p, case_s, case_w, case_x, edit_d, edit_i,
                        edit_t)
from streams import ask, run

HEX_PART = re.compile(r'''\s*(?:(["'])((?:(?!\1).)*)\1|([0-9A-Fa-f]{2})|\(([^()]*)\)|(-))(?:\*(\d+))?(?=\s|$)''')


def octets_of(text):
    """Octets written in the notation that expected.txt explains."""
    out, at, text = b"", 0, text.strip()
    while at < len(text):
        part = HEX_PART.match(text, at)
        if part is None:
            raise ValueError(f"not octets: {text[at:]}")
        _, quoted, octet, group, _, times = part.groups()
        piece = quoted.encode() if quoted is not None else bytes.fromhex(octet) if octet else octets_of(group or "")
        out += piece * int(times or 1)
        at = part.end()
    return out


def answer_line(text):
    word, _, rest = text.partition(" ")
    return f"{word} {octets_of(rest).hex()}" if word in ("normal", "written", "xml", "packed", "merged") else text


EDITS = {"text": (edit_t, 1), "remove": (edit_d, 1), "insert": (edit_i, 2)}  # how many numbers stand before the octets


def edit_of(word, rest):
    edit, count = EDITS[word]
    *numbers, octets = (rest + " ").split(" ", count)
    return edit(*map(int, numbers), *([octets_of(octets)] if word != "remove" else []))


# Which letters' cases stand in a file of their own.
FILES = {"expected_edits.txt": "E", "expected_gate.txt": "G", "expected_folds.txt": "FP", "expected_merge.txt": "M"}


class Named:
    """One case: its name, its head line, its octets, records and edits, and the lines of its answer."""

    def __init__(self, name):
        self.name, self.head, self.octets, self.records, self.edits, self.answer = name, None, [], [], [], []

    def add(self, line):
        word, _, rest = line.partition(" ")
        if word in ("object", "octets"):
            self.octets.append(octets_of(rest))
        elif word == "record":
            tag, *fields = rest.split()
            self.records.append([int(tag, 16)] + [int(field) for field in fields])
        elif word in EDITS:
            self.edits.append(edit_of(word, rest))
        elif word == ">":
            self.answer.append(answer_line(rest))
        elif self.head is None:
            self.head = [word] + [int(part) for part in rest.split()]
        else:
            raise ValueError(f"in case {self.name}: {line}")

    def stream(self):
        letter, *numbers = self.head
        if letter == "L":
            return case_l(*numbers, *self.octets)
        if letter == "N":
            return case_n(*numbers, *self.octets)
        if letter == "W":
            return case_w(numbers[0], self.records, numbers[1], *self.octets)
        if letter == "S":
            return case_s(*self.octets)
        if letter == "X":
            return case_x(*numbers, *self.octets)
        if letter == "E":
            return case_e(*numbers, *self.octets, self.edits)
        if letter == "M":
            return case_m(*numbers, *self.octets)
        if letter == "G":
            return case_g(*numbers, *self.octets)
        if letter == "C":
            return case_c(*numbers, *self.octets)
        if letter == "J":
            return case_j(*self.octets)
        if letter == "F":
            return case_f(*self.octets)
        if letter == "P":
            return case_p(*numbers, *self.octets)
        if letter == "stream":
            return b"".join(self.octets)
        raise ValueError(f"in case {self.name}: letter {letter}")


def read_named(path, kind=Named):
    """The named cases of a kind in a file; an indented line goes on with the one above it."""
    cases, lines = [], []
    with open(path, encoding="utf-8") as file:
        for line in file.read().split("\n"):
            if line.startswith(" "):
                lines[-1] += line
            elif line and not line.startswith("#"):
                lines.append(line)
    for line in lines:
        if line.startswith("== "):
            cases.append(kind(line[3:]))
        else:
            cases[-1].add(line)
    return cases


def alone(program, named):
    lines, status = run(program, named.stream())
    got = lines[:-1] + ([lines[-1]] if lines[-1] else [])
    if status < 0 or (status != 0 and named.head[0] != "stream"):
        got.append(f"(exit status {status})")
    return got


def answers_of(program, cases):
    """Each case's answer: all good cases in one stream, or one by one where that goes wrong."""
    whole = [named for named in cases if named.head[0] != "stream"]
    answers, status = ask(program, [named.stream() for named in whole])
    if status != 0 or len(answers) != len(whole):
        return {named.name: alone(program, named) for named in cases}
    got = {named.name: answer for named, answer in zip(whole, answers)}
    got.update((named.name, alone(program, named)) for named in cases if named.head[0] == "stream")
    return got


def cut(lines):
    return " | ".join(line if len(line) <= 120 else line[:117] + "..." for line in lines) or "(nothing)"


def main():
    parser = argparse.ArgumentParser(description="Runs a program on the named cases.")
    parser.add_argument("program")
    parser.add_argument("--letters", default=CASE_LETTERS)
    options = parser.parse_args()
    files = ["expected.txt"] + [file for file, letters in FILES.items() if set(letters) & set(options.letters)]
    here = os.path.dirname(os.path.abspath(__file__))
    left_out = [letter.encode() for letter in RANDOM if letter not in options.letters]
    cases = [named for file in files for named in read_named(os.path.join(here, file)) if named.stream()[:1] not in left_out]
    if len({named.name for named in cases}) != len(cases):
        sys.exit(f"{' and '.join(files)}: two cases have one name")
    got = answers_of(options.program, cases)
    wrong = [named for named in cases if got[named.name] != named.answer]
    for named in wrong:
        print(f"{named.name}\n  expected: {cut(named.answer)}\n  answered: {cut(got[named.name])}")
    print(f"named cases: {len(cases) - len(wrong)} held, {len(wrong)} not")
    sys.exit(0 if cases and not wrong else 1)


if __name__ == "__main__":
    main()
