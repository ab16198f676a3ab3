#!/usr/bin/env python3
"""Holds the trees of `spi show` to the maker's objects:  try_show.py SEED N

Runs the program spi on N random objects, plain octets and all, and finds in what it says, line by line, just the known items that the maker wrote: the place
of each, its depth, and the name and the value that second/as_xml.py has for it in XML. Prints the first difference and a last line `trees of N objects of
seed S: ..`; the exit status is 0 only where there is no difference and every kind of line was met.
"""
import os
import random
import subprocess
import sys
import tempfile
from collections import Counter

HERE = os.path.dirname(os.path.dirname(os.path.abspath(__file__)))
sys.path.insert(0, os.path.join(HERE, "second"))

from as_xml import ATTRIBUTE_NAMES, ELEMENT_NAMES, KINDS, escaped, value_text  # noqa: E402
from make_cases import COORDINATES, PLAIN, random_raw  # noqa: E402


def printed(text):
    """A text in one line: control characters as XML's references to them."""
    return "".join(f"&#{ord(letter)};" if letter < " " or letter == "\x7f" else letter for letter in text)


def shown(parent, node):
    """The kind of a known item's line, and what stands there behind the place."""
    pair = parent, node.tag
    if node.tag in COORDINATES:
        return "element of plain octets", f"{ELEMENT_NAMES[node.tag]} {node.value.normal.hex()}"
    if node.tag == 0x01:
        return "text", f'"{printed(escaped(node.value))}"'
    if node.tag == 0x06:
        return "language", f'{ELEMENT_NAMES[node.tag]} "{printed(escaped(node.value))}"'
    if node.tag < 0x80:
        return "element", ELEMENT_NAMES[node.tag]
    if KINDS[pair] == PLAIN:
        return "attribute of plain octets", f"{ATTRIBUTE_NAMES[pair]}={node.value.normal.hex()}"
    return "attribute", f'{ATTRIBUTE_NAMES[pair]}="{printed(value_text(pair, node.value))}"'


def lines(raw, met, parent=0, depth=0, place=0):
    """The lines of an item and of all in it; one that isn't known and the token table have none."""
    if raw.node is None:
        return
    kind, text = shown(parent, raw.node)
    met[kind] += 1
    yield f"{place:5} {'  ' * depth}{text}\n"
    if isinstance(raw.body, list):
        parts = [part.octets() for part in raw.body]
        place += len(raw.octets()) - sum(map(len, parts))
        for part, octets in zip(raw.body, parts):
            yield from lines(part, met, raw.tag, depth + 1, place)
            place += len(octets)


def main():
    if len(sys.argv) != 3:
        sys.exit("usage: try_show.py SEED N")
    seed, count = sys.argv[1], int(sys.argv[2])
    words = subprocess.run([f"{HERE}/tools/run-program", "--words", "spi"], check=True, stdout=subprocess.PIPE).stdout.split(b"\0")[:-1]
    rng, met, tried, found = random.Random(f"show {seed}"), Counter(), 0, ""
    with tempfile.NamedTemporaryFile() as file:
        while tried < count and not found:
            _, tree, raw = random_raw(rng)
            if tree.too_long():
                continue
            tried += 1
            with open(file.name, "wb") as object_file:
                object_file.write(raw.octets())
            said = subprocess.run([*words, "show", file.name], stdout=subprocess.PIPE).stdout
            expected = ("".join(lines(raw, met)) + "spi status 0\n").encode()
            if said != expected:
                found = f"{raw.octets().hex()[:200]}\n  said     {said[:400]!r}\n  expected {expected[:400]!r}"
    kinds = ["element", "attribute", "text", "language", "attribute of plain octets", "element of plain octets"]
    if not found and 0 in (met[kind] for kind in kinds):
        found = "not every kind of line was met"
    if found:
        print(found)
    print(f"trees of {tried} objects of seed {seed}: {', '.join(f'{met[kind]} {kind}' for kind in kinds)}: {'DIFFERENT' if found else 'as made'}")
    sys.exit(1 if found else 0)


if __name__ == "__main__":
    main()
