#!/usr/bin/env python3
"""Brings the names of definitions and lemmas to the spelling of today's Rattle: words in snake case, types and modules in camel case.

usage: tools/respell.py [--list]      at the top of the repository, once, after port.py

A word is a name of specs/, of proofs/ or of a clause that begins with a small letter and holds a capital one, as headerOf: it becomes header_of. A lemma's name
joins words by dashes, and each word in it is turned by itself. Text between quotes keeps its spelling, and so does a name that no definition here has. A name
that would fall together with another of the same file gets the ending that SAID gives it. --list writes each name with what it becomes, and turns nothing.
"""

import pathlib
import re
import sys

TOP = pathlib.Path(__file__).resolve().parent.parent

# Private lemmas that a definition would fall together with, by file, and what they become.
ASIDE = {
    "crates/packer/proofs/Noting.antt": {"is_word": "word-holds"},
    "crates/packer/proofs/Measuring.antt": {"is_word": "word-holds"},
    "crates/text/proofs/Sequences.antt": {"same_test": "test-same"},
    "crates/format/proofs/Lays.antt": {"put_whole": "whole-put"},
}

# Names that port.py had turned already, so that only pages and tools still have them.
BY_PORT = """
afterBlock afterOf afterSeq afterTurn answerOf anyQ bodyOf byKind byTag codeOf codesOf countOf depthOf dueAt endAt endOf exportOf fieldOf firstAt
firstOf gapOf givenOf inRange isDefault isForeign isOver isPlain isTop isValue isWhole isWritten itemAt itemOf keyOf kindOf knownBy lentBy liesAt
loadedAt noMore normalBody numberIn numberOf ofBoth ofNone oneOf orElse ownOf parentOf partAt partOf partsAt pieceOf placeIn placeOf placesOf roomFor
rowBy rowOf shortOf sizeAt sizeOf spanOf spotOf startOf startsWith stepOf storeOf sumOf tableOf tablesOf tagIs tagOf takenOf textOf tripleOf upFrom
walkOf widthAt widthOf wordAt wordIn wordOf wordsIn wordsOf writtenOf
""".split()

# A word: letters, digits, _ and ' as far as they go. A dash ends it.
WORD = re.compile(r"(?<![\w'])[a-z]\w*")
TURNED = re.compile(r"[a-z0-9][A-Z]")
STRING = re.compile(r'"(?:[^"\\\n]|\\.)*"')


def snake(word):
    return re.sub(r"([a-z0-9])([A-Z])", lambda m: m[1] + "_" + m[2].lower(), word)


def code(path, text):
    """The text without comments and strings, in which names are looked for."""
    text = STRING.sub('""', text)
    return re.sub(r"--.*" if path.suffix == ".antt" else r"//.*", "", text)


def sources():
    for suffix in (".antt", ".rt"):
        yield from sorted(p for p in (TOP / "crates").glob("*/**/*" + suffix) if "out" not in p.parts)


def names():
    found = set()
    for path in sources():
        found |= {w for w in WORD.findall(code(path, path.read_text())) if TURNED.search(w)}
    return found


def turn(text, words, aside):
    def outside(part):
        return WORD.sub(lambda m: aside.get(m[0]) or (snake(m[0]) if m[0] in words else m[0]), part)

    out, at = [], 0
    for m in STRING.finditer(text):
        out += [outside(text[at:m.start()]), m[0]]
        at = m.end()
    return "".join(out) + outside(text[at:])


def main():
    words = names()
    if "--list" in sys.argv:
        for w in sorted(words):
            print(w, snake(w))
        return
    edits = sorted((TOP / "crates").glob("*/must-fail/*.edit"))
    pages = [p for folder in ("docs", "tools", "bench", "second", "examples") for p in sorted((TOP / folder).rglob("*")) if p.suffix in (".md", ".py") or p.parent.name == "tools"]
    pages.append(TOP / "README.md")
    for path in [*sources(), *edits, *pages]:
        if not path.is_file() or path.resolve() == pathlib.Path(__file__).resolve():
            continue
        try:
            text = path.read_text()
        except UnicodeDecodeError:
            continue
        turned = turn(text, words | set(BY_PORT) if path in pages else words, ASIDE.get(str(path.relative_to(TOP)), {}))
        if turned != text:
            path.write_text(turned)


main()
