#!/usr/bin/env python3
"""Reads a program's XML back:  try_xml.py PROGRAM SEED N

Asks PROGRAM for the listing (L) and the XML (X) of N random objects and of edge cases with every name, number of digits, offset and kind of bearer, reads the XML with
Python's own parser, and finds in it, in order, just the elements, attributes and texts that the listing and the octets of the object have, but for attributes with
their default, which the XML leaves out. Values are read back: a time by Python's calendar, from local time to UTC. Texts are held as an XML reader gets them: line
ends become line feeds, and in attributes tabs and line feeds become blanks. Names are those of second/as_xml.py, read from the annexes apart from the second program.
Prints the first differences and a last line `XML of N objects of seed S read back: ..`; the exit status is 0 only where there is no difference and every name, every
default and every character of note was met.
"""
import os
import random
import re
import sys
from collections import Counter
from datetime import datetime, timedelta, timezone
from xml.parsers import expat

HERE = os.path.dirname(os.path.dirname(os.path.abspath(__file__)))
sys.path.insert(0, os.path.join(HERE, "second"))

from as_xml import ATTRIBUTE_NAMES, DEFAULT_OCTETS, DURATION, ELEMENT_NAMES, KINDS, OCTET_NAMES, xml  # noqa: E402
from edges import top, xml_bearers, xml_names, xml_numbers, xml_times  # noqa: E402
from make_cases import BEARER, ENUM, FIELD_LIMIT, NUMBER, PLAIN, SHORT_ID, TEXT, TIME, case_l, case_x, item, named_tree, random_raw  # noqa: E402
from streams import LISTING, run, split_answers  # noqa: E402

SHOWN_DIFFERENCES = 3
OF_NOTE = "\t\n\r&<>\"'"  # what a reader changes, and what is escaped
LEFT_OUT = "default left out"


class Difference(Exception):
    """What the XML has otherwise than the object."""


# ---- What the object has: the records of its listing, over its octets --------------------------------

class Element:
    """An element of the object, or one that the parser met: attributes in order, children in order, text or None."""

    def __init__(self, name, tag=None):
        self.name, self.tag = name, tag
        self.attributes, self.children, self.text = [], [], None


def framed(octets, at):
    """Where the body of the item at a place begins and ends."""
    length, start = octets[at + 1], at + 2
    if length >= 0xFE:
        field = 2 if length == 0xFE else 3
        length, start = int.from_bytes(octets[start:start + field], "big"), start + field
    return start, start + length


def token_entries(octets):
    """The texts of an accepted object's tokens: its table is the first item of the top that is no attribute."""
    at, end = framed(octets, 0)
    while at < end and octets[at] >= 0x80:
        at = framed(octets, at)[1]
    entries = {}
    if at < end and octets[at] == 0x04:
        at, end = framed(octets, at)
        while at < end:
            start = at + 2
            at = start + octets[at + 1]
            entries[octets[start - 2]] = octets[start:at]
    return entries


def listed_tree(lines, octets):
    """The elements that a listing has, with the octets of their attributes and their texts, tokens replaced."""
    entries = token_entries(octets)
    path = []
    for line in lines[1:-1]:
        depth, tag, kind, offset, length = line.split()
        depth, tag, offset = int(depth), int(tag, 16), int(offset)
        body = octets[offset:offset + int(length)]
        if kind == "element":
            here = Element(ELEMENT_NAMES[tag], tag)
            del path[depth - 1:]
            if path:
                path[-1].children.append(here)
            path.append(here)
        parent = path[depth - 2]
        if kind == "attribute" and KINDS[parent.tag, tag] != TEXT:
            parent.attributes.append((tag, body))
        elif kind != "element" or tag == 0x06:
            text = b"".join(entries.get(octet, bytes([octet])) for octet in body).decode()
            if kind == "attribute":
                parent.attributes.append((tag, text))
            elif kind == "cdata":
                parent.text = text
            else:
                here.text = text or None
    return path[0]


# ---- What the XML has --------------------------------------------------------------------------------

def parsed_tree(octets):
    """The elements that the parser meets.  An empty text is an empty CDATA section; text stands behind the children; no section has anything in it."""
    parser, path, tops = expat.ParserCreate(), [], []

    def start(name, attributes):
        here = Element(name)
        here.attributes = list(zip(attributes[::2], attributes[1::2]))
        if path and path[-1].text is not None:
            raise Difference(f"text before the child {name}")
        (path[-1].children if path else tops).append(here)
        path.append(here)

    def end(name):
        here, behind = path.pop(), parser.CurrentByteIndex
        if here.text is None and not here.children and octets[behind - 2:behind] != b"/>":
            raise Difference(f"{name} has nothing in it and two tags")

    def text(letters):
        if path[-1].text == "":
            raise Difference("text in or behind a CDATA section")
        path[-1].text = (path[-1].text or "") + letters

    def section():
        if path[-1].text is not None:
            raise Difference("a CDATA section behind text")
        path[-1].text = ""

    def other(*what):
        raise Difference(f"neither element nor text: {what}")

    parser.ordered_attributes = parser.buffer_text = True
    parser.StartElementHandler, parser.EndElementHandler, parser.CharacterDataHandler = start, end, text
    parser.StartCdataSectionHandler = section
    parser.XmlDeclHandler = parser.CommentHandler = parser.ProcessingInstructionHandler = parser.StartDoctypeDeclHandler = other
    parser.Parse(octets, True)
    return tops[0]


# ---- Values read back --------------------------------------------------------------------------------

def read_lines(text):
    """Line ends as an XML reader hands them on."""
    return text.replace("\r\n", "\n").replace("\r", "\n")


def same_text(shown, text):
    return shown == read_lines(text).replace("\n", " ").replace("\t", " ")


def same_number(shown, body):
    return re.fullmatch("0|[1-9][0-9]*", shown) is not None and int(shown) == int.from_bytes(body, "big")


def same_duration(shown, body):
    return shown.startswith("PT") and shown.endswith("S") and same_number(shown[2:-1], body)


def same_time(shown, body):
    """The local time is read, moved to UTC and held against the fields."""
    if re.fullmatch(r"\d{4}-\d\d-\d\dT\d\d:\d\d:\d\d[+-]\d\d:\d\d", shown) is None or shown.endswith("-00:00"):
        return False
    moment = datetime.fromisoformat(shown)
    since = moment.astimezone(timezone.utc) - datetime(1858, 11, 17, tzinfo=timezone.utc)
    word, seconds, offset = int.from_bytes(body[:4], "big"), 0, timedelta(0)
    if word & 0x800:
        seconds = body[4] >> 2
    if word & 0x1000:
        offset = timedelta(minutes=30 * (body[-1] & 0x1F)) * (-1 if body[-1] & 0x20 else 1)
    fields = timedelta(days=word >> 14 & 0x1FFFF, hours=word >> 6 & 0x1F, minutes=word & 0x3F, seconds=seconds)
    return since == fields and moment.utcoffset() == offset


def same_bearer(shown, body):
    """Put together again from its fields, a bearer is the octets but for the first and the third bit."""
    if re.fullmatch(r"([0-9a-f]{2}\.[0-9a-f]{4}|\.)\.([0-9a-f]{4}|[0-9a-f]{8})\.[0-9a-f]", shown) is None:
        return False
    ecc, eid, sid, scids = shown.split(".")
    first = (0x40 if ecc else 0) | (0x10 if len(sid) == 8 else 0) | int(scids, 16)
    return bytes([first]) + bytes.fromhex(ecc + eid + sid) == bytes([body[0] & 0x5F]) + body[1:]


SAME = {TEXT: same_text, NUMBER: same_number, SHORT_ID: same_number, DURATION: same_duration, TIME: same_time, BEARER: same_bearer}


def same_octet(shown, body, names):
    octets = [octet for octet, name in names.items() if name == shown]
    if body[0] in names:
        return octets == [body[0]]
    return re.fullmatch("[0-9a-f]{2}", shown) is not None and bytes.fromhex(shown) == body


# ---- Holding one against the other -------------------------------------------------------------------

def note(place, text, met):
    met[place] += 1
    for letter in OF_NOTE:
        met[place, letter] += letter in text


def hold_attributes(listed, parsed, met):
    there = sorted((tag, value) for tag, value in listed.attributes if value != DEFAULT_OCTETS.get((listed.tag, tag)))
    for tag in {tag for tag, _ in listed.attributes} - {tag for tag, _ in there}:
        met[LEFT_OUT] += 1
        met[(listed.tag, tag), LEFT_OUT] += 1
    names = [ATTRIBUTE_NAMES[listed.tag, tag] for tag, _ in there]
    if names != [name for name, _ in parsed.attributes]:
        raise Difference(f"{listed.name} has the attributes {names}, and in the XML {parsed.attributes}")
    for (tag, value), (name, shown) in zip(there, parsed.attributes):
        pair = listed.tag, tag
        kind = KINDS[pair]
        met[kind] += 1
        met[pair] += 1
        same = same_octet(shown, value, OCTET_NAMES[pair]) if kind == ENUM else SAME[kind](shown, value)
        if not same:
            raise Difference(f"{listed.name} has {name} {value!r}, and in the XML {shown!r}")
        if kind == ENUM:
            met[pair, OCTET_NAMES[pair].get(value[0])] += 1
        if kind == TEXT:
            note("text in attributes", value, met)


def hold(listed, parsed, met):
    """Raises where an element and all in it differ; counts what was held."""
    if listed.name != parsed.name:
        raise Difference(f"an element {listed.name}, and in the XML {parsed.name}")
    met["element"] += 1
    met[listed.tag] += 1
    hold_attributes(listed, parsed, met)
    if len(listed.children) != len(parsed.children):
        raise Difference(f"{listed.name} has {len(listed.children)} children, and in the XML {len(parsed.children)}")
    for child, its_xml in zip(listed.children, parsed.children):
        hold(child, its_xml, met)
    if parsed.text != (None if listed.text is None else read_lines(listed.text)):
        raise Difference(f"{listed.name} has the text {listed.text!r}, and in the XML {parsed.text!r}")
    if listed.text is not None:
        note("text in elements", listed.text, met)


def answered(listing, answer, octets, met):
    """Holds the two answers to one object against each other."""
    if listing[0] != LISTING or len(answer) != 1 or not answer[0].startswith("xml "):
        raise Difference(f"no listing or no XML: {listing[0][:80]} | {answer[0][:80]}")
    try:
        parsed = parsed_tree(bytes.fromhex(answer[0][4:]))
    except (expat.ExpatError, ValueError) as error:
        raise Difference(f"the parser says: {error}") from error
    hold(listed_tree(listing, octets), parsed, met)


def never_met(met):
    """The names that no object had; elements and attributes of plain octets and the token table are never written."""
    wanted = [tag for tag in ELEMENT_NAMES if tag not in (0x04, 0x34, 0x35)] + [pair for pair, kind in KINDS.items() if kind != PLAIN]
    wanted += [(pair, name) for pair, names in OCTET_NAMES.items() for octet, name in names.items() if bytes([octet]) != DEFAULT_OCTETS.get(pair)]
    wanted += [(pair, None) for pair in OCTET_NAMES] + [(pair, LEFT_OUT) for pair in DEFAULT_OCTETS]
    wanted += [(place, letter) for place in ("text in attributes", "text in elements") for letter in OF_NOTE]
    return [name for name in wanted if met[name] == 0]


# ---- Objects -----------------------------------------------------------------------------------------

def is_readable(tree):
    """Whether a tree is accepted and its XML fits a case; U+FFFE and U+FFFF are text for document 01, and for no XML reader."""
    if tree.too_long():
        return False
    octets = xml(tree)
    return len(octets) <= FIELD_LIMIT and "\ufffe" not in octets.decode() and "\uffff" not in octets.decode()


def objects(seed, count):
    chosen = [case[7:] for group in (xml_names, xml_numbers, xml_times, xml_bearers) for case in group()]
    for text in (OF_NOTE.encode(), b"a\r\nb\r\rc\n\r\t", b" \t "):
        chosen.append(top(item(0x82, text), item(0x06, text), item(0x01, text)))
    rng, most = random.Random(f"xml {seed}"), len(chosen) + count
    while len(chosen) < most:
        _, tree, raw = random_raw(rng, named_tree)
        if is_readable(tree):
            chosen.append(raw.octets())
    return chosen


def main():
    if len(sys.argv) != 4:
        sys.exit("usage: try_xml.py PROGRAM SEED N")
    program, seed, count = sys.argv[1], sys.argv[2], int(sys.argv[3])
    chosen, met, found = objects(seed, count), Counter(), []
    lines, status = run(program, b"".join(case_l(65535, octets) + case_x(FIELD_LIMIT, octets) for octets in chosen))
    answers = split_answers(lines)
    if status != 0 or len(answers) != 2 * len(chosen):
        found.append(f"status {status}, {len(answers)} answers to {2 * len(chosen)} cases")
    for octets, listing, answer in zip(chosen, answers[::2], answers[1::2]):
        try:
            answered(listing, answer, octets, met)
        except Difference as difference:
            found.append(f"{octets.hex()[:200]}\n  {difference}")
    found += [f"never met: {name}" for name in never_met(met)]
    for difference in found[:SHOWN_DIFFERENCES]:
        print(difference)
    held = ", ".join(f"{met[what]} {what}" for what in ["element", "text in elements", "text in attributes", NUMBER, SHORT_ID, DURATION, ENUM, LEFT_OUT, TIME, BEARER])
    print(f"XML of {len(chosen)} objects of seed {seed} read back: {held}: {'as listed' if not found else f'{len(found)} DIFFERENCES'}")
    sys.exit(1 if found else 0)


if __name__ == "__main__":
    main()
