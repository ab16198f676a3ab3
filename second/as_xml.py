"""The XML of a tree of make_cases.py (document 02, request 2026-02), and the names and kinds that it takes from 002.

The annexes were read for this file anew, and stand in another form than in the second program: of each attribute its clause, which says what its
value is.  The defaults, which are left out (2026-05), stand here by their names in 003.  Times go by Python's own calendar.
"""
from collections import Counter
from datetime import datetime, timedelta, timezone
from xml.sax.saxutils import escape

from make_cases import ATTRIBUTES, BEARER, COORDINATES, DEFAULT, DEFAULTS, ENUM, NUMBER, PLAIN, SHORT_ID, TEXT, TIME

# Table D.1, without the rows that are not used.
ANNEX_D = """
epg 02, serviceInformation 03, tokenTable 04, defaultLanguage 06, shortName 10, mediumName 11, longName 12, mediaDescription 13, genre 14,
keywords 16, memberOf 17, link 18, location 19, shortDescription 1A, longDescription 1B, programme 1C, programmeGroups 20, schedule 21,
programmeGroup 23, scope 24, serviceScope 25, ensemble 26, service 28, bearer 29, multimedia 2B, time 2C, bearer 2D, programmeEvent 2E,
relativeTime 2F, radiodns 31, geolocation 32, country 33, point 34, polygon 35, onDemand 36, presentationTime 37, acquisitionTime 38
"""

# Tables E.1 to E.3 likewise: attribute, code and clause.
ANNEX_E = """
genre: href 80 4.12, type 81 4.6
keywords: xml:lang 80 4.8.1
link: uri 80 4.4.0, mimeValue 81 4.7.3, xml:lang 82 4.8.1, description 83 4.4.0, expiryTime 84 4.7.4
shortName: xml:lang 80 4.8.1
mediumName: xml:lang 80 4.8.1
longName: xml:lang 80 4.8.1
shortDescription: xml:lang 80 4.8.1
longDescription: xml:lang 80 4.8.1
multimedia: mimeValue 80 4.7.3, xml:lang 81 4.8.1, url 82 4.4.0, type 83 4.6, width 84 4.8.5, height 85 4.8.5
bearer: id 80 4.7.6, url 82 4.4.0
geolocation: xml:id 80 4.4.0, ref 81 4.4.0
serviceInformation: version 80 4.8.3, creationTime 81 4.7.4, originator 82 4.4.0, serviceProvider 83 4.4.0
ensemble: id 80 4.17.1
service: version 80 4.8.3
radiodns: fqdn 80 4.4.0, serviceIdentifier 81 4.4.0
programmeGroups: version 80 4.8.3, creationTime 81 4.7.4, originator 82 4.4.0
programmeGroup: id 80 4.7.1, shortId 81 4.7.2, version 82 4.8.3, type 83 4.6, numOfItems 84 4.8.4
schedule: version 80 4.8.3, creationTime 81 4.7.4, originator 82 4.4.0
scope: startTime 80 4.7.4, stopTime 81 4.7.4
serviceScope: id 80 4.7.6
programme: id 80 4.7.1, shortId 81 4.7.2, version 82 4.8.3, recommendation 83 4.6, broadcast 84 4.6, xml:lang 86 4.8.1
programmeEvent: id 80 4.7.1, shortId 81 4.7.2, version 82 4.8.3, recommendation 83 4.6, broadcast 84 4.6, xml:lang 86 4.8.1
time: time 80 4.7.4, duration 81 4.7.5, actualTime 82 4.7.4, actualDuration 83 4.7.5
relativeTime: time 80 4.7.5, duration 81 4.7.5, actualTime 82 4.7.5, actualDuration 83 4.7.5
memberOf: id 80 4.7.1, shortId 81 4.7.2, index 82 4.8.2
presentationTime: start 80 4.7.4, end 81 4.7.4, duration 82 4.7.5
acquisitionTime: start 80 4.7.4, end 81 4.7.4
"""

# Table F.1; on-air, whose row is lost in our copy, is the default in 003, and a default always has the code 01.
ANNEX_F = """
programmeGroup type: series 02, show 03, programConcept 04, magazine 05, programCompilation 06, otherCollection 07, otherChoice 08, topic 09
programme broadcast: on-air 01, off-air 02
programmeEvent broadcast: on-air 01, off-air 02
programme recommendation: no 01, yes 02
programmeEvent recommendation: no 01, yes 02
multimedia type: logo_unrestricted 02, Not used 03, logo_colour_square 04, Not used 05, logo_colour_rectangle 06
genre type: main 01, secondary 02, other 03
"""

# The defaults that 003's schema has for attributes of annex E, clauses 5.3.3 and 5.3.13, but for that of xml:lang, which 0x06 governs.
SCHEMA_DEFAULTS = """
genre: type main
programme: recommendation no, broadcast on-air
programmeEvent: recommendation no, broadcast on-air
"""

DURATION = "duration"
CLAUSES = {"4.4.0": TEXT, "4.7.1": TEXT, "4.7.3": TEXT, "4.8.1": TEXT, "4.6": ENUM, "4.7.2": SHORT_ID, "4.7.4": TIME, "4.7.5": DURATION, "4.7.6": BEARER,
           "4.8.2": NUMBER, "4.8.3": NUMBER, "4.8.4": NUMBER, "4.8.5": NUMBER, "4.12": PLAIN, "4.17.1": PLAIN}


def rows(text):
    """What stands before a colon, and the entries behind it, each as its words."""
    for line in text.strip().split("\n"):
        head, _, entries = line.partition(": ")
        yield head, [entry.split() for entry in entries.split(", ")]


def coded(entries):
    """Names by code; a name that two codes share takes a dot and the code."""
    named = [(" ".join(words[:-1]), int(words[-1], 16)) for words in entries]
    often = Counter(name for name, _ in named)
    return {code: name if often[name] == 1 else f"{name}.{code:02x}" for name, code in named}


D_ENTRIES = [entry.split() for entry in ANNEX_D.replace(",", "\n").strip().split("\n") if entry]
ELEMENT_NAMES = coded(D_ENTRIES)
CODES = {name: [int(code, 16) for other, code in D_ENTRIES if other == name] for name, _ in D_ENTRIES}

ATTRIBUTE_NAMES, KINDS = {}, {}  # by the codes of element and attribute
for element_name, attributes in rows(ANNEX_E):
    for attribute_name, code, clause in attributes:
        for element in CODES[element_name]:
            ATTRIBUTE_NAMES[element, int(code, 16)] = attribute_name
            KINDS[element, int(code, 16)] = CLAUSES[clause]


def pairs_named(element_name, attribute_name):
    """The codes of the attributes that have this name in the elements that have that one."""
    return [(element, code) for (element, code), name in ATTRIBUTE_NAMES.items() if element in CODES[element_name] and name == attribute_name]


OCTET_NAMES = {}  # by the codes of element and attribute: names by octet
for head, octets in rows(ANNEX_F):
    for pair in pairs_named(*head.split()):
        OCTET_NAMES[pair] = coded(octets)

DEFAULT_OCTETS = {}  # likewise: the octet of the default
for element_name, defaults in rows(SCHEMA_DEFAULTS):
    for attribute_name, word in defaults:
        for pair in pairs_named(element_name, attribute_name):
            DEFAULT_OCTETS[pair], = (bytes([octet]) for octet, name in OCTET_NAMES[pair].items() if name == word)

# The maker's own reading of the defaults has to be the same.
assert DEFAULT_OCTETS == dict.fromkeys(DEFAULTS, DEFAULT)

# The maker's own reading of annex E, in which a duration is a number as any other, has to be the same.
assert {pair: NUMBER if kind == DURATION else kind for pair, kind in KINDS.items()} == \
    {(element, attribute): kind for element, known in ATTRIBUTES.items() for attribute, kind in known.items()}


# ---- The XML of a tree -------------------------------------------------------------------------------

def has_plain(node):
    """Whether a tree holds plain octets, which refusal 17 is for."""
    return any(part.tag in COORDINATES or KINDS.get((parent.tag, part.tag)) == PLAIN for parent in node.walk() for part in parent.items())


def escaped(text):
    return escape(text.normal.decode(), {'"': "&quot;", "'": "&apos;"})


def time_text(time):
    """Local time with its offset; datetime writes it as 003 does, since there are no parts of a second."""
    date, hours, minutes, seconds, minus, half_hours = time.fields
    utc = datetime(1858, 11, 17, tzinfo=timezone.utc) + timedelta(days=date, hours=hours, minutes=minutes, seconds=seconds)
    return utc.astimezone(timezone(timedelta(minutes=(-30 if minus else 30) * half_hours))).isoformat()


def bearer_text(bearer):
    ensemble = bearer.ensemble.hex()
    return f"{ensemble[:2]}.{ensemble[2:]}.{bearer.sid.hex()}.{bearer.scids:x}"


def value_text(pair, value):
    """The text between the quotes of an attribute."""
    kind = KINDS[pair]
    if kind == TEXT:
        return escaped(value)
    if kind == TIME:
        return time_text(value)
    if kind == BEARER:
        return bearer_text(value)
    if kind == ENUM:
        return OCTET_NAMES[pair].get(value.normal[0], value.normal.hex())
    number = int.from_bytes(value.normal, "big")
    return f"PT{number}S" if kind == DURATION else str(number)


def text_of(node):
    name = ELEMENT_NAMES[node.tag]
    attributes = "".join(f' {ATTRIBUTE_NAMES[node.tag, part.tag]}="{value_text((node.tag, part.tag), part.value)}"'
                         for part in sorted(node.attributes, key=lambda part: part.tag)
                         if part.value.normal != DEFAULT_OCTETS.get((node.tag, part.tag)))
    content = "".join((escaped(part.value) or "<![CDATA[]]>") if part.tag == 0x01 else text_of(part) for part in node.children)
    content += escaped(node.value) if node.tag == 0x06 else ""
    return f"<{name}{attributes}>{content}</{name}>" if content else f"<{name}{attributes}/>"


def xml(tree):
    """The octets of the XML of a tree that holds no plain octets."""
    return text_of(tree).encode()
