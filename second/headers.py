"""The count of headers (document 02, request 2026-09), from 01 and 02 alone: what the items of an object come to, and random objects for it, read into a list
or with none (request 2026-14)."""
from make_cases import FIELD_LIMIT, OBJECT_LIMIT, UNKNOWN_ELEMENTS, Raw, case_c, case_j, damage, random_raw
from meanings import count_attributes, span_of_elements

NEVER_KNOWN = range(0x88, 0x100)  # attributes that annex E gives to no element


def counts(raw):
    """The records and the headers of an accepted object: only the items that write a known item have records, and what is in an unknown one is octets."""
    parts = [part for part, _ in raw.walk()]
    return sum(part.node is not None for part in parts), len(parts)


def counted(raw):
    return "records {} headers {}".format(*counts(raw))


# ---- Unknown items with known ones inside ----------------------------------------------------------------

def look_alike(rng, raw):
    """Octets that look like items: one of the object's own or several, the whole object, or one that is cut off."""
    octets = [part.octets() for part, _ in raw.walk()]
    return rng.choice([octets[0], rng.choice(octets), b"".join(rng.sample(octets, min(3, len(octets)))), rng.choice(octets)[:-1]])


def add_unknown(rng, raw):
    """Puts an unknown attribute or element with such octets into one of its elements."""
    part, depth = rng.choice([(part, depth) for part, depth in raw.walk() if isinstance(part.body, list)])
    body, form = look_alike(rng, raw), rng.choice([0, 0, 1, 2])
    if depth == 16 or rng.random() < 0.3:
        part.body.insert(rng.randint(0, count_attributes(part.body)), Raw(rng.choice(NEVER_KNOWN), body, form))
    else:
        part.body.insert(rng.randint(*span_of_elements(part.body)), Raw(rng.choice(UNKNOWN_ELEMENTS), body, form))


def hide_element(rng, raw):
    """Puts an unknown element in the place of one of its elements, with that in it, whole or without its first two octets; its records go with it."""
    places = [(body, index) for body in raw.lists() for index in range(*span_of_elements(body))]
    if places:
        body, index = rng.choice(places)
        body[index] = Raw(rng.choice(UNKNOWN_ELEMENTS), body[index].octets()[rng.choice([0, 2]):], rng.choice([0, 0, 1, 2]))


def with_unknown(rng, raw):
    """A copy in which unknown items stand beside known ones and in their place; itself where that is no object any more."""
    twin = raw.copy()
    for _ in range(rng.choice([1, 1, 2, 4, 8])):
        rng.choice([add_unknown, add_unknown, hide_element])(rng, twin)
    return twin if len(twin.octets()) <= OBJECT_LIMIT else raw


def random_octets(rng):
    """The octets of an object, now and then damaged, and its records before that."""
    _, _, raw = random_raw(rng)
    raw = with_unknown(rng, raw) if rng.random() < 0.7 else raw
    records, _ = counts(raw)
    return records, damage(rng, raw)[:FIELD_LIMIT] if rng.random() < 0.4 else raw.octets()


def random_counted(rng):
    records, octets = random_octets(rng)
    return case_c(rng.choice([records] * 4 + [records + 1, 65535, 65535, 65535, records - 1]), octets)


def random_judged(rng):
    _, octets = random_octets(rng)
    return case_j(octets)
