"""The small receiver's gate (document 02, request 2026-07), from 02 and annex A of 002 alone: what the Basic profile allows, and random objects for it.

Annex A was read for this file anew, and stands in another form than in the second program: row by row, with the paths of names that its tables have.  What
counts is still the pairs, an element and what stands directly in it.
"""
from as_xml import CODES, pairs_named
from make_cases import ATTRIBUTES, CHILDREN, COORDINATES, FIELD_LIMIT, PLAIN, Node, case_g, damage, random_raw, random_tree
from meanings import height, holder, span_of_elements

SI, PI, GI = DATA_TYPES = range(3)
NO_DATA_TYPES = 3, 255  # and all between them
TOPS = {SI: 0x03, PI: 0x02, GI: 0x02}

# Tables A.1 and A.2, without the column of what is required.
SERVICE_INFORMATION_DAB = """
serviceInformation: version
serviceInformation.ensemble: id
serviceInformation.ensemble.shortName: xml:lang
serviceInformation.ensemble.mediumName: xml:lang
serviceInformation.ensemble.mediaDescription:
serviceInformation.ensemble.mediaDescription.multimedia: type, mimeValue, xml:lang, url, width, height
serviceInformation.ensemble.service:
serviceInformation.ensemble.service.bearer: id
serviceInformation.ensemble.service.shortName: xml:lang
serviceInformation.ensemble.service.mediumName: xml:lang
serviceInformation.ensemble.service.mediaDescription:
serviceInformation.ensemble.service.mediaDescription.multimedia: type, mimeValue, xml:lang, url, width, height
serviceInformation.ensemble.service.radiodns: fqdn, servicelIdentifier
"""
SERVICE_INFORMATION_DRM = """
serviceInformation: version
serviceInformation.service:
serviceInformation.service.bearer: id
serviceInformation.service.shortName: xml:lang
serviceInformation.service.mediumName: xml:lang
serviceInformation.service.mediaDescription:
serviceInformation.service.mediaDescription.multimedia: type, mimeValue, xml:lang, url, width
serviceInformation.service.radiodns: fqdn, serviceIdentifier
"""

# Table A.3; its row `time`, which stands under location there, is here under time, since location has no attributes in annex E.
PROGRAMME_INFORMATION = """
epg:
epg.schedule: version
epg.schedule.scope: startTime, stopTime
epg.schedule.scope.serviceScope: id
epg.schedule.programme: shortId, recommendation, broadcast
epg.schedule.programme.mediumName: xml:lang
epg.schedule.programme.longName: xml:lang
epg.schedule.programme.location:
epg.schedule.programme.location.time: time, duration
epg.schedule.programme.location.bearer: id
epg.schedule.programme.mediaDescription:
epg.schedule.programme.mediaDescription.shortDescription: xml:lang
epg.schedule.programme.genre: href, type
epg.schedule.programme.memberof: shortId, index
"""

# Table A.4.
GROUP_INFORMATION = """
epg:
epg.programmeGroups: version
epg.programmeGroups.programmeGroup: shortId, type, numofItems
epg.programmeGroups.programmeGroup.mediumName: xml:lang
epg.programmeGroups.programmeGroup.longName: xml:lang
epg.programmeGroups.programmeGroup.genre: href, type
epg.programmeGroups.programmeGroup.memberof: shortId, index
"""

TABLES = {SI: SERVICE_INFORMATION_DAB + SERVICE_INFORMATION_DRM, PI: PROGRAMME_INFORMATION, GI: GROUP_INFORMATION}

# Names that annexes D and E spell in another way than annex A.
SPELT = {"servicelIdentifier": "serviceIdentifier", "memberof": "memberOf", "numofItems": "numOfItems"}


def element_code(parent, name):
    """By annex D; a bearer has a code under location that is not the one under service."""
    first, *others = CODES[name]
    return others[0] if name == "bearer" and parent == "location" else first


def codes_of_row(row):
    """The codes of the elements of a row's path, and those of the attributes of the last of them."""
    path, _, listed = row.partition(":")
    names, attributes = ([SPELT.get(name, name) for name in words] for words in (path.split("."), listed.replace(",", " ").split()))
    codes = [element_code(parent, name) for parent, name in zip([None] + names, names)]
    return codes, [dict(pairs_named(names[-1], name))[codes[-1]] for name in attributes]


ROWS = {data_type: [codes_of_row(row) for row in table.split("\n") if row] for data_type, table in TABLES.items()}
PAIRS = {data_type: {(path[-1], attribute) for path, attributes in rows for attribute in attributes} |
         {tuple(path[-2:]) for path, _ in rows if len(path) > 1} for data_type, rows in ROWS.items()}


def offends(data_type, parent_tag, tag):
    """Whether a known item that isn't the top offends; 0x04 and 0x06, which stand nowhere but in the top, and CDATA never do."""
    return tag not in (0x01, 0x04, 0x06) and (parent_tag, tag) not in PAIRS[data_type]


def offence(raw, data_type):
    """The place of the first item that offends, of the items of an accepted object, or None; only items that write a known item are looked at."""
    if TOPS.get(data_type) != raw.tag:
        return 0
    found = raw.first_item(lambda parent, part: part.node is not None and offends(data_type, parent.tag, part.tag))
    return None if found is None else found[1]


# ---- Random objects ------------------------------------------------------------------------------------

def fill_within(maker, data_type, node, budget):
    """Gives an element attributes, children and CDATA that the profile allows."""
    rng, inside = maker.rng, sorted(tag for parent, tag in PAIRS[data_type] if parent == node.tag)
    attributes, elements = [tag for tag in inside if tag >= 0x80], [tag for tag in inside if tag < 0x80]
    for tag in rng.sample(attributes, rng.randint(0, len(attributes))):
        node.attributes.append(Node(tag, maker.value(ATTRIBUTES[node.tag][tag])))
    while elements and budget > 0:
        share = rng.randint(1, budget)
        budget -= share
        node.children.append(fill_within(maker, data_type, Node(rng.choice(elements)), share - 1))
    if rng.random() < 0.3:
        node.children.append(Node(0x01, maker.shown_text(node.tag)))
    return node


def tree_within(data_type):
    """A way to draw trees that the profile of a data type allows."""
    def draw(maker):
        tree = fill_within(maker, data_type, Node(TOPS[data_type]), maker.rng.choice([0, 1, 2, 4, 8, 12, 20, 40]))
        if maker.rng.random() < 0.3:
            tree.children.insert(0, Node(0x06, maker.text()))
        return tree.with_other_defaults(maker.rng) if maker.rng.random() < 0.3 else tree
    return draw


def stray_attribute(maker, tree):
    """One more attribute that annex E knows, allowed or not."""
    def free(node):
        return [tag for tag in ATTRIBUTES[node.tag] if all(part.tag != tag for part in node.attributes)]
    node = holder(maker.rng, tree, lambda node, _: free(node))
    if node:
        tag = maker.rng.choice(free(node))
        node.attributes.append(Node(tag, maker.value(ATTRIBUTES[node.tag][tag])))


def stray_element(maker, tree):
    """One more element that annex D knows, allowed or not, with something in it: any of them, or one of the tree's own."""
    rng, node = maker.rng, holder(maker.rng, tree, lambda _, depth: depth < 8)
    own = holder(rng, tree, lambda other, depth: depth > 1 and height(other) <= 8)
    if own and rng.random() < 0.4:
        element = own.copy()
    elif rng.random() < 0.1:
        element = Node(rng.choice(COORDINATES), maker.value(PLAIN))
    else:
        element = maker.fill(Node(rng.choice(CHILDREN)), 12, rng.choice([0, 1, 3]))
    node.children.insert(rng.randint(*span_of_elements(node.children)), element)


def tree_with_strays(data_type):
    """A way to draw trees in which one or more items may stand where the profile doesn't allow them."""
    def draw(maker):
        tree = tree_within(data_type)(maker)
        for _ in range(maker.rng.choice([1, 1, 1, 2, 3])):
            maker.rng.choice([stray_attribute, stray_element])(maker, tree)
        return tree
    return draw


def random_gate(rng):
    data_type = rng.choice(DATA_TYPES)
    draw = rng.choice([tree_within(data_type)] * 5 + [tree_with_strays(data_type)] * 4 + [random_tree])
    _, tree, raw = random_raw(rng, draw)
    octets = damage(rng, raw)[:FIELD_LIMIT] if rng.random() < 0.4 else raw.octets()
    if rng.random() < 0.2:
        data_type = rng.choice([*DATA_TYPES, *NO_DATA_TYPES, rng.randrange(256)])
    return case_g(data_type, rng.choice([0, tree.records(), 65535]), octets)
