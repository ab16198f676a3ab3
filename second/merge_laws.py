"""Laws of merging (request 2026-10) that hold for any right program; check_laws.py tries them where letter M is asked for.

Of pairs that the maker knows, of each kind that it draws: the line of the answer, however the two are written, in just the places and the store that the
result needs, and with one fewer; and parts of a day become the day again, but for the order of children.  Of any pair, damaged ones and the edges among them,
from the program's own answers, with plenty lent:

- an object that N refuses by 1 to 13 is refused alike, Basic before Advanced; else only 20, 21 and 15 are given;
- 20 and 21 don't hang on which of the two is Basic; where neither holds a service, nor on how services are told apart;
- what is merged is accepted and its own normal form; Basic's children come first in it, in their order, and none has lost anything; behind them come children
  of Advanced, as they were and in their order; each child of Advanced is found in it;
- the answer is the one that the maker has for the two normal forms as they are read back, and these merge to the same;
- 21 is given, where 20 isn't, exactly if one of the two holds a key twice; with an empty top each of the two gives its own normal form, or 21 by itself;
- with itself an object that holds no key twice gives its own normal form, if no element that would merge (the top, and below it elements with a key) has
  CDATA, and else 20; merged again with either of the two, the result stays as it is, on the same condition.
"""
import random

from make_cases import ATTRIBUTES, FIELD_LIMIT, OBJECT_LIMIT, Fixed, Maker, Node, case_m, case_n
from merge import BEARER, BY_BEARERS, KEYS, KINDS, SERVICES, UNNAMED, Merging, bare, drawn_day, drawn_merging, line_of, outcome, random_merging, split
from merge_edges import merge_edge_cases
from streams import ask

CONTRADICTED, TWICE, TOO_LARGE, TOO_FEW = (f"refused {number} at 0" for number in (20, 21, 15, 14))
PLENTY = 65535, FIELD_LIMIT
SHARE = 20  # the laws are many, so one pair is drawn for so many that are asked for
LANGUAGE, CDATA, SERVICE = 0x06, 0x01, UNNAMED[0]


# ---- Normal forms, read back -------------------------------------------------------------------------------

def items_of(octets):
    """The items that stand side by side in a normal form, each as it is read back."""
    at = 0
    while at < len(octets):
        long = octets[at + 1] == 0xFE
        start = at + (4 if long else 2)
        end = start + (int.from_bytes(octets[at + 2:start], "big") if long else octets[at + 1])
        if end > len(octets):
            raise ValueError("an item that is cut off")
        yield Read(octets[at], octets[start:end])
        at = end


class Read:
    """An item of a normal form: values that mean the same have the same octets there."""

    def __init__(self, tag, body):
        inside = list(items_of(body)) if tag in ATTRIBUTES else []
        self.tag, self.body = tag, body
        self.attributes = {part.tag: part.body for part in inside if part.tag >= 0x80}
        self.children = [part for part in inside if part.tag < 0x80 and part.tag not in (LANGUAGE, CDATA)]
        self.others = {part.tag: part.body for part in inside if part.tag in (LANGUAGE, CDATA)}

    def walk(self):
        yield self
        for part in self.children:
            yield from part.walk()

    def unordered(self):
        """What it is but for the order of children."""
        return (self.tag, self.body if self.tag not in ATTRIBUTES else None, sorted(self.attributes.items()), sorted(self.others.items()),
                sorted((part.unordered() for part in self.children), key=repr))

    def key(self, services):
        """As `key` of merge.py, of octets."""
        if self.tag in KEYS:
            return self.tag, self.attributes.get(KEYS[self.tag])
        if self.tag not in UNNAMED:
            return None
        keys = frozenset(part.key(services) for part in self.children if part.tag == BEARER)
        return self.tag, keys if services == BY_BEARERS else None

    def has_key_twice(self, services):
        for node in self.walk():
            keys = [part.key(services) for part in node.children if part.key(services)]
            if len(set(keys)) < len(keys):
                return True
        return False

    def has_merging_cdata(self, services):
        """Whether it, or an element below it that would merge with itself, has CDATA."""
        return CDATA in self.others or any(part.has_merging_cdata(services) for part in self.children if part.key(services))


    def tree(self):
        """The same as a tree of make_cases.py."""
        if self.tag not in ATTRIBUTES:
            return Node(self.tag, Fixed(self.body))
        tree = Node(self.tag)
        tree.attributes = [Node(tag, Fixed(body)) for tag, body in self.attributes.items()]
        language, cdata = ([Node(tag, Fixed(self.others[tag]))] if tag in self.others else [] for tag in (LANGUAGE, CDATA))
        tree.children = language + [part.tree() for part in self.children] + cdata
        return tree


def read(octets):
    """The top of a normal form, or None where the octets aren't one."""
    try:
        top, = items_of(octets)
    except (IndexError, ValueError):
        return None
    return top


def holds(whole, part):
    """Whether an element has all that another has, its children in any order."""
    return (whole.tag == part.tag and (whole.tag in ATTRIBUTES or whole.body == part.body) and part.attributes.items() <= whole.attributes.items()
            and part.others.items() <= whole.others.items() and all(any(holds(own, other) for own in whole.children) for other in part.children))


def is_within(few, many):
    """Whether some octets stand among others in their order."""
    rest = iter(many)
    return all(any(one == other for other in rest) for one in few)


def follows(whole, basic, advanced):
    """Whether a merged element has Basic's children first and some of Advanced's behind them, as they were."""
    count = len(basic.children)
    return (all(holds(own, other) for own, other in zip(whole.children, basic.children)) and len(whole.children) >= count and holds(whole, advanced)
            and is_within([part.body for part in whole.children[count:]], [part.body for part in advanced.children]))


# ---- Pairs that the maker knows ----------------------------------------------------------------------------

def known_laws(rng, draw):
    """A pair in two of its forms; what the result needs, and one fewer of it."""
    merging, forms = drawn_merging(rng, draw)
    again = merging.written(rng)
    first = [raw.octets() for raw in forms]
    second = [raw.octets() for raw in again]
    places, store = (0, 0) if merging.refusal else (merging.tree.records(), min(merging.tree.store(), FIELD_LIMIT))
    for octets in [first] + [second] * (max(map(len, second)) <= OBJECT_LIMIT):
        yield merging.case(places, store, octets), merging.answer(places, store)
    yield merging.case(*PLENTY, first), merging.answer(*PLENTY)
    if places:
        yield merging.case(places - 1, rng.choice([store, 0]), first), TOO_FEW
    if store:
        yield merging.case(places, store - 1, first), TOO_LARGE


def day_law(rng):
    """Two parts of a day, and the day as it is read back."""
    while True:
        services = rng.choice(SERVICES)
        tree = drawn_day(Maker(rng), services)
        if tree.too_long():
            continue
        merging = Merging(services, split(rng, tree, services, rng.choice([0, 0.2])))
        octets, whole = [raw.octets() for raw in merging.written(rng)], bare(tree).normal()
        if max(map(len, octets + [whole])) <= OBJECT_LIMIT:
            return merging.case(*PLENTY, octets), read(whole).unordered()


def day_of(answer):
    """What was merged but for the order of children, or None where nothing was."""
    octets = octets_in(answer)
    tree = None if octets is None else read(octets)
    return tree and tree.unordered()


def told(what, case, answer):
    return f"{what}: {case.hex()[:200]}\n  answered: {' | '.join(answer)[:200]}"


def cut_short(tried, answers, status):
    return [f"the program ended with status {status} after {len(answers)} of {len(tried)} answers"] if status != 0 or len(answers) != len(tried) else []


def broken_known(program, seed, count):
    """How many answers of known pairs were looked at, how many of them are merged, and which are wrong."""
    tried = [(what, case, must) for what, draw in KINDS.items() for index in range(count)
             for case, must in known_laws(random.Random(f"merging, {what} {seed} {index}"), draw)]
    answers, status = ask(program, [case for _, case, _ in tried])
    broken = [told(f"{what}, must be {must[:200]}", case, answer) for (what, case, must), answer in zip(tried, answers) if answer != [must]]
    passed = sum(answer[0].startswith("merged ") for answer in answers)
    return len(tried), passed, broken + cut_short(tried, answers, status)


def broken_days(program, seed, count):
    """Which days didn't become what they were."""
    tried = [day_law(random.Random(f"merging, days {seed} {index}")) for index in range(count)]
    answers, status = ask(program, [case for case, _ in tried])
    broken = [told("parts of a day", case, answer) for (case, must), answer in zip(tried, answers) if day_of(answer) != must]
    return broken + cut_short(tried, answers, status)


# ---- Any pairs ---------------------------------------------------------------------------------------------

def octets_in(answer):
    """The octets of an answer that has some, or None."""
    word, _, digits = answer[0].partition(" ")
    return bytes.fromhex(digits) if word in ("merged", "normal") else None


class Asked:
    """A pair with a program's answers to it: N of both, M, and M with the two exchanged."""

    def __init__(self, case):
        self.services, at, self.objects = case[1], 7, []
        for _ in range(2):
            size = int.from_bytes(case[at:at + 3], "big")
            self.objects.append(case[at + 3:at + 3 + size])
            at += 3 + size
        self.answers, self.normals, self.merged = [], [], None

    def merging(self, basic, advanced, services=None):
        return case_m(self.services if services is None else services, *PLENTY, basic, advanced)

    def cases(self):
        basic, advanced = self.objects
        return [case_n(*PLENTY, FIELD_LIMIT, basic), case_n(*PLENTY, FIELD_LIMIT, advanced), self.merging(basic, advanced), self.merging(advanced, basic)]

    def take(self, answers):
        """Whether the answers agree with each other."""
        self.answers, self.normals, self.merged = answers, [octets_in(answer) for answer in answers[:2]], octets_in(answers[2])
        for answer, which in zip(answers, ("first", "second")):
            if answer[0].startswith("refused ") and answer[0] != TOO_LARGE:
                return answers[2] == [f"{answer[0]} in {which}"]
        if self.merged is None and answers[2][0] not in (CONTRADICTED, TWICE, TOO_LARGE):
            return False
        if answers[3] != answers[2] and (CONTRADICTED in answers[3] + answers[2] or TWICE in answers[3] + answers[2]):
            return False
        if None in self.normals:
            return True
        trees, whole = [read(normal) for normal in self.normals], None if self.merged is None else read(self.merged)
        is_twice = any(tree.has_key_twice(self.services) for tree in trees)
        if answers[2][0] != CONTRADICTED and is_twice != (answers[2][0] == TWICE):
            return False
        if answers[2][0] != line_of(*outcome(*(tree.tree() for tree in trees), self.services), *PLENTY):
            return False
        return self.merged is None or whole is not None and follows(whole, *trees)

    def is_judged(self):
        """Whether both objects are accepted, so that there is more to ask."""
        return not self.answers[2][0].endswith(("in first", "in second"))

    def laws_after(self):
        """What is tried, a case, and the answers of which it must have one."""
        (basic, advanced), answer = self.objects, self.answers[2][0]
        for octets, normal, order in ((basic, self.answers[0][0], 1), (advanced, self.answers[1][0], -1)):
            own = normal.replace("normal", "merged")
            tree = read(octets_in([normal])) if normal != TOO_LARGE else None
            twice = [tree.has_key_twice(self.services)] if tree else [False] if answer not in (CONTRADICTED, TWICE) else [False, True]
            yield "with an empty top", self.merging(*(octets, bytes([octets[0], 0]))[::order]), [TWICE if one else own for one in twice]
            if tree:
                has_cdata = tree.has_merging_cdata(self.services)
                yield "with itself", self.merging(octets, octets), [CONTRADICTED] if has_cdata else [CONTRADICTED, TWICE] if twice[0] else [own]
        if None in self.normals:
            return
        trees = [read(normal) for normal in self.normals]
        yield "the normal forms", self.merging(*self.normals), [answer]
        if all(part.tag != SERVICE for tree in trees for part in tree.walk()):
            yield "services told apart otherwise", self.merging(basic, advanced, 1 - self.services), [answer]
        if self.merged is None:
            return
        yield "what was merged, its normal form", case_n(*PLENTY, OBJECT_LIMIT, self.merged), [f"normal {self.merged.hex()}"]
        for tree, objects in zip(trees, ((basic, self.merged), (self.merged, advanced))):
            yield "merged again", self.merging(*objects), [CONTRADICTED] if tree.has_merging_cdata(self.services) else [answer]


def broken_own(program, seed, count):
    """How many answers of any pairs were held to each other, and which disagree."""
    small = [case for case in merge_edge_cases() if len(case) < 3000]
    edges = random.Random(f"merging, edges {seed}").sample(small, min(4 * count, len(small)))
    pairs = [Asked(case) for case in edges + [random_merging(random.Random(f"merging, any {seed} {index}")) for index in range(count * 3)]]
    cases = [case for pair in pairs for case in pair.cases()]
    answers, status = ask(program, cases)
    if cut_short(cases, answers, status):
        return len(cases), cut_short(cases, answers, status)
    groups = [answers[at:at + 4] for at in range(0, len(answers), 4)]
    broken = [told("the answers of N and M disagree", pair.cases()[2], group[2]) for pair, group in zip(pairs, groups) if not pair.take(group)]
    tried = [law for pair in pairs if pair.is_judged() for law in pair.laws_after()]
    after, status = ask(program, [case for _, case, _ in tried])
    broken += [told(f"{what}, must be {' or '.join(must)[:200]}", case, answer) for (what, case, must), answer in zip(tried, after)
               if len(answer) != 1 or answer[0] not in must]
    return len(cases) + len(tried), broken + cut_short(tried, after, status)


def broken_merge_laws(program, seed, count):
    """What was tried, in words, and what is broken."""
    share = max(1, count // SHARE)
    known, passed, broken = broken_known(program, seed, share)
    broken += broken_days(program, seed, share)
    own, broken_later = broken_own(program, seed, share)
    if passed * 4 < known:
        broken.append("too few pairs that merge")
    return f"{known} answers of merging, {passed} of them merged, {share} days, {own} held to each other", broken + broken_later
