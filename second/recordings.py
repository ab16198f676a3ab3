"""Recordings (document 02, request 2026-12): fixed ones at the edges and random ones, from 01 and 02 alone.

A recording is the mark SPR, a version of 16 bits, and for each object a size of 16 bits and its octets.  `Recording` keeps the objects apart, so that it is
known where each begins; what comes before and behind them may be wrong.
"""
import random

from edges import ANNEX_C, FAULTS, GOOD, entry, nest, top
from headers import random_octets
from make_cases import OBJECT_LIMIT, item, number

HEAD = b"SPR" + number(1, 2)
PLACES = 1024  # that the program lends, until request 2026-14
LARGEST = 65535  # octets of which 16 bits can tell
LARGE = 131072


class Recording:
    """A head, objects, and octets behind them that are no whole object."""

    def __init__(self, name, objects, head=HEAD, rest=b""):
        self.name, self.objects, self.head, self.rest = name, objects, head, rest

    def octets(self):
        return self.head + b"".join(number(len(octets), 2) + octets for octets in self.objects) + self.rest

    def starts(self):
        """Where the size of each object stands, and where the last one ends."""
        at = [len(self.head)]
        for octets in self.objects:
            at.append(at[-1] + 2 + len(octets))
        return at


# ---- Objects ---------------------------------------------------------------------------------------------

def of_records(count):
    """An object of so many records."""
    return top(b"\x10\x00" * (count - 1))


def of_size(size):
    """An object of so many octets, at least eight, with one record and an unknown attribute."""
    return item(0x03, item(0x90, bytes(size - 8), 1), 1)


SMALL = [b"\x03\x00", b"\x02\x00", b"", b"\x03", b"\x03\x01", b"\x03\x00\x00", top(item(0x06, b"en")), top(item(0x10) * 3), top(item(0x81, b"\xff" * 4)),
         top(item(0x80, b"\x00")), top(item(0x04, entry(1, b"tok")), item(0x01, b"\x01"))]


# ---- Fixed recordings --------------------------------------------------------------------------------------

def heads():
    """Too short ones, right and wrong; wrong marks and versions, with nothing behind them and with objects."""
    for size in range(5):
        yield Recording(f"a head of {size} octets", [], HEAD[:size])
        yield Recording(f"a wrong head of {size} octets", [], b"XPR\x00\x02"[:size])
        yield Recording(f"zeros, {size} of them", [], bytes(size))
    yield Recording("nothing but the head", [])
    wrong = [HEAD[:at] + bytes([HEAD[at] ^ change]) + HEAD[at + 1:] for at in range(5) for change in (0x01, 0x20, 0x80, 0xFF)]
    for head in [*wrong, b"SPR\x01\x00", b"SPR\x00\x00", b"RPS\x00\x01", b"\x00\x01SPR", b"SPI\x00\x01", bytes(5)]:
        yield Recording(f"the head {head.hex()}", [], head)
        yield Recording(f"the head {head.hex()} before an object", [b"\x03\x00"], head)
    yield Recording("an object instead of a recording", [], ANNEX_C)
    yield Recording("a recording in a recording", [Recording("", [b"\x03\x00"]).octets()])


def sizes():
    """Sizes of nothing, at the limit of an object and of 16 bits; alone, first and last."""
    for size in (0, 1, 2, 3, 255, 256, 257, 32767, 32768, 32769, 65534, 65535):
        for octets in (of_size(size) if size >= 8 else b"\x03\x00\x00"[:size], bytes(size), b"\x03" * size):
            yield Recording(f"a size of {size}", [octets])
            yield Recording(f"a size of {size} between others", [b"\x03\x00", octets, b"\x03\x04\x07\x00\x06\x00"])
    for count in (1, 2, 3, 70000):
        yield Recording(f"{count} sizes of 0", [b""] * count)


def records():
    """Just as many as there are places, one fewer and more, and the most; unknown items and a table need none."""
    for count in (1, 2, 1023, 1024, 1025, 1026, 2048, 16383):
        yield Recording(f"{count} records", [of_records(count)])
        yield Recording(f"{count} records between others", [b"\x03\x00", of_records(count), ANNEX_C])
        yield Recording(f"{count} records and a fault", [of_records(count)[:-1], of_records(count) + b"\x00"])
    without = item(0x04, entry(1, b"tok")) + item(0x07) * 3
    for count in (1023, 1024, 1025):
        yield Recording(f"{count} records and items without", [top(item(0x90), without, b"\x10\x00" * (count - 1))])
        yield Recording(f"{count} records below an element", [top(item(0x21, b"\x10\x00" * (count - 2)))])
        yield Recording(f"{count} records, a fault behind the last place", [top(b"\x10\x00" * (count - 1), item(0x80, b""))])


def refusals():
    """Each fault in an object, alone and one after the other; all good items."""
    for at, fault in enumerate(FAULTS):
        yield Recording(f"fault {at}", [top(fault), top(item(0x21, fault)), b"\x02\x00", top(fault) + b"\x00"])
    yield Recording("all faults", [top(fault) for fault in FAULTS])
    yield Recording("good items", [top(good) for good in GOOD])
    yield Recording("depths", [nest(depth) for depth in range(1, 19)])
    yield Recording("annex C", [ANNEX_C])
    yield Recording("annex C, cut and changed", [ANNEX_C[:size] for size in range(len(ANNEX_C))]
                    + [ANNEX_C[:at] + bytes([ANNEX_C[at] ^ 0x81]) + ANNEX_C[at + 1:] for at in range(len(ANNEX_C))])


def cut_ones():
    """Small recordings, of which all cuts are tried."""
    yield Recording("small objects, all cuts", SMALL)
    yield Recording("annex C and more, all cuts", [b"\x03\x00", ANNEX_C, b"", top(item(0x81, bytes.fromhex("30D4003C"))), b"\x02\x00"])


def large_ones():
    """More octets than a program might read at once; sizes and objects across and beside such borders."""
    yield Recording("the largest objects", [of_size(OBJECT_LIMIT)] * 5 + [b"\x03\x00"])
    yield Recording("the largest sizes", [bytes(LARGEST)] * 3 + [ANNEX_C])
    yield Recording("many objects", [ANNEX_C, b"\x03\x00", b"\x03", b""] * 2000)
    for border in (4096, 32768, 65536, LARGE):
        for before in range(-4, 4):  # where the second size begins, from the border
            first = border + before - len(HEAD) - 2
            objects = [bytes(LARGEST)] * (first // (LARGEST + 2))
            objects.append(bytes(first - len(objects) * (LARGEST + 2)))
            yield Recording(f"a size {before} from octet {border}", objects + [ANNEX_C, b"\x03\x00"])


def rests():
    """One octet of a size, a size without an object, objects that are cut by one octet, behind whole ones of each size."""
    for whole in ([], [b"\x03\x00"], [b""], [ANNEX_C, b"\x03"], [of_size(OBJECT_LIMIT)], [bytes(LARGEST)] * 3):
        for rest in (b"\x00", b"\xff", b"\x00\x01", b"\x00\x02\x03", b"\x80\x00", b"\x80\x01" + bytes(32768), b"\xff\xff" + bytes(LARGEST - 1)):
            yield Recording(f"a rest of {len(rest)} behind {len(whole)}", whole, rest=rest)


def fixed_recordings():
    for group in (heads, sizes, records, refusals, cut_ones, large_ones, rests):
        yield from group()


# ---- Random recordings ---------------------------------------------------------------------------------------

def random_objects(rng, count):
    """Good and damaged objects, now and then an empty one, one above the limit or one of about as many records as there are places."""
    for _ in range(count):
        roll = rng.random()
        if roll < 0.9:
            _, octets = random_octets(rng)
            yield octets[:LARGEST]
        elif roll < 0.93:
            yield b""
        elif roll < 0.95:
            yield rng.randbytes(rng.choice([1, 2, 3, 32769, 40000, LARGEST]))
        else:
            yield of_records(PLACES + rng.choice([-1, 0, 1, 2]))


def random_recording(seed, index):
    """Now and then with a wrong head, or cut."""
    rng = random.Random(f"recording {seed} {index}")
    objects = list(random_objects(rng, rng.choice([0, 1, 2, 5, 20, 60])))
    head = HEAD if rng.random() < 0.97 else rng.choice([b"SPR\x00\x02", b"SPr\x00\x01", rng.randbytes(5)])
    rest = b""
    if objects and rng.random() < 0.3:
        last = objects.pop()
        whole = number(len(last), 2) + last
        rest = whole[:rng.randrange(len(whole))]
    return Recording(f"random recording {index}", objects, head, rest)
