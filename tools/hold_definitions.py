#!/usr/bin/env python3
"""Holds the definitions in crates/*/specs to the second program:  hold_definitions.py PROGRAM SEED COUNT

Takes COUNT small cases, half of them drawn from the edge cases, half random ones, runs of edits among them, asks PROGRAM for their answers, and has the prover
compute what the definitions answer: a crate `vectors`, made in a folder of its own, states that the two are equal. Prints a last line
`definitions held on N cases of seed S`; the exit status is 0 only where the prover agrees.
"""
import os
import random
import re
import subprocess
import sys
import tempfile

HERE = os.path.dirname(os.path.dirname(os.path.abspath(__file__)))
sys.path.insert(0, os.path.join(HERE, "second"))

from edges import edge_cases  # noqa: E402
from make_cases import random_cases  # noqa: E402
from streams import LISTING, ask  # noqa: E402

LETTERS = "LNWSEC"  # of the cases that are taken
MOST_LENT = 400  # places and octets of a store that are lent to edits: more than a case of so few octets can use
LONGEST = 160  # octets in a case: the prover computes some milliseconds for each element
CHUNK = 20     # cases under one claim
KINDS = {"element": 0, "attribute": 1, "cdata": 2}
DEFINITIONS = {"octets": "Numbers Header Places", "text": "Text Tokens", "values": "Table Times Bearers Values",
               "format": "Tree Judge Headers Meaning Writer Loaded Calls Same State", "state": "Taking", "edits": "Tree Calls"}

ANSWERS = """-- What the definitions answer to a case of the stream.
use Rattle.std.specs.Prelude.{Bool, true, false, List, [], ◌∷◌, map, ℕ, replicate, Result, Ok, Err}
use Rattle.std.proofs.Math.Option.{some}
use Rattle.octets.specs.Counts.{as_octets}
use Rattle.format.specs.declared.Record.{Record}
use Rattle.octets.specs.declared.counts.Octets.{Octets}
use Rattle.format.specs.declared.Refusal.{Refusal}
use Rattle.format.specs.declared.Counts.{Counts}
use Rattle.format.specs.declared.SameRefusal.{SameRefusal}
use Rattle.format.specs.declared.SameRefusal.TheVariants.{First, Second}
use Rattle.format.specs.Tree.{Items}
use Rattle.format.specs.Judge.{Judged, judge}
use Rattle.format.specs.Judge.Judged.{refused as is_refused, accepted as is_accepted}
use Rattle.format.specs.Headers.{headers_of}
use Rattle.format.specs.Meaning.{means, encode, normal_of}
use Rattle.format.specs.Calls.{Lists, read_answer, read_records, write_answer, write_octets, Lent, normal_answer, handed}
use Rattle.format.specs.Same.{same_answer}
use Rattle.format.specs.State.{Memory, body_sizes, tree_in}
use Rattle.state.specs.Taking.{taken_in}
use Rattle.edits.specs.Tree.{Edit}
use Rattle.edits.specs.Calls.{edited_in}

pub data Case : Type 0 where
  list tally : ℕ → List ℕ → Case
  normalise : (places store room : ℕ) → List ℕ → Case
  write : ℕ → Lists → ℕ → List ℕ → Case
  compare : List ℕ → List ℕ → Case
  edit : (places store : ℕ) → List ℕ → List Edit → Case

pub data Answer : Type 0 where
  refused : ℕ → ℕ → ℕ → Answer
  listed : List (List ℕ) → Answer
  tallied : (records items : ℕ) → Answer
  handed_out : List ℕ → Answer
  same different : Answer
  refused_first refused_second : ℕ → ℕ → ℕ → Answer
  ran : List (List ℕ) → (written sizes : List ℕ) → Answer

abbrev pub line : Record → List ℕ
line r = r.depth ∷ r.tag ∷ r.kind ∷ r.start ∷ r.size ∷ []

abbrev pub after_read : Result Counts Refusal → List Record → Answer
after_read (Ok n) rs = listed (map line rs)
after_read (Err r) rs = refused (r.number) (r.place) (r.field)

abbrev pub after_count : Result Counts Refusal → Answer
after_count (Ok n) = tallied (n.records) (n.items)
after_count (Err r) = refused (r.number) (r.place) (r.field)

abbrev pub after_write : Result Octets Refusal → List ℕ → Answer
after_write (Ok n) o = handed_out o
after_write (Err r) o = refused (r.number) (r.place) (r.field)

abbrev pub after_same : Result Bool SameRefusal → Answer
after_same (Ok true) = same
after_same (Ok false) = different
after_same (Err (First r)) = refused_first (r.number) (r.place) (r.field)
after_same (Err (Second r)) = refused_second (r.number) (r.place) (r.field)

-- of a case's numbers, those of a store and of a room are counts of octets
abbrev pub lent_of : (places store room : ℕ) → Lent
lent_of places store room = record { records = places; store = as_octets store; room = as_octets room }

-- memory of so many places and octets, whatever it holds: what edits answer hangs on the tree and on how much is lent
abbrev pub memory_of : (places store : ℕ) → Memory
memory_of p s =
    let l = replicate {A = ℕ} p 0 in
    record { lists = record { tags = l; kinds = l; depths = l; parents = l; starts = l; sizes = l }; bodies = l; store = replicate {A = ℕ} s 0 }

-- the refusal of an edit, nothing where it is made, and the tree that is there then
abbrev pub after_edit : Judged → List ℕ
after_edit (is_refused r) = r.number ∷ r.place ∷ r.field ∷ []
after_edit (is_accepted u) = []

abbrev pub tree_after : Items → Judged → Items
tree_after t (is_refused r) = t
tree_after t (is_accepted u) = u

-- a run of edits from a tree on, the last answer first
abbrev pub run_from : Memory → List Edit → List (List ℕ) → Items → Answer
run_from m [] said t = ran said (encode (means [] t)) (body_sizes 0 t)
run_from m (e ∷ es) said t = run_from m es (after_edit (edited_in m e (some t)) ∷ said) (tree_after t (edited_in m e (some t)))

abbrev pub begin : Memory → List Edit → Judged → Answer
begin m es (is_refused r) = refused (r.number) (r.place) (r.field)
begin m es (is_accepted t) = run_from m es [] t

abbrev pub answer : Case → Answer
answer (list places o) = after_read (read_answer places (headers_of o) (judge o)) (read_records places (judge o))
answer (tally places o) = after_count (read_answer places (headers_of o) (judge o))
answer (normalise p s r o) = after_write (normal_answer (lent_of p s r) (judge o)) (handed (lent_of p s r) normal_of (judge o))
answer (write n lists room o) =
    let t = tree_in n (record { lists = lists; bodies = lists.sizes; store = o }) in
    after_write (write_answer (as_octets room) t) (write_octets (as_octets room) t)
answer (compare a b) = after_same (same_answer (judge a) (judge b))
answer (edit p s o es) = begin (memory_of p s) es (taken_in (as_octets 32_768) (memory_of p s) (judge o))
"""


class Fields:
    """The fields of one case of the stream, taken from its octets in order (docs/STREAM.md)."""

    def __init__(self, octets):
        self.octets, self.at = octets, 0

    def take(self, size):
        self.at += size
        return self.octets[self.at - size:self.at]

    def number(self, size):
        return int.from_bytes(self.take(size), "big")

    def sized(self):
        return self.take(self.number(3))


def edit_term(fields):
    letter = fields.take(1)
    if letter == b"D":
        return f"(remove {fields.number(2)})"
    places = [fields.number(2) for _ in range(2 if letter == b"I" else 1)]
    given = numbers(fields.take(fields.number(2)))
    return f"({'insert' if letter == b'I' else 'replace'} {' '.join(map(str, places))} ({given}))"


def parsed(octets):
    fields = Fields(octets)
    case = {"letter": fields.take(1).decode()}
    if case["letter"] in "LC":
        case["places"] = fields.number(2)
    elif case["letter"] == "N":
        case["places"], case["store"], case["room"] = fields.number(2), fields.number(3), fields.number(3)
    elif case["letter"] == "W":
        case["count"], places = fields.number(2), fields.number(2)
        case["records"] = [[fields.number(size) for size in (1, 1, 1, 2, 2, 2)] for _ in range(places)]
        case["room"] = fields.number(3)
    elif case["letter"] == "E":
        case["places"], case["store"] = fields.number(2), fields.number(3)
        case["parts"] = [fields.sized()]
        case["edits"] = [edit_term(fields) for _ in range(fields.number(1))]
        return case
    case["parts"] = [fields.sized() for _ in range(2 if case["letter"] == "S" else 1)]
    return case


def numbers(values):
    return "".join(f"{value} ∷ " for value in values) + "[]"


def case_term(case):
    letter = case["letter"]
    if letter in "LC":
        return f"{'list' if letter == 'L' else 'tally'} {case['places']} ({numbers(case['parts'][0])})"
    if letter == "N":
        return f"normalise {case['places']} {case['store']} {case['room']} ({numbers(case['parts'][0])})"
    if letter == "S":
        return f"compare ({numbers(case['parts'][0])}) ({numbers(case['parts'][1])})"
    if letter == "E":
        lent = min(case["places"], MOST_LENT), min(case["store"], MOST_LENT)
        return f"edit {lent[0]} {lent[1]} ({numbers(case['parts'][0])}) ({''.join(f'{edit} ∷ ' for edit in case['edits'])}[])"
    names = ("tags", "kinds", "depths", "parents", "starts", "sizes")
    columns = zip(*case["records"]) if case["records"] else [()] * 6
    lists = "; ".join(f"{name} = {numbers(column)}" for name, column in zip(names, columns))
    return f"write {case['count']} (record {{ {lists} }}) {case['room']} ({numbers(case['parts'][0])})"


def edit_answer(words):
    return [] if words == ["edited"] else [int(words[1]), int(words[3]), 0]


def answer_term(answer):
    words = answer[0].split()
    if answer[-1].startswith("sizes"):
        said = "".join(f"({numbers(edit_answer(line.split()))}) ∷ " for line in reversed(answer[:-2]))
        written, sizes = bytes.fromhex(answer[-2].split()[1]), map(int, answer[-1].split()[1:])
        return f"ran ({said}[]) ({numbers(written)}) ({numbers(sizes)})"
    if answer[0] == LISTING:
        rows = []
        for row in answer[1:-1]:
            depth, tag, kind, offset, length = row.split()
            rows.append("(" + numbers([int(depth), int(tag, 16), KINDS[kind], int(offset), int(length)]) + ")")
        return "listed (" + "".join(f"{row} ∷ " for row in rows) + "[])"
    if words[0] == "records":
        return f"tallied {words[1]} {words[3]}"
    if words[0] in ("normal", "written"):
        return f"handed_out ({numbers(bytes.fromhex(words[1]) if len(words) > 1 else b'')})"
    if words[0] in ("same", "different"):
        return words[0]
    name = {"first": "refused_first", "second": "refused_second"}[words[-1]] if "in" in words else "refused"
    field = words[words.index("field") + 1] if "field" in words else 0
    return f"{name} {words[1]} {words[3]} {field}"


def opened_names(crates):
    """Every definition of document 01 that the prover must see through: use lines, and the names for an unfolding line."""
    lines, names = [], []
    for crate, modules in DEFINITIONS.items():
        for module in modules.split():
            with open(os.path.join(crates, crate, "specs", module + ".antt"), encoding="utf-8") as text:
                found = re.findall(r"^unfoldable pub (\S+) :", text.read(), re.M)
            if found:
                lines.append(f"use Rattle.{crate}.specs.{module}.{{{', '.join(found)}}}")
                names += found
    return lines, names


def proof_text(crates, cases, answers):
    lines, names = opened_names(crates)
    out = ["-- Made by tools/hold_definitions.py.", "use Rattle.std.specs.Prelude.{◌≡◌, [], ◌∷◌, map}", "use mathlib.Core.Path.{refl}"]
    out += ["use Rattle.vectors.specs.Answers.{Case, Answer, answer}"]
    out += ["use Rattle.vectors.specs.Answers.Case.{list, tally, normalise, write, compare, edit}"]
    out += ["use Rattle.vectors.specs.Answers.Answer.{refused, listed, tallied, handed_out, same, different, refused_first, refused_second, ran}"]
    out += ["use Rattle.edits.specs.Tree.Edit.{replace, remove, insert}"]
    out += lines
    for start in range(0, len(cases), CHUNK):
        inputs = "".join(f"\n    {'∷ ' if i else ''}({case_term(c)})" for i, c in enumerate(cases[start:start + CHUNK]))
        wanted = "".join(f"\n    {'∷ ' if i else ''}({answer_term(a)})" for i, a in enumerate(answers[start:start + CHUNK]))
        out.append(f"\nheld-{start} : map answer ({inputs.lstrip()} ∷ [])\n    ≡ {wanted.lstrip()} ∷ []")
        out.append("unfolding " + " ".join(names) + f"\nheld-{start} = refl")
    return "\n".join(out) + "\n"


def write(path, text):
    os.makedirs(os.path.dirname(path), exist_ok=True)
    with open(path, "w", encoding="utf-8") as file:
        file.write(text)


def main():
    program, seed, count = sys.argv[1], sys.argv[2], int(sys.argv[3])
    edges = [case for case in edge_cases() if chr(case[0]) in LETTERS and len(case) <= LONGEST]
    randoms = [case for case in random_cases(seed, 2 * count, LETTERS) if len(case) <= LONGEST]
    drawn = random.Random(seed).sample(edges, min(len(edges), count - count // 2))
    stream = drawn + randoms[:count // 2]
    cases = [parsed(case) for case in stream]
    answers, _ = ask(program, stream)
    if len(answers) != len(cases):
        print(f"the program gave {len(answers)} answers to {len(cases)} cases")
        return 1
    kit = subprocess.run([os.path.join(HERE, "tools", "kit")], stdout=subprocess.PIPE, text=True, check=True).stdout.strip()
    libraries = subprocess.run([os.path.join(HERE, "tools", "libraries"), "edits"], stdout=subprocess.PIPE, text=True, check=True).stdout.splitlines()
    with tempfile.TemporaryDirectory() as made:
        write(os.path.join(made, "src", "lib.rt"), "// Made by tools/hold_definitions.py: no code.\n")
        write(os.path.join(made, "specs", "Lib.antt"), "pub mod Answers\n")
        write(os.path.join(made, "specs", "Answers.antt"), ANSWERS)
        write(os.path.join(made, "proofs", "Lib.antt"), "pub mod Vectors\n")
        write(os.path.join(made, "proofs", "Vectors.antt"), proof_text(os.path.join(HERE, "crates"), cases, answers))
        words = [f"{kit}/bin/rattle", "check", "--crate-name", "vectors", "src/lib.rt", *libraries]
        done = subprocess.run(words, cwd=made, stdout=subprocess.PIPE, stderr=subprocess.STDOUT, check=False)
    if done.returncode != 0:
        print(done.stdout.decode("utf-8", "replace")[-4000:])
        print(f"definitions NOT held on {len(cases)} cases of seed {seed}")
        return 1
    print(f"definitions held on {len(cases)} cases of seed {seed}")
    return 0


if __name__ == "__main__":
    sys.exit(main())
