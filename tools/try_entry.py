#!/usr/bin/env python3
"""Tries the entry as a caller would:  try_entry.py PROGRAM SEED COUNT

This caller is not proved and stands in no crate of the repository, since the older kit proved one that lends a slice of records by hand or not at all: its
text is written to a folder of its own, where `rt try` runs it, on an interpreter and compiled with checks. It reads a stream of COUNT small listing cases,
half of them drawn from the edge cases, half random ones, calls entry::read_records for each, and lists the records that then stand in its slice. It says so
where a list holds something else than the slice, or where a place behind the records was touched. PROGRAM, the second program, must print the very same.
Prints a last line `entry read N objects of seed S as listed`; the exit status is 0 only where that holds.
"""
import os
import random
import shutil
import subprocess
import sys
import tempfile

HERE = os.path.dirname(os.path.dirname(os.path.abspath(__file__)))
sys.path.insert(0, os.path.join(HERE, "second"))

from edges import edge_cases  # noqa: E402
from make_cases import case_l, random_cases  # noqa: E402

LONGEST = 160  # octets in an object
PLACES = (0, 1, 2, 3, 4, 5, 6, 8, 11, 16, 24, 64)  # the caller has 64

CALLER = """// Lists the records that entry::read_records puts into a slice. By turns the slice and the lists have the places that a case asks for, and the others plenty.
#![tactic(auto)]

use format::{Record, RecordsMut};
use octets::PutError;
use std::io::Read;

const PLENTY: usize = 64;
const INPUT: usize = 131_072;
const OUTPUT: usize = 1_048_576;

fn end_of(put: Result<usize, PutError>, at: usize) -> usize {
    put.unwrap_or(at)
}

fn number(s: &[u8]) -> usize {
    let mut n: usize = 0;
    for i in 0..s.len() {
        n = n * 256 + s[i] as usize;
    }
    n
}

// What stands in a place before the call.
fn mark() -> Record {
    Record { tag: 201, kind: 202, depth: 203, parent: 60_204, start: 60_205, size: 60_206 }
}

fn same(a: Record, b: Record) -> bool {
    if a.tag != b.tag { return false; }
    if a.kind != b.kind { return false; }
    if a.depth != b.depth { return false; }
    if a.parent != b.parent { return false; }
    if a.start != b.start { return false; }
    a.size == b.size
}

fn mark_all(tags: &mut [u8], kinds: &mut [u8], depths: &mut [u8], parents: &mut [u16], starts: &mut [u16], sizes: &mut [u16], records: &mut [Record]) {
    let m = mark();
    for i in 0..tags.len() {
        tags[i] = m.tag;
        kinds[i] = m.kind;
        depths[i] = m.depth;
        parents[i] = m.parent;
        starts[i] = m.start;
        sizes[i] = m.size;
    }
    for i in 0..records.len() {
        records[i] = m;
    }
}

// The lists hold the records of the slice below n, and marks from n on, as the slice does.
fn is_kept(tags: &[u8], kinds: &[u8], depths: &[u8], parents: &[u16], starts: &[u16], sizes: &[u16], records: &[Record], n: usize) -> bool {
    let m = mark();
    for i in 0..tags.len() {
        let r = Record { tag: tags[i], kind: kinds[i], depth: depths[i], parent: parents[i], start: starts[i], size: sizes[i] };
        if i < n {
            if !same(r, records[i]) { return false; }
        } else {
            if !same(r, m) { return false; }
        }
    }
    for i in n..records.len() {
        if !same(records[i], m) { return false; }
    }
    true
}

fn list(records: &[Record], n: usize, out: &mut [u8], at: usize) -> usize {
    let mut to = end_of(show::put_header(out, at), at);
    for i in 0..n {
        to = end_of(show::put_record_line(out, to, records[i]), to);
    }
    end_of(show::put_records(out, to, n), to)
}

fn answer(object: &[u8], tags: &mut [u8], kinds: &mut [u8], depths: &mut [u8], parents: &mut [u16], starts: &mut [u16], sizes: &mut [u16], records: &mut [Record], out: &mut [u8], at: usize) -> usize {
    mark_all(tags, kinds, depths, parents, starts, sizes, records);
    let mut n: usize = 0;
    let mut to = at;
    let mut lists = RecordsMut { tags: &mut *tags, kinds: &mut *kinds, depths: &mut *depths, parents: &mut *parents, starts: &mut *starts, sizes: &mut *sizes };
    match entry::read_records(object, &mut lists, records) {
        Ok(counts) => {
            n = counts.records;
            to = list(records, n, out, at);
        }
        Err(refusal) => {
            to = end_of(show::put_refusal(out, at, refusal), at);
        }
    }
    if !is_kept(tags, kinds, depths, parents, starts, sizes, records, n) {
        to = end_of(show::put_touched(out, to), to);
    }
    to
}

fn read_all(rt: &HostRuntime, input: &mut [u8]) -> usize {
    let mut to: usize = 0;
    while to < input.len() {
        let n = rt.stdin().read(&mut input[to..]).unwrap_or(0);
        if n == 0 {
            return to;
        }
        to += n;
    }
    to
}

fn main(rt: HostRuntime) {
    let mut input = [0u8; INPUT];
    let mut out = [0u8; OUTPUT];
    let mut tags = [0u8; PLENTY];
    let mut kinds = [0u8; PLENTY];
    let mut depths = [0u8; PLENTY];
    let mut parents = [0u16; PLENTY];
    let mut starts = [0u16; PLENTY];
    let mut sizes = [0u16; PLENTY];
    let mut records = [mark(); PLENTY];
    let end = read_all(&rt, &mut input);
    let mut at: usize = 0;
    let mut used: usize = 0;
    let mut turn = false;
    while at < end {
        let places = number(&input[at + 1..at + 3]);
        let from = at + 6;
        let to = from + number(&input[at + 3..from]);
        let mut listed = PLENTY;
        let mut taken = PLENTY;
        if turn { listed = places; } else { taken = places; }
        used = answer(&input[from..to], &mut tags[..listed], &mut kinds[..listed], &mut depths[..listed], &mut parents[..listed], &mut starts[..listed], &mut sizes[..listed], &mut records[..taken], &mut out, used);
        turn = !turn;
        at = to;
    }
    let _ = rt.write_all(&out[..used]);
}
"""


def objects(seed, count):
    """Small objects: half of those of the edge cases, half random."""
    drawn = random.Random(seed)
    small = [case[6:] for case in edge_cases() if case[:1] == b"L" and len(case) <= 6 + LONGEST]
    fresh = [case[6:] for case in random_cases(seed, 4 * count, "L") if len(case) <= 6 + LONGEST]
    return drawn.sample(small, count // 2) + fresh[:count - count // 2], drawn


def known_crates():
    """The crates that the caller stands on, each with those below it, as crates.txt has them."""
    with open(os.path.join(HERE, "crates.txt"), encoding="utf-8") as lines:
        crates = dict(line.rstrip().split(":") for line in lines if not line.startswith("#"))
    return {name: below for name, below in crates.items() if name in crates["entry"].split() + ["entry", "show"]}


def main():
    program, seed, count = sys.argv[1], sys.argv[2], int(sys.argv[3])
    chosen, drawn = objects(seed, count)
    stream = b"".join(case_l(drawn.choice(PLACES), octets) for octets in chosen)
    listed = subprocess.run([program], input=stream, stdout=subprocess.PIPE, check=True).stdout
    with tempfile.TemporaryDirectory() as made:
        crate = os.path.join(made, "crates", "try_entry")
        os.makedirs(os.path.join(crate, "src"))
        crates = known_crates()
        for name in crates:
            whole = os.path.join(HERE, "crates", name)
            shutil.copytree(whole, os.path.join(made, "crates", name), ignore=lambda folder, _: ["out", "must-fail"] if folder == whole else [])
        with open(os.path.join(made, "crates.txt"), "w", encoding="utf-8") as lines:
            lines.writelines(f"{name}:{below}\n" for name, below in crates.items())
            lines.write(f"try_entry: {' '.join(crates)}\n")
        with open(os.path.join(crate, "src", "main.rt"), "w", encoding="utf-8") as file:
            file.write(CALLER)
        done = subprocess.run(["rt", "try"], cwd=crate, input=stream, stdout=subprocess.PIPE, stderr=subprocess.PIPE, check=False)
    if done.returncode != 0 or done.stdout != listed:
        print((done.stdout if done.returncode == 0 else done.stderr).decode("utf-8", "backslashreplace")[-3000:])
        sys.exit("the entry and the second program differ, or the caller doesn't run")
    print(f"entry read {len(chosen)} objects of seed {seed} as listed")


if __name__ == "__main__":
    main()
