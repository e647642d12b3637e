#!/usr/bin/env python3
"""Times `parse` of crates/stab_grammar on stab strings of 1 KB, 64 KB and 1 MB.

Usage: bench/parse.py

Four kinds of strings: a structure of many fields, fields whose types are 97 pointers to a number, an enumeration of many
choices, and a structure whose fields have all forms of types. In a folder that is removed again the crates are copied, a
program is made that parses a file so many times, and `rt run` builds it. The program is timed with few and with many
turns, the least of several runs each, and the difference counts, so that its start does not. Behind the bytes a second
stands how the time grows from the size before: 1.00 where it grows as the size does. Where valgrind is there, a second line
has the instructions for each byte, and how many of them are those of the C library's allocator.
"""
import os
import re
import shutil
import subprocess
import sys
import tempfile
import time

HERE = os.path.dirname(os.path.dirname(os.path.abspath(__file__)))
NAME = "parse_bench"
SIZES = [("1 KB", 1 << 10), ("64 KB", 1 << 16), ("1 MB", 1 << 20)]
RUNS = 5
# how many bytes the many turns parse more than the few
BYTES = 1 << 26

PROGRAM = """//! Parses the stab string in a file so many times: `parse_bench FILE TURNS`. Ends with 0 if it was a symbol each time.
#![tactic(auto)]

ghost use Rattle.std.specs.Prelude.{◌≡◌};

use outside::{DiskFiles, Files, Loaded};
use st_base::{Refused, Steps, Text};
use stab_grammar::{Symbol, parse};
use std::alloc::Global;
use std::env;
use std::marker::Brand;
use std::process::ExitCode;
use std::sync::ledger::{Blank, Ledger};

/// The most bytes of a file.
const MOST_BYTES: u64 = 16777216;

fn counted<L: Ledger>(alloc: Global, text: &[u8], blank: Blank) -> Result<Symbol, Refused>
    requires name { blank.name ≡ L.name }
    requires parts { blank.parts ≡ L.parts }
    requires whole { blank.parts ≡ 1 }
{
    let mut steps = Steps::<L>::new(blank);
    parse(alloc, text, &mut steps)
}

/// What `parse` answers, its steps not counted.
fn parsed(alloc: Global, text: &[u8]) -> Result<Symbol, Refused> {
    counted::<Brand>(alloc, text, Blank::new(1))
}

/// Whether the text is a symbol each time.
fn is_read(alloc: Global, text: &[u8], turns: u32) -> bool {
    for _ in 0..turns {
        if parsed(alloc, text).is_err() {
            return false;
        }
    }
    true
}

/// Whether the file holds a symbol; none if a word is missing or the file is.
fn run(rt: HostRuntime) -> Option<bool> {
    let alloc = rt.alloc();
    let mut words = env::args(&rt).ok()?.skip(1);
    let mut name = Text::new(alloc);
    name.extend(words.next()?.as_bytes()).ok()?;
    let turns: u32 = words.next()?.parse().ok()?;
    let mut files = DiskFiles::new(rt);
    match files.load(alloc, name, MOST_BYTES) {
        Loaded::Bytes(text) => Some(is_read(alloc, text.bytes(), turns)),
        _ => None,
    }
}

fn main(rt: HostRuntime) -> ExitCode {
    match run(rt) {
        Some(true) => ExitCode::from(0),
        Some(false) => ExitCode::from(1),
        None => ExitCode::from(2),
    }
}
"""

GHOSTS = """use Rattle.parse_bench.proofs.parsed.Given as goal

abbrev pub ghosts-counted : goal.ghosts-counted
ghosts-counted a = record { name = a.blank.name; parts = a.blank.parts }
"""


def filled(front, item, end, size):
    """The front, as many items as make the string so long, and the end."""
    parts, length, i = [front], len(front) + len(end), 0
    while length < size:
        parts.append(item(i))
        length += len(parts[-1])
        i += 1
    return "".join(parts) + end


def fields(size):
    return filled("node:T(0,2)=s8", lambda i: f"field{i}:(0,{i % 900}),{32 * (i % 1000)},32;", ";", size)


def pointers(size):
    """The definition and the structure are two types, so that the number behind 97 pointers is the 100th."""
    return filled("node:T(0,2)=s8", lambda i: f"p{i}:{'*' * 97}(0,1),0,32;", ";", size)


def choices(size):
    return filled("colors:T(0,2)=e", lambda i: f"choice{i}:{i - 50},", ";", size)


MIXED = [
    "(0,1)",
    "(0,3)=*(0,2)",
    "(1,4)=ar(0,1);0;99;(0,2)",
    "r(0,1);-2147483648;2147483647;",
    "f(0,1)",
    "k(0,1)",
    "B17",
    "xsnode:",
    "u4a:(0,1),0,32;b:(0,2),0,32;;",
    "ered:0,green:1,blue:-1,;",
    "@s16;r(0,1);0;J;",
    "-16;",
    "R1;8;0;",
]


def mixed(size):
    return filled("node:Tt(0,2)=s8", lambda i: f"member{i}:{MIXED[i % len(MIXED)]},{i % 8},8;", ";", size)


def build(folder):
    """The program, built in a copy of the crates."""
    shutil.copytree(f"{HERE}/crates", f"{folder}/crates", ignore=shutil.ignore_patterns("out"))
    for path in ["crates.txt", "HANDLES"]:
        shutil.copy(f"{HERE}/{path}", f"{folder}/{path}")
    with open(f"{folder}/crates.txt", "a") as out:
        out.write(f"\n{NAME}: st_base outside stab_symbols stab_grammar\n")
    home = f"{folder}/crates/{NAME}"
    files = {
        "src/main.rt": PROGRAM,
        "specs/Lib.antt": "",
        "proofs/Lib.antt": "",
        "proofs/parsed/Invariants.antt": GHOSTS,
    }
    for path, text in files.items():
        os.makedirs(os.path.dirname(f"{home}/{path}"), exist_ok=True)
        with open(f"{home}/{path}", "w") as out:
            out.write(text)
    with open(f"{folder}/tried", "w") as out:
        out.write(fields(1 << 10))
    built = subprocess.run(["rt", "run", "--", f"{folder}/tried", "1"], cwd=home, stdout=subprocess.PIPE, stderr=subprocess.STDOUT)
    program = f"{home}/out/{NAME}"
    if built.returncode or not os.path.exists(program):
        sys.exit(built.stdout.decode())
    return program


def seconds_of(program, path, turns):
    """The least seconds of several runs."""
    least = None
    for _ in range(RUNS):
        start = time.monotonic()
        subprocess.run([program, path, str(turns)], check=True)
        seconds = time.monotonic() - start
        least = seconds if least is None else min(least, seconds)
    return least


def instructions(program, folder, path, turns):
    """The instructions of a run, all and those in the C library's allocator, as valgrind counts them."""
    counts = f"{folder}/counts"
    words = ["valgrind", "--tool=callgrind", f"--callgrind-out-file={counts}", program, path, str(turns)]
    subprocess.run(words, check=True, stderr=subprocess.DEVNULL)
    listed = subprocess.run(["callgrind_annotate", "--threshold=100", counts], check=True, stdout=subprocess.PIPE).stdout.decode()
    total, allocator = 0, 0
    for count, name in re.findall(r"^ *([\d,]+) \([^)]*\)  (\S*:\S*)", listed, re.MULTILINE):
        count = int(count.replace(",", ""))
        total += count
        if "/malloc/" in name or name.endswith(("rattle_alloc", "rattle_dealloc")):
            allocator += count
    return total, allocator


def measure_instructions(program, folder, path, size):
    few, many = 1, 2 + (1 << 21) // size
    before = instructions(program, folder, path, few)
    after = instructions(program, folder, path, many)
    total, allocator = [(b - a) / (many - few) / size for a, b in zip(before, after)]
    print(f"  {total:.0f} instructions a byte, {allocator:.0f} of them in the allocator", flush=True)


def measure(program, folder, label, strings):
    before = None
    for size_label, size in SIZES:
        path = f"{folder}/string"
        text = strings(size).encode()
        with open(path, "wb") as out:
            out.write(text)
        few = 1
        many = few + max(1, BYTES // len(text))
        seconds = (seconds_of(program, path, many) - seconds_of(program, path, few)) / (many - few)
        line = f"{label}, {size_label}: {len(text)} bytes, {seconds * 1e6:,.1f} us, {len(text) / seconds / 1e6:.1f} MB a second"
        if before is not None:
            growth = (seconds / before[1]) / (len(text) / before[0])
            line += f", time by size {growth:.2f}"
        print(line, flush=True)
        if shutil.which("valgrind") and shutil.which("callgrind_annotate"):
            measure_instructions(program, folder, path, len(text))
        before = (len(text), seconds)


def main():
    folder = tempfile.mkdtemp()
    try:
        program = build(folder)
        measure(program, folder, "a structure of many fields", fields)
        measure(program, folder, "fields of 97 pointers", pointers)
        measure(program, folder, "an enumeration of many choices", choices)
        measure(program, folder, "all forms of types", mixed)
    finally:
        shutil.rmtree(folder)


if __name__ == "__main__":
    main()
