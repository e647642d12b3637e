#!/usr/bin/env python3
"""Times decoding, and decoding and encoding, of an a.out file of 400,000 entries, beside `nm` and `objdump -t` on as many.

Usage: bench/object.py [PROGRAM]

The file has 16 MB: a header, 400,000 entries with names of 27 bytes that all differ, and the string table. It is loaded
whole by a small program, `object_bench`, which decodes it and, with the word `encode`, encodes the object too. No crate
of the repository is that program: the script makes it in a temporary folder, beside copies of the crates that it stands
on, and builds it by `rt run`, which proves it and all that is below it, so a first run takes minutes. PROGRAM is one that
was built before: the script prints where it is and keeps it if KEEP is set in the environment.

Each is run ten times, as a child process with its start and its load, and the least time counts, and the least processor
time, which tells more on a machine that does other work; memory is the greatest resident size. The input is written before, so
it is read from the page cache. nm and objdump read an ELF object of the same names, print them all, into a file, and are
skipped where they or the assembler are missing. `nm -p` does not sort.
"""
import os
import shutil
import struct
import subprocess
import sys
import tempfile

from processes import in_a_process, timed

HERE = os.path.dirname(os.path.dirname(os.path.abspath(__file__)))
RUNS = 10
COUNT = 400_000

MANIFEST = "object_bench: st_base outside aout_object\n"

MAIN = '''//! Loads the file that the first word names and decodes it; behind the word `encode`, encodes the object too.
#![tactic(auto)]

use aout_object::{decode, encode};
use outside::{DiskFiles, Files, Loaded};
use st_base::Text;
use std::alloc::Global;
use std::env;
use std::io;
use std::process::ExitCode;
use std::rt::Env;

/// The most bytes that are loaded.
const MOST: u64 = 134_217_728;

/// The first word behind the program's name, and whether a second follows.
fn words_of<R: Env + AllocGlobal>(rt: &R) -> io::Result<(Text, bool)> {
    let mut name = Text::new(rt.alloc());
    let mut count = 0_u8;
    for argument in env::args(rt)?.skip(1) {
        if count == 0 {
            if name.extend(argument.as_bytes()).is_err() {
                return Err(io::Error::from(io::ErrorKind::OutOfMemory));
            }
            count = 1;
        } else {
            count = 2;
        }
    }
    Ok((name, count == 2))
}

fn status(alloc: Global, bytes: &[u8], encodes: bool) -> u8 {
    let Ok(object) = decode(alloc, bytes) else {
        return 2;
    };
    if !encodes {
        return if object.entries().len() == 400_000 { 0 } else { 3 };
    }
    let Ok(file) = encode(alloc, &object) else {
        return 4;
    };
    if file.bytes().len() == bytes.len() { 0 } else { 5 }
}

fn main(rt: HostRuntime) -> ExitCode {
    let alloc = rt.alloc();
    let Ok((name, encodes)) = words_of(&rt) else {
        return ExitCode::from(1);
    };
    let mut files = DiskFiles::new(rt);
    match files.load(alloc, name, MOST) {
        Loaded::Bytes(bytes) => ExitCode::from(status(alloc, bytes.bytes(), encodes)),
        _ => ExitCode::from(6),
    }
}
'''


def crates_below(names):
    """The lines of crates.txt for these crates of the repository and those that they stand on."""
    lines = {}
    with open(f"{HERE}/crates.txt") as manifest:
        for line in manifest:
            line = line.split("#")[0].strip()
            if line:
                lines[line.split(":")[0].split()[0]] = line
    wanted, queue = {}, list(names)
    while queue:
        name = queue.pop()
        if name in lines and name not in wanted:
            wanted[name] = lines[name]
            queue.extend(lines[name].split(":")[1].split())
    return wanted


def built(folder, path):
    """Builds the program in a repository of its own, and gives its path."""
    wanted = crates_below(["outside", "aout_object"])
    for name in wanted:
        shutil.copytree(f"{HERE}/crates/{name}", f"{folder}/crates/{name}", ignore=shutil.ignore_patterns("out"))
    with open(f"{folder}/crates.txt", "w") as manifest:
        manifest.write("\n".join(wanted.values()) + "\n" + MANIFEST)
    crate = f"{folder}/crates/object_bench"
    for part in ("src", "specs", "proofs"):
        os.makedirs(f"{crate}/{part}")
    for part in ("specs", "proofs"):
        open(f"{crate}/{part}/Lib.antt", "w").close()
    with open(f"{crate}/src/main.rt", "w") as main:
        main.write(MAIN)
    run = subprocess.run(["rt", "run", "--", path], cwd=crate, stdout=subprocess.PIPE, stderr=subprocess.STDOUT, text=True)
    if run.returncode:
        sys.exit(f"object_bench was not built, or ended with {run.returncode}:\n{run.stdout[-3000:]}")
    return f"{crate}/out/object_bench"


def names():
    return (f"_symbol_number_{i:012d}" for i in range(COUNT))


def write_object(path):
    entries, table, at = [], [], 4
    for i, name in enumerate(names()):
        entries.append(struct.pack("<IBBHI", at, 0x05, 0, 0, i))
        table.append(name.encode() + b"\0")
        at += len(name) + 1
    entries, table = b"".join(entries), b"".join(table)
    with open(path, "wb") as out:
        out.write(struct.pack("<8I", 0x0107, 0, 0, 0, len(entries), 0, 0, 0))
        out.write(entries + struct.pack("<I", 4 + len(table)) + table)


def write_peer(folder):
    """An ELF object of the same names; None where no assembler is there."""
    if not shutil.which("as"):
        return None
    source, target = f"{folder}/peer.s", f"{folder}/peer.o"
    with open(source, "w") as out:
        for i, name in enumerate(names()):
            out.write(f".globl {name}\n{name} = {i}\n")
    subprocess.run(["as", "-o", target, source], check=True)
    return target


def row(label, seconds, worked, memory, size):
    print(f"{label}: {seconds:.3f} s, {worked:.3f} s of a processor, {COUNT / seconds:,.0f} entries/s, {size / seconds / 1e6:.0f} MB/s, "
          f"{memory / 1e6:.1f} MB, {memory / size:.1f} times the file")


def main():
    folder = tempfile.mkdtemp()
    try:
        path = f"{folder}/many.o"
        in_a_process(write_object, path)
        program = os.path.abspath(sys.argv[1]) if len(sys.argv) > 1 else built(folder, path)
        if "KEEP" in os.environ:
            print(f"kept: {program}")
        size = os.path.getsize(path)
        print(f"{COUNT:,} entries, {size:,} bytes")
        row("decode", *timed([program, path], f"{folder}/reply", RUNS), size)
        row("decode and encode", *timed([program, path, "encode"], f"{folder}/reply", RUNS), size)
        peer = write_peer(folder)
        for words in (["nm"], ["nm", "-p"], ["objdump", "-t"]):
            label = " ".join(words)
            if peer is None or not shutil.which(words[0]):
                print(f"{label}: not there, skipped")
            else:
                row(label, *timed([*words, peer], f"{folder}/reply", RUNS), os.path.getsize(peer))
    finally:
        if "KEEP" not in os.environ:
            shutil.rmtree(folder)


if __name__ == "__main__":
    main()
