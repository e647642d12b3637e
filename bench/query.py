#!/usr/bin/env python3
"""Times questions on an object, beside `objdump -G` on as many stabs.

Usage: bench/query.py [PROGRAM]

PROGRAM is the built program, crates/stabs_tool/out/stabs_tool by default. The files are made in a folder that is removed again, in a
process of their own, so that what making them takes is no part of what is measured: one of 100 units with 1,000 stabs each, and one of
one unit with 100,000; then two in which a tag leads to 10,000 types and to 40,000. Half of the stabs are structures with a pointer to
themselves, half are functions of ten stabs, with lines, a parameter and a block. Each question is asked five times, and the least time
counts; memory is the greatest resident size. objdump reads an ELF object with the same stabs, and is skipped where it or the assembler
is missing.
"""
import os
import shutil
import struct
import subprocess
import sys
import tempfile

from processes import in_a_process, timed

HERE = os.path.dirname(os.path.dirname(os.path.abspath(__file__)))
RUNS = 5
N_FUN, N_SLINE, N_SO, N_LSYM, N_PSYM, N_LBRAC, N_RBRAC = 0x24, 0x44, 0x64, 0x80, 0xA0, 0xC0, 0xE0
INT = "int:t(0,1)=r(0,1);-2147483648;2147483647;"
FUNCTION_SIZE = 0x20


def unit(name, start, count):
    """So many stabs of a unit at this address: kind, desc, value, name."""
    yield N_SO, 0, start, name
    yield N_LSYM, 0, 0, INT
    types = (count - 3) // 2 // 10 * 10
    for i in range(types):
        yield N_LSYM, 0, 0, f"tag{i}:T(0,{2 * i + 2})=s8val:(0,1),0,32;next:(0,{2 * i + 3})=*(0,{2 * i + 2}),32,32;;"
    functions = (count - 3 - types) // 10
    for i in range(functions):
        at = start + FUNCTION_SIZE * i
        yield N_FUN, 0, at, f"function{i}:F(0,1)"
        yield N_PSYM, 0, 8, "argument:p(0,1)"
        for line in range(5):
            yield N_SLINE, 10 * (i % 1000) + line, at + 4 * line, ""
        yield N_LSYM, 0, 0xFFFFFFFC, "local:(0,1)"
        yield N_LBRAC, 0, at - start, ""
        yield N_RBRAC, 0, at - start + FUNCTION_SIZE, ""
    for i in range(count - 3 - types - 10 * functions):
        yield N_SLINE, i, start + FUNCTION_SIZE * functions, ""
    yield N_SO, 0, start + FUNCTION_SIZE * functions, ""


def units(number, count):
    """So many units of so many stabs each."""
    for i in range(number):
        yield from unit(f"unit{i}.c", 0x1000 + 0x10 * FUNCTION_SIZE * count * i, count)


def chained(count):
    """A unit of type symbols: a structure of two fields whose pointer leads to the next structure."""
    yield N_SO, 0, 0, "a.c"
    yield N_LSYM, 0, 0, INT
    for i in range(1, count):
        yield N_LSYM, 0, 0, f"tag{i}:T(0,{2 * i})=s8val:(0,1),0,32;next:(0,{2 * i + 1})=*(0,{2 * (i % (count - 1) + 1)}),32,32;;"


def write_object(path, stabs):
    entries, table, offsets, at = [], [], {"": 0}, 4
    for kind, desc, value, name in stabs:
        if name not in offsets:
            offsets[name] = at
            table.append(name.encode() + b"\0")
            at += len(name) + 1
        entries.append(struct.pack("<IBBHI", offsets[name], kind, 0, desc, value))
    header = struct.pack("<8I", 0x0107, 0, 0, 0, 12 * len(entries), 0, 0, 0)
    with open(path, "wb") as out:
        out.write(header + b"".join(entries) + struct.pack("<I", at) + b"".join(table))


def write_peer(path, stabs):
    with open(path, "w") as out:
        for kind, desc, value, name in stabs:
            out.write(f'.stabs "{name}",{kind},0,{desc},{value}\n' if name else f".stabn {kind},0,{desc},{value}\n")


def with_objdump(folder, number, count):
    if not shutil.which("objdump") or not shutil.which("as"):
        return None
    source, target = f"{folder}/peer.s", f"{folder}/peer.o"
    in_a_process(write_peer, source, units(number, count))
    subprocess.run(["as", "-o", target, source], check=True)
    return timed(["objdump", "-G", target], f"{folder}/peer.out", RUNS)


def queried(program, folder, path, words, first):
    """The seconds and the memory of a question whose reply begins with this line."""
    seconds, _, memory = timed([program, "query", path, *words], f"{folder}/reply", RUNS)
    with open(f"{folder}/reply") as reply:
        line = reply.readline().strip()
    if line != first:
        sys.exit(f"the reply to {words} begins with {line}, not {first}")
    return seconds, memory


def measure_listing(program, folder, keys):
    """A tag from which all types of the file are reached: `int`, and a structure and a pointer for each tag."""
    path = f"{folder}/chain.o"
    in_a_process(write_object, path, chained(1 + keys // 2))
    size = os.path.getsize(path)
    seconds, memory = queried(program, folder, path, ["tag", "0", "tag1"], str(1 + 2 * (keys // 2)))
    print(f"a listing of {keys:,} types, {size} bytes: {seconds:.3f} s, {keys / seconds:,.0f} types a second, {memory / 1e6:.1f} MB")
    return seconds


def measure(program, folder, number, count):
    path, all_stabs = f"{folder}/many.o", number * count
    in_a_process(write_object, path, units(number, count))
    size = os.path.getsize(path)
    print(f"{number} units of {count:,} stabs, {size} bytes")
    peer = with_objdump(folder, number, count)
    if peer is None:
        print("  objdump -G: not there, skipped")
    else:
        print(f"  objdump -G: {peer[0]:.3f} s, {all_stabs / peer[0]:,.0f} stabs a second, {peer[2] / 1e6:.1f} MB")
    last = number - 1
    start = 0x1000 + 0x10 * FUNCTION_SIZE * count * last
    questions = [
        (["units"], f"0 00001000 {0x1000 + FUNCTION_SIZE * ((count - 3 - (count - 3) // 2 // 10 * 10) // 10):08x} unit0.c"),
        (["tag", str(last), "tag7"], "3"),
        (["scope", hex(start + FUNCTION_SIZE + 5)], f"unit {last} unit{last}.c"),
        (["line", hex(start + FUNCTION_SIZE + 5)], f"unit{last}.c 11 {start + FUNCTION_SIZE + 4:08x}"),
        (["addresses", f"unit{last}.c", "11"], f"{last} {start + FUNCTION_SIZE + 4:08x}"),
    ]
    for words, first in questions:
        seconds, memory = queried(program, folder, path, words, first)
        beside = f", {seconds / peer[0]:.2f} times objdump" if peer else ""
        print(f"  {words[0]}: {seconds:.3f} s, {all_stabs / seconds:,.0f} stabs a second, {memory / 1e6:.1f} MB, {memory / size:.1f} times the file{beside}")


def main():
    program = os.path.abspath(sys.argv[1] if len(sys.argv) > 1 else f"{HERE}/crates/stabs_tool/out/stabs_tool")
    folder = tempfile.mkdtemp()
    try:
        measure(program, folder, 100, 1_000)
        measure(program, folder, 1, 100_000)
        ratio = 1 / measure_listing(program, folder, 10_000)
        ratio *= measure_listing(program, folder, 40_000)
        print(f"four times the types take {ratio:.2f} times as long")
    finally:
        shutil.rmtree(folder)


if __name__ == "__main__":
    main()
