#!/usr/bin/env python3
"""Times the assembler, the assembly printer and the dump, beside `as` of binutils on the same text.

Usage: bench/assemble.py [PROGRAM]

PROGRAM is the built program, crates/stabs_tool/out/stabs_tool by default. The sources are what a compiler writes: functions of a label,
code bytes, lines, a parameter, a local variable and a block, with their stabs; of 100,000 and of 300,000 directives. They are made in a
folder that is removed again, in a process of their own. `list` and `dump` print an object of 400,000 entries, half of them with names of
27 bytes. Each is run five times, and the least time counts; memory is the greatest resident size. GNU `as` makes an ELF object of the same
text, and is skipped where it is missing.
"""
import os
import shutil
import sys
import tempfile

from processes import in_a_process, timed

HERE = os.path.dirname(os.path.dirname(os.path.abspath(__file__)))
RUNS = 5
HEAD = """.stabs "/w/",100,0,0,Ltext0
.stabs "a.c",100,0,0,Ltext0
.text
Ltext0:
.stabs "int:t(0,1)=r(0,1);-2147483648;2147483647;",128,0,0,0
"""
FUNCTION = """.stabs "tag{i}:T(0,{t})=s8val:(0,1),0,32;next:(0,{u})=*(0,{t}),32,32;;",128,0,0,0
.globl _function{i}
_function{i}:
.stabs "function{i}:F(0,1)",36,0,{i},_function{i}
.stabs "argument:p(0,1)",160,0,0,8
.stabn 68,0,{i},LM{i}
LM{i}:
.byte 0x55,0x89,0xe5,0x83
.long _other{o}
.stabs "local:(0,1)",128,0,0,-4
.stabn 192,0,0,LM{i}-Ltext0
.stabn 224,0,0,LE{i}-Ltext0
LE{i}:
"""
IN_HEAD, IN_FUNCTION = 4, 10


def write_source(path, directives):
    with open(path, "w") as out:
        out.write(HEAD)
        for i in range((directives - IN_HEAD) // IN_FUNCTION):
            out.write(FUNCTION.format(i=i, t=2 * i + 2, u=2 * i + 3, o=i % 100))


def write_entries(path, entries):
    with open(path, "w") as out:
        for i in range(entries // 2):
            out.write(f'.stabs "variable_with_name_{i:08}",32,0,{i % 65536},{i}\n.stabn 68,0,{i % 65536},{i}\n')


def assembled(program, folder, path, count, unit):
    target = f"{folder}/made.o"
    size = os.path.getsize(path)
    seconds, _, memory = timed([program, "as", "little", path, target], f"{folder}/printed", RUNS)
    print(f"as: {count:,} {unit}, {size:,} bytes: {seconds:.3f} s, {count / seconds:,.0f} a second, {memory / 1e6:.1f} MB, "
          f"{memory / size:.1f} times the source")
    if shutil.which("as"):
        peer, _, memory = timed(["as", "-o", f"{folder}/peer.o", path], f"{folder}/printed", RUNS)
        print(f"  GNU as: {peer:.3f} s, {count / peer:,.0f} a second, {memory / 1e6:.1f} MB")
    return target, seconds


def printed(program, folder, command, path, entries):
    size = os.path.getsize(path)
    seconds, _, memory = timed([program, command, path], f"{folder}/printed", RUNS)
    text = os.path.getsize(f"{folder}/printed")
    print(f"{command}: {entries:,} entries, {text:,} bytes printed: {seconds:.3f} s, {entries / seconds:,.0f} entries a second, "
          f"{memory / 1e6:.1f} MB, {memory / size:.1f} times the file")


def main():
    program = os.path.abspath(sys.argv[1] if len(sys.argv) > 1 else f"{HERE}/crates/stabs_tool/out/stabs_tool")
    folder = tempfile.mkdtemp()
    try:
        times = []
        for directives in (100_000, 300_000):
            path = f"{folder}/made.s"
            in_a_process(write_source, path, directives)
            times.append(assembled(program, folder, path, directives, "directives")[1])
        print(f"three times the directives take {times[1] / times[0]:.2f} times as long")
        path = f"{folder}/entries.s"
        in_a_process(write_entries, path, 400_000)
        target, _ = assembled(program, folder, path, 400_000, "directives of stabs alone")
        printed(program, folder, "list", target, 400_000)
        printed(program, folder, "dump", target, 400_000)
    finally:
        shutil.rmtree(folder)


if __name__ == "__main__":
    main()
