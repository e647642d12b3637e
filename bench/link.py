#!/usr/bin/env python3
"""Times linking with and without merging of headers, beside `ld -r` of binutils on ELF objects with the same stabs.

Usage: bench/link.py [PROGRAM]

PROGRAM is the built program, crates/stabs_tool/out/stabs_tool by default. The objects are 10, 100 and 1,000 units of a few of eight headers
each, a structure in each header, a function and a line; four objects of 100,000 stabs each; and ten of 10,000 stabs in 500 headers, which
are the same in all. They are assembled by the program itself in a folder that is removed again. Each link is run five times in either mode,
and the least time counts; memory is the greatest resident size. `ld -r` links what GNU as makes of the same sources, parses no string, and
is skipped where it or the assembler is missing. Then the image of both modes is asked for its units: excluded headers are filled in for that.
"""
import os
import shutil
import subprocess
import sys
import tempfile

from processes import timed

HERE = os.path.dirname(os.path.dirname(os.path.abspath(__file__)))
RUNS = 5


def small(i):
    """A unit of some of eight headers."""
    yield "Lb:"
    yield f'.stabs "u{i}.c",100,0,0,Lb'
    yield '.stabs "int:t(0,1)=r(0,1);-2147483648;2147483647;",128,0,0,0'
    file = 0
    for j in range(8):
        if (i + j) % 3:
            file += 1
            yield f'.stabs "h{j}.h",130,0,0,0'
            yield f'.stabs "s{j}:T({file},1)=s8val:(0,1),0,32;next:({file},2)=*({file},1),32,32;;",128,0,0,0'
            yield ".stabn 162,0,0,0"
    yield f'.stabs "main{i}:F(0,1)",36,0,0,Lb'
    yield f".stabn 68,0,{i + 1},Lb"
    yield ".long 0"
    yield "Le:"
    yield ".stabn 100,0,0,Le"


def large(i, stabs):
    """A unit of one header with many structures."""
    yield "Lb:"
    yield f'.stabs "u{i}.c",100,0,0,Lb'
    yield '.stabs "int:t(0,1)=r(0,1);-2147483648;2147483647;",128,0,0,0'
    yield f'.stabs "h{i}.h",130,0,0,0'
    for n in range(stabs - 6):
        yield f'.stabs "s{n}:T(1,{2 * n + 1})=s8val:(0,1),0,32;next:(1,{2 * n + 2})=*(1,{2 * n + 1}),32,32;;",128,0,0,0'
    yield ".stabn 162,0,0,0"
    yield ".long 0"
    yield "Le:"
    yield ".stabn 100,0,0,Le"


def shared(i, headers, stabs):
    """A unit of many headers that others have too, each of which names a type of the one before it."""
    yield "Lb:"
    yield f'.stabs "u{i}.c",100,0,0,Lb'
    yield '.stabs "int:t(0,1)=r(0,1);-2147483648;2147483647;",128,0,0,0'
    for file in range(1, headers + 1):
        yield f'.stabs "h{file}.h",130,0,0,0'
        for n in range(stabs):
            yield f'.stabs "s{file}_{n}:T({file},{n + 1})=s8val:({max(file - 1, 1)},1),0,32;next:({file},{n + 1}),32,32;;",128,0,0,0'
        yield ".stabn 162,0,0,0"
    yield ".long 0"
    yield "Le:"
    yield ".stabn 100,0,0,Le"


def measure(program, folder, title, sources):
    names, peers, size, entries = [], [], 0, 0
    for i, lines in enumerate(sources):
        source = f"{folder}/{i}.s"
        with open(source, "w") as out:
            for line in lines:
                out.write(line + "\n")
                entries += line.startswith(".stab")
        names.append(f"{folder}/{i}.o")
        subprocess.run([program, "as", "little", source, names[-1]], check=True)
        size += os.path.getsize(names[-1])
        if shutil.which("as"):
            peers.append(f"{folder}/{i}.elf")
            subprocess.run(["as", "-o", peers[-1], source], check=True)
    print(f"{title}: {size:,} bytes, {entries:,} entries")
    times = []
    for mode in ("keep", "merge"):
        image = f"{folder}/{mode}"
        seconds, _, memory = timed([program, "link", mode, "0x1000", image, *names], f"{folder}/printed", RUNS)
        times.append(seconds)
        with open(f"{folder}/printed") as printed:
            print(f"  {mode}: {seconds:.3f} s, {entries / seconds:,.0f} entries a second, {size / seconds / 1e6:.1f} MB a second, "
                  f"{memory / 1e6:.1f} MB, {memory / size:.1f} times the input; {printed.read().strip()}")
        seconds, _, memory = timed([program, "query", image, "units"], f"{folder}/printed", RUNS)
        print(f"    units of its image: {seconds:.3f} s, {memory / 1e6:.1f} MB")
    if shutil.which("ld") and peers:
        peer, _, memory = timed(["ld", "-r", "-o", f"{folder}/peer", *peers], f"{folder}/printed", RUNS)
        print(f"  ld -r: {peer:.3f} s, {memory / 1e6:.1f} MB; {times[0] / peer:.2f} and {times[1] / peer:.2f} times its time")
    return times


def main():
    program = os.path.abspath(sys.argv[1] if len(sys.argv) > 1 else f"{HERE}/crates/stabs_tool/out/stabs_tool")
    folder = tempfile.mkdtemp()
    try:
        times = [measure(program, folder, f"{n:,} small objects", [small(i) for i in range(n)]) for n in (10, 100, 1_000)]
        for at, mode in enumerate(("keep", "merge")):
            print(f"{mode}: ten times the objects take {times[1][at] / times[0][at]:.1f} and {times[2][at] / times[1][at]:.1f} times as long")
        measure(program, folder, "4 objects of 100,000 stabs", [large(i, 100_000) for i in range(4)])
        measure(program, folder, "10 objects of 10,000 stabs in 500 headers", [shared(i, 500, 18) for i in range(10)])
    finally:
        shutil.rmtree(folder)


if __name__ == "__main__":
    main()
