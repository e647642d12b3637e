#!/usr/bin/env python3
"""Builds the program, which proves the crates that it stands on, side by side on all processors and as many as memory holds.

Says on standard error which crate of how many is proved, and after how long. Where a crate fails, prints its log and ends with 1.
Nothing is done where the program was built of the same files: those in src/, specs/ and proofs/ of these crates, and their lines in
crates.txt. out/built beside the program has their sum and that of the program.

Usage: scripts/build.py [--until CRATE]      proves CRATE and those below it, and builds no program
"""
import hashlib
import os
import re
import subprocess
import sys
import time

TOP = os.path.dirname(os.path.dirname(os.path.realpath(__file__)))
NAME = "stabs_tool"
PROGRAM = f"{TOP}/crates/{NAME}/out/{NAME}"
BUILT = f"{TOP}/crates/{NAME}/out/built"
PARTS = ("src", "specs", "proofs")
# what a proof of a crate takes at most, in bytes, but for the largest
MEMORY = 3_000_000_000
START, BEGAN = time.monotonic(), time.time()


def say(text):
    print(f"stabs: {text}", file=sys.stderr, flush=True)


def elapsed():
    seconds = int(time.monotonic() - START)
    return f"{seconds // 60} min {seconds % 60} s"


def lines_of_crates():
    """The line of each crate in crates.txt, by its name."""
    with open(f"{TOP}/crates.txt", encoding="utf-8") as it:
        lines = [line.partition("#")[0].strip() for line in it]
    return {line.split(":")[0].split()[0]: line for line in lines if line}


def crates_below(lines, crate):
    """The crates of this repository that the crate stands on, each after those that it stands on itself, and then the crate."""
    found = []
    for it in lines[crate].partition(":")[2].split():
        found += [below for below in crates_below(lines, it) if below not in found] if it in lines else []
    return [*found, crate]


def read(path):
    with open(path, "rb") as it:
        return it.read()


def sum_of(lines, crates):
    """A sum of all that the program is built of."""
    found = hashlib.sha256(subprocess.run(["rt", "version"], capture_output=True, check=True).stdout)
    found.update("\n".join(lines[it] for it in crates).encode())
    for folder in (f"{TOP}/crates/{crate}/{part}" for crate in crates for part in PARTS):
        for at, folders, files in os.walk(folder):
            folders.sort()
            for file in sorted(files):
                found.update(repr((os.path.relpath(f"{at}/{file}", TOP), read(f"{at}/{file}"))).encode())
    return found.hexdigest()


def sum_of_program():
    return hashlib.sha256(read(PROGRAM)).hexdigest() if os.path.exists(PROGRAM) else ""


def at_once():
    """How many crates to prove side by side."""
    free = int(re.search(r"MemAvailable:\s+(\d+)", open("/proc/meminfo", encoding="utf-8").read())[1]) * 1024
    return max(1, min(len(os.sched_getaffinity(0)), free // MEMORY))


def stop(log):
    sys.stderr.write(log)
    say(f"the program was not built: the log above says why; stopped after {elapsed()}")
    sys.exit(1)


def prove(crate, count):
    """Proves the crate and those below it: `rt all check` in its folder does them side by side, and prints the log of each under `== NAME`."""
    side_by_side = at_once()
    say(f"{count} crates are proved, {side_by_side} side by side, before the program first runs; ./stabs --unproved does not wait for it")
    run = subprocess.Popen(
        ["rt", "all", "check", "--jobs", str(side_by_side)],
        cwd=f"{TOP}/crates/{crate}",
        stdout=subprocess.PIPE,
        text=True,
        errors="replace",
    )
    name, log, done = "", "", set()
    for line in run.stdout:
        ends_crate = line.startswith("== ")
        # one that was proved before has no log but notes of rt
        if name and name not in done and (line.startswith("logic=proved ") or ends_crate and is_notes(log)):
            done.add(name)
            say(f"{len(done)} of {count} crates: {name} is proved, after {elapsed()}")
        if ends_crate and name and name not in done:
            run.terminate()
            stop(f"== {name}\n{log}")
        name, log = (line[3:].strip(), "") if ends_crate else (name, log + line)
    # the last part is a summary, a line a crate
    if run.wait() or len(done) != count:
        stop(log)


def is_notes(log):
    return all(line.startswith("rt: ") for line in log.splitlines())


def compile_program():
    """`rt run` compiles the program over what is proved, and runs it: without words it prints its usage, and rt prints on standard error alone."""
    run = subprocess.run(["rt", "run", "--"], cwd=f"{TOP}/crates/{NAME}", capture_output=True, text=True, errors="replace")
    if run.stdout != "usage: word 0\n":
        stop(run.stdout + run.stderr)


def main():
    lines = lines_of_crates()
    if sys.argv[1:2] == ["--until"]:
        prove(sys.argv[2], len(crates_below(lines, sys.argv[2])))
        return
    crates = crates_below(lines, NAME)
    whole = sum_of(lines, crates)
    if not (os.path.exists(BUILT) and read(BUILT).decode() == whole + sum_of_program()):
        prove(NAME, len(crates))
        compile_program()
        with open(BUILT, "w", encoding="utf-8") as it:
            it.write(whole + sum_of_program())
        say(f"built in {elapsed()}")
    # what was changed since the build began is newer
    os.utime(PROGRAM, (BEGAN, BEGAN))


if __name__ == "__main__":
    main()
