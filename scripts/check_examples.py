#!/usr/bin/env python3
"""Runs the examples of the documents over the built program, and reports each that prints something else than stands there.

An example is a fenced block without a language whose first line begins with `$ `. In it
  - a line that begins with `$ ` is a command for /bin/sh, and lines that begin with `> ` directly after it go on with it;
  - the lines up to the next command are what it prints, on standard output and standard error together;
    a line `...` alone stands for any lines.
Every other block is not run: commands that build, prove or download stand in a block with the language sh.

The blocks of a document are one session from its first to its last, in a fresh copy of the committed files that is thrown
away afterwards. `stabs` at its top is the built program, so nothing is built there.

Usage: scripts/check_examples.py [DOCUMENT..]
"""
import os
import re
import shlex
import shutil
import subprocess
import sys
import tempfile

TOP = os.path.dirname(os.path.dirname(os.path.realpath(__file__)))
PROGRAM = f"{TOP}/crates/stabs_tool/out/stabs_tool"
DOCUMENTS = ("README.md", "docs/MANUAL.md")
SECONDS = 120


class Example:
    """A command, the line of the document that it stands in, and the lines that it is to print."""

    def __init__(self, at, command):
        self.at, self.command, self.prints = at, command, []


def examples_of(lines):
    found, is_inside, runs = [], False, False
    for at, line in enumerate(lines, 1):
        if line.startswith("```"):
            runs = not is_inside and line == "```" and at < len(lines) and lines[at].startswith("$ ")
            is_inside = not is_inside
        elif runs and line.startswith("$ "):
            found.append(Example(at, line[2:]))
        elif runs and line.startswith("> ") and not found[-1].prints:
            found[-1].command += "\n" + line[2:]
        elif runs:
            found[-1].prints.append(line)
    return found


def copy_committed(to):
    """Copies the committed files as they stand in the working tree, with the built program in the place of stabs."""
    files = subprocess.run(["git", "ls-files", "-z"], cwd=TOP, capture_output=True, check=True).stdout
    for file in files.decode().split("\0"):
        if file and os.path.exists(f"{TOP}/{file}"):
            os.makedirs(os.path.dirname(f"{to}/{file}"), exist_ok=True)
            shutil.copy2(f"{TOP}/{file}", f"{to}/{file}")
    os.remove(f"{to}/stabs")
    os.symlink(PROGRAM, f"{to}/stabs")


def session(examples, outputs):
    """A script that runs the commands one after the other, each printing to a file of its own, and keeps `$?` between them."""
    script = ""
    for number, example in enumerate(examples):
        script += f"status=$?; exec >{shlex.quote(outputs)}/{number} 2>&1; (exit $status)\n{example.command}\n"
    return script


def is_printed(wanted, got):
    """Whether these lines are the wanted ones, where `...` stands for any lines."""
    pattern = "".join("(.*\n)*" if line == "..." else re.escape(line) + "\n" for line in wanted)
    return re.fullmatch(pattern, "".join(line + "\n" for line in got)) is not None


def check(document):
    """Reports what is wrong with the document's examples, and returns whether all is right."""
    if not os.path.exists(f"{TOP}/{document}"):
        print(f"{document}: is missing", file=sys.stderr)
        return False
    with open(f"{TOP}/{document}", encoding="utf-8") as it:
        examples = examples_of(it.read().split("\n"))
    if not examples:
        print(f"{document}: has no example", file=sys.stderr)
        return False
    with tempfile.TemporaryDirectory() as room:
        folder, outputs = f"{room}/tree", f"{room}/outputs"
        os.makedirs(folder)
        os.makedirs(outputs)
        copy_committed(folder)
        try:
            subprocess.run(["/bin/sh", "-c", session(examples, outputs)], cwd=folder, stdin=subprocess.DEVNULL, timeout=SECONDS)
        except subprocess.TimeoutExpired:
            print(f"{document}: its examples take more than {SECONDS} seconds", file=sys.stderr)
        is_right = True
        for number, example in enumerate(examples):
            try:
                with open(f"{outputs}/{number}", encoding="utf-8", errors="backslashreplace") as it:
                    text = it.read()
                got = text.removesuffix("\n").split("\n") if text else []
            except FileNotFoundError:
                got = ["(was not run)"]
            if not is_printed(example.prints, got):
                is_right = False
                shown = [f"{document}:{example.at}: $ {example.command}", "  expected:", *example.prints, "  got:", *got]
                print(*shown, sep="\n", file=sys.stderr)
    print(f"{document}: {len(examples)} examples run")
    return is_right


def main():
    if not os.access(PROGRAM, os.X_OK):
        print(f"{PROGRAM} is missing: build it by ./stabs", file=sys.stderr)
        return 1
    right = [check(it) for it in sys.argv[1:] or DOCUMENTS]
    return 0 if all(right) else 1


if __name__ == "__main__":
    sys.exit(main())
