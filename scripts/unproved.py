#!/usr/bin/env python3
"""Runs the program with the given words without a proof, by `rt try`, and ends with its status: for whoever cannot wait for ./stabs.

It takes a minute or two each time, says on standard error that this is not the proved program, and ends with 1 where there is no
answer. `rt try` runs the program in a folder of its own, so each file that a word names is copied there, and the file that a command
stores is named by its whole path; what else a word may name in the caller's folder (a folder, a path with `..`) is refused.

Usage: ./stabs --unproved WORDS..
"""
import os
import re
import subprocess
import sys

CRATE = f"{os.path.dirname(os.path.dirname(os.path.realpath(__file__)))}/crates/stabs_tool"
# the place of the word that names the file which a command stores
STORES = {"as": 3, "link": 3}
# files that rt try makes in the program's folder
TAKEN = ("program", "stdin", "stdout", "stderr")
SECONDS = "600"


def say(text):
    print(f"stabs: {text}", file=sys.stderr, flush=True)


def stop(text):
    say(text)
    sys.exit(1)


def is_copied(word):
    """Whether the word names a file that can be copied under the same name."""
    parts = word.split("/")
    return os.path.isfile(word) and ".." not in parts and "=" not in word and os.path.normpath(word).split("/")[0] not in TAKEN


def main():
    words = sys.argv[1:]
    at = STORES.get(words[0]) if words else None
    if at is not None and at < len(words):
        words[at] = os.path.abspath(words[at])
    copies = []
    for word in words:
        if word.startswith("/") or not word:
            continue
        if is_copied(word):
            copies += ["--data", f"{word}={os.path.abspath(word)}"]
        elif os.path.lexists(word) or os.path.isfile(f"{CRATE}/{word}"):
            stop(f"a run without a proof cannot take the word {word}: name the file by its whole path, {os.path.abspath(word)}")
    say("this run is NOT the proved program: rt try compiles it anew without a proof, which takes a minute or two")
    ran = subprocess.run(["rt", "try", "--seconds", SECONDS, *copies, "--", *words], cwd=CRATE, capture_output=True)
    ended = re.search(rb"^run=ended status=(\d+) ", ran.stderr, re.M)
    if not ended:
        sys.stderr.buffer.write(ran.stdout + ran.stderr)
        stop("there is no answer without a proof: the lines above say why")
    sys.stdout.buffer.write(ran.stdout)
    sys.stdout.flush()
    say("this answer is NOT that of the proved program: ./stabs without --unproved proves it")
    return int(ended[1])


if __name__ == "__main__":
    sys.exit(main())
