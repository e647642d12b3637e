#!/usr/bin/env python3
"""Lets each allocation and each call of the system fail in turn, for every command of the built program, and checks what it answers.

A small library stands between the program and the C library (it is compiled here, and preloaded) and counts the calls of one kind; the
call with the given number fails:

  alloc   malloc or realloc answers that there is no memory     the status is 8
  open    a file is not opened: EACCES                          5 or 6 for an input, 7 for OUT
  read    a read fails: EIO                                     6
  write   a write fails: EIO                                    7
  few     a read gives one byte, a write takes one              nothing changes

For each call of the run in which nothing fails: the status is the one above, or answer and OUT are those of that run; what is printed
otherwise is the line of that status, and for 7 and 8 perhaps a front of the right text, or nothing; and no file but OUT has changed.

Usage: scripts/each_failure.py [PROGRAM]    crates/stabs_tool/out/stabs_tool by default

It needs a C compiler, and takes some seconds. It prints the number of runs of each command and kind.
"""
import os
import shutil
import subprocess
import sys
import tempfile
from concurrent.futures import ThreadPoolExecutor

TOP = os.path.dirname(os.path.dirname(os.path.realpath(__file__)))
DATA = f"{TOP}/crates/stabs_tool/data"
KINDS = {"alloc": {8}, "open": {5, 6, 7}, "read": {6}, "write": {7}, "few": set()}
# what is printed with these statuses
LINES = {5: b"absent ", 6: b"read fault ", 7: b"write fault\n"}
SHIM = r"""
#define _GNU_SOURCE
#include <errno.h>
#include <fcntl.h>
#include <stdarg.h>
#include <stdio.h>
#include <stdlib.h>
#include <string.h>
#include <sys/syscall.h>
#include <unistd.h>

extern void *__libc_malloc(size_t);
extern void *__libc_realloc(void *, size_t);

static long count, fails_at = -1;
static char kind;

__attribute__((constructor)) static void begin(void) {
    const char *text = getenv("FAILS");
    if (text) {
        kind = text[0];
        fails_at = atol(text + 1);
    }
}

__attribute__((destructor)) static void end(void) {
    char text[32];
    const char *path = getenv("CALLS");
    if (!path) return;
    int file = syscall(SYS_open, path, O_WRONLY | O_CREAT | O_TRUNC, 0600);
    int size = snprintf(text, sizeof text, "%ld", count);
    if (syscall(SYS_write, file, text, size)) {}
    syscall(SYS_close, file);
}

static int fails(char of) {
    return of == kind && ++count == fails_at;
}

void *malloc(size_t size) {
    if (fails('a')) { errno = ENOMEM; return 0; }
    return __libc_malloc(size);
}

void *realloc(void *old, size_t size) {
    if (fails('a')) { errno = ENOMEM; return 0; }
    return __libc_realloc(old, size);
}

int open(const char *path, int flags, ...) {
    int mode = 0;
    if (flags & O_CREAT) {
        va_list more;
        va_start(more, flags);
        mode = va_arg(more, int);
        va_end(more);
    }
    if (fails('o')) { errno = EACCES; return -1; }
    return syscall(SYS_open, path, flags, mode);
}

ssize_t read(int file, void *bytes, size_t size) {
    if (fails('r')) { errno = EIO; return -1; }
    if (fails('f') && size) size = 1;
    return syscall(SYS_read, file, bytes, size);
}

ssize_t write(int file, const void *bytes, size_t size) {
    if (fails('w')) { errno = EIO; return -1; }
    if (fails('f') && size) size = 1;
    return syscall(SYS_write, file, bytes, size);
}
"""
COMMANDS = [
    "query a.o units",
    "query a.o files 0",
    "query a.o tag 0 list",
    "query a.o type 0 size_t",
    "query a.o number 0 2 1",
    "query a.o scope 0x5",
    "query a.o line 0x6",
    "query a.o addresses /w/a.c 5",
    "query merged tag 1 list",
    "check merged",
    "dump a.o",
    "list a.o",
    "as little a.s OUT",
    "as big wrong.s OUT",
    "link keep 0x1000 OUT one.o two.o",
    "link merge 0x1000 OUT one.o two.o",
    "link merge 0x1000 OUT one.o",
    "ask one.o two.o -- scope 0x1005",
    "query open.o units",
    "query missing.o units",
    "query a.o tag 01 list",
]
failed = 0


def complain(text):
    global failed
    failed += 1
    print(text, file=sys.stderr, flush=True)


def prepare(program, folder):
    """The inputs of all commands."""
    for name in ("a.o", "a.s", "b.s"):
        shutil.copy(f"{DATA}/{name}", folder)
    with open(f"{DATA}/a.o", "rb") as it:
        damaged = it.read().replace(b"\xe0\0\0\0\x08", b"\x44\0\0\0\x08")
    with open(f"{folder}/open.o", "wb") as out:
        out.write(damaged)
    with open(f"{folder}/wrong.s", "w", encoding="ascii") as out:
        out.write(".byte 1\n.bite 1\n")
    for words in ("as little a.s one.o", "as little b.s two.o", "link merge 0x1000 merged one.o two.o"):
        subprocess.run([program, *words.split()], cwd=folder, check=True, stdout=subprocess.DEVNULL)


def contents(folder):
    found = {}
    for name in os.listdir(folder):
        with open(f"{folder}/{name}", "rb") as it:
            found[name] = it.read()
    return found


class Case:
    """A command in a folder of its own, and what it gives where nothing fails."""

    def __init__(self, program, shim, inputs, words):
        self.program, self.shim, self.inputs, self.words = program, shim, inputs, words.split()

    def run(self, kind, number):
        """Status, printed bytes, files, and how many calls of the kind there were, where the call with this number fails."""
        with tempfile.TemporaryDirectory() as folder, tempfile.NamedTemporaryFile() as calls:
            for name, text in self.inputs.items():
                with open(f"{folder}/{name}", "wb") as out:
                    out.write(text)
            ran = subprocess.run(
                [self.program, *self.words],
                cwd=folder,
                stdout=subprocess.PIPE,
                stderr=subprocess.DEVNULL,
                env={"LD_PRELOAD": self.shim, "FAILS": f"{kind[0]}{number}", "CALLS": calls.name},
                check=False,
                timeout=60,
            )
            return ran.returncode, ran.stdout, contents(folder), int(calls.read() or b"0")

    def is_right(self, kind, got, wanted):
        status, printed, files, _ = got
        others = {name: text for name, text in files.items() if name != "OUT"}
        if others != self.inputs:
            return False
        if (status, printed) == wanted[:2]:
            return files.get("OUT") == wanted[2].get("OUT")
        if status not in KINDS[kind]:
            return False
        is_front = status in (7, 8) and wanted[1].startswith(printed)
        return is_front or (status in LINES and printed.startswith(LINES[status]))

    def try_each(self, kind, pool):
        """Lets each call of the kind fail, and counts the runs."""
        wanted = self.run(kind, 0)
        runs = list(pool.map(lambda number: (number, self.run(kind, number)), range(1, wanted[3] + 1)))
        for number, got in runs:
            if not self.is_right(kind, got, wanted):
                complain(f"{' '.join(self.words)}: {kind} {number} fails: status {got[0]}, printed {got[1][:60]!r}, files {sorted(got[2])}")
        return len(runs)


def main():
    program = os.path.realpath(sys.argv[1] if len(sys.argv) > 1 else f"{TOP}/crates/stabs_tool/out/stabs_tool")
    compiler = shutil.which("cc") or shutil.which("gcc")
    if compiler is None:
        print("note: no C compiler, so nothing was tried", file=sys.stderr)
        return 0
    total = dict.fromkeys(KINDS, 0)
    with tempfile.TemporaryDirectory() as folder, ThreadPoolExecutor(os.cpu_count()) as pool:
        shim = f"{folder}/shim.so"
        subprocess.run([compiler, "-shared", "-fPIC", "-O1", "-o", shim, "-x", "c", "-"], input=SHIM.encode(), check=True)
        os.mkdir(f"{folder}/inputs")
        prepare(program, f"{folder}/inputs")
        inputs = contents(f"{folder}/inputs")
        for words in COMMANDS:
            case = Case(program, shim, inputs, words)
            counts = {kind: case.try_each(kind, pool) for kind in KINDS}
            for kind, count in counts.items():
                total[kind] += count
            print(f"{words}: " + ", ".join(f"{count} {kind}" for kind, count in counts.items()), flush=True)
    print("all commands: " + ", ".join(f"{count} {kind}" for kind, count in total.items()) + f"; {failed} wrong")
    return 1 if failed else 0


if __name__ == "__main__":
    sys.exit(main())
