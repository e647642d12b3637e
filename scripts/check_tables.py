#!/usr/bin/env python3
"""Compares the tables of faults and of statuses in docs/MANUAL.md with the constants of the code, and reports each difference.

Both tables have each constant once, in the order of its file, with its number:

  | number | constant | cause | place | decided by | defined in |     the faults, st_base/src/fault.rt
  | status | constant | line | comes |                               the statuses, file_commands/src/outcome.rt

`decided by` is a file in the src/ of a crate and a function that stands in it, as `crates/strtab/src/table.rt` `name_at` or, for a
method, `crates/strtab/src/builder.rt` `Builder::add`, and several are parted by commas; the sources of that crate name the fault's
constant. `defined in` is a file in the specs/ of a crate and a name that it defines, as `crates/strtab/specs/Names.antt` `HasName`, and
several are parted by commas. A fault that no crate has yet is `-` in both.
"""
import glob
import os
import re
import sys

TOP = os.path.dirname(os.path.dirname(os.path.realpath(__file__)))
MANUAL = "docs/MANUAL.md"
FAULTS = ["number", "constant", "cause", "place", "decided by", "defined in"]
STATUSES = ["status", "constant", "line", "comes"]
failed = False


def complain(text):
    global failed
    failed = True
    print(f"{MANUAL}: {text}", file=sys.stderr)


def text_of(path):
    with open(f"{TOP}/{path}", encoding="utf-8") as it:
        return it.read()


def sources_of(crate):
    return {os.path.relpath(it, TOP): text_of(os.path.relpath(it, TOP)) for it in sorted(glob.glob(f"{TOP}/crates/{crate}/src/**/*.rt", recursive=True))}


def cells(line):
    """The cells of a line of a table, or None. A bar in a cell is written `\\|`."""
    if not line.startswith("|"):
        return None
    return [it.strip() for it in re.split(r"(?<!\\)\|", line)[1:-1]]


def table_under(head):
    """The rows of the one table with this head."""
    lines = text_of(MANUAL).split("\n")
    at = [number for number, line in enumerate(lines) if cells(line) == head]
    if len(at) != 1:
        complain(f"{len(at)} tables with the head | {' | '.join(head)} |, not one")
        return []
    rows = []
    for line in lines[at[0] + 2 :]:
        row = cells(line)
        if row is None:
            break
        if len(row) == len(head):
            rows.append(row)
        else:
            complain(f"{len(row)} cells, not {len(head)}, in the row {line}")
    return rows


def compare(rows, file, kind):
    """Reports where number and constant of the rows are not those of the constants in the file, in order."""
    wanted = re.findall(rf"^pub const (\w+): {kind} = (\d+);", text_of(file), re.M)
    found = [(constant.strip("`"), number) for number, constant, *_ in rows]
    for name, number in wanted:
        if found.count((name, number)) != 1:
            complain(f"{name} = {number} of {file} has {found.count((name, number))} rows, not one")
    for it in found:
        if it not in wanted:
            complain(f"{it[0]} = {it[1]} is no constant of {file}")
    if sorted(found) == sorted(wanted) and found != wanted:
        complain(f"the rows of {file} are in another order")


def parts_of(cell):
    return [it.strip() for it in cell.split(",")]


def check_decided(constant, cell):
    for part in parts_of(cell):
        path = re.fullmatch(r"`(crates/(\w+)/src/[\w/]+\.rt)` `(?:\w+::)?(\w+)`", part)
        if not path:
            complain(f"{constant} is decided by {part}, not by `crates/CRATE/src/FILE.rt` `FUNCTION`")
            continue
        texts = sources_of(path[2])
        if path[1] not in texts:
            complain(f"{constant} is decided by {part}, whose file is missing")
        elif not re.search(rf"\bfn {path[3]}\b", texts[path[1]]):
            complain(f"{constant} is decided by {part}, which is no function of that file")
        elif not re.search(rf"\b{constant}\b", "\n".join(texts.values())):
            complain(f"{constant} is decided by {part}, but crates/{path[2]}/src does not name it")


def check_defined(constant, cell):
    for part in parts_of(cell):
        path = re.fullmatch(r"`(crates/\w+/specs/\w+\.antt)` `([^`\s]+)`", part)
        if not path:
            complain(f"{constant} is defined in {part}, not in `crates/CRATE/specs/FILE.antt` `NAME`")
        elif not os.path.exists(f"{TOP}/{path[1]}"):
            complain(f"{constant} is defined in {path[1]}, which is missing")
        elif not re.search(rf"^\s*((abbrev|unfoldable|pub|record|data) )+{re.escape(path[2])}( |$)", text_of(path[1]), re.M):
            complain(f"{constant} is defined in {path[1]}, which does not define {path[2]}")


def users_of(constant):
    """The sources above st_base that name the constant."""
    return [path for path, text in sources_of("*").items() if "/st_base/" not in path and re.search(rf"\b{constant}\b", text)]


def main():
    if not os.path.exists(f"{TOP}/{MANUAL}"):
        complain("is missing")
        return 1
    faults = table_under(FAULTS)
    compare(faults, "crates/st_base/src/fault.rt", "u16")
    compare(table_under(STATUSES), "crates/file_commands/src/outcome.rt", "u8")
    for _, constant, _, _, decided, defined in faults:
        constant = constant.strip("`")
        if (decided, defined) == ("-", "-"):
            used = users_of(constant)
            if used:
                complain(f"{constant} is decided nowhere, but {used[0]} names it")
        else:
            check_decided(constant, decided)
            check_defined(constant, defined)
    return 1 if failed else 0


if __name__ == "__main__":
    sys.exit(main())
