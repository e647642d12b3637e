#!/usr/bin/env python3
"""Runs the built program on many of anything and at its limits, and reports what is not as it must be: statuses, printed lines, and
stored files byte by byte. What must be is made here from docs/FORMATS.md, and never by the program.

Takes less than a minute, and 500 MB of a temporary folder.
"""
import os
import struct
import subprocess
import sys
import tempfile

from make_objects import string_table

STABS = f"{os.path.dirname(os.path.dirname(os.path.realpath(__file__)))}/crates/stabs_tool/out/stabs_tool"
FILE_LIMIT, SOURCE_LIMIT, MOST_OBJECTS = 134_217_728, 16_777_216, 1_024
N_ABS, N_SLINE, N_SO, N_LSYM, N_BINCL, N_EINCL = 0x02, 0x44, 0x64, 0x80, 0x82, 0xA2
BASE = 0x1000
failed = False


def shown(text, most=300):
    return repr(text if len(text) <= most else text[:most] + b"..")


def ends(status, text, *words):
    """Complains where the program, given these words, ends with another status or prints another text."""
    global failed
    ran = subprocess.run([STABS, *words], stdin=subprocess.DEVNULL, capture_output=True)
    called = " ".join(words)
    called = called if len(called) <= 80 else f"{called[:60]} .. {called[-15:]} ({len(words)} words)"
    if ran.returncode != status:
        failed = True
        print(f"stabs {called}: status {ran.returncode}, not {status}", file=sys.stderr)
    if ran.stdout != text.encode():
        failed = True
        print(f"stabs {called}: printed {shown(ran.stdout)}, not {shown(text.encode())}", file=sys.stderr)


def holds(name, wanted):
    """Complains where the file does not hold these bytes."""
    global failed
    found = b"(no file)"
    if os.path.exists(name):
        with open(name, "rb") as it:
            found = it.read()
    if found != wanted:
        failed = True
        print(f"{name}: holds {len(found)} other bytes than the {len(wanted)} that it must", file=sys.stderr)


def write(name, data):
    with open(name, "wb") as it:
        it.write(data if isinstance(data, bytes) else data.encode())


def packed(entries, text, table, offsets, entry=0):
    """A little-endian file of this text and these entries: kind, desc, value and a name that stands at an offset of the table."""
    header = struct.pack("<8I", 0x0107, len(text), 0, 0, 12 * len(entries), entry, 0, 0)
    return header + text + b"".join(struct.pack("<IBBHI", offsets[name], kind, 0, desc, value) for kind, desc, value, name in entries) + table


def object_file(entries, text=b"", entry=0):
    """The same with each distinct name once in the table, in order of first use."""
    names = [name for _, _, _, name in entries]
    return packed(entries, text, *string_table("<", dict.fromkeys(names)), entry)


def listing(entries, text, entry):
    """The assembly that `list` prints of the same."""
    lines = [".machine 0", f".entry 0x{entry:08x}", ".bsize 0", ".text"]
    lines += [".byte " + ",".join(f"0x{it:02x}" for it in text[at : at + 16]) for at in range(0, len(text), 16)]
    lines += [".data"]
    for kind, desc, value, name in entries:
        lines += [f'.stabs "{name.decode()}",{kind},0,{desc},0x{value:08x}' if name else f".stabn {kind},0,{desc},0x{value:08x}"]
    return "".join(f"{line}\n" for line in lines)


def many_objects():
    """1,024 objects of a unit each, of which none is like another; 1,025 are too many."""
    names = [f"o{at}" for at in range(MOST_OBJECTS)]
    for at, name in enumerate(names):
        write("one.s", f'.stabs "u{at}.c",100,0,0,0\n.text\n.long {at}\n.stabn 100,0,0,.\n')
        ends(0, "", "as", "little", "one.s", name)
    entries = []
    for at in range(MOST_OBJECTS):
        entries += [(N_SO, 0, BASE + 4 * at, f"u{at}.c".encode()), (N_SO, 0, BASE + 4 * at + 4, b"")]
    line = f"ranges 0 kept 0 entries {2 * MOST_OBJECTS}\n"
    units = lambda base: "".join(f"{at} {base + 4 * at:08x} {base + 4 * at + 4:08x} u{at}.c\n" for at in range(MOST_OBJECTS))
    ends(0, line, "link", "keep", hex(BASE), "image", *names)
    holds("image", object_file(entries, b"".join(struct.pack("<I", at) for at in range(MOST_OBJECTS)), BASE))
    ends(0, units(BASE), "query", "image", "units")
    ends(0, line + units(0), "ask", *names, "--", "units")
    ends(9, f"limit {MOST_OBJECTS}\n", "link", "keep", hex(BASE), "image", *names, "o0")
    ends(9, f"limit {MOST_OBJECTS}\n", "ask", *names, "o0", "--", "units")


def many_statements():
    """A source of 70,000 lines with more statements and entries than 16 bits count, linked, listed, and assembled again."""
    count = 70_000
    source, entries, text = ['.stabs "big.c",100,0,0,0'], [(N_SO, 0, 0, b"big.c")], b""
    for at in range(count):
        if at % 2:
            source += [f'.stabs "v{at}:(0,{at})",128,0,0,{at}']
            entries += [(N_LSYM, 0, at, f"v{at}:(0,{at})".encode())]
        else:
            source += [f".long {at},{at + 1}; .stabn 68,0,{at % 65536},{4 * at}".replace("; ", "\n")]
            entries += [(N_SLINE, at % 65536, 4 * at, b"")]
    text = b"".join(struct.pack("<I", at) for at in range(count))
    write("big.s", "\n".join(source) + "\n")
    ends(0, "", "as", "little", "big.s", "big.o")
    holds("big.o", object_file(entries, text))
    ends(0, f"ranges 0 kept 0 entries {count + 1}\n", "link", "keep", hex(BASE), "image", "big.o")
    # the value of a variable on the stack stays, the others are addresses of text
    placed = [(kind, desc, value + BASE * (kind != N_LSYM), name) for kind, desc, value, name in entries]
    holds("image", object_file(placed, text, BASE))
    last = count - 2
    ends(0, f"big.c {last % 65536} {BASE + 4 * last:08x}\n", "query", "image", "line", hex(BASE + 4 * last + 7))
    ends(0, listing(placed, text, BASE), "list", "image")
    write("again.s", listing(placed, text, BASE))
    ends(0, "", "as", "little", "again.s", "again.o")
    holds("again.o", object_file(placed, text, BASE))


def many_ranges():
    """5,000 headers in each of two units, in the other order in the second: each is kept once."""
    count = 5_000
    for unit, order in (("a", range(count)), ("b", reversed(range(count)))):
        source = [f'.stabs "{unit}.c",100,0,0,0']
        for file, at in enumerate(order, 1):
            source += [f'.stabs "h{at}.h",130,0,0,0', f'.stabs "t{at}:t({file},1)=r({file},1);0;{at};",128,0,0,0', ".stabn 162,0,0,0"]
        write(f"{unit}.s", "\n".join(source) + "\n")
        ends(0, "", "as", "little", f"{unit}.s", f"{unit}.o")
    whole, excluded = 1 + 3 * count, 1 + count
    ends(0, f"ranges {2 * count} kept {2 * count} entries {2 * whole}\n", "link", "keep", "0x0", "kept", "a.o", "b.o")
    ends(0, f"ranges {2 * count} kept {count} entries {whole + excluded}\n", "link", "merge", "0x0", "merged", "a.o", "b.o")
    ends(0, f"units 2 headers {2 * count} excluded {count} symbols {2 * count}\n", "check", "merged")
    ends(0, "0 b.c\n" + "".join(f"{count - at} h{at}.h\n" for at in reversed(range(count))), "query", "merged", "files", "1")
    for at in (0, 4_095, 4_096, count - 1):
        ends(0, f"1\n0 t t{at} r#0;0;{at};\n", "query", "merged", "type", "1", f"t{at}")


def many_keys():
    """A listing of 70,000 types, of which each is a pointer to the next and the last to the first."""
    count = 70_000
    names = [f"t{at}:t(0,{at})=*(0,{at % count + 1})".encode() for at in range(1, count + 1)]
    write("chain.o", object_file([(N_SO, 0, 0, b"c.c"), *[(N_LSYM, 0, 0, name) for name in names]]))
    lines = "".join(f"{at} t t{at + 1} *#{(at + 1) % count}\n" for at in range(count))
    ends(0, f"{count}\n{lines}", "query", "chain.o", "type", "0", "t1")


def many_words():
    """2,000 words, of which the last counts, and a word of 100,000 bytes."""
    ends(2, "usage: word 2\n", "dump", *["a.o"] * 1_999)
    ends(2, "usage: word 2000\n", "ask", *["a.o"] * 1_998, "--", "lost")
    ends(2, "usage: word 2001\n", "ask", *["a.o"] * 1_998, "--", "units", "lost")
    name = "n" * 100_000
    write("long.o", object_file([(N_SO, 0, 0, b"c.c"), (N_LSYM, 0, 0, f"{name}:T(0,1)=s4;".encode())]))
    ends(0, f"1\n0 T {name} s4;\n", "query", "long.o", "tag", "0", name)
    ends(0, "none\n", "query", "long.o", "tag", "0", name[1:])


def inputs_at_their_limits():
    """A source, an object that is linked, a file and all inputs of a run, each at its limit and above."""
    write("most.s", b"#" * (SOURCE_LIMIT - 1) + b"\n")
    ends(0, "", "as", "little", "most.s", "most.o")
    holds("most.o", object_file([]))
    write("more.s", b"#" * SOURCE_LIMIT + b"\n")
    ends(9, f"limit {SOURCE_LIMIT}\n", "as", "little", "more.s", "more.o")
    # a header, text and the length of an empty table
    text = bytes(SOURCE_LIMIT - 36)
    write("most.o", object_file([], text))
    write("more.o", object_file([], text + b"\0"))
    ends(0, "ranges 0 kept 0 entries 0\n", "link", "keep", "0x0", "image", "most.o")
    holds("image", object_file([], text))
    for name in ("more.o", "most.o"):
        status, line = (9, f"limit {SOURCE_LIMIT}\n") if name == "more.o" else (0, "ranges 0 kept 0 entries 0\nnone\n")
        ends(status, line, "ask", name, "--", "line", "0x0")
    ends(9, f"limit {SOURCE_LIMIT}\n", "link", "keep", "0x0", "image", "more.o")
    for size, status, line in ((FILE_LIMIT, 3, "refused zeros 1 0 0\n"), (FILE_LIMIT + 1, 9, f"limit {FILE_LIMIT}\n")):
        write("zeros", b"")
        os.truncate("zeros", size)
        for command in (["query", "zeros", "units"], ["check", "zeros"], ["dump", "zeros"], ["list", "zeros"]):
            ends(status, line, *command)
    os.truncate("zeros", SOURCE_LIMIT)
    most = FILE_LIMIT // SOURCE_LIMIT
    ends(3, "refused zeros 1 0 0\n", "link", "keep", "0x0", "image", *["zeros"] * most)
    write("byte", b"\0")
    ends(9, f"limit {FILE_LIMIT}\n", "link", "keep", "0x0", "image", *["zeros"] * most, "byte")
    ends(9, f"limit {FILE_LIMIT}\n", "ask", *["zeros"] * (most + 1), "--", "units")


def images_at_their_limit():
    """An object of a megabyte whose entries share the bytes of one long name: each is a name of its own in the image, so that 200 are too
    much, and as many as make an image of just 134,217,728 bytes are not."""
    length = 1_000_000
    table = struct.pack("<I", 4 + length + 1) + b"n" * length + b"\0"

    def shared(lengths):
        """An object with an entry for the last bytes of the name, as many as each of these numbers says, and the size of its image."""
        entries = [(N_ABS, 0, 0, it) for it in lengths]
        return packed(entries, b"", table, {it: 4 + length - it for it in lengths}), 36 + sum(12 + it + 1 for it in lengths)

    write("shared.o", shared(range(length - 200, length))[0])
    ends(9, f"limit {FILE_LIMIT}\n", "link", "keep", "0x0", "image", "shared.o")
    full = [*range(length - 134, length)]
    last = FILE_LIMIT - shared(full)[1] - 13
    assert 0 < last < full[0]
    for more in (0, 1):
        data, size = shared([*full, last + more])
        assert size == FILE_LIMIT + more
        write("shared.o", data)
        ends(*((9, f"limit {FILE_LIMIT}\n") if more else (0, "ranges 0 kept 0 entries 135\n")), "link", "keep", "0x0", f"image{more}", "shared.o")
    if not os.path.exists("image0") or os.path.getsize("image0") != FILE_LIMIT or os.path.exists("image1"):
        global failed
        failed = True
        print(f"an image of {FILE_LIMIT} bytes is not stored, or one of a byte more is", file=sys.stderr)


def main():
    for check in (many_objects, many_statements, many_ranges, many_keys, many_words, inputs_at_their_limits, images_at_their_limit):
        with tempfile.TemporaryDirectory() as folder:
            os.chdir(folder)
            check()
            os.chdir("/")
    return 1 if failed else 0


if __name__ == "__main__":
    sys.exit(main())
