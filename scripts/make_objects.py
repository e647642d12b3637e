#!/usr/bin/env python3
"""Writes the objects of the README into a folder: a.o, and its big-endian twin a_big.o.

Usage: scripts/make_objects.py crates/stabs_tool/data

The entries are those that a compiler wrote for a source a.c in /w/ with two headers, after the examples of "The stabs debug
format": a function with a parameter, two lines and a block, and a variable that is a common. Text is two words, of which the
second is the address of the undefined name _f.
"""
import struct
import sys

N_UNDF_EXT, N_TEXT_EXT = 0x01, 0x05
N_GSYM, N_FUN, N_OPT, N_SLINE, N_SO, N_LSYM = 0x20, 0x24, 0x3C, 0x44, 0x64, 0x80
N_BINCL, N_PSYM, N_EINCL, N_LBRAC, N_RBRAC = 0x82, 0xA0, 0xA2, 0xC0, 0xE0

TEXT = bytes(8)

# kind, desc, value, name
ENTRIES = [
    (N_SO, 0, 0, b"/w/"),
    (N_SO, 0, 0, b"a.c"),
    (N_OPT, 0, 0, b"gcc2_compiled."),
    (N_LSYM, 0, 0, b"int:t(0,1)=r(0,1);-2147483648;2147483647;"),
    (N_BINCL, 0, 0, b"stdio.h"),
    (N_LSYM, 0, 0, b"size_t:t(1,1)=(0,1)"),
    (N_EINCL, 0, 0, b""),
    (N_BINCL, 0, 0, b"list.h"),
    (N_LSYM, 0, 0, b"list:T(2,1)=s8val:(0,1),0,32;next:(2,2)=*(2,1),32,32;;"),
    (N_EINCL, 0, 0, b""),
    (N_TEXT_EXT, 0, 0, b"_main"),
    (N_FUN, 3, 0, b"main:F(0,1)"),
    (N_PSYM, 0, 8, b"argc:p(0,1)"),
    (N_SLINE, 4, 0, b""),
    (N_SLINE, 5, 4, b""),
    (N_LSYM, 0, 0xFFFFFFFC, b"head:(0,2)=*(2,1)"),
    (N_LBRAC, 0, 0, b""),
    (N_RBRAC, 0, 8, b""),
    (N_UNDF_EXT, 0, 4, b"_total"),
    (N_GSYM, 0, 0, b"total:G(0,1)"),
    (N_SO, 0, 8, b""),
    (N_UNDF_EXT, 0, 0, b"_f"),
]

# the address of a field of four bytes, and the number of the external entry whose value it takes
RELOCATION = (4, len(ENTRIES) - 1)


def relocation(order, address, symbol):
    """A relocation of four bytes to an external entry: the flags stand at other bits in each order."""
    if order == ">":
        return struct.pack(">II", address, symbol << 8 | 0x50)
    return struct.pack("<II", address, 0x0C << 24 | symbol)


def string_table(order, names):
    """The table in which each name that is not empty stands once, and the offset of each name."""
    table, offsets = b"", {b"": 0}
    for name in names:
        if name not in offsets:
            offsets[name] = 4 + len(table)
            table += name + b"\0"
    return struct.pack(order + "I", 4 + len(table)) + table, offsets


def object_file(order):
    table, offsets = string_table(order, [name for _, _, _, name in ENTRIES])
    entries = b"".join(struct.pack(order + "IBBHI", offsets[name], kind, 0, desc, value) for kind, desc, value, name in ENTRIES)
    relocations = relocation(order, *RELOCATION)
    header = struct.pack(order + "8I", 0x0107, len(TEXT), 0, 0, len(entries), 0, len(relocations), 0)
    return header + TEXT + relocations + entries + table


def main():
    folder = sys.argv[1]
    for name, order in (("a.o", "<"), ("a_big.o", ">")):
        with open(f"{folder}/{name}", "wb") as out:
            out.write(object_file(order))


if __name__ == "__main__":
    main()
