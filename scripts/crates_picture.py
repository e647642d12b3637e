#!/usr/bin/env python3
"""Prints the picture of the crates from crates.txt: the layers from the bottom up, and under each its crates with what they stand on.

A layer begins with a comment line `# LAYER: what it has`. Of what a crate stands on only those crates are shown that no other of them
stands on, and those of the toolchain are left out.

Usage: scripts/crates_picture.py            prints the picture
       scripts/crates_picture.py --write    puts it between the two marks in docs/ARCHITECTURE.md
       scripts/crates_picture.py --check    reports where that is another picture, where a crate stands on one of a later layer, and where
                                            crates/README.md does not have one line for each crate, under the heading of its layer
"""
import os
import re
import sys

TOP = os.path.dirname(os.path.dirname(os.path.realpath(__file__)))
DOCUMENT, LIST = "docs/ARCHITECTURE.md", "crates/README.md"
MARKS = re.compile(r"(?<=^<!-- crates_picture: begin -->\n)(.*?)(?=^<!-- crates_picture: end -->$)", re.M | re.S)
failed = False


def complain(text):
    global failed
    failed = True
    print(text, file=sys.stderr)


def text_of(path):
    with open(f"{TOP}/{path}", encoding="utf-8") as it:
        return it.read()


def read_crates():
    """The layers with what they have, in order; the layer of each crate, in order; and what each crate stands on."""
    layers, layer_of, below = {}, {}, {}
    for line in text_of("crates.txt").splitlines():
        heading = re.match(r"# (\w+): (.*)", line)
        crate = re.match(r"(\w+)[^#:]*:([^#]*)", line)
        if heading:
            layers[heading[1]] = heading[2]
        elif crate:
            layer_of[crate[1]] = [*layers][-1]
            below[crate[1]] = crate[2].split()
    return layers, layer_of, {crate: [it for it in names if it in layer_of] for crate, names in below.items()}


def all_below(below, crate):
    found = set(below[crate])
    for it in below[crate]:
        found |= all_below(below, it)
    return found


def nearest(below, crate):
    """Those that the crate stands on and no other of them does, in order."""
    further = set().union(*(all_below(below, it) for it in below[crate]), set())
    return [it for it in below[crate] if it not in further]


def picture(layers, layer_of, below):
    width = max(map(len, layer_of)) + 2
    lines = []
    for layer, has in layers.items():
        lines += [f"{layer}: {has}"]
        lines += [f"    {it:{width}}{' '.join(nearest(below, it))}".rstrip() for it in layer_of if layer_of[it] == layer]
    return "\n".join(["```text", *lines, "```", ""])


def check_layers(layers, layer_of, below):
    order = [*layers]
    for crate, names in below.items():
        for it in names:
            if order.index(layer_of[it]) > order.index(layer_of[crate]):
                complain(f"crates.txt: {crate} ({layer_of[crate]}) stands on {it} of a later layer, {layer_of[it]}")


def check_list(layers, layer_of):
    if not os.path.exists(f"{TOP}/{LIST}"):
        return complain(f"{LIST} is missing")
    layer, headings, lines = "", [], []
    for line in text_of(LIST).splitlines():
        if line.startswith("## "):
            layer = line[3:].strip()
            headings.append(layer)
        crate = re.match(r"- `(\w+)`", line)
        if crate:
            lines.append((crate[1], layer))
    if headings != [*layers]:
        complain(f"{LIST}: the headings are not {', '.join(layers)}")
    for crate, of in layer_of.items():
        if lines.count((crate, of)) != 1:
            complain(f"{LIST}: {crate} has {lines.count((crate, of))} lines under ## {of}, not one")
    for crate, of in lines:
        if layer_of.get(crate) != of:
            complain(f"{LIST}: {crate} does not belong under ## {of}")


def main():
    crates = read_crates()
    wanted = picture(*crates)
    if sys.argv[1:] == []:
        print(wanted, end="")
        return 0
    text = text_of(DOCUMENT)
    found = MARKS.findall(text)
    if len(found) != 1:
        complain(f"{DOCUMENT}: the two marks of the picture do not stand there once")
    elif sys.argv[1] == "--write":
        with open(f"{TOP}/{DOCUMENT}", "w", encoding="utf-8") as it:
            it.write(MARKS.sub(lambda _: wanted, text))
    elif found != [wanted]:
        complain(f"{DOCUMENT}: another picture than scripts/crates_picture.py prints: run it with --write")
    if sys.argv[1] == "--check":
        check_layers(*crates)
        check_list(*crates[:2])
    return 1 if failed else 0


if __name__ == "__main__":
    sys.exit(main())
