#!/usr/bin/env python3
"""Checks the order of the crates, and ends with status 1 where it fails: crates.txt goes a layer at a time, each crate
behind what it stands on; the tables of docs/CLAIMS.md and docs/MAP.md have the crates in the order of crates.txt, and MAP's list
has the layers; no chain of crates is longer than eight; and each crate names what crates.txt lists for it.

order.py --layers prints the layers, as docs/MAP.md has them."""
import pathlib
import re
import sys

TOP = pathlib.Path(__file__).resolve().parent.parent

# The longest chain of crates, each of which stands on the next.
LONGEST = 8


def listed():
    """The crates of crates.txt in their order, each with what it stands on, and the kit's crates among these."""
    crates = {}
    for line in (TOP / "crates.txt").read_text().splitlines():
        head, colon, tail = line.partition("#")[0].partition(":")
        if colon:
            crates[head.split()[0]] = tail.split()
    return crates


def layer_of(crates):
    """The layer of each crate, from 0 on: one more than the highest that it stands on. A crate that stands on itself,
    or on a crate of a later line, ends the check."""
    layers = {}
    for name, below in crates.items():
        late = [low for low in below if low in crates and low not in layers]
        if late:
            sys.exit(f"crates.txt: {name} comes before {' '.join(late)}")
        layers[name] = 1 + max((layers[low] for low in below if low in crates), default=-1)
    return layers


def lines_of(layers):
    """The crates of each layer, a line each."""
    count = 1 + max(layers.values())
    return ["   ".join(name for name in layers if layers[name] == n) for n in range(count)]


def table(document, crates):
    """The crates in the first column of a document's table of crates, in their order."""
    rows = re.findall(r"^\| `(\w+)` \|", (TOP / document).read_text(), re.M)
    return [name for name in rows if name in crates]


def is_named(crate, low):
    """Whether a file of the crate's code, definitions or proofs names what it is to stand on."""
    word = re.compile(rf"(?<!\w){low}(?!\w)")
    folder = TOP / "crates" / crate
    return any(
        word.search(file.read_text())
        for part, ending in (("src", "*.rt"), ("specs", "*.antt"), ("proofs", "*.antt"))
        for file in sorted((folder / part).rglob(ending))
    )


def faults(crates, layers):
    """What is out of order, a line each."""
    order = list(crates)
    for former, name in zip(order, order[1:]):
        if layers[name] < layers[former]:
            yield f"crates.txt: {name} of layer {layers[name] + 1} comes behind {former} of layer {layers[former] + 1}"
    if max(layers.values()) >= LONGEST:
        yield f"crates.txt: a chain of {max(layers.values()) + 1} crates, and at most {LONGEST} are wanted"
    for document in ("docs/CLAIMS.md", "docs/MAP.md"):
        rows = table(document, crates)
        for name in order:
            if rows.count(name) != 1:
                yield f"{document}: {rows.count(name)} rows of {name}"
        if sorted(rows) == sorted(order) and rows != order:
            first = next(name for name, wanted in zip(rows, order) if name != wanted)
            yield f"{document}: the rows are not in the order of crates.txt, {first} first"
    text = (TOP / "docs/MAP.md").read_text()
    for number, line in enumerate(lines_of(layers), 1):
        if f"\n    {line}\n" not in text:
            yield f"docs/MAP.md: layer {number} is '{line}'"
    for name in order:
        if not (TOP / "crates" / name / "src").is_dir():
            yield f"crates.txt: there is no crate {name}"
        for low in crates[name]:
            if not is_named(name, low):
                yield f"crates.txt: {name} never names {low}"


def main():
    crates = listed()
    layers = layer_of(crates)
    if sys.argv[1:] == ["--layers"]:
        print("\n".join(f"    {line}" for line in lines_of(layers)))
        return
    found = list(faults(crates, layers))
    print("\n".join(found) if found else f"the order of {len(crates)} crates holds")
    sys.exit(1 if found else 0)


main()
