"""Writes what is computed of the machine that passes the blocks of a macroblock octet by octet: with `cells`,
crates/h261_block/src/cells.rt; with `steps`, the lists of crates/h261_block/specs/Steps.antt. The check of h261_block computes
each of them from the definitions and trusts nothing of this script."""
import sys

import codes

# what is pending of a word, by a name: First, Code and its bits, Sign, Run and how many of its bits are left, Top, Level, how
# many of its last seven bits are left and whether one before was 1, Faulty; and of INTRADC all of it, or the same as of a level
CODES = {digits: run for digits, (run, _level) in codes.TCOEFF.items()}
CODES[codes.LATER_ONE] = 0
FRONTS = {word[:n] for word in [*CODES, codes.ESCAPE, codes.END_OF_BLOCK] for n in range(len(word))}
FAULT = 127


def bit_step(pending, bit):
    """What is pending behind a bit, how many coefficients it adds, and whether it ends the block."""
    kind, *rest = pending
    if kind == "First":
        return (("Sign",), 1, False) if bit else (("Code", "0"), 0, False)
    if kind == "Code":
        word = rest[0] + str(bit)
        if word == codes.END_OF_BLOCK:
            return ("First",), 0, True
        if word == codes.ESCAPE:
            return ("Run", 6), 0, False
        if word in CODES:
            return ("Sign",), CODES[word] + 1, False
        if word in FRONTS:
            return ("Code", word), 0, False
    if kind == "Sign":
        return ("Code", ""), 0, False
    if kind == "Run":
        left = rest[0] - 1
        return (("Run", left), bit << left, False) if left else (("Top",), bit + 1, False)
    if kind in ("Top", "Dc"):
        return ("Level" if kind == "Top" else "DcRest", 7, False), 0, False
    if kind in ("Level", "DcRest"):
        left, some = rest[0] - 1, rest[1] or bit == 1
        if left:
            return (kind, left, some), 0, False
        if some:
            return ("Code", ""), int(kind == "DcRest"), False
    return ("Faulty",), 0 if kind == "Faulty" else FAULT, False


def reached(found):
    """All that can be pending from some on, those first."""
    for pending in found:
        for bit in range(2):
            behind = bit_step(pending, bit)[0]
            if behind not in found:
                found.append(behind)
    return found


WITHOUT_DC = reached([("First",), ("Code", "")])
STATES = reached([*WITHOUT_DC, ("Dc",)])
NUMBER = {pending: k for k, pending in enumerate(STATES)}


def pass_bits(pending, bits):
    """The state behind some bits, the coefficients in them up to the block's end, and the bits up to this end, or 0."""
    filled = 0
    for place, bit in enumerate(bits):
        pending, fills, ends = bit_step(pending, bit)
        filled += fills
        if ends:
            return 0, filled, place + 1
    return NUMBER[pending], filled, 0


def cell(start, pending, octet):
    """The next state and the number that holds what an octet passes."""
    bits = [octet >> (7 - place) & 1 for place in range(8)]
    state, before, first = pass_bits(pending, bits)
    if not first:
        return state, before
    state, behind, second = pass_bits(start, bits[first:])
    if not second:
        return state, before + (behind << 8) + (1 << 16) + (first << 20)
    assert behind <= 64
    state, behind, third = pass_bits(start, bits[first + second:])
    assert not third
    return state, before + (behind << 8) + (2 << 16) + (first << 20) + (first + second << 24)


def term(pending):
    kind, *rest = pending
    if kind == "Code":
        return "Code (" + "".join(("true" if d == "1" else "false") + " ∷ " for d in rest[0]) + "[])"
    return " ".join([kind, *(str(r).lower() for r in rest)])


def write_steps():
    print("abbrev pub pendings : List Pending\npendings =")
    print("    " + "\n    ∷ ".join([*map(term, WITHOUT_DC), "[]"]))
    steps = [bit_step(p, b) for p in STATES for b in range(2)]
    print("\nabbrev pub steps : List (ℕ × ℕ × Bool)\nsteps =")
    print("    " + "\n    ∷ ".join([*(f"({NUMBER[p]}, {n}, {str(e).lower()})" for p, n, e in steps), "[]"]))


def write_cells():
    print("//! The machine that passes the blocks of a macroblock octet by octet, for blocks without INTRADC and with it. The file is")
    print("//! written by bench/octets.py; the check computes every cell from the steps of one bit.")
    print("#![tactic(auto)]\n")
    print("/// By state and octet: the next state; and a number that holds the coefficients up to the first end of a block, the zeros")
    print("/// among them, or all where no block ends, more than 64 where they are at fault (8 bits); those behind the last end (8); how")
    print("/// many blocks end (4); and the bits up to the first end and up to the second (4 each).")
    print("pub struct Cells<const N: usize> {\npub next: [u8; N],\npub passed: [u32; N],\n}\n")
    for name, start in ("INTER", ("First",)), ("INTRA", ("Dc",)):
        cells = [cell(start, p, octet) for p in STATES for octet in range(256)]
        print(f"pub static {name}: Cells<{len(cells)}> = Cells {{")
        print("next: [" + ", ".join(str(c[0]) for c in cells) + "],")
        print("passed: [" + ", ".join(str(c[1]) for c in cells) + "],")
        print("};\n")


if __name__ == "__main__":
    {"cells": write_cells, "steps": write_steps}[sys.argv[1]]()
