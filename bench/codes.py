"""The code tables of H.261, read from the definitions that the contracts cite. Run, it writes them as C to standard output."""
import pathlib
import re

TEXT = (pathlib.Path(__file__).resolve().parent.parent / "crates/pel_model/specs/Codes.antt").read_text(encoding="utf-8")


def rows_of(name):
    """The rows of a table: a word's digits and the text of what it means."""
    start = TEXT.index(f"\n{name} =\n")
    body = TEXT[start : TEXT.index("∷ []", start)]
    return re.findall(r'\(word \(codes "([01]+)"\), (.*)\)\n', body + "\n")


def word(name):
    return re.search(rf'\n{name} = word \(codes "([01]+)"\)', TEXT).group(1)


def integer(text):
    kind, n = re.fullmatch(r"(pos|negsuc) (\d+)", text).groups()
    return int(n) if kind == "pos" else -1 - int(n)


def pair(text):
    return text.strip("()").split(", ")


MBA = {digits: int(n) for digits, n in rows_of("mba_table")}
MTYPE = {digits: kind for digits, kind in rows_of("mtype_table")}
MVD = {digits: tuple(integer(v) for v in pair(values)) for digits, values in rows_of("mvd_table")}
CBP = {digits: int(n) for digits, n in rows_of("cbp_table")}
TCOEFF = {digits: tuple(int(v) for v in pair(values)) for digits, values in rows_of("tcoeff_table")}
STUFFING = word("stuffing_word")
FIRST_ONE = word("first_one_word")
LATER_ONE = word("later_one_word")
ESCAPE = word("escape_word")
END_OF_BLOCK = word("end_of_block_word")
PICTURE_START = word("picture_start_code")
GROUP_START = word("group_start_code")

# what a kind of macroblock has: intra, a quantiser, a vector, CBP
HAS = {
    kind: (
        kind.startswith("Intra"),
        kind.endswith("Quant"),
        kind.startswith("Mc"),
        not kind.startswith("Intra") and kind not in ("Mc", "McFil"),
    )
    for kind in MTYPE.values()
}

assert (len(MBA), len(MTYPE), len(MVD), len(CBP), len(TCOEFF)) == (33, 10, 32, 63, 62)


def spread(words, width):
    """A table by `width` bits: each word's value at all indices that it begins, None elsewhere."""
    table = [None] * 2**width
    for digits, value in words.items():
        first = int(digits, 2) << (width - len(digits))
        for i in range(first, first + 2 ** (width - len(digits))):
            assert table[i] is None
            table[i] = value
    return table


def as_c(name, kind, table):
    print(f"static const {kind} {name}[{len(table)}] = {{")
    for i in range(0, len(table), 16):
        print("    " + " ".join(f"{cell}," for cell in table[i : i + 16]))
    print("};")


def cells(words, width, text):
    table = spread({digits: text(digits, value) for digits, value in words.items()}, width)
    return [cell or "{0}" for cell in table]


def main():
    mba = dict(MBA)
    mba[STUFFING] = 0
    as_c("mba_table", "struct mba_cell", cells(mba, 11, lambda d, n: f"{{{len(d)},{n}}}"))
    as_c(
        "mtype_table",
        "struct mtype_cell",
        cells(MTYPE, 10, lambda d, kind: "{%d,%d,%d,%d,%d}" % (len(d), *HAS[kind])),
    )
    as_c("mvd_table", "struct mvd_cell", cells(MVD, 11, lambda d, v: f"{{{len(d)},{v[0]},{v[1]}}}"))
    as_c("cbp_table", "struct cbp_cell", cells(CBP, 9, lambda d, n: f"{{{len(d)},{n.bit_count()}}}"))
    # a coefficient's length has its sign; the escape's has its run and level
    coefficients = {digits: (len(digits) + 1, run, "PAIR") for digits, (run, _level) in TCOEFF.items()}
    coefficients[ESCAPE] = (20, 0, "ESCAPE")
    for name, more in (
        ("first_table", {FIRST_ONE: (2, 0, "PAIR")}),
        ("later_table", {LATER_ONE: (3, 0, "PAIR"), END_OF_BLOCK: (2, 0, "END")}),
    ):
        as_c(name, "struct tcoeff_cell", cells(coefficients | more, 14, lambda d, v: "{%d,%d,%s}" % v))


if __name__ == "__main__":
    main()
