"""Writes crates/h261_mb/src/direct.rt: the words of a macroblock's header by the first bits of what is left, as many as the
longest word of each list has. The check of h261_mb computes every cell from the code tables and trusts nothing of this script."""
import codes


def cells_of(words):
    """By so many bits: 16 times the index of the word in the list, and its length; 0 where no word begins."""
    width = max(map(len, words))
    return [0 if at is None else at for at in codes.spread({word: 16 * k + len(word) for k, word in enumerate(words)}, width)]


def main():
    print("//! The words of a macroblock's header by the first bits of what is left (H.261, 4.2.3), as many as the longest word of each")
    print("//! list has. The file is written by bench/direct.py; the check computes every cell from the code tables.")
    print("#![tactic(auto)]\n")
    print("// At each place 16 times where the word stands in its list, from 0, and its length in bits; 0 where no word begins.\n")
    lists = {"MBA": [*codes.MBA, codes.STUFFING], "MTYPE": codes.MTYPE, "MVD": codes.MVD, "CBP": codes.CBP}
    for name, words in lists.items():
        cells = cells_of(list(words))
        print(f"pub static {name}: [u16; {len(cells)}] = [{', '.join(map(str, cells))}];\n")


if __name__ == "__main__":
    main()
