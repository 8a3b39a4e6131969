"""Writes framed pictures that look like what encoders send: pictures.py FORMAT COUNT SEED DAMAGED [SIZE] > FILE

FORMAT is qcif or cif. With DAMAGED 1 a bit of each picture is turned, or its end is cut off, so that about half of them are at fault.
SIZE is usual, or for QCIF ten_kbit or limit, where nearly each block is coded and the picture has almost the greatest number
of bits. A frame is a word of 32 bits, whose first is 1 for CIF and whose others are the number of the picture's bits, and the
octets of these.
"""
import random
import sys

import codes

MBA = {n: digits for digits, n in codes.MBA.items()}
MTYPE = {kind: digits for digits, kind in codes.MTYPE.items()}
CBP = {n: digits for digits, n in codes.CBP.items()}
TCOEFF = {run_level: digits for digits, run_level in codes.TCOEFF.items()}
MVD = {value: digits for digits, values in codes.MVD.items() for value in values}

# by SIZE: the bits of a picture; the most of its macroblocks that are sent; between what bounds the chance of a further
# coefficient is drawn; and the chances that a block of luminance and one of a colour is coded
SIZES = {
    "usual": ((5_000, 20_000), 0.97, (0.6, 0.9), (0.55, 0.2)),
    "ten_kbit": ((9_000, 11_000), 0.97, (0.6, 0.9), (0.55, 0.2)),
    "limit": ((60_000, 65_536), 1, (0.99, 0.995), (0.97, 0.9)),
}
KINDS = {
    "Inter": 34,
    "McCoded": 20,
    "McFilCoded": 14,
    "Mc": 10,
    "McFil": 6,
    "Intra": 8,
    "InterQuant": 4,
    "McQuant": 2,
    "McFilQuant": 1,
    "IntraQuant": 1,
}


def field(n, width):
    return format(n, f"0{width}b")


def geometric(rng, p):
    n = 0
    while rng.random() < p:
        n += 1
    return n


def coefficient(rng, first, room):
    """A run and a level, of which there is mostly a short code."""
    run = min(geometric(rng, 0.52), room - 1)
    level = 1 + geometric(rng, 0.26 if run < 3 else 0.1)
    negative = rng.random() < 0.5
    if run == 0 and level == 1:
        return run, (codes.FIRST_ONE if first else codes.LATER_ONE) + "01"[negative]
    if (run, level) in TCOEFF:
        return run, TCOEFF[run, level] + "01"[negative]
    level = min(level, 127)
    return run, codes.ESCAPE + field(run, 6) + field((256 - level) if negative else level, 8)


def block(rng, intra, more):
    words = []
    filled = 0
    if intra:
        dc = rng.randint(20, 230)
        words.append(field(dc if dc != 128 else 255, 8))
        filled = 1
        count = geometric(rng, more)
    else:
        count = 1 + geometric(rng, more)
    for _ in range(count):
        if filled == 64:
            break
        run, digits = coefficient(rng, filled == 0, 64 - filled)
        words.append(digits)
        filled += run + 1
    words.append(codes.END_OF_BLOCK)
    return "".join(words)


def component(rng, near, first, side):
    """A component close to its neighbour's, within the picture area."""
    value = near + rng.choice((0, 0, 0, 0, 1, -1, 1, -1, 2, -2, 3, -4, 6))
    return max(-15, -first, min(15, side - 16 - first, value))


def group(rng, is_cif, number, sent, more, coded, quant):
    words = [codes.GROUP_START, field(number, 4), field(quant, 5), "0"]
    width, height = (352, 288) if is_cif else (176, 144)
    last = 0
    vector = (0, 0)
    for address in range(1, 34):
        if rng.random() >= sent:
            continue
        kind = rng.choices(list(KINDS), KINDS.values())[0]
        intra, has_quant, has_vector, has_cbp = codes.HAS[kind]
        words.append(MBA[address - last] + MTYPE[kind])
        if has_quant:
            quant = max(1, min(31, quant + rng.choice((-2, -1, 1, 2))))
            words.append(field(quant, 5))
        if has_vector:
            x = 176 * ((number - 1) % 2) + 16 * ((address - 1) % 11)
            y = 48 * ((number - 1) // 2) + 16 * ((address - 1) // 11)
            new = (component(rng, vector[0], x, width), component(rng, vector[1], y, height))
            if last + 1 != address or address in (1, 12, 23):
                vector = (0, 0)
            words += [MVD[new[0] - vector[0]], MVD[new[1] - vector[1]]]
            vector = new
        else:
            vector = (0, 0)
        count = 6 if intra else 0
        if has_cbp:
            pattern = 0
            while pattern == 0:
                pattern = sum(bit for bit in (32, 16, 8, 4, 2, 1) if rng.random() < coded[bit < 4])
            words.append(CBP[pattern])
            count = pattern.bit_count()
        for _ in range(count):
            words.append(block(rng, intra, more))
        last = address
    return "".join(words)


def picture(rng, is_cif, tr, size):
    count = 396 if is_cif else 99
    (shortest, longest), most, further, coded = SIZES[size]
    while True:
        target = rng.randint(shortest, longest)
        # the more bits a picture has, the more of its macroblocks are sent, and the more coefficients each has
        sent = min(most, target / (count * rng.uniform(60, 160)))
        more = rng.uniform(*further)
        quant = rng.randint(4, 20)
        words = [codes.PICTURE_START, field(tr % 32, 5), "000111" if is_cif else "000011", "0"]
        for number in range(1, 13) if is_cif else (1, 3, 5):
            words.append(group(rng, is_cif, number, sent, more, coded, quant))
        digits = "".join(words)
        if shortest <= len(digits) <= longest:
            return digits


def damaged(rng, digits):
    if rng.random() < 0.2:
        return digits[: rng.randrange(len(digits))]
    at = rng.randrange(len(digits))
    return digits[:at] + "10"[int(digits[at])] + digits[at + 1 :]


def main():
    name, count, seed, turned, size = (*sys.argv[1:], "usual")[:5]
    is_cif = name == "cif"
    rng = random.Random(int(seed))
    for tr in range(int(count)):
        digits = picture(rng, is_cif, tr, size)
        if turned == "1":
            digits = damaged(rng, digits)
        octets = (len(digits) + 7) // 8
        number = int(digits + "0" * (8 * octets - len(digits)) or "0", 2)
        sys.stdout.buffer.write((is_cif << 31 | len(digits)).to_bytes(4, "big") + number.to_bytes(octets, "big"))


if __name__ == "__main__":
    main()
