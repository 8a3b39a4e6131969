/* A plain walker of H.261 pictures, the yardstick of parse.sh: walker ROUNDS < framed pictures

   It reads what parse.rattle reads, makes the same checks as h261_pic::parse, writes the same strict text and
   marks, and prints the same line. One look at a table tells a symbol. Eight octets can be read behind any bit.

   scanner.c takes it with WRITES 0: the same checks, with no text and no marks. */
#include "input.h"

#ifndef WRITES
#define WRITES 1
#endif

enum { PAIR, ESCAPE, END };
struct mba_cell { uint8_t len, step; };
struct mtype_cell { uint8_t len, intra, quant, vector, cbp; };
struct mvd_cell { int8_t len, first, second; };
struct cbp_cell { uint8_t len, blocks; };
struct tcoeff_cell { uint8_t len, run, kind; };
#include "codes.h"

struct mark {
    uint32_t at, len;
    uint8_t group, address, quant;
    int8_t h, v;
    uint8_t intra;
};

struct picture {
    uint32_t len, marks;
    uint8_t octets[262144 / 8 + 16];
    struct mark mark[396];
};

struct reader {
    const uint8_t *octets;
    uint32_t place, end;
};

static inline uint64_t load(const uint8_t *from) {
    uint64_t word;
    memcpy(&word, from, 8);
    return __builtin_bswap64(word);
}

static inline void store(uint8_t *to, uint64_t word) {
    word = __builtin_bswap64(word);
    memcpy(to, &word, 8);
}

/* the `width` bits from a place on, 1 to 56 */
static inline uint64_t bits_at(const uint8_t *octets, uint32_t place, unsigned width) {
    return (load(octets + (place >> 3)) << (place & 7)) >> (64 - width);
}

/* the next `width` bits, 1 to 32; those behind the end are any */
static inline uint32_t peek(const struct reader *r, unsigned width) {
    return (uint32_t)bits_at(r->octets, r->place, width);
}

static inline uint32_t left(const struct reader *r) {
    return r->end - r->place;
}

/* moves past a word, and answers whether it ends within the bits; length 0 is no word */
static inline int pass(struct reader *r, unsigned len) {
    if (len == 0 || left(r) < len)
        return 0;
    r->place += len;
    return 1;
}

/* writes the last `width` bits of a value, 1 to 56, and zeros behind them */
static inline void put(struct picture *into, uint64_t value, unsigned width) {
    if (!WRITES)
        return;
    uint8_t *to = into->octets + (into->len >> 3);
    unsigned used = into->len & 7;
    uint64_t kept = used ? (uint64_t)(*to >> (8 - used)) << (64 - used) : 0;
    store(to, kept | value << (64 - width - used));
    into->len += width;
}

/* copies a run of bits, and writes zeros behind it */
static void copy(struct picture *into, const uint8_t *from, uint32_t at, uint32_t count) {
    if (!WRITES)
        return;
    while (count > 0) {
        unsigned width = count < 56 ? count : 56;
        put(into, bits_at(from, at, width), width);
        at += width;
        count -= width;
    }
}

static void put_group(struct picture *into, uint32_t number, uint32_t quant) {
    put(into, 1 << 10 | number << 6 | quant << 1, 26);
}

static int spares(struct reader *r) {
    for (;;) {
        if (left(r) < 1)
            return 0;
        if (peek(r, 1) == 0) {
            r->place += 1;
            return 1;
        }
        if (!pass(r, 9))
            return 0;
    }
}

static int block(struct reader *r, int intra) {
    const struct tcoeff_cell *table = first_table;
    uint32_t filled = 0;
    if (intra) {
        uint32_t dc = peek(r, 8);
        if (dc == 0 || dc == 128 || !pass(r, 8))
            return 0;
        filled = 1;
        table = later_table;
    }
    for (;;) {
        uint32_t top = peek(r, 20);
        struct tcoeff_cell cell = table[top >> 6];
        if (!pass(r, cell.len))
            return 0;
        if (cell.kind == PAIR) {
            filled += cell.run + 1;
        } else if (cell.kind == END) {
            return 1;
        } else {
            if ((top & 127) == 0)
                return 0;
            filled += (top >> 8 & 63) + 1;
        }
        if (filled > 64)
            return 0;
        table = later_table;
    }
}

static int component(struct reader *r, int *value, int near, int first, int side) {
    struct mvd_cell cell = mvd_table[peek(r, 11)];
    int found = near + cell.first;
    if (!pass(r, cell.len))
        return 0;
    if (found < -15 || found > 15)
        found = near + cell.second;
    if (found < -15 || found > 15 || first + found < 0 || first + found + 16 > side)
        return 0;
    *value = found;
    return 1;
}

struct state {
    int address, quant, h, v;
};

/* a macroblock, whose MBA was taken; `at` is its first bit */
static int macroblock(struct reader *r, int is_cif, int group, int step, uint32_t at, struct state *s, struct mark *mark) {
    int address = s->address + step, h = 0, v = 0, blocks = 0;
    if (address > 33)
        return 0;
    struct mtype_cell kind = mtype_table[peek(r, 10)];
    if (!pass(r, kind.len))
        return 0;
    if (kind.quant) {
        s->quant = peek(r, 5);
        if (s->quant == 0 || !pass(r, 5))
            return 0;
    }
    if (kind.vector) {
        int anew = step != 1 || address == 1 || address == 12 || address == 23;
        int x = 176 * ((group - 1) % 2) + 16 * ((address - 1) % 11);
        int y = 48 * ((group - 1) / 2) + 16 * ((address - 1) / 11);
        if (!component(r, &h, anew ? 0 : s->h, x, is_cif ? 352 : 176) ||
            !component(r, &v, anew ? 0 : s->v, y, is_cif ? 288 : 144))
            return 0;
    }
    if (kind.intra)
        blocks = 6;
    if (kind.cbp) {
        struct cbp_cell cell = cbp_table[peek(r, 9)];
        if (!pass(r, cell.len))
            return 0;
        blocks = cell.blocks;
    }
    for (int i = 0; i < blocks; i++)
        if (!block(r, kind.intra))
            return 0;
    s->address = address;
    s->h = h;
    s->v = v;
    if (WRITES)
        *mark = (struct mark){at, r->place - at, group, address, s->quant, h, v, kind.intra};
    return 1;
}

static uint32_t last_end(int is_cif, int begun) {
    return (is_cif ? 262144 : 65536) - 26 * ((is_cif ? 12 : 3) - begun);
}

/* at most 7 bits are left, and all are 0 */
static int is_end(const struct reader *r) {
    return left(r) < 8 && (left(r) == 0 || peek(r, left(r)) == 0);
}

static int number_at(int is_cif, int place) {
    return is_cif ? place + 1 : 2 * place + 1;
}

/* a group behind its start code, and what follows it: 1 another group, 0 the end, -1 a fault */
static int read_group(struct reader *r, int is_cif, int *place, int begun, struct picture *into) {
    uint32_t end = last_end(is_cif, begun);
    if (left(r) < 9)
        return -1;
    int number = peek(r, 4), quant = peek(r, 9) & 31;
    if (number < 1 || number > (is_cif ? 12 : 5) || (!is_cif && number % 2 == 0) || quant == 0)
        return -1;
    r->place += 9;
    if (*place > 0 && number <= number_at(is_cif, *place - 1))
        return -1;
    if (!spares(r) || r->place > end)
        return -1;
    while (number_at(is_cif, *place) < number)
        put_group(into, number_at(is_cif, (*place)++), 1);
    put_group(into, number, quant);
    *place += 1;
    struct state state = {0, quant, 0, 0};
    /* macroblocks that stand one behind another are copied as one run */
    uint32_t from = r->place, count = 0;
    int follows;
    for (;;) {
        uint32_t at = r->place;
        if (is_end(r)) {
            follows = 0;
            break;
        }
        uint32_t top = peek(r, 16);
        struct mba_cell cell = mba_table[top >> 5];
        if (cell.len == 0) {
            if (top != 1 || !pass(r, 16) || r->place > last_end(is_cif, begun + 1))
                return -1;
            follows = 1;
            break;
        }
        if (!pass(r, cell.len) || r->place > end)
            return -1;
        if (cell.step == 0)
            continue;
        struct mark *mark = &into->mark[into->marks];
        if (!macroblock(r, is_cif, number, cell.step, at, &state, mark) || r->place > end)
            return -1;
        if (WRITES && mark->at != from + count) {
            copy(into, r->octets, from, count);
            from = mark->at;
            count = 0;
        }
        if (WRITES) {
            mark->at = into->len + count;
            count += mark->len;
        }
        into->marks += 1;
    }
    copy(into, r->octets, from, count);
    return follows;
}

static int group_follows(struct reader *r, int is_cif) {
    if (is_end(r))
        return 0;
    return peek(r, 16) == 1 && pass(r, 16) && r->place <= last_end(is_cif, 1) ? 1 : -1;
}

static int parse_picture(struct reader *r, int is_cif, struct picture *into) {
    into->len = 0;
    into->marks = 0;
    if (left(r) < 31 || peek(r, 20) != 16)
        return 0;
    r->place += 20;
    uint32_t tr = peek(r, 5), type = peek(r, 11) & 63;
    r->place += 11;
    if ((int)(type >> 2 & 1) != is_cif || (type & 2) == 0)
        return 0;
    if (!spares(r) || r->place > last_end(is_cif, 0))
        return 0;
    put(into, 16 << 12 | tr << 7 | (is_cif ? 7 : 3) << 1, 32);
    int place = 0, begun = 0;
    int follows = group_follows(r, is_cif);
    while (follows == 1)
        follows = read_group(r, is_cif, &place, ++begun, into);
    while (place < (is_cif ? 12 : 3))
        put_group(into, number_at(is_cif, place++), 1);
    return follows == 0;
}

static int parse(const uint8_t *octets, uint32_t bits, int is_cif, struct picture *into) {
    struct reader r = {octets, 0, bits};
    if (parse_picture(&r, is_cif, into))
        return 1;
    into->len = 0;
    into->marks = 0;
    return 0;
}

#if WRITES
static uint32_t mixed(uint32_t digest, uint32_t word) {
    return (digest ^ word) * 0x01000193;
}

/* FNV-1a, over the octets of the strict text and the fields of the marks */
static uint32_t digest_of(uint32_t digest, const struct picture *p) {
    for (uint32_t i = 0; i < (p->len + 7) / 8; i++)
        digest = mixed(digest, p->octets[i]);
    for (uint32_t i = 0; i < p->marks; i++) {
        const struct mark *m = &p->mark[i];
        digest = mixed(mixed(digest, m->at), m->len);
        digest = mixed(mixed(digest, m->group), m->address);
        digest = mixed(digest, m->quant);
        digest = mixed(mixed(digest, (uint8_t)m->h), (uint8_t)m->v);
        digest = mixed(digest, m->intra);
    }
    return digest;
}

int main(int count, char **words) {
    static struct picture qcif, cif;
    unsigned rounds = count > 1 ? (unsigned)atoi(words[1]) : 1;
    struct input input = read_input();
    if (!input.octets)
        return 1;
    uint64_t accepted = 0, macroblocks = 0, bits = 0;
    uint32_t digest = 0x811c9dc5;
    for (unsigned round = 0; round < rounds; round++) {
        size_t at = 0;
        struct frame frame;
        while (next_frame(&input, &at, &frame)) {
            struct picture *into = frame.is_cif ? &cif : &qcif;
            accepted += parse(frame.octets, frame.bits, frame.is_cif, into);
            macroblocks += into->marks;
            bits += into->len;
            if (round == 0)
                digest = digest_of(digest, into);
        }
    }
    printf("accepted %llu macroblocks %llu bits %llu digest %u\n", (unsigned long long)accepted,
           (unsigned long long)macroblocks, (unsigned long long)bits, digest);
    return 0;
}
#endif
