/* A plain scanner of H.261 pictures, the yardstick of replay.sh: scanner < framed pictures

   It makes the checks of walker.c, with one look at a table for each symbol, and writes neither text nor marks. Each picture is
   read into the same octets. It prints how many it accepted, and how many macroblocks they have. */
#define WRITES 0
#include "walker.c"

/* eight octets can be read behind the greatest picture */
enum { GREATEST = 262144 / 8 };

int main(void) {
    static uint8_t octets[GREATEST + 8];
    static struct picture none;
    static char buffer[1 << 16];
    uint8_t head[4];
    uint64_t accepted = 0, macroblocks = 0;
    setvbuf(stdin, buffer, _IOFBF, sizeof buffer);
    while (fread(head, 1, 4, stdin) == 4) {
        uint32_t bits = (uint32_t)(head[0] & 127) << 24 | head[1] << 16 | head[2] << 8 | head[3];
        size_t whole = ((size_t)bits + 7) / 8;
        if (whole > GREATEST || fread(octets, 1, whole, stdin) != whole)
            return 1;
        accepted += parse(octets, bits, head[0] >> 7, &none);
        macroblocks += none.marks;
    }
    printf("accepted %llu macroblocks %llu\n", (unsigned long long)accepted, (unsigned long long)macroblocks);
    return 0;
}
