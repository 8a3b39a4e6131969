/* The yardstick of compose.sh: mover ROUNDS < framed QCIF pictures

   For each four pictures, which stand one behind another in memory, it moves as many octets as the picture composed of
   them has, by one memmove. It prints how many octets it moved in all rounds. */
#include "input.h"

enum { PICTURE_HEADER = 32, LONGEST = 262144 / 8 };

int main(int count, char **words) {
    static uint8_t into[LONGEST];
    unsigned rounds = count > 1 ? (unsigned)atoi(words[1]) : 1;
    struct input input = read_input();
    if (!input.octets)
        return 1;
    uint64_t moved = 0;
    for (unsigned round = 0; round < rounds; round++) {
        size_t at = 0;
        struct frame first, frame;
        while (next_frame(&input, &at, &first)) {
            /* the composed picture has one header in place of four */
            uint32_t bits = first.bits;
            for (int i = 1; i < 4 && next_frame(&input, &at, &frame); i++)
                bits += frame.bits - PICTURE_HEADER;
            size_t octets = (bits + 7) / 8;
            if (octets > LONGEST)
                return 1;
            memmove(into, first.octets, octets);
            /* what was moved counts as read */
            __asm__ volatile("" : : "r"(into) : "memory");
            moved += octets;
        }
    }
    printf("octets %llu\n", (unsigned long long)moved);
    return 0;
}
