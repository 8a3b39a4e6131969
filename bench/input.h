/* What the C programs of bench/ read: framed pictures, as pictures.py writes them. Eight octets can be read behind any bit. */
#include <stdint.h>
#include <stdio.h>
#include <stdlib.h>
#include <string.h>

struct input {
    uint8_t *octets;
    size_t size;
};

/* a picture as it was sent: its bits begin at the first octet */
struct frame {
    const uint8_t *octets;
    uint32_t bits;
    int is_cif;
};

/* all of standard input; its octets are null where there is no memory */
static inline struct input read_input(void) {
    size_t size = 0, room = 1 << 16, got;
    uint8_t *octets = malloc(room + 8);
    while (octets && (got = fread(octets + size, 1, room - size, stdin)) > 0) {
        size += got;
        if (size == room)
            octets = realloc(octets, (room *= 2) + 8);
    }
    if (octets)
        memset(octets + size, 0, 8);
    return (struct input){octets, size};
}

/* the frame at a place, which moves behind it; 0 where no whole one is left */
static inline int next_frame(const struct input *input, size_t *at, struct frame *frame) {
    const uint8_t *head = input->octets + *at;
    size_t left = input->size - *at;
    if (left < 4)
        return 0;
    uint32_t bits = (uint32_t)(head[0] & 127) << 24 | head[1] << 16 | head[2] << 8 | head[3];
    size_t whole = ((size_t)bits + 7) / 8;
    if (left - 4 < whole)
        return 0;
    *frame = (struct frame){head + 4, bits, head[0] >> 7};
    *at += 4 + whole;
    return 1;
}
