#!/usr/bin/env python3
"""Writes one CIF picture of a row of decoded pictures as a PNG: png_of_planes.py PICTURE < PLANES > PNG

PLANES are pictures as the program's command decode writes them: luminance, CB and CR, row by row. PICTURE counts from 1;
0 stands for the last one."""
import struct
import sys
import zlib

from words import told

WIDTH, HEIGHT = 352, 288
LUMINANCE, COLOUR = WIDTH * HEIGHT, WIDTH * HEIGHT // 4
SIZE = LUMINANCE + 2 * COLOUR


def clipped(value):
    return max(0, min(255, round(value)))


def rgb(luminance, blue, red):
    """Red, green and blue of a sample (ITU-R BT.601)."""
    bright = 1.164 * (luminance - 16)
    return bytes(
        map(
            clipped,
            (
                bright + 1.596 * (red - 128),
                bright - 0.392 * (blue - 128) - 0.813 * (red - 128),
                bright + 2.017 * (blue - 128),
            ),
        )
    )


def rows_of(picture):
    """The rows of a picture as a PNG has them, each behind its kind of filter, none."""
    blue, red = picture[LUMINANCE:], picture[LUMINANCE + COLOUR :]
    for y in range(HEIGHT):
        half = y // 2 * (WIDTH // 2)
        row = (rgb(picture[y * WIDTH + x], blue[half + x // 2], red[half + x // 2]) for x in range(WIDTH))
        yield b"\0" + b"".join(row)


def chunk(kind, content):
    return struct.pack(">I", len(content)) + kind + content + struct.pack(">I", zlib.crc32(kind + content))


def png(picture):
    head = struct.pack(">IIBBBBB", WIDTH, HEIGHT, 8, 2, 0, 0, 0)
    octets = zlib.compress(b"".join(rows_of(picture)), 9)
    return b"\x89PNG\r\n\x1a\n" + chunk(b"IHDR", head) + chunk(b"IDAT", octets) + chunk(b"IEND", b"")


def picture_of(stream, number):
    """The picture of this number, or None."""
    count, last = 0, None
    while len(picture := stream.read(SIZE)) == SIZE:
        count, last = count + 1, picture
        if count == number:
            return picture
    return None if number else last


if __name__ == "__main__":
    words = sys.argv[1:]
    told(__doc__, words, len(words) == 1 and words[0].isdecimal())
    found = picture_of(sys.stdin.buffer, int(words[0]))
    if found is None:
        sys.exit("png_of_planes.py: there is no such picture")
    sys.stdout.buffer.write(png(found))
