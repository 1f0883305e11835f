"""Counts the pixels of colors in parts of a PNG of 8 bits a channel: for each part a line, with the number of pixels
near each color.

Usage: pixels.py LEFT,TOP,RIGHT,BOTTOM.. COLOR.. < PNG
"""

import collections
import struct
import sys
import zlib

# The greatest difference of a part of a color.
MOST = 24


def chunks(data):
    at = 8
    while at < len(data):
        length, kind = struct.unpack(">I4s", data[at : at + 8])
        yield kind, data[at + 8 : at + 8 + length]
        at += 12 + length


def paeth(left, up, corner):
    guess = left + up - corner
    return min((left, up, corner), key=lambda it: abs(guess - it))


def unfiltered(line, kind, last, size):
    """A line of bytes without the filter of this kind, by the line above it; a pixel has `size` bytes."""
    if kind == 2:
        return bytearray([one + up & 255 for one, up in zip(line, last)])
    for place in range(len(line)):
        left, up = line[place - size] if place >= size else 0, last[place]
        corner = last[place - size] if place >= size else 0
        line[place] = line[place] + (0, left, up, (left + up) // 2, paeth(left, up, corner))[kind] & 255
    return line


def pixels(data):
    """The lines of a picture, of a color for each pixel."""
    found = collections.defaultdict(bytes)
    for kind, part in chunks(data):
        found[kind] += part
    width, height, depth, color, *_, interlaced = struct.unpack(">IIBBBBB", found[b"IHDR"])
    assert (depth, interlaced) == (8, 0) and color in (2, 6), "another kind of PNG"
    size, text = {2: 3, 6: 4}[color], zlib.decompress(found[b"IDAT"])
    last = bytes(width * size)
    for at in range(0, len(text), 1 + width * size):
        last = unfiltered(bytearray(text[at + 1 : at + 1 + width * size]), text[at], last, size)
        yield [bytes(last[x : x + 3]) for x in range(0, len(last), size)]


def is_near(one, other):
    return all(abs(it - there) <= MOST for it, there in zip(one, other))


def main():
    colors = [bytes.fromhex(word[1:]) for word in sys.argv[1:] if word[0] == "#"]
    lines = list(pixels(sys.stdin.buffer.read()))
    for word in sys.argv[1:]:
        if word[0] != "#":
            left, top, right, bottom = map(int, word.split(","))
            count = collections.Counter(it for line in lines[top:bottom] for it in line[left:right])
            print(*(sum(count[it] for it in count if is_near(it, color)) for color in colors))


if __name__ == "__main__":
    main()
