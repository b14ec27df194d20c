"""Reads pictures of a page, and measures contrast of what is painted in them."""
import struct
import zlib
from collections import Counter

# Colours that less than this part of the pixels has are edges between others.
LEAST_PART = 0.1


class Picture:
    """A PNG of eight bits for each part of a colour, as Chromium writes them."""

    def __init__(self, png):
        at, data = 8, b""
        while at < len(png):
            length, kind = struct.unpack_from(">I4s", png, at)
            body = png[at + 8:at + 8 + length]
            if kind == b"IHDR":
                self.width, self.height, depth, colour, _, _, interlaced = struct.unpack(">IIBBBBB", body)
                assert depth == 8 and colour in (2, 6) and not interlaced, "a picture of another form"
                self.parts = 3 if colour == 2 else 4
            elif kind == b"IDAT":
                data += body
            at += 12 + length
        self.rows = list(self._rows(zlib.decompress(data)))

    def _rows(self, data):
        """The rows of pixels, each by the filter that stands before it."""
        length, before = self.width * self.parts, bytes(self.width * self.parts)
        for at in range(0, len(data), length + 1):
            row = bytearray(data[at + 1:at + 1 + length])
            for i in range(length):
                left = row[i - self.parts] if i >= self.parts else 0
                over, corner = before[i], before[i - self.parts] if i >= self.parts else 0
                row[i] = row[i] + guess(data[at], left, over, corner) & 255
            before = bytes(row)
            yield [tuple(row[i:i + 3]) for i in range(0, length, self.parts)]

    def colours(self, left=0, right=None, top=0, bottom=None):
        """The colours in a part of the picture that stand there on more than an edge, those on most pixels first."""
        pixels = [pixel for row in self.rows[top:bottom] for pixel in row[left:right]]
        return [colour for colour, count in Counter(pixels).most_common() if count >= LEAST_PART * len(pixels)]


def guess(kind, left, over, corner):
    """What a filter of PNG adds to a byte."""
    if kind == 4:
        whole = left + over - corner
        return min((left, over, corner), key=lambda each: abs(whole - each))
    return (0, left, over, (left + over) // 2)[kind]


def light(colour):
    """The relative luminance of a colour, as WCAG defines it."""
    parts = [part / 255 for part in colour]
    parts = [part / 12.92 if part <= 0.04045 else ((part + 0.055) / 1.055) ** 2.4 for part in parts]
    return 0.2126 * parts[0] + 0.7152 * parts[1] + 0.0722 * parts[2]


def contrast(one, other):
    """The contrast of two colours, from 1 to 21."""
    low, high = sorted((light(one), light(other)))
    return (high + 0.05) / (low + 0.05)
