#!/usr/bin/env python3
"""Writes the small EMF files of this folder: what other people's programs put into theirs, one finding each.

Sheets in the tests are 40 by 30 pixels. With a folder as argument the files are written there.
"""
import pathlib
import struct
import sys

BITBLT, STRETCHBLT, MASKBLT, PLGBLT, SETDIBITSTODEVICE, STRETCHDIBITS = range(0x4C, 0x52)
ALPHABLEND, TRANSPARENTBLT = 0x72, 0x74
SRCCOPY, PATCOPY, DSTINVERT = 0x00CC0020, 0x00F00021, 0x00550009
IDENTITY = (1.0, 0.0, 0.0, 1.0, 0.0, 0.0)
OVER_ALL = (0, 0, 4095, 4095)
# What Inkscape and libUEMF write where they do not know the bounds.
INVERTED = (0, 0, -1, -1)


def words(*numbers):
    return b"".join(struct.pack("<I", number & 0xFFFFFFFF) for number in numbers)


def record(kind, *numbers, tail=b""):
    body = words(*numbers) + tail + bytes(-len(tail) % 4)
    return words(kind, 8 + len(body)) + body


def xform(values):
    return struct.unpack("<6I", struct.pack("<6f", *values))


def dib(width, height, bits, pixels, compression=0, table=(), masks=()):
    header = words(40, width, height, 1 | bits << 16, compression, len(pixels), 0, 0, len(table), 0)
    return header + words(*masks) + words(*table), pixels


# Two pixels, blue-green and red-grey; their padded row.
TWO = dib(2, 1, 24, bytes([200, 100, 0, 90, 90, 220, 0, 0]))
# One premultiplied pixel.
CLEAR_BLUE = dib(1, 1, 32, bytes([64, 32, 16, 128]))
# Two rows of eight mask bits.
CHECKS = dib(8, 2, 1, bytes([0x55, 0, 0, 0, 0xAA, 0, 0, 0]), table=(0, 0xFFFFFF))


def parts(end, *pictures):
    """The four fields of each picture, and their bytes behind the fixed part that ends at `end`."""
    fields, tail = [], b""
    for picture in pictures:
        if picture is None:
            fields.append((0, 0, 0, 0))
            continue
        header, pixels = picture
        place = end + len(tail)
        fields.append((place, len(header), place + len(header), len(pixels)))
        tail += header + pixels
        tail += bytes(-len(tail) % 4)
    return fields, tail


def stretch(area, source=TWO, of=(0, 0, 2, 1), rop=SRCCOPY, bounds=OVER_ALL, usage=0):
    [four], tail = parts(80, source)
    x, y, cx, cy = area
    of = of if source else (0, 0, 0, 0)
    return record(STRETCHDIBITS, *bounds, x, y, *of, *four, usage, rop, cx, cy, tail=tail)


def blend(area, source=CLEAR_BLUE, of=(0, 0, 1, 1), field=0x01FF0000, bounds=OVER_ALL, transform=IDENTITY):
    [four], tail = parts(108, source)
    x, y, cx, cy = of
    return record(ALPHABLEND, *bounds, *area, field, x, y, *xform(transform), 0, 0, *four, cx, cy, tail=tail)


def mask(area, picture=CHECKS, rop4=0xAAF00000, bounds=OVER_ALL):
    (source, four), tail = parts(128, None, picture)
    return record(MASKBLT, *bounds, *area, rop4, 0, 0, *xform(IDENTITY), 0, 0, *source, 0, 0, 0, *four, tail=tail)


def bitblt(area, source=TWO, rop=SRCCOPY):
    [four], tail = parts(100, source)
    return record(BITBLT, *OVER_ALL, *area, rop, 0, 0, *xform(IDENTITY), 0, 0, *four, tail=tail)


def stretchblt(area, kind=STRETCHBLT, field=SRCCOPY):
    [four], tail = parts(108, TWO)
    return record(kind, *OVER_ALL, *area, field, 0, 0, *xform(IDENTITY), 0, 0, *four, 2, 1, tail=tail)


def to_device(x, y):
    [four], tail = parts(76, TWO)
    return record(SETDIBITSTODEVICE, *OVER_ALL, x, y, 0, 0, 2, 1, *four, 0, 0, 1, tail=tail)


def plgblt():
    (source, four), tail = parts(140, TWO, None)
    points = (0, 0, 8, 2, 1, 6)
    return record(PLGBLT, *OVER_ALL, *points, 0, 0, 2, 1, *xform(IDENTITY), 0, 0, *source, 0, 0, 0, *four, tail=tail)


def map_mode(mode):
    return record(17, mode)


def window(width, height):
    return record(9, width, height)


def window_origin(x, y):
    return record(10, x, y)


def viewport(width, height):
    return record(11, width, height)


def viewport_origin(x, y):
    return record(12, x, y)


def world(*values):
    return record(35, *xform(values))


def modify_world(mode, *values):
    return record(36, *xform(values), mode)


def brush(handle, colour, style=0):
    return record(39, handle, style, colour, 0)


def select(handle):
    return record(37, handle)


def clip_to(left, top, right, bottom):
    return record(30, left, top, right, bottom)


SAVE, RESTORE = record(33), record(34, -1)
BEGIN_PATH, END_PATH = record(59), record(60)
BLACK_BRUSH = select(0x80000004)
NO_CLIP = record(75, 0, 5)
TEXT = record(84, *OVER_ALL, 1, 0, 0, 2, 2, 0, 0, 0, 0, 0, 0, 0, 0)
POLYGON = record(86, *OVER_ALL, 3, 0x00010001, 0x00050009, 0x00090001)
# A comment with an EMF+ header record in it.
EMF_PLUS = record(70, 32, 0x2B464D45, 0x4001, 28, 16, 0xDBC01002, 1, 96, 96)
HERE = (3, 4, 20, 10)

FILES = {
    "good": [BLACK_BRUSH, blend(HERE), mask((0, 0, 33, 30)), stretch((10, 2, 25, 27))],
    # Plays that draw nothing.
    "inverted-bounds": [stretch(HERE, bounds=INVERTED), stretch(HERE, bounds=INVERTED)],
    "bounds-outside": [stretch(HERE, bounds=(100, 100, 200, 200)), stretch(HERE)],
    "target-outside": [stretch((100, 4, 20, 10)), blend((3, -10, 20, 10))],
    "half-outside": [stretch((30, 20, 20, 20)), stretch(HERE), stretch((-5, 3, 20, 20))],
    # Mappings.
    "window-mapping": [map_mode(8), window(800, 600), viewport(40, 30), stretch((0, 0, 800, 600))],
    "window-changed": [
        map_mode(8),
        window(800, 600),
        viewport(40, 30),
        stretch(HERE),
        viewport(400, 300),
        stretch(HERE),
    ],
    "window-extent-alone": [window(800, 600), stretch(HERE)],
    "window-same": [map_mode(8), window_origin(5, 5), viewport_origin(5, 5), window(800, 600), viewport(800, 600), stretch(HERE)],
    "window-origin": [window_origin(-7, 3), stretch(HERE)],
    "viewport-origin": [viewport_origin(0, 12), stretch(HERE)],
    "scaled-window": [map_mode(8), window(40, 30), viewport(40, 30), record(32, 2, 1, 3, 1), stretch(HERE)],
    # Extents of 0 are not taken; the metric modes leave their own ones behind.
    "window-of-nothing": [map_mode(8), window(800, 600), viewport(40, 30), window(0, 0), viewport(0, 0), stretch(HERE)],
    "metric-extents": [map_mode(6), window(7, 7), viewport(7, 7), map_mode(8), stretch(HERE)],
    "metric-viewport": [map_mode(6), map_mode(8), window(1, 1), stretch(HERE)],
    "metric-before": [map_mode(8), window(100, 100), viewport(100, 100), map_mode(2), map_mode(8), stretch(HERE)],
    "twips": [map_mode(6), stretch(HERE)],
    "anisotropic": [map_mode(8), stretch(HERE)],
    "world-transform": [world(2, 0, 0, 2, 0, 0), stretch(HERE), blend(HERE)],
    "world-modified": [modify_world(2, 1, 0, 0, -1, 0, 30), stretch(HERE)],
    "world-no-mode": [world(2, 0, 0, 2, 0, 0), modify_world(0, 1, 0, 0, 1, 0, 0), stretch(HERE)],
    "world-and-back": [world(2, 0, 0, 2, 0, 0), modify_world(3, 0.5, 0, 0, 0.5, 0, 0), stretch(HERE)],
    "restored": [SAVE, map_mode(8), window(9, 9), world(3, 0, 0, 3, 0, 0), clip_to(0, 0, 5, 5), RESTORE, stretch(HERE)],
    "set-behind": [stretch(HERE), map_mode(6), world(3, 0, 0, 3, 0, 0), clip_to(0, 0, 5, 5)],
    "mirrored-layout": [record(115, 1), stretch(HERE)],
    "other-layout": [record(115, 8), stretch(HERE)],
    # Clips.
    "clipped": [clip_to(0, 0, 5, 5), stretch(HERE), record(29, 0, 0, 2, 2), blend(HERE)],
    "clip-taken-away": [clip_to(0, 0, 5, 5), NO_CLIP, stretch(HERE)],
    "clip-path": [BEGIN_PATH, POLYGON, END_PATH, record(67, 5), stretch(HERE)],
    "clip-lasting": [clip_to(0, 0, 5, 5), record(28), clip_to(0, 0, 2, 2), stretch(HERE)],
    # Colours.
    "colour-matching": [record(98, 2), stretch(HERE), record(98, 1), stretch(HERE)],
    "colour-adjustment": [record(23, 24, *[0] * 5), stretch(HERE), stretch((0, 0, 2, 1))],
    # Brushes.
    "brush": [brush(1, 0x000080FF), select(1), stretch(HERE, None, rop=PATCOPY), stretch(HERE)],
    "brush-hatched": [brush(1, 0x000080FF, 2), select(1), mask(HERE)],
    "brush-of-palette": [brush(1, 0x01000005), select(1), stretch(HERE, None, rop=PATCOPY)],
    "brush-cut-off": [record(39, 1, 0), select(1), stretch(HERE, None, rop=PATCOPY)],
    "no-brush": [stretch(HERE, None, rop=PATCOPY), stretch(HERE), mask(HERE)],
    "brush-stock": [select(0x80000000), stretch(HERE, None, rop=PATCOPY)],
    "brush-unused": [brush(1, 0x000080FF), select(1), stretch(HERE), stretch(HERE, None, rop=DSTINVERT)],
    "stretch-mode": [record(21, 4), stretch(HERE), stretch((0, 0, 2, 1))],
    # Records that are not played.
    "bitblt-only": [bitblt((0, 0, 2, 1)), bitblt((0, 0, 40, 30), None, PATCOPY)],
    "every-bitmap-type": [
        BLACK_BRUSH,
        bitblt(HERE),
        stretchblt(HERE),
        mask(HERE),
        plgblt(),
        to_device(3, 4),
        stretch(HERE),
        blend(HERE),
        stretchblt(HERE, TRANSPARENTBLT, 0x00FFFFFF),
    ],
    "no-bitmap": [map_mode(1)],
    "text-and-shapes": [POLYGON, TEXT, POLYGON, stretch(HERE)],
    # A path gathers the polygon; the pixel and the region are drawn at once. Restoring ends a path.
    "drawn-in-a-path": [BEGIN_PATH, POLYGON, record(15, 1, 1, 255), record(71, *OVER_ALL, 0, 1), END_PATH, stretch(HERE)],
    "path-restored": [SAVE, BEGIN_PATH, RESTORE, POLYGON, stretch(HERE)],
    "emf-plus": [EMF_PLUS, EMF_PLUS, stretch(HERE)],
    "unknown-type": [record(200, 1, 2), stretch(HERE), record(1, 0, 0)],
    # Records that are refused.
    "rle8": [stretch(HERE, dib(2, 1, 8, bytes([2, 0, 0, 1]), 1, (0, 0xFFFFFF)))],
    "jpeg": [stretch(HERE, dib(2, 1, 0, b"\xff\xd8\xff\xd9", 4))],
    "too-wide": [stretch((0, 0, 6772, 10)), stretch(HERE)],
    "no-alpha-mask": [blend(HERE, dib(1, 1, 32, bytes(4), 3, masks=(0xFF0000, 0xFF00, 0xFF)))],
    "palette-usage": [stretch(HERE, usage=1)],
    "scaled-source": [blend(HERE, transform=(2.0, 0.0, 0.0, 2.0, 0.0, 0.0))],
    "mask-without-a-mask": [mask(HERE, None)],
    # Every fate at once: played, drew nothing, refused, skipped.
    "mixed": [
        map_mode(8),
        window(400, 300),
        stretch(HERE),
        stretch(HERE, bounds=INVERTED),
        stretch(HERE, dib(2, 1, 8, bytes([2, 0, 0, 1]), 1, (0, 0xFFFFFF))),
        bitblt((0, 0, 2, 1)),
    ],
}


def file(records):
    length = 88 + sum(map(len, records)) + 20
    header = record(
        1, 0, 0, 39, 29, 0, 0, 1058, 793, 0x464D4520, 0x10000, length, len(records) + 2, 1, 0, 0, 0, 1024, 768, 271, 203
    )
    return header + b"".join(records) + record(14, 0, 16, 20)


def main():
    folder = pathlib.Path(sys.argv[1] if len(sys.argv) > 1 else pathlib.Path(__file__).parent)
    folder.mkdir(parents=True, exist_ok=True)
    for name, records in FILES.items():
        (folder / f"{name}.emf").write_bytes(file(records))


if __name__ == "__main__":
    main()
