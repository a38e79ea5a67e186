#!/usr/bin/env python3
"""Writes crates/vectors/stdin and crates/vectors/stdout; run it from the repository's root.

The records are built by hand from documents 000, 001, 003 and 004 and document 01's byte places. The status beside each
is written down from document 01's table of refusals and document 02; nothing here judges a record.

An entry of stdin: the label's length, the label, the status that should come, the record's length, the record; numbers
are 32-bit little-endian. The program's line for it is `LABEL: STATUS, should be STATUS`.
"""
import struct
import sys


def words(*numbers):
    return b"".join(struct.pack("<I", n % 2**32) for n in numbers)


# ---- document 004: a header part is header, masks and table; a picture is a header part and a bits part

RGB, RLE8, FIELDS, JPEG = 0, 1, 3, 4


def info(width, height, bits, compression=RGB, colours=0, size=40, planes=1):
    "BITMAPINFOHEADER: 40 bytes. Its size of the image, resolution and important colours are not looked at."
    return (words(size, width, height) + struct.pack("<HH", planes, bits)
            + words(compression, 0x11111111, 2835, 2835, colours, 0x22222222))


def v4(width, height, bits, compression=RGB, masks=(0, 0, 0, 0), colours=0, size=108):
    "BITMAPV4HEADER: the masks red, green, blue, alpha at 40, colour space at 56, end points and gamma behind it."
    return info(width, height, bits, compression, colours, size) + words(*masks) + words(0x73524742) + bytes(range(48))


def table(entries):
    "A colour table: blue, green, red, unused byte."
    return b"".join(bytes([k % 256, 255 - k % 256, 7 * k % 256, 0x99]) for k in range(entries))


def bits(n):
    return bytes((37 * k + 11) % 256 for k in range(n))


M565 = (0xF800, 0x07E0, 0x001F)
M888 = (0x00FF0000, 0x0000FF00, 0x000000FF)
A888 = M888 + (0xFF000000,)

# Pictures of 2 by 2 pixels. Row length: 4 bytes at 1, 4, 8 and 16 bits, 8 at 24 and 32.
P1 = (info(2, 2, 1) + table(2), bits(8))
P4 = (info(2, 2, 4) + table(16), bits(8))
P8 = (info(2, 2, 8) + table(256), bits(8))
P8FEW = (info(2, 2, 8, colours=2) + table(2), bits(8))
P16 = (info(2, 2, 16), bits(8))
P24 = (info(2, 2, 24), bits(16))
P32 = (info(2, 2, 32), bits(16))
P16F = (info(2, 2, 16, FIELDS) + words(*M565), bits(8))
P32F = (info(2, 2, 32, FIELDS) + words(*M888), bits(16))
P16V = (v4(2, 2, 16, FIELDS, (0x7C00, 0x03E0, 0x001F, 0x8000)), bits(8))
P32V = (v4(2, 2, 32, FIELDS, A888), bits(16))
P32V0 = (v4(2, 2, 32, FIELDS, M888 + (0,)), bits(16))


def masks16(*masks):
    return info(2, 2, 16, FIELDS) + words(*masks), bits(8)


def masks32(*masks):
    return info(2, 2, 32, FIELDS) + words(*masks), bits(16)


def masks_v4(depth, *masks):
    return v4(2, 2, depth, FIELDS, masks), bits(16)


# ---- documents 000, 001, 003: the fixed parts, by document 01's byte places

ONE, ZERO, MINUS_ZERO, INFINITY, QUIET, SIGNALLING = 0x3F800000, 0, 0x80000000, 0x7F800000, 0x7FC00000, 0x7F800001
IDENTITY = (ONE, ZERO, ZERO, ONE, ZERO, ZERO)
IDENTITY_TOO = (ONE, MINUS_ZERO, MINUS_ZERO, ONE, MINUS_ZERO, MINUS_ZERO)
BOUNDS = (0, 0, 100, 100)
GREY = 0x00808080


def parts(start, *pictures):
    "Each picture's four numbers, all 0 where it is absent, and the parts from `start` on, each filled up to a word."
    numbers, body = [], b""
    for picture in pictures:
        four = []
        for part in picture or ():
            four += [start + len(body), len(part)]
            body += part + bytes(-len(part) % 4)
        numbers.append(tuple(four) or (0, 0, 0, 0))
    return numbers, body


def with_size(kind, fixed, body):
    return words(kind, 8 + len(fixed) + len(body)) + fixed + body


def blend(source, operation=0, constant=255, form=0, target=(0, 0, 2, 2), corner=(0, 0), extent=(2, 2), xform=IDENTITY):
    "EMR_ALPHABLEND, 0x72; its fixed part ends at 108."
    (four,), body = parts(108, source)
    function = bytes([operation, 0x5A, constant, form])
    fixed = words(*BOUNDS, *target) + function + words(*corner, *xform, GREY, 0, *four, *extent)
    return with_size(0x72, fixed, body)


def maskblt(source, mask, fore=0xCC, back=0xAA, target=(0, 0, 2, 2), corner=(0, 0), mask_corner=(0, 0), xform=IDENTITY):
    "EMR_MASKBLT, 0x4E; its fixed part ends at 128. ROP4: two ignored bytes, foreground, background (wingdi.h, MAKEROP4)."
    (four, four_mask), body = parts(128, source, mask)
    rop4 = bytes([0x5A, 0xA5, fore, back])
    fixed = words(*BOUNDS, *target) + rop4 + words(*corner, *xform, GREY, 0, *four, *mask_corner, 0, *four_mask)
    return with_size(0x4E, fixed, body)


def masked(mask, fore=0xF0, back=0xAA, **rest):
    "EMR_MASKBLT with the mask alone."
    return maskblt(None, mask, fore, back, **rest)


def stretch(source, op=0xCC, target=(0, 0, 2, 2), corner=(0, 0), extent=(2, 2)):
    "EMR_STRETCHDIBITS, 0x51; its fixed part ends at 80. The raster byte is bits 16 to 23 of its field."
    (four,), body = parts(80, source)
    x, y, cx, cy = target
    fixed = words(*BOUNDS, x, y, *corner, *extent, *four, 0, 0x9A000021 + op * 65536, cx, cy)
    return with_size(0x51, fixed, body)


def patch(record, *places):
    "The record with other numbers, given as place, number, place, number .."
    record = bytearray(record)
    for at, n in zip(places[::2], places[1::2]):
        record[at:at + 4] = words(n)
    return bytes(record)


def sized(record):
    "The record with its own length in Size."
    return patch(record, 4, len(record))


# Sound records: with a 16-bit source, of 0x4E with its mask too; of 0x4E with the mask alone; of 0x51 with no picture.
S, B, M = stretch(P16), blend(P16), maskblt(P16, P1)
N, BARE = masked(P1), stretch(None, 0xF0)
END, B_END, M_END, N_END = 128, 156, 232, 184
if [len(x) for x in (S, B, M, N, BARE)] != [END, B_END, M_END, N_END, 80]:
    sys.exit("the sound records have other lengths")


def placed(header, bits_at, mask_header, mask_bits):
    "EMR_MASKBLT with a 16-bit source and a 1-bit mask whose parts (of 40, 8, 48 and 8 bytes) stand at these places."
    stood = [(header, P16[0]), (bits_at, P16[1]), (mask_header, P1[0]), (mask_bits, P1[1])]
    record = bytearray(M[:128]) + bytearray(max(at + len(part) for at, part in stood) - 128)
    for at, part in stood:
        record[at:at + len(part)] = part
    record += bytes(-len(record) % 4)
    return sized(patch(record, 84, header, 92, bits_at, 112, mask_header, 120, mask_bits))


def source51(*picture):
    return stretch(picture)


ENTRIES = []


def add(status, *entries):
    for label, record in entries:
        ENTRIES.append((label, status, record))


# ---- the records: status, label, bytes

add(3,
    ("empty record", b""),
    ("record of 1 byte", S[:1]),
    ("record of 4 bytes", S[:4]),
    ("record of 7 bytes", S[:7]),
    ("7 bytes of an unknown type", words(0x4F, 7)[:7]))

add(4,
    ("8 bytes, type 0x4F, Size 8", words(0x4F, 8)),
    ("8 zero bytes", bytes(8)),
    ("type 0x4F, else like a sound MASKBLT", patch(M, 0, 0x4F)),
    ("type 0x50, else sound", patch(BARE, 0, 0x50)),
    ("type 0x151, else sound", patch(BARE, 0, 0x151)),
    ("type 0x51000000, else sound", patch(BARE, 0, 0x51000000)),
    ("type 0xFFFFFFFF", words(0xFFFFFFFF, 8)),
    ("4 before 5: type 0x4F, Size 9 of 8 bytes", words(0x4F, 9)))

add(5,
    ("8 bytes, type 0x51, Size 8", words(0x51, 8)),
    ("8 bytes, type 0x72, Size 8", words(0x72, 8)),
    ("8 bytes, type 0x4E, Size 8", words(0x4E, 8)),
    ("0x51: Size 4 too large", patch(S, 4, END + 4)),
    ("0x51: Size 4 too small", patch(S, 4, END - 4)),
    ("0x51: Size with bit 24 set", patch(S, 4, END + 2**24)),
    ("0x51: 4 bytes lent behind Size", S + bytes(4)),
    ("0x51: last 4 bytes not lent", S[:-4]),
    ("0x51: 81 bytes, Size 81", sized(BARE + bytes(1))),
    ("0x51: 82 bytes, Size 82", sized(BARE + bytes(2))),
    ("0x51: 82 bytes, Size 80", BARE + bytes(2)),
    ("0x51: 76 bytes, below its fixed part", sized(BARE[:76])),
    ("0x72: 104 bytes, below its fixed part", sized(B[:104])),
    ("0x4E: 124 bytes, below its fixed part", sized(M[:124])),
    ("5 before 6: Size wrong, header part at 0", patch(S, 4, END + 4, 48, 0)))

add(6,
    ("0x51: header part at 79", patch(S, 48, 79)),
    ("0x51: header part at 0", patch(S, 48, 0)),
    ("0x51: bits part at 79", patch(S, 56, 79)),
    ("0x51: header part one past Size", patch(S, 48, END - 39)),
    ("0x51: bits part one past Size", patch(S, 56, END - 7)),
    ("0x51: header part at 0xFFFFFFF0 of 32 bytes", patch(S, 48, 0xFFFFFFF0, 52, 32)),
    ("0x51: bits part at 0xFFFFFFF0 of 32 bytes", patch(S, 56, 0xFFFFFFF0, 60, 32)),
    ("0x51: header part of 0xFFFFFFFF bytes", patch(S, 52, 0xFFFFFFFF)),
    ("0x51: empty bits part at 0", patch(S, 56, 0, 60, 0)),
    ("0x51: empty header part at 0", patch(S, 48, 0, 52, 0)),
    ("0x51: empty bits part one past Size", patch(S, 56, END + 1, 60, 0)),
    ("0x51: of the four only offBmi not 0", patch(BARE, 48, 80)),
    ("0x51: of the four only cbBmi not 0", patch(BARE, 52, 1)),
    ("0x51: of the four only offBits not 0", patch(BARE, 56, 80)),
    ("0x51: of the four only cbBits not 0", patch(BARE, 60, 1)),
    ("0x72: header part at 107", patch(B, 84, 107)),
    ("0x72: bits part one past Size", patch(B, 92, B_END - 7)),
    ("0x4E: source's header part at 127", patch(M, 84, 127)),
    ("0x4E: source's bits part one past Size", patch(M, 92, M_END - 7)),
    ("0x4E: mask's header part at 127", patch(N, 112, 127)),
    ("0x4E: mask's header part one past Size", patch(N, 112, N_END - 47)),
    ("0x4E: mask's bits part at 127", patch(N, 120, 127)),
    ("0x4E: mask's bits part one past Size", patch(N, 120, N_END - 7)),
    ("0x4E: mask's bits part at 0xFFFFFFF0 of 32 bytes", patch(N, 120, 0xFFFFFFF0, 124, 32)),
    ("0x4E: mask's empty bits part at 0", patch(N, 120, 0, 124, 0)),
    ("6 before 7: source's usage 1, mask's bits part one past Size", patch(M, 80, 1, 120, M_END - 7)),
    ("6 before 21: header part at 79, the bits part there too", patch(S, 48, 79, 56, 79)),
    ("6 before 21: source's parts share a byte, mask's bits part one past Size", patch(M, 92, 167, 120, M_END - 7)))

# Document 02, item 5. The parts of S are 80..119 and 120..127, of B 108..147 and 148..155, of N 128..175 and 176..183, of M
# 128..167, 168..175, 176..223 and 224..231. FRONT has its bits part first: 80..87, then 88..127.
FRONT = patch(stretch((bits(8), P16[0])), 48, 88, 52, 40, 56, 80, 60, 8)
add(21,
    ("0x51: bits part begins at the header part's last byte", patch(S, 56, 119)),
    ("0x51: header part begins at the bits part's last byte", patch(FRONT, 48, 87)),
    ("0x51: parts overlap", patch(S, 56, 81)),
    ("0x51: header and bits the same bytes", patch(S, 56, 80, 60, 40)),
    ("0x51: bits part inside the header part", patch(S, 56, 100)),
    ("0x51: header part inside the bits part", patch(S, 56, 80, 60, 48)),
    ("0x51: colour table inside the bits part", patch(stretch(P1), 56, 120, 60, 16)),
    ("0x51: header part one byte longer than needed, the bits part's first", patch(S, 52, 41)),
    ("0x51: bits part one byte longer than needed, the header part's first", patch(FRONT, 60, 9)),
    ("0x51: ROP 0xF0, which needs no source, with parts that share a byte", patch(stretch(P16, 0xF0), 56, 119)),
    ("0x72: bits part begins at the header part's last byte", patch(B, 92, 147)),
    ("0x4E: source's header and source's bits share a byte", placed(128, 167, 176, 224)),
    ("0x4E: source's header and mask's header share a byte", placed(128, 216, 167, 224)),
    ("0x4E: source's header and mask's bits share a byte", placed(128, 176, 184, 167)),
    ("0x4E: source's bits and mask's header share a byte", placed(128, 168, 175, 224)),
    ("0x4E: source's bits and mask's bits share a byte", placed(128, 168, 184, 175)),
    ("0x4E: mask's header and mask's bits share a byte", placed(128, 168, 176, 223)),
    ("0x4E: no source, mask's parts share a byte", patch(N, 120, 175)),
    ("0x4E: no mask, source's parts share a byte", patch(maskblt(P16, None), 92, 167)),
    ("0x4E: mask and source the same parts", patch(maskblt(P1, P1), 112, 128, 120, 176)),
    ("0x4E: mask and source with one header part", patch(maskblt(P1, P1), 112, 128)),
    ("0x4E: mask's header part inside the source's bits part", patch(M, 96, 56)),
    ("21 before 7: usage 1, parts share a byte", patch(S, 56, 119, 64, 1)),
    ("21 before 7: first float a NaN, parts share a byte", patch(B, 92, 147, 52, QUIET)),
    ("21 before 7: source's usage 1, mask's parts share a byte", patch(M, 80, 1, 120, 223)),
    ("21 before 8: planes 2, parts share a byte", patch(source51(info(2, 2, 16, planes=2), bits(8)), 56, 119)),
    ("21 before 10: bits part of 1 byte inside the header part", patch(S, 56, 100, 60, 1)),
    ("21 before 13: mask of 16 bits, its parts share a byte", patch(masked(P16), 120, 167)))

add(7,
    ("0x72: first float 2", patch(B, 52, 0x40000000)),
    ("0x72: second float 1", patch(B, 56, ONE)),
    ("0x72: third float 1", patch(B, 60, ONE)),
    ("0x72: fourth float 0", patch(B, 64, ZERO)),
    ("0x72: fifth float 1", patch(B, 68, ONE)),
    ("0x72: sixth float -1", patch(B, 72, 0xBF800000)),
    ("0x72: first float next above 1", patch(B, 52, 0x3F800001)),
    ("0x72: second float the least subnormal", patch(B, 56, 1)),
    ("0x72: first float a NaN", patch(B, 52, QUIET)),
    ("0x72: sixth float a signalling NaN", patch(B, 72, SIGNALLING)),
    ("0x72: fourth float a negative NaN", patch(B, 64, 0xFFFFFFFF)),
    ("0x72: first float infinity", patch(B, 52, INFINITY)),
    ("0x72: fifth float minus infinity", patch(B, 68, 0xFF800000)),
    ("0x4E: first float 0", patch(M, 52, ZERO)),
    ("0x4E: fourth float 2", patch(N, 64, 0x40000000)),
    ("0x4E: sixth float a NaN", patch(N, 72, QUIET)),
    ("0x72: no source, fifth float 1", patch(blend(None), 68, ONE)),
    ("0x4E: no source and none needed, fifth float 1", patch(N, 68, ONE)),
    ("0x51: usage 1", patch(S, 64, 1)),
    ("0x72: usage 1", patch(B, 80, 1)),
    ("0x4E: source's usage 1", patch(M, 80, 1)),
    ("0x4E: mask's usage 1", patch(N, 108, 1)),
    ("7 before 8: source's planes 2, mask's usage 1", patch(maskblt((info(2, 2, 24, planes=2), bits(16)), P1), 108, 1)))

add(8,
    ("empty header part at 80", patch(S, 52, 0)),
    ("empty header part inside the bits part", patch(S, 48, 124, 52, 0)),
    ("0x4E: mask's empty header part inside the source's bits part", patch(M, 112, 170, 116, 0)),
    ("header part of 3 bytes", patch(S, 52, 3)),
    ("header part of 39 bytes", patch(S, 52, 39)),
    ("header of 108 bytes in a part of 40", source51(v4(2, 2, 16)[:40], bits(8))),
    ("header of 108 bytes in a part of 107", source51(v4(2, 2, 16)[:107], bits(8))),
    ("masks one byte short", source51(P16F[0][:51], bits(8))),
    ("masks and table one byte short", source51(info(2, 2, 32, FIELDS, 1) + words(*M888) + table(1)[:3], bits(16))),
    ("1 bit: table one byte short", source51(P1[0][:47], bits(8))),
    ("4 bits: table one byte short", source51(P4[0][:103], bits(8))),
    ("8 bits, 0 colours: table of 2", source51(info(2, 2, 8) + table(2), bits(8))),
    ("24 bits, 1 colour: table one byte short", source51(info(2, 2, 24, colours=1) + table(1)[:3], bits(16))),
    ("V4, 1 bit: table one byte short", source51(v4(2, 2, 1) + table(2)[:7], bits(8))),
    ("header size 12", source51(info(2, 2, 16, size=12), bits(8))),
    ("header size 52", source51(info(2, 2, 16, size=52) + bytes(12), bits(8))),
    ("header size 124", source51(v4(2, 2, 16, size=124) + bytes(16), bits(8))),
    ("planes 0", source51(info(2, 2, 16, planes=0), bits(8))),
    ("planes 2", source51(info(2, 2, 16, planes=2), bits(8))),
    ("bits 0", source51(info(2, 2, 0), bits(16))),
    ("bits 2", source51(info(2, 2, 2) + table(4), bits(16))),
    ("bits 280", source51(info(2, 2, 280), bits(16))),
    ("compression 1 at 8 bits", source51(info(2, 2, 8, RLE8, 2) + table(2), bits(8))),
    ("compression 4", source51(info(2, 2, 16, JPEG), bits(8))),
    ("compression 3 at 24 bits", source51(info(2, 2, 24, FIELDS) + words(*M888), bits(16))),
    ("compression 3 at 1 bit", source51(info(2, 2, 1, FIELDS) + words(*M888) + table(2), bits(8))),
    ("width 0", source51(info(0, 2, 16), bits(8))),
    ("width 16385", source51(info(16385, 1, 1) + table(2), bits(16))),
    ("width -5", source51(info(-5, 2, 16), bits(8))),
    ("height 0", source51(info(2, 0, 16), bits(8))),
    ("height 16385", source51(info(2, 16385, 16), bits(8))),
    ("height -16385", source51(info(2, -16385, 16), bits(8))),
    ("height -2^31", source51(info(2, -2**31, 16), bits(8))),
    ("1 bit, 3 colours", source51(info(2, 2, 1, colours=3) + table(3), bits(8))),
    ("4 bits, 17 colours", source51(info(2, 2, 4, colours=17) + table(17), bits(8))),
    ("24 bits, 257 colours", source51(info(2, 2, 24, colours=257) + table(257), bits(16))),
    ("32 bits, 2^30 colours", source51(info(2, 2, 32, colours=2**30), bits(16))),
    ("0x72: bits 2", blend((info(2, 2, 2) + table(4), bits(16)))),
    ("0x4E: source's height 0", maskblt((info(2, 0, 16), bits(8)), P1)),
    ("0x4E: mask's planes 2", masked((info(2, 2, 1, planes=2) + table(2), bits(8)))),
    ("0x4E: mask's table one byte short", masked((P1[0][:47], bits(8)))),
    ("0x51: ROP 0xF0 with a source of planes 2", stretch((info(2, 2, 16, planes=2), bits(8)), 0xF0)),
    ("8 before 9: mask's planes 2, source's red mask 0",
     maskblt(masks16(0, 0x07E0, 0x001F), (info(2, 2, 1, planes=2) + table(2), bits(8)))),
    ("8 before 9: source's planes 2, mask's red mask 0",
     maskblt((info(2, 2, 16, planes=2), bits(8)), masks16(0, 0x07E0, 0x001F))),
    ("8 before 10: mask's planes 2, source's row bytes one short",
     maskblt((P16[0], bits(7)), (info(2, 2, 1, planes=2) + table(2), bits(8)))))

add(9,
    ("16 bits: red mask with a gap", stretch(masks16(0xD800, 0x07E0, 0x001F))),
    ("16 bits: red mask 0", stretch(masks16(0, 0x07E0, 0x001F))),
    ("16 bits: green mask 0", stretch(masks16(0xF800, 0, 0x001F))),
    ("16 bits: blue mask 0", stretch(masks16(0xF800, 0x07E0, 0))),
    ("16 bits: red mask of 9 ones", stretch(masks16(0xFF80, 0x0070, 0x000F))),
    ("32 bits: green mask of 9 ones", stretch(masks32(0x00FE0000, 0x0001FF00, 0x000000FF))),
    ("16 bits: red and green overlap", stretch(masks16(0xFC00, 0x07E0, 0x001F))),
    ("16 bits: green and blue overlap", stretch(masks16(0xF800, 0x07E0, 0x003F))),
    ("16 bits: red and blue the same", stretch(masks16(0x001F, 0x07E0, 0x001F))),
    ("16 bits: red mask outside the pixel", stretch(masks16(0x001F0000, 0x07E0, 0x001F))),
    ("16 bits: red mask half outside the pixel", stretch(masks16(0x0001F000, 0x07E0, 0x001F))),
    ("V4, 32 bits: alpha and red overlap", stretch(masks_v4(32, *M888, 0x7F800000))),
    ("V4, 32 bits: alpha and green overlap", stretch(masks_v4(32, *M888, 0x0000FF00))),
    ("V4, 32 bits: alpha and blue overlap", stretch(masks_v4(32, *M888, 0x00000001))),
    ("V4, 32 bits: alpha mask with a gap", stretch(masks_v4(32, *M888, 0xF7000000))),
    ("V4, 32 bits: alpha mask of 9 ones", stretch(masks_v4(32, 0x007F0000, 0x0000FF00, 0x000000FF, 0xFF800000))),
    ("V4, 16 bits: alpha mask outside the pixel", stretch(masks_v4(16, *M565, 0x00010000))),
    ("0x72: format 0, alpha and red overlap", blend(masks_v4(32, *M888, 0x7F800000))),
    ("9 before 13: mask of 16 bits, its red mask 0", masked(masks16(0, 0x07E0, 0x001F))),
    ("9 before 10: source's row bytes one short, mask's red mask 0",
     maskblt((P16[0], bits(7)), masks16(0, 0x07E0, 0x001F))),
    ("9 before 10: source's red mask 0, mask's row bytes one short",
     maskblt(masks16(0, 0x07E0, 0x001F), (P1[0], bits(7)))))

add(10,
    ("24 bits: row bytes one short", source51(P24[0], bits(15))),
    ("24 bits, top-down: row bytes one short", source51(info(2, -2, 24), bits(15))),
    ("24 bits, 1 by 1: 3 bytes", stretch((info(1, 1, 24), bits(3)), target=(0, 0, 1, 1), extent=(1, 1))),
    ("1 bit, 33 by 1: 7 bytes", source51(info(33, 1, 1) + table(2), bits(7))),
    ("1 bit: row bytes one short", source51(P1[0], bits(7))),
    ("32 bits: row bytes one short", source51(P32[0], bits(15))),
    ("empty bits part at Size", patch(S, 56, END, 60, 0)),
    ("empty bits part inside the header part", patch(S, 56, 100, 60, 0)),
    ("empty bits part at the header part's place", patch(S, 56, 80, 60, 0)),
    ("height 16384 and 16 bytes", source51(info(2, 16384, 24), bits(16))),
    ("16384 by 16384 of 32 bits and 16 bytes", source51(info(16384, 16384, 32), bits(16))),
    ("0x72: row bytes one short", blend((P32[0], bits(15)))),
    ("0x4E: source's row bytes one short", maskblt((P16[0], bits(7)), P1)),
    ("0x4E: mask's row bytes one short", masked((P1[0], bits(7)))),
    ("10 before 11: row bytes one short, format 2", blend((P32[0], bits(15)), form=2)))

add(11,
    ("0x72: operation 1", blend(P24, operation=1)),
    ("0x72: format 2", blend(P32, form=2)),
    ("0x72: format 1 with 24 bits", blend(P24, form=1)),
    ("0x72: format 1 with 16 bits", blend(P16, form=1)),
    ("0x72: format 1 with 32 bits and three masks", blend(P32F, form=1)),
    ("0x72: format 1 with 32 bits and an alpha mask of 0", blend(P32V0, form=1)),
    ("0x72: format 1 with 16 bits and an alpha mask", blend(P16V, form=1)),
    ("0x72: no source", blend(None)),
    ("0x72: no source, format 1", blend(None, form=1)),
    ("0x51: 0xCC without source", stretch(None, 0xCC)),
    ("0x51: 0x66 without source", stretch(None, 0x66)),
    ("0x51: 0x01 without source", stretch(None, 0x01)),
    ("0x51: 0x02 without source", stretch(None, 0x02)),
    ("0x51: 0x10 without source", stretch(None, 0x10)),
    ("0x51: 0x20 without source", stretch(None, 0x20)),
    ("0x51: 0xFB without source", stretch(None, 0xFB)),
    ("0x51: 0x7F without source", stretch(None, 0x7F)),
    ("0x51: ROP 0xF0CCF0F0 without source", patch(BARE, 68, 0xF0CCF0F0)),
    ("0x4E: foreground 0xCC without source", masked(P1, 0xCC, 0xAA)),
    ("0x4E: background 0xCC without source", masked(P1, 0xAA, 0xCC)),
    ("11 before 12: operation 1, target extent 0", blend(P24, operation=1, target=(0, 0, 0, 2))),
    ("11 before 13: 0xCC without source, no mask", masked(None, 0xCC, 0xAA)),
    ("11 before 13: 0xCC without source, mask of 8 bits", masked(P8FEW, 0xCC, 0xAA)))

FAR = 1000001
add(12,
    ("0x51: cxDest 0", stretch(None, 0xF0, (0, 0, 0, 2))),
    ("0x51: cyDest 0", stretch(None, 0xF0, (0, 0, 2, 0))),
    ("0x51: cxDest 4097", stretch(None, 0xF0, (0, 0, 4097, 2))),
    ("0x51: cyDest 4097", stretch(None, 0xF0, (0, 0, 2, 4097))),
    ("0x51: cxDest -4097", stretch(None, 0xF0, (0, 0, -4097, 2))),
    ("0x51: cyDest -2^31", stretch(None, 0xF0, (0, 0, 2, -2**31))),
    ("0x72: cxDest 0", blend(P16, target=(0, 0, 0, 2))),
    ("0x72: cxDest -2", blend(P16, target=(2, 0, -2, 2))),
    ("0x72: cyDest -2", blend(P16, target=(0, 2, 2, -2))),
    ("0x72: cxSrc -2", blend(P16, corner=(2, 0), extent=(-2, 2))),
    ("0x72: cySrc -2", blend(P16, corner=(0, 2), extent=(2, -2))),
    ("0x4E: cxDest -2", maskblt(P16, P1, target=(2, 0, -2, 2), corner=(2, 0))),
    ("0x4E: cyDest -2", maskblt(P16, P1, target=(0, 2, 2, -2), corner=(0, 2))),
    ("0x4E: no source, cxDest -2", masked(P1, target=(2, 0, -2, 2))),
    ("0x4E: no source, cyDest 0", masked(P1, target=(0, 0, 2, 0))),
    ("0x51: cxSrc 0", stretch(P16, extent=(0, 2))),
    ("0x51: cySrc 0", stretch(P16, extent=(2, 0))),
    ("0x51: cxSrc 16385", stretch(P16, extent=(16385, 2))),
    ("0x51: cySrc -16385", stretch(P16, extent=(2, -16385))),
    ("0x72: cxSrc 0", blend(P16, extent=(0, 2))),
    ("0x51: xDest 1,000,001", stretch(None, 0xF0, (FAR, 0, 2, 2))),
    ("0x51: xDest -1,000,001", stretch(None, 0xF0, (-FAR, 0, 2, 2))),
    ("0x51: yDest 1,000,001", stretch(None, 0xF0, (0, FAR, 2, 2))),
    ("0x51: yDest -1,000,001", stretch(None, 0xF0, (0, -FAR, 2, 2))),
    ("0x51: xDest 1,000,001, cxDest -2", stretch(None, 0xF0, (FAR, 0, -2, 2))),
    ("0x51: yDest -2^31", stretch(None, 0xF0, (0, -2**31, 2, 2))),
    ("0x72: xDest 1,000,001", blend(P16, target=(FAR, 0, 2, 2))),
    ("0x51: xSrc 1,000,001", stretch(P16, corner=(FAR, 0))),
    ("0x51: ySrc -1,000,001", stretch(P16, corner=(0, -FAR))),
    ("0x4E: xSrc -1,000,001", maskblt(P16, P1, corner=(-FAR, 0))),
    ("0x4E: xMask 1,000,001", masked(P1, mask_corner=(FAR, 0))),
    ("0x4E: xMask -1,000,001", masked(P1, mask_corner=(-FAR, 0))),
    ("0x4E: yMask 1,000,001", masked(P1, mask_corner=(0, FAR))),
    ("0x4E: yMask -1,000,001", masked(P1, mask_corner=(0, -FAR))),
    ("0x4E: yMask -2^31", masked(P1, mask_corner=(0, -2**31))),
    ("0x51: source rectangle one past the right", stretch(P16, corner=(1, 0))),
    ("0x51: source rectangle one past the bottom", stretch(P16, corner=(0, 1))),
    ("0x51: top-down, cySrc one past the bottom", stretch((info(2, -2, 16), bits(8)), extent=(2, 3))),
    ("0x51: xSrc -1", stretch(P16, corner=(-1, 0))),
    ("0x51: ySrc -1", stretch(P16, corner=(0, -1))),
    ("0x51: xSrc 2^31 - 1", stretch(P16, corner=(2**31 - 1, 0))),
    ("0x51: cxSrc -2 from 3", stretch(P16, corner=(3, 0), extent=(-2, 2))),
    ("0x51: cxSrc -2 from 1", stretch(P16, corner=(1, 0), extent=(-2, 2))),
    ("0x51: cySrc -1 from 0", stretch(P16, extent=(2, -1))),
    ("0x51: ROP 0xF0, source rectangle one past the right", stretch(P16, 0xF0, corner=(1, 0))),
    ("0x72: source rectangle one past the right", blend(P16, corner=(1, 0))),
    ("0x4E: cxDest one past the source's right", maskblt(P16, P1, target=(0, 0, 3, 2))),
    ("12 before 13: target extent 0, no mask", maskblt(P16, None, target=(0, 0, 0, 2))),
    ("12 before 13: xMask 1,000,001, mask of 8 bits", masked(P8FEW, mask_corner=(FAR, 0))))

add(13,
    ("0x4E: no mask", maskblt(P16, None)),
    ("0x4E: no mask and no source, 0xF0 and 0xAA", masked(None)),
    ("0x4E: no mask, its corner far and its usage 1", patch(maskblt(P16, None, mask_corner=(FAR, -FAR)), 108, 1)),
    ("0x4E: mask of 4 bits", masked(P4)),
    ("0x4E: mask of 8 bits", maskblt(P16, P8FEW)),
    ("0x4E: mask of 16 bits", masked(P16)),
    ("0x4E: mask of 32 bits with masks", masked(P32V)))

GARBAGE = (0xFFFFFFFF, 0x80000000)
add(0,
    ("0x72: 16 bits, format 0", B),
    ("0x72: 24 bits, format 0", blend(P24)),
    ("0x4E: 16 bits, mask of 1 bit", M),
    ("0x51: 1 bit", stretch(P1)),
    ("0x51: 4 bits", stretch(P4)),
    ("0x51: 8 bits", stretch(P8)),
    ("0x51: 8 bits, 2 colours", stretch(P8FEW)),
    ("0x51: 16 bits", S),
    ("0x51: 24 bits", stretch(P24)),
    ("0x51: 32 bits", stretch(P32)),
    ("0x51: 16 bits with masks", stretch(P16F)),
    ("0x51: 32 bits with masks", stretch(P32F)),
    ("0x51: 32 bits with masks, 2 colours", source51(info(2, 2, 32, FIELDS, 2) + words(*M888) + table(2), bits(16))),
    ("0x51: 16 bits with masks, a fourth word behind", source51(P16F[0] + words(0xFFFFFFFF), bits(8))),
    ("0x51: V4, 1 bit", source51(v4(2, 2, 1) + table(2), bits(8))),
    ("0x51: V4, 16 bits with an alpha mask", stretch(P16V)),
    ("0x51: V4, 16 bits, alpha mask 0", stretch(masks_v4(16, *M565, 0))),
    ("0x51: V4, 32 bits with an alpha mask", stretch(P32V)),
    ("0x51: V4, 32 bits, alpha mask 0", stretch(P32V0)),
    ("0x51: V4, 32 bits BI_RGB, masks that would break 9", source51(v4(2, 2, 32, RGB, (0, 5, 5, 2**32 - 1)), bits(16))),
    ("0x51: 24 bits, 2 colours", source51(info(2, 2, 24, colours=2) + table(2), bits(16))),
    ("0x51: 1 bit, 1 colour", source51(info(2, 2, 1, colours=1) + table(1), bits(8))),
    ("0x51: 4 bits, 16 colours", source51(info(2, 2, 4, colours=16) + table(16), bits(8))),
    ("0x51: top-down", source51(info(2, -2, 16), bits(8))),
    ("0x51: 16384 by 1 of 1 bit", stretch((info(16384, 1, 1) + table(2), bits(2048)), extent=(16384, 1))),
    ("0x51: 33 by 1 of 1 bit, 8 bytes", stretch((info(33, 1, 1) + table(2), bits(8)), extent=(33, 1))),
    ("0x51: 1 by 1 of 24 bits, 4 bytes", stretch((info(1, 1, 24), bits(4)), extent=(1, 1))),
    ("0x51: cxSrc -2 from 2", stretch(P16, corner=(2, 0), extent=(-2, 2))),
    ("0x51: cySrc -2 from 2", stretch(P16, corner=(0, 2), extent=(2, -2))),
    ("0x51: all extents negative", stretch(P16, target=(2, 2, -2, -2), corner=(2, 2), extent=(-2, -2))),
    ("0x51: one source pixel at (1, 1)", stretch(P16, corner=(1, 1), extent=(1, 1))),
    ("0x51: target 4096 by -4096", stretch(P16, target=(0, 0, 4096, -4096))),
    ("0x51: target at (1,000,000, -1,000,000)", stretch(P16, target=(1000000, -1000000, 2, 2))),
    ("0x51: target at (-1,000,000, 1,000,000), extents negative", stretch(P16, target=(-1000000, 1000000, -2, -2))),
    ("0x51: Bounds inverted", patch(S, 8, 100, 12, 100, 16, -100, 20, -100)),
    ("0x51: header part longer than needed", source51(P16[0] + bytes(9), bits(8))),
    ("0x51: bits part longer than needed", source51(P16[0], bits(17))),
    ("0x51: bits part before the header part", patch(stretch((bits(8), P16[0])), 48, 88, 52, 40, 56, 80, 60, 8)),
    ("0x51: header part at an odd place",
     sized(patch(BARE, 48, 81, 52, 40, 56, 121, 60, 8) + b"\x77" + P16[0] + bits(8) + bytes(3))),
    ("0x51: ROP 0xF0 with a source", stretch(P16, 0xF0)),
    ("0x51: ROP 0xF0 without source", BARE),
    ("0x51: ROP 0xAA without source", stretch(None, 0xAA)),
    ("0x51: ROP 0x00 without source", stretch(None, 0x00)),
    ("0x51: ROP 0xFF without source", stretch(None, 0xFF)),
    ("0x51: ROP 0x5A without source", stretch(None, 0x5A)),
    ("0x51: ROP 0x05 without source", stretch(None, 0x05)),
    ("0x51: ROP 0xCCF0CCCC without source", patch(BARE, 68, 0xCCF0CCCC)),
    ("0x51: no source, its usage 1 and rectangle garbage",
     patch(stretch(None, 0xF0, corner=GARBAGE, extent=GARBAGE), 64, 1)),
    ("0x51: no source, its extent 0", stretch(None, 0xF0, extent=(0, 0))),
    ("0x51: no source, bytes behind the fixed part", sized(BARE + bytes(8))),
    ("0x72: negative zeros in XformSrc", blend(P16, xform=IDENTITY_TOO)),
    ("0x4E: negative zeros in XformSrc", maskblt(P16, P1, xform=IDENTITY_TOO)),
    ("0x72: 1 bit, format 0, constant alpha 0", blend(P1, constant=0)),
    ("0x72: 16 bits with an alpha mask, format 0", blend(P16V)),
    ("0x72: format 1 with 32 bits", blend(P32, form=1)),
    ("0x72: format 1 with 32 bits of a V4 header", blend((v4(2, 2, 32), bits(16)), form=1)),
    ("0x72: format 1 with an alpha mask", blend(P32V, form=1)),
    ("0x72: source rectangle 1 by 1 at (1, 1)", blend(P16, corner=(1, 1), extent=(1, 1))),
    ("0x4E: no source, 0xF0 and 0xAA", masked(P1)),
    ("0x4E: no source, its usage 1 and corner garbage",
     patch(masked(P1, corner=GARBAGE), 80, 1)),
    ("0x4E: no source, target 4096 by 4096", masked(P1, target=(0, 0, 4096, 4096))),
    ("0x4E: source not needed, 0xF0 and 0xAA", maskblt(P16, P1, 0xF0, 0xAA)),
    ("0x4E: mask at (1,000,000, -1,000,000)", masked(P1, mask_corner=(1000000, -1000000))),
    ("0x4E: mask at (-1,000,000, 1,000,000)", maskblt(P16, P1, mask_corner=(-1000000, 1000000))),
    ("0x4E: mask with a V4 header", masked((v4(2, 2, 1) + table(2), bits(8)))),
    ("0x4E: mask with 1 colour", masked((info(2, 2, 1, colours=1) + table(1), bits(8)))),
    ("0x4E: mask and source alike, each with its own parts", maskblt(P1, P1)),
    # Parts that touch: each of the six pairs at least once.
    ("0x4E: source's header, mask's header, source's bits, mask's bits", placed(128, 216, 168, 224)),
    ("0x4E: source's header, mask's bits, source's bits, mask's header", placed(128, 176, 184, 168)),
    ("0x4E: mask's bits, mask's header, source's bits, source's header", placed(192, 184, 136, 128)),
    # What stands where 0x4E has its mask's fields names the same parts; 0x51 has no mask.
    ("0x51: other bytes name the parts once more",
     sized(patch(BARE, 48, 128, 52, 40, 56, 168, 60, 8) + bytes(32) + words(128, 40, 168, 8) + P16[0] + bits(8))))

# ---- the numbers that the program prints before the records: what is asked, what should come

JOURNAL_RECORD = 12  # bytes

NUMBERS = [
    ("format 0: s 200, d 100, c 128", "150"),
    ("format 1: s 100, a 128, c 255, d 200", "200"),
    ("format 1: s 100, a 128, c 128, d 200", "200"),
    ("format 1: s 1, a 1, c 128, d 1", "1"),
    ("format 1: s 255, a 0, c 255, d 255", "255"),
    # the channels that need no cut: 255 at both ends gives 255; alpha 0 keeps 255; (255·128·255 + 32,385·200) / 65,025 = 227.6
    ("format 0: s 255, d 255, c 128", "255"),
    ("format 1, alpha: a 255, c 128, d 255", "255"),
    ("format 1, alpha: a 0, c 255, d 255", "255"),
    ("format 1, alpha: a 128, c 255, d 200", "228"),
    ("format 0: pixel 0xFFC8C8C8 over 0xFF646464, c 128", "0xff969696"),
    ("format 1: pixel 0x80646464 over 0xC8C8C8C8, c 255", "0xe4c8c8c8"),
    # 255·128/255 and 255·127/255 side by side; at alpha 0 and c 255 the sums 510, 250 and 256, of which two are cut, beside alpha 200
    ("format 0: pixel 0xFF00FF00 over 0x00FF00FF, c 128", "0x807f807f"),
    ("format 1: pixel 0x00FF3201 over 0xC8FFC8FF, c 255", "0xc8fffaff"),
    ("raster 0x66: source 0xFF00FF, target 0x0F0F0F", "0x00f00ff0"),
    ("raster 0x66: source 0x12FF00FF, target pixel 0x340F0F0F", "0x34f00ff0"),
    ("raster 0xF0: brush 0x112233, target pixel 0xFF0000FF", "0xff112233"),
    # at bit k of 0xF0, 0xCC and 0xAA stand the digits of k, so what comes out is the operation byte
    *[(f"truth table of 0x{op:02X}", f"0x00{op:02x}{op:02x}{op:02x}") for op in (1, 2, 4, 8, 16, 32, 64, 128, 0xB8)],
    ("raster 0xCC needs a source", "yes"),
    ("raster 0x66 needs a source", "yes"),
    ("raster 0xF0 needs a source", "no"),
    ("raster 0xAA needs a source", "no"),
    ("5 bits, 16", "132"),
    ("6 bits, 32", "130"),
    ("row length of 1 pixel of 24 bits", "4"),
    ("row length of 33 pixels of 1 bit", "8"),
    ("n 2, m 3, i 0 reads", "0"),
    ("n 2, m 3, i 1 reads", "0"),
    ("n 2, m 3, i 2 reads", "1"),
    ("n 2, m 3, i 0, mirrored, reads", "1"),
    ("n 2, m 3, i 1, mirrored, reads", "1"),
    ("n 2, m 3, i 2, mirrored, reads", "0"),
    ("mask width 8, xMask -3, i 0 reads column", "5"),
    ("mask 0xF800: width", "5"),
    ("mask 0xF800: place", "11"),
    ("mask 0xF800 is contiguous", "yes"),
    ("mask 0xF01F is contiguous", "no"),
    ("channel of 6 bits at place 5 of 0xABCD", "30"),
    ("4-bit byte 0x1F, column 0: index", "1"),
    ("4-bit byte 0x1F, column 1: index", "15"),
    # document 01's whole play, and its undo
    (f"whole play, {3 * JOURNAL_RECORD} bytes: status", "0"),
    ("whole play: pixels", "2"),
    ("whole play: count in use", "3"),
    ("whole play: pixel 0", "0xff112233"),
    ("whole play: pixel 1", "0xff112233"),
    ("whole play: record 0", "0x00000000"),
    ("whole play: record 0", "0x00000000"),
    ("whole play: record 0", "0xff000000"),
    ("whole play: record 1", "0x00000001"),
    ("whole play: record 1", "0x00000000"),
    ("whole play: record 1", "0xff0000ff"),
    ("whole play: closing record", "0xffffffff"),
    ("whole play: closing record", "0x00000002"),
    ("whole play: closing record", "0x00000051"),
    ("undone: status", "0"),
    ("undone: pixels", "2"),
    ("undone: count in use", "0"),
    ("undone: pixel 0", "0xff000000"),
    ("undone: pixel 1", "0xff0000ff"),
    (f"whole play, {2 * JOURNAL_RECORD} bytes: status", "14"),
    ("refused: pixels", "0"),
    ("refused: pixel 0", "0xff000000"),
    ("refused: pixel 1", "0xff0000ff"),
    (f"whole play, {3 * JOURNAL_RECORD - 1} bytes: status", "2"),
    ("refused: pixels", "0"),
    ("refused: pixel 0", "0xff000000"),
    ("refused: pixel 1", "0xff0000ff"),
    # a play of each type on a row of three pixels
    ("0x72, format 0", "0"),
    ("0x72, format 0", "0xff646464"),
    ("0x72, format 0", "0xff969696"),
    ("0x72, format 0", "0xff646464"),
    ("0x72, format 1", "0"),
    ("0x72, format 1", "0xc8c8c8c8"),
    ("0x72, format 1", "0xe4c8c8c8"),
    ("0x72, format 1", "0xc8c8c8c8"),
    ("0x72, format 1, colours above their alpha", "0"),
    ("0x72, format 1, colours above their alpha", "0xc8ffc8ff"),
    ("0x72, format 1, colours above their alpha", "0xc8fffaff"),
    ("0x72, format 1, colours above their alpha", "0xc8ffc8ff"),
    ("0x4E, 0xF0 over 0xAA", "0"),
    ("0x4E, 0xF0 over 0xAA", "0xff112233"),
    ("0x4E, 0xF0 over 0xAA", "0x800000ff"),
    ("0x4E, 0xF0 over 0xAA", "0x00112233"),
    ("0x4E, 0xCC over 0xAA", "0"),
    ("0x4E, 0xCC over 0xAA", "0xff0a0b0c"),
    ("0x4E, 0xCC over 0xAA", "0x800000ff"),
    ("0x4E, 0xCC over 0xAA", "0x00445566"),
    ("MAKEROP4(0x00CC0020, 0x00AA0029)", "0xaacc0020"),
    ("0x4E, MAKEROP4(0x00CC0020, 0x00AA0029)", "0"),
    ("0x4E, MAKEROP4(0x00CC0020, 0x00AA0029)", "0xff0a0b0c"),
    ("0x4E, MAKEROP4(0x00CC0020, 0x00AA0029)", "0x800000ff"),
    ("0x4E, MAKEROP4(0x00CC0020, 0x00AA0029)", "0x00445566"),
    # brush 0x112233; 0x0A0B0C on 0: 0x112233 without the source's bits; 0x010203 xor 0x0000FF; 0x445566 on all ones: with the brush's bits
    ("0x4E, 0xB8 over 0x66", "0"),
    ("0x4E, 0xB8 over 0x66", "0xff112033"),
    ("0x4E, 0xB8 over 0x66", "0x800102fc"),
    ("0x4E, 0xB8 over 0x66", "0x00557777"),
    ("0x51, 2 to 3", "0"),
    ("0x51, 2 to 3", "0xff0a0b0c"),
    ("0x51, 2 to 3", "0x800a0b0c"),
    ("0x51, 2 to 3", "0x00010203"),
    ("0x51, 2 to 3, mirrored", "0"),
    ("0x51, 2 to 3, mirrored", "0xff010203"),
    ("0x51, 2 to 3, mirrored", "0x80010203"),
    ("0x51, 2 to 3, mirrored", "0x000a0b0c"),
]


def main():
    labels = [label for label, _, _ in ENTRIES]
    if len(set(labels)) != len(labels):
        sys.exit("two records have one label: " + next(x for x in labels if labels.count(x) > 1))
    entries = b"".join(words(len(label)) + label.encode("ascii") + words(status, len(record)) + record
                       for label, status, record in ENTRIES)
    if len(entries) > 262144:
        sys.exit(f"{len(entries)} bytes: keep within the 262144 of the program's buffer")
    lines = NUMBERS + [(label, str(status)) for label, status, _ in ENTRIES]
    with open("crates/vectors/stdin", "wb") as out:
        out.write(entries)
    with open("crates/vectors/stdout", "w", encoding="ascii", newline="\n") as out:
        out.write("".join(f"{asked}: {answer}, should be {answer}\n" for asked, answer in lines))
    counts = ", ".join(f"{status}: {[s for _, s, _ in ENTRIES].count(status)}" for status in [0, 3, 4, 5, 6, 21, *range(7, 14)])
    print(f"{len(ENTRIES)} records, {len(entries)} bytes; by status: {counts}")


main()
