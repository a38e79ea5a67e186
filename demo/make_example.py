#!/usr/bin/env python3
"""Makes demo/example: an orthophoto-like mountain sheet and three EMF files with snow-depth bands.

Everything is computed from fixed seeds with additions, products and square roots alone, so the pixels and the EMF files
are the same everywhere. (How tightly sheet.png is packed may depend on the zlib that Python has.)
"""
import math
import pathlib
import struct
import zlib

FOLDER = pathlib.Path(__file__).parent / "example"
WIDTH, HEIGHT = 960, 640
SEED = 11

# ---- Noise ----


def lattice(seed, x, y):
    """A number of 0 to 1 for a lattice point, without any order."""
    n = (x * 374761393 + y * 668265263 + seed * 2147483647 + 12345) & 0xFFFFFFFF
    n = ((n ^ (n >> 13)) * 1274126177) & 0xFFFFFFFF
    n = ((n ^ (n >> 16)) * 2246822519) & 0xFFFFFFFF
    return ((n ^ (n >> 15)) & 0xFFFFFF) / 16777216.0


def ease(t):
    return t * t * t * (t * (t * 6 - 15) + 10)


def value_noise(width, height, cell, seed):
    """Rows of numbers of 0 to 1 that change over `cell` pixels."""
    points = [[lattice(seed, i, j) for i in range(width // cell + 2)] for j in range(height // cell + 2)]
    across = [(x // cell, ease(x % cell / cell)) for x in range(width)]
    rows = []
    for y in range(height):
        down = ease(y % cell / cell)
        line = [a + (b - a) * down for a, b in zip(points[y // cell], points[y // cell + 1])]
        rows.append([line[i] + (line[i + 1] - line[i]) * t for i, t in across])
    return rows


def fractal(width, height, cell, octaves, seed):
    """Several layers of value noise, each half as wide and half as strong as the one before."""
    total = [[0.0] * width for _ in range(height)]
    weights = [0.5**k for k in range(octaves)]
    for k, weight in enumerate(weights):
        part = weight / sum(weights)
        layer = value_noise(width, height, max(cell >> k, 1), seed + k)
        for y in range(height):
            total[y] = [t + part * v for t, v in zip(total[y], layer[y])]
    return total


# ---- Terrain ----

# The eight neighbours of a node, as columns, rows and distance.
NEIGHBOURS = [(i, j, math.sqrt(i * i + j * j)) for j in (-1, 0, 1) for i in (-1, 0, 1) if i or j]


def erode(heights, uplift, columns, rows, steps, creep):
    """Lifts the land and lets rivers cut into it; the border stays. Gives each node's catchment and receiver."""
    cutting = 0.2
    around = [(j * columns + i, distance) for i, j, distance in NEIGHBOURS]
    inner = [y * columns + x for y in range(1, rows - 1) for x in range(1, columns - 1)]
    area, receiver = [], []
    for _ in range(steps):
        receiver = list(range(columns * rows))
        distances = [1.0] * (columns * rows)
        for node in inner:
            here, steepest = heights[node], 0.0
            for step, distance in around:
                slope = (here - heights[node + step]) / distance
                if slope > steepest:
                    steepest, receiver[node], distances[node] = slope, node + step, distance
        order = sorted(inner, key=heights.__getitem__)
        area = [1.0] * (columns * rows)
        for node in reversed(order):
            if receiver[node] != node:
                area[receiver[node]] += area[node]
        # From the lowest up, so that a node's receiver has its new height already.
        for node in order:
            if receiver[node] == node:
                heights[node] += uplift[node]
            else:
                cut = cutting * math.sqrt(area[node]) / distances[node]
                heights[node] = (heights[node] + uplift[node] + cut * heights[receiver[node]]) / (1 + cut)
        # Slopes creep, which rounds the ridges.
        old = heights[:]
        for node in inner:
            near = old[node - 1] + old[node + 1] + old[node - columns] + old[node + columns]
            heights[node] += creep * (near - 4 * old[node])
    return area, receiver


def doubled(values, columns, rows):
    """The same grid with twice as many nodes each way."""
    out = []
    for y in range(rows * 2):
        v = min(max((y - 0.5) / 2, 0), rows - 1.001)
        j, t = int(v), v - int(v)
        line = [values[j * columns + i] * (1 - t) + values[(j + 1) * columns + i] * t for i in range(columns)]
        for x in range(columns * 2):
            u = min(max((x - 0.5) / 2, 0), columns - 1.001)
            i, s = int(u), u - int(u)
            out.append(line[i] * (1 - s) + line[i + 1] * s)
    return out


def cubic(a, b, c, d, t):
    """Between b and c, without a kink."""
    return b + 0.5 * t * (c - a + t * (2 * a - 5 * b + 4 * c - d + t * (3 * (b - c) + d - a)))


def land():
    """Heights of 0 to 1 for each pixel, and the river nodes: (x, y, x below, y below, catchment)."""
    margin, columns, rows = 10, 140, 100
    base = fractal(columns, rows, 32, 4, SEED)
    shift_x = fractal(columns, rows, 48, 3, SEED + 60)
    shift_y = fractal(columns, rows, 48, 3, SEED + 80)
    # Two massifs and a lower ridge: where, how far they reach, how fast they rise.
    massifs = [(43, 36, 27, 21, 0.95), (98, 24, 19, 17, 0.85), (92, 66, 18, 12, 0.25)]
    heights, uplift = [], []
    for y in range(rows):
        for x in range(columns):
            u = x - margin + (shift_x[y][x] - 0.5) * 34
            v = y - margin + (shift_y[y][x] - 0.5) * 30
            rise = 0.14
            for at_x, at_y, wide, high, strength in massifs:
                d = ((u - at_x) / wide) * ((u - at_x) / wide) + ((v - at_y) / high) * ((v - at_y) / high)
                rise += strength / (1 + d * d)
            uplift.append(rise * (0.55 + 0.9 * base[y][x]))
            heights.append(base[y][x] * 2)
    area, receiver = erode(heights, uplift, columns, rows, 90, 0.08)
    for steps, creep, rough in ((14, 0.12, 1.6), (3, 0.15, 1.0)):
        heights, uplift = doubled(heights, columns, rows), doubled(uplift, columns, rows)
        uplift = [rise / 2 for rise in uplift]
        margin, columns, rows = margin * 2, columns * 2, rows * 2
        detail = fractal(columns, rows, 8, 3, SEED + columns)
        heights = [h + (detail[n // columns][n % columns] - 0.5) * rough for n, h in enumerate(heights)]
        area, receiver = erode(heights, uplift, columns, rows, steps, creep)
    # Two pixels a node, with a smooth surface through all nodes.
    places = [(x - 0.5) / 2 + margin for x in range(max(WIDTH, HEIGHT))]
    wide = []
    for y in range(rows):
        line = heights[y * columns : (y + 1) * columns]
        wide.append([cubic(*line[int(u) - 1 : int(u) + 3], u - int(u)) for u in places[:WIDTH]])
    pixels = []
    for v in places[:HEIGHT]:
        four = wide[int(v) - 1 : int(v) + 3]
        pixels.append([cubic(a, b, c, d, v - int(v)) for a, b, c, d in zip(*four)])
    lowest, highest = min(map(min, pixels)), max(map(max, pixels))
    # The root makes the peaks less steep and the slopes below them higher.
    pixels = [[math.sqrt((h - lowest) / (highest - lowest) + 0.05) for h in line] for line in pixels]
    least, most = math.sqrt(0.05), math.sqrt(1.05)
    pixels = [[(h - least) / (most - least) for h in line] for line in pixels]
    rivers = []
    for node, below in enumerate(receiver):
        if below != node and area[node] > 1000:
            place = [(n % columns - margin) * 2 + 0.5 for n in (node, below)]
            down = [(n // columns - margin) * 2 + 0.5 for n in (node, below)]
            rivers.append((place[0], down[0], place[1], down[1], area[node]))
    return pixels, rivers


# ---- The sheet ----


def step(value, low, high):
    """0 below `low`, 1 above `high`, smooth between."""
    t = min(max((value - low) / (high - low), 0.0), 1.0)
    return t * t * (3 - 2 * t)


def mix(one, other, part):
    return [a + (b - a) * part for a, b in zip(one, other)]


def slopes(heights, x, y):
    """How much the height changes to the right and downwards; the whole range of heights counts 100 pixels."""
    left, right = max(x - 1, 0), min(x + 1, WIDTH - 1)
    up, down = max(y - 1, 0), min(y + 1, HEIGHT - 1)
    line = heights[y]
    return (line[right] - line[left]) / (right - left) * 100, (heights[down][x] - heights[up][x]) / (down - up) * 100


def river_map(rivers):
    """How much water a pixel shows, 0 to 1."""
    water = {}
    for x0, y0, x1, y1, area in rivers:
        reach = 0.2 + min(math.sqrt(area) / 60, 1.6)
        for y in range(max(int(min(y0, y1) - reach - 1), 0), min(int(max(y0, y1) + reach + 2), HEIGHT)):
            for x in range(max(int(min(x0, x1) - reach - 1), 0), min(int(max(x0, x1) + reach + 2), WIDTH)):
                # The nearest point of the segment.
                dx, dy = x1 - x0, y1 - y0
                t = min(max(((x - x0) * dx + (y - y0) * dy) / (dx * dx + dy * dy), 0.0), 1.0)
                a, b = x - x0 - t * dx, y - y0 - t * dy
                wet = min(max(reach + 0.5 - math.sqrt(a * a + b * b), 0.0), 1.0)
                water[x, y] = max(water.get((x, y), 0.0), wet)
    return water


def picture(heights, rivers):
    """Rows of (red, green, blue): the land from above, with light from the upper left."""
    cover = fractal(WIDTH, HEIGHT, 64, 5, SEED + 200)
    patch = fractal(WIDTH, HEIGHT, 32, 4, SEED + 300)
    crowns = fractal(WIDTH, HEIGHT, 4, 2, SEED + 400)
    stone = fractal(WIDTH, HEIGHT, 16, 4, SEED + 500)
    water = river_map(rivers)
    # Rock is rough; its own relief catches the light.
    rough = [
        [h + (s - 0.5) * 0.022 * step(h, 0.2, 0.5) for h, s in zip(line, more)] for line, more in zip(heights, stone)
    ]
    rows = []
    for y in range(HEIGHT):
        line = []
        for x in range(WIDTH):
            h, c, p, k = heights[y][x], cover[y][x] - 0.5, patch[y][x] - 0.5, crowns[y][x] - 0.5
            right, down = slopes(heights, x, y)
            steep = math.sqrt(right * right + down * down)
            place, s = h + c * 0.16, stone[y][x] - 0.5
            meadow = mix((126, 140, 92), (160, 158, 112), step(p, -0.15, 0.2))
            forest = mix((54, 76, 54), (80, 98, 66), step(k + c, -0.25, 0.3))
            grass = mix((134, 132, 90), (160, 150, 112), step(p + k * 0.3, -0.2, 0.2))
            rock = mix((118, 112, 106), (166, 157, 145), step(s + p * 0.6, -0.25, 0.25))
            snow = (227, 232, 240)
            colour = mix(meadow, forest, step(p + c * 0.6 + steep * 0.16, 0.05, 0.10) * (1 - step(place, 0.36, 0.41)))
            colour = mix(colour, grass, step(place, 0.32, 0.42))
            colour = mix(colour, rock, max(step(place + steep * 0.12, 0.48, 0.60), step(steep, 1.0, 1.4)))
            lying = step(place + p * 0.2 + s * 0.22 - steep * 0.20, 0.21, 0.31) * step(place + p * 0.1, 0.37, 0.46)
            colour = mix(colour, snow, lying)
            wet = water.get((x, y), 0.0)
            if wet:
                colour = mix(colour, (116, 134, 132), wet * 0.8 * (1 - step(h, 0.3, 0.5)))
            right, down = slopes(rough, x, y)
            right, down = right * 0.85, down * 0.85
            light = (right * 0.58 + down * 0.58 + 0.62) / math.sqrt(right * right + down * down + 1)
            light = min(max(light, 0.0), 1.05)
            # Shade is blue, because the sky lights it; on snow it is bright. Even numbers alone pack better.
            sky = mix((0.46, 0.50, 0.58), (0.64, 0.69, 0.79), lying)
            sun = mix((0.78, 0.74, 0.63), (0.54, 0.49, 0.39), lying)
            line.append(
                [min(max(int(v * (a + b * light) + k * 8), 0), 255) & 254 for v, a, b in zip(colour, sky, sun)]
            )
        rows.append(line)
    return rows


def write_png(path, rows):
    """An RGB file; each row under the filter that leaves the smallest numbers."""

    def paeth(a, b, c):
        p = a + b - c
        return a if abs(p - a) <= abs(p - b) and abs(p - a) <= abs(p - c) else b if abs(p - b) <= abs(p - c) else c

    def chunk(name, data):
        return struct.pack(">I", len(data)) + name + data + struct.pack(">I", zlib.crc32(name + data))

    out = bytearray()
    above = bytes(len(rows[0]) * 3 + 3)
    for row in rows:
        line = bytes(3) + bytes(v for colour in row for v in colour)
        near = list(zip(line[3:], line, above[3:], above))
        tries = [
            bytes((v - a) & 255 for v, a, b, c in near),
            bytes((v - b) & 255 for v, a, b, c in near),
            bytes((v - (a + b) // 2) & 255 for v, a, b, c in near),
            bytes((v - paeth(a, b, c)) & 255 for v, a, b, c in near),
        ]
        best = min(range(4), key=lambda n: sum(min(v, 256 - v) for v in tries[n]))
        out.append(best + 1)
        out += tries[best]
        above = line
    header = struct.pack(">IIBBBBB", len(rows[0]), len(rows), 8, 2, 0, 0, 0)
    packed = chunk(b"IHDR", header) + chunk(b"IDAT", zlib.compress(bytes(out), 9)) + chunk(b"IEND", b"")
    path.write_bytes(b"\x89PNG\r\n\x1a\n" + packed)


# ---- EMF ----


def dib(width, height, bits, colours, pixel_rows):
    """A DIB's header with its colour table, and its bits. The lowest row stands first."""
    header = struct.pack("<IiiHHIIiiII", 40, width, height, 1, bits, 0, 0, 0, 0, len(colours), 0)
    header += b"".join(bytes((blue, green, red, 0)) for red, green, blue in colours)
    stored = b"".join(row + bytes(-len(row) % 4) for row in reversed(pixel_rows))
    return header, stored


def packed(numbers, bits):
    """A row of 1-bit or 4-bit numbers in bytes, the leftmost highest."""
    each = 8 // bits
    numbers = list(numbers) + [0] * (-len(numbers) % each)
    out = bytearray()
    for at in range(0, len(numbers), each):
        byte = 0
        for number in numbers[at : at + each]:
            byte = byte << bits | number
        out.append(byte)
    return bytes(out)


def record(kind, area, fields, parts):
    """Type, Size, Bounds, then the fields and the pictures' parts."""
    x, y, width, height = area
    body = struct.pack("<4i", x, y, x + width - 1, y + height - 1) + fields + b"".join(parts)
    body += bytes(-len(body) % 4)
    return struct.pack("<II", kind, len(body) + 8) + body


def places(begin, *parts):
    """Offset and length of each part, one behind the other."""
    out = b""
    for part in parts:
        out += struct.pack("<II", begin, len(part))
        begin += len(part)
    return out


IDENTITY = struct.pack("<6f", 1, 0, 0, 1, 0, 0)


def alpha_blend(area, source, picture_size, constant, premultiplied):
    x, y, width, height = area
    fields = struct.pack("<4i4B2i", x, y, width, height, 0, 0, constant, premultiplied, 0, 0)
    fields += IDENTITY + struct.pack("<II", 0, 0) + places(108, *source) + struct.pack("<2i", *picture_size)
    return record(0x72, area, fields, source)


def mask_blit(area, foreground, background, source, mask):
    x, y, width, height = area
    fields = struct.pack("<4i4B2i", x, y, width, height, 0, 0, foreground, background, 0, 0)
    fields += IDENTITY + struct.pack("<II", 0, 0)
    fields += (places(128, *source) if source else bytes(16)) + struct.pack("<iiI", 0, 0, 0)
    fields += places(128 + sum(map(len, source)), *mask)
    return record(0x4E, area, fields, [*source, *mask])


def stretched_dib(area, operation, source, picture_size):
    x, y, width, height = area
    fields = struct.pack("<6i", x, y, 0, 0, *picture_size) + places(80, *source)
    fields += struct.pack("<IIii", 0, operation, width, height)
    return record(0x51, area, fields, source)


def write_emf(path, records):
    """Header record, the records, EOF record. The device is the sheet at 96 pixels an inch."""
    end = struct.pack("<IIIII", 14, 20, 0, 16, 20)
    length = 108 + sum(map(len, records)) + len(end)
    header = struct.pack("<II4i4i", 1, 108, 0, 0, WIDTH - 1, HEIGHT - 1, 0, 0, 25400, 16933)
    header += struct.pack("<4sIIIHHIII", b" EMF", 0x10000, length, len(records) + 2, 1, 0, 0, 0, 0)
    header += struct.pack("<2i2i3I2I", WIDTH, HEIGHT, 254, 169, 0, 0, 0, 254000, 169333)
    path.write_bytes(header + b"".join(records) + end)


# ---- The bands ----

# Shallow to deep, blue to violet.
SCALE = [(150, 214, 252), (96, 178, 250), (52, 138, 238), (40, 96, 214), (66, 62, 192), (104, 46, 176), (142, 36, 156)]
LABELS = ["0.5", "1", "1.5", "2", "3", "4", "6"]
PANEL = (24, 474, 300, 142)
BAR = (38, 504, 273, 16)
# How each patch is drawn. Beside its name stands a sample that a record of the same kind draws: blend, mask, stretch.
KINDS = ["ALPHA BLEND", "MASK BLIT", "STRETCHED DIB"]
SAMPLES = [(38, 552 + 20 * n, 80, 14) for n in range(len(KINDS))]

FONT = {
    "0": "01110 10001 10011 10101 11001 10001 01110",
    "1": "00100 01100 00100 00100 00100 00100 01110",
    "2": "01110 10001 00001 00110 01000 10000 11111",
    "3": "11110 00001 00001 01110 00001 00001 11110",
    "4": "00010 00110 01010 10010 11111 00010 00010",
    "5": "11111 10000 11110 00001 00001 10001 01110",
    "6": "00110 01000 10000 11110 10001 10001 01110",
    ".": "00000 00000 00000 00000 00000 01100 01100",
    " ": "00000 00000 00000 00000 00000 00000 00000",
    "A": "01110 10001 10001 11111 10001 10001 10001",
    "B": "11110 10001 10001 11110 10001 10001 11110",
    "C": "01110 10001 10000 10000 10000 10001 01110",
    "D": "11110 10001 10001 10001 10001 10001 11110",
    "E": "11111 10000 10000 11110 10000 10000 11111",
    "H": "10001 10001 10001 11111 10001 10001 10001",
    "I": "01110 00100 00100 00100 00100 00100 01110",
    "K": "10001 10010 10100 11000 10100 10010 10001",
    "L": "10000 10000 10000 10000 10000 10000 11111",
    "M": "10001 11011 10101 10101 10001 10001 10001",
    "N": "10001 11001 10101 10011 10001 10001 10001",
    "O": "01110 10001 10001 10001 10001 10001 01110",
    "P": "11110 10001 10001 11110 10000 10000 10000",
    "R": "11110 10001 10001 11110 10100 10010 10001",
    "S": "01111 10000 10000 01110 00001 00001 11110",
    "T": "11111 00100 00100 00100 00100 00100 00100",
    "W": "10001 10001 10001 10101 10101 11011 10001",
}


def blurred(rows, reach, times):
    """A running mean along rows and columns, repeated."""

    def run(line):
        padded = [line[0]] * (reach + 1) + line + [line[-1]] * reach
        total, out = sum(padded[: 2 * reach + 1]), []
        for at in range(len(line)):
            total += padded[at + 2 * reach + 1] - padded[at]
            out.append(total / (2 * reach + 1))
        return out

    for _ in range(times):
        rows = [run(line) for line in rows]
        rows = [list(line) for line in zip(*[run(list(column)) for column in zip(*rows)])]
    return rows


def levels(smooth, drift, area, low, high, bands):
    """Which band each pixel of the area is in, as a number with a fraction; below 0 is none."""
    left, top, width, height = area
    rows = []
    for y in range(top, top + height):
        line = []
        for x in range(left, left + width):
            # Drifts make the bands wander off the contours a little, and towards the area's border they run out.
            drifted = smooth[y][x] + (drift[y][x] - 0.5) * 0.16
            a, b = (x - left) / width * 2 - 1, (y - top) / height * 2 - 1
            out = step(a * a + b * b, 0.4, 1.15)
            line.append(((drifted - low) / (high - low) - out) * bands)
        rows.append(line)
    return rows


def nearness(rows, x, y):
    """How many pixels away the next whole level is."""
    line, level = rows[y], rows[y][x]
    right = line[min(x + 1, len(line) - 1)] - line[max(x - 1, 0)]
    down = rows[min(y + 1, len(rows) - 1)][x] - rows[max(y - 1, 0)][x]
    slope = math.sqrt(right * right + down * down) / 2
    return abs(level - math.floor(level + 0.5)) / max(slope, 0.0001)


def blend_file(path, smooth, drift):
    """Bands over the left massif with thin lines between them, then the legend's bright panel and its sample of a blend."""
    area = (180, 84, 384, 380)
    rows = levels(smooth, drift, area, 0.42, 0.94, len(SCALE))
    stored = []
    for y, line in enumerate(rows):
        out = bytearray()
        for x, level in enumerate(line):
            edge = min(max(1.3 - nearness(rows, x, y), 0.0), 1.0) if -0.5 < level < len(SCALE) - 0.5 else 0.0
            band = min(int(level), len(SCALE) - 1)
            colour, alpha = (SCALE[band], 0.56) if level >= 0 else (SCALE[0], 0.0)
            # The line is drawn over the band, both premultiplied.
            dark, cover = (24, 28, 92), edge * 0.55
            mixed = [(c * alpha * (1 - cover) + d * cover) for c, d in zip(colour, dark)]
            total = alpha * (1 - cover) + cover
            out += bytes(int(v + 0.5) for v in (mixed[2], mixed[1], mixed[0], total * 255))
        stored.append(bytes(out))
    bands = alpha_blend(area, dib(area[2], area[3], 32, [], stored), area[2:], 255, 1)
    panel = alpha_blend(PANEL, dib(1, 1, 24, [], [b"\xff\xff\xff"]), (1, 1), 205, 0)
    # The bands' own colours at their own alpha.
    colours = b"".join(bytes(int(v * 0.56 + 0.5) for v in (blue, green, red, 255)) for red, green, blue in SCALE)
    sample = alpha_blend(SAMPLES[0], dib(len(SCALE), 1, 32, [], [colours]), (len(SCALE), 1), 255, 1)
    write_emf(path, [bands, panel, sample])


def mask_file(path, smooth, drift):
    """A hatched region on the lower ridge, then the legend's words in the brush's colour and its sample of a mask."""
    area = (556, 398, 344, 206)
    rows = levels(smooth, drift, area, 0.31, 0.62, 1)
    mask, source = [], []
    for y, line in enumerate(rows):
        hatch = [level >= 0 and (x + y) % 10 < 2 for x, level in enumerate(line)]
        outline = [-0.5 < level < 0.5 and nearness(rows, x, y) < 1.1 for x, level in enumerate(line)]
        mask.append(packed([int(a or b) for a, b in zip(hatch, outline)], 1))
        source.append(packed([min(max(int(level * 16), 0), 15) for level in line], 4))
    colours = [(255, 176 - 9 * n, 48 - 2 * n) for n in range(16)]
    both = [(0, 0, 0), (255, 255, 255)]
    hatched = mask_blit(
        area, 0xCC, 0xAA, dib(area[2], area[3], 4, colours, source), dib(area[2], area[3], 1, both, mask)
    )
    left, top, width, height = PANEL
    dots = [[0] * width for _ in range(height)]
    put_words(dots, "SNOW DEPTH IN M", BAR[0] - left, 9)
    for n, label in enumerate(LABELS):
        each = BAR[2] // len(LABELS)
        put_words(dots, label, BAR[0] - left + n * each + (each - len(label) * 12 + 2 + 5 * label.count(".")) // 2, 52)
    for kind, (x, y, wide, _) in zip(KINDS, SAMPLES):
        put_words(dots, kind, x - left + wide + 16, y - top)
    words = dib(width, height, 1, both, [packed(line, 1) for line in dots])
    write_emf(path, [hatched, mask_blit(PANEL, 0xF0, 0xAA, [], words), mask_sample(colours, both)])


def mask_sample(colours, both):
    """The hatch in a frame, from shallow to deep."""
    _, _, width, height = SAMPLES[1]
    source = [packed([x * 16 // width for x in range(width)], 4)] * height
    frame = lambda x, y: x in (0, width - 1) or y in (0, height - 1)
    hatch = [packed([int(frame(x, y) or (x + y) % 10 < 2) for x in range(width)], 1) for y in range(height)]
    return mask_blit(SAMPLES[1], 0xCC, 0xAA, dib(width, height, 4, colours, source), dib(width, height, 1, both, hatch))


def put_words(dots, text, x, y):
    """Letters of 10 by 14 dots."""
    for letter in text:
        for row, line in enumerate(FONT[letter].split()):
            for column, dot in enumerate(line):
                if dot == "1":
                    for place in range(4):
                        dots[y + row * 2 + place // 2][x + column * 2 + place % 2] = 1
        x += 7 if letter == "." else 12


def stretch_file(path, smooth, drift):
    """Depth classes in squares over the right massif, then the legend's scale and its sample of stretched squares."""
    cell, columns, rows = 10, 32, 32
    left, top = 574, 46
    # Ones from the left in each channel: the land shows through, in steps that grow with the depth.
    colours = [(255, 255, 255)]
    colours += [(0xC0, 0xE0, 0xFF), (0x80, 0xE0, 0xFF), (0x80, 0xC0, 0xFF), (0x80, 0x80, 0xFF), (0xC0, 0x80, 0xFF)]
    area = (left, top, columns * cell, rows * cell)
    fine = levels(smooth, drift, area, 0.42, 0.90, len(colours) - 1)
    # Each square has the level of its middle.
    middles = [line[cell // 2 :: cell] for line in fine[cell // 2 :: cell]]
    classes = [bytes(min(max(int(level + 1), 0), len(colours) - 1) for level in line) for line in middles]
    squares = stretched_dib(area, 0x008800C6, dib(columns, rows, 8, colours, classes), (columns, rows))
    scale = stretched_dib(BAR, 0x00CC0020, dib(len(SCALE), 1, 8, SCALE, [bytes(range(len(SCALE)))]), (len(SCALE), 1))
    shown = dib(len(colours) - 1, 1, 8, colours, [bytes(range(1, len(colours)))])
    sample = stretched_dib(SAMPLES[2], 0x00CC0020, shown, (len(colours) - 1, 1))
    write_emf(path, [squares, scale, sample])


def main():
    FOLDER.mkdir(parents=True, exist_ok=True)
    heights, rivers = land()
    write_png(FOLDER / "sheet.png", picture(heights, rivers))
    smooth = blurred(heights, 4, 2)
    drift = fractal(WIDTH, HEIGHT, 64, 3, SEED + 600)
    blend_file(FOLDER / "bands-blend.emf", smooth, drift)
    mask_file(FOLDER / "bands-mask.emf", smooth, drift)
    stretch_file(FOLDER / "bands-stretch.emf", smooth, drift)
    for path in sorted(FOLDER.iterdir()):
        print(f"{path.name}: {path.stat().st_size} bytes")


if __name__ == "__main__":
    main()
