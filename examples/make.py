#!/usr/bin/env python3
"""Makes the example: a water meter's register as a binary greymap, as a cheap camera would see it, and the opcode list that mends it.

    make.py FOLDER      writes register.pgm and register.list there

The picture is synthetic. Its right side is darker than its left and its corners darker than its middle, and some pixels are dead (0). The list
repairs the dead pixels (FixBadPixelsConstant, FixBadPixelsList for two stuck ones) and undoes the shading (ScalePerColumn, GainMap).
"""
import struct
import sys

WIDTH, HEIGHT, MAXVAL = 192, 64, 255
DIGITS = "0041738"

# 5 by 7 dots for each digit, a row to a string
FONT = {
    "0": ["01110", "10001", "10011", "10101", "11001", "10001", "01110"],
    "1": ["00100", "01100", "00100", "00100", "00100", "00100", "01110"],
    "2": ["01110", "10001", "00001", "00110", "01000", "10000", "11111"],
    "3": ["11110", "00001", "00001", "01110", "00001", "00001", "11110"],
    "4": ["00010", "00110", "01010", "10010", "11111", "00010", "00010"],
    "5": ["11111", "10000", "11110", "00001", "00001", "10001", "01110"],
    "6": ["00110", "01000", "10000", "11110", "10001", "10001", "01110"],
    "7": ["11111", "00001", "00010", "00100", "01000", "01000", "01000"],
    "8": ["01110", "10001", "10001", "01110", "10001", "10001", "01110"],
    "9": ["01110", "10001", "10001", "01111", "00001", "00010", "01100"],
}


def register():
    """The register as it is: a light frame, a dark window for each digit, light digits, the last one on a grey ground."""
    img = [[200] * WIDTH for _ in range(HEIGHT)]
    for k, digit in enumerate(DIGITS):
        left, top = 6 + 26 * k, 8
        ground = 120 if k == len(DIGITS) - 1 else 40
        for y in range(top, top + 48):
            for x in range(left, left + 24):
                img[y][x] = ground
        for gy, row in enumerate(FONT[digit]):
            for gx, dot in enumerate(row):
                if dot == "1":
                    for y in range(top + 3 + 6 * gy, top + 9 + 6 * gy):
                        for x in range(left + 2 + 4 * gx, left + 6 + 4 * gx):
                            img[y][x] = 225
    return img


# ---- what the camera does to it

POINTS = 5  # the gain map's points, in each direction


def column_gain(x):
    """The right side sees less light."""
    return 1.0 + 0.5 * x / (WIDTH - 1)


def corner_gain(v, h):
    """The corners see less light; v and h count the map's points."""
    middle = (POINTS - 1) / 2
    return 1.0 + 0.35 * (((v - middle) / middle) ** 2 + ((h - middle) / middle) ** 2) / 2


def map_gain(y, x):
    """The map between its points: rows first, then columns."""
    fy = y / HEIGHT * (POINTS - 1)
    fx = x / WIDTH * (POINTS - 1)
    i, j = min(int(fy), POINTS - 2), min(int(fx), POINTS - 2)
    t, u = fy - i, fx - j
    low = corner_gain(i, j) * (1 - t) + corner_gain(i + 1, j) * t
    high = corner_gain(i, j + 1) * (1 - t) + corner_gain(i + 1, j + 1) * t
    return low * (1 - u) + high * u


def dead_pixels():
    """Where the sensor gives nothing: a fixed scatter, no two of them neighbours."""
    seen = []
    state = 12345
    while len(seen) < 90:
        state = (state * 1103515245 + 12345) % 2147483648
        x, y = (state >> 8) % WIDTH, (state >> 17) % HEIGHT
        if all(max(abs(x - a), abs(y - b)) > 2 for a, b in seen):
            seen.append((x, y))
    return seen


STUCK = [(60, 20), (131, 44)]  # two pixels that always give 255


def camera(img):
    out = [[max(1, round(v / (column_gain(x) * map_gain(y, x)))) for x, v in enumerate(row)] for y, row in enumerate(img)]
    for x, y in dead_pixels():
        out[y][x] = 0
    for x, y in STUCK:
        out[y][x] = 255
    return out


# ---- the opcode list, big-endian throughout


def entry(opcode, body):
    return struct.pack(">IIII", opcode, 0x01030000, 0, len(body)) + body


def opcodes():
    region = struct.pack(">8I", 0, 0, HEIGHT, WIDTH, 0, 1, 1, 1)
    constant = struct.pack(">II", 0, 0)
    points = struct.pack(">III", 0, len(STUCK), 0) + b"".join(struct.pack(">II", y, x) for x, y in STUCK)
    columns = region + struct.pack(">I", WIDTH) + b"".join(struct.pack(">f", column_gain(x)) for x in range(WIDTH))
    gains = [corner_gain(v, h) for v in range(POINTS) for h in range(POINTS)]
    step = 1.0 / (POINTS - 1)
    gain_map = region + struct.pack(">II4dI", POINTS, POINTS, step, step, 0.0, 0.0, 1) + b"".join(struct.pack(">f", g) for g in gains)
    entries = [entry(4, constant), entry(5, points), entry(12 + 1, columns), entry(9, gain_map)]
    return struct.pack(">I", len(entries)) + b"".join(entries)


def main():
    folder = sys.argv[1]
    seen = camera(register())
    with open(folder + "/register.pgm", "wb") as f:
        f.write(b"P5\n# a meter register, synthetic\n%d %d\n%d\n" % (WIDTH, HEIGHT, MAXVAL))
        f.write(b"".join(bytes(row) for row in seen))
    with open(folder + "/register.list", "wb") as f:
        f.write(opcodes())


main()
