#!/usr/bin/env python3
"""expected.py < SCAN > OUTPUT   computes what `fuse` has to write for a scan, by the rules of docs/SCAN.md and docs/MODEL.md.
expected.py --blocks          prints the sums of single blocks that the tests of fuse_kernel expect.

Its exit status and its line on standard error are the program's too. It shares nothing with the program, and it is slow: it is
here so that the expected outputs of the examples come from outside. JSON that Python and the program read otherwise (as NaN, or a
name that stands twice) is beyond it."""
import json
import re
import sys
from fractions import Fraction

E = 2 ** 30


class Refused(Exception):
    """A scan is refused at an offset, for a reason."""

    def __init__(self, at, what):
        super().__init__("fusion: scan refused at byte %d: %s" % (at, what))


def cam_of(rows, p):
    r, t = [rows[0:3], rows[4:7], rows[8:11]], [rows[3], rows[7], rows[11]]
    return [sum(r[j][i] * (p[j] - t[j]) for j in range(3)) // E for i in range(3)]


def world_of(rows, c):
    r, t = [rows[0:3], rows[4:7], rows[8:11]], [rows[3], rows[7], rows[11]]
    return [t[i] + sum(r[i][j] * c[j] for j in range(3)) // E for i in range(3)]


def is_active(config, rows, key):
    x, y, z = cam_of(rows, [(8 * key[i] + 4) * config["voxel"] for i in range(3)])
    return x * x + y * y + (z - config["centre"]) ** 2 <= config["radius"] ** 2


def ray(config, u, v, z):
    return [(65536 * u - config["cx"]) * z // config["fx"], (65536 * v - config["cy"]) * z // config["fy"], z]


def depth(config, raw, u, v):
    sample = raw[v * config["width"] + u]
    d = sample * config["unit"]
    return d if sample != 0 and config["near"] <= d <= config["far"] else None


def band(config, rows, raw):
    """The blocks of the samples of each pixel's segment."""
    k, s, found = config, config["voxel"], set()
    for v in range(k["height"]):
        for u in range(k["width"]):
            d = depth(k, raw, u, v)
            if d is None:
                continue
            a, b = (world_of(rows, ray(k, u, v, z)) for z in (max(1, d - k["mu"]), d + k["mu"]))
            n = 1 + 2 * max(abs(b[i] - a[i]) for i in range(3)) // (8 * s)
            found |= {tuple((a[i] + j * (b[i] - a[i]) // n) // (8 * s) for i in range(3)) for j in range(n + 1)}
    return found


def update(config, rows, raw, key, voxels):
    """Updates every voxel of a block."""
    k, s, mu = config, config["voxel"], config["mu"]
    for i in range(512):
        x, y, z = cam_of(rows, [(8 * key[a] + n) * s for a, n in enumerate((i % 8, i // 8 % 8, i // 64))])
        if z <= 0:
            continue
        u = (k["fx"] * x + k["cx"] * z + 32768 * z) // (65536 * z)
        v = (k["fy"] * y + k["cy"] * z + 32768 * z) // (65536 * z)
        if not (0 <= u < k["width"] and 0 <= v < k["height"]):
            continue
        d = depth(k, raw, u, v)
        if d is None or d - z < -mu:
            continue
        f, w = voxels[i]
        new = min(32767, 32767 * (d - z) // mu)
        voxels[i] = ((2 * (w * f + new) + w + 1) // (2 * (w + 1)), min(w + 1, k["max_weight"]))


def bad_pose(rows):
    """Why twelve numbers are no pose, None where they are one."""
    r = [rows[0:3], rows[4:7], rows[8:11]]
    if any(abs(e) > E + 2 ** 17 for row in r for e in row) or any(abs(rows[i]) > 10 ** 8 for i in (3, 7, 11)):
        return "range"
    for i in range(3):
        for j in range(3):
            if abs(sum(row[i] * row[j] for row in r) - (2 ** 60 if i == j else 0)) > 2 ** 48:
                return "rotation"
    (a, b, c), (d, e, f), (g, h, i) = r
    return None if a * (e * i - f * h) - b * (d * i - f * g) + c * (d * h - e * g) > 0 else "rotation"


def frame_reply(config, state, rows, sides, raw):
    if sides != (config["width"], config["height"]):
        return "frame refused size"
    if bad_pose(rows):
        return "frame refused pose " + bad_pose(rows)
    keys = set(state["blocks"]) | band(config, rows, raw)
    active = sum(is_active(config, rows, key) for key in keys)
    if active > config["heap_blocks"]:
        return "frame refused heap %d" % config["heap_blocks"]
    for key in keys:
        update(config, rows, raw, key, state["blocks"].setdefault(key, [(32767, 0)] * 512))
    state["frames"] += 1
    state["last"] = rows
    return "frame %d blocks %d resident %d" % (state["frames"], len(keys), active)


def number(word, scale):
    """The whole number nearest to a decimal times a scale, None where the word is no decimal or the number is too great."""
    m = re.fullmatch(rb"([+-]?)(?=.*[0-9])([0-9]*)(?:\.([0-9]*))?(?:[eE]([+-]?[0-9]{1,3}))?", word, re.S)
    if not m:
        return None
    whole, fraction, exponent = m[2], m[3] or b"", int(m[4] or b"0")
    if not 1 <= len(whole + fraction) <= 24 or exponent > 3:
        return None
    value = Fraction(int(whole + fraction)) * Fraction(10) ** (exponent - len(fraction)) * (-1 if m[1] == b"-" else 1)
    nearest = (value * scale + Fraction(1, 2)).__floor__()
    return nearest if abs(nearest) <= 10 ** 18 else None


def pgm_at(text, start):
    """The sides and samples of the PGM at an offset, and the offset after it."""
    at = start

    def byte():
        if at >= len(text):
            raise Refused(len(text), "short")
        return text[at]

    def header_byte(fits):
        nonlocal at
        if not fits(byte()) or at - start >= 4096:
            raise Refused(at, "pgm header")
        at += 1

    def is_white(b):
        return b == 32 or 9 <= b <= 13

    def gap_and_number():
        """A gap of white bytes and comments, and the digits after it."""
        nonlocal at
        gap = at
        while True:
            if at > gap and byte() in b"0123456789":
                break
            comment = byte() == 35
            header_byte(lambda b: is_white(b) or b == 35)
            while comment:
                comment = byte() not in b"\n\r"
                header_byte(lambda b: True)
        first = at
        while byte() in b"0123456789":
            if at - first == 9:
                raise Refused(at, "pgm header")
            header_byte(lambda b: True)
        return first, int(text[first:at])

    if len(text) < start + 2:
        raise Refused(len(text), "short")
    if text[start:start + 2] != b"P5":
        raise Refused(start, "pgm magic")
    at += 2
    sides = []
    for _ in range(2):
        first, side = gap_and_number()
        if not (is_white(byte()) or byte() == 35):
            raise Refused(at, "pgm header")
        if not 1 <= side <= 4096:
            raise Refused(first, "pgm header")
        sides.append(side)
    first, most = gap_and_number()
    header_byte(is_white)
    if not 1 <= most <= 65535:
        raise Refused(first, "pgm maxval")
    size, raw = 1 if most < 256 else 2, []
    for _ in range(sides[0] * sides[1]):
        if at + size > len(text):
            raise Refused(len(text), "short")
        sample = int.from_bytes(text[at:at + size], "big")
        if sample > most:
            raise Refused(at, "pgm sample")
        raw.append(sample)
        at += size
    return tuple(sides), raw, at


def line_at(text, at, limit):
    end = text.find(b"\n", at)
    if (end if end >= 0 else len(text)) - at > limit:
        raise Refused(at + limit, "long")
    if end < 0:
        raise Refused(len(text), "short")
    return text[at:end]


def place(config, state, key):
    """Where the block of a key lies: in the heap where it is active for the last frame that was accepted."""
    if key not in state["blocks"]:
        return "none"
    return "heap" if is_active(config, state["last"], key) else "store"


def value(blocks, c):
    """The distance of the voxel with these coordinates, None where it is not known."""
    voxels = blocks.get(tuple(a // 8 for a in c))
    if voxels is None:
        return None
    f, w = voxels[c[0] % 8 + 8 * (c[1] % 8) + 64 * (c[2] % 8)]
    return f if w > 0 else None


def picture(config, state):
    """The picture of the map from the last pose, as a PGM: of each pixel the first depth at which the values of the points on its ray
    fall from above 0 to at most 0, where a straight line between them is 0; 0 where they do at none."""
    k, s, raw = config, config["voxel"], b""

    def nearest(u, v, z):
        return [(2 * a + s) // (2 * s) for a in world_of(state["last"], ray(k, u, v, z))]

    def sample(u, v):
        depths = range(k["near"], k["far"] + 1, s)
        values = [value(state["blocks"], nearest(u, v, z)) for z in depths]
        for z, f, g in zip(depths, values, values[1:]):
            if f is not None and g is not None and f > 0 >= g:
                return min(65535, (z + s * f // (f - g)) // k["unit"])
        return 0

    for v in range(k["height"]):
        for u in range(k["width"]):
            raw += sample(u, v).to_bytes(2, "big")
    return b"P5\n%d %d\n65535\n" % (k["width"], k["height"]) + raw


def voxels_of(blocks):
    """The coordinates, the distance and the weight of each known voxel, by key and then by index."""
    return [((8 * b[0] + i % 8, 8 * b[1] + i // 8 % 8, 8 * b[2] + i // 64), f, w)
            for b in sorted(blocks) for i, (f, w) in enumerate(blocks[b]) if w > 0]


def collected(config, state):
    """The keys of the blocks that are collected: active for the last frame that was accepted, and without a known voxel whose
    distance is near enough to 0."""
    if state["frames"] == 0:
        return []
    return [key for key, voxels in state["blocks"].items() if is_active(config, state["last"], key)
            and not any(w > 0 and abs(f) < config["empty_f"] for f, w in voxels)]


def points(config, blocks):
    """The points at which the values go through 0 between a known voxel and the next one along an axis."""
    s, found = config["voxel"], []
    for c, f, _ in voxels_of(blocks):
        for axis in range(3):
            g = value(blocks, [c[i] + (i == axis) for i in range(3)])
            if g is not None and (f > 0) != (g > 0):
                found.append([s * c[i] + (s * f // (f - g) if i == axis else 0) for i in range(3)])
    return found


def answer(config, state, text, out):
    """Answers the records of a text one after the other: each answer is a line, or the bytes of a picture."""
    at, lines, blocks = len(line_at(text, 0, 4096)) + 1, 1, state["blocks"]
    while True:
        if lines == 1000000:
            raise Refused(at, "lines" if at < len(text) else "short")
        lines, start, line = lines + 1, at, line_at(text, at, 1024)
        at += len(line) + 1
        words = list(re.finditer(rb"[^ \t\r]+", line))
        if not words:
            continue
        word = words[0][0]
        if word == b"frame" and len(words) == 13:
            rows = []
            for i, w in enumerate(words[1:]):
                rows.append(number(w[0], 10 ** 6 if i % 4 == 3 else E))
                if rows[-1] is None:
                    raise Refused(start + w.start(), "number")
            sides, raw, at = pgm_at(text, at)
            out.append(frame_reply(config, state, rows, sides, raw))
        elif word == b"render" and len(words) == 1:
            if state["frames"] == 0:
                out.append("render refused no frame")
            else:
                out += ["render %d" % state["frames"], picture(config, state)]
        elif word == b"voxels" and len(words) == 1:
            known = voxels_of(blocks)
            out.append("voxels %d %d" % (len(blocks), len(known)))
            out += ["%d %d %d %d %d" % (*c, f, w) for c, f, w in known]
        elif word == b"sum" and len(words) == 1:
            known = voxels_of(blocks)
            out.append("sum blocks %d known %d weight %d distance %d"
                       % (len(blocks), len(known), sum(w for _, _, w in known), sum(f for _, f, _ in known)))
        elif word == b"points" and len(words) == 1:
            found = points(config, blocks)
            out += ["points %d" % len(found), "ply", "format ascii 1.0", "element vertex %d" % len(found)]
            out += ["property int " + axis for axis in "xyz"] + ["end_header"] + ["%d %d %d" % (*p,) for p in found]
        elif word == b"collect" and len(words) == 1:
            gone = collected(config, state)
            for key in gone:
                del blocks[key]
            out.append("collect %d" % len(gone))
        elif word == b"place" and len(words) == 4:
            for w in words[1:]:
                if not re.fullmatch(rb"-?[0-9]{1,5}", w[0]) or not -2 ** 15 <= int(w[0]) < 2 ** 15:
                    raise Refused(start + w.start(), "number")
            out.append("place " + place(config, state, tuple(int(w[0]) for w in words[1:])))
        elif word == b"end" and len(words) == 1:
            out.append("end")
            return
        else:
            raise Refused(start, "line")


NAMES = ["version", "width", "height", "fx", "fy", "cx", "cy", "unit", "near", "far", "voxel", "mu", "radius", "centre",
         "max_weight", "heap_blocks", "buckets", "empty_f"]


def config_of(line):
    def refuse(what):
        raise Refused(0, "config " + what)

    def need(first, *tests):
        for n, test in enumerate(tests, first):
            if not test:
                refuse("field %d" % n)

    try:
        k = json.loads(line.decode())
    except ValueError:
        refuse("json")
    if not isinstance(k, dict):
        refuse("json")
    if sorted(k) != sorted(NAMES):
        refuse("names")
    need(1, *(type(k[name]) is int and -2 ** 63 <= k[name] < 2 ** 63 for name in NAMES))
    w, h, cx, cy = k["width"], k["height"], k["cx"], k["cy"]
    need(1, k["version"] == 1, 1 <= w <= 2048, 1 <= h <= 2048, 1 <= k["fx"] <= 2 ** 30, 1 <= k["fy"] <= 2 ** 30,
         0 <= cx <= 65536 * w, 0 <= cy <= 65536 * h, 1 <= k["unit"] <= 100000, 1 <= k["near"] <= 16000000,
         k["near"] <= k["far"] <= 16000000, 1000 <= k["voxel"] <= 100000, k["voxel"] <= k["mu"] <= 1000000,
         1 <= k["radius"] <= 100000000, 0 <= k["centre"] <= 17000000)
    z = k["far"] + k["mu"]
    x = z * max(cx + 32768, abs(65536 * w - cx - 32768)) // k["fx"] + 1
    y = z * max(cy + 32768, abs(65536 * h - cy - 32768)) // k["fy"] + 1
    if x > 17000000 or y > 17000000:
        refuse("reach")
    m = 14 * k["voxel"] + (x + y + z) // 1024 + 16
    if (x + m) ** 2 + (y + m) ** 2 + (max(k["centre"], abs(z - k["centre"])) + m) ** 2 > k["radius"] ** 2:
        refuse("sphere")
    need(15, 1 <= k["max_weight"] <= 255, 1 <= k["heap_blocks"] <= 65536,
         k["buckets"] in [2 ** i for i in range(17)], 0 <= k["empty_f"] <= 32767)
    return k


WALL_CAMERA = dict(width=16, height=12, fx=1048576, fy=1048576, cx=524288, cy=393216, unit=1000, near=300000, far=2000000,
                   voxel=10000, mu=40000)
UPRIGHT = (E, 0, 0, 0, 0, E, 0, 0, 0, 0, E, 0)
SIDEWAYS = (0, 0, E, 12345, 0, E, 0, -6789, -E, 0, 0, 101)
TILTED = (644245094, -858993459, 0, 12345, 858993459, 644245094, 0, -6789, 0, 0, E, 101)
BLOCKS = [("in front of the wall", UPRIGHT, (0, 0, 12)), ("at the camera", UPRIGHT, (-1, -1, 0)),
          ("at the right edge of the image", UPRIGHT, (6, 0, 12)), ("at the upper edge of the image", UPRIGHT, (0, -5, 11)),
          ("behind the camera", UPRIGHT, (0, 0, -5)), ("to the right of the image", UPRIGHT, (9, 0, 12)),
          ("at the ends of the keys", UPRIGHT, (32767, -32768, 5)), ("along x", SIDEWAYS, (12, 0, 0)),
          ("beside the image, along x", SIDEWAYS, (0, 0, 12)), ("tilted", TILTED, (2, -3, 12)),
          ("at the ends of the keys, tilted", TILTED, (-32768, 32767, -32768))]


def block_sums():
    """Of each block in BLOCKS, after three frames of a rough wall: its name, the number of its known voxels, and the sums over
    all its voxels of (index + 1) times the distance and of (index + 1) times the weight."""
    for name, rows, key in BLOCKS:
        voxels = [(32767, 0)] * 512
        for depth_mm, max_weight in [(1000, 255), (950, 255), (990, 2)]:
            wall = [0 if i % 7 == 0 else depth_mm + i % 5 * 20 for i in range(16 * 12)]
            update(dict(WALL_CAMERA, max_weight=max_weight), rows, wall, key, voxels)
        yield (name, sum(w > 0 for _, w in voxels), sum(i * f for i, (f, _) in enumerate(voxels, 1)),
               sum(i * w for i, (_, w) in enumerate(voxels, 1)))


def main():
    if sys.argv[1:] == ["--blocks"]:
        for sums in block_sums():
            print("%s: %d %d %d" % sums)
        return
    if sys.argv[1:]:
        print("usage: expected.py < SCAN > OUTPUT, or expected.py --blocks", file=sys.stderr)
        sys.exit(2)
    text, out = sys.stdin.buffer.read(), []
    try:
        config = config_of(line_at(text, 0, 4096))
        answer(config, {"blocks": {}, "frames": 0}, text, out)
        status = 0
    except Refused as refused:
        print(refused, file=sys.stderr)
        status = 3
    sys.stdout.buffer.write(b"".join(part if isinstance(part, bytes) else part.encode() + b"\n" for part in out))
    sys.exit(status)


if __name__ == "__main__":
    main()
