#!/usr/bin/env python3
"""compare.py SEED N [--program FILE] [--keep FOLDER]   runs N random scans and compares the program with expected.py.

Valid scans and broken ones: sizes, poses, refusals, texts that are cut off or changed, several pixels, turned poses, both widths of
samples. Standard output, the exit status and standard error have to agree byte for byte. A scan is made of SEED and its number
alone; one that differs is kept in the folder."""
import argparse
import collections
import os
import random
import re
import subprocess
import sys

import make_config

HERE = os.path.dirname(os.path.abspath(__file__))


def some_config(r):
    """A configuration whose scan is cheap to evaluate: a few pixels that see a few blocks."""
    width, height = r.choice([(1, 1), (1, 1), (r.randint(1, 8), r.randint(1, 6))])
    voxel = r.choice([0.01, 0.02, 0.05, 0.1, r.randint(5000, 100000) / 1e6])
    near = r.choice([0.3, 0.5, r.randint(1, 800000) / 1e6])
    far = near + r.choice([0.5, 1.0, r.randint(0, 2000000) / 1e6])
    spread = r.uniform(0.05, 2) * 16 * voxel / far
    focal = max(width, height) / spread
    k = make_config.camera(
        (width, height), (focal, focal * r.uniform(0.7, 1.3)), (r.uniform(0, width), r.uniform(0, height)), (near, far), voxel,
        mu=min(1.0, voxel * r.choice([1, 1.5, 2, 4])), unit=r.choice([100, 200, 1000, 5000, 10000]),
        max_weight=r.choice([1, 2, 3, 100, 255]), heap_blocks=r.choice([1, 4, 16, 64, 300, 65536]), buckets=2 ** r.randint(0, 16),
        empty_f=r.choice([0, 32767, r.randint(0, 32767)] + 3 * [int(2 ** r.uniform(6, 15))]))
    if r.random() < 0.3:
        k["centre"] = r.randint(0, k["far"] + k["mu"])
        k["radius"] = make_config.least_radius(k)
    if r.random() < 0.3:
        k["radius"] = r.randint(k["radius"], 2 * k["radius"])
    return k


def broken_config(r, k):
    """The line of a configuration with one thing wrong, or nearly so."""
    name, values = r.choice(list(k)), dict(k)
    least, most = make_config.RANGES.get(name, (0, 65536 * k["width" if name == "cx" else "height"]))
    way = r.randrange(8)
    if way == 0:
        values[name] = r.choice([least - 1, most + 1, least, most, 2 ** 63 - 1, 2 ** 63, -2 ** 63, -2 ** 63 - 1])
    elif way == 1:
        values["radius"] = max(1, make_config.least_radius(k) - r.randint(0, 1))
    elif way == 2:
        del values[name]
    elif way == 3:
        values[r.choice(["Width", "extra", "", "cx "])] = 1
    elif way == 4:
        values[name] = r.choice([None, True, "5", [1], {"a": 1}, 1.5, 1.0])
    elif way == 5:
        return r.choice(["", " ", "[1]", "5", "null", "{", make_config.line(k) + "}", make_config.line(k)[:-1], "{'a':1}", "\t{}"])
    elif way == 6:
        values["fx"] = r.randint(1, 200)
    else:
        names = list(values)
        r.shuffle(names)
        return r.choice([" ", "\t", ""]) + " , ".join('"%s" :%s' % (n, values[n]) for n in names).join("{}") + r.choice(["", " \r"])
    return make_config.line(values)


def rotation(r):
    """The rotation of a random quaternion, turned a little or much."""
    big = r.choice([0.01, 0.2, 1.0])
    w, x, y, z = 1.0, *(r.uniform(-big, big) for _ in range(3))
    n = (w * w + x * x + y * y + z * z) ** 0.5
    w, x, y, z = w / n, x / n, y / n, z / n
    return [[1 - 2 * (y * y + z * z), 2 * (x * y - z * w), 2 * (x * z + y * w)],
            [2 * (x * y + z * w), 1 - 2 * (x * x + z * z), 2 * (y * z - x * w)],
            [2 * (x * z - y * w), 2 * (y * z + x * w), 1 - 2 * (x * x + y * y)]]


def axes(r):
    """A matrix of zeros, ones and minus ones, a rotation or a mirror."""
    rows = [[0, 0, 0] for _ in range(3)]
    for row, i in zip(rows, r.sample(range(3), 3)):
        row[i] = r.choice([1, -1])
    return rows


def spelled(r, x):
    """A number in one of the spellings that the language has, or in one that it has not."""
    way = r.random()
    if way < 0.6:
        return "%.*f" % (r.choice([4, 6, 9, 12]), x)
    if way < 0.7 and x == int(x):
        return r.choice(["%d", "%+d", "%d.", "%d.0", "%de0", "%dE+0", "%d0e-1", "0%d", "%d.000000000000000000000"]) % int(x)
    if way < 0.8:
        return "%.9e" % x if abs(x) >= 0.001 else "%.9f" % x
    if way < 0.97:
        return "%.9f" % x
    return r.choice(["", ".", "+", "-.", "1e", "1e4", "1e-4", "1e03", "1e0003", "--1", "1..", "nan", "0x1", "1e+", "1_0", "é", "9" * 24,
                     "9" * 25, "1" + "0" * 12, "0." + "0" * 23, "0." + "0" * 24, "1e3", "-5e-3"]) or "%d" % r.randint(-2, 2)


def frame(r, k):
    rows = r.choice([rotation(r), rotation(r), rotation(r), rotation(r), [[1, 0, 0], [0, 1, 0], [0, 0, 1]], axes(r)])
    if r.random() < 0.05:
        rows = [[1.0002 * x for x in row] for row in rows]
    step = r.choice([0, 0.05, 0.3, 0.3, 3, 60, 101]) if r.random() < 0.3 else r.choice([0, 0.02, 0.1])
    words = [spelled(r, x) if r.random() < 0.1 else "%.9f" % x for row in rows for x in (*row, r.uniform(-step, step))]
    if r.random() < 0.02:
        words = words[:-1] if r.random() < 0.5 else words + ["0"]
    gap = r.choice([" ", "  ", "\t", " \r"])
    line = r.choice(["", "", " "]) + "frame " + gap.join(words) + r.choice(["", "", " ", "\r"]) + "\n"
    return line.encode() + depth_map(r, k)


def place(r, k):
    """A question for the place of a block, mostly of one that a frame at the origin can see."""
    side = 8 * k["voxel"]
    words = [str(r.randint(-2, 1)), str(r.randint(-2, 1)), str(r.randint(k["near"] // side, (k["far"] + k["mu"]) // side))]
    if r.random() < 0.1:
        words[r.randrange(3)] = r.choice(["-0", "00012", "-32768", "32767"])
    if r.random() < 0.02:
        words[r.randrange(3)] = r.choice(["32768", "-32769", "99999", "+1", "000001", "-", "--1", "1.0", "1e0", "x"])
    if r.random() < 0.02:
        words = words[:-1] if r.random() < 0.5 else words + ["0"]
    return ("place " + r.choice([" ", "  ", "\t"]).join(words) + r.choice(["", " ", "\r"]) + "\n").encode()


def gap(r):
    return b"".join(r.choice([b" ", b"\n", b"\t", b"\r", b"\x0b", b"\x0c", b"# a comment\n", b"#\r"]) for _ in range(r.randint(1, 3))) \
        if r.random() < 0.3 else r.choice([b" ", b"\n"])


def depth_map(r, k):
    sides = [k["width"], k["height"]]
    if r.random() < 0.05:
        sides[r.randrange(2)] += r.choice([1, -1, 5])
    most = r.choice([65535, 65535, 40000, 255, 200, 256])
    size = 1 if most < 256 else 2
    middle = r.randint(k["near"], k["far"]) // k["unit"]
    samples, count = b"", max(0, sides[0] * sides[1])
    for _ in range(count):
        sample = r.choice([middle, middle + r.randint(-3, 3), middle + r.randint(-40, 40), 0, r.randint(0, most)][:5 if r.random() < 0.3 else 3])
        samples += max(0, min(sample, most)).to_bytes(size, "big")
    if r.random() < 0.02 and size == 2 and most < 65535:
        samples = b"\xff\xff" + samples[2:]
    magic = b"P5" if r.random() < 0.99 else r.choice([b"P2", b"P6", b"p5"])
    numbers = [b"%d" % n for n in (*sides, most)]
    if r.random() < 0.03:
        numbers[r.randrange(3)] = r.choice([b"0", b"4097", b"65536", b"1234567890", b"x", b"1x", b"-1", b"007", b""])
    return magic + b"".join(gap(r) + n for n in numbers) + r.choice([b" ", b"\n", b"\t"]) + samples


def some_scan(r):
    while True:
        try:
            k = some_config(r)
            break
        except make_config.Refused:
            continue
    line = broken_config(r, k) if r.random() < 0.12 else make_config.line(k)
    records = []
    for _ in range(r.choice([0, 1, 2, 3, 3, 4])):
        records += [frame(r, k)] + r.choice([[], [b"sum\n"], [b"\n", b" \t\r\n"], [place(r, k), place(r, k)], [b"render\n"],
                                             [b"collect\n"], [b"collect\n", place(r, k)], [b"points\n"]])
    records += r.choice([[b"voxels\n"], [b"sum\n"], [b"render\n"], [b"points\n"], [b"collect\n", b"points\n"],
                         [b"collect\n", b"voxels\n"], []])
    for _ in range(2):
        if r.random() < 0.04:
            records.insert(r.randint(0, len(records)), r.choice([
                b"Sum\n", b"sum 1\n", b"render 1\n", b"place\n", b"end 1\n", b"frame\n", b"fram\n", b"\x00\n", b"\xff\n", b" voxels \r\n",
                b"collect 1\n", b"points 0\n", b"collect\n", b"points\n", b"Collect\n", b"point\n", b"x" * 1024 + b"\n",
                b" " * 1025 + b"\n", b" " * 1024 + b"\n", b"x" * 2000, b"end\n", b"\x0csum\n"]))
    text = line.encode() + b"\n" + b"".join(records)
    text += b"end\n" if r.random() < 0.9 else b"end"
    text += r.choice([b"", b"", b"more", b"\n\n"])
    head = len(line.encode()) + 1
    if r.random() < 0.1:
        text = text[:r.randint(0, len(text))]
    elif r.random() < 0.1 and len(text) > head:
        at = r.randrange(head, len(text))
        text = text[:at] + bytes([r.choice([r.randrange(256), 10, 32, 48, 53])]) + text[at + r.randint(0, 1):]
    return text


def answer(command, text):
    try:
        done = subprocess.run(command, input=text, capture_output=True, timeout=300)
    except OSError as why:
        sys.stderr.write("compare.py: %s does not run: %s\n" % (command[0], why.strerror))
        sys.exit(2)
    return done.stdout, done.returncode, done.stderr


def main():
    p = argparse.ArgumentParser(description="Runs N random scans and compares the program with expected.py.")
    p.add_argument("seed", type=int, metavar="SEED")
    p.add_argument("count", type=int, metavar="N")
    p.add_argument("--program", default=os.path.join(HERE, "..", "crates", "fusion_cli", "out", "fusion_cli"), metavar="FILE")
    p.add_argument("--keep", metavar="FOLDER", help="for the scans that differ (none is kept)")
    a = p.parse_args()
    if a.count < 0:
        p.exit(2, "compare.py: the number of scans is negative\n")
    if not os.access(a.program, os.X_OK):
        p.exit(2, "compare.py: %s is no program: build it by `rt run` in crates/fusion_cli\n" % a.program)
    if a.keep and not os.path.isdir(a.keep):
        p.exit(2, "compare.py: %s is no folder\n" % a.keep)
    differ, kinds = 0, collections.Counter()
    for n in range(a.count):
        text = some_scan(random.Random("%d %d" % (a.seed, n)))
        wanted = answer([sys.executable, os.path.join(HERE, "expected.py")], text)
        kinds["scans read to their end" if wanted[1] == 0 else "scans refused" if wanted[1] == 3 else "evaluator failed"] += 1
        for line in wanted[0].decode("latin-1").split("\n"):
            if line.startswith("render"):
                kinds["renders refused" if "refused" in line else "renders"] += 1
            elif line.startswith("frame"):
                kinds["frames refused" if "refused" in line else "frames fused"] += 1
            elif line.startswith("place"):
                kinds["answers '%s'" % line] += 1
            elif line.startswith("collect"):
                kinds["collections of %s" % ("none" if line == "collect 0" else "some blocks")] += 1
            elif re.match("-?[0-9]", line):
                kinds["voxels listed" if line.count(" ") == 4 else "points"] += 1
        if answer([a.program, "fuse"], text) != wanted:
            differ += 1
            print("scan %d differs" % n)
            if a.keep:
                with open(os.path.join(a.keep, "%d_%d.scan" % (a.seed, n)), "wb") as file:
                    file.write(text)
    print(", ".join("%d %s" % (kinds[kind], kind) for kind in sorted(kinds)))
    print("%d passed, %d failed" % (a.count - differ, differ))
    sys.exit(1 if differ else 0)


if __name__ == "__main__":
    main()
