#!/usr/bin/env python3
"""tum.py FOLDER [OPTION ..] > SCAN   makes a scan of a recording in the form of the TUM RGB-D benchmark.

The folder has depth.txt (lines 'TIME FILE'), groundtruth.txt (lines 'TIME TX TY TZ QX QY QZ QW', the camera's pose in the world)
and the depth maps, 16-bit grey PNG files of 5000 steps a metre. A depth map without a pose near its time is left out. Quaternions
are made of length 1 before they become rotations: as the files round them, one pose in six would fail the pose test."""
import argparse
import bisect
import json
import math
import os
import sys

import make_config
import png

UNIT = 200


class BadFolder(Exception):
    """A recording cannot be read, and why."""


def lines_of(folder, name, numbers):
    """The lines of a list, split into words; the first word and as many more as said have to be numbers."""
    path = os.path.join(folder, name)
    try:
        with open(path, encoding="utf-8") as file:
            text = file.read()
    except (OSError, UnicodeDecodeError) as why:
        raise BadFolder("%s is not read: %s" % (path, getattr(why, "strerror", None) or "it is no text"))
    lines = []
    for n, line in enumerate(text.split("\n"), 1):
        words = line.split()
        if not words or words[0].startswith("#"):
            continue
        try:
            values = [float(word) for word in words[:1 + numbers]]
            if len(words) < 2 or len(values) != 1 + numbers or not all(math.isfinite(value) for value in values):
                raise ValueError
        except ValueError:
            raise BadFolder("line %d of %s is not in the form of the benchmark" % (n, path))
        lines.append((values, words))
    return lines


def rows_of(values):
    """The twelve decimals of a pose: three rows of a rotation, each with a coordinate of the translation."""
    tx, ty, tz, x, y, z, w = values
    length = math.sqrt(x * x + y * y + z * z + w * w)
    if length < 1e-6:
        raise BadFolder("a quaternion of groundtruth.txt is zero")
    x, y, z, w = (value / length for value in (x, y, z, w))
    rows = [[1 - 2 * (y * y + z * z), 2 * (x * y - z * w), 2 * (x * z + y * w), tx],
            [2 * (x * y + z * w), 1 - 2 * (x * x + z * z), 2 * (y * z - x * w), ty],
            [2 * (x * z - y * w), 2 * (y * z + x * w), 1 - 2 * (x * x + y * y), tz]]
    for row in rows:
        if abs(row[3]) > 1e6:
            raise BadFolder("a translation of groundtruth.txt is out of all bounds")
    return " ".join("%.12f %.12f %.12f %.6f" % tuple(row) for row in rows)


def frames_of(folder, gap):
    """Each depth map's file with the pose nearest to it in time, if they are at most a gap apart."""
    poses = sorted((values[0], values[1:]) for values, _ in lines_of(folder, "groundtruth.txt", 7))
    times = [time for time, _ in poses]
    for (time,), words in sorted(lines_of(folder, "depth.txt", 0)):
        at = bisect.bisect(times, time)
        near = min(poses[max(at - 1, 0):at + 1], key=lambda pose: abs(pose[0] - time), default=None)
        if near is not None and abs(near[0] - time) <= gap:
            yield os.path.join(folder, words[1]), rows_of(near[1])


def depth_map(path):
    """The PGM of a depth map."""
    try:
        with open(path, "rb") as file:
            width, height, samples = png.read_grey16(file.read())
    except OSError as why:
        raise BadFolder("%s is not read: %s" % (path, why.strerror))
    except png.BadPng as why:
        raise BadFolder("%s %s" % (path, why))
    return (width, height), b"P5\n%d %d\n65535\n" % (width, height) + samples


def config_line(path):
    """The configuration of a file, or one for the benchmark's depth camera."""
    if path is None:
        return make_config.line(make_config.camera((640, 480), (525, 525), (319.5, 239.5), (0.4, 4), 0.01, unit=UNIT))
    try:
        with open(path, encoding="utf-8") as file:
            line = file.read().strip()
        config = json.loads(line)
    except (OSError, ValueError) as why:
        raise BadFolder("%s is not read: %s" % (path, getattr(why, "strerror", None) or "it is no configuration"))
    if not isinstance(config, dict) or "\n" in line:
        raise BadFolder("%s is not one configuration line" % path)
    if config.get("unit") != UNIT:
        raise BadFolder("%s has not the unit %d of the benchmark" % (path, UNIT))
    return line


def main():
    p = argparse.ArgumentParser(description="Makes a scan of a recording in the form of the TUM RGB-D benchmark.")
    p.add_argument("folder", metavar="FOLDER")
    p.add_argument("--config", metavar="FILE", help="a configuration line with unit 200 (640 by 480, focal length 525, 0.4 to 4 m)")
    p.add_argument("--frames", type=int, metavar="N", help="at most so many frames")
    p.add_argument("--every", type=int, default=1, metavar="N", help="every Nth frame alone")
    p.add_argument("--gap", type=float, default=0.02, metavar="SECONDS", help="between a depth map and its pose (0.02)")
    p.add_argument("--ask", default="sum", metavar="RECORD", choices=("sum", "voxels", "render", "points"),
                   help="the last record (sum)")
    p.add_argument("--collect", type=int, default=0, metavar="N", help="remove empty blocks after every Nth frame (never)")
    a = p.parse_args()
    try:
        if a.every < 1 or (a.frames is not None and a.frames < 0) or a.collect < 0 or not a.gap >= 0:
            raise BadFolder("a number of frames is at least 0, every at least 1, and a gap at least 0")
        line, out = config_line(a.config), sys.stdout.buffer
        sides = tuple(json.loads(line).get(name) for name in ("width", "height"))
        frames = list(frames_of(a.folder, a.gap))[::a.every][:a.frames]
        if not frames:
            raise BadFolder("no depth map of %s has a pose within %g seconds" % (a.folder, a.gap))
        out.write(line.encode() + b"\n")
        for n, (path, rows) in enumerate(frames, 1):
            size, picture = depth_map(path)
            if size != sides:
                raise BadFolder("%s is %d by %d pixels, and the configuration says %s by %s" % (path, *size, *sides))
            out.write(b"frame %s\n" % rows.encode() + picture)
            if a.collect and n % a.collect == 0:
                out.write(b"collect\n")
        out.write(a.ask.encode() + b"\nend\n")
        out.flush()
    except BadFolder as why:
        p.exit(2, "tum.py: %s\n" % why)
    except BrokenPipeError:
        os._exit(1)


if __name__ == "__main__":
    main()
