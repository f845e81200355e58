#!/usr/bin/env python3
"""view.py [FILE] [--split FOLDER] [--cloud OUT] [--ply OUT] [--slice OUT] [--surface OUT] [OPTION ..]   shows a program's output.

--split takes the output apart into a folder: replies.txt has its lines, and each render is there as the PGM that the program wrote
(render-1.pgm and so on; a sample is a depth in the configuration's unit) and as a PNG to look at, near surfaces bright and what shows
none dark blue. Each reply to `points` is there as the PLY that the program wrote (points-1.ply and so on; in micrometres).

--cloud writes a PNG of the last reply to `points`, near points bright. The others show the last reply to `voxels`: --ply writes the
voxels next to the surface as points with normals, --slice a PNG of a plane of voxels, --surface a PNG of the surface between the
voxels before it and behind it (surface nets: a vertex in each cell that it crosses). Their coordinates are in voxels."""
import argparse
import math
import os
import re
import sys

import png

AXES = ((1, 0, 0), (0, 1, 0), (0, 0, 1))
GREATEST = 32767
NIGHT = (20, 20, 60)


class BadView(Exception):
    """Nothing can be shown, and why."""


def add(p, q):
    return (p[0] + q[0], p[1] + q[1], p[2] + q[2])


def minus(p, q):
    return (p[0] - q[0], p[1] - q[1], p[2] - q[2])


def scaled(p, k):
    return (p[0] * k, p[1] * k, p[2] * k)


def dot(p, q):
    return p[0] * q[0] + p[1] * q[1] + p[2] * q[2]


def cross(p, q):
    return (p[1] * q[2] - p[2] * q[1], p[2] * q[0] - p[0] * q[2], p[0] * q[1] - p[1] * q[0])


def unit(p):
    return scaled(p, 1 / (math.sqrt(dot(p, p)) or 1))


def parts_of(data):
    """The lines of a program's output, its renders (the width, the height and the bytes of each PGM), and the bytes of each PLY."""
    lines, renders, clouds, at = [], [], [], 0
    while at < len(data):
        end = data.find(b"\n", at)
        end = len(data) if end < 0 else end
        try:
            lines.append(data[at:end].decode("ascii"))
        except UnicodeDecodeError:
            raise BadView("the input is no output of the program")
        at = end + 1
        if re.fullmatch("render [0-9]+", lines[-1]):
            head = re.match(rb"P5\n([0-9]{1,4}) ([0-9]{1,4})\n65535\n", data[at:at + 24])
            size = head.end() + 2 * int(head[1]) * int(head[2]) if head else 0
            if not head or len(data) < at + size:
                raise BadView("the picture of a render is cut off or damaged")
            renders.append((int(head[1]), int(head[2]), data[at:at + size]))
            at += size
        elif re.fullmatch("points [0-9]+", lines[-1]):
            size = cloud_size(data, at, lines[-1][7:].encode())
            clouds.append(data[at:at + size])
            at += size
    return lines, renders, clouds


def cloud_size(data, start, count):
    """The number of bytes of the PLY of so many points that begins at an offset."""
    head = b"ply\nformat ascii 1.0\nelement vertex " + count + b"\nproperty int x\nproperty int y\nproperty int z\nend_header\n"
    row = re.compile(rb"-?[0-9]{1,10} -?[0-9]{1,10} -?[0-9]{1,10}\n")

    def need(found):
        if not found:
            raise BadView("the PLY of a reply to `points` is cut off or damaged")
        return found

    need(data.startswith(head, start))
    at = start + len(head)
    for _ in range(int(count)):
        at = need(row.match(data, at)).end()
    return at - start


def shades_of(width, height, pgm):
    """The rows of a render, near surfaces bright; a pixel of a small one is a square."""
    raster = pgm[len(pgm) - 2 * width * height:]
    samples = [int.from_bytes(raster[i:i + 2], "big") for i in range(0, len(raster), 2)]
    near, far = min((s for s in samples if s), default=0), max(samples)

    def shade(sample):
        return (255 - 200 * (sample - near) // max(1, far - near),) * 3 if sample else NIGHT

    side = max(1, min(16, 640 // max(width, height)))
    rows = []
    for v in range(height):
        rows += [[c for s in samples[width * v:width * (v + 1)] for c in [shade(s)] * side]] * side
    return rows


def split(folder, lines, renders, clouds):
    try:
        os.makedirs(folder, exist_ok=True)
    except OSError as why:
        raise BadView("%s is not made: %s" % (folder, why.strerror))
    write(os.path.join(folder, "replies.txt"), "".join(line + "\n" for line in lines).encode())
    for n, (width, height, pgm) in enumerate(renders, 1):
        write(os.path.join(folder, "render-%d.pgm" % n), pgm)
        write(os.path.join(folder, "render-%d.png" % n), png.write_colours(shades_of(width, height, pgm)))
    for n, ply in enumerate(clouds, 1):
        write(os.path.join(folder, "points-%d.ply" % n), ply)


def distances_of(lines):
    """The distance of each known voxel, by its coordinates, of the last reply to `voxels`."""
    heads = [(n, int(m[1])) for n, m in enumerate(re.fullmatch("voxels [0-9]+ ([0-9]+)", line) for line in lines) if m]
    if not heads:
        raise BadView("there is no reply to `voxels` in the input")
    start, count = heads[-1]
    found = {}
    for line in lines[start + 1:start + 1 + count]:
        words = line.split(" ")
        if not all(re.fullmatch("-?[0-9]{1,9}", word) for word in words) or len(words) != 5:
            raise BadView("the reply to `voxels` is cut off or damaged: %r" % line[:40])
        x, y, z, f, _ = map(int, words)
        found[x, y, z] = f
    if len(found) != count:
        raise BadView("the reply to `voxels` is cut off: %d of %d voxels are there" % (len(found), count))
    if not found:
        raise BadView("the map has no known voxel")
    return found


def edges_of(found):
    """The edges between two known voxels on two sides of the surface: the voxel, the axis, and where the surface crosses."""
    for p, f in found.items():
        for axis, step in enumerate(AXES):
            g = found.get(add(p, step))
            if g is not None and (f > 0) != (g > 0):
                yield p, axis, add(p, scaled(step, f / (f - g)))


def normal(found, p):
    """The direction in which the distance grows at a voxel."""
    def slope(step):
        before, after = found.get(minus(p, step)), found.get(add(p, step))
        return (found[p] if after is None else after) - (found[p] if before is None else before)

    return unit(tuple(slope(step) for step in AXES))


def ply_of(found, voxel):
    near = sorted({q for p, axis, _ in edges_of(found) for q in (p, add(p, AXES[axis]))})
    lines = ["ply", "format ascii 1.0", "element vertex %d" % len(near)]
    lines += ["property float " + name for name in ("x", "y", "z", "nx", "ny", "nz")] + ["end_header"]
    lines += ["%g %g %g %.4f %.4f %.4f" % (*scaled(p, voxel), *normal(found, p)) for p in near]
    return "".join(line + "\n" for line in lines)


def colour_of(f):
    """White at the surface, blue before it, red behind it, and grey where nothing is known."""
    if f is None:
        return (200, 200, 200)
    fade = 255 - 200 * abs(f) // GREATEST
    return (fade, fade, 255) if f > 0 else (255, fade, fade)


def slice_rows(found, axis, at):
    """A plane of voxels, each a square of pixels."""
    across, down = {"x": (2, 1), "y": (0, 2), "z": (0, 1)}[axis]
    plane = {(p[across], p[down]): f for p, f in found.items() if p["xyz".index(axis)] == at}
    if not plane:
        raise BadView("no known voxel has %s = %d" % (axis, at))
    left, right = min(u for u, _ in plane), max(u for u, _ in plane)
    top, bottom = min(v for _, v in plane), max(v for _, v in plane)
    if max(right - left, bottom - top) >= 4096:
        raise BadView("the slice is more than 4096 voxels wide")
    side = max(1, min(16, 640 // (max(right - left, bottom - top) + 1)))
    rows = []
    for v in range(top, bottom + 1):
        rows += [[c for u in range(left, right + 1) for c in [colour_of(plane.get((u, v)))] * side]] * side
    return rows


def quads_of(found):
    """The surface as quads, each with the parity of its block: a vertex in each cell that it crosses, at the mean of its crossings."""
    crossings, edges = {}, []
    for p, axis, crossing in edges_of(found):
        a, b = (AXES[(axis + 1) % 3], AXES[(axis + 2) % 3])
        cells = [p, minus(p, a), minus(minus(p, a), b), minus(p, b)]
        edges.append((cells, found[p] > 0))
        for cell in cells:
            crossings.setdefault(cell, []).append(crossing)
    middle = {cell: scaled((sum(q[0] for q in at), sum(q[1] for q in at), sum(q[2] for q in at)), 1 / len(at))
              for cell, at in crossings.items() if len(at) > 2}
    for cells, outside_first in edges:
        if all(cell in middle for cell in cells):
            quad = [middle[cell] for cell in cells]
            yield quad[::-1] if outside_first else quad, sum(c // 8 for c in cells[0]) % 2


def view_of(look):
    """What is to the right in a view, what is down, and its direction, each of length 1."""
    look = unit(look)
    right = unit(cross((0, 1, 0), look))
    return right, cross(look, right), look


def points_of(clouds):
    """The points of the last reply to `points`."""
    if not clouds:
        raise BadView("there is no reply to `points` in the input")
    points = [tuple(map(int, line.split())) for line in clouds[-1].splitlines()[7:]]
    if not points:
        raise BadView("the last reply to `points` has no point")
    return points


def cloud_rows(points, look, width):
    """The points seen from far away in a direction, y down: near ones bright, each a square of the size of its share of the picture."""
    right, down, look = view_of(look)
    seen = [(dot(p, right), dot(p, down), dot(p, look)) for p in points]
    low, high = ([least(p[i] for p in seen) for i in range(3)] for least in (min, max))
    scale = 0.92 * width / max(high[0] - low[0], high[1] - low[1], 1)
    height = int(scale * (high[1] - low[1]) + 0.08 * width) + 1
    side = max(1, min(16, int(math.sqrt(width * height / len(points)))))
    rows = [[NIGHT] * width for _ in range(height)]
    for x, y, z in sorted(seen, key=lambda p: -p[2]):
        shade = 255 - int(200 * (z - low[2]) / max(high[2] - low[2], 1))
        u = int(width / 2 + scale * (x - (low[0] + high[0]) / 2)) - side // 2
        v = int(height / 2 + scale * (y - (low[1] + high[1]) / 2)) - side // 2
        for row in rows[max(0, v):v + side]:
            row[max(0, u):u + side] = [(shade,) * 3] * (min(width, u + side) - max(0, u))
    return rows


def surface_rows(found, look, width):
    """The surface seen from far away in a direction, y down. Neighbouring blocks differ in shade, and a back side is brown."""
    right, down, look = view_of(look)
    quads = list(quads_of(found))
    if not quads:
        raise BadView("no surface lies between known voxels")
    seen = [[(dot(p, right), dot(p, down), dot(p, look)) for p in quad] for quad, _ in quads]
    low = [min(p[i] for quad in seen for p in quad) for i in (0, 1)]
    high = [max(p[i] for quad in seen for p in quad) for i in (0, 1)]
    w = 2 * width
    scale = 0.92 * w / max(high[0] - low[0], 1e-9)
    h = min(4 * w, 2 * (int(scale * (high[1] - low[1]) + 0.08 * w) // 2 + 1))
    corner = (0.04 * w - scale * low[0], 0.04 * w - scale * low[1])
    depths, shades = [[math.inf] * w for _ in range(h)], [[None] * w for _ in range(h)]
    light = unit(add(scaled(look, -0.9), add(scaled(right, 0.2), scaled(down, -0.3))))
    for (quad, parity), at in zip(quads, seen):
        n = unit(cross(minus(quad[2], quad[0]), minus(quad[3], quad[1])))
        bright = (0.4 + 0.6 * max(0.0, dot(n, light))) * (1 - 0.1 * parity)
        shade = tuple(int(c * bright) for c in ((225, 240, 255) if dot(n, look) < 0 else (214, 178, 150)))
        points = [(corner[0] + scale * x, corner[1] + scale * y, z) for x, y, z in at]
        for triangle in ((points[0], points[1], points[2]), (points[0], points[2], points[3])):
            fill(triangle, shade, depths, shades)
    return [[mixed([shades[2 * y + j][2 * x + i] for j in (0, 1) for i in (0, 1)]) for x in range(width)] for y in range(h // 2)]


def mixed(four):
    known = [c or (255, 255, 255) for c in four]
    return tuple(sum(c[i] for c in known) // 4 for i in range(3))


def fill(triangle, shade, depths, shades):
    """Draws a triangle where nothing nearer is drawn."""
    (ax, ay, az), (bx, by, bz), (cx, cy, cz) = triangle
    area = (bx - ax) * (cy - ay) - (by - ay) * (cx - ax)
    if abs(area) < 1e-12:
        return
    for y in range(max(0, math.ceil(min(ay, by, cy))), min(len(depths) - 1, math.floor(max(ay, by, cy))) + 1):
        for x in range(max(0, math.ceil(min(ax, bx, cx))), min(len(depths[0]) - 1, math.floor(max(ax, bx, cx))) + 1):
            s = ((bx - x) * (cy - y) - (by - y) * (cx - x)) / area
            t = ((cx - x) * (ay - y) - (cy - y) * (ax - x)) / area
            if s < -1e-9 or t < -1e-9 or s + t > 1 + 1e-9:
                continue
            z = s * az + t * bz + (1 - s - t) * cz
            if z < depths[y][x]:
                depths[y][x], shades[y][x] = z, shade


def write(path, data):
    try:
        with open(path, "wb") as file:
            file.write(data)
    except OSError as why:
        raise BadView("%s is not written: %s" % (path, why.strerror))


def main():
    p = argparse.ArgumentParser(description="Takes a program's output apart, and shows its last replies to `points` and `voxels`.")
    p.add_argument("file", metavar="FILE", nargs="?", help="the program's output (standard input)")
    p.add_argument("--split", metavar="FOLDER", help="write the replies, each render as PGM and PNG, and points as PLY")
    p.add_argument("--cloud", metavar="OUT", help="write a PNG of the surface's points")
    p.add_argument("--ply", metavar="OUT", help="write the voxels next to the surface")
    p.add_argument("--slice", metavar="OUT", help="write a PNG of a plane of voxels")
    p.add_argument("--surface", metavar="OUT", help="write a PNG of the surface")
    p.add_argument("--axis", choices=("x", "y", "z"), default="y", help="that the slice is across (y)")
    p.add_argument("--at", type=int, default=0, metavar="N", help="the slice's coordinate in voxels (0)")
    p.add_argument("--voxel", type=float, default=1.0, metavar="METRES", help="scale of the PLY (1: in voxels)")
    p.add_argument("--look", type=float, nargs=3, default=(0.9, 0.6, 1.0), metavar=("X", "Y", "Z"),
                   help="direction of the view of a surface or of points")
    p.add_argument("--width", type=int, default=480, metavar="PIXELS", help="of that view's picture (480)")
    a = p.parse_args()
    try:
        if not (a.split or a.cloud or a.ply or a.slice or a.surface):
            raise BadView("say what to write: --split, --cloud, --ply, --slice or --surface")
        if not 1 <= a.width <= 2048 or not all(math.isfinite(c) and abs(c) < 1e6 for c in (*a.look, a.voxel)):
            raise BadView("a picture's width is from 1 to 2048, and every number is finite")
        if abs(a.look[0]) + abs(a.look[2]) < 1e-6:
            raise BadView("the view cannot go straight up or down")
        try:
            with open(a.file, "rb") if a.file else sys.stdin.buffer as file:
                lines, renders, clouds = parts_of(file.read())
        except OSError as why:
            raise BadView("%s is not read: %s" % (a.file or "standard input", why.strerror))
        if a.split:
            split(a.split, lines, renders, clouds)
        if a.cloud:
            write(a.cloud, png.write_colours(cloud_rows(points_of(clouds), a.look, a.width)))
        if not (a.ply or a.slice or a.surface):
            return
        found = distances_of(lines)
        if a.ply:
            write(a.ply, ply_of(found, a.voxel).encode())
        if a.slice:
            write(a.slice, png.write_colours(slice_rows(found, a.axis, a.at)))
        if a.surface:
            write(a.surface, png.write_colours(surface_rows(found, a.look, a.width)))
    except BadView as why:
        p.exit(2, "view.py: %s\n" % why)


if __name__ == "__main__":
    main()
