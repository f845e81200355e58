#!/usr/bin/env python3
"""make_config.py --size W H --focal FX FY --axis CX CY --range NEAR FAR --voxel METRES [OPTION ..]   prints a configuration line.

The radius is the least that passes the opening test of docs/SCAN.md, and the centre lies half way to the greatest depth, where
that radius is smallest. Focal lengths and the axis are in pixels, with pixel (0, 0) centred at (0, 0); lengths are in metres."""
import argparse
import json
import math

NAMES = ["version", "width", "height", "fx", "fy", "cx", "cy", "unit", "near", "far", "voxel", "mu", "max_weight", "radius",
         "centre", "heap_blocks", "buckets", "empty_f"]
RANGES = {"version": (1, 1), "width": (1, 2048), "height": (1, 2048), "fx": (1, 2 ** 30), "fy": (1, 2 ** 30),
          "unit": (1, 100_000), "near": (1, 16_000_000), "far": (1, 16_000_000), "voxel": (1000, 100_000), "mu": (1000, 1_000_000),
          "max_weight": (1, 255), "radius": (1, 100_000_000), "centre": (0, 17_000_000), "heap_blocks": (1, 65536),
          "buckets": (1, 65536), "empty_f": (0, 32767)}
REACH = 17_000_000


class Refused(Exception):
    """No configuration has these values, and why."""


def reach(depth, centre, length, focal):
    """How far from the axis a frame can touch something, along one direction of the image."""
    return depth * max(centre + 32768, abs(65536 * length - centre - 32768)) // focal + 1


def least_radius(k):
    """The least radius of the active sphere that passes the opening test."""
    z = k["far"] + k["mu"]
    x, y = reach(z, k["cx"], k["width"], k["fx"]), reach(z, k["cy"], k["height"], k["fy"])
    for name, value in (("width", x), ("height", y)):
        if value > REACH:
            raise Refused("at the greatest depth the image's %s reaches %.3f m from the axis, and 17 m are allowed: choose a "
                          "smaller far" % (name, value / 1e6))
    m = 14 * k["voxel"] + (x + y + z) // 1024 + 16
    square = (x + m) ** 2 + (y + m) ** 2 + (max(k["centre"], abs(z - k["centre"])) + m) ** 2
    return math.isqrt(square - 1) + 1


def config_of(k):
    """The configuration with its centre and radius put in where they are None."""
    if k["near"] > k["far"]:
        raise Refused("near is above far")
    if k["voxel"] > k["mu"]:
        raise Refused("the truncation distance mu is below the voxel's size")
    if k["centre"] is None:
        k["centre"] = (k["far"] + k["mu"] + 1) // 2
    for name in NAMES:
        least, most = RANGES.get(name, (0, 65536 * k["width" if name == "cx" else "height"]))
        if k[name] is not None and not least <= k[name] <= most:
            raise Refused("%s would be %d, which is not from %d to %d" % (name, k[name], least, most))
    if k["buckets"] & (k["buckets"] - 1):
        raise Refused("buckets is no power of two")
    needed = least_radius(k)
    if k["radius"] is None:
        k["radius"] = needed
    elif k["radius"] < needed:
        raise Refused("radius is %d, and the opening test needs at least %d" % (k["radius"], needed))
    return k


def camera(size, focal, axis, near_far, voxel, mu=None, unit=1000, max_weight=100, heap_blocks=65536, buckets=16384,
           radius=None, centre=None, empty_f=30000):
    """A configuration of lengths in metres and intrinsics in pixels; unit is in micrometres."""
    if not all(abs(x) <= 1e9 for x in (*focal, *axis, *near_far, voxel, mu or 0, radius or 0, centre or 0)):
        raise Refused("a number is out of all bounds")

    def length(metres):
        return None if metres is None else round(1_000_000 * metres)

    return config_of({
        "version": 1, "width": size[0], "height": size[1], "fx": round(65536 * focal[0]), "fy": round(65536 * focal[1]),
        "cx": round(65536 * axis[0]), "cy": round(65536 * axis[1]), "unit": unit, "near": length(near_far[0]),
        "far": length(near_far[1]), "voxel": length(voxel), "mu": length(4 * voxel if mu is None else mu),
        "max_weight": max_weight, "radius": length(radius), "centre": length(centre), "heap_blocks": heap_blocks,
        "buckets": buckets, "empty_f": empty_f})


def line(config):
    return json.dumps(config, separators=(",", ":"))


def main():
    p = argparse.ArgumentParser(description="Prints a configuration line with the least radius that passes the opening test.")
    p.add_argument("--size", type=int, nargs=2, metavar=("W", "H"), required=True, help="of the depth map, in pixels")
    p.add_argument("--focal", type=float, nargs=2, metavar=("FX", "FY"), required=True, help="focal lengths in pixels")
    p.add_argument("--axis", type=float, nargs=2, metavar=("CX", "CY"), required=True, help="principal point in pixels")
    p.add_argument("--range", type=float, nargs=2, metavar=("NEAR", "FAR"), required=True, help="valid depths in metres")
    p.add_argument("--voxel", type=float, required=True, help="size of a voxel in metres")
    p.add_argument("--mu", type=float, help="truncation distance in metres (4 voxels)")
    p.add_argument("--unit", type=int, default=1000, help="micrometres of one step of a sample (1000)")
    p.add_argument("--max-weight", type=int, default=100, help="where a weight stops to rise (100)")
    p.add_argument("--heap-blocks", type=int, default=65536, help="how many blocks may be active (65536)")
    p.add_argument("--buckets", type=int, default=16384, help="of the hash, a power of two (16384)")
    p.add_argument("--radius", type=float, help="of the active sphere in metres (the least that passes)")
    p.add_argument("--centre", type=float, help="of the active sphere, in metres before the camera (half the greatest depth)")
    p.add_argument("--empty-f", type=int, default=30000, help="a block with a distance nearer to 0 is not collected (30000)")
    a = p.parse_args()
    try:
        print(line(camera(a.size, a.focal, a.axis, a.range, a.voxel, a.mu, a.unit, a.max_weight, a.heap_blocks, a.buckets,
                          a.radius, a.centre, a.empty_f)))
    except Refused as why:
        p.exit(2, "make_config.py: %s\n" % why)


if __name__ == "__main__":
    main()
