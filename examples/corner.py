#!/usr/bin/env python3
"""corner.py > corner.scan   prints a scan of a corner: two walls and a floor, seen from three poses.

Lengths are micrometres; x runs to the right, y down and z forward in the first frame. All arithmetic is in whole numbers."""
import json
import sys

WIDTH, HEIGHT, FOCAL = 64, 48, 48 * 65536
CX, CY = (WIDTH - 1) * 32768, (HEIGHT - 1) * 32768
BACK, RIGHT, FLOOR = 2_000_000, 1_000_000, 1_000_000

CONFIG = {
    "version": 1, "width": WIDTH, "height": HEIGHT, "fx": FOCAL, "fy": FOCAL, "cx": CX, "cy": CY,
    "unit": 1000, "near": 300_000, "far": 3_000_000, "voxel": 100_000, "mu": 150_000, "max_weight": 100,
    "radius": 6_000_000, "centre": 1_600_000, "heap_blocks": 4096, "buckets": 1024, "empty_f": 30000,
}

# the rows of the rotation and the translation in metres: from the front, from one metre to the left, and turned to the right wall
POSES = [
    ([[1, 0, 0], [0, 1, 0], [0, 0, 1]], [0, 0, 0]),
    ([[1, 0, 0], [0, 1, 0], [0, 0, 1]], [-1, 0, 0]),
    ([[0, 0, 1], [0, 1, 0], [-1, 0, 0]], [-1, 0, 1]),
]


def sample(rows, metres, u, v):
    """The depth of the nearest plane on the ray of a pixel, in millimetres, 0 where there is none."""
    direction = [65536 * u - CX, 65536 * v - CY, FOCAL]
    x, y, z = (sum(rows[i][j] * direction[j] for j in range(3)) for i in range(3))
    tx, ty, tz = (1_000_000 * m for m in metres)
    depths = [left * FOCAL // along for left, along in ((BACK - tz, z), (RIGHT - tx, x), (FLOOR - ty, y)) if along > 0]
    return min(min(depths, default=0) // 1000, 65535)


def main():
    out = sys.stdout.buffer
    out.write(json.dumps(CONFIG, separators=(",", ":")).encode() + b"\n")
    for rows, metres in POSES:
        words = " ".join("%d %d %d %d" % (*row, m) for row, m in zip(rows, metres))
        out.write(b"frame %s\nP5\n%d %d\n65535\n" % (words.encode(), WIDTH, HEIGHT))
        for v in range(HEIGHT):
            for u in range(WIDTH):
                out.write(sample(rows, metres, u, v).to_bytes(2, "big"))
    out.write(b"voxels\nend\n")


main()
