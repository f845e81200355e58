"""png.py   PNG files by zlib alone: 16-bit grey ones are read, 8-bit colour ones are written. The other scripts use it."""
import struct
import zlib

SIGNATURE = b"\x89PNG\r\n\x1a\n"


class BadPng(Exception):
    """A file is no PNG of the kind that is read, and why."""


def chunks(data):
    at = len(SIGNATURE)
    while at + 8 <= len(data):
        size, = struct.unpack(">I", data[at:at + 4])
        if at + 12 + size > len(data):
            raise BadPng("is cut off")
        yield data[at + 4:at + 8], data[at + 8:at + 8 + size]
        at += 12 + size


def nearest(left, above, corner):
    """The neighbour that is nearest to left + above - corner (Paeth)."""
    aim = left + above - corner
    by_left, by_above, by_corner = abs(aim - left), abs(aim - above), abs(aim - corner)
    return left if by_left <= by_above and by_left <= by_corner else above if by_above <= by_corner else corner


def unfiltered(kind, row, above, step):
    """The bytes of a row whose filter is taken off."""
    if kind == 1:
        for i in range(step, len(row)):
            row[i] = (row[i] + row[i - step]) & 255
    elif kind == 2:
        for i in range(len(row)):
            row[i] = (row[i] + above[i]) & 255
    elif kind == 3:
        for i in range(len(row)):
            row[i] = (row[i] + ((row[i - step] if i >= step else 0) + above[i]) // 2) & 255
    elif kind == 4:
        for i in range(len(row)):
            left, corner = (row[i - step], above[i - step]) if i >= step else (0, 0)
            row[i] = (row[i] + nearest(left, above[i], corner)) & 255
    elif kind != 0:
        raise BadPng("has an unknown filter")
    return row


def read_grey16(data):
    """The width, the height, and the samples of a 16-bit grey PNG: two bytes each, row by row, the most significant first."""
    if not data.startswith(SIGNATURE):
        raise BadPng("is no PNG")
    head, packed = None, b""
    for name, body in chunks(data):
        if name == b"IHDR" and len(body) == 13:
            head = struct.unpack(">IIBBBBB", body)
        elif name == b"IDAT":
            packed += body
        elif name == b"IEND":
            break
    if head is None or head[2:] != (16, 0, 0, 0, 0):
        raise BadPng("is no 16-bit grey PNG without interlace")
    width, height = head[:2]
    try:
        raw = zlib.decompress(packed)
    except zlib.error:
        raise BadPng("is damaged")
    size = 2 * width
    if len(raw) != height * (size + 1):
        raise BadPng("is cut off")
    rows, above = [], bytearray(size)
    for at in range(0, len(raw), size + 1):
        above = unfiltered(raw[at], bytearray(raw[at + 1:at + 1 + size]), above, 2)
        rows.append(bytes(above))
    return width, height, b"".join(rows)


def chunk(name, body):
    return struct.pack(">I", len(body)) + name + body + struct.pack(">I", zlib.crc32(name + body))


def written(width, height, depth, colours, rows):
    head = struct.pack(">IIBBBBB", width, height, depth, colours, 0, 0, 0)
    return (SIGNATURE + chunk(b"IHDR", head) + chunk(b"IDAT", zlib.compress(b"".join(b"\0" + row for row in rows), 9))
            + chunk(b"IEND", b""))


def write_colours(rows):
    """The PNG of rows of (red, green, blue), each from 0 to 255."""
    return written(len(rows[0]), len(rows), 8, 2, [bytes(c for pixel in row for c in pixel) for row in rows])


def write_grey16(width, height, samples):
    """The PNG of samples of two bytes each, row by row."""
    return written(width, height, 16, 0, [samples[at:at + 2 * width] for at in range(0, 2 * width * height, 2 * width)])
