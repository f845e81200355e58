#!/usr/bin/env python3
"""read_ply.py FILE   reads an ASCII PLY file by the grammar of the format (Turk 1994), and prints how many points it has and the
least and the greatest of their coordinates. A file that does not keep to the grammar is refused with a sentence, and status 2.

It shares nothing with the program and with view.py, so that what they write is read by another reader. It knows every ASCII file of
version 1.0, with any elements, and the vertices' x, y and z are the points."""
import math
import re
import sys

WHOLE = {"char": (-2 ** 7, 2 ** 7), "uchar": (0, 2 ** 8), "short": (-2 ** 15, 2 ** 15), "ushort": (0, 2 ** 16),
         "int": (-2 ** 31, 2 ** 31), "uint": (0, 2 ** 32)}
OTHER_NAMES = {"int8": "char", "uint8": "uchar", "int16": "short", "uint16": "ushort", "int32": "int", "uint32": "uint",
               "float32": "float", "float64": "double"}


class BadPly(Exception):
    """A file is no ASCII PLY, and why."""


def type_of(word):
    name = OTHER_NAMES.get(word, word)
    if name not in (*WHOLE, "float", "double"):
        raise BadPly("has a property of no type of the format: %r" % word)
    return name


def number(words, kind):
    """The number that the next word is, of a type."""
    word = next(words, None)
    if word is None:
        raise BadPly("has a row with too few numbers")
    if kind in WHOLE:
        least, beyond = WHOLE[kind]
        if not re.fullmatch("[+-]?[0-9]{1,10}", word) or not least <= int(word) < beyond:
            raise BadPly("has a word that is no %s: %r" % (kind, word[:40]))
        return int(word)
    if not re.fullmatch(r"[+-]?([0-9]+\.?[0-9]*|\.[0-9]+)([eE][+-]?[0-9]+)?", word) or not math.isfinite(float(word)):
        raise BadPly("has a word that is no %s: %r" % (kind, word[:40]))
    return float(word)


def header(lines):
    """The elements of a file: the name of each, its number of rows, and its properties, each a name with the type of its value and,
    where it is a list, that of its length."""
    if next(lines, None) != "ply":
        raise BadPly("does not begin with the line 'ply'")
    if next(lines, None) != "format ascii 1.0":
        raise BadPly("has no line 'format ascii 1.0'")
    elements = []
    for line in lines:
        words = line.split()
        if words == ["end_header"]:
            return elements
        if words[:1] == ["element"] and len(words) == 3 and re.fullmatch("[0-9]{1,10}", words[2]):
            elements.append((words[1], int(words[2]), {}))
        elif words[:1] == ["property"] and elements and len(words) == (5 if words[1:2] == ["list"] else 3):
            if words[-1] in elements[-1][2]:
                raise BadPly("has a property twice: %r" % words[-1])
            kinds = [type_of(word) for word in words[1:-1] if word != "list"]
            if len(kinds) == 2 and kinds[0] not in WHOLE:
                raise BadPly("has a list whose length is no whole number")
            elements[-1][2][words[-1]] = kinds
        elif words[:1] not in (["comment"], ["obj_info"]):
            raise BadPly("has a line that the header's grammar lacks: %r" % line[:40])
    raise BadPly("has no line 'end_header'")


def row(line, properties):
    """The value of each property of a row, by its name."""
    words, values = iter(line.split()), {}
    for name, kinds in properties.items():
        one = len(kinds) == 1
        values[name] = number(words, kinds[0]) if one else [number(words, kinds[1]) for _ in range(number(words, kinds[0]))]
    if next(words, None) is not None:
        raise BadPly("has a row with too many numbers")
    return values


def points_of(data):
    """The points of a file."""
    try:
        lines = data.decode("ascii").replace("\r\n", "\n").split("\n")
    except UnicodeDecodeError:
        raise BadPly("is no ASCII text")
    if lines.pop():
        raise BadPly("ends within a line")
    lines, points = iter(lines), None
    for name, count, properties in header(lines):
        rows = []
        for _ in range(count):
            line = next(lines, None)
            if line is None:
                raise BadPly("has %d of %d rows of the element %r" % (len(rows), count, name))
            rows.append(row(line, properties))
        if name == "vertex":
            if any(len(properties.get(axis, ())) != 1 for axis in "xyz"):
                raise BadPly("has vertices without x, y and z")
            points = [(values["x"], values["y"], values["z"]) for values in rows]
    if next(lines, None) is not None:
        raise BadPly("goes on after its last row")
    if points is None:
        raise BadPly("has no element 'vertex'")
    return points


def main():
    if len(sys.argv) != 2:
        print("usage: read_ply.py FILE", file=sys.stderr)
        sys.exit(2)
    try:
        with open(sys.argv[1], "rb") as file:
            points = points_of(file.read())
    except OSError as why:
        print("read_ply.py: %s is not read: %s" % (sys.argv[1], why.strerror), file=sys.stderr)
        sys.exit(2)
    except BadPly as why:
        print("read_ply.py: %s %s" % (sys.argv[1], why), file=sys.stderr)
        sys.exit(2)
    print("%d points" % len(points))
    for i, axis in enumerate("xyz" if points else ""):
        print("%s from %s to %s" % (axis, min(p[i] for p in points), max(p[i] for p in points)))


if __name__ == "__main__":
    main()
