"""Points as a PLY file, which any viewer of point clouds reads: where each is, what it is of, and how sure that is."""

import struct
from typing import NamedTuple

BODIES = ("stock", "part", "fixture")
MARKS = ("sure", "possible")
FAMILIES = "XYZ"
# Red, green and blue of a point, by its body; a point that is merely possible is paler.
COLOURS = {"stock": (120, 140, 160), "part": (200, 40, 40), "fixture": (220, 140, 0)}
PALER = 55
POINT = struct.Struct("<3d3B3B")
HEAD = """ply
format %s 1.0
comment clverify points, micrometres; not proved
comment body: 0 stock, 1 part, 2 fixture. mark: 0 sure, 1 possible. family: 0 x, 1 y, 2 z
element vertex %d
property double x
property double y
property double z
property uchar red
property uchar green
property uchar blue
property uchar body
property uchar mark
property uchar family
end_header
"""


class Point(NamedTuple):
    position: tuple  # micrometres
    body: str
    mark: str
    family: str  # of its ray


def row_of(point, unit):
    """The numbers of a point, lengths in a unit of that many micrometres."""
    colour = [min(255, part + PALER * MARKS.index(point.mark)) for part in COLOURS[point.body]]
    marks = BODIES.index(point.body), MARKS.index(point.mark), FAMILIES.index(point.family)
    return (*(n / unit for n in point.position), *colour, *marks)


def head(count, unit_name, binary):
    text = HEAD % ("binary_little_endian" if binary else "ascii", count)
    return text.replace("micrometres", unit_name).encode()


def body_of(points, unit, binary):
    """The points, one after the other, as they stand after the head."""
    for point in points:
        row = row_of(point, unit)
        yield POINT.pack(*row) if binary else ("%.9g %.9g %.9g %d %d %d %d %d %d\n" % row).encode()
