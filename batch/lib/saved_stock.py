"""Saved stock: a text that lists, ray by ray, the ranges of points that are left.

    stock 1
    grid X Y Z PITCH STEP CX CY CZ
    ray F I J A B A B ..          for each ray that has points: each range from A on and below B
    end

Rays stand in the order of the strips: the z rays by x node and y node, then the x rays by y node and z node, then the y rays by x node
and z node.
"""

import re
from typing import NamedTuple

# Of each family: the axis along which its rays run, and those of its nodes I and J.
FAMILIES = {"Z": (2, 0, 1), "X": (0, 1, 2), "Y": (1, 0, 2)}
NUMBER = r"(?:0|[1-9][0-9]{0,8})"
GRID = re.compile(r"grid (-?{0}) (-?{0}) (-?{0}) ({0}) ({0}) ({0}) ({0}) ({0})".format(NUMBER))
RAY = re.compile(r"ray ([XYZ]) ({0}) ({0})((?: {0})*)".format(NUMBER))
METRE, MOST_NODES, MOST_PER_NODE = 1_000_000, 400, 1_000


class StockFault(Exception):
    """A text that is no saved stock, with its line."""


class Grid(NamedTuple):
    origin: tuple
    pitch: int
    step: int
    counts: tuple

    def per_node(self):
        return self.pitch // self.step

    def points(self, family):
        """How many points a ray of the family has."""
        return self.counts[FAMILIES[family][0]] * self.per_node()

    def position(self, family, i, j, l):
        """Where a point lies, in micrometres."""
        along, first, second = FAMILIES[family]
        place = list(self.origin)
        place[along] += l * self.step
        place[first] += i * self.pitch
        place[second] += j * self.pitch
        return tuple(place)


class Ray(NamedTuple):
    family: str
    i: int
    j: int
    ranges: list  # pairs: from the first on and below the second


def refuse(line, why, wrong):
    if wrong:
        raise StockFault("stock line %d: %s" % (line, why))


def is_grid(grid):
    if not (1 <= grid.step <= grid.pitch <= METRE and grid.pitch % grid.step == 0 and grid.per_node() <= MOST_PER_NODE):
        return False
    return all(abs(start) <= METRE and 1 <= count <= MOST_NODES and start + (count * grid.per_node() - 1) * grid.step <= METRE
               for start, count in zip(grid.origin, grid.counts))


def ray_of(line, number, grid):
    match = RAY.fullmatch(line)
    refuse(number, "it is no ray, nor the end", not match)
    family, i, j, bounds = match.groups()
    bounds = list(map(int, bounds.split()))
    _, first, second = FAMILIES[family]
    ray = Ray(family, int(i), int(j), list(zip(bounds[::2], bounds[1::2])))
    refuse(number, "the grid has no such ray", ray.i >= grid.counts[first] or ray.j >= grid.counts[second])
    refuse(number, "its bounds are to be pairs, at least one", not bounds or len(bounds) % 2)
    ends = [-1] + bounds
    refuse(number, "its bounds don't rise, or go past the ray", any(a >= b for a, b in zip(ends, bounds)) or bounds[-1] > grid.points(family))
    return ray


def read(data):
    """The grid and the rays of a text."""
    text = data.decode("ascii", "replace")
    lines = text.split("\n")
    refuse(1, "it isn't 'stock 1'", lines[0] != "stock 1")
    match = GRID.fullmatch(lines[1]) if len(lines) > 1 else None
    refuse(2, "it is no grid", not match or "-0" in lines[1].split()[1:4])
    numbers = tuple(map(int, match.groups()))
    grid = Grid(numbers[:3], numbers[3], numbers[4], numbers[5:])
    refuse(2, "no grid of a setup", not is_grid(grid))
    rays, before = [], None
    for number, line in enumerate(lines[2:], 3):
        refuse(number, "the text ends before its 'end'", number == len(lines))
        if line == "end":
            refuse(number + 1, "something stands after the end", lines[number:] != [""])
            return grid, rays
        ray = ray_of(line, number, grid)
        order = list(FAMILIES).index(ray.family), ray.i, ray.j
        refuse(number, "rays are out of order", before is not None and order <= before)
        rays.append(ray)
        before = order
    raise StockFault("stock line %d: the text ends before its 'end'" % len(lines))


def text_of(grid, rays):
    """The text of a grid and its rays."""
    lines = ["stock 1", "grid %d %d %d %d %d %d %d %d" % (*grid.origin, grid.pitch, grid.step, *grid.counts)]
    for ray in rays:
        lines.append("ray %s %d %d%s" % (*ray[:3], "".join(" %d %d" % pair for pair in ray.ranges)))
    return "\n".join(lines + ["end"]) + "\n"


def points(grid, rays):
    """Each point of the rays: its family, and where it lies."""
    for ray in rays:
        for low, high in ray.ranges:
            for l in range(low, high):
                yield ray.family, grid.position(ray.family, ray.i, ray.j, l)
