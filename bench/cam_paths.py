#!/usr/bin/env python3
"""Makes paths as a CAM system writes them, each flush with its part: a cutter location file and a setup.

    bench/cam_paths.py NAME FOLDER [--slabs N] [--depth M] [--lift MM] [--coarse]      writes FOLDER/NAME.cls and FOLDER/NAME.toml

waterline   level contours, 0.75 mm apart, round a ridge with a bull-nose cutter of 6 mm and 1 mm corner radius
raster      lines 0.5 mm apart across the ridge with a ball cutter of 6 mm, all in one direction
pocket      a pocket in four layers with a flat cutter of 8 mm, and holes of 6 mm that are drilled in steps
engraving   V-shaped grooves in a plate with a cone of 30 degrees, each cut in two passes

Each cut ends with a rapid move straight up out of it, as most CAM systems write it. --lift puts a feed move of that many millimetres
before that. Slabs are 16 and the depth is 6 where nothing else is said. There are ten points for each pitch; --coarse makes it one.
The same words give the same bytes.
"""

import argparse
import math
import os

CLEAR = 20  # height of the rapid links, in millimetres
TOLERANCE = 20  # of the check, in micrometres


class Path:
    """The text of a cutter location file as it grows."""

    def __init__(self, name, lift):
        self.lift = lift
        self.lines = ["PARTNO " + name.upper(), "UNITS/MM", "FROM/0,0,%d,0,0,1" % CLEAR]

    def cutter(self, diameter, radius, flank, height):
        self.lines.append("CUTTER/%g,%g,%g,%g,0,%g,%g" % (diameter, radius, diameter / 2 - radius, radius, flank, height))

    def go(self, place, rapid=False):
        """One move."""
        if rapid:
            self.lines.append("RAPID")
        self.at = place
        self.lines.append("GOTO/%.4f,%.4f,%.4f" % place)

    def rise(self, height=CLEAR):
        """The way out of a cut: a feed move first where that is asked for, then a rapid one."""
        x, y, z = self.at
        if self.lift:
            self.go((x, y, z + self.lift))
        self.go((x, y, height), rapid=True)

    def cut(self, places):
        """One cut, from above its first place to above its last."""
        self.go(places[0][:2] + (CLEAR,), rapid=True)
        for place in places:
            self.go(place)
        self.rise()


# ---------------------------------------------------------------- the ridge: a round back that runs along y

ROUND, HALF, LONG = 30, 18, 40  # its radius, half of its width and its length, in millimetres
FOOT = math.sqrt(ROUND ** 2 - HALF ** 2)  # of its flanks, above the centre of the round
FACETS = 48


def back(angle, offset):
    """A place at a distance from the round back, at an angle from its highest line, which is at z = 0."""
    return (ROUND + offset) * math.sin(angle), (ROUND + offset) * math.cos(angle) - ROUND


def ridge_part():
    """The back as flat facets between lines on it, so within it by six micrometres at most."""
    edge = math.asin(HALF / ROUND)
    lines = [back(edge * (2 * n / FACETS - 1), 0) for n in range(FACETS + 1)]
    planes = [[0, 1, 0, 1_000 * LONG], [0, -1, 0, 0], [0, 0, -1, 20_000]]
    for (x, z), (u, w) in zip(lines, lines[1:]):
        size = math.hypot(w - z, u - x)
        a, c = -round(10_000 * (w - z) / size), round(10_000 * (u - x) / size)
        planes.append([a, 0, c, math.floor(min(a * x + c * z, a * u + c * w) * 1_000)])
    return ["planes = [%s]" % ", ".join(map(str, planes)),
            "box = [-30_000, 0, -20_000, 30_000, %d, %d]" % (1_000 * LONG, 1_000 * math.floor(FOOT - ROUND))]


def waterline(path):
    """Round the ridge at each level, from the middle of one side to a little past it. The centre of the cutter's corner is 2 mm off its axis."""
    path.cutter(6, 1, 0, 40)
    wide, radius = 2, 1
    for level in range(8):
        low = -0.75 * (level + 0.5)  # of the tip
        side = math.sqrt((ROUND + radius) ** 2 - (low + radius + ROUND) ** 2) + wide
        corners = [(-side, LONG + 3), (side, LONG + 3), (side, -3), (-side, -3)]
        path.cut([(x, y, low) for x, y in [(-side, 20)] + corners + [(-side, 22)]])


def raster(path):
    """Across the back, in chords that are off by at most 0.01 mm."""
    path.cutter(6, 3, 0, 40)
    edge = math.asin(HALF / (ROUND + 3)) * 0.9
    steps = math.ceil(2 * edge / (2 * math.acos(1 - 0.01 / (ROUND + 3))))
    for line in range(2 * LONG + 1):
        angles = [edge * (2 * n / steps - 1) for n in range(steps + 1)]
        places = [back(angle, 3) for angle in angles]
        path.cut([(x, line / 2, z - 3) for x, z in places])


RIDGE = (-26_030, -5_030, -12_030), 1_000, 100, (53, 51, 13), ["box = [-24_000, -2_000, -20_000, 24_000, 42_000, 0]"]


# ---------------------------------------------------------------- the pocket and its holes

def pocket_part():
    walls = [(0, 0, 10, 50), (60, 0, 70, 50), (0, 0, 70, 10), (0, 40, 70, 50)]
    floors = [(0, 0, 22, 50), (28, 0, 42, 50), (48, 0, 70, 50), (0, 0, 70, 22), (0, 28, 70, 50)]
    return ["box = [%d, %d, -20_000, %d, %d, %d]" % tuple([1_000 * n for n in box] + [top])
            for boxes, top in ((walls, 0), (floors, -8_000)) for box in boxes]


def pocket(path):
    """Lines to and fro, then along the walls, layer by layer; then the holes, by steps of 2 mm."""
    path.cutter(8, 0, 0, 40)
    for layer in range(4):
        z = -2.0 * (layer + 1)
        lines = [(14.2 if n % 2 else 55.8, 14.2 + 4.32 * (n // 2 + n % 2), z) for n in range(11)]
        path.cut([(14.2, 14.2, z)] + lines)
        path.cut([(14, 14, z), (56, 14, z), (56, 36, z), (14, 36, z), (14, 14, z)])
    path.cutter(6, 0, 0, 40)
    for x in (25, 45):
        path.go((x, 25, CLEAR), rapid=True)
        for step in range(1, 7):
            if step > 1:
                path.go((x, 25, -8 - 2 * (step - 1) + 0.5), rapid=True)
            path.go((x, 25, -8 - 2 * step))
            path.rise()


POCKET = (-1_030, -1_030, -21_030), 1_000, 100, (73, 53, 23), ["box = [0, 0, -20_000, 70_000, 50_000, 0]"]


# ---------------------------------------------------------------- the engraving

GROOVES, DEEP, TIP = 12, 1.0, 0.2  # their number, their depth, and the width of the cone at its tip


def engraving_part():
    """Between two grooves a body whose flanks lean by 30 degrees, and the plate under all of them."""
    bodies = ["box = [0, 0, -4_000, 30_000, 20_000, %d]" % round(-1_000 * DEEP)]
    a, c = 8_660, 5_000  # the normal of a flank that leans by 30 degrees from upright
    for n in range(GROOVES - 1):
        left, right = (2 * (n + 1) + TIP / 2) * 1_000, (2 * (n + 2) - TIP / 2) * 1_000
        low = -1_000 * DEEP
        bodies.append("planes = [[%d, 0, %d, %d], [%d, 0, %d, %d], [0, 1, 0, 20_000], [0, -1, 0, 0], [0, 0, 1, 0], [0, 0, -1, 4_000]]"
                      % (-a, c, math.floor(-a * left + c * low), a, c, math.floor(a * right + c * low)))
    return bodies


def engraving(path):
    """Along y, in moves of a millimetre, at half of the depth and then at all of it."""
    path.cutter(TIP, 0, 30, 6)
    for n in range(GROOVES):
        for z in (-DEEP / 2, -DEEP):
            path.cut([(2 * (n + 1), 2 + y, z) for y in range(17)])


ENGRAVING = (-130, -130, -1_530), 200, 20, (152, 102, 9), ["box = [0, 0, -4_000, 30_000, 20_000, 0]"]


# ---------------------------------------------------------------- the files

PATHS = {
    "waterline": (waterline, ridge_part, RIDGE),
    "raster": (raster, ridge_part, RIDGE),
    "pocket": (pocket, pocket_part, POCKET),
    "engraving": (engraving, engraving_part, ENGRAVING),
}


def setup_text(part, grid, slabs, depth, coarse):
    origin, pitch, step, counts, stock = grid
    step = pitch if coarse else step
    return "\n".join(
        ["[grid]", "origin = %s" % list(origin), "pitch = %d" % pitch, "step = %d" % step, "counts = %s" % list(counts),
         "[check]", "tolerance = %d" % TOLERANCE, "clearance = 0", "slabs = %d" % slabs, "depth = %d" % depth,
         "[tool]", "diameter = 6_000", "radius = 0", "height = 40_000"]
        + ["[[stock]]\n" + body for body in stock] + ["[[part]]\n" + body for body in part]) + "\n"


def make(name, folder, slabs=16, depth=6, lift=0.0, coarse=False):
    """Writes the two files, and returns their paths."""
    cut, part, grid = PATHS[name]
    path = Path(name, lift)
    cut(path)
    texts = {"cls": "\n".join(path.lines + ["FINI"]) + "\n", "toml": setup_text(part(), grid, slabs, depth, coarse)}
    files = []
    for ending, text in texts.items():
        files.append(os.path.join(folder, "%s.%s" % (name, ending)))
        with open(files[-1], "w", encoding="ascii") as file:
            file.write(text)
    return files


def main():
    parser = argparse.ArgumentParser(description=__doc__, formatter_class=argparse.RawDescriptionHelpFormatter)
    parser.add_argument("name", choices=PATHS)
    parser.add_argument("folder")
    parser.add_argument("--slabs", type=int, default=16)
    parser.add_argument("--depth", type=int, default=6)
    parser.add_argument("--lift", type=float, default=0.0)
    parser.add_argument("--coarse", action="store_true")
    options = parser.parse_args()
    make(options.name, options.folder, options.slabs, options.depth, options.lift, options.coarse)


if __name__ == "__main__":
    main()
