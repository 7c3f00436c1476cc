#!/usr/bin/env python3
"""Makes jobs for `verify`, a cutter location file and a setup each.

    bench/jobs.py NAME FOLDER       writes FOLDER/NAME.cls and FOLDER/NAME.toml

medium, large and huge are a block that gets a pocket with a flat floor and walls that lean back. A bull-nose cutter roughs it layer
by layer, a smaller one goes round with its flank along the walls, and a ball cutter finishes the floor. The tool axis tilts all the
way. Two clamps hold the block at its ends. 1,000, 5,000 and 20,000 moves.

fine and limit have one short cut on a grid with 1,000 points for each node, the most that a setup may ask for; limit has the most
nodes too.

The others are what a verifier finds hard. deep is large with 64 slabs and 1,024 cells a move, dense is medium with a hundredth of the
pitch for a step, and everywhere is medium with part and fixture at each point of the block. In turning the axis of a ball cutter leans
to another side with each move, by up to nine degrees, with 64 slabs and 1,024 cells. wide faces the block with a cutter of 100 mm.
links goes up, across the block in rapid motion, and down at each place, with a long cut now and then. along cuts from end to end,
along rays of a fine grid, with 1,024 cells a move.

The same name gives the same bytes each time.
"""

import argparse
import math
import os
import random
from typing import NamedTuple


class Job(NamedTuple):
    """A block and its pocket, in millimetres: x and y are 0 in the middle, z is 0 on top."""
    nodes: tuple  # of the grid along x, y and z, a millimetre apart
    points: int  # of the lattice for each node along a ray
    moves: int
    floor: tuple  # half of the pocket's length and width at its floor
    depth: int
    layers: int  # of the roughing
    rounds: int  # along the walls
    tools: tuple  # diameter and corner radius of the cutter that roughs, the one for the walls, and the ball
    path: str = "pocket"  # what is cut
    slabs: int = 16
    halvings: int = 4  # of a move's time into cells
    filled: bool = False  # whether part and fixture are at each point of the block


MEDIUM = Job((100, 100, 30), 4, 1_000, (19, 16), 6, 3, 1, ((8, 1.5), (6, 0.5), (4, 2)))
LARGE = Job((200, 200, 50), 4, 5_000, (49, 45), 12, 4, 2, ((12, 2), (10, 1), (6, 3)))
HUGE = Job((400, 400, 100), 4, 20_000, (105, 97), 20, 5, 5, ((16, 3), (12, 1.5), (8, 4)))
JOBS = {
    "medium": MEDIUM,
    "large": LARGE,
    "huge": HUGE,
    "fine": LARGE._replace(points=1_000, moves=1),
    "limit": HUGE._replace(nodes=(400, 400, 400), points=1_000, moves=1),
    "deep": LARGE._replace(slabs=64, halvings=10),
    "dense": MEDIUM._replace(points=100),
    "everywhere": MEDIUM._replace(filled=True),
    "turning": MEDIUM._replace(path="turning", slabs=64, halvings=10, tools=((12, 6),)),
    "wide": LARGE._replace(path="wide", moves=500, tools=((100, 5),)),
    "links": LARGE._replace(path="links", moves=2_000, tools=((12, 2),)),
    "along": MEDIUM._replace(path="along", points=100, moves=40, halvings=10, tools=((8, 1),)),
}
LEAN = 1 / 8  # of the walls: a millimetre outwards for eight upwards, some seven degrees

# ---------------------------------------------------------------- the path

TALLEST = 300  # height of a cutter, in millimetres
SHARES = (0.5, 0.25, 0.25)  # of the moves, for the three cutters
TILT, LEAD = math.tan(math.radians(3)), math.tan(math.radians(9))  # of the axis to each side, in roughing and on the floor
CLEAR = 15  # height of the rapid links, above the clamps
KEPT, FLUSH = 0.3, 0.02  # what is left on by roughing and by finishing
OFF = 2  # from the walls and the floor, before a rapid move leads up
RAPID, DOWN, CUT = 0, 300, 1_500  # feeds in millimetres a minute


def record(word, tip, axis):
    """A GOTO or FROM with its axis, as a CAM system writes it: what would have more than 60 columns goes on in the next line."""
    size = math.hypot(*axis)
    text = "%s/%s" % (word, ",".join(["%.4f" % n for n in tip] + ["%.7f" % (n / size) for n in axis]))
    return text + "\n" if len(text) <= 60 else "%s,$\n%s\n" % tuple(text.rsplit(",", 1))


def below_tip(cutter, axis):
    """How far a tilted cutter reaches below its tip: by the bottom's rim, whose corner is round."""
    diameter, radius = cutter
    upright = axis[2] / math.hypot(*axis)
    return (diameter / 2 - radius) * math.sqrt(1 - upright * upright) + radius * (1 - upright)


class Path:
    """The text of a path as it grows. A place is where the cutter's lowest point is; the tip stands above it by what a tilt takes."""

    def __init__(self, name, start):
        self.random = random.Random(name)
        self.at = start
        self.feed = None
        self.tools = 0
        self.texts = ["PARTNO %s\nUNITS/MM\nMULTAX/ON\n" % name.upper(), record("FROM", start, (0, 0, 1))]

    def change(self, cutter, what):
        """Takes the next cutter."""
        self.cutter = diameter, radius = cutter
        self.tools += 1
        self.texts.append("$$ -----\n$$ %s\nLOADTL/%d\n" % (what, self.tools))
        self.texts.append("CUTTER/%.4f,%.4f,%.4f,%.4f,0,0,%.4f\n" % (diameter, radius, diameter / 2 - radius, radius, min(4 * diameter, TALLEST)))
        self.texts.append("SPINDL/RPM,%d,CLW\nCOOLNT/ON\n" % self.random.randrange(6_000, 18_000, 500))

    def go(self, place, axis, feed):
        """One move."""
        if feed == RAPID:
            self.texts.append("RAPID\n")
        elif feed != self.feed:
            self.texts.append("FEDRAT/MMPM,%.1f\n" % feed)
        x, y, z = place
        self.texts.append(record("GOTO", (x, y, z + below_tip(self.cutter, axis)), axis))
        self.at, self.feed = place, feed

    def follow(self, legs, count):
        """Follows the legs, each a feed, an end, and the axis as a function of the place, in a given number of moves in all: one for each leg,
        and the spare ones for those that cut, by their length."""
        ends = [self.at] + [end for _, end, _ in legs]
        lengths = [0 if leg[0] == RAPID else math.dist(*ends[n:n + 2]) for n, leg in enumerate(legs)]
        spare, whole, behind = count - len(legs), sum(lengths), 0
        for start, (feed, end, axis), length in zip(ends, legs, lengths):
            parts = 1 + round(spare * (behind + length) / whole) - round(spare * behind / whole)
            behind += length
            for n in range(1, parts + 1):
                t = 1 if n == parts else (n + self.random.uniform(-0.4, 0.4)) / parts
                place = tuple(a + (b - a) * t for a, b in zip(start, end))
                self.go(place, axis(place), feed)


def run(places, axis):
    """The legs of one run: down to its first place, through all of them, off, and up."""
    x, y, z = places[-1]
    off = (x - math.copysign(OFF, x), y - math.copysign(OFF, y), z + OFF)
    yield RAPID, places[0][:2] + (CLEAR,), axis
    yield DOWN, places[0], axis
    yield from ((CUT, place, axis) for place in places[1:] + [off])
    yield RAPID, off[:2] + (CLEAR,), axis


def to_and_fro(half_x, half_y, z, apart):
    """Passes along x, at most so far apart."""
    gaps = math.ceil(2 * half_y / apart)
    return [(x, half_y * (2 * n / gaps - 1), z) for n in range(gaps + 1) for x in ((-half_x, half_x) if n % 2 == 0 else (half_x, -half_x))]


def roughing(job, cutter):
    """Layer by layer, each as wide as the pocket is there."""
    for layer in range(1, job.layers + 1):
        z = KEPT - job.depth * layer / job.layers
        halves = [half + (job.depth + z) * LEAN - cutter[0] / 2 - KEPT for half in job.floor]
        passes = to_and_fro(*halves, z, 0.55 * cutter[0])
        yield from run(passes, lambda place: (TILT * math.sin(place[0] / 40), TILT * math.cos(place[1] / 40), 1))


def along_walls(halves, turn):
    """The axis along the wall that the cutter is at, and in between where it goes from one wall to the next."""

    def axis(place):
        near = [max(0, 1 - (half - abs(at)) / turn) for half, at in zip(halves, place)]
        return tuple(math.copysign(LEAN * share, at) for share, at in zip(near, place)) + (1,)

    return axis


def walls(job, cutter):
    """Round by round from the top down, from the middle of a wall on, and straight across the corners."""
    turn = 0.35 * cutter[0]
    for n in range(1, job.rounds + 1):
        z = FLUSH - job.depth * n / job.rounds
        tip = z + below_tip(cutter, (LEAN, 0, 1))
        # Where the tool axis passes at the height of the tip: the cutter's radius off the wall, across it.
        x, y = [half + (job.depth + tip) * LEAN - (cutter[0] / 2 + FLUSH) * math.hypot(LEAN, 1) for half in job.floor]
        right, left = [(x, turn - y), (x, y - turn)], [(-x, y - turn), (-x, turn - y)]
        back, front = [(x - turn, y), (turn - x, y)], [(turn - x, -y), (x - turn, -y)]
        corners = [(x, 0)] + right[1:] + back + left + front + right[:1] + [(x, 0)]
        yield from run([corner + (z,) for corner in corners], along_walls((x, y), turn))


def floor(job, cutter):
    """The whole floor in close passes, the axis leaning to all sides, as far from the walls as it leans more than they do."""
    halves = [half - 0.55 * cutter[0] - job.depth * (LEAD - LEAN) for half in job.floor]
    passes = to_and_fro(*halves, FLUSH - job.depth, 0.5 * cutter[0])
    yield from run(passes, lambda place: (LEAD * math.cos(place[0] / 17), LEAD * math.sin(place[1] / 23), 1))


def pocket(job, path):
    """Roughing, the walls, and the floor."""
    for operation, share, cutter in zip((roughing, walls, floor), SHARES, job.tools):
        path.change(cutter, operation.__name__)
        path.follow(list(operation(job, cutter)), round(share * job.moves))


def turning(job, path):
    """Short cuts all over the pocket's place, the axis leaning to another side with each."""
    path.change(job.tools[0], "turning axis")
    x, y = (half - job.tools[0][0] / 2 for half in job.floor)
    path.go((0, 0, 0), (0, 0, 1), DOWN)
    for n in range(1, job.moves):
        angle, lean = path.random.uniform(0, math.tau), path.random.uniform(0, LEAD)
        place = [min(half, max(-half, at + path.random.uniform(-2, 2))) for half, at in zip((x, y), path.at)]
        path.go((*place, -job.depth * n / job.moves), (lean * math.cos(angle), lean * math.sin(angle), 1), CUT)


def wide(job, path):
    """Passes over the whole block, each a little lower."""
    path.change(job.tools[0], "facing")
    half_x, half_y = job.nodes[0] / 2 + 60, job.nodes[1] / 2
    passes = [(x, y, z) for z in (-1, -2) for x, y, _ in to_and_fro(half_x, half_y, z, 60)]
    legs = [(CUT, place, lambda place: (0, 0, 1)) for place in passes]
    path.follow([(RAPID, passes[0][:2] + (CLEAR,), legs[0][2]), *legs], job.moves)


def links(job, path):
    """Holes in any order, with a rapid move over the block from each to the next, and each tenth time a cut across it."""
    path.change(job.tools[0], "links")
    half_x, half_y = (half - 10 for half in job.floor)
    upright = (0, 0, 1)
    for n in range(job.moves // 4):
        x, y = path.random.uniform(-half_x, half_x), path.random.uniform(-half_y, half_y)
        path.go((x, y, CLEAR), upright, RAPID)
        path.go((x, y, -job.depth * path.random.random()), upright, DOWN)
        if n % 10 == 0:
            x, y = -x, -y
        path.go((x, y, path.at[2]), upright, CUT)
        path.go((x, y, CLEAR), upright, RAPID)


def along(job, path):
    """From end to end of the block along x, line by line."""
    path.change(job.tools[0], "along rays")
    half_x, half_y = job.nodes[0] / 2, job.floor[1]
    for n, (x, y, z) in enumerate(to_and_fro(half_x, half_y, -1, 4 * half_y / job.moves)):
        if n < job.moves:
            path.go((x, y, z), (0, TILT, 1), CUT)


def path_of(name):
    """The cutter location file of a job."""
    job = JOBS[name]
    if job.moves == 1:
        path = Path(name, (0, 0, -1))
        path.change(job.tools[0], "one cut")
        path.go((1, 0.5, -1), (TILT, TILT, 1), CUT)
    else:
        path = Path(name, (0, 0, 100))
        {"pocket": pocket, "turning": turning, "wide": wide, "links": links, "along": along}[job.path](job, path)
    return "".join(path.texts) + "COOLNT/OFF\nSPINDL/OFF\nEND\nFINI\n"


# ---------------------------------------------------------------- the setup

PITCH = 1_000
ABOVE = 5_000  # what the grid reaches above the block, so that the clamps are seen
CLAMP = 8_000  # height of the clamps
TOLERANCE = 250  # more than what 16 slabs add to the largest ball

CHECK = "[check]\ntolerance = %d\nclearance = 1000\nslabs = %d\ndepth = %d\n"
TOOL = "[tool]\ndiameter = 10000\nradius = 0\nheight = 40000\n"


def setup_of(name):
    """The setup of a job."""
    job = JOBS[name]
    length, width, height = [n * PITCH for n in job.nodes]
    low, high = [-length // 2, -width // 2, ABOVE - height], [length // 2, width // 2, 0]
    # A node stands in the middle of its cell, so that no layer of the pocket lies in a plane of rays.
    texts = ["[grid]\norigin = %s\n" % [n + PITCH // 2 for n in low]]
    texts.append("pitch = %d\nstep = %d\ncounts = %s\n" % (PITCH, PITCH // job.points, list(job.nodes)))
    texts += [CHECK % (TOLERANCE, job.slabs, job.halvings), TOOL, "[[stock]]\nbox = %s\n" % (low + high)]
    if job.filled:
        return "".join(texts + ["[[%s]]\nbox = %s\n" % (kind, low + high) for kind in ("part", "fixture")])
    texts.append("[[part]]\nbox = %s\n" % (low + high[:2] + [-1_000 * job.depth]))
    block = [[1, 0, 0, high[0]], [-1, 0, 0, -low[0]], [0, 1, 0, high[1]], [0, -1, 0, -low[1]], [0, 0, 1, high[2]], [0, 0, -1, -low[2]]]
    # Behind a wall at x = half + (depth + z) * LEAN lies where z - x / LEAN is at most -(half / LEAN + depth).
    for axis, half in enumerate(job.floor):
        for way in (1, -1):
            wall = [0, 0, 1_000, -1_000 * round(1_000 * (half / LEAN + job.depth))]
            wall[axis] = -way * round(1_000 / LEAN)
            texts.append("[[part]]\nplanes = %s\n" % ([wall] + block))
    for x in (low[0], high[0] - length // 16):
        texts.append("[[fixture]]\nbox = %s\n" % [x, -width // 10, 0, x + length // 16, width // 10, CLAMP])
    return "".join(texts)


def write(name, folder):
    """Writes both files of a job."""
    for end, text in ((".cls", path_of(name)), (".toml", setup_of(name))):
        with open(os.path.join(folder, name + end), "w") as f:
            f.write(text)


if __name__ == "__main__":
    words = argparse.ArgumentParser(description=__doc__, formatter_class=argparse.RawDescriptionHelpFormatter)
    words.add_argument("name", choices=JOBS)
    words.add_argument("folder")
    words = words.parse_args()
    write(words.name, words.folder)
