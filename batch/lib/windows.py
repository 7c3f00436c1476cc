"""Windows of a grid: whole nodes of it, each window a grid of its own, so that every point of the lattice is in exactly one.

Along an axis with n nodes, and q points for each node, a window from node a on and below node b has the rays through its nodes, and of
the rays along the axis the points from a q on and below b q: those after its last node too, up to the next window. Point l of such a
ray of the window is point a q + l of the whole grid, at the same place, since q steps are a pitch.
"""

import itertools
import operator
import re
from typing import NamedTuple

from . import reports, saved_stock, setups

FAMILIES = saved_stock.FAMILIES
AXES = "xyz"
METRE, MOST_NODES, MOST_PER_NODE = saved_stock.METRE, saved_stock.MOST_NODES, saved_stock.MOST_PER_NODE
PROBE = re.compile(rb"([ \t]*probe[ \t]+)([XYZ])[ \t]+([0-9]{1,9})[ \t]+([0-9]{1,9})[ \t]+([0-9]{1,9})([ \t]*(?:#.*)?\r?)")
QUESTION = re.compile(rb"[ \t]*(probe|count)(?:[ \t]|\r?$|#)")


class CannotCut(Exception):
    """What can't be cut, and why."""


class Window(NamedTuple):
    name: str
    low: tuple  # its first node along each axis
    high: tuple  # the node after its last


# ---------------------------------------------------------------- the grid


def grid_of(table):
    """The grid of a setup, of any number of nodes, or None where its numbers are none of a grid."""
    grid = table.get("grid")
    if not isinstance(grid, dict) or not (setups.whole_list(grid.get("origin"), 3) and setups.whole_list(grid.get("counts"), 3)):
        return None
    pitch, step = grid.get("pitch"), grid.get("step")
    if not (setups.is_whole(pitch) and setups.is_whole(step) and 1 <= step <= pitch <= METRE and pitch % step == 0):
        return None
    whole = saved_stock.Grid(tuple(grid["origin"]), pitch, step, tuple(grid["counts"]))
    is_one = whole.per_node() <= MOST_PER_NODE and all(count >= 1 for count in whole.counts) and all(abs(n) <= METRE for n in whole.origin)
    return whole if is_one else None


def last_point(grid, axis):
    return grid.origin[axis] + (grid.counts[axis] * grid.per_node() - 1) * grid.step


def bounds(count, parts):
    """Where each of a number of parts begins and ends, all as long as can be."""
    ends = [count * part // parts for part in range(parts + 1)]
    return list(zip(ends, ends[1:]))


def windows_of(grid, parts):
    """The windows of a grid, by their number along each axis."""
    for axis, (count, part) in enumerate(zip(grid.counts, parts)):
        if part > count:
            raise CannotCut("%d windows along %s, but the grid has %d nodes there" % (part, AXES[axis], count))
        if -(-count // part) > MOST_NODES:
            raise CannotCut("a window along %s would have %d nodes, and %d is the most: take at least %d windows there" % (
                AXES[axis], -(-count // part), MOST_NODES, -(-count // MOST_NODES)))
        if last_point(grid, axis) > METRE:
            raise CannotCut("the last point along %s lies at %d, beyond a metre from the origin" % (AXES[axis], last_point(grid, axis)))
    for places in itertools.product(*(enumerate(bounds(count, part)) for count, part in zip(grid.counts, parts))):
        numbers, ends = zip(*places)
        yield Window("window_%d_%d_%d" % numbers, tuple(low for low, _ in ends), tuple(high for _, high in ends))


def grid_in(grid, window):
    """The window's own grid."""
    origin = tuple(start + low * grid.pitch for start, low in zip(grid.origin, window.low))
    return grid._replace(origin=origin, counts=tuple(high - low for low, high in zip(window.low, window.high)))


def setup_in(table, grid, window):
    """The setup with the window's grid."""
    own = grid_in(grid, window)
    return {**table, "grid": {**table["grid"], "origin": list(own.origin), "counts": list(own.counts)}}


# ---------------------------------------------------------------- points, scripts and saved stock


def place_in(grid, window, family, i, j, l):
    """The same point by the window's own nodes and points, or None where another window has it."""
    along, first, second = FAMILIES[family]
    fine = grid.per_node()
    if not (window.low[first] <= i < window.high[first] and window.low[second] <= j < window.high[second]
            and window.low[along] * fine <= l < window.high[along] * fine):
        return None
    return i - window.low[first], j - window.low[second], l - window.low[along] * fine


def is_on(grid, family, i, j, l):
    """Whether the whole grid has the point."""
    _, first, second = FAMILIES[family]
    return i < grid.counts[first] and j < grid.counts[second] and l < grid.points(family)


def probe_in(grid, window, match):
    """The line of a probe as the window's script has it. A point of another window gives way to the window's first, whose answer isn't
    used, so that each script has the same questions; one outside the whole grid stays, and is refused in each window."""
    head, family, *numbers, tail = match.groups()
    point = family.decode(), *map(int, numbers)
    if not is_on(grid, *point):
        return match.group()
    return b"%s%s %d %d %d%s" % (head, family, *(place_in(grid, window, *point) or (0, 0, 0)), tail)


def script_in(data, grid, window):
    """The script with the points of the window's own grid."""
    lines = data.split(b"\n")
    return b"\n".join(probe_in(grid, window, match) if (match := PROBE.fullmatch(line)) else line for line in lines)


def questions_of(data):
    """The questions of a script that isn't refused: None for a count, a point for a probe."""
    asked = []
    for line in data.split(b"\n"):
        match = PROBE.fullmatch(line)
        if match:
            asked.append((match.group(2).decode(), *map(int, match.group(3, 4, 5))))
        elif QUESTION.match(line):
            asked.append(None)
    return asked


def stock_in(grid, window, rays):
    """The saved stock of the window's own points."""
    own = []
    for ray in rays:
        along, first, second = FAMILIES[ray.family]
        if window.low[first] <= ray.i < window.high[first] and window.low[second] <= ray.j < window.high[second]:
            low, high = (end * grid.per_node() for end in (window.low[along], window.high[along]))
            ranges = [(max(a, low) - low, min(b, high) - low) for a, b in ray.ranges if a < high and b > low]
            if ranges:
                own.append(saved_stock.Ray(ray.family, ray.i - window.low[first], ray.j - window.low[second], ranges))
    return saved_stock.text_of(grid_in(grid, window), own)


# ---------------------------------------------------------------- the report


class Sum:
    """The report of the whole grid as it grows by those of its windows: counts and totals are added, a probe is answered by the window
    that has its point, and a move is safe where it is safe in each."""

    def __init__(self, grid, questions):
        self.grid, self.questions = grid, questions
        self.head, self.moves, self.answers, self.totals = None, [], [None] * len(questions), (0, 0, 0)

    def add(self, window, report):
        if self.head is None:
            self.head, self.moves = report.head, [move._replace(counts=(0,) * len(move.counts)) for move in report.moves]
        if report.head != self.head or len(report.answers) != len(self.questions):
            raise reports.Unreadable("the report of %s is of another job" % window.name)
        for at, (move, own) in enumerate(zip(self.moves, report.moves)):
            if move[:3] != own[:3]:
                raise reports.Unreadable("the report of %s is of another job" % window.name)
            if any(own.counts):
                self.moves[at] = reports.Move(*move[:3], tuple(map(operator.add, move.counts, own.counts)))
        self.totals = tuple(map(sum, zip(self.totals, report.totals)))
        for at, (question, answer) in enumerate(zip(self.questions, report.answers)):
            self.answer(window, at, question, answer)

    def answer(self, window, at, question, answer):
        if question is None:
            totals = map(int, reports.TOTALS.fullmatch(answer).groups()[1:])
            self.answers[at] = tuple(map(sum, zip(self.answers[at] or (0, 0, 0), totals)))
        elif place_in(self.grid, window, *question):
            if self.answers[at] is not None:
                raise reports.Unreadable("two windows answer one probe")
            self.answers[at] = "probe %s %d %d %d %s" % (*question, answer.split()[-1])

    def report(self):
        answers = [answer if isinstance(answer, str) else reports.totals_line("count", answer) for answer in self.answers]
        return reports.Report(self.head, self.moves, answers, self.totals, all(move.is_safe() for move in self.moves))
