"""The report of `clverify verify`, read line by line. A line that isn't known is a fault, never passed over."""

import re
from typing import NamedTuple

PAIRS = ("part", "fixture", "rapid")
MOVE = re.compile(r"move (\d+) line (\d+) (cut|rapid) removed (\d+) possible (\d+)"
                  r" part (\d+) (\d+) fixture (\d+) (\d+) rapid (\d+) (\d+) (safe|unsafe)")
HEAD = re.compile(r"moves (\d+) left (\d+) passed (\d+)")
TOTALS = re.compile(r"(count|total) removed (\d+) possible (\d+) of (\d+)")
PROBE = re.compile(r"probe ([XYZ]) (\d+) (\d+) (\d+) (none|kept|possible|removed)")


class Unreadable(Exception):
    """A text that is no report."""


class Move(NamedTuple):
    number: int  # in the file, from 1
    line: int
    kind: str
    counts: tuple  # removed, possible, and the pairs of part, fixture and rapid

    def pair(self, name):
        """The points that the move is sure of, and those where it is possible."""
        at = 2 + 2 * PAIRS.index(name)
        return self.counts[at:at + 2]

    def is_safe(self):
        """Whether the second number of each pair is 0."""
        return not (self.counts[3] or self.counts[5] or self.counts[7])


def move_of(line):
    """The move of a line, or None."""
    match = MOVE.fullmatch(line)
    if not match:
        return None
    number, record, kind, *counts, safe = match.groups()
    move = Move(int(number), int(record), kind, tuple(map(int, counts)))
    if (safe == "safe") != move.is_safe():
        raise Unreadable("a move is called %s against its own counts: %s" % (safe, line))
    return move


class Report(NamedTuple):
    head: tuple  # moves of the file, moves that are left, records passed over
    moves: list
    answers: list  # the lines of probes, and of counts
    totals: tuple  # removed, possible, and all stock points
    is_clean: bool


def read_report(text):
    """The report that a text is."""
    lines = text.split("\n")
    head = HEAD.fullmatch(lines[1]) if len(lines) > 1 else None
    if lines[0] != "clverify 1" or not head or lines[-1] != "":
        raise Unreadable("the text isn't a whole report")
    moves, answers, at = [], [], 2
    while at < len(lines) and (move := move_of(lines[at])):
        moves.append(move)
        at += 1
    while at < len(lines) and (PROBE.fullmatch(lines[at]) or lines[at].startswith("count ") and TOTALS.fullmatch(lines[at])):
        answers.append(lines[at])
        at += 1
    total, verdict = lines[at:at + 1], lines[at + 1:at + 2]
    totals = TOTALS.fullmatch(total[0]) if total else None
    if not totals or totals.group(1) != "total" or verdict not in (["verdict clean"], ["verdict findings"]) or lines[at + 2:] != [""]:
        raise Unreadable("line %d of the report isn't known, or the report isn't whole" % (at + 1))
    is_clean = all(move.is_safe() for move in moves)
    left = int(head.group(2))
    if len(moves) != left or is_clean != (verdict == ["verdict clean"]):
        raise Unreadable("the report contradicts itself")
    return Report(tuple(map(int, head.groups())), moves, answers, tuple(map(int, totals.groups()[1:])), is_clean)


def move_line(move):
    return "move %d line %d %s removed %d possible %d part %d %d fixture %d %d rapid %d %d %s" % (
        move.number, move.line, move.kind, *move.counts, "safe" if move.is_safe() else "unsafe")


def totals_line(word, totals):
    return "%s removed %d possible %d of %d" % (word, *totals)


def report_text(report):
    """The text of a report, byte for byte as `clverify` writes it."""
    lines = ["clverify 1", "moves %d left %d passed %d" % report.head]
    lines += [move_line(move) for move in report.moves] + report.answers
    lines += [totals_line("total", report.totals), "verdict clean" if report.is_clean else "verdict findings"]
    return "\n".join(lines) + "\n"


def grouped(report, places):
    """What was found, by operation and tool and kind: how many moves, the sums of their points, and the first moves of each."""
    groups = {}
    for move in report.moves:
        for kind in PAIRS:
            sure, possible = move.pair(kind)
            if possible:
                group = groups.setdefault((*places.at(move.line), kind), {"moves": 0, "sure": 0, "possible": 0, "first": []})
                group["moves"] += 1
                group["sure"] += sure
                group["possible"] += possible
                if len(group["first"]) < SHOWN:
                    group["first"].append({"move": move.number, "line": move.line, "sure": sure, "possible": possible})
    return [{"operation": operation, "tool": tool, "kind": kind, **group} for (operation, tool, kind), group in groups.items()]


SHOWN = 3  # moves of a group that are shown
