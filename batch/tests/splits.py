"""Tests of clverify-split: the report of the windows is that of the whole grid, byte for byte."""

import functools
import importlib.machinery
import importlib.util
import itertools
import os
import random

from lib import reports, saved_stock, setups, windows

from . import calls

EXAMPLES = os.path.join(calls.TOP, "examples")
MADE, SEED = 30, 12  # jobs, and where they begin
SMALL = """[grid]
origin = [0, 0, 0]
pitch = 1000
step = 500
counts = [%d, 3, 2]
[check]
tolerance = 0
clearance = 0
slabs = 8
depth = 2
[tool]
diameter = 2000
radius = 0
height = 5000
[[stock]]
box = [0, 0, 0, %d, 2500, 1500]
[[part]]
box = [0, 0, 0, %d, 2500, 400]
"""
PATH = "CUTTER/2,0\nFROM/0,1,1\nGOTO/2,1,1\nGOTO/405.3,1.2,0.8\nGOTO/405.3,1.2,0.2\nRAPID\nGOTO/395,1,0.6\nFINI\n"
SCRIPT = "edition 2\nrun 1 4\nprobe X 1 1 810\nprobe X 1 1 811\nprobe Z 405 1 2\nprobe Y 410 1 5\ncount\nundo 2\ncount\nredo 2\n"
LONG = 411  # nodes along x, more than a grid may have


@functools.cache
def second_reading():
    """The computation of reports point by point that stands in examples/, apart from the program."""
    loader = importlib.machinery.SourceFileLoader("compare_verify", os.path.join(EXAMPLES, "compare_verify"))
    module = importlib.util.module_from_spec(importlib.util.spec_from_loader(loader.name, loader))
    loader.exec_module(module)
    return module


def split_is_whole(tally, name, folder, program, files, parts):
    """The windows give what the program gives for the whole."""
    options = ["--script", files[2]] if len(files) > 2 else []
    whole = calls.program(program, "verify", *files[:2], *options)
    called = calls.call("clverify-split", *files[:2], *parts, *options, "--program", program, "--folder", os.path.join(folder, "windows"))
    tally.same("%s in %d x %d x %d windows" % (name, *parts), (called.code, called.out), (whole.code, whole.out))


def examples(tally, folder, program):
    for name, script, parts in (("verify_gouge", None, (1, 1, 1)), ("verify_gouge", None, (5, 3, 2)), ("verify_passes", "passes.script", (3, 4, 2)),
                                ("plate", "pocket.script", (4, 1, 3)), ("verify_inches", None, (2, 2, 2))):
        files = [os.path.join(EXAMPLES, name, file) for file in ("part.cls", "setup.toml") + ((script,) if script else ())]
        split_is_whole(tally, name, folder, program, files, parts)


def made(tally, folder, program):
    """generated jobs, many of them refused, cut at random."""
    verify = second_reading()
    rng = random.Random("windows")
    for number in range(MADE):
        files, scripted = verify.made_job(SEED, number)
        if not all(name in files for name in (verify.PATH, verify.SETUP) + ((verify.SCRIPT,) if scripted else ())):
            continue
        paths = [calls.write(folder, name, data) for name, data in files.items() if name != verify.SCRIPT or scripted]
        paths = sorted(paths, key=[os.path.join(folder, name) for name in (verify.PATH, verify.SETUP, verify.SCRIPT)].index)
        split_is_whole(tally, "made job %d" % number, folder, program, paths, parts_for(files[verify.SETUP], rng))


def parts_for(setup, rng):
    """How many windows along each axis: any that the grid takes."""
    try:
        grid = windows.grid_of(setups.read_table(setup))
    except setups.SetupFault:
        grid = None
    return [rng.randint(1, min(3, count)) for count in grid.counts] if grid else [1, 1, 1]


@functools.cache
def long_due():
    """The report of the long grid, computed point by point, and its code."""
    verify = second_reading()
    moves, passed = verify.reading.program(PATH.encode())
    setup = verify.inputs.setup_of((SMALL % (400, 1_000 * LONG, 1_000 * LONG)).encode())
    setup["grid"] = (*setup["grid"][:3], (LONG, 3, 2))
    made = verify.inputs.script_of(SCRIPT.encode(), len(moves), setup["grid"])
    job = verify.Job(setup, moves, [verify.whole(move[6], setup["tool"]) for move in moves])
    return verify.report(job, passed, made.edits, made.queries)


def long_grid(tally, folder, program):
    """A grid of more nodes than the program takes, against the computation point by point; and what can't be cut."""
    text = SMALL % (LONG, 1_000 * LONG, 1_000 * LONG)
    setup, cl, script = (calls.write(folder, name, data) for name, data in (("long.toml", text), ("long.cls", PATH), ("long.script", SCRIPT)))

    def split(file, parts, *words):
        return calls.call("clverify-split", cl, file, *parts, *words, "--program", program, "--folder", os.path.join(folder, "windows"))

    for parts in ((2, 1, 1), (5, 3, 2)):
        called = split(setup, parts, "--script", script)
        tally.same("a grid of %d nodes in %d x %d x %d windows" % (LONG, *parts), (called.out, called.code), long_due())
    tally.true("the program refuses it whole", "SetupRange 411" in calls.program(program, "verify", cl, setup).out)
    far = calls.write(folder, "far.toml", (SMALL % (LONG, 1_000, 1_000)).replace("[0, 0, 0]", "[900_000, 0, 0]", 1))
    for file, parts, words in ((setup, (1, 1, 1), "take at least 2 windows"), (setup, (2, 4, 1), "4 windows along y, but the grid has 3 nodes there"),
                               (far, (2, 1, 1), "lies at 1310500, beyond a metre")):
        called = split(file, parts)
        tally.true("what can't be cut: %s" % words, called.code == 2 and words in called.said and not called.out, called.said)
    wrong = calls.write(folder, "wrong.toml", text.replace("depth = 2", "depth = 2.0"))
    called = split(wrong, (2, 1, 1))
    tally.same("another fault of a long setup", (called.code, called.out), (3, "refused: setup check.depth: SetupKey\n"))
    tally.same("a file that isn't there", split(os.path.join(folder, "no.toml"), (1, 1, 1)).code, 4)


def partition(tally):
    """Each point of a grid is in exactly one window, at its own place, and nothing else is in any."""
    rng = random.Random("partition")
    for number in range(30):
        fine = rng.choice([1, 2, 5])
        grid = saved_stock.Grid(tuple(rng.randint(-50, 50) for _ in range(3)), 7 * fine, 7, tuple(rng.randint(1, 5) for _ in range(3)))
        parts = tuple(rng.randint(1, count) for count in grid.counts)
        found = []
        for window in windows.windows_of(grid, parts):
            own = windows.grid_in(grid, window)
            for family, i, j, l in lattice(grid):
                inside = windows.place_in(grid, window, family, i, j, l)
                if inside:
                    found.append(((family, i, j, l), (family, *inside), own))
        tally.same("partition %d: each point once" % number, sorted(point for point, _, _ in found), sorted(lattice(grid)))
        tally.true("partition %d: at its place" % number, all(windows.is_on(own, *inside) and own.position(*inside) == grid.position(*point)
                                                          for point, inside, own in found))
        tally.same("partition %d: nothing else" % number, len(found), sum(len(list(lattice(own))) for own in {own for _, _, own in found}))


def lattice(grid):
    for family, (along, first, second) in windows.FAMILIES.items():
        for i, j, l in itertools.product(range(grid.counts[first]), range(grid.counts[second]), range(grid.points(family))):
            yield family, i, j, l


def scripts(tally):
    """What becomes of the lines of a script."""
    grid = saved_stock.Grid((0, 0, 0), 1_000, 500, (4, 3, 2))
    low, high = windows.windows_of(grid, (2, 1, 1))
    for line, in_low, in_high in [
            ("probe X 2 1 3", "probe X 2 1 3", "probe X 0 0 0"), ("probe X 2 1 4", "probe X 0 0 0", "probe X 2 1 0"),
            ("probe X 2 1 8", "probe X 2 1 8", "probe X 2 1 8"), ("\tprobe  Z 3 2 3 # there\r", "\tprobe  Z 0 0 0 # there\r", "\tprobe  Z 1 2 3 # there\r"),
            ("probe Y 1 0 5", "probe Y 1 0 5", "probe Y 0 0 0"), ("probe Z 0000000001 0 0", None, None), ("# probe Z 3 0 0", None, None),
            ("run 1 2", None, None), ("probe Z 3 0", None, None), ("probe z 3 0 0", None, None), ("probe Z -3 0 0", None, None)]:
        got = tuple(windows.script_in(line.encode(), grid, window).decode() for window in (low, high))
        tally.same("a script's line: %s" % line.strip(), got, (in_low or line, in_high or line))
    tally.same("the questions", windows.questions_of(b"probe X 2 1 3\ncount # all\n#count\ncount\r\nrun 1 1\ncount#"), [("X", 2, 1, 3), None, None, None])


def setups_again(tally):
    """A setup that is written again means the same."""
    text = '[grid]\norigin = [1, -2, 0x10]\n"a b" = "x\\"\\u0001\\\\y"\nwhen = 1979-05-27T07:32:00Z\nlong = 1.5e3\n[[part]]\nbox = [1, 2]\n[[part]]\nplanes = [[1, 2], [3]]\n[deep.er]\nx = {y = [true, 07:32:00]}\n'
    table = setups.read_table(text.encode())
    tally.same("a setup written again", setups.read_table(setups.table_text(table).encode()), table)


def wrong_reports(tally):
    """A text that isn't a whole report, or contradicts itself, is no report."""
    move = "move 1 line 2 cut removed 1 possible 1 part 0 %d fixture 0 0 rapid 0 0 %s\n"
    for name, text in (("cut off", "clverify 1\nmoves 0 left 0 passed 0\ntotal removed 0 possible 0 of 0\n"), ("empty", ""),
                       ("without an end of line", "clverify 1\nmoves 0 left 0 passed 0\ntotal removed 0 possible 0 of 0\nverdict clean"),
                       ("an unknown line", "clverify 1\nmoves 0 left 0 passed 0\nholder 1\ntotal removed 0 possible 0 of 0\nverdict clean\n"),
                       ("safe against its counts", "clverify 1\nmoves 1 left 1 passed 0\n" + move % (1, "safe") + "total removed 0 possible 0 of 0\nverdict clean\n"),
                       ("clean against its moves", "clverify 1\nmoves 1 left 1 passed 0\n" + move % (1, "unsafe") + "total removed 0 possible 0 of 0\nverdict clean\n"),
                       ("a move too few", "clverify 1\nmoves 1 left 1 passed 0\ntotal removed 0 possible 0 of 0\nverdict clean\n")):
        try:
            reports.read_report(text)
            tally.true("a report: " + name, False)
        except reports.Unreadable:
            tally.true("a report: " + name, True)
    text = "clverify 1\nmoves 1 left 1 passed 0\n" + move % (1, "unsafe") + "probe X 0 0 0 kept\ncount removed 1 possible 1 of 5\ntotal removed 1 possible 1 of 5\nverdict findings\n"
    tally.same("a report written again", reports.report_text(reports.read_report(text)), text)


def run(tally, folder, program):
    for each in (examples, made, long_grid):
        own = os.path.join(folder, each.__name__)
        os.makedirs(own)
        each(tally, own, program)


def run_alone(tally):
    for each in (partition, scripts, setups_again, wrong_reports):
        each(tally)
