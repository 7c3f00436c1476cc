"""Tests of setup-from-stl, which need numpy and scipy: made pieces by sampling, what is refused, and the reports of setups that were made
again from their own bodies."""

import glob
import os
import re
import tomllib

import numpy
from scipy.optimize import nnls
from scipy.spatial import ConvexHull

from lib import meshes, polyhedra, setups

from . import bodies, calls

PIECES, SAMPLES = 40, 200
HEAVY = 1e6  # weight of the sum of shares, so that nnls keeps it at 1
TOLD = re.compile(r"^# (.*): (\d+) planes, larger than (?:the piece|its hull) by at most ([0-9.]+) micrometres$", re.M)
BRACKET = os.path.join(calls.HERE, "bracket")


def hull_solid(name, points):
    """A solid whose corners are these points' hull."""
    hull = ConvexHull(points)
    facets = []
    for simplex, equation in zip(hull.simplices, hull.equations):
        a, b, c = (points[at] for at in simplex)
        facets.append(tuple(map(int, simplex if numpy.dot(numpy.cross(b - a, c - a), equation[:3]) > 0 else simplex[::-1])))
    return name, [tuple(map(float, point)) for point in points], facets


def made_points(rng, number):
    """The points of a generated piece, in millimetres, and how many decimals they have: a ball's, a box that leans, a thin plate, a wedge, a
    needle."""
    kind, middle = number % 5, rng.uniform(-300, 300, 3)
    turn = numpy.linalg.qr(rng.normal(size=(3, 3)))[0]
    box = numpy.array([[x, y, z] for x in (0, 1) for y in (0, 1) for z in (0, 1)], dtype=float)
    if kind == 0:
        points = rng.normal(size=(rng.integers(6, 24), 3))
        points = 60 * points / numpy.linalg.norm(points, axis=1)[:, None]
    else:
        sizes = {1: (80, 50, 30), 2: (200, 150, 0.8), 3: (40, 60, 20), 4: (300, 1, 1)}[kind]
        points = (box[:6] if kind == 3 else box) * sizes @ turn
    decimals = int(rng.choice([2, 4, 6]))
    return numpy.round(points + middle, decimals), decimals


def distance(point, corners):
    """How far a point is from the hull of some corners, at most: by the nearest mixture of them that nnls finds."""
    shares, _ = nnls(numpy.vstack([corners.T, HEAVY * numpy.ones(len(corners))]), numpy.append(point, HEAVY))
    return float(numpy.linalg.norm(shares / shares.sum() @ corners - point))


def sampled(rng, corners):
    """Points of a body: mixtures of its corners, most of them close to one, and the corners."""
    yield from corners
    for _ in range(SAMPLES):
        shares = rng.exponential(size=len(corners)) ** rng.choice([1, 4])
        yield shares / shares.sum() @ corners


def body_holds_piece(tally, name, text, facets, rng):
    """No corner of the piece lies outside of its body, and the body's points lie within the reported distance of the piece."""
    planes = [tuple(plane) for plane in tomllib.loads(text)["part"][0]["planes"]]
    told = float(TOLD.search(text).group(3))
    corners = {corner for facet in facets for corner in facet}
    exact = [tuple(n * 1_000 for n in corner) for corner in corners]
    tally.true(name + ": no corner outside", all(bodies.held_by(planes, corner) for corner in exact))
    tally.true(name + ": the ranges", len(planes) <= 64 and all(max(map(abs, plane[:3])) <= 10_000 and abs(plane[3]) <= 10 ** 11 for plane in planes))
    own = numpy.array([[float(n) for n in corner] for corner in polyhedra.corners_of(polyhedra.polyhedron(planes))])
    points = numpy.array([[float(n) for n in corner] for corner in exact])
    middle = points.mean(axis=0)
    most = max(distance(point - middle, points - middle) for point in sampled(rng, own))
    tally.true(name + ": within what is reported", most <= told + 0.02, "%.3f, reported %.3f" % (most, told))


def made(tally, folder):
    rng = numpy.random.default_rng(7)
    for number in range(PIECES):
        points, decimals = made_points(rng, number)
        solid = hull_solid("piece %d" % number, points)
        facets = [tuple(tuple(solid[1][at]) for at in face) for face in solid[2]]
        form = ("text.stl", "binary.stl", "some.off")[number % 3]
        data = {"text.stl": meshes.stl_text([solid], lambda face: (0, 0, 0)), "binary.stl": bodies.binary_stl(facets), "some.off": meshes.off_text([solid])}[form]
        path = calls.write(folder, form, data)
        called = calls.call("setup-from-stl", path)
        name = "generated piece %d, %s" % (number, form)
        if tally.true(name, called.code == 0, called.said):
            # With two decimals the corners of a face don't lie in one plane.
            if number % 5 and decimals > 2:
                tally.same(name + ": merged planes", TOLD.search(called.out).group(2), "5" if number % 5 == 3 else "6")
            body_holds_piece(tally, name, called.out, meshes.pieces_of(path, form)[0].facets, rng)


def box_facets(low, high, skip=()):
    """The facets of a box, without some of them."""
    faces = [face for _, face in polyhedra.polyhedron(setups.box_planes([*low, *high]))]
    facets = [(face[0], p, q) for face in faces for p, q in zip(face[1:], face[2:])]
    return [tuple(tuple(map(float, p)) for p in facet) for at, facet in enumerate(facets) if at not in skip]


def refusals(tally, folder):
    """Pieces that can't become a body are named, with the cause, and nothing is written."""
    dent = "OFF\n12 8 0\n0 0 0\n20 0 0\n20 10 0\n10 10 0\n10 20 0\n0 20 0\n0 0 5\n20 0 5\n20 10 5\n10 10 5\n10 20 5\n0 20 5\n" \
           "6 5 4 3 2 1 0\n6 6 7 8 9 10 11\n4 0 1 7 6\n4 1 2 8 7\n4 2 3 9 8\n4 3 4 10 9\n4 4 5 11 10\n4 5 0 6 11\n"
    ball = numpy.random.default_rng(3).normal(size=(60, 3))
    ball = hull_solid("ball", numpy.round(30 * ball / numpy.linalg.norm(ball, axis=1)[:, None], 4))
    many = [facet for n in range(65) for facet in box_facets((3 * n, 0, 0), (3 * n + 2, 2, 2))]
    flat = [((0, 0, 0), (1, 0, 0), (0, 1, 0)), ((0, 0, 0), (0, 1, 0), (1, 0, 0))]
    for name, data, words in (("dent.off", dent, "it isn't convex: near"), ("open.stl", bodies.binary_stl(box_facets((0, 0, 0), (5, 5, 5), {3})), "it isn't closed"),
                              ("ball.stl", meshes.stl_text([ball], lambda face: (0, 0, 0)), "it has more than 64 planes"),
                              ("many.stl", bodies.binary_stl(many), "65 pieces, and a setup has at most 64 bodies of part"),
                              ("flat.stl", bodies.binary_stl(flat), "it has no volume"),
                              ("far.stl", bodies.binary_stl(box_facets((0, 0, 0), (2_000, 5, 5))), "beyond a metre"),
                              ("none.off", "OFF\n0 0 0\n", "no facets"), ("bad.stl", "solid x\nvertex 1 2\n", "bad.stl")):
        called = calls.call("setup-from-stl", calls.write(folder, name, data))
        tally.true("refused: %s" % name, called.code == 1 and words in called.said and not called.out, called.said[:300])
    called = calls.call("setup-from-stl", os.path.join(folder, "dent.off"), "--hull")
    tally.true("a hull that is asked for", called.code == 0 and "its hull was taken" in called.said and "larger than its hull" in called.out, called.said)
    called = calls.call("setup-from-stl", os.path.join(folder, "many.stl"), "--kind", "stock")
    tally.true("too many of stock", "at most 16 bodies of stock" in called.said, called.said)
    touching = bodies.binary_stl(box_facets((0, 0, 0), (5, 5, 5)) + box_facets((5, 5, 0), (9, 9, 5)))
    called = calls.call("setup-from-stl", calls.write(folder, "touching.stl", touching))
    tally.true("two boxes that touch along an edge", called.code == 0 and len(tomllib.loads(called.out)["part"]) == 2, called.said)


def remade(folder, setup, python_table, form):
    """The setup with part and fixtures made again from their own polyhedra."""
    out = os.path.join(folder, "bodies")
    for path in glob.glob(os.path.join(out, "*")):
        os.remove(path)
    calls.call("setup-to-off", setup, "--folder", out, "--format", form)
    text = setups.table_text({key: value for key, value in python_table.items() if key not in ("part", "fixture")})
    for kind in ("part", "fixture"):
        path = os.path.join(out, "%s.%s" % (kind, form))
        if os.path.exists(path):
            text += "\n" + calls.call("setup-from-stl", path, "--kind", kind).out
    return calls.write(folder, "remade.toml", text)


def examples(tally, folder, program):
    """The report with bodies that were made again is that of the setup, for all examples."""
    for setup in sorted(glob.glob(os.path.join(calls.TOP, "examples", "*", "setup.toml"))):
        path = os.path.join(os.path.dirname(setup), "part.cls")
        with open(setup, "rb") as f:
            table = setups.read_table(f.read())
        due = calls.program(program, "verify", path, setup)
        for form in ("off", "stl"):
            got = calls.program(program, "verify", path, remade(folder, setup, table, form))
            tally.same("%s by %s" % (os.path.basename(os.path.dirname(setup)), form), (got.code, got.out), (due.code, due.out))


def bracket(tally, folder, program):
    """A bracket from an STL file has the report of the setup that was written by hand, and its planted gouge is found."""
    made_again = calls.call("setup-from-stl", os.path.join(BRACKET, "bracket.stl"))
    heads = {name: "".join(open(os.path.join(BRACKET, "head.toml"), encoding="utf-8").read() + text) for name, text in (
        ("stl", made_again.out), ("hand", open(os.path.join(BRACKET, "by_hand.toml"), encoding="utf-8").read()))}
    path = os.path.join(BRACKET, "bracket.cls")
    got, due = (calls.program(program, "verify", path, calls.write(folder, name + ".toml", text)) for name, text in heads.items())
    tally.same("the bracket", got, due)
    tally.same("its gouge", re.findall(r"^move (\d+) .* unsafe$", got.out, re.M), ["141", "142"])


def run(tally, folder, program):
    made(tally, folder)
    refusals(tally, folder)
    examples(tally, folder, program)
    bracket(tally, folder, program)
