"""Tests of what needs no packages: polyhedra of setups, meshes, saved stock and PLY; and what setup-from-stl says without its packages."""

import glob
import importlib.util
import os
import random
import struct
from fractions import Fraction

from lib import meshes, ply, polyhedra, saved_stock, setups

from . import calls

EXAMPLES = os.path.join(calls.TOP, "examples")
ODD = """[check]
tolerance = 5000
clearance = 100
[[stock]]
box = [0, 0, 0, 10, 10, 10]
[[stock]]
box = [0, 0, 0, 10, 10, 0]
[[stock]]
planes = [[1, 0, 0, 5]]
[[stock]]
planes = [[1, 0, 0, 5], [-1, 0, 0, -6]]
[[stock]]
planes = [[1, 0, 0, 0], [-1, 0, 0, 0], [0, 1, 0, 0], [0, -1, 0, 0]]
[[stock]]
planes = [[1, 0, 0, 0], [-1, 0, 0, 0], [0, 1, 0, 0], [0, -1, 0, 0], [0, 0, 1, 0], [0, 0, -1, 0], [1, 1, 1, -1]]
[[part]]
box = [0, 0, 0, 10000, 20000, 20000]
"""
ODD_SAID = ["stock 2 is flat", "stock 3 is unbounded", "stock 4 is empty", "stock 5 is unbounded", "stock 6 is empty", "part 1 moved by -5000 um is flat"]
STOCK = "stock 1\ngrid -10 0 0 1000 500 3 3 2\nray Z 0 0 0 2 3 4\nray Z 2 1 1 4\nray X 0 0 0 6\nray Y 2 1 5 6\nend\n"
# What is wrong with a saved stock, and where that is reported.
WRONG_STOCK = [(STOCK[:-4], 7), (STOCK + "x\n", 8), (STOCK.replace("stock 1", "stock 2"), 1), (STOCK.replace("grid -10", "grid -0"), 2),
               (STOCK.replace(" 3 3 2\n", " 3 3 401\n"), 2), (STOCK.replace("500 3", "300 3"), 2), (STOCK.replace("Z 2 1", "X 2 1"), 5),
               (STOCK.replace("0 2 3 4", "0 2 2 4"), 3), (STOCK.replace("0 2 3 4", "0 2 3"), 3), (STOCK.replace("0 2 3 4", "0 5"), 3),
               (STOCK.replace("Y 2 1", "Y 3 1"), 6), (STOCK.replace("Z 0 0 0", "Z 0 0 00"), 3), (STOCK.replace("\nend\n", "\nend"), 7)]
TETRAHEDRON = [((0, 0, 0), (0, 1, 0), (1, 0, 0)), ((0, 0, 0), (1, 0, 0), (0, 0, 1)), ((0, 0, 0), (0, 0, 1), (0, 1, 0)), ((1, 0, 0), (0, 1, 0), (0, 0, 1))]


def held_by(planes, point):
    return all(a * point[0] + b * point[1] + c * point[2] <= d for a, b, c, d in planes)


def check_polyhedron(tally, name, planes, faces):
    """The faces close the body, look outwards, lie in their planes, and no corner lies outside."""
    corners = polyhedra.corners_of(faces)
    edges = [(p, q) for _, face in faces for p, q in zip(face, face[1:] + face[:1])]
    tally.true(name + ": closed", len(set(edges)) == len(edges) and all((q, p) in set(edges) for p, q in edges))
    tally.same(name + ": corners, faces and edges", len(corners) + len(faces) - len(edges) // 2, 2)
    tally.true(name + ": looks outwards", polyhedra.volume(faces) > 0)
    tally.true(name + ": in its planes", all(polyhedra.beyond(planes[number], point) == 0 for number, face in faces for point in face))
    tally.true(name + ": within all", all(held_by(planes, point) for point in corners))


def examples(tally):
    """The bodies of all setups among the examples, as they stand and as they are moved."""
    for path in sorted(glob.glob(os.path.join(EXAMPLES, "*", "setup.toml"))):
        with open(path, "rb") as f:
            table = setups.read_table(f.read())
        for kind, by in setups.moves_by(table).items():
            for number, planes in enumerate(setups.bodies_of(table, kind), 1):
                name = "%s %s %d" % (os.path.basename(os.path.dirname(path)), kind, number)
                for moved in {0, by}:
                    own = setups.moved(planes, moved)
                    check_polyhedron(tally, name, own, polyhedra.polyhedron(own))


def made(tally):
    """Bodies of made planes, against the corners that triples of planes have."""
    rng = random.Random("polyhedra")
    for number in range(20):
        planes = setups.box_planes([-9, -9, -9, 9, 9, 9])
        planes += [tuple(rng.randint(-3, 3) for _ in range(3)) + (rng.randint(-4, 14),) for _ in range(rng.randint(0, 5))]
        planes = [plane for plane in planes if any(plane[:3])]
        rng.shuffle(planes)
        due = corners_by_triples(planes)
        try:
            faces = polyhedra.polyhedron(planes)
            check_polyhedron(tally, "made body %d" % number, planes, faces)
            tally.same("made body %d: the corners" % number, set(polyhedra.corners_of(faces)), due)
        except polyhedra.NoPolyhedron as why:
            is_flat = bool(due) and not has_volume(due)
            tally.same("made body %d: why there is none" % number, str(why), polyhedra.FLAT if is_flat else polyhedra.EMPTY if not due else "nothing")


def corners_by_triples(planes):
    """Where three planes meet in one point that lies within all."""
    found = set()
    for n, p in enumerate(planes):
        for m, q in enumerate(planes[:n]):
            for r in planes[:m]:
                whole = polyhedra.determinant(p[:3], q[:3], r[:3])
                if whole:
                    point = tuple(Fraction(polyhedra.determinant(*(each[:axis] + (each[3],) + each[axis + 1:3] for each in (p, q, r))), whole)
                                  for axis in range(3))
                    if held_by(planes, point):
                        found.add(point)
    return found


def has_volume(corners):
    """Whether four of the corners don't lie in a plane."""
    first, *others = corners
    ways = [tuple(a - b for a, b in zip(point, first)) for point in others]
    return any(polyhedra.determinant(p, q, r) for n, p in enumerate(ways) for m, q in enumerate(ways[:n]) for r in ways[:m])


def odd(tally, folder):
    """Bodies without a polyhedron are named."""
    path = calls.write(folder, "odd.toml", ODD)
    called = calls.call("setup-to-off", path)
    tally.same("odd bodies: the code", called.code, 1)
    tally.same("odd bodies", [line.removeprefix("setup-to-off: ").split(":")[0] for line in called.said.splitlines()], ODD_SAID)
    called = calls.call("setup-to-off", calls.write(folder, "wrong.toml", ODD.replace("planes = [[1, 0, 0, 5]]", "planes = [[0, 0, 0, 5]]")))
    tally.true("a body that is none", called.code == 2 and "stock 3: neither a box" in called.said, called.said)


def meshes_again(tally, folder):
    """What setup-to-off writes is read again: the same bodies, closed, with the same volume."""
    setup = os.path.join(EXAMPLES, "plate", "setup.toml")
    with open(setup, "rb") as f:
        table = setups.read_table(f.read())
    for form, unit, scale in (("off", "mm", 1_000), ("stl", "um", 1)):
        out = os.path.join(folder, form)
        tally.same("setup-to-off in %s" % form, calls.call("setup-to-off", setup, "--folder", out, "--format", form, "--unit", unit).code, 0)
        for kind, by in (("part", 0), ("part_moved", -20), ("fixture_moved", 1_000)):
            bodies = [polyhedra.polyhedron(setups.moved(planes, by)) for planes in setups.bodies_of(table, kind.split("_")[0])]
            pieces = meshes.pieces_of(os.path.join(out, "%s.%s" % (kind, form)), kind)
            tally.same("%s of %s: closed" % (kind, form), [meshes.open_edge(piece.facets) for piece in pieces], [None] * len(bodies))
            got = [float(polyhedra.volume([(0, list(facet)) for facet in piece.facets])) * scale ** 3 for piece in pieces]
            tally.true("%s of %s: the volumes" % (kind, form), all(abs(one / float(polyhedra.volume(other)) - 1) < 1e-6 for one, other in zip(got, bodies)))


def binary_stl(facets):
    return bytes(80) + struct.pack("<I", len(facets)) + b"".join(struct.pack("<12fH", *(0,) * 3, *(n for p in facet for n in p), 0) for facet in facets)


def mesh_files(tally, folder):
    """STL as text and binary, and OFF, and what is wrong with a file."""
    fractions = {tuple(tuple(map(Fraction, p)) for p in facet) for facet in TETRAHEDRON}
    text = "solid corner piece\n%sendsolid\n" % "".join("facet normal 0 0 0\nouter loop\n%sendloop\nendfacet\n" % "".join(
        "vertex %g %g %g\n" % p for p in facet) for facet in TETRAHEDRON)
    off = "OFF\n# four\n4 4 6\n0 0 0\n1 0 0\n0 1 0\n0 0 1\n3 0 2 1 255 0 0\n3 0 1 3\n3 0 3 2\n3 1 2 3\n"
    for name, data in (("text.stl", text), ("binary.stl", binary_stl(TETRAHEDRON)), ("some.off", off)):
        pieces = meshes.pieces_of(calls.write(folder, name, data), name)
        tally.same("%s: its facets" % name, [set(piece.facets) for piece in pieces], [fractions])
        tally.same("%s: closed" % name, meshes.open_edge(pieces[0].facets), None)
    tally.same("its name", meshes.pieces_of(os.path.join(folder, "text.stl"), "text.stl")[0].name, "text.stl 'corner piece'")
    apart = [tuple((x + 5, y, z) for x, y, z in facet) for facet in TETRAHEDRON]
    both = meshes.pieces_of(calls.write(folder, "two.stl", binary_stl(TETRAHEDRON + apart)), "two.stl")
    tally.same("two pieces", [(piece.name, len(piece.facets)) for piece in both], [("two.stl solid 1 piece 1", 4), ("two.stl solid 1 piece 2", 4)])
    tally.true("an open piece", meshes.open_edge(TETRAHEDRON[:3]) is not None)
    for name, data in (("cut.stl", text[:-60]), ("cut.off", off[:-20]), ("cut_binary.stl", binary_stl(TETRAHEDRON)[:-7]), ("no.stl", "nothing"),
                       ("word.stl", text.replace("vertex 1 0 0", "vertex 1 0 x")), ("far.off", off.replace("3 1 2 3", "3 1 2 4"))):
        try:
            meshes.pieces_of(calls.write(folder, name, data), name)
            tally.true("a mesh: %s" % name, False, "it was read")
        except meshes.MeshFault:
            tally.true("a mesh: %s" % name, True)


def stock_points(tally, folder):
    """Saved stock as points, and what is wrong with one."""
    grid, rays = saved_stock.read(STOCK.encode())
    tally.same("saved stock written again", saved_stock.text_of(grid, rays), STOCK)
    due = [("Z", (-10, 0, 500 * n)) for n in (0, 1, 3)] + [("Z", (1_990, 1_000, 500 * n)) for n in (1, 2, 3)]
    due += [("X", (500 * n - 10, 0, 0)) for n in range(6)] + [("Y", (1_990, 2_500, 1_000))]
    tally.same("its points", list(saved_stock.points(grid, rays)), due)
    for text, line in WRONG_STOCK:
        try:
            saved_stock.read(text.encode())
            tally.true("saved stock with a fault in line %d" % line, False, "it was read")
        except saved_stock.StockFault as why:
            tally.true("saved stock with a fault in line %d" % line, str(why).startswith("stock line %d: " % line), str(why))
    path = calls.write(folder, "left.stock", STOCK)
    for words in ((), ("--text",)):
        called = calls.call("points-to-ply", path, "--unit", "um", *words)
        tally.true("points-to-ply %s" % " ".join(words), called.code == 0 and called.out.endswith(": 13 points\n"), called.said)
        tally.same("the points of the PLY file %s" % " ".join(words), read_ply(os.path.join(folder, "left.ply"), bool(words)), due)
    called = calls.call("points-to-ply", calls.write(folder, "other.txt", "clverify 1\n"))
    tally.true("a file of another kind", called.code == 1 and "its first line is none of: stock 1" in called.said, called.said)


def read_ply(path, is_text):
    """The points of a PLY file, of stock that is sure."""
    with open(path, "rb") as f:
        head, body = f.read().split(b"end_header\n", 1)
    rows = [line.split() for line in body.splitlines()] if is_text else list(ply.POINT.iter_unpack(body))
    rows = [tuple(map(float, row)) for row in rows]
    assert b"element vertex %d\n" % len(rows) in head and all(row[6:8] == (0, 0) for row in rows)
    return [(ply.FAMILIES[int(row[8])], tuple(map(int, row[:3]))) for row in rows]


def without_packages(tally):
    """On a fresh machine setup-from-stl says what it needs."""
    if importlib.util.find_spec("scipy") is None:
        called = calls.call_apart("setup-from-stl", "part.stl")
        # The Python on the PATH may be another one, which has them.
        tally.true("setup-from-stl without its packages", called.code == 2 and ("python3-scipy" in called.said or "part.stl" in called.said), called.said)


def run(tally, folder):
    examples(tally)
    made(tally)
    odd(tally, folder)
    meshes_again(tally, folder)
    mesh_files(tally, folder)
    stock_points(tally, folder)
    without_packages(tally)
