"""A convex piece of a mesh as planes of whole numbers, rounded outwards. It needs numpy and scipy, whose qhull finds the hull.

Each plane of the hull gets whole a, b, c near its direction, and the least whole d so that no corner of the piece lies beyond it: that
is computed in exact fractions, so the piece lies within its body whatever a, b, c are. How much larger the body is at most is the
distance of its own corners from the piece, since the distance from a convex piece is greatest at a corner.
"""

import math
from typing import NamedTuple

import numpy
from scipy.spatial import ConvexHull, QhullError

from . import polyhedra, setups

MOST_NORMAL = 10_000
SAME = 1e-9  # how far the angles of two directions may differ and count as the same
EXACT = 1e-3  # micrometres within which facets are of one plane, whatever file they come from
SLACK = 1e-3  # micrometres that are added to what is computed in floating point


class PieceFault(Exception):
    """A piece that can't become a body, and why."""


class Body(NamedTuple):
    planes: list
    enlarged: float  # micrometres, at most
    note: str


# ---------------------------------------------------------------- the hull


def hull_of(points):
    """The hull of points, by qhull."""
    try:
        return ConvexHull(points)
    except QhullError:
        raise PieceFault("it has no volume") from None


def depth_inside(hull, points):
    """How deep each point lies inside the hull: its distance from the nearest plane."""
    return (-(points @ hull.equations[:, :3].T + hull.equations[:, 3])).min(axis=1)


def dent(hull, facets):
    """The deepest point of the surface below its hull: how deep at most, and where. A facet lies on the hull exactly where its middle
    does; a point of it lies at most three times as deep as its middle."""
    middles = facets.mean(axis=1)
    depths = depth_inside(hull, middles)
    at = int(depths.argmax())
    return 3 * float(depths[at]), middles[at]


def mesh_volume(facets, middle):
    """The volume that facets enclose, whichever way each is turned: cones from a point inside."""
    a, b, c = ((facets[:, n] - middle) for n in range(3))
    return float(numpy.abs(numpy.einsum("ij,ij->i", a, numpy.cross(b, c))).sum() / 6)


# ---------------------------------------------------------------- planes


def direction_of(normal):
    """The whole numbers nearest to a direction: of all lengths up to the greatest, the one with the least angle, and the shortest of these."""
    sizes = numpy.arange(1, MOST_NORMAL + 1)[:, None]
    tried = numpy.rint(sizes * (normal / numpy.abs(normal).max()))
    across = numpy.linalg.norm(numpy.cross(tried, normal), axis=1) / numpy.linalg.norm(tried, axis=1)
    best = int((across <= across.min() + SAME).argmax())
    whole = [int(n) for n in tried[best]]
    shared = math.gcd(*whole)
    return tuple(n // shared for n in whole)


def least_d(normal, corners):
    """The least whole d with every corner within the plane, exactly."""
    return max(math.ceil(sum(n * x for n, x in zip(normal, corner))) for corner in corners)


def faces_of(hull, flat):
    """The planes of a hull, the largest facets first. A facet that lies within that many micrometres of a plane that is there needs none of its
    own: facets of one face of the body differ by the rounding of their file."""
    corners = hull.points[hull.simplices]
    areas = numpy.linalg.norm(numpy.cross(corners[:, 1] - corners[:, 0], corners[:, 2] - corners[:, 0]), axis=1)
    found = numpy.empty((0, 4))
    for at in numpy.argsort(-areas, kind="stable"):
        depths = -(corners[at] @ found[:, :3].T + found[:, 3])
        if not (depths <= flat).all(axis=0).any():
            found = numpy.vstack([found, hull.equations[at]])
            if len(found) > setups.MOST_PLANES:
                raise PieceFault("it has more than %d planes: save it from the CAD system with coarser facets" % setups.MOST_PLANES)
    return found[:, :3]


def planes_of(hull, corners, flat):
    """The planes of a body around a hull, each direction once, and by how much it is larger at most."""
    directions = dict.fromkeys(map(direction_of, faces_of(hull, flat)))
    planes = [(*normal, least_d(normal, corners)) for normal in directions]
    return planes, enlarged_by(planes, hull)


def best_planes(hull, corners, flat):
    """The planes with like ones merged; or with each of them, where that body is smaller by more than a dent may be deep."""
    merged = planes_of(hull, corners, flat)
    if merged[1] > flat:
        try:
            exact = planes_of(hull, corners, EXACT)
        except PieceFault:
            return merged
        if exact[1] < merged[1] - flat:
            return exact
    return merged


# ---------------------------------------------------------------- distances


def nearest_on_edge(point, p, q):
    """The squared distances of a point from edges."""
    way = q - p
    t = numpy.clip(numpy.einsum("ij,ij->i", point - p, way) / numpy.maximum(numpy.einsum("ij,ij->i", way, way), 1e-300), 0, 1)
    away = p + t[:, None] * way - point
    return numpy.einsum("ij,ij->i", away, away)


def distance_from(point, facets):
    """The distance of a point from the nearest of the facets, each of which is a triangle."""
    a, b, c = facets[:, 0], facets[:, 1], facets[:, 2]
    squares = numpy.minimum.reduce([nearest_on_edge(point, a, b), nearest_on_edge(point, b, c), nearest_on_edge(point, c, a)])
    normals = numpy.cross(b - a, c - a)
    lengths = numpy.einsum("ij,ij->i", normals, normals)
    above = numpy.einsum("ij,ij->i", point - a, normals)
    inside = lengths > 0
    for p, q in ((a, b), (b, c), (c, a)):
        inside &= numpy.einsum("ij,ij->i", numpy.cross(q - p, point - p), normals) >= 0
    squares[inside] = numpy.minimum(squares[inside], above[inside] ** 2 / lengths[inside])
    return math.sqrt(squares.min())


def hull_facets(hull):
    return hull.points[hull.simplices]


def enlarged_by(planes, hull):
    """By how much the body of the planes is larger than the hull, at most."""
    try:
        faces = polyhedra.polyhedron(planes)
    except polyhedra.NoPolyhedron as why:
        raise PieceFault("its planes, rounded, leave a body that is %s" % why) from None
    facets = hull_facets(hull)
    corners = numpy.array([[float(n) for n in corner] for corner in polyhedra.corners_of(faces)])
    outside = corners[depth_inside(hull, corners) < 0]
    return max((distance_from(corner, facets) for corner in outside), default=0.0) + SLACK


# ---------------------------------------------------------------- a piece


def body_of(facets, unit, flat, take_hull):
    """The body of a closed piece. Lengths of the facets are units of that many micrometres; flat is how deep a dent may be."""
    exact = {corner: tuple(n * unit for n in corner) for facet in facets for corner in facet}
    if any(abs(n) > setups.METRE for corner in exact.values() for n in corner):
        raise PieceFault("it reaches beyond a metre from the zero point: is its unit another one?")
    mesh = numpy.array([[[float(n) for n in exact[corner]] for corner in facet] for facet in facets])
    points = numpy.array([[float(n) for n in corner] for corner in exact.values()])
    hull, note = hull_of(points), ""
    deep, where = dent(hull, mesh)
    whole, enclosed = float(hull.volume), mesh_volume(mesh, points.mean(axis=0))
    if deep > flat or abs(enclosed - whole) > flat * float(hull.area):
        why = "it isn't convex: near (%.3f, %.3f, %.3f) it lies up to %.3f mm inside its hull" % (*(where / 1_000), deep / 1_000)
        if not take_hull:
            raise PieceFault(why + "; cut it into convex pieces, or take its hull by --hull")
        note = why + "; its hull was taken"
    return Body(*best_planes(hull, list(exact.values()), flat), note)
