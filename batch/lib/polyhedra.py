"""Convex bodies as polyhedra: what planes leave of space, in exact fractions.

A body is clipped plane by plane out of a box that is larger than any bounded body of a setup can be, so what still touches that box in
the end is unbounded. Each corner of a bounded body is where three planes meet, so its coordinates are quotients of whole numbers: at most
6 * 10^19 above (d below 10^11 + 10^5 * 2 * 10^4, normals of 10^4), at least 1 below.
"""

import math
from fractions import Fraction

FAR = 10 ** 21
EMPTY, FLAT, UNBOUNDED = "empty", "flat", "unbounded"


class NoPolyhedron(Exception):
    """A body that has no corners and faces to show: empty, flat or unbounded."""


def far_box():
    """The faces of the box, each as the number of its plane (below 0: the box's own) and its corners, seen from outside against the clock."""
    corners = [tuple(Fraction(FAR if bits >> axis & 1 else -FAR) for axis in range(3)) for bits in range(8)]
    faces = ((0, 4, 6, 2), (1, 3, 7, 5), (0, 1, 5, 4), (2, 6, 7, 3), (0, 2, 3, 1), (4, 5, 7, 6))
    return [(-1 - number, [corners[at] for at in face]) for number, face in enumerate(faces)]


def beyond(plane, point):
    """How far beyond the plane a point lies: above 0 outside, 0 on it."""
    a, b, c, d = plane
    return a * point[0] + b * point[1] + c * point[2] - d


def crossing(p, q, at_p, at_q):
    """Where the way from p to q passes the plane."""
    t = at_p / (at_p - at_q)
    return tuple(a + (b - a) * t for a, b in zip(p, q))


def clipped(polygon, heights):
    """What the plane leaves of a polygon, and which of its points lie on the plane."""
    left = []
    for at, q in enumerate(polygon):
        p = polygon[at - 1]
        over_p, over_q = heights[p], heights[q]
        if over_p < 0 < over_q or over_q < 0 < over_p:
            left.append((crossing(p, q, over_p, over_q), True))
        if over_q <= 0:
            left.append((q, over_q == 0))
    return left


def lid(edges):
    """The new face, along the edges that were cut, each from a corner to the next."""
    start = next(iter(edges))
    loop, at = [start], edges[start]
    while at != start:
        loop.append(at)
        at = edges[at]
    return loop


def flat_rest(faces, heights):
    """What is left of a body that a plane only touches: a face, an edge or a corner."""
    touched = max(([point for point in face if heights[point] == 0] for _, face in faces), key=len)
    if not touched:
        raise NoPolyhedron(EMPTY)
    return touched


def clip(faces, number, plane):
    """The faces of what the plane leaves, or the polygon that is left where the body becomes flat."""
    heights = {point: beyond(plane, point) for _, face in faces for point in face}
    if all(height <= 0 for height in heights.values()):
        return faces, None
    if all(height >= 0 for height in heights.values()):
        return [], flat_rest(faces, heights)
    left, edges = [], {}
    for own, face in faces:
        rest = clipped(face, heights)
        if len(rest) < 3:
            continue
        left.append((own, [point for point, _ in rest]))
        for (p, p_on), (q, q_on) in zip(rest, rest[1:] + rest[:1]):
            if p_on and q_on:
                edges[q] = p
    return left + [(number, lid(edges))], None


def clip_flat(polygon, plane):
    """What a plane leaves of a flat body."""
    heights = {point: beyond(plane, point) for point in polygon}
    rest = [point for point, _ in clipped(polygon, heights)]
    if not rest:
        raise NoPolyhedron(EMPTY)
    return list(dict.fromkeys(rest))


def polyhedron(planes):
    """The faces of a body: the number of the plane of each, from 0, and its corners, seen from outside against the clock."""
    faces, polygon = far_box(), None
    for number, plane in enumerate(planes):
        if polygon is None:
            faces, polygon = clip(faces, number, plane)
        else:
            polygon = clip_flat(polygon, plane)
    corners = polygon if polygon is not None else [point for _, face in faces for point in face]
    if any(abs(n) == FAR for point in corners for n in point):
        raise NoPolyhedron(UNBOUNDED)
    if polygon is not None:
        raise NoPolyhedron(FLAT)
    return faces


def corners_of(faces):
    """The corners, each once."""
    return list(dict.fromkeys(point for _, face in faces for point in face))


def volume(faces):
    """The volume, exactly."""
    whole = Fraction(0)
    for _, face in faces:
        for p, q in zip(face[1:], face[2:]):
            whole += determinant(face[0], p, q)
    return whole / 6


def determinant(p, q, r):
    return p[0] * (q[1] * r[2] - q[2] * r[1]) - p[1] * (q[0] * r[2] - q[2] * r[0]) + p[2] * (q[0] * r[1] - q[1] * r[0])


def normal_of(face):
    """The direction of a face outwards, in plain numbers, by the sum over its corners."""
    total = [0.0, 0.0, 0.0]
    for p, q in zip(face, face[1:] + face[:1]):
        for axis in range(3):
            one, two = (axis + 1) % 3, (axis + 2) % 3
            total[axis] += float(p[one] * q[two] - p[two] * q[one])
    length = math.hypot(*total) or 1.0
    return tuple(n / length for n in total)
