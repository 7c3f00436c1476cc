"""Meshes: STL, as text and binary, and OFF, read as pieces and written. Lengths are the file's own, as exact fractions."""

import collections
import math
import struct
from fractions import Fraction
from typing import NamedTuple

HEAD, RECORD = 84, 50  # bytes of binary STL: before the facets, and of each facet


class MeshFault(Exception):
    """A file that can't be read as a mesh."""


class Piece(NamedTuple):
    """Facets that hang together, each as its corners."""
    name: str
    facets: list


# ---------------------------------------------------------------- reading


def number(word, path):
    """A number of a text, exactly."""
    try:
        value = float(word)
        if not math.isfinite(value):
            raise ValueError(word)
        # A decimal number stays what it says; one with a power of ten that no drawing has isn't worth its digits.
        exponent = word.lower().partition("e")[2]
        return Fraction(word) if len(exponent) <= 3 else Fraction(value)
    except ValueError:
        raise MeshFault("%s: '%s' is no number" % (path, word[:60])) from None


def read_binary(data, path):
    """One solid, whose facets stand after a head of 80 bytes and their number."""
    count, = struct.unpack_from("<I", data, HEAD - 4)
    if len(data) < HEAD + RECORD * count:
        raise MeshFault("%s: it is cut off: it says %d facets, and %d are there" % (path, count, (len(data) - HEAD) // RECORD))
    facets = []
    for at in range(count):
        numbers = struct.unpack_from("<12f", data, HEAD + RECORD * at)[3:]
        if not all(map(math.isfinite, numbers)):
            raise MeshFault("%s: facet %d has a corner that is no number" % (path, at + 1))
        facets.append(tuple(tuple(map(Fraction, numbers[n:n + 3])) for n in (0, 3, 6)))
    return [("", facets)]


def read_text(text, path):
    """The solids of an STL text, each with its name."""
    solids, corners = [], []
    for line in text.splitlines():
        words = line.split()
        if not words:
            continue
        word = words[0].lower()
        if word == "solid":
            solids.append((" ".join(words[1:]), []))
        elif word == "vertex":
            if len(words) != 4 or not solids:
                raise MeshFault("%s: a vertex that isn't three numbers in a solid: %s" % (path, line.strip()))
            corners.append(tuple(number(each, path) for each in words[1:]))
        elif word == "endloop":
            if len(corners) != 3:
                raise MeshFault("%s: a facet of %d corners" % (path, len(corners)))
            solids[-1][1].append(tuple(corners))
            corners = []
        elif word not in ("facet", "outer", "endfacet", "endsolid"):
            raise MeshFault("%s: a line that is none of STL's: %s" % (path, line.strip()[:60]))
    if not solids or corners or "endsolid" not in text.lower():
        raise MeshFault("%s: it is cut off, or no STL" % path)
    return solids


def off_lines(text):
    """The words of each line that has some, without comments."""
    return [words for line in text.splitlines() if (words := line.split("#")[0].split())]


def off_face(words, corners):
    """A face as the numbers of its corners; what follows them is a colour."""
    count = int(words[0])
    face = [int(word) for word in words[1:count + 1]]
    if count < 3 or len(face) != count or not all(0 <= at < len(corners) for at in face):
        raise ValueError("face")
    return face


def read_off(text, path):
    """The solids of an OFF text: faces that have corners in common by their numbers, or all as one where such a solid isn't closed. A face
    of more corners is cut into facets from its first corner on."""
    lines = off_lines(text)
    try:
        head = 1 if len(lines[0]) > 1 else 2
        corner_count, face_count = map(int, (lines[0] + lines[1])[1:3])
        corners = [tuple(number(word, path) for word in words[:3]) for words in lines[head:head + corner_count]]
        faces = [off_face(words, corners) for words in lines[head + corner_count:head + corner_count + face_count]]
    except (ValueError, IndexError):
        raise MeshFault("%s: it is cut off, or no OFF" % path) from None
    if lines[0][0] != "OFF" or len(faces) != face_count or any(len(corner) != 3 for corner in corners):
        raise MeshFault("%s: it is cut off, or no OFF" % path)
    facets = [(face[0], p, q) for face in faces for p, q in zip(face[1:], face[2:])]
    solids = [("", [tuple(corners[at] for at in facet) for facet in group]) for group in linked(facets, lambda facet: facet)]
    return solids if not any(open_edge(facets) for _, facets in solids) else [("", [facet for _, facets in solids for facet in facets])]


def read_mesh(path):
    """The solids of a file, each with its name and its facets."""
    with open(path, "rb") as f:
        data = f.read()
    if data[:3] == b"OFF":
        return read_off(data.decode("utf-8", "replace"), path)
    if len(data) >= HEAD and len(data) == HEAD + RECORD * struct.unpack_from("<I", data, HEAD - 4)[0]:
        return read_binary(data, path)
    if data.lstrip()[:5].lower() == b"solid":
        return read_text(data.decode("utf-8", "replace"), path)
    if len(data) >= HEAD:
        return read_binary(data, path)
    raise MeshFault("%s: neither STL nor OFF" % path)


def linked(facets, ties_of):
    """The facets in groups that hang together by what ties them."""
    parent = list(range(len(facets)))

    def top(at):
        while parent[at] != at:
            parent[at] = parent[parent[at]]
            at = parent[at]
        return at

    holder = {}
    for at, facet in enumerate(facets):
        for tie in ties_of(facet):
            parent[top(at)] = top(holder.setdefault(tie, at))
    groups = {}
    for at, facet in enumerate(facets):
        groups.setdefault(top(at), []).append(facet)
    return list(groups.values())


def edges_of(facet):
    """The edges of a facet that aren't a point."""
    return [edge for p, q in zip(facet, facet[1:] + facet[:1]) if len(edge := frozenset((p, q))) == 2]


def edge_counts(facets):
    """How many facets each edge has."""
    return collections.Counter(edge for facet in facets for edge in edges_of(facet))


def together(facets):
    """The facets in groups that hang together by edges between two facets. Bodies that touch along an edge have four there."""
    counts = edge_counts(facets)
    return linked(facets, lambda facet: [edge for edge in edges_of(facet) if counts[edge] == 2])


def pieces_of(path, file_name):
    """The pieces of a file, named by their solid or their number."""
    pieces = []
    for solid, (name, facets) in enumerate(read_mesh(path), 1):
        groups = together(facets)
        for number_of, group in enumerate(groups, 1):
            own = "%s '%s'" % (file_name, name) if name else "%s solid %d" % (file_name, solid)
            pieces.append(Piece(own + (" piece %d" % number_of if len(groups) > 1 else ""), group))
    return pieces


def open_edge(facets):
    """An edge that isn't between exactly two facets, or None. A piece is closed where there is none."""
    return next((tuple(edge) for edge, count in edge_counts(facets).items() if count != 2), None)


# ---------------------------------------------------------------- writing


def decimal(value):
    """A length in six decimals, without what is only zeros."""
    text = ("%.6f" % value).rstrip("0").rstrip(".")
    return "0" if text in ("-0", "") else text


def off_text(solids):
    """Solids as one OFF text; each is its corners and its faces, a face the numbers of its corners."""
    lines, faces, before = [], [], 0
    for _, corners, own in solids:
        lines += [" ".join(map(decimal, corner)) for corner in corners]
        faces += ["%d %s" % (len(face), " ".join(str(at + before) for at in face)) for face in own]
        before += len(corners)
    return "\n".join(["OFF", "%d %d 0" % (len(lines), len(faces))] + lines + faces) + "\n"


def stl_text(solids, normal_of):
    """The same as an STL text, a solid each, faces cut into facets."""
    lines = []
    for name, corners, faces in solids:
        lines.append("solid %s" % name)
        for face in faces:
            normal = normal_of([corners[at] for at in face])
            for p, q in zip(face[1:], face[2:]):
                lines += ["facet normal %s" % " ".join("%.6e" % n for n in normal), "outer loop"]
                lines += ["vertex %s" % " ".join(map(decimal, corners[at])) for at in (face[0], p, q)]
                lines += ["endloop", "endfacet"]
        lines.append("endsolid %s" % name)
    return "\n".join(lines) + "\n"
