#!/usr/bin/env python3
"""An independent reference of both engines, the checks, the sheets, their writer, batches of sheets, rim loops, claims, OBJ text, `platecut`, `makesheet`, `fontcut`, `outline`, `claimcheck`, `plateobj` and `objsheet`, from docs/RULES.md alone.

It shares no code with the Rattle crates or the oracle, searches where they keep links, and works in Python's own whole numbers and
fractions. `python3 tests/reference.py < sheet` prints what `platecut` prints, and with the word outline what `outline` does.

A cage is levels, a flat list of corner numbers and a flat list of coordinates: whole numbers (kind WHOLE) or f32 bits (kind F32). A sharp edge is the set of its two ends.
"""
import re
import struct
import sys
from collections import namedtuple
from fractions import Fraction
from functools import lru_cache
from math import ceil, factorial, lcm

WHOLE, F32 = "whole", "f32"
MOST_VALENCE = 24
Counts = namedtuple("Counts", "vertices faces rim_sides")
Answer = namedtuple("Answer", "counts indices positions normals")


class Refused(Exception):
    def __init__(self, number, place=0):
        super().__init__(f"refused {number} at {place}")
        self.number, self.place = number, place


# ---- the mesh

class Mesh:
    """Faces as triples of vertex numbers; `starts` has the start face of each vertex."""

    def __init__(self, faces, starts):
        self.faces, self.starts = faces, starts
        self.side_from = {}
        for f, face in enumerate(faces):
            for k in range(3):
                self.side_from[face[k], face[(k + 1) % 3]] = f

    @classmethod
    def of_cage(cls, indices, vertices):
        faces = [tuple(indices[i:i + 3]) for i in range(0, len(indices), 3)]
        starts = [None] * vertices
        for f, face in enumerate(faces):
            for v in face:
                starts[v] = f
        return cls(faces, starts)

    def next_vert(self, f, v):
        return self.faces[f][(self.faces[f].index(v) + 1) % 3]

    def prev_vert(self, f, v):
        return self.faces[f][(self.faces[f].index(v) + 2) % 3]

    def next_face(self, f, v):
        return self.side_from.get((self.next_vert(f, v), v))

    def prev_face(self, f, v):
        return self.side_from.get((v, self.prev_vert(f, v)))

    def ring(self, v):
        """Whether v is inner, and its ring."""
        f, ring = self.starts[v], []
        while True:
            ring.append(self.next_vert(f, v))
            following = self.next_face(f, v)
            if following == self.starts[v]:
                return True, ring
            if following is None:
                break
            f = following
        ring = [self.next_vert(f, v)]
        while f is not None:
            ring.append(self.prev_vert(f, v))
            f = self.prev_face(f, v)
        return False, ring

    def rim_sides(self):
        return sum((b, a) not in self.side_from for a, b in self.side_from)

    def edges(self):
        """The edges in the order of their numbers, as (face, side) of the first meeting."""
        met, found = set(), []
        for f, face in enumerate(self.faces):
            for k in range(3):
                ends = frozenset((face[k], face[(k + 1) % 3]))
                if ends not in met:
                    met.add(ends)
                    found.append((f, k))
        return found

    def ends(self, f, k):
        return frozenset((self.faces[f][k], self.faces[f][(k + 1) % 3]))

    def middles(self):
        """The number of each edge's new vertex, by its ends."""
        return {self.ends(f, k): len(self.starts) + n for n, (f, k) in enumerate(self.edges())}

    def halves(self, sharp):
        """The sharp edges one level on."""
        middle = self.middles()
        return {frozenset((end, middle[ends])) for ends in sharp for end in ends}

    def refined(self):
        edges, number = self.edges(), self.middles()
        children = []
        for a, b, c in self.faces:
            m0, m1, m2 = number[frozenset((a, b))], number[frozenset((b, c))], number[frozenset((c, a))]
            children += [(a, m0, m2), (m0, b, m1), (m2, m1, c), (m0, m1, m2)]
        old = [4 * f + self.faces[f].index(v) for v, f in enumerate(self.starts)]
        return Mesh(children, old + [4 * f + 3 for f, _ in edges])


# ---- the checks

def in_range(kind, c):
    if kind == WHOLE:
        return -1_000_000_000 <= c <= 1_000_000_000
    return (c & 0x7FFFFFFF) <= 0x53800000  # 2^40; infinities and NaN lie above


def fans(faces, v):
    """How many fans the faces at v form. A face (v, a, b) is an arrow from a to b; the face across its side v, a ends at a."""
    onward = {f[(f.index(v) + 1) % 3]: f[(f.index(v) + 2) % 3] for f in faces}
    ends = set(onward.values())
    groups = 0
    for a in sorted(onward, key=lambda a: a in ends):
        if a in onward:
            groups += 1
        while a in onward:
            a = onward.pop(a)
    return groups


def first(number, places):
    for place in places:
        raise Refused(number, place)


def check_cage(levels, indices, coords, kind):
    """Checks 1 to 12, in order. The mesh of an accepted cage."""
    if levels > 7:
        raise Refused(1)
    first(2, [n for n, xs in enumerate((indices, coords)) if len(xs) % 3])
    first(3, [n for n, xs in enumerate((indices, coords)) if len(xs) // 3 > 4096])
    first(4, [i for i, c in enumerate(coords) if not in_range(kind, c)])
    vertices = len(coords) // 3
    first(5, [i for i, v in enumerate(indices) if v >= vertices])
    faces = [tuple(indices[i:i + 3]) for i in range(0, len(indices), 3)]
    first(6, [f for f, face in enumerate(faces) if len(set(face)) < 3])
    used = set()
    for s, side in enumerate((face[k], face[(k + 1) % 3]) for face in faces for k in range(3)):
        if side in used:
            raise Refused(7, s)
        used.add(side)
    sets = set()
    for f, face in enumerate(faces):
        if frozenset(face) in sets:
            raise Refused(8, f)
        sets.add(frozenset(face))
    at = [[] for _ in range(vertices)]
    for face in faces:
        for v in face:
            at[v].append(face)
    first(9, [v for v in range(vertices) if not at[v]])
    first(10, [v for v in range(vertices) if fans(at[v], v) > 1])
    mesh = Mesh.of_cage(indices, vertices)
    first(12, [v for v in range(vertices) if len(mesh.ring(v)[1]) > MOST_VALENCE])
    return mesh


def final_counts(mesh, levels):
    faces, vertices, edges = len(mesh.faces), len(mesh.starts), len(mesh.edges())
    for _ in range(levels):
        faces, vertices, edges = 4 * faces, vertices + edges, 2 * edges + 3 * faces
    return faces, vertices


def needed(faces, vertices, kind):
    """The lent lengths by the number that refusal 14 gives each buffer."""
    lengths = {0: 3 * vertices, 1: 3 * vertices, 2: 3 * faces, 3: 16 * faces + 8 * vertices, 4: 6 * vertices}
    if kind == WHOLE:
        del lengths[1]
    return lengths


def loose(mesh, s):
    """Whether side s does not exist, or has no face across it."""
    if s >= 3 * len(mesh.faces):
        return True
    face, k = mesh.faces[s // 3], s % 3
    return (face[(k + 1) % 3], face[k]) not in mesh.side_from


def check(levels, indices, coords, kind, room=None, sharp=()):
    """Checks 1 to 14, and 18 between 12 and 13. `room` has the lent length of each buffer; with None there is always enough."""
    mesh = check_cage(levels, indices, coords, kind)
    first(18, [i for i, s in enumerate(sharp) if loose(mesh, s)])
    faces, vertices = final_counts(mesh, levels)
    if faces > 32768 or vertices > 32768:
        raise Refused(13)
    if room is not None:
        first(14, [n for n, length in needed(faces, vertices, kind).items() if room[n] < length])
    return mesh


# ---- positions

def beta(n):
    return Fraction(3, 16) if n == 3 else Fraction(3, 8 * n)


def inner_limit(n):
    return 1 / (n + 3 / (8 * beta(n)))


@lru_cache(maxsize=None)
def over_one_denominator(*weights):
    """Fractions as whole numerators, and their denominator."""
    d = lcm(*(w.denominator for w in weights))
    return [int(w * d) for w in weights], d


def rule(v, b, others):
    """The weight b on each of the others and the rest on v: a list of (vertex, numerator), and a denominator."""
    (own, b), d = over_one_denominator(1 - len(others) * b, b)
    return [(v, own)] + [(r, b) for r in others], d


def creases(v, inner, ring, sharp):
    """The far ends of the rim and sharp edges at v."""
    return ([] if inner else [ring[0], ring[-1]]) + [r for r in ring if frozenset((v, r)) in sharp]


def by_count(v, ring, far_ends, inner_weight, rim_weight):
    """No sharp or rim edge at v, or one: the ring rule; two: the rim weights with their far ends; more: v stays."""
    if len(far_ends) < 2:
        return rule(v, inner_weight(len(ring)), ring)
    return rule(v, rim_weight, far_ends) if len(far_ends) == 2 else ([(v, 1)], 1)


def refining(v, ring, far_ends):
    return by_count(v, ring, far_ends, beta, Fraction(1, 8))


def at_limit(v, ring, far_ends):
    return by_count(v, ring, far_ends, inner_limit, Fraction(1, 6))


def far_corner(face, ends):
    return next(v for v in face if v not in ends)


def edge_rule(mesh, f, k, sharp=frozenset()):
    face = mesh.faces[f]
    a, b = face[k], face[(k + 1) % 3]
    low, high = min(a, b), max(a, b)
    other = mesh.side_from.get((b, a))
    if other is None or mesh.ends(f, k) in sharp:
        return [(low, 1), (high, 1)], 2
    return [(low, 3), (high, 3), (far_corner(face, (a, b)), 1), (far_corner(mesh.faces[other], (a, b)), 1)], 8


def half_away(numerator, denominator):
    """The nearest whole number; a half goes away from zero."""
    size = (2 * abs(numerator) + denominator) // (2 * denominator)
    return size if numerator >= 0 else -size


def exact(numerator, denominator):
    return Fraction(numerator) / denominator


def mean(points, rule, rounded):
    terms, d = rule
    return tuple(rounded(sum(points[v][axis] * w for v, w in terms), d) for axis in range(3))


def vertex_rules(mesh, sharp, place):
    rings = [mesh.ring(v) for v in range(len(mesh.starts))]
    return [place(v, ring, creases(v, inner, ring, sharp)) for v, (inner, ring) in enumerate(rings)]


def run_levels(mesh, points, levels, rounded, sharp=frozenset()):
    """The mesh, the points and the sharp edges after the levels and before the limit."""
    for _ in range(levels):
        rules = vertex_rules(mesh, sharp, refining) + [edge_rule(mesh, f, k, sharp) for f, k in mesh.edges()]
        points = [mean(points, rule, rounded) for rule in rules]
        mesh, sharp = mesh.refined(), mesh.halves(sharp)
    return mesh, points, sharp


def triples(flat):
    return [tuple(flat[i:i + 3]) for i in range(0, len(flat), 3)]


def limit(mesh, coords, levels, rounded, sides=()):
    """The last mesh and its limit points, with those sides sharp: rounded by `half_away` the whole engine's, by `exact` the exact limit positions."""
    mesh, points, sharp = run_levels(mesh, triples(coords), levels, rounded, {mesh.ends(*divmod(s, 3)) for s in sides})
    return mesh, [mean(points, rule, rounded) for rule in vertex_rules(mesh, sharp, at_limit)]


def counts_of(mesh):
    return Counts(len(mesh.starts), len(mesh.faces), mesh.rim_sides())


def loop_subdivide_whole(levels, indices, coords, room=None, sharp=()):
    mesh, points = limit(check(levels, indices, coords, WHOLE, room, sharp), coords, levels, half_away, sharp)
    return Answer(counts_of(mesh), [v for face in mesh.faces for v in face], [c for p in points for c in p], None)


def exact_limit(levels, indices, coords, sharp=()):
    """The exact limit positions of an accepted whole cage, as fractions."""
    mesh, points = limit(check(levels, indices, coords, WHOLE, None, sharp), coords, levels, exact, sharp)
    return [Fraction(c) for p in points for c in p]


# ---- plates made elsewhere

YES, COUNTS = (0, 0, 1, 0, 0, 0), (0, 0, 0, 1, 0, 0)


def turnings(face):
    a, b, c = face
    return (a, b, c), (b, c, a), (c, a, b)


def need(claimed, e):
    """The least whole tolerance at which a coordinate passes."""
    return ceil(abs(claimed - e))


def accept(levels, tolerance, indices, coords, theirs, claimed, room=None):
    """The six numbers of the verdict on a claim: its faces and coordinates, held to the exact limit."""
    try:
        if levels > 7:
            raise Refused(1)
        if tolerance > 1000 or levels > 1:
            raise Refused(21)
        mesh, points = limit(check(levels, indices, coords, WHOLE, room), coords, levels, exact)
    except Refused as no:
        return no.number, no.place, 0, 0, 0, 0
    if (len(theirs), len(claimed)) != (3 * len(mesh.faces), 3 * len(points)):
        return COUNTS
    for f, (ours, face) in enumerate(zip(mesh.faces, triples(theirs))):
        if face not in turnings(ours):
            return 0, 0, 0, 2, f, 0
    for i, (y, e) in enumerate(zip(claimed, (c for p in points for c in p))):
        if need(y, e) > tolerance:
            return 0, 0, 0, 3, i, need(y, e)
    return YES


# ---- the f32 engine

def f32(x):
    """x, a float with 53 bits, narrowed to f32. One operation on two f32 worked in 53 bits and narrowed is rounded once in effect."""
    return struct.unpack("<f", struct.pack("<f", x))[0]


def from_bits(b):
    return struct.unpack("<f", struct.pack("<I", b))[0]


def to_bits(x):
    return struct.unpack("<I", struct.pack("<f", x))[0]


def plus(p, q):
    return tuple(f32(a + b) for a, b in zip(p, q))


def minus(p, q):
    return tuple(f32(a - b) for a, b in zip(p, q))


def times(p, w):
    return tuple(f32(a * w) for a in p)


def cross(s, t):
    return tuple(f32(s[i] * t[j] - s[j] * t[i]) for i, j in ((1, 2), (2, 0), (0, 1)))


def series_value(x, power, last):
    """The powers of x from the first through the last, every second one over its factorial, signs alternating."""
    return sum((-1)**((n - power) // 2) * x**n / factorial(n) for n in range(power, last + 1, 2))


HALF_TURN = Fraction(0x3243F6A88, 2**32)
TABLE = {(k, m): (round(series_value(HALF_TURN * k / m, 0, 20) * 2**24), round(series_value(HALF_TURN * k / m, 1, 21) * 2**24))
         for m in range(3, MOST_VALENCE + 1) for k in range(m + 1)}


def cosine(k, m):
    return TABLE[min(k, 2 * m - k), m][0] / 2**24


def sine(k, m):
    return TABLE[k, m][1] / 2**24 if k <= m else -TABLE[2 * m - k, m][1] / 2**24


def beta_f32(n):
    return f32(3 / 16) if n == 3 else f32(3 / f32(8.0 * n))


def weigh(points, own, b, v, others):
    """Own term first, then the others in order, each operation rounded."""
    p = times(points[v], own)
    for r in others:
        p = plus(p, times(points[r], b))
    return p


def vertex_f32(mesh, points, v, at_the_limit):
    inner, ring = mesh.ring(v)
    n = len(ring)
    if inner:
        b = beta_f32(n)
        if at_the_limit:
            b = f32(1 / f32(n + f32(3 / f32(8 * b))))
        return weigh(points, f32(1 - f32(n * b)), b, v, ring)
    b = f32(1 / 5) if at_the_limit else 0.125
    return weigh(points, f32(1 - f32(2 * b)), b, v, [ring[0], ring[-1]])


def edge_f32(mesh, points, f, k):
    terms, d = edge_rule(mesh, f, k)
    p = times(points[terms[0][0]], terms[0][1] / d)
    for v, w in terms[1:]:
        p = plus(p, times(points[v], w / d))
    return p


def tangents(inner, p, r):
    """S and T at a vertex at p with the ring r, all limit positions."""
    n = len(r)
    if inner:
        s = t = (0.0, 0.0, 0.0)
        for i, q in enumerate(r):
            s = plus(s, times(q, cosine(2 * i, n)))
            t = plus(t, times(q, sine(2 * i, n)))
        return s, t
    s = minus(r[-1], r[0])
    if n == 2:
        return s, minus(plus(r[0], r[1]), times(p, 2.0))
    if n == 3:
        return s, minus(r[1], p)
    if n == 4:
        t = times(r[0], -1.0)
        for q, w in ((r[1], 2.0), (r[2], 2.0), (r[3], -1.0), (p, -2.0)):
            t = plus(t, times(q, w))
        return s, t
    t = times(plus(r[0], r[-1]), sine(1, n - 1))
    bend = f32(2 * cosine(1, n - 1) - 2)
    for k in range(1, n - 1):
        t = plus(t, times(r[k], f32(bend * sine(k, n - 1))))
    return s, tuple(-c for c in t)


def loop_subdivide(levels, indices, coords, room=None):
    """The f32 engine: coordinates in and out as bits."""
    mesh = check(levels, indices, coords, F32, room)
    points = triples([from_bits(c) for c in coords])
    for _ in range(levels):
        points = [vertex_f32(mesh, points, v, False) for v in range(len(points))] + \
            [edge_f32(mesh, points, f, k) for f, k in mesh.edges()]
        mesh = mesh.refined()
    points = [vertex_f32(mesh, points, v, True) for v in range(len(points))]
    normals = []
    for v, p in enumerate(points):
        inner, ring = mesh.ring(v)
        normals.append(cross(*tangents(inner, p, [points[r] for r in ring])))
    return Answer(counts_of(mesh), [v for face in mesh.faces for v in face], [to_bits(c) for p in points for c in p],
                  [to_bits(c) for n in normals for c in n])


# ---- sheets and platecut

def write_sheet(levels, indices, coords):
    """The bytes of any lists, unchecked."""
    vertices, faces = len(coords) // 3, len(indices) // 3
    return struct.pack(f"<{len(coords)}i{len(indices)}I5I", *coords, *indices, 0, vertices, 12 * vertices, faces, levels)


def read_sheet(sheet):
    """Levels, corner numbers and coordinates, or refusal 15."""
    if len(sheet) < 20:
        raise Refused(15)
    vertex_offset, vertices, face_offset, faces, levels = struct.unpack("<5I", sheet[-20:])
    if vertex_offset != 0 or face_offset != 12 * vertices or len(sheet) != 12 * vertices + 12 * faces + 20:
        raise Refused(15)
    coords = struct.unpack(f"<{3 * vertices}i", sheet[:face_offset])
    indices = struct.unpack(f"<{3 * faces}I", sheet[face_offset:-20])
    return levels, list(indices), list(coords)


def write_checked(levels, indices, coords, room):
    """The sheet of lists that checks 1 to 12 have nothing against, if there is room for it."""
    check_cage(levels, indices, coords, WHOLE)
    needed_bytes = 4 * len(coords) + 4 * len(indices) + 20
    if room < needed_bytes:
        raise Refused(17)
    sheet = b"".join((c % 2**32).to_bytes(4, "little") for c in coords) + b"".join(v.to_bytes(4, "little") for v in indices)
    vertices, faces = len(coords) // 3, len(indices) // 3
    return sheet + b"".join(n.to_bytes(4, "little") for n in (0, vertices, 12 * vertices, faces, levels))


def makesheet(given):
    """What `makesheet` writes to standard output and to standard error."""
    try:
        if len(given) > 98316:
            raise Refused(16)
        if len(given) < 12:
            raise Refused(15)
        levels, coordinates, corners = struct.unpack("<3I", given[:12])
        if len(given) != 12 + 4 * coordinates + 4 * corners:
            raise Refused(15)
        lists = struct.unpack(f"<{coordinates}i{corners}I", given[12:])
        return write_checked(levels, list(lists[coordinates:]), list(lists[:coordinates]), 98324), b""
    except Refused as refusal:
        return b"", f"{refusal}\n".encode()


def listed(answer):
    lines = ["mesh {} {} {}".format(*answer.counts)]
    lines += ["v {} {} {}".format(*p) for p in triples(answer.positions)]
    lines += ["f {} {} {}".format(*f) for f in triples(answer.indices)]
    return "".join(line + "\n" for line in lines)


def platecut(sheet):
    """What `platecut` prints."""
    try:
        if len(sheet) > 32768:
            raise Refused(16)
        levels, indices, coords = read_sheet(sheet)
        answer = loop_subdivide_whole(levels, indices, coords, needed(512, 512, WHOLE))
    except Refused as refusal:
        return f"{refusal}\n"
    return listed(answer)


# ---- a claim as a listing

def read_listing(text):
    """The claim whose listing the text is, to the byte, or None. Numbers are those that `claimcheck` reads."""
    found = re.fullmatch(rb"mesh (\d+) (\d+) (\d+)\n((?:v -?\d+ -?\d+ -?\d+\n)*)((?:f \d+ \d+ \d+\n)*)", text)
    if not found:
        return None
    counts = Counts(*(int(n) for n in found.groups()[:3]))
    positions, indices = ([int(n) for n in re.findall(rb"-?\d+", part)] for part in found.groups()[3:])
    claim = Answer(counts, indices, positions, None)
    if max(counts[:2]) > 512 or (len(positions), len(indices)) != (3 * counts.vertices, 3 * counts.faces):
        return None
    if max(map(abs, positions), default=0) >= 2**31 or max([counts.rim_sides, *indices]) // 10 > 400_000_000:
        return None
    return claim if listed(claim).encode() == text else None


def claimcheck(given):
    """What `claimcheck` prints."""
    try:
        if len(given) < 8:
            raise Refused(15)
        tolerance, length = struct.unpack_from("<2I", given)
        if length > 32768:
            raise Refused(16)
        if len(given) < 8 + length:
            raise Refused(15)
        cage = read_sheet(given[8:8 + length])
    except Refused as refusal:
        return f"{refusal}\n"
    claim = read_listing(given[8 + length:])
    room = needed(512, 512, WHOLE)
    levels, indices, coords = cage
    number, place, yes, wrong, where, least = accept(levels, tolerance, indices, coords, claim.indices if claim else [], claim.positions if claim else [], room)
    if number:
        return f"refused {number} at {place}\n"
    if not claim:
        return "unreadable\n"
    if yes:
        return "yes\n" if claim.counts == loop_subdivide_whole(*cage, room).counts else "no counts\n"
    return ("", "no counts\n", f"no face {where}\n", f"no coordinate {where} needs {least}\n")[wrong]


# ---- a whole alphabet

Batch = namedtuple("Batch", "answers positions indices words work")


def subdivide_sheets(sheets, lengths, room, entries):
    """One answer of five numbers for each sheet, all outputs one after the other, and how many entries of the work buffers are zero afterwards; or refusal 19."""
    if len(lengths) > 64 or sum(lengths) != len(sheets) or entries < 5 * len(lengths):
        raise Refused(19)
    batch, at = Batch([], [], [], 0, 0), 0
    for length in lengths:
        sheet, at = sheets[at:at + length], at + length
        free = {**room, 0: room[0] - len(batch.positions), 2: room[2] - len(batch.indices)}
        try:
            plate = loop_subdivide_whole(*read_sheet(sheet), free)
        except Refused as r:
            batch.answers.append((r.number, r.place, 0, 0, 0))
            continue
        vertices, faces, _ = plate.counts
        needs = needed(faces, vertices, WHOLE)
        batch = Batch(batch.answers + [(0, 0, *plate.counts)], batch.positions + plate.positions, batch.indices + plate.indices,
                      max(batch.words, needs[3]), max(batch.work, needs[4]))
    return batch


def fontcut(given):
    """What `fontcut` prints."""
    try:
        if len(given) > 262144:
            raise Refused(16)
        count = int.from_bytes(given[:4], "little") if len(given) >= 4 else 65
        if count > 64 or len(given) < 4 + 4 * count:
            raise Refused(19)
        lengths = struct.unpack_from(f"<{count}I", given, 4)
        batch = subdivide_sheets(given[4 + 4 * count:], lengths, needed(4096, 4096, WHOLE), 320)
    except Refused as refusal:
        return f"{refusal}\n"
    text, p, q = [], 0, 0
    for number, place, vertices, faces, rims in batch.answers:
        if number:
            text.append(f"{Refused(number, place)}\n")
        else:
            text.append(listed(Answer((vertices, faces, rims), batch.indices[q:q + 3 * faces], batch.positions[p:p + 3 * vertices], None)))
        p, q = p + 3 * vertices, q + 3 * faces
    return "".join(text)


# ---- rims as outlines

def rim_loops(indices):
    """The rim of a face list as loops of vertices: each from its lowest on in the faces' direction, in order of that vertex."""
    sides = {(a, b) for face in triples(indices) for a, b in zip(face, (*face[1:], face[0]))}
    onward = {a: b for a, b in sides if (b, a) not in sides}
    loops, met = [], set()
    for first in sorted(onward):
        if first not in met:
            loop = [first]
            while onward[loop[-1]] != first:
                loop.append(onward[loop[-1]])
            met.update(loop)
            loops.append(loop)
    return loops


def loop_list(loops):
    """Each loop after its length."""
    return [word for loop in loops for word in (len(loop), *loop)]


def outline(sheet):
    """What `outline` prints."""
    try:
        if len(sheet) > 32768:
            raise Refused(16)
        plate = loop_subdivide_whole(*read_sheet(sheet), needed(512, 512, WHOLE))
        loops = rim_loops(plate.indices)
        if len(loop_list(loops)) > 682:
            raise Refused(20)
    except Refused as refusal:
        return f"{refusal}\n"
    points = list(triples(plate.positions))
    lines = [f"outlines {len(loops)} {sum(map(len, loops))}"]
    for loop in loops:
        lines += [f"loop {len(loop)}", *("v {} {} {}".format(*points[v]) for v in loop)]
    return "".join(line + "\n" for line in lines)


# ---- OBJ text

MOST_LINES, REACH = 32768, 10**9


def obj_text(coords, corners):
    """The text of lists, or refusal 25."""
    vertices = len(coords) // 3
    if len(coords) % 3 or len(corners) % 3 or max(len(coords), len(corners)) > 3 * MOST_LINES or any(abs(x) > REACH for x in coords) or any(c >= vertices for c in corners):
        raise Refused(25)
    lines = ["v {} {} {}\n".format(*p) for p in triples(coords)] + ["f {} {} {}\n".format(*(c + 1 for c in f)) for f in triples(corners)]
    return "".join(lines).encode()


def write_obj(coords, corners, room):
    text = obj_text(coords, corners)
    if len(text) > room:
        raise Refused(22)
    return text


class ObjText:
    """A text read from its front. Refusal 23 is raised at the first byte that no text of the form has there, or at the end where it is not whole."""

    def __init__(self, text):
        self.text, self.at = text, 0

    def next(self, allowed):
        if self.at == len(self.text) or self.text[self.at] not in allowed:
            raise Refused(23, self.at)
        self.at += 1
        return self.text[self.at - 1]

    def number(self, least, most, end):
        """Digits of a number of its range without a zero in front, and the byte that ends it. What a digit more would make is known, so each is held to the range."""
        n = self.next([48 + d for d in range(10) if least <= d <= most]) - 48
        while True:
            c = self.next([end] + [48 + d for d in range(10) if n and 10 * n + d <= most])
            if c == end:
                return n
            n = 10 * n + c - 48

    def coordinate(self, end):
        below = self.text[self.at:self.at + 1] == b"-"
        self.at += below
        n = self.number(1 if below else 0, REACH, end)
        return -n if below else n

    def lists(self):
        coords, corners = [], []
        while self.at < len(self.text):
            letters = [118] * (not corners and len(coords) < 3 * MOST_LINES) + [102] * (bool(coords) and len(corners) < 3 * MOST_LINES)
            if self.next(letters) == 118:
                self.next(b" ")
                coords += [self.coordinate(end) for end in b"  \n"]
            else:
                self.next(b" ")
                corners += [self.number(1, len(coords) // 3, end) - 1 for end in b"  \n"]
        return coords, corners


def read_obj(text, room_for_coords, room_for_corners):
    coords, corners = ObjText(text).lists()
    if len(coords) > room_for_coords or len(corners) > room_for_corners:
        raise Refused(24)
    return coords, corners


def plateobj(sheet):
    """What `plateobj` prints."""
    try:
        if len(sheet) > 98324:
            raise Refused(16)
        answer = loop_subdivide_whole(*read_sheet(sheet), needed(32768, 32768, WHOLE))
    except Refused as refusal:
        return f"{refusal}\n".encode()
    return obj_text(answer.positions, answer.indices)


def objsheet(levels, text):
    """What `objsheet` writes to standard output and to standard error."""
    try:
        if len(text) > 1900544:
            raise Refused(16)
        coords, corners = read_obj(text, 98304, 98304)
        return write_checked(levels, corners, coords, 98324), b""
    except Refused as refusal:
        return b"", f"{refusal}\n".encode()


if __name__ == "__main__":
    printed = outline if sys.argv[1:] == ["outline"] else platecut
    sys.stdout.write(printed(sys.stdin.buffer.read(32769)))
