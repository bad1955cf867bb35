"""Damaged cages whose refusal, number and place, is known from how they were made.

`damaged` starts from an accepted cage, breaks it in one way of its own, and half of the time adds a second damage of a number that is checked earlier,
which then decides. No check is run to find the answer.
"""
from collections import namedtuple

import cages
import reference

Damaged = namedtuple("Damaged", "levels indices coords number place sharp", defaults=[()])


def small(dice):
    """An accepted cage of few faces."""
    faces = cages.random_faces(dice)
    while len(faces) > 40:
        faces = cages.random_faces(dice)
    return faces


def room_for(vertex, faces):
    """The faces with every number from `vertex` on moved up by one, so that this number is free."""
    return [tuple(v + (v >= vertex) for v in f) for f in faces]


def turned(dice, face, k):
    """The face begun at another corner, and where its side k is now."""
    by = dice.below(3)
    return tuple(face[(j + by) % 3] for j in range(3)), (k - by) % 3


# Each of these breaks an accepted cage and says how: faces, number, place, and how many vertices there are.

def equal_corners(dice):
    faces = small(dice)
    f, k = dice.below(len(faces)), dice.below(3)
    face = list(faces[f])
    face[k] = face[(k + 1) % 3]
    return faces[:f] + [tuple(face)] + faces[f + 1:], 6, f, cages.vertices_of(faces)


def side_again(dice):
    """A further face on a side that is used already; its far corner is new, or it is an old face again."""
    faces = small(dice)
    old, k = dice.pick(faces), dice.below(3)
    if dice.below(4) == 0:
        return faces + [turned(dice, old, 0)[0]], 7, 3 * len(faces), cages.vertices_of(faces)
    new = cages.vertices_of(faces)
    face, side = turned(dice, (old[k], old[(k + 1) % 3], new), 0)
    return faces + [face], 7, 3 * len(faces) + side, new + 1


def turned_over(dice):
    """A triangle by itself, and later the same triangle turned over."""
    faces = cages.beside(small(dice), [(0, 1, 2)])
    a, b, c = faces[-1]
    return faces + [turned(dice, (a, c, b), 0)[0]], 8, len(faces), cages.vertices_of(faces)


def unused(dice):
    faces = small(dice)
    v = dice.below(cages.vertices_of(faces) + 1)
    return room_for(v, faces), 9, v, cages.vertices_of(faces) + 1


def pinched(dice):
    """Two components that share one vertex."""
    faces, others = small(dice), small(dice)
    n = cages.vertices_of(faces)
    u, w = dice.below(n), n + dice.below(cages.vertices_of(others))
    joined = [tuple(u if v == w else v - (v > w) for v in f) for f in cages.beside(faces, others)]
    return joined, 10, u, cages.vertices_of(joined)


def many_rays(dice):
    """A hub with one face too many, or more, among other components."""
    fan = cages.closed_fan(25 + dice.below(4)) if dice.below(2) else cages.open_fan(24 + dice.below(4))
    before = small(dice)
    faces = cages.beside(cages.beside(before, fan), small(dice))
    return faces, 12, cages.vertices_of(before), cages.vertices_of(faces)


BROKEN = [equal_corners, side_again, turned_over, unused, pinched, many_rays]


# ---- lists of sharp sides

def mesh_of(faces):
    return reference.Mesh.of_cage(cages.flat(faces), cages.vertices_of(faces))


def across(mesh, s):
    """The other side of the edge of side s."""
    face, k = mesh.faces[s // 3], s % 3
    a, b = face[k], face[(k + 1) % 3]
    f = mesh.side_from[b, a]
    return 3 * f + mesh.faces[f].index(b)


def sharp_sides(dice, faces):
    """Some edges inside the mesh, each named from either face or both, once or twice, in any order."""
    mesh = mesh_of(faces)
    inside = [s for s in range(3 * len(faces)) if not reference.loose(mesh, s)]
    one_in = dice.pick([1, 2, 2, 4, 9])
    named = [dice.pick([[s], [s], [s, s], [across(mesh, s)], [across(mesh, s), s]]) for s in inside if dice.below(one_in) == 0]
    return dice.shuffled([s for sides in named for s in sides])


def loose_side(dice):
    """A list some of whose sides are on the rim, or not there; the first of them is the place."""
    faces = small(dice)
    mesh = mesh_of(faces)
    rim = [s for s in range(3 * len(faces)) if reference.loose(mesh, s)]
    past = [3 * len(faces), 3 * len(faces) + dice.below(99), 2**31, 2**32 - 1]
    before, after = sharp_sides(dice, faces), sharp_sides(dice, faces)
    sharp = before + [dice.pick(rim or past) if dice.below(2) else dice.pick(past)] + dice.shuffled(after + rim[:dice.below(3)] + past[:dice.below(4)])
    coords = [coordinate(dice, reference.WHOLE) for _ in range(3 * cages.vertices_of(faces))]
    return Damaged(dice.below(8), cages.flat(faces), coords, 18, len(before), sharp)


def coordinate(dice, kind):
    return cages.whole(dice) if kind == reference.WHOLE else dice.pick(cages.FLOATS)(dice)


def bad_coordinate(dice, kind):
    if kind == reference.WHOLE:
        return dice.pick([10**9 + 1, -10**9 - 1, 2**31 - 1, -2**31])
    return dice.below(2) << 31 | dice.pick([0x53800001, 0x7F7FFFFF, 0x7F800000, 0x7FC00000, 0x7F800001])


def too_large(dice, kind):
    """Levels enough for over 32,768 faces."""
    faces = small(dice)
    while len(faces) < 3:
        faces = small(dice)
    levels = next(n for n in range(8) if len(faces) * 4**n > 32768)
    coords = [coordinate(dice, kind) for _ in range(3 * cages.vertices_of(faces))]
    return Damaged(levels, cages.flat(faces), coords, 13, 0)


def earlier(dice, d, kind):
    """A further damage, of a number that is checked before 6."""
    levels, indices, coords = d.levels, list(d.indices), list(d.coords)
    way = dice.below(6)
    if way == 0:
        return Damaged(dice.pick([8, 9, 255, 2**31, 2**32 - 1]), indices, coords, 1, 0)
    if way == 1:
        return Damaged(levels, indices + [dice.below(9)] * (1 + dice.below(2)), coords + [0] * dice.below(3), 2, 0)
    if way == 2:
        return Damaged(levels, indices, coords + [0] * (1 + dice.below(2)), 2, 1)
    if way == 3:
        at = sorted({dice.below(len(coords)) for _ in range(1 + dice.below(3))})
        for i in at:
            coords[i] = bad_coordinate(dice, kind)
        return Damaged(levels, indices, coords, 4, at[0])
    if way == 4:
        at = sorted({dice.below(len(indices)) for _ in range(1 + dice.below(3))})
        for i in at:
            indices[i] = dice.pick([len(coords) // 3, len(coords) // 3 + 1 + dice.below(99), 2**31, 2**32 - 1])
        return Damaged(levels, indices, coords, 5, at[0])
    if dice.below(2):
        return Damaged(levels, [dice.below(3) for _ in range(3 * (4097 + dice.below(3)))], coords, 3, 0)
    return Damaged(levels, indices, coords + [0] * (3 * 4097 - len(coords)), 3, 1)


def damaged(dice, kind):
    if dice.below(8) == 0:
        d = too_large(dice, kind)
    else:
        faces, number, place, vertices = dice.pick(BROKEN)(dice)
        coords = [coordinate(dice, kind) for _ in range(3 * vertices)]
        d = Damaged(dice.below(8), cages.flat(faces), coords, number, place)
    return earlier(dice, d, kind) if dice.below(2) else d
