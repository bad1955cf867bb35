"""Cages of every kind, from a seed: fans, closed and open meshes, holes, several components, and coordinates of both number kinds.

The dice are our own, so that a seed means the same cages for ever.
"""
import reference


class Dice:
    """splitmix64."""

    def __init__(self, seed):
        self.state = seed

    def word(self):
        self.state = (self.state + 0x9E3779B97F4A7C15) % 2**64
        z = self.state
        z = (z ^ z >> 30) * 0xBF58476D1CE4E5B9 % 2**64
        z = (z ^ z >> 27) * 0x94D049BB133111EB % 2**64
        return z ^ z >> 31

    def below(self, n):
        return self.word() % n

    def pick(self, xs):
        return xs[self.below(len(xs))]

    def shuffled(self, xs):
        xs = list(xs)
        for i in range(len(xs) - 1, 0, -1):
            j = self.below(i + 1)
            xs[i], xs[j] = xs[j], xs[i]
        return xs


# ---- faces

TETRAHEDRON = [(0, 1, 2), (0, 2, 3), (0, 3, 1), (1, 3, 2)]


def closed_fan(n):
    """A hub with n faces round it: inner, valence n."""
    return [(0, 1 + i, 1 + (i + 1) % n) for i in range(n)]


def open_fan(n):
    """A hub on the rim with n faces: valence n + 1."""
    return [(0, 1 + i, 2 + i) for i in range(n)]


def bipyramid(n):
    """Closed: two poles of valence n, and n vertices of valence 4."""
    upper = [(0, 2 + i, 2 + (i + 1) % n) for i in range(n)]
    return upper + [(1, b, a) for _, a, b in upper]


def grid(width, height, wrap_x=False, wrap_y=False):
    """Squares cut in two. Wrapped one way it is a cylinder, both ways a torus."""
    columns, rows = width + (not wrap_x), height + (not wrap_y)
    faces = []
    for y in range(height):
        for x in range(width):
            a, b = y * columns + x, y * columns + (x + 1) % columns
            c, d = (y + 1) % rows * columns + x, (y + 1) % rows * columns + (x + 1) % columns
            faces += [(a, b, d), (a, d, c)]
    return faces


def split(dice, faces):
    """A new vertex of valence 3 inside one face."""
    f = dice.below(len(faces))
    a, b, c = faces[f]
    v = 1 + max(max(face) for face in faces)
    return faces[:f] + [(a, b, v), (b, c, v), (c, a, v)] + faces[f + 1:]


def flip(dice, faces):
    """The other diagonal in the square of two neighbours."""
    f = dice.below(len(faces))
    k = dice.below(3)
    a, b, c = faces[f][k], faces[f][(k + 1) % 3], faces[f][(k + 2) % 3]
    for g, other in enumerate(faces):
        if (b, a) in ((other[0], other[1]), (other[1], other[2]), (other[2], other[0])):
            d = next(v for v in other if v not in (a, b))
            rest = [face for i, face in enumerate(faces) if i not in (f, g)]
            return rest + [(c, a, d), (d, b, c)]
    return faces


def cut_out(dice, faces):
    """One face less."""
    f = dice.below(len(faces))
    return faces[:f] + faces[f + 1:] if len(faces) > 1 else faces


def beside(faces, others):
    """Two components."""
    n = 1 + max(max(f) for f in faces)
    return faces + [tuple(v + n for v in f) for f in others]


def compact(faces):
    """The same faces with the vertices that are used numbered from 0."""
    names = {v: i for i, v in enumerate(sorted({v for f in faces for v in f}))}
    return [tuple(names[v] for v in f) for f in faces]


def flat(faces):
    return [v for f in faces for v in f]


def vertices_of(faces):
    return 1 + max(max(f) for f in faces) if faces else 0


def accepted(faces, most=reference.MOST_VALENCE):
    """By the checks, and with no valence over `most`."""
    try:
        mesh = reference.check_cage(0, flat(faces), [0] * (3 * vertices_of(faces)), reference.WHOLE)
    except reference.Refused:
        return False
    return all(len(mesh.ring(v)[1]) <= most for v in range(len(mesh.starts)))


def is_closed(faces):
    return reference.Mesh.of_cage(flat(faces), vertices_of(faces)).rim_sides() == 0


def mixed(dice, faces):
    """The same mesh, with vertices renumbered, faces in another order and corners turned round."""
    names = dice.shuffled(range(vertices_of(faces)))
    turned = []
    for f in dice.shuffled(faces):
        k = dice.below(3)
        turned.append(tuple(names[f[(k + j) % 3]] for j in range(3)))
    return turned


def base(dice, most):
    kind = dice.below(8)
    if kind == 0:
        return TETRAHEDRON
    if kind == 1:
        return closed_fan(3 + dice.below(most - 2))
    if kind == 2:
        return open_fan(1 + dice.below(most - 1))
    if kind == 3:
        return bipyramid(3 + dice.below(most - 2))
    if kind == 4:
        return grid(1 + dice.below(4), 1 + dice.below(4))
    if kind == 5:
        return grid(3 + dice.below(3), 1 + dice.below(3), wrap_x=True)
    if kind == 6:
        return grid(3 + dice.below(2), 3 + dice.below(2), wrap_x=True, wrap_y=True)
    return [(0, 1, 2)]


def random_faces(dice, most=reference.MOST_VALENCE):
    """The faces of an accepted cage, of valence to `most`."""
    faces = base(dice, most)
    for _ in range(dice.below(6)):
        step = dice.pick([split, flip, flip, cut_out])
        changed = compact(step(dice, faces))
        if accepted(changed, most):
            faces = changed
    while dice.below(4) == 0 and len(faces) < 60:
        faces = beside(faces, base(dice, most))
    return mixed(dice, faces) if dice.below(4) else faces


# ---- coordinates

def small_whole(dice):
    """Whole, size at most 2^20, as f32 bits."""
    return reference.to_bits(float(dice.below(2**21 + 1) - 2**20))


def full(dice):
    """24 bits of significand, the last one set, and exponents close together, so that each order of additions shows."""
    return dice.below(2) << 31 | (124 + dice.below(8)) << 23 | dice.below(2**23) | 1


def scattered(dice):
    """Any exponent from 2^-40 to 2^39."""
    return dice.below(2) << 31 | (87 + dice.below(80)) << 23 | dice.below(2**23)


def huge(dice):
    """Size near 2^40, and that very number."""
    return dice.below(2) << 31 | dice.pick([0x53800000, 0x53000000 | dice.below(2**23), 0x537FFFFF])


def tiny(dice):
    """Subnormal."""
    return dice.below(2) << 31 | dice.below(2**dice.pick([1, 4, 12, 23]))


def zeros(dice):
    """+0 and -0 among small numbers."""
    return dice.pick([0x80000000, 0, 0x80000000, full(dice)])


FLOATS = [small_whole, full, scattered, huge, tiny, zeros]


def whole(dice):
    """Micrometres: small numbers, any number, and the ends of the range."""
    reach = dice.pick([1, 3, 20, 1000, 10**6, 10**9])
    return dice.pick([dice.below(2 * reach + 1) - reach] * 7 + [-10**9, 10**9])


def coords(dice, faces, kind):
    return [kind(dice) for _ in range(3 * vertices_of(faces))]
