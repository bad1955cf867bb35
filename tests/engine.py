"""The public calls of plates.h, on many cages at once: cases with the answers that they must get, tests/engine.c as a function from cases to answers, and what differs.
Random cases: accepted cages, with sharp sides too, short buffers, damaged cages and lists, fresh cages for the oracle."""
import os
import struct
import subprocess
from collections import namedtuple
from pathlib import Path

import cages
import damage
import reference as ref

ROOT = Path(__file__).resolve().parent.parent
X86_64 = ROOT / "bin" / "x86-64"
SHEET = "sheet"
KINDS = (ref.WHOLE, ref.F32)
EXACT = (0, 0, 0, 0, 0)

# `indices`: of a sheet its bytes. `lent`: the lengths of positions, normals, indices, words and work coordinates. `five`: the numbers of the answer. `sharp`: the listed sides.
Case = namedtuple("Case", "what kind levels indices coords lent five positions normals faces sharp", defaults=[()])
Told = namedtuple("Told", "five harmed positions normals faces")


class Unexpected(Exception):
    """The reference refuses a cage that was made to be accepted."""

    def __init__(self, case):
        super().__init__(f"{case.what}: refused {case.five[0]} at {case.five[1]}")
        self.case = case


# ---- what must be answered

def refused(what, kind, levels, indices, coords, lent, number, place, sharp=()):
    return Case(what, kind, levels, indices, coords, lent, (number, place, 0, 0, 0), [], [], [], sharp)


def solved(what, kind, levels, indices, coords, lent, five, positions, faces, normals=(), sharp=()):
    return Case(what, kind, levels, indices, coords, lent, five, positions, list(normals), faces, sharp)


def lengths(kind, vertices, faces, more=EXACT):
    needed = ref.needed(faces, vertices, kind)
    return [needed.get(b, 0) + more[b] for b in range(5)]


def judged(what, kind, levels, indices, coords, lent=None, sharp=()):
    """What the reference says, a refusal too. With no `lent` there is always room, and the case has yet to be given some."""
    try:
        cage = ref.read_sheet(indices) if kind == SHEET else (levels, indices, coords)
        r = ref.loop_subdivide(*cage, lent) if kind == ref.F32 else ref.loop_subdivide_whole(*cage, lent, sharp)
    except ref.Refused as no:
        return refused(what, kind, levels, indices, coords, lent, no.number, no.place, sharp)
    return solved(what, kind, levels, indices, coords, lent, (0, 0, *r.counts), r.positions, r.indices, r.normals or (), sharp)


def by_reference(what, levels, indices, coords, more=EXACT, kind=ref.WHOLE, sharp=()):
    """A cage made to be accepted, lent what it needs and so much more."""
    c = judged(what, kind, levels, indices, coords, None, sharp)
    c = c._replace(lent=lengths(kind, *c.five[2:4], more))
    if c.five[0]:
        raise Unexpected(c)
    return c


def by_oracle(what, s):
    """`s`: one of oracle/stored.py's answers."""
    vertices, faces = len(s.positions) // 3, len(s.indices) // 3
    levels, indices, coords = s.cage
    return solved(what, ref.F32, levels, indices, coords, lengths(ref.F32, vertices, faces), (0, 0, vertices, faces, s.rim_sides), s.positions, s.indices, s.tabled)


# ---- random cases

def coordinates(dice, faces, kind):
    return cages.coords(dice, faces, cages.whole if kind == ref.WHOLE else dice.pick(cages.FLOATS))


def levels_for(dice, faces):
    """Few for a large cage: the reference is slow."""
    return dice.below(1 + sum(len(faces) <= most for most in (40, 12, 4, 1)))


def beyond(dice):
    """How much longer than needed each buffer is."""
    return [dice.pick([0, 0, 1, 7]) for _ in range(5)]


def accepted(what, dice, kind):
    faces = damage.small(dice)
    more = beyond(dice)
    return by_reference(what, levels_for(dice, faces), cages.flat(faces), coordinates(dice, faces, kind), more, kind)


def marked(what, dice):
    """With sharp edges, few or many, each named from either face or both, once or twice, in any order."""
    faces = damage.small(dice)
    levels = min(levels_for(dice, faces), 3)
    return by_reference(what, levels, cages.flat(faces), coordinates(dice, faces, ref.WHOLE), beyond(dice), ref.WHOLE, damage.sharp_sides(dice, faces))


def short(what, dice, kind):
    """One buffer or more too short by one or more; the first of them is the place."""
    faces = damage.small(dice)
    levels = dice.below(4)
    mesh = ref.Mesh.of_cage(cages.flat(faces), cages.vertices_of(faces))
    count, vertices = ref.final_counts(mesh, levels)
    needed = ref.needed(count, vertices, kind)
    lent = lengths(kind, vertices, count, beyond(dice))
    places = sorted({dice.pick(list(needed)) for _ in range(1 + dice.below(3))})
    for b in places:
        lent[b] = needed[b] - dice.pick([1, 1, needed[b], 1 + dice.below(needed[b])])
    return refused(what, kind, levels, cages.flat(faces), coordinates(dice, faces, kind), lent, 14, places[0])


def damaged(what, dice, kind):
    """The list of sharp sides is not looked at before 12, whatever it names."""
    d = damage.damaged(dice, kind)
    lent = [dice.below(200) for _ in range(5)]
    sharp = [dice.pick([0, dice.below(200), 2**32 - 1]) for _ in range(dice.below(4))] if kind == ref.WHOLE and d.number <= 12 else ()
    return refused(what, kind, d.levels, d.indices, d.coords, lent, d.number, d.place, sharp)


def loose(what, dice):
    """18, at any number of levels and with any room: 13 and 14 come after it."""
    d = damage.loose_side(dice)
    return refused(what, ref.WHOLE, d.levels, d.indices, d.coords, [dice.below(200) for _ in range(5)], d.number, d.place, d.sharp)


def fresh(dice):
    """A cage to ask the oracle about."""
    faces = cages.random_faces(dice)
    return dice.below(4 if len(faces) < 20 else 3), cages.flat(faces), coordinates(dice, faces, ref.F32)


# ---- what is answered

def library():
    """The static library, which is proved and built anew where a file of a crate is newer."""
    built = ROOT / "target" / "staticlib" / "libplates.a"
    newer = ["find", "crates", "crates.txt", "-name", "out", "-prune", "-o", "-newer", built, "-type", "f", "-print"]
    if not built.exists() or subprocess.run(newer, cwd=ROOT, check=True, stdout=subprocess.PIPE).stdout:
        subprocess.run([ROOT / "bin" / "archive", "plates"], check=True, stdout=subprocess.DEVNULL)
    return built


def driver():
    """The program over tests/engine.c. Several scripts may ask for it at a time: it is moved into place when it is whole."""
    program = ROOT / "target" / "engine"
    made = program.with_name(f"engine.{os.getpid()}")
    subprocess.run([X86_64, "cc", "-O2", "-Wall", "-Wextra", "-Werror", "-o", made, "tests/engine.c", library()], cwd=ROOT, check=True)
    return made.replace(program)


def packed(c):
    if c.kind == SHEET:
        return struct.pack("<10I", 2, c.levels, len(c.indices), 0, 0, *c.lent) + c.indices + bytes(-len(c.indices) % 4)
    single = c.kind == ref.F32
    return struct.pack(f"<10I{len(c.indices)}I{len(c.coords)}{'I' if single else 'i'}{len(c.sharp)}I", single, c.levels, len(c.indices), len(c.coords), len(c.sharp), *c.lent,
                       *c.indices, *c.coords, *c.sharp)


def run(program, cases):
    """What is told of each case, and how many bytes are left over."""
    words = memoryview(subprocess.run([X86_64, "run", program], input=b"".join(map(packed, cases)), stdout=subprocess.PIPE, check=True).stdout)
    at = 0

    def take(n, kind="I"):
        nonlocal at
        at += 4 * n
        return words[at - 4 * n:at].cast(kind).tolist()

    found = []
    for c in cases:
        five, (harmed,) = tuple(take(5)), take(1)
        vertices, faces = (0, 0) if five[0] else five[2:4]
        single = c.kind == ref.F32
        positions = take(min(3 * vertices, c.lent[0]), "I" if single else "i")
        normals = take(min(3 * vertices, c.lent[1]) if single else 0)
        found.append(Told(five, harmed, positions, normals, take(min(3 * faces, c.lent[2]))))
    return found, len(words) - at


def differing(c, told):
    """The names of what differs."""
    return [name for name, right in [("answer", told.five == c.five), ("positions", told.positions == c.positions), ("normals", told.normals == c.normals),
                                     ("indices", told.faces == c.faces), (f"buffers harmed, {told.harmed:06b}", told.harmed == 0)] if not right]
