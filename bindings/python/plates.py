"""Loop subdivision to the limit surface, from Python: the calls of plates.h over ctypes. This one file and the shared library are all that is needed, so it can be laid into the Python of a modelling tool.

    >>> import plates
    >>> plates.loop_subdivide_whole(1, [0, 1, 2], [0, 0, 0, 8, 0, 0, 0, 8, 0]).positions[0]
    (1, 1, 0)
    >>> plates.loop_subdivide_whole(1, [0, 1, 3], [0, 0, 0, 8, 0, 0, 0, 8, 0])
    Traceback (most recent call last):
    plates.Refusal: refused 5 at 2: a corner names no vertex; the place is the corner, three to a face; number the vertices from 0

A cage is a number of levels, a flat list of corners, three to a face, and a flat list of coordinates, three to a vertex. Every list gets an answer, a mesh or a `Refusal`; nothing has to be checked
beforehand. A number that fits no 32 bits is an OverflowError, as of the module array. Threads may call at once. The library is sought in the file that the environment's PLATES_LIBRARY names, else beside
this file, where bin/install or bin/library puts it, and by its name. docs/HANDBOOK.md has a section on each refusal.
"""
import ctypes
import os
from array import array
from ctypes import c_float as f32, c_int32 as i32, c_size_t as usize, c_uint8 as u8, c_uint32 as u32
from typing import Dict, List, NamedTuple, Sequence, Tuple

# made by docs/make-texts
VERSION = 13  # PLATES_VERSION of the plates.h that these calls are of
REFUSALS: Dict[int, Tuple[str, str, str]] = {  # what it means, what the place is, what to do
    1: ("too many levels", "always 0", "ask for 7 or fewer"),
    2: ("a list is cut off", "0 for the corners, 1 for the coordinates", "give three corners to a face and three coordinates to a vertex"),
    3: ("the control cage is too large", "0 for its faces, 1 for its vertices", "use a coarser cage and one more level"),
    4: ("a coordinate is out of range", "the coordinate, three to a vertex", "look for a wrong unit"),
    5: ("a corner names no vertex", "the corner, three to a face", "number the vertices from 0"),
    6: ("a face with equal corners", "the face", "leave it out"),
    7: ("a side is used twice in the same direction", "the side, three to a face", "turn the face over, or take one away where three meet at an edge"),
    8: ("a face on top of another", "the later face", "leave one of the two out, or give the plate thickness"),
    9: ("a vertex on no face", "the vertex", "take it out"),
    10: ("two fans meet in one point", "the vertex", "give each fan a vertex of its own"),
    12: ("too many rays", "the vertex", "split the hub in two"),
    13: ("the last level is too large", "always 0", "take a level less"),
    14: ("a lent buffer is short", "the buffer: 0 positions, 1 normals, 2 indices, 3 work words, 4 work coordinates", "with `platecut` take a level less or use the library; from C lend more"),
    15: ("not a sheet", "always 0", "see that something comes in, and write the sheet again"),
    16: ("the input is too long", "always 0", "use a coarser cage, or the library"),
    17: ("no room for the sheet", "always 0", "lend the writer 98,324 bytes"),
    18: ("a listed side cannot be sharp", "its index in the list of sharp sides", "take it out of the list, or name the side that you mean"),
    19: ("the batch does not add up", "always 0", "cut at most 64 sheets at once; from C look at the lengths, and lend five answer entries a sheet"),
    20: ("no room for the loops", "always 0", "lend the list 34,133 entries"),
    21: ("a claim is not judged at that tolerance or level", "always 0", "give a tolerance from 0 to 1,000, and a cage at level 0 or 1"),
    22: ("no room for the text", "always 0", "lend 1,900,544 bytes, which is room for every text"),
    23: ("not of the form", "the first byte that cannot stand, or the length", "look at that byte; export in the plain form, whole micrometres, or let `bin/sheet` read it"),
    24: ("no room for the lists", "always 0", "lend 98,304 entries to each list, which is room for every text"),
    25: ("no text for these lists", "always 0", "give three numbers to a vertex and a face, corners from 0 that name a vertex, at most 32,768 of each"),
}
# made thus far

Point = Tuple[int, int, int]
Face = Tuple[int, int, int]


class Refusal(Exception):
    """Why a cage, a sheet, a batch, a claim or a text was refused: a number and a place, with what they mean and what to do."""

    def __init__(self, number: int, place: int):
        super().__init__(number, place)
        self.number, self.place = number, place
        self.meaning, self.place_is, self.remedy = REFUSALS.get(number, ("not a number of the handbook",) * 3)

    def __str__(self):
        return f"refused {self.number} at {self.place}: {self.meaning}; the place is {self.place_is}; {self.remedy}"


class Mesh(NamedTuple):
    """A plate in whole micrometres."""
    positions: List[Point]
    faces: List[Face]
    rim_sides: int


class FloatMesh(NamedTuple):
    """A plate in f32, with normals, which are not made unit."""
    positions: List[Tuple[float, float, float]]
    normals: List[Tuple[float, float, float]]
    faces: List[Face]
    rim_sides: int


class Verdict(NamedTuple):
    """Whether a plate made elsewhere passes, or what is wrong first: `fault` is '', 'counts', 'face' or 'coordinate', `at` the face or the coordinate, counted 3 vertex + axis, and `needs` the least
    tolerance at which that coordinate passes."""
    passes: bool
    fault: str = ""
    at: int = 0
    needs: int = 0


# ---- the calls as plates.h declares them

def _find():
    here = os.path.dirname(os.path.abspath(__file__))
    named = os.environ.get("PLATES_LIBRARY")
    beside = [os.path.join(here, *up, f"libplates.so{end}") for up in ((), ("..", "..", ".."), ("..", "..", "target", "staticlib")) for end in (f".{VERSION}", "")]
    there = [named] if named else [path for path in beside if os.path.exists(path)]
    return ctypes.CDLL((there + [f"libplates.so.{VERSION}"])[0])


_library = _find()
const = mut = ctypes.POINTER  # ctypes knows no `const`; what a call only reads is marked for the reader, and tests/gate-declarations holds the mark to the source


def _call(declared):
    call, types = getattr(_library, declared.__name__), dict(declared.__annotations__)
    call.restype = types.pop("return")
    call.argtypes = list(types.values())
    return call


@_call
def plates_loop_subdivide_whole(levels: u32,
                                indices: const(u32), indices_length: usize,
                                coords: const(i32), coords_length: usize,
                                sharp: const(u32), sharp_length: usize,
                                positions: mut(i32), positions_length: usize,
                                out: mut(u32), out_length: usize,
                                words: mut(u32), words_length: usize,
                                work: mut(i32), work_length: usize,
                                told: mut(u32 * 5)) -> None: ...


@_call
def plates_loop_subdivide_plain(levels: u32,
                                indices: const(u32), indices_length: usize,
                                coords: const(i32), coords_length: usize,
                                sharp: const(u32), sharp_length: usize,
                                positions: mut(i32), positions_length: usize,
                                out: mut(u32), out_length: usize,
                                words: mut(u32), words_length: usize,
                                work: mut(i32), work_length: usize,
                                told: mut(u32 * 5)) -> None: ...


@_call
def plates_loop_subdivide(levels: u32,
                          indices: const(u32), indices_length: usize,
                          coords: const(f32), coords_length: usize,
                          positions: mut(f32), positions_length: usize,
                          normals: mut(f32), normals_length: usize,
                          out: mut(u32), out_length: usize,
                          words: mut(u32), words_length: usize,
                          work: mut(f32), work_length: usize,
                          told: mut(u32 * 5)) -> None: ...


@_call
def plates_subdivide_sheet(bytes: const(u8), bytes_length: usize,
                           positions: mut(i32), positions_length: usize,
                           out: mut(u32), out_length: usize,
                           words: mut(u32), words_length: usize,
                           work: mut(i32), work_length: usize,
                           told: mut(u32 * 5)) -> None: ...


@_call
def plates_write_sheet(levels: u32,
                       indices: const(u32), indices_length: usize,
                       coords: const(i32), coords_length: usize,
                       bytes: mut(u8), bytes_length: usize,
                       told: mut(u32 * 3)) -> None: ...


@_call
def plates_subdivide_sheets(bytes: const(u8), bytes_length: usize,
                            lengths: const(u32), lengths_length: usize,
                            positions: mut(i32), positions_length: usize,
                            out: mut(u32), out_length: usize,
                            words: mut(u32), words_length: usize,
                            work: mut(i32), work_length: usize,
                            answers: mut(u32), answers_length: usize) -> u32: ...


@_call
def plates_rim_loops(levels: u32,
                     indices: const(u32), indices_length: usize,
                     coords: const(i32), coords_length: usize,
                     positions: mut(i32), positions_length: usize,
                     out: mut(u32), out_length: usize,
                     words: mut(u32), words_length: usize,
                     work: mut(i32), work_length: usize,
                     list: mut(u32), list_length: usize,
                     told: mut(u32 * 4)) -> None: ...


@_call
def plates_accept(levels: u32, tolerance: u32,
                  indices: const(u32), indices_length: usize,
                  coords: const(i32), coords_length: usize,
                  theirs: const(u32), theirs_length: usize,
                  claimed: const(i32), claimed_length: usize,
                  positions: mut(i32), positions_length: usize,
                  out: mut(u32), out_length: usize,
                  words: mut(u32), words_length: usize,
                  work: mut(i32), work_length: usize,
                  told: mut(u32 * 6)) -> None: ...


@_call
def plates_write_obj(coords: const(i32), coords_length: usize,
                     corners: const(u32), corners_length: usize,
                     text: mut(u8), text_length: usize,
                     told: mut(u32 * 3)) -> None: ...


@_call
def plates_read_obj(text: const(u8), text_length: usize,
                    coords: mut(i32), coords_length: usize,
                    corners: mut(u32), corners_length: usize,
                    told: mut(u32 * 4)) -> None: ...


# ---- lists of Python as arrays of C, and back

_MOST = 32768  # no level has more faces or vertices than this, so room for as many is room for every answer
_MOST_BYTES = 12 * 4096 + 12 * 4096 + 20  # the longest sheet
_MOST_LIST = _MOST + 4096 // 3  # a loop has three sides at least, and begins at a vertex of the cage
_MOST_TEXT = 58 * _MOST  # 38 bytes to a `v` line, 20 to an `f` line
_KINDS = {"I": u32, "i": i32, "f": f32, "B": u8}


def _lent(*arrays):
    """A pointer and a length for each. The array stands with its caller until the call is over."""
    for a in arrays:
        yield (_KINDS[a.typecode] * len(a)).from_buffer(a)
        yield len(a)


def _room(kind, entries):
    return array(kind, bytes(entries * ctypes.sizeof(_KINDS[kind])))


def _rooms(kind="i"):
    """Positions, faces, work words and work coordinates, as much as any answer takes."""
    return _room(kind, 3 * _MOST), _room("I", 3 * _MOST), _room("I", 24 * _MOST), _room(kind, 6 * _MOST)


def _one(number):
    """A number for C, which would take the lowest bits of a longer one."""
    return array("I", [number])[0]


def _threes(entries):
    one = iter(entries)
    return list(zip(one, one, one))


def _done(told):
    """What is told behind number and place, where it is no refusal."""
    number, place, *rest = told
    if number:
        raise Refusal(number, place)
    return rest


# ---- the calls for Python

def _subdivide(call, levels, indices, coords, sharp):
    positions, out, words, work = _rooms()
    told = (u32 * 5)()
    call(_one(levels), *_lent(array("I", indices), array("i", coords), array("I", sharp), positions, out, words, work), told)
    vertices, faces, rim_sides = _done(told)
    return Mesh(_threes(positions[:3 * vertices]), _threes(out[:3 * faces]), rim_sides)


def loop_subdivide_whole(levels: int, indices: Sequence[int], coords: Sequence[int], sharp: Sequence[int] = ()) -> Mesh:
    """In whole micrometres, with the edges of the sides in `sharp` (3 face + side) sharp."""
    return _subdivide(plates_loop_subdivide_whole, levels, indices, coords, sharp)


def loop_subdivide_plain(levels: int, indices: Sequence[int], coords: Sequence[int], sharp: Sequence[int] = ()) -> Mesh:
    """The same answers by the plain engine, which keeps no links between faces. Its time grows with the square of the faces: it is for comparing."""
    return _subdivide(plates_loop_subdivide_plain, levels, indices, coords, sharp)


def loop_subdivide(levels: int, indices: Sequence[int], coords: Sequence[float]) -> FloatMesh:
    """The f32 engine, with normals."""
    positions, out, words, work = _rooms("f")
    normals = _room("f", 3 * _MOST)
    told = (u32 * 5)()
    plates_loop_subdivide(_one(levels), *_lent(array("I", indices), array("f", coords), positions, normals, out, words, work), told)
    vertices, faces, rim_sides = _done(told)
    return FloatMesh(_threes(positions[:3 * vertices]), _threes(normals[:3 * vertices]), _threes(out[:3 * faces]), rim_sides)


def subdivide_sheet(sheet: bytes) -> Mesh:
    """The whole engine on a sheet, of any bytes."""
    positions, out, words, work = _rooms()
    told = (u32 * 5)()
    plates_subdivide_sheet(*_lent(array("B", sheet), positions, out, words, work), told)
    vertices, faces, rim_sides = _done(told)
    return Mesh(_threes(positions[:3 * vertices]), _threes(out[:3 * faces]), rim_sides)


def subdivide_sheets(sheets: Sequence[bytes]) -> list:
    """A font's sheets in one call: a `Mesh` or a `Refusal` for each, which is not raised; 19 for all of them is. There is room for the largest mesh in all; a sheet that no longer fits is refused 14."""
    positions, out, words, work = _rooms()
    answers = _room("I", 5 * len(sheets))
    number = plates_subdivide_sheets(*_lent(array("B", b"".join(sheets)), array("I", map(len, sheets)), positions, out, words, work, answers))
    _done((number, 0))
    told, p, q = [], 0, 0
    for k in range(len(sheets)):
        number, place, vertices, faces, rim_sides = answers[5 * k:5 * k + 5]
        told.append(Refusal(number, place) if number else Mesh(_threes(positions[p:p + 3 * vertices]), _threes(out[q:q + 3 * faces]), rim_sides))
        p, q = p + 3 * vertices, q + 3 * faces
    return told


def write_sheet(levels: int, indices: Sequence[int], coords: Sequence[int]) -> bytes:
    """The sheet of a cage."""
    sheet = _room("B", _MOST_BYTES)
    told = (u32 * 3)()
    plates_write_sheet(_one(levels), *_lent(array("I", indices), array("i", coords), sheet), told)
    length, = _done(told)
    return sheet[:length].tobytes()


def outline(levels: int, indices: Sequence[int], coords: Sequence[int]) -> List[List[Point]]:
    """The rim of a plate as loops of points, in the faces' direction, for a tool that follows it. A closed plate has none."""
    positions, out, words, work = _rooms()
    entries = _room("I", _MOST_LIST)
    told = (u32 * 4)()
    plates_rim_loops(_one(levels), *_lent(array("I", indices), array("i", coords), positions, out, words, work, entries), told)
    loops, _ = _done(told)
    points, found, at = _threes(positions), [], 0
    for _ in range(loops):
        at, first = at + 1 + entries[at], at + 1
        found.append([points[v] for v in entries[first:at]])
    return found


def accept(levels: int, tolerance: int, cage: Tuple[Sequence[int], Sequence[int]], claim: Tuple[Sequence[int], Sequence[int]]) -> Verdict:
    """Whether a claim, corners and coordinates of any value, passes as the plate of a cage, corners and coordinates, at level 0 or 1, with a tolerance of 0 to 1,000 micrometres."""
    positions, out, words, work = _rooms()
    told = (u32 * 6)()
    lists = (array(kind, numbers) for pair in (cage, claim) for kind, numbers in zip("Ii", pair))
    plates_accept(_one(levels), _one(tolerance), *_lent(*lists, positions, out, words, work), told)
    passes, fault, at, needs = _done(told)
    return Verdict(bool(passes), ("", "counts", "face", "coordinate")[fault], at, needs)


def write_obj(coords: Sequence[int], corners: Sequence[int]) -> bytes:
    """The OBJ text of lists, corners counted from 0."""
    text = _room("B", _MOST_TEXT)
    told = (u32 * 3)()
    plates_write_obj(*_lent(array("i", coords), array("I", corners), text), told)
    length, = _done(told)
    return text[:length].tobytes()


def read_obj(text: bytes) -> Tuple[List[int], List[int]]:
    """Coordinates and corners of an OBJ text of exactly that form."""
    coords, corners = _room("i", 3 * _MOST), _room("I", 3 * _MOST)
    told = (u32 * 4)()
    plates_read_obj(*_lent(array("B", text), coords, corners), told)
    vertices, faces = _done(told)
    return coords[:3 * vertices].tolist(), corners[:3 * faces].tolist()
