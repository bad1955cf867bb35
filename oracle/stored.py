"""Stored answers of the oracle: asking for them, and their layout in words (oracle/answers/README.md)."""
import struct
from collections import namedtuple
from pathlib import Path

import drive

PATH = Path(__file__).resolve().parent / "answers" / "answers.words"
CAGE = 0x45474143
CLOSED, WHOLE = 1, 2

# library and unmended are None where the record has none
Stored = namedtuple("Stored", "cage rim_sides indices positions tabled library unmended")


def rim_sides(indices):
    sides = {(indices[i], indices[i - i % 3 + (i + 1) % 3]) for i in range(len(indices))}
    return sum((b, a) not in sides for a, b in sides)


def small_whole(coords):
    return all(abs(drive.value(c)) <= 2**20 and drive.value(c) == int(drive.value(c)) for c in coords)


def ask(program, cages):
    """What the three forms of the Rust say of these cages."""
    mended, tabled, unmended = (drive.run(program, mode, cages) for mode in ("mended", "tabled", "unmended"))
    found = []
    for cage, m, t, u in zip(cages, mended, tabled, unmended):
        assert m[:2] == t[:2], "the table changes normals alone"
        rim = rim_sides(m[0])
        found.append(Stored(cage, rim, m[0], m[1], t[2], m[2] if small_whole(cage[2]) else None,
                            u[1] if rim == 0 else None))
    return found


def pack(stored):
    words = [len(stored)]
    for s in stored:
        levels, indices, coords = s.cage
        flags = CLOSED * (s.unmended is not None) + WHOLE * (s.library is not None)
        lists = [indices, coords, s.indices, s.positions, s.tabled, s.library or [], s.unmended or []]
        head = [levels, len(indices) // 3, len(coords) // 3, len(s.indices) // 3, len(s.positions) // 3, s.rim_sides, flags]
        words += [CAGE, len(head) + sum(map(len, lists))] + head
        for xs in lists:
            words += xs
    return struct.pack(f"<{len(words)}I", *words)


def unpack(data):
    """The stored answers; ValueError where the layout is not kept."""
    if len(data) % 4 or not data:
        raise ValueError("the length is not a multiple of 4")
    words = struct.unpack(f"<{len(data) // 4}I", data)
    found, at = [], 1
    for number in range(words[0]):
        if words[at:at + 1] != (CAGE,):
            raise ValueError(f"cage {number} does not begin with CAGE")
        levels, faces, vertices, final_faces, final_vertices, rim, flags = words[at + 2:at + 9]
        end = at + 2 + words[at + 1]
        lengths = [3 * faces, 3 * vertices, 3 * final_faces, 3 * final_vertices, 3 * final_vertices,
                   3 * final_vertices * (flags & WHOLE > 0), 3 * final_vertices * (flags & CLOSED > 0)]
        if end != at + 9 + sum(lengths) or end > len(words):
            raise ValueError(f"cage {number} has another length than it says")
        lists, at = [], at + 9
        for n in lengths:
            lists.append(list(words[at:at + n]))
            at += n
        found.append(Stored((levels, lists[0], lists[1]), rim, *lists[2:5], lists[5] if flags & WHOLE else None,
                            lists[6] if flags & CLOSED else None))
    if at != len(words):
        raise ValueError("words are left over")
    return found
