"""Cages and meshes as Python values, and the oracle's program as a function from one to the other.

A cage is (levels, indices, coordinates): flat lists, coordinates as f32 bits. A mesh is (indices, positions, normals),
the last two as bits, or None where the Rust panicked.
"""
import struct
import subprocess
from pathlib import Path

HERE = Path(__file__).resolve().parent


def bits(x):
    """The bits of the f32 nearest to x."""
    return struct.unpack("<I", struct.pack("<f", x))[0]


def value(b):
    return struct.unpack("<f", struct.pack("<I", b))[0]


def build(what="program"):
    """The path of the program, or of the library; None where the source is absent. Any other trouble is an error."""
    made = subprocess.run([HERE / "make", what], stdin=subprocess.DEVNULL, stdout=subprocess.PIPE, text=True)
    if made.returncode == 3:
        return None
    made.check_returncode()
    return made.stdout.strip()


def cage_text(cage):
    levels, indices, coords = cage
    assert len(coords) % 3 == 0
    words = ["cage", str(levels), str(len(indices)), str(len(coords) // 3)]
    return " ".join(words + [str(i) for i in indices] + [f"{c:08X}" for c in coords]) + "\n"


def meshes(text):
    lines = iter(text.splitlines())
    for line in lines:
        if line == "panic":
            yield None
            continue
        word, faces, vertices = line.split()
        f, p, n = (next(lines).split() for _ in range(3))
        assert word == "mesh" and (f[0], p[0], n[0]) == ("f", "p", "n")
        mesh = [int(i) for i in f[1:]], [int(b, 16) for b in p[1:]], [int(b, 16) for b in n[1:]]
        assert len(mesh[0]) == 3 * int(faces) and len(mesh[1]) == 3 * int(vertices)
        yield mesh


def run(program, mode, cages, before_limit=False):
    """The oracle's meshes of these cages."""
    words = [program, mode] + (["before-limit"] if before_limit else [])
    text = "".join(cage_text(c) for c in cages)
    done = subprocess.run(words, input=text, stdout=subprocess.PIPE, text=True, check=True)
    found = list(meshes(done.stdout))
    assert len(found) == len(cages)
    return found
