"""Sheets from a seed: accepted ones, and damaged in their cage, in some bits, or in their length."""
import cages
import damage
import reference


def accepted(dice):
    """A sheet that often just fits the room for 512 faces and 512 vertices."""
    faces = cages.random_faces(dice)
    levels = 0
    while levels < 7 and len(faces) * 4**(levels + 1) <= dice.pick([64, 512, 512, 700]):
        levels += 1
    return reference.write_sheet(levels, cages.flat(faces), cages.coords(dice, faces, cages.whole))


def damaged(dice):
    d = damage.damaged(dice, reference.WHOLE)
    even = d.indices[:len(d.indices) // 3 * 3], d.coords[:len(d.coords) // 3 * 3]
    return reference.write_sheet(d.levels, *even)


def flipped(dice):
    """One to three bits of a sheet turned over, most often in its trailer."""
    sheet = bytearray(accepted(dice))
    for _ in range(1 + dice.below(3)):
        at = len(sheet) - 1 - dice.below(20) if dice.below(2) else dice.below(len(sheet))
        sheet[at] ^= 1 << dice.below(8)
    return bytes(sheet)


def cut(dice):
    """Bytes missing or added at either end."""
    sheet = accepted(dice)
    n = dice.pick([1, 2, 4, 12, 20, dice.below(len(sheet) + 1)])
    return dice.pick([sheet[n:], sheet[:-n], sheet + bytes(n), bytes(n) + sheet])
