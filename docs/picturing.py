"""What the pictures share: the engine's plate of a cage, from where it is seen, how it is lit, and the page. docs/make-picture and docs/make-gallery draw with it.

A plate is seen a little from the foot, and lit from the upper left; a face is the darker the more it turns away from the light.
"""
import math
import sys
from pathlib import Path

ROOT = Path(__file__).resolve().parent.parent
sys.dont_write_bytecode = True
sys.path.append(str(ROOT / "tests"))
import engine  # noqa: E402
import reference as ref  # noqa: E402

TILT = math.radians(30)
LIGHT = (-0.48, 0.6, 0.64)
INK = "#222"


def plate(sheet, sharp=()):
    """What the engine makes of a sheet, with these sides sharp: vertices, faces, rim sides."""
    if sharp:
        case = engine.judged("the picture", ref.WHOLE, *ref.read_sheet(sheet), None, sharp)
    else:
        case = engine.judged("the picture", engine.SHEET, 0, sheet, [])
    case = case._replace(lent=engine.lengths(ref.WHOLE, *case.five[2:4]))
    (told,), _ = engine.run(engine.driver(), [case])
    if told.five[0]:
        sys.exit(f"{Path(sys.argv[0]).name}: the engine refuses the cage, {told.five[0]} at {told.five[1]}. Nothing was drawn.")
    return ref.triples(told.positions), ref.triples(told.faces), told.five[4]


def height(p):
    """How high on the page a point stands."""
    return p[1] * math.cos(TILT) + p[2] * math.sin(TILT)


def normal(points, face):
    a, b, c = (points[v] for v in face)
    u, w = ([q[k] - a[k] for k in range(3)] for q in (b, c))
    return [u[(k + 1) % 3] * w[(k + 2) % 3] - u[(k + 2) % 3] * w[(k + 1) % 3] for k in range(3)]


def shade(points, face):
    """Its grey, 0 to 255."""
    n = normal(points, face)
    lit = sum(x * l for x, l in zip(n, LIGHT)) / math.sqrt(sum(x * x for x in n))
    return round(70 + 180 * max(0, lit) ** 1.5)


def grey(n):
    return f"#{3 * f'{n:02x}'}"


def counts(points, faces):
    return f"{len(points)} vertices, {len(faces)} faces"


def text(x, y, size, words):
    return f'<text x="{x}" y="{y}" font-size="{size}" fill="{INK}">{words}</text>'


def page(width, height, title, words, drawn):
    yield f'<svg xmlns="http://www.w3.org/2000/svg" width="{width}" height="{height}" viewBox="0 0 {width} {height}" font-family="sans-serif">'
    yield f"<title>{title}</title>"
    yield f"<desc>{words}</desc>"
    yield f'<rect width="{width}" height="{height}" fill="#fff"/>'
    yield from drawn
    yield "</svg>"
