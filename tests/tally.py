"""Counts what holds. A gate script ends with `finish`, whose line the gate adds to its total."""
import sys

passed = failed = 0


def expect(what, got, wanted=True):
    global passed, failed
    if got == wanted:
        passed += 1
    else:
        failed += 1
        print(f"failed: {what}" + ("" if wanted is True else f": {got!r:.160}, not {wanted!r:.160}"))


def skip(cases, why):
    """So many cases were not tried here. They are no passes; .ci/least says of which scripts, how many and for want of what a machine may skip."""
    print(f"{cases} skipped: {why}")


def finish():
    print(f"{passed} passed, {failed} failed")
    sys.exit(failed > 0)
