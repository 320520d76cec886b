"""Counts of tests, and the line that ends them."""
import sys

passed = failed = 0


def count(name, holds, more=""):
    """Counts a test."""
    global passed, failed
    if holds:
        passed += 1
    else:
        failed += 1
        print(f"FAILED {name}{': ' if more else ''}{more}", flush=True)
    return holds


def same(name, got, wanted):
    """Counts a test that wants two values to be equal."""
    return count(name, got == wanted, f"\n  got    {str(got)[:700]}\n  wanted {str(wanted)[:700]}")


def end():
    """The last line, and the end."""
    print(f"{passed} passed, {failed} failed")
    sys.exit(failed > 0 or passed == 0)
