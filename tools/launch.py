"""Starts a program of this repository: launch.py CRATE NAME WORD..  (by ./plcsafe).

The program is the one that was proved and built of the sources as they are now (`sources.py` says how that is known). Where it is not
there, `build.py` proves and builds it. With PLCSAFE_UNPROVED=1 it is one that was only compiled (`unproved.py`). Where there is none,
nothing is started, and the status is 9.
"""
import os
import sys

sys.path.insert(0, os.path.dirname(os.path.realpath(__file__)))
from sources import Store

NOT_BUILT = 9


def main(crate, name, words):
    try:
        return start(crate, name, words)
    except Exception as error:  # whatever it is: another status would be taken for the program's own
        print(f"{name}: nothing is started: {type(error).__name__}: {error}", file=sys.stderr)
        return NOT_BUILT
    except KeyboardInterrupt:
        return NOT_BUILT


def start(crate, name, words):
    """Becomes the program, or says with which status it was not started."""
    is_unproved = os.environ.get("PLCSAFE_UNPROVED") == "1"
    store = Store(crate, "unproved" if is_unproved else "proved")
    if not store.is_current():
        if is_unproved:
            from unproved import build
        else:
            from build import build
        if not build(crate, name) or not store.is_current():
            return NOT_BUILT
    if is_unproved:
        print(f"{name}: compiled with checks and NOT proved; without PLCSAFE_UNPROVED=1 the program is the proved one", file=sys.stderr, flush=True)
        os.environ["ASAN_OPTIONS"] = f"exitcode={NOT_BUILT}"
    os.execv(store.program, [name, *words])


if __name__ == "__main__":
    if len(sys.argv) < 3:
        sys.exit(print("usage: launch.py CRATE NAME WORD..", file=sys.stderr) or NOT_BUILT)
    sys.exit(main(sys.argv[1], sys.argv[2], sys.argv[3:]))
