#!/usr/bin/env python3
"""What the proof of each function of a crate took, the dearest first.

functions.py CRATE [MOST]     reads the times of the files that a check of one job left in the crate's out/incremental, and prints
                              the seconds of the MOST dearest functions and lemma files (30), and the KiB that the prover keeps

The crate has to be checked from nothing, by one job, on a quiet machine: remove its out/incremental and call `rt check --jobs 1`
in its folder. A check begins with what another checkout on the machine kept of the same crate, so it serves where there is none.
The last two columns are the seconds of the function's paths (they grow with its ways out and the values that it owns there) and
of its goals (they grow with what has to be searched).
"""
import collections
import os
import pathlib
import re
import sys

sys.path.append(os.path.join(os.path.dirname(os.path.abspath(__file__)), "..", "tools"))
from plainly import Stop, plainly

ROOT = pathlib.Path(__file__).resolve().parent.parent
PARTS = re.compile(r"\.(Lts|Proof|Answers|Invariants|Given|Goals|Tie|Reads|Layout|Kinds|Code|Named|Met)\b")


def files(folder):
    """The files that a check kept in a folder, in the order in which it wrote them: when, the name of what was proved, and the size."""
    found = folder.glob("**/*.oantt")
    named = [(path.stat().st_mtime_ns / 1e9, path.name.split("-", 2)[-1].removesuffix(".oantt").removesuffix(".decls"), path.stat().st_size) for path in found]
    return sorted(named)


def costs(kept):
    """The seconds and bytes of each function, and the seconds of its paths and of its goals."""
    whole, size, paths, goals = (collections.Counter() for _ in range(4))
    before = kept[0][0]
    for written, name, length in kept:
        part = PARTS.search(name)
        function = name[: part.start()] if part else name
        taken, before = written - before, written
        whole[function] += taken
        size[function] += length
        if part and part[1] == "Lts":
            paths[function] += taken
        elif part and part[1] in ("Proof", "Answers"):
            goals[function] += taken
    return whole, size, paths, goals


def main(words):
    if len(words) not in (1, 2) or words[0].startswith("-") or not all(word.isdecimal() for word in words[1:]):
        return None
    kept = files(ROOT / "crates" / words[0] / "out" / "incremental")
    if not kept:
        raise Stop(f"no check of a crate {words[0]} left its times here: call `rt check --jobs 1` in its folder")
    whole, size, paths, goals = costs(kept)
    print(f"{'seconds':>8}{'KiB':>8}{'paths':>8}{'goals':>8}  function")
    for name, taken in whole.most_common(int(words[1]) if len(words) > 1 else 30):
        print(f"{taken:8.1f}{size[name] // 1024:8}{paths[name]:8.1f}{goals[name]:8.1f}  {name}")
    print(f"{kept[-1][0] - kept[0][0]:8.1f} in all")
    return 0


if __name__ == "__main__":
    plainly(main, "bench/functions.py CRATE [MOST]")
