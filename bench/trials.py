#!/usr/bin/env python3
"""A campaign of faults with an oracle of its own: `bench/oracle`, a second reading of the pages in C, judges the program.

trials.py CASES SEED [FIRST [PROGRAM]]   makes so many cases of a seed, from case FIRST (else 0) on, over all processors, and prints
                                         what they come to; PROGRAM is by default the one that ./plcsafe builds
trials.py --few PROGRAM                  makes a few, as tools/check does

A case is one drawn application with some 100 trials: calls of `run`, `fault`, `vote`, `heal` and `image`, of which every byte of
standard output and the status are compared with what the oracle expects. A case follows from the seed and its number. At the first
one that differs the script prints the line that was expected and the line that was given, leaves the files of the call in a folder,
and ends with 1. The C compiler `cc` has to be there.
"""
import concurrent.futures
import os
import pathlib
import shutil
import subprocess
import sys
import tempfile

HERE = pathlib.Path(__file__).resolve().parent
sys.path.append(str(HERE.parent / "tools"))
from plainly import Stop, plainly

BUILT = HERE.parent / "built" / "ps_main" / "program"
PART = 50
FEW, FEW_SLOWLY, FEW_SEED = 60, 6, 2026  # a program with tests of memory takes fifty times longer


def compile_oracle(folder):
    """Compiles the oracle into a folder, and says where it is."""
    program = os.path.join(folder, "oracle")
    subprocess.run(["cc", "-O2", "-o", program, *sorted(map(str, (HERE / "oracle").glob("*.c")))], check=True)
    return program


def run_part(oracle, program, seed, first, cases):
    """The status, the text and the folder of so many cases. The folder is kept where they differ."""
    folder = tempfile.mkdtemp(prefix="plcsafe-trials-")
    done = subprocess.run([oracle, program, folder, str(seed), str(first), str(cases)], stdin=subprocess.DEVNULL, stdout=subprocess.PIPE,
                          stderr=subprocess.STDOUT, text=True, errors="replace")
    if done.returncode == 0:
        shutil.rmtree(folder)
    return done.returncode, done.stdout, folder


def add(totals, text):
    """Adds the counts of a part. A line is a name, a colon, and words with a number behind each."""
    for line in text.splitlines():
        name, _, rest = line.partition(":")
        row = totals.setdefault(name, {})
        words = rest.split()
        for word, number in zip(words[0::2], words[1::2]):
            row[word] = row.get(word, 0) + int(number)


def campaign(oracle, program, seed, first, cases):
    """Makes the cases over all processors, and prints what they come to. The status."""
    totals = {}
    with concurrent.futures.ThreadPoolExecutor(os.cpu_count()) as pool:
        parts = [(k, min(PART, first + cases - k)) for k in range(first, first + cases, PART)]
        runs = [pool.submit(run_part, oracle, program, seed, *part) for part in parts]
        for run in runs:
            status, text, folder = run.result()
            if status != 0:
                pool.shutdown(cancel_futures=True)
                print(f"{text}the files of the call are in {folder}; `trials.py 1 {seed} CASE` repeats it")
                return 1
            add(totals, text)
    for name, row in totals.items():
        print(f"{name}: " + " ".join(f"{word} {number}" for word, number in row.items()))
    return 0


def few(oracle, program):
    """Makes a few cases, in one line. The status."""
    cases = FEW_SLOWLY if b"__asan_init" in pathlib.Path(program).read_bytes() else FEW
    status, text, folder = run_part(oracle, program, FEW_SEED, 0, cases)
    if status:
        print(f"{text}the files of the call are in {folder}")
        return 1
    totals = {}
    add(totals, text)
    made = totals["campaign"]
    print(f"{made['trials']} trials in {made['applications']} applications, {made['scans']} scans: none differs")
    return 0


def main(words):
    is_few = len(words) == 2 and words[0] == "--few"
    if not is_few and not (2 <= len(words) <= 4 and all(word.isdecimal() for word in words[:3])):
        return None
    program = words[1] if is_few else words[3] if len(words) == 4 else str(BUILT)
    if not os.access(program, os.X_OK) or not os.path.isfile(program):
        raise Stop(f"{program} is no program")
    if not shutil.which("cc"):
        raise Stop("there is no C compiler cc")
    with tempfile.TemporaryDirectory(prefix="plcsafe-oracle-") as folder:
        oracle = compile_oracle(folder)
        if is_few:
            return few(oracle, program)
        cases, seed, first = (int(word) for word in (words[:3] + ["0"])[:3])
        return campaign(oracle, program, seed, first, cases)


if __name__ == "__main__":
    plainly(main, "bench/trials.py CASES SEED [FIRST [PROGRAM]] | --few PROGRAM")
