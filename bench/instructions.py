#!/usr/bin/env python3
"""Counts instructions of the processor, by callgrind.

instructions.py program [FOLDER [PROGRAM]]   the program on the files of generate.py: the commands over sources at the limits and at half
                                             of them; a scan of the motor with its line, whole and function by function, by the difference
                                             of two and four thousand scans; `load 10`, and `run` over 20,000 scans. FOLDER is
                                             /tmp/plcsafe-bench, and PROGRAM the one that ./plcsafe builds, where they are left out
instructions.py channels [PROGRAM]           channels A, B and C in a vote of PROGRAM, or of the one that ./plcsafe builds, of the same motor:
                                             the instructions of a scan's turns, by the difference of two and four thousand scans, and of
                                             C also how many times those of A. B's have its outcome with them
instructions.py stack [PROGRAM]              each turn of channel A in runs of PROGRAM, or of the one that ./plcsafe builds. First six scans
                                             of an application with one SF_EmergencyStop: a line is a scan, whose turns are CONST, LOAD, CONST,
                                             CONST, LOAD, CALL, LOAD, LOAD, AND, STORE and END. Then three CALLs of each kind, whose pins are
                                             inputs: from Idle on, in its first state, and with Activate FALSE
instructions.py equation [PROGRAM]           each turn of channel B in the same six scans, with what its seat counts: BLOCK, SET, ALL, SET and
                                             LAST

Where a count is not to be had, the status is 1.
"""
import os
import pathlib
import re
import shutil
import subprocess
import sys
import tempfile

import generate

sys.path.append(os.path.join(os.path.dirname(os.path.abspath(__file__)), "..", "tools"))
from plainly import Stop, plainly
from rows import sections

ROOT = pathlib.Path(__file__).resolve().parent.parent
BUILT = ROOT / "built" / "ps_main" / "program"
FOLDER = "/tmp/plcsafe-bench"
KINDS = ("SF_Equivalent", "SF_Antivalent", "SF_EmergencyStop", "SF_ESPE", "SF_ModeSelector", "SF_TwoHandControlTypeII", "SF_TwoHandControlTypeIII",
         "SF_GuardMonitoring", "SF_GuardLocking", "SF_EnableSwitch", "SF_SafetyRequest", "SF_OutControl", "SF_EDM")


def executable(program):
    """The path of a program that can be started."""
    path = pathlib.Path(program).resolve()
    if not os.access(path, os.X_OK) or not path.is_file():
        raise Stop(f"{path} is no program" + ("" if program != BUILT else ": run ./plcsafe once"))
    return path


def counted(program, words, folder, within=None, out="/dev/null"):
    """The instructions of a run, or of a function in it. callgrind writes those of each function to a file."""
    flags = [f"--toggle-collect={within}"] if within else []
    command = ["valgrind", "--tool=callgrind", f"--callgrind-out-file={out}", *flags, program, *words]
    run = subprocess.run(command, cwd=folder, stdin=subprocess.DEVNULL, stdout=subprocess.DEVNULL, stderr=subprocess.PIPE, text=True, errors="replace")
    found = re.search(r"Collected : (\d+)", run.stderr)
    if not found or within and found[1] == "0":
        raise Stop(f"callgrind counted nothing of {pathlib.Path(program).name} {' '.join(words)}" + (f" within {within}" if within else ""))
    return int(found[1])


# ---- the program


def of_functions(file):
    """The instructions of each function in a file of callgrind, without those of the functions that it calls."""
    command = ["callgrind_annotate", "--threshold=100", "--show-percs=no", file]
    counts = {}
    for line in subprocess.run(command, stdout=subprocess.PIPE, text=True, check=True).stdout.splitlines():
        if row := re.match(r"\s*([\d,]+)\s+[^:\s]+:(\S.*?)(?: \[.*\])?$", line):
            counts[row[2]] = counts.get(row[2], 0) + int(row[1].replace(",", ""))
    return counts


def sources(program, folder):
    """The commands over sources, and how many times more twice the source takes. A certificate is that of its source."""
    for file in ("limits-half", "limits"):
        with open(folder / f"{file}.cert", "wb") as out:
            subprocess.run([program, "cert", f"{file}.st"], cwd=folder, stdout=out, check=True)
    for command in ("check", "cert", "verify", "image", "demand"):
        more = {file: [f"{file}.cert"] if command == "verify" else [] for file in ("limits-half", "limits")}
        half, whole = (counted(program, [command, f"{file}.st", *words], folder) for file, words in more.items())
        print(f"{command:42} {half / 1e6:.0f} and {whole / 1e6:.0f} million instructions, {whole / half:.2f} times", flush=True)


def scans(program, folder):
    """A scan, whole and of each function that has 5 instructions of it or more; a load, and a run."""
    files = [folder / f"callgrind-{number}k" for number in (2, 4)]
    less, more = (counted(program, ["run", "motor.st", f"motor-{number}k.trace"], folder, out=file) for number, file in zip((2, 4), files))
    print(f"{'a scan of the motor with its line':42} {(more - less) / 2000:.0f} instructions")
    before, after = map(of_functions, files)
    shares = {name: (count - before.get(name, 0)) / 2000 for name, count in after.items()}
    for name, share in sorted(shares.items(), key=lambda it: -it[1]):
        if share >= 5 and name != "PROGRAM TOTALS":
            print(f"  {share:6.0f} {name}")
    print(f"{'load 10':42} {counted(program, ['load', '10'], folder) / 1e6:.1f} million instructions")
    generate.write_trace(folder / "motor-20k.trace", count=20_000)
    print(f"{'run, 20,000 scans of the motor':42} {counted(program, ['run', 'motor.st', 'motor-20k.trace'], folder) / 1e6:.1f} million instructions")


def of_program(folder=FOLDER, program=BUILT):
    folder, program = pathlib.Path(folder).resolve(), executable(program)
    if not (folder / "limits-half.st").is_file():
        generate.main(folder)
    sources(program, folder)
    scans(program, folder)


# ---- the channels


# What makes the turns of a scan in each channel: of A all of them; of B all of them, and its outcome; of C each turn, and the loop
# over them is a part of the vote.
TURNS = {"A": "ps_stackvm::turn::turns", "B": "ps_machine::seat::Seat::finish::*", "C": "ps_decision::turn::turn"}


def of_channels(program=BUILT):
    program, numbers, scan = executable(program), (2_000, 4_000), {}
    with tempfile.TemporaryDirectory(prefix="plcsafe-bench-") as folder:
        files = {"A": generate.MOTOR, "F": "before 4294967295 A memory 0 00\n"}  # a fault that strikes none of the scans
        for name, text in files.items():
            (pathlib.Path(folder) / name).write_text(text)
        for number in numbers:
            generate.write_trace(f"{folder}/{number}", count=number)
        for channel, function in TURNS.items():
            less, more = (counted(program, ["vote", "A", str(number), "F"], folder, within=function) for number in numbers)
            scan[channel] = (more - less) / (numbers[1] - numbers[0])
    for channel, count in scan.items():
        times = f", {count / scan['A']:.2f} times those of A" if channel == "C" else ""
        print(f"{channel}: {count:.0f} instructions for the turns of a scan{times}", flush=True)


# ---- turn by turn


# Six scans of the motor: the stop is reset, and pressed.
SIX = "time S_In Ack Run\n0 1 0 1\n10 1 0 1\n20 1 0 1\n30 1 1 1\n40 1 0 0\n50 0 0 1\n"
# What makes a turn alone: of a function of types callgrind writes these after its name.
STACK, EQUATION = "ps_stackvm::turn::turns", "ps_machine::seat::Seat::turn::<"


def turns_of(program, function, app, trace, count):
    """The instructions of each call of a function, whose name begins so, in a run, which is made turn by turn, since a fault waits behind the
    turns of each scan. callgrind writes a file for each call, and a last one for what is behind them."""
    program = executable(program)
    with tempfile.TemporaryDirectory(prefix="plcsafe-bench-") as folder:
        scans = trace.count("\n") - 1
        texts = {"A": app, "T": trace, "F": "".join(f"before {scan} turn 1000 A memory 0 00\n" for scan in range(1, scans + 1))}
        for name, text in texts.items():
            (pathlib.Path(folder) / name).write_text(text)
        words = ["fault", "A", "T", "F"]
        counted(program, words, folder, out=f"{folder}/whole")
        found = [name for name in of_functions(f"{folder}/whole") if name.startswith(function)]
        if len(found) != 1:
            raise Stop(f"{program.name} calls {len(found)} functions whose name begins with {function}")
        command = ["valgrind", "--quiet", "--tool=callgrind", f"--callgrind-out-file={folder}/turn", f"--toggle-collect={found[0]}", f"--dump-after={found[0]}"]
        subprocess.run([*command, program, *words], cwd=folder, stdin=subprocess.DEVNULL, stdout=subprocess.DEVNULL, stderr=subprocess.DEVNULL, check=True)
        files = [pathlib.Path(folder) / f"turn.{number}" for number in range(1, count + 1)]
        if not all(file.is_file() for file in files):
            raise Stop(f"{program.name} makes less than {count} calls of {function}")
        return [int(re.search(r"(?m)^totals: (\d+)", file.read_text())[1]) for file in files]


def in_lines(counts, width):
    """Prints so many counts in a line."""
    for first in range(0, len(counts), width):
        print(*counts[first : first + width], flush=True)


def of_stack(program=BUILT):
    texts = sections()[1]
    in_lines(turns_of(program, STACK, texts["motor", "MOTOR"], SIX, 66), 11)
    for kind in KINDS:
        # An application of tests/calls/walks.calls: each pin is an input, and each safe output an output.
        app = next(text for (file, _), text in texts.items() if file == "walks" and f"VAR E : {kind};" in text)
        pins = re.findall(r"(?m)^  (\w+) : \w+;$", app)
        off = " 0" * (len(pins) - 1)
        turns = len(pins) + 1 + 2 * app.count(" := E.") + 1
        counts = turns_of(program, STACK, app, f"time {' '.join(pins)}\n0 1{off}\n0 1{off}\n0 0{off}\n", 3 * turns)
        print(kind, *counts[len(pins) :: turns], flush=True)


def of_equation(program=BUILT):
    in_lines(turns_of(program, EQUATION, sections()[1]["motor", "MOTOR"], SIX, 30), 5)


WHAT = {"program": (of_program, 2), "channels": (of_channels, 1), "stack": (of_stack, 1), "equation": (of_equation, 1)}


def main(words):
    of, most = WHAT.get(words[0], (None, 0)) if words else (None, 0)
    if of is None or len(words) - 1 > most:
        return None
    if lacking := [tool for tool in ("valgrind", "callgrind_annotate") if not shutil.which(tool)]:
        raise Stop(f"{lacking[0]} is not on this machine")
    of(*words[1:])
    return 0


if __name__ == "__main__":
    plainly(main, "bench/instructions.py program [FOLDER [PROGRAM]] | channels [PROGRAM] | stack [PROGRAM] | equation [PROGRAM]")
