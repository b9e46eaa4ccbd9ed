#!/usr/bin/env python3
"""Compares what `plcsafe-bench watch` writes of a run, read by readers of its own, with what `plcsafe` writes of it.

waves.py PLCSAFE plcsafe-bench=FILE    both are programs

For each run below: the rows of CSV by the reader of Python, the objects of JSON by that of Python, and the value changes by a reader
of this script, of which each scan has the values that were last given. All three have the same values of the same names in the same
scans; the outputs, and Ready, Error and code of each instance, are those of the lines of `run` or `fault`. What dist/vcd-bits makes of
the value changes has the same values in wires of one bit, and where sigrok-cli is there it reads those of a press as they are. Then,
where valgrind is there, it counts the instructions that a scan takes in `run` and in each layout of `watch`, by the difference of two
long traces of a motor, and of two of a press whose inputs change from scan to scan: a layout takes at most three times what `run` does.
The status is 0 where nothing differs and none takes more.
"""
import csv
import io
import json
import pathlib
import re
import shutil
import subprocess
import sys
import tempfile

from plainly import Stop, plainly

ROOT = pathlib.Path(__file__).resolve().parent.parent
# Runs: an application, a trace, and a fault file, if there is one.
RUNS = [
    ("press/press.st", "press/strokes.trace", None), ("press/press.st", "press/guard.trace", None), ("press/press.st", "press/closing.trace", None),
    ("press/automatic.st", "press/contactor.trace", None), ("press/press.st", "press/strokes.trace", "press/and-is-or.faults"),
    ("press/press.st", "press/strokes.trace", "press/longer-time.faults"),
    ("stop/motor.st", "stop/restart.trace", None), ("stop/motor.st", "stop/restart.trace", "stop/differ.faults"),
    ("stop/lamp.st", "stop/lamp.trace", None), ("hood/wrapped.st", "hood/hood.trace", None), ("hood/flat.st", "hood/hood.trace", None),
    ("robot/robot.st", "robot/robot.trace", None), ("line/line.st", "line/line.trace", None), ("pack/pack.st", "pack/pack.trace", None),
    ("saw/saw.st", "saw/saw.trace", None), ("mode/modes.st", "mode/changes.trace", None), ("two-hand/station.st", "two-hand/hands.trace", None),
    ("guard/cell.st", "guard/visit.trace", None), ("curtain/curtain.st", "curtain/setup.trace", None), ("tutorial/door.st", "tutorial/door.trace", None),
    ("tutorial/door.st", "tutorial/door.trace", "tutorial/blind.faults"),
]
# The layouts of `watch`, and how many times what `run` takes each may take.
LAYOUTS, MOST = ("text", "csv", "json", "vcd"), 3
# The run that sigrok-cli reads.
SAMPLED = "press/press.st", "press/strokes.trace"
# The applications of whose scans the instructions are counted.
COUNTED = ("stop/motor.st", "press/press.st")


def said(words, text=""):
    """What a call writes that is given a text; a trip ends it with 4."""
    run = subprocess.run(words, cwd=ROOT / "examples", input=text.encode(), stdout=subprocess.PIPE, stderr=subprocess.DEVNULL)
    if run.returncode not in (0, 4):
        raise Stop(f"{' '.join(words[1:])} ends with {run.returncode}")
    return run.stdout.decode()


def changes(text):
    """The scans of a value change dump: of each its time, and the value of each wire by its name."""
    wires, scopes, scans, now = {}, [], [], {}
    head, _, body = text.partition("$enddefinitions $end\n")
    for kind, rest in re.findall(r"(?m)^\$(scope|upscope|var)\b(.*)\$end$", head):
        words = rest.split()
        if kind == "scope":
            scopes.append(words[1])
        elif kind == "upscope":
            scopes.pop()
        else:
            wires[words[2]] = ".".join([*scopes, words[3]])
    for line in body.splitlines():
        if line.startswith("#"):
            now = dict(now, **{"@time": int(line[1:])})
            scans.append(now)
        elif line[0] in "bs":
            value, wire = line[1:].rsplit(" ", 1)
            now[wires[wire]] = int(value, 2) if line[0] == "b" else value
        elif line[0] in "01":
            now[wires[line[1:]]] = int(line[0])
        elif not line.startswith("$"):
            raise Stop(f"a line of value changes that is none: {line}")
    return scans


def of_wire(name, scan):
    """The value of a column of CSV in a scan of the value changes."""
    if name == "@time":
        return str(scan["@time"])
    if name in ("@restart", "@trip"):
        return str(scan["@run." + name[1:].capitalize()])
    if "Program." + name in scan:
        return str(scan["Program." + name])
    return f"{scan[name + '.DiagCode']:04X}" if name + ".DiagCode" in scan else str(scan[name])


def in_bits(scan):
    """The values of a scan as dist/vcd-bits has them: without the words of states, each wire of more than one bit by its bits."""
    bits = {}
    for name, value in scan.items():
        width = 64 if name == "@run.Scan" else 16 if name.endswith(".DiagCode") and not name.startswith("Program.") else 1
        if width > 1:
            bits |= {f"{name}[{bit}]": value >> bit & 1 for bit in range(width)}
        elif name == "@time" or isinstance(value, int):
            bits[name.removeprefix("Program.")] = value
    return bits


def sampled(text):
    """The values that sigrok-cli takes from value changes in wires of one bit: of each ms those of each wire, but for the last time's."""
    with tempfile.NamedTemporaryFile("w", suffix=".vcd") as file:
        file.write(text)
        file.flush()
        lines = said(["sigrok-cli", "-I", "vcd", "-i", file.name, "-O", "csv"]).splitlines()
    names = next(line for line in lines if line.startswith("; Channels")).partition("): ")[2].split(", ")
    return [dict(zip(names, map(int, line.split(",")))) for line in lines if line[:1] in "01"]


def unlike_bits(run, bits, waves):
    """What differs between value changes in wires of one bit and the scans of a run, by the reader of this script and by sigrok-cli."""
    scans = [in_bits(scan) for scan in waves]
    wrong = [] if changes(bits) == scans else [f"{run}: other values in wires of one bit"]
    if run == SAMPLED and shutil.which("sigrok-cli"):
        held = {scan.pop("@time"): scan for scan in scans}
        every = [held[max(at for at in held if at <= time)] for time in range(min(held), max(held))]
        wrong += [] if sampled(bits) == every else [f"{run}: sigrok-cli takes other values"]
    return wrong


def of_json(value):
    return str(int(value)) if isinstance(value, (bool, int)) else value


def lines_of(text):
    """Of each scan that `run` or `fault` tells: its time, and the values of outputs and instances, or nothing where it tripped."""
    scans = []
    for line in text.splitlines():
        words = line.split()
        if words[0].isdigit():
            scans.append((words[0], dict(word.split("=") for word in words[1:] if "=" in word) if "TRIP" not in line else {}))
    return scans


def told(row, name, value):
    """Whether a row has what a line says of an output, or of an instance: Ready, Error and its code."""
    if "," not in value:
        return row[name] == value
    return [row[name + ".Ready"], row[name + ".Error"], row[name]] == value.split(",")


def differences(plcsafe, bench, app, trace, faults):
    """What differs in a run, a line each, and how many values were compared."""
    more = ["--faults", faults] if faults else []
    written = {layout: said([bench, "watch", app, trace, *more, "--format", layout]) for layout in ("csv", "json", "vcd")}
    rows = list(csv.DictReader(io.StringIO(written["csv"])))
    objects, waves = [json.loads(line) for line in written["json"].splitlines()], changes(written["vcd"])
    lines = lines_of(said([plcsafe, "fault" if faults else "run", app, trace, *([faults] if faults else [])]))
    if not len(rows) == len(objects) == len(waves) or not rows or len(lines) > len(rows):
        return [f"{app} {trace}: {len(rows)} rows, {len(objects)} objects, {len(waves)} scans of value changes, {len(lines)} lines"], 0
    wrong = unlike_bits((app, trace), said([ROOT / "dist/vcd-bits"], written["vcd"]), waves)
    for number, (row, found, scan) in enumerate(zip(rows, objects, waves), 1):
        wrong += [f"{app} {trace}: scan {number}, {name}: {value} in CSV, {of_json(found[name])} in JSON, {of_wire(name, scan)} in VCD"
                  for name, value in row.items() if not value == of_json(found[name]) == of_wire(name, scan)]
        if list(row) != list(found) or scan["@run.Scan"] != number:
            wrong.append(f"{app} {trace}: scan {number} has other names, or another number")
    for row, (time, values) in zip(rows, lines):
        if row["@time"] != time or not all(told(row, name, value) for name, value in values.items()):
            wrong.append(f"{app} {trace}: at {time} the line is {values}")
    return wrong, len(rows) * len(rows[0])


def strokes():
    """The rows of a trace of the press without their times, and what stands above them."""
    head, *rows = [line.split() for line in (ROOT / "examples/press/strokes.trace").read_text().splitlines() if line and line[0] != "#"]
    return " ".join(head), [" ".join(row[1:]) for row in rows if len(row) == len(head)]


def long_trace(folder, app, scans):
    """A trace of so many scans, 10 ms apart: of the motor one in which a button changes each third scan and the request each seventh, and
    of the press its strokes again and again."""
    head, rows = ("time S_Stop Ack Run", [f"1 {i // 3 % 2} {i // 7 % 2}" for i in range(42)]) if app == "stop/motor.st" else strokes()
    file = pathlib.Path(folder) / f"{scans}.trace"
    file.write_text(head + "\n" + "".join(f"{10 * i} {rows[i % len(rows)]}\n" for i in range(scans)))
    return str(file)


def instructions(folder, words):
    """How many instructions of the processor a call takes, by callgrind."""
    told = f"{folder}/counts"
    said(["valgrind", "--tool=callgrind", f"--callgrind-out-file={told}", *words])
    return int(re.search(r"(?m)^(?:summary|totals): (\d+)", pathlib.Path(told).read_text())[1])


def of_a_scan(folder, words):
    """How many instructions a scan takes in a call over a trace: the difference of two lengths, so that its begin and end do not count."""
    short, long = (instructions(folder, [*words[:3], long_trace(folder, words[2], scans), *words[3:]]) for scans in (1000, 3000))
    return (long - short) / 2000


def times_of_run(plcsafe, bench, app):
    """Of each layout of `watch` the instructions of a scan of an application, as a multiple of those of `run`."""
    with tempfile.TemporaryDirectory() as folder:
        of_run = of_a_scan(folder, [plcsafe, "run", app])
        return {layout: of_a_scan(folder, [bench, "watch", app, "--format", layout]) / of_run for layout in LAYOUTS}


def main(words):
    if len(words) != 2 or not words[1].startswith("plcsafe-bench="):
        return None
    plcsafe, bench = (str(pathlib.Path(word.rpartition("=")[2]).resolve()) for word in words)
    wrong, count = [], 0
    for app, trace, faults in RUNS:
        found, compared = differences(plcsafe, bench, app, trace, faults)
        wrong, count = wrong + found, count + compared
    for line in wrong[:20]:
        print("differs:", line)
    print(f"{len(RUNS)} runs, {count} values in each layout, {len(wrong)} differences")
    times = {app: times_of_run(plcsafe, bench, app) for app in COUNTED} if shutil.which("valgrind") else {}
    for app, found in times.items():
        print(f"instructions of a scan of {app}, as a multiple of those of run:", ", ".join(f"{layout} {found[layout]:.2f}" for layout in found))
    return 1 if wrong or any(found[layout] > MOST for found in times.values() for layout in found) else 0


if __name__ == "__main__":
    plainly(main, "tools/waves.py PLCSAFE plcsafe-bench=FILE")
