#!/usr/bin/env python3
"""Timing pictures of the examples, made from what the program writes.

timing.py --write    draws each run of the files `*.expected` below examples/, as an SVG beside its trace, and each run with a fault
                     that trips and is followed by a restart
timing.py --check    asks whether the pictures are those of the files; by its status

A picture has a column for each scan, with its time, and a row for each input of the trace, each output, and each instance with
its DiagCode. Errors are red, the enabled state 8000 green, scans of a TRIP line grey; a restart is a dashed line.
"""
import pathlib
import re
import sys

from plainly import plainly

ROOT = pathlib.Path(__file__).resolve().parent.parent
LEFT, WIDE, HIGH, TOP = 90, 44, 24, 26
STYLE = (
    "text{font:11px sans-serif}.time{font-size:9px}.code{font:10px monospace;text-anchor:middle}"
    ".wave{fill:none;stroke:#333;stroke-width:1.5}.on{fill:#dff0d8}.error{fill:#f2dede}.other{fill:#f5f5f5}.trip{fill:#ddd}"
    ".restart{stroke:#888;stroke-dasharray:4 3}"
)


class Column:
    """A scan: its time, the values of inputs and outputs, the codes of instances, and whether it tripped."""

    def __init__(self, time, values, line):
        self.time, self.values = time, values
        self.has_tripped = " TRIP" in line
        self.codes = dict(re.findall(r" (\S+)=[01],[01],([0-9A-F]{4})", line))
        self.outputs = {name: value == "1" for name, value in re.findall(r" (\S+)=([01])(?=\s|$)", line)}


def trace_scans(path):
    """The names of the inputs of a trace, and its scans, each with its time and values."""
    lines = [line.split() for line in path.read_text().splitlines() if line.split() and not line.startswith("#")]
    return lines[0][1:], [(line[0], [value == "1" for value in line[1:]]) for line in lines[1:] if line != ["restart"]]


def picture(trace, written):
    """The picture of a run: of its trace and the lines that were written."""
    names, scans = trace_scans(trace)
    columns, restarts = [], []
    for line in written:
        if line == "restart":
            restarts.append(len(columns))
        elif re.match(r"\d", line):
            time, values = scans[len(columns)]
            columns.append(Column(time, dict(zip(names, values)), line))
    outputs = list(columns[0].outputs)
    instances = list(next((column.codes for column in columns if column.codes), {}))
    rows = names + outputs + instances
    wide, high = LEFT + WIDE * len(columns) + 10, TOP + HIGH * len(rows) + 10
    parts = [f'<svg xmlns="http://www.w3.org/2000/svg" width="{wide}" height="{high}" viewBox="0 0 {wide} {high}">', f"<style>{STYLE}</style>"]
    parts.append('<rect width="100%" height="100%" fill="#fff"/>')
    for i, column in enumerate(columns):
        x = LEFT + WIDE * i
        if column.has_tripped:
            parts.append(f'<rect class="trip" x="{x}" y="{TOP - 4}" width="{WIDE}" height="{high - TOP}"/>')
        parts.append(f'<text class="time" x="{x + 2}" y="14">{column.time}</text>')
    for row, name in enumerate(rows):
        y = TOP + HIGH * row
        parts.append(f'<text x="4" y="{y + 14}">{name}</text>')
        if name in instances:
            parts += codes(columns, name, y)
        else:
            parts.append(wave([(column.values | column.outputs)[name] for column in columns], y))
    for i in restarts:
        x = LEFT + WIDE * i
        parts.append(f'<line class="restart" x1="{x}" y1="{TOP - 8}" x2="{x}" y2="{high}"/>')
    return "\n".join([*parts, "</svg>", ""])


def wave(values, y):
    """A line that is up where a value is TRUE."""
    points = []
    for i, value in enumerate(values):
        level = y + (3 if value else 17)
        points += [f"{LEFT + WIDE * i},{level}", f"{LEFT + WIDE * (i + 1)},{level}"]
    return f'<polyline class="wave" points="{" ".join(points)}"/>'


def codes(columns, name, y):
    """The codes of an instance, a box for each scan."""
    parts = []
    for i, column in enumerate(columns):
        code = column.codes.get(name)
        if code:
            style = "error" if code[0] == "C" else "on" if code == "8000" else "other"
            x = LEFT + WIDE * i
            parts.append(f'<rect class="{style}" x="{x + 1}" y="{y + 1}" width="{WIDE - 2}" height="{HIGH - 5}"/>')
            parts.append(f'<text class="code" x="{x + WIDE // 2}" y="{y + 14}">{code}</text>')
    return parts


def pictures():
    """Each picture, with the file that it belongs in."""
    for path in sorted((ROOT / "examples").glob("**/*.expected")):
        for call in re.findall(r"(?ms)^\$ \./plcsafe (.*?)(?=^\$ |\Z)", path.read_text()):
            first, *written = call.splitlines()
            words = first.split()
            is_drawn = words[0] == "run" or words[0] == "fault" and "restart" in written and " TRIP" in call
            if is_drawn and len(written) > 2 and "refused" not in call:
                app, last = pathlib.Path(words[1]).stem, pathlib.Path(words[-1])
                yield ROOT / last.parent / f"{app}-{last.stem}.svg", picture(ROOT / words[2], written[:-1])


def main(words):
    if words == ["--write"]:
        for path, text in pictures():
            path.write_text(text)
        return 0
    if words == ["--check"]:
        wrong = [str(path.relative_to(ROOT)) for path, text in pictures() if not path.exists() or path.read_text() != text]
        print("another picture: " + " ".join(wrong) if wrong else "the pictures are those of the examples")
        return 1 if wrong else 0
    return None


if __name__ == "__main__":
    plainly(main, "tools/timing.py --write | --check")
