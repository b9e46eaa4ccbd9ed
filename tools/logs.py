#!/usr/bin/env python3
"""Compares what plcsafe-bench makes of recorded logs with a reading of its own, by Python's reader of CSV.

logs.py [--count N] [--seed N] plcsafe-bench=FILE, or logs.py [..] PLCSAFE plcsafe-bench=FILE    the programs; the first is not called;
                                                                                                N drawn logs, 40 where it is left out

Rows: logs of the motor, and of one with an input `Time`, each with the trace that it has to get, or the lines before its refusal, the
refusal, and what standard error names. Sizes: a line that just is as long as a line may be, and one that is longer by a byte. Drawn: logs of some applications of
examples/ with columns in any order, quotation marks, empty lines, restarts and columns that are no inputs, of which some are spoiled at
a place; the trace, or what stands before the refusal, is compared with what this script makes of it. Round: what `watch --format csv`
writes of the traces of examples/ is a log, whose trace is the one that was watched. The status is 0 where nothing differs.
"""
import csv
import pathlib
import random
import re
import subprocess
import sys
import tempfile

from plainly import Stop, plainly

ROOT = pathlib.Path(__file__).resolve().parent.parent
EXAMPLES = ROOT / "examples"
MOTOR = EXAMPLES / "stop" / "motor.st"
HEAD, LARGEST_TIME, LONGEST = "time,S_Stop,Ack,Run\n", 4_294_967_295, 1_048_576
TRUTHS = {"0": 0, "1": 1, "false": 0, "true": 1}

# Logs of the motor, each with the lines of the trace behind its header, and the refusal behind them, if there is one; without lines
# where the header is refused.
ROWS = [
    ("", None, "V1 1"), ("\n", None, "V2 1"), ("\ufeff", None, "V2 1"), (HEAD, "", None), (HEAD.strip(), "", None), (HEAD + "\n\n", "", None),
    (HEAD + "0,1,0,0\n", "0 1 0 0", None), (HEAD + "0,1,0,0", "0 1 0 0", None), (HEAD.replace("\n", "\r\n") + "\r\n0,1,0,0\r\n", "0 1 0 0", None),
    ("\ufeff" + HEAD + "0,1,0,0\n", "0 1 0 0", None), ("Run,@TIME,ack,S_STOP\n0,5,1,true\n", "5 1 1 0", None),
    ("time,S_Stop,Ack,Run,,,x\n0,TRUE,False,1,,,\n", "0 1 0 1", None), ('"time","S_Stop","Ack","Run"\n"0","1","tRUE","0"\n', "0 1 1 0", None),
    ('time,Note,S_Stop,Ack,Run\n0,"a, ""b""",1,0,0\n', "0 1 0 0", None), ('time,"No,""te",S_Stop,Ack,Run\n0,,1,0,0\n', "0 1 0 0", None),
    ("time,@restart,S_Stop,Ack,Run\n0,1,1,0,0\n0,TRUE,1,0,1\n1,0,0,0,0\n", "restart|0 1 0 0|restart|0 1 0 1|1 0 0 0", None),
    ("@time,@restart,@trip,S_Stop,Ack,Run\n0,0,7,1,0,0\n", "0 1 0 0", None), (HEAD + "007,1,0,0\n", "7 1 0 0", None),
    ("time,@time,S_Stop,Ack,Run\n7,5,1,0,0\n", "5 1 0 0", None), ("time,@Time,TIME,S_Stop,Ack,Run\nx,5,,1,0,0\n", "5 1 0 0", None),
    (HEAD + "5,1,0,0\n5,1,0,0\n", "5 1 0 0|5 1 0 0", None), (HEAD + f"{LARGEST_TIME},1,0,0\n", f"{LARGEST_TIME} 1 0 0", None),
    # V1
    ('time,S_Stop,Ack,"Run\n', None, "V1 1"), ('time,S_Stop,Ack,Run"\n', None, "V1 1"), ('time,S_Stop,Ack,"Run" \n', None, "V1 1"),
    ("@time,@TIME,S_Stop,Ack,Run\n", None, "V1 1"), ("time,Time,S_Stop,Ack,Run\n", None, "V1 1"), ("time,S_Stop,Ack,Run,run\n", None, "V1 1"),
    ("time,@restart,@RESTART,S_Stop,Ack,Run\n", None, "V1 1"), ("time,Ack,Ack,Run,Run,S_Stop\n", None, "V1 1"),
    (HEAD + "0,1,0\n", "", "V1 2"), (HEAD + "0,1,0,0,\n", "", "V1 2"), (HEAD + "0,1,0,0\n1\n", "0 1 0 0", "V1 3"), (HEAD + " \n", "", "V1 2"),
    (HEAD + '0,1,0,"0\n', "", "V1 2"), (HEAD + '0,1,0,0"\n', "", "V1 2"), (HEAD + '0,1,0,"0"1\n', "", "V1 2"), (HEAD + '0,"1\n1",0,0\n', "", "V1 2"),
    (HEAD + "0,1,x\n", "", "V1 2"), (HEAD + "\n\n5,1,0,0\n\n4,1\n", "5 1 0 0", "V1 6"),
    # V2, with the column that is missing
    ("S_Stop,Ack,Run\n", None, "V2 1 time"), ("time,Ack,Run\n", None, "V2 1 S_Stop"), ("time,S_Stop,Run\n", None, "V2 1 Ack"), ("time,Run\n", None, "V2 1 S_Stop"),
    ("time;S_Stop;Ack;Run\n", None, "V2 1 time"), ("time,S_Stop,Ack, Run\n", None, "V2 1 Run"), ("Time,S_Stop,Ack,Motor.Run\n", None, "V2 1 Run"),
    ('time,S_Stop,Ack,"R""un"\n', None, "V2 1 Run"), ("0,1,0,0\n", None, "V2 1 time"), ("Ack,Ack\n", None, "V2 1 time"), ("time,Run,Run\n", None, "V2 1 S_Stop"),
    ("\n" + HEAD, None, "V2 1 time"), ("@restart,@restart,S_Stop\n", None, "V2 1 time"), ("\ufeff\ufeff" + HEAD, None, "V2 1 time"),
    # V3
    (HEAD + "0,1,0,\n", "", "V3 2"), (HEAD + "0,1,0, 0\n", "", "V3 2"), (HEAD + "0,on,0,0\n", "", "V3 2"), (HEAD + "0,1,00,0\n", "", "V3 2"),
    (HEAD + "0,1,0,2\n", "", "V3 2"), (HEAD + ",1,0,0\n", "", "V3 2"), (HEAD + "-1,1,0,0\n", "", "V3 2"), (HEAD + "+1,1,0,0\n", "", "V3 2"),
    (HEAD + "1.0,1,0,0\n", "", "V3 2"), (HEAD + f"{LARGEST_TIME + 1},1,0,0\n", "", "V3 2"), (HEAD + "5,1,0,0\n4,1,0,x\n", "5 1 0 0", "V3 3"),
    ("time,S_Stop,Ack,Run,@restart\n0,1,0,0,\n", "", "V3 2"), ("time,S_Stop,Ack,Run,@restart\n5,1,0,0,0\n4,1,0,0,2\n", "5 1 0 0", "V3 3"),
    # V4
    (HEAD + "5,1,0,0\n4,1,0,0\n", "5 1 0 0", "V4 3"), (HEAD + "5,1,0,0\n\n0,1,0,0\n9,1,0,0\n", "5 1 0 0", "V4 4"),
    ("time,S_Stop,Ack,Run,@restart\n5,1,0,0,0\n0,1,0,0,1\n", "5 1 0 0", "V4 3"),
    # sizes
    ("time,S_Stop,Ack,Run,Note\n0,1,0,0," + "x" * (LONGEST - 8) + "\n", "0 1 0 0", None),
    ("time,S_Stop,Ack,Run,Note\n0,1,0,0," + "x" * (LONGEST - 7) + "\n", "", "V1 2"),
]

# The motor with an input `Time` in the place of Ack, and logs of it.
TIMED = ["S_Stop", "Time", "Run"]
TIMED_ROWS = [
    ("@time,S_Stop,Time,Run\n5,1,1,0\n", "5 1 1 0", None), ("TIME,Run,@TIME,S_Stop\n1,0,5,1\n", "5 1 1 0", None),
    ("@time,S_Stop,time,Run\n5,1,7,0\n", "", "V3 2"), ("time,S_Stop,Run\n", None, "V2 1 Time"), ("@time,S_Stop,Run\n", None, "V2 1 Time"),
    ("S_Stop,Run\n", None, "V2 1 time"), ("time,Time,S_Stop,Run\n", None, "V1 1"), ("@time,time,Time,S_Stop,Run\n", None, "V1 1"),
    ("@time,@time,Time,S_Stop,Run\n", None, "V1 1"),
]

# Applications that logs are drawn of, with their inputs in order of declaration.
APPS = {
    "stop/motor": ["S_Stop", "Ack", "Run"], "two-hand/station": ["S_Stop", "S_Left", "S_Right", "Ack"],
    "press/press": ["S_EStop", "S_G1", "S_G2", "S_L", "S_R", "S_K1", "S_K2", "Ack", "Auto"],
}
# How a drawn row is spoiled: by the field of the time or of an input.
SPOILED = {"V1": ['"0', '0"', '"0"0', "0,0"], "V3": ["", "2", " 1", "1.5", "x", "-1"]}

# What is watched and comes back: an application, and its trace.
ROUND = [("stop/motor", "stop/restart"), ("press/press", "press/guard"), ("press/press", "press/strokes"), ("robot/robot", "robot/robot"), ("pack/pack", "pack/pack"),
         ("sides/machine", "sides/shift"), ("hood/wrapped", "hood/hood")]


class Program:
    """plcsafe-bench, with a folder for the texts that it reads."""

    def __init__(self, file, folder):
        self.file, self.folder = file, pathlib.Path(folder)

    def call(self, *words):
        run = subprocess.run([self.file, *map(str, words)], capture_output=True, stdin=subprocess.DEVNULL, timeout=600)
        return run.returncode, run.stdout.decode("utf-8", "replace"), run.stderr.decode("utf-8", "replace")

    def timed(self):
        path = self.folder / "timed.st"
        path.write_text(re.sub(r"\bAck\b", "Time", MOTOR.read_text()))
        return path

    def trace(self, app, text):
        path = self.folder / "a.csv"
        path.write_bytes(text.encode())
        return self.call("trace", app, path)


def expected(inputs, lines, refusal):
    """What is to be written, and the status."""
    trace = "" if lines is None else "".join(line + "\n" for line in [" ".join(["time", *inputs]), *filter(None, lines)])
    return (trace, 0) if refusal is None else (trace + "refused {} line {}\n".format(*refusal.split()[:2]), 3)


def wrong_rows(program, app, inputs, rows):
    """The rows of an application that are told otherwise."""
    wrong = []
    for text, lines, refusal in rows:
        status, said, told = program.trace(app, text)
        wants, ends = expected(inputs, None if lines is None else lines.split("|"), refusal)
        missing = (refusal or "").split()[2:]
        if (said, status) != (wants, ends) or missing and f"no column is called {missing[0]}\n" not in told:
            wrong.append(f"{text[:60]!r}: status {status}, {said[-80:]!r}, {told[:80]!r}")
    return wrong


def quoted(chance, field):
    """A field, with quotation marks where it needs them, or by chance."""
    needs = re.search(r'[",]', field) or chance.random() < 0.2
    return '"' + field.replace('"', '""') + '"' if needs else field


def any_case(chance, word):
    return "".join(chance.choice([letter.lower(), letter.upper()]) for letter in word)


def drawn_log(chance, inputs):
    """A log, of which a row may be spoiled: its header, and its rows with empty lines between them."""
    others = chance.sample(["", "Note", "a,b", '"', "S_None", "@trip", "Note"], chance.randint(0, 4))
    time = chance.choice(["time", "@time"])
    others += [any_case(chance, "time")] * (chance.randint(0, 2) if time == "@time" else 0)
    columns = [any_case(chance, name) for name in [time, *inputs, *["@restart"] * chance.randint(0, 1)]] + others
    chance.shuffle(columns)
    lines, now = [",".join(quoted(chance, name) for name in columns)], chance.choice([0, 0, 4_294_960_000])
    spoiled, how = chance.choice([0, chance.randint(1, 30)]), chance.choice(["V1", "V3", "V4"])
    for number in range(1, chance.randint(1, 40)):
        now += chance.randint(0, 20)
        fields = []
        for name in map(str.lower, columns):
            if name == time:
                field = str(max(0, now - chance.randint(21, 99))) if number == spoiled and how == "V4" else chance.choice(["", "", "0"]) + str(now)
            elif name == "@restart":
                field = chance.choice(["0", "0", "FALSE", "1", "true"])
            elif name in map(str.lower, inputs):
                field = chance.choice(["0", "1", "true", "FALSE"])
            else:
                field = chance.choice(["", "x", 'a "b", c', "\u00e4", "-1,5"])
            fields.append(quoted(chance, field))
        if number == spoiled and how in SPOILED:
            fields[chance.choice([at for at, name in enumerate(columns) if name.lower() not in map(str.lower, others)])] = chance.choice(SPOILED[how])
        lines += [",".join(fields)] + [""] * (chance.random() < 0.1)
    return chance.choice(["", "\ufeff"]) + "".join(line + chance.choice(["\n", "\r\n"]) for line in lines)


def fields_of(line):
    """The fields of a line by Python's reader, or None where it has not the form."""
    try:
        rows = list(csv.reader([line], strict=True))
    except csv.Error:
        return None
    marks = re.sub(r'(^|,)"(?:[^"]|"")*"(?=,|$)', r"\1", line)
    return None if '"' in marks else rows[0] if rows else [""]


def read(text, inputs):
    """What a log with a header that is right means: the lines of its trace, and its refusal or None."""
    header, *rows = text.removeprefix("\ufeff").replace("\r\n", "\n").split("\n")
    names = [name.lower() for name in fields_of(header)]
    time = names.index("@time" if "@time" in names else "time")
    lines, last = [], 0
    for number, row in enumerate(rows, 2):
        if not row:
            continue
        fields = fields_of(row)
        if fields is None or len(fields) != len(names):
            return lines, f"V1 {number}"
        values = [TRUTHS.get(fields[names.index(name.lower())].lower()) for name in inputs]
        restarts = TRUTHS.get(fields[names.index("@restart")].lower()) if "@restart" in names else 0
        if None in (*values, restarts) or not re.fullmatch(r"[0-9]+", fields[time]) or int(fields[time]) > LARGEST_TIME:
            return lines, f"V3 {number}"
        if int(fields[time]) < last:
            return lines, f"V4 {number}"
        last = int(fields[time])
        lines += ["restart"] * restarts + [" ".join(map(str, [last, *values]))]
    return lines, None


def wrong_drawn(program, count, seed):
    """The drawn logs that are told otherwise, and how many were refused."""
    chance, wrong, refused = random.Random(seed), [], 0
    for number in range(count):
        app, inputs = chance.choice(list(APPS.items()))
        text = drawn_log(chance, inputs)
        lines, refusal = read(text, inputs)
        refused += refusal is not None
        status, said, _ = program.trace(EXAMPLES / f"{app}.st", text)
        if (said, status) != expected(inputs, lines, refusal):
            wrong.append(f"drawn log {number} of {app}, seed {seed}: status {status}, {said[-60:]!r}, and not {refusal}, {lines[-1:]}")
    return wrong, refused


def wrong_round(program):
    """The traces that do not come back."""
    wrong = []
    timed = program.folder / "timed.trace"
    timed.write_text((EXAMPLES / "stop" / "restart.trace").read_text().replace("Ack", "Time"))
    for source, path in [(program.timed(), timed), *((EXAMPLES / f"{app}.st", EXAMPLES / f"{trace}.trace") for app, trace in ROUND)]:
        log = program.call("watch", source, path, "--format", "csv")[1]
        status, said, _ = program.trace(source, log)
        if status or [line.split() for line in said.splitlines()] != [line.split() for line in path.read_text().splitlines() if line.strip() and line[0] != "#"]:
            wrong.append(f"{path.name}: status {status}, and another trace comes back")
    return wrong


def main(words):
    given = {"--count": "40", "--seed": "1"}
    while words and words[0] in given:
        if len(words) < 2 or not re.fullmatch(r"[0-9]{1,9}", words[1]):
            return None
        given[words[0]], words = words[1], words[2:]
    files = [word.partition("=")[2] for word in words if word.startswith("plcsafe-bench=")]
    if len(files) != 1 or len(words) > 2 or any(word.startswith("-") for word in words):
        return None
    if not pathlib.Path(files[0]).is_file():
        raise Stop(f"{files[0]} is no program")
    count = int(given["--count"])
    with tempfile.TemporaryDirectory() as folder:
        program = Program(str(pathlib.Path(files[0]).resolve()), folder)
        drawn, refused = wrong_drawn(program, count, int(given["--seed"]))
        rows = wrong_rows(program, MOTOR, APPS["stop/motor"], ROWS) + wrong_rows(program, program.timed(), TIMED, TIMED_ROWS)
        wrong = rows + drawn + wrong_round(program)
    for line in wrong[:20]:
        print(line)
    print(f"{len(ROWS) + len(TIMED_ROWS)} rows, {count} drawn logs, {refused} of them refused, and {len(ROUND) + 1} traces round: {len(wrong)} told otherwise")
    return 1 if wrong else 0


if __name__ == "__main__":
    plainly(main, "tools/logs.py [--count N] [--seed N] [PLCSAFE] plcsafe-bench=FILE")
