#!/usr/bin/env python3
"""Compares what plcsafe-bench makes of case files with a reading of its own.

cases.py [--count N] [--seed N] PLCSAFE plcsafe-bench=FILE    both are programs; N drawn case files, 40 where it is left out

Rows: case files that break a rule K, each with its refusal line, and some that break none. Sizes: files whose expanded trace just is as
large as a trace may be, or larger by a scan or a letter, of an application with many inputs. Drawn: cases of the applications of
examples/, with expectations that hold and others that do not. This script lays a case out as a trace and a fault file of its own, has
`plcsafe fault` run them, reads the expectations against the lines that it writes, and compares what passes and which lines fail with
what `plcsafe-bench test` tells. It shares nothing with the program that is tried but the two channels. Names: files with drawn names of
characters that break lines, TAP or XML, which readers of these find again in what `test`, `never` and `same` write. The status is 0
where nothing differs.
"""
import pathlib
import random
import re
import subprocess
import sys
import tempfile
import xml.etree.ElementTree

from plainly import Stop, plainly

ROOT = pathlib.Path(__file__).resolve().parent.parent
STOP = ["0000", "8000", "8001", "8002", "8003", "8004", "8005"]
APPS = {  # inputs, outputs, and of each instance some codes of its kind
    "stop/motor": (["S_Stop", "Ack", "Run"], ["S_Motor", "Lamp"], {"Stop": STOP, "Out": ["0000", "8000", "8001", "8002", "8010"]}),
    "two-hand/station": (["S_Stop", "S_Left", "S_Right", "Ack"], ["S_Clamp", "Lamp"],
                         {"Stop": STOP, "Hands": ["0000", "8000", "8001", "8004", "8005", "C003"]}),
}

# Case files of the motor, each with the refusal that it has to get; None where it is taken.
ROWS = [
    ("", "K1 1"), ("\n\n", "K1 3"), ("# nothing\n", "K1 2"), ("set S_Stop=1\n", "K1 2"), ("case\n", "K1 1"), ("case  \n", "K1 1"),
    ("case a\n", None), ("case a", None), ("\r\ncase a\r\n", None), ("case a # b\n", None), ("case a\n case b\n", None), ("cases a\n", "K1 1"),
    ("CASE a\n", "K1 1"), ("case a\nset\n", "K1 2"), ("case a\nset S_Stop\n", "K1 2"), ("case a\nset S_Stop=1 # Ack\n", None),
    ("case a\nset S_Stop=2\n", "K3 2"), ("case a\nset s_stop=tRUE ACK=false\n", None), ("case a\nset S_Motor=1\n", "K2 2"),
    ("case a\nset Stop=1\n", "K2 2"), ("case a\nset =1\n", "K2 2"), ("case a\nset S_Stop=\n", "K3 2"), ("case a\nat\n", "K1 2"),
    ("case a\nat x\n", "K1 2"), ("case a\nat 4294967295\n", None), ("case a\nat 4294967296\n", "K4 2"), ("case a\nat 10\nat 9\n", "K4 3"),
    ("case a\nat 10\nat 10\n", None), ("at 10\ncase a\nat 4294967285\n", None), ("at 10\ncase a\nat 4294967286\n", "K4 3"),
    ("case a\nat 4294967295\ncase b\nat 0\n", None), ("case a\nat 4294967295\ncase b\nat 1\n", "K4 4"), ("case a\n+\n", "K1 2"),
    ("case a\n+5 S_Stop=1\n", None), ("case a\n+ 5\n", "K1 2"), ("case a\n+4294967295\n+1\n", "K4 3"), ("case a\nevery 10\n", "K1 2"),
    ("case a\nevery 10 times 3\n", None), ("case a\nevery 0 times 3\n", None), ("case a\nevery 10 times\n", "K1 2"),
    ("case a\nevery 0 for 10\n", "K1 2"), ("case a\nevery 0 until 10\n", "K1 2"), ("case a\nevery 10 for 0\n", None),
    ("case a\nat 20\nevery 10 until 10\n", "K4 3"), ("case a\nevery 1 times 1000001\n", "K7 2"), ("case a\nevery 10 while 3\n", "K1 2"),
    ("case a\nrestart\n", None), ("case a\nrestart now\n", "K1 2"), ("case a\nexpect S_Motor=0\n", "K5 2"),
    ("expect S_Motor=0\ncase a\n", "K5 1"), ("+1\ncase a\nexpect S_Motor=0\n", None), ("case a\n+1\nexpect\n", "K1 3"),
    ("case a\n+1\nexpect S_Motor\n", "K1 3"), ("case a\n+1\nexpect S_Motor=0,1\n", None), ("case a\n+1\nexpect S_Motor=0,\n", "K3 3"),
    ("case a\n+1\nexpect S_Motor!=1\n", None), ("case a\n+1\nexpect Stop=8001\n", None), ("case a\n+1\nexpect Stop=8999\n", "K3 3"),
    ("case a\n+1\nexpect Stop=801\n", "K3 3"), ("case a\n+1\nexpect Stop.Ready=1 Out.Error=0 Stop.S_EStopOut=0 Stop.Reset=0\n", None),
    ("case a\n+1\nexpect Stop.DiagCode=8001\n", "K2 3"), ("case a\n+1\nexpect None=1\n", "K2 3"), ("case a\n+1\nexpect within 5 S_Motor=0\n", None),
    ("case a\n+1\nexpect within S_Motor=0\n", "K1 3"), ("case a\n+1\nexpect for x S_Motor=0\n", "K1 3"), ("case a\n+1\nexpect for 5\n", "K1 3"),
    ("case a\n+1\nexpect trip no-trip\n", None), ("case a\nfault A code 0 00\n", "K6 2"), ("case a\nfault A code 0 00\n+1\n", None),
    ("case a\nfault A code 99999 00\n+1\n", "K6 2"), ("case a\nfault A code 0 00\nfault B code 0 00\n+1\n", "K6 3"),
    ("case a\nfault turn 0 A code 0 00\n+1\n", "K1 2"), ("case a\nfault turn 3 A code 0 00\nfault turn 2 A code 0 00\n+1\n", "K6 3"),
    ("case a\nfault turn 3 A code 0 00\n+1\nfault turn 2 A code 0 00\n+1\n", None), ("case a\nfault C code 0 00\n+1\n", "K1 2"),
    ("fault A code 0 00\ncase a\n+1\n", None), ("fault A code 0 00\ncase a\n", "K6 2"), ("case a\nfault A code 0 00\nset None=1\n", "K2 3"),
    ("case a\nfault A code 0 00\ncase b\n+1\n", "K6 2"), ("case " + "x" * 200 + "\n", None), ("case " + "x" * 201 + "\n", "K7 1"),
    ("case a\ufffe\n", "K1 1"), ("case \u00e4\n", None), ("case a\x01\n", "K1 1"), ("\ufeffcase a\n", "K1 1"), ("case a\n" + "#" * 65537 + "\n", "K7 2"),
    ("case a\n" + "#" * 65536 + "\n", None), ("case a\n" * 1000, None), ("case a\n" * 1001, "K7 1001"), ("case a\n" + "\n" * 99999, None),
    ("case a\n" + "\n" * 99999 + "+1", "K7 100001"), ("time S_Stop Ack Run\n0 1 0 0\n", "K1 1"), ("PROGRAM Motor\n", "K1 1"),
]


# What drawn names are made of, and the application and the cases of the files that have them.
SIGNS = ["\n", "\r", "\t", "\x0b", "\x1b", "\x7f", "\x85", "\u2028", "\u2029", "\ufffe", "\uffff", "\\", "x0a", "#", " ", "'", '"', "<", "&", ">", "]]>",
         ":", "a", "ok 1 - ", "# SKIP", "\u00e9", "\u20ac", "\U0001f600"]
SOURCE_OF_NAMES = "PROGRAM P\nVAR_INPUT S_A : SAFEBOOL; END_VAR\nVAR_OUTPUT S_Run : SAFEBOOL; END_VAR\nS_Run := S_A;\nEND_PROGRAM\n"
CASES_OF_NAMES = "case it runs\n+10 S_A=1\nexpect S_Run=1\ncase # it \\ stops\n+10 S_A=1\nexpect S_Run=0\n"

MANY, LARGEST = 512, 67_108_864  # the inputs of the application of the sizes, and the bytes of the largest trace


class Programs:
    """The two programs."""

    def __init__(self, plcsafe, bench):
        self.plcsafe, self.bench = plcsafe, bench

    def call(self, program, *words):
        run = subprocess.run([program, *map(str, words)], stdin=subprocess.DEVNULL, stdout=subprocess.PIPE, stderr=subprocess.DEVNULL, text=True,
                             errors="replace")
        return run.stdout.splitlines(), run.returncode

    def run(self, app, trace, faults):
        return self.call(self.plcsafe, "fault", app, trace, faults)[0]

    def test(self, app, cases):
        return self.call(self.bench, "test", app, cases)

    def expand(self, app, cases, trace):
        """The status, with the trace in a file."""
        with open(trace, "wb") as out:
            return subprocess.run([self.bench, "expand", app, cases], stdin=subprocess.DEVNULL, stdout=out, stderr=subprocess.DEVNULL).returncode


class Laid:
    """A case laid out: its scans with their times, values and lines, its trace and faults, and its expectations."""

    def __init__(self, inputs):
        self.inputs = inputs
        self.now = self.origin = 0
        self.values = {name: "0" for name in inputs}
        self.scans, self.trace, self.faults, self.expected = [], ["time " + " ".join(inputs)], [], []

    def scan(self, time, line):
        self.now = time
        self.scans.append((time, dict(self.values), line))
        self.trace.append(" ".join([str(time), *(self.values[name] for name in self.inputs)]))

    def every(self, words, line):
        step, what, number = int(words[0]), words[1], int(words[2])
        if what == "times":
            for _ in range(number):
                self.scan(self.now + step, line)
            return
        end = self.now + number if what == "for" else self.origin + number
        if end == self.now:
            self.scan(end, line)
        while self.now < end:
            self.scan(min(self.now + step, end), line)

    def settings(self, words):
        self.values.update(word.split("=") for word in words)

    def put(self, line, words):
        head, *rest = words
        if head == "set":
            self.settings(rest)
        elif head == "at":
            self.settings(rest[1:])
            self.scan(self.origin + int(rest[0]), line)
        elif head.startswith("+"):
            self.settings(rest)
            self.scan(self.now + int(head[1:]), line)
        elif head == "every":
            self.every(rest, line)
        elif head == "restart":
            self.trace.append("restart")
        elif head == "fault":
            self.faults.append(" ".join(["before", str(len(self.scans) + 1), *rest]))
        elif head == "expect":
            kind, duration = (rest[0], int(rest[1])) if rest[0] in ("for", "within") else ("now", 0)
            self.expected.append((line, len(self.scans) - 1, kind, duration, rest if kind == "now" else rest[2:]))


def laid_out(inputs, before, own):
    """A case of these lines, behind those before the first case."""
    laid = Laid(inputs)
    for line, words in before:
        laid.put(line, words)
    laid.origin = laid.now if laid.scans else 0
    for line, words in own:
        laid.put(line, words)
    return laid


def seen_in(lines, laid):
    """What each scan shows: its time, whether it tripped or is down, whether it tripped, and its values by name."""
    found, was_stopped, scans = [], False, iter(laid.scans)
    for line in lines:
        if line == "restart":
            was_stopped = False
            continue
        time, *words = line.split()
        stopped = "TRIP" in words
        values = dict(next(scans)[1])
        for name, value in (word.split("=") for word in words if "=" in word):
            parts = value.split(",")
            values.update({name: value} if len(parts) == 1 else {name + ".Ready": parts[0], name + ".Error": parts[1], name: parts[2]})
        found.append((int(time), stopped, stopped and not was_stopped, values))
        was_stopped = stopped
    return found


def holds(check, scan):
    """Whether a check holds in a scan. Behind a trip every output is FALSE and every code 0000."""
    _, stopped, _, values = scan
    if check in ("trip", "no-trip"):
        return stopped == (check == "trip")
    name, wanted = re.fullmatch(r"([^=!]+)!?=(.*)", check).groups()
    blank = "0000" if len(wanted.split(",")[0]) == 4 else "0"
    return (values.get(name, blank) in wanted.split(",")) != ("!=" in check)


def fails(expected, scans):
    """Whether an expectation fails of these scans."""
    _, first, kind, duration, checks = expected
    end = scans[first][0] + duration
    window = [scan for scan in scans[first:] if scan[0] <= end]
    if kind == "now":
        return not all(holds(check, scans[first]) for check in checks)
    if kind == "within":
        return not any(all(holds(check, scan) for check in checks) for scan in window)
    return scans[-1][0] < end or not all(holds(check, scan) for check in checks for scan in window)


def failed_lines(laid, scans):
    """The lines of a case that fail: of expectations that do not hold, and of scans that trip where nothing expects it."""
    awaited = [(first, scans[first][0] + duration if kind != "now" else None) for _, first, kind, duration, checks in laid.expected if "trip" in checks]

    def is_awaited(number, time):
        return any(first == number if end is None else first <= number and time <= end for first, end in awaited)

    failed = [expected[0] for expected in laid.expected if fails(expected, scans)]
    return sorted({*failed, *(laid.scans[number][2] for number, scan in enumerate(scans) if scan[2] and not is_awaited(number, scan[0]))})


def numbered(text):
    """The lines before the first case, and each case with its line and its lines."""
    before, cases = [], []
    for line, words in enumerate((line.split() for line in text.splitlines()), 1):
        if words[:1] == ["case"]:
            cases.append((line, []))
        elif words:
            (cases[-1][1] if cases else before).append((line, words))
    return before, cases


def judged(programs, app, inputs, text, folder):
    """For each case its line, how many scans it has, and which of its lines fail."""
    before, cases = numbered(text)
    found = []
    for line, own in cases:
        laid = laid_out(inputs, before, own)
        trace, faults = folder / "trace", folder / "faults"
        trace.write_text("\n".join(laid.trace) + "\n")
        faults.write_text("".join(fault + "\n" for fault in laid.faults))
        scans = seen_in(programs.run(app, trace, faults), laid)
        if len(scans) != len(laid.scans):
            raise Stop(f"the case of line {line} has {len(laid.scans)} scans, and plcsafe makes {len(scans)}: {trace.read_text()}")
        found.append((line, len(scans), failed_lines(laid, scans)))
    return found


def told(lines):
    """The same as plcsafe-bench tells it."""
    found = []
    for line in lines:
        if head := re.match(r"(?:PASS|FAIL) \S+:(\d+) .* \((\d+) scans?\)$", line):
            found.append((int(head[1]), int(head[2]), []))
        elif failure := re.match(r"  line (\d+): ", line):
            found[-1][2].append(int(failure[1]))
    return [(line, scans, sorted(set(failed))) for line, scans, failed in found]


def drawn_settings(draw, inputs):
    return [f"{name}={draw.randint(0, 1)}" for name in draw.sample(inputs, draw.randint(0, len(inputs)))]


def drawn_checks(draw, outputs, instances):
    instance, codes = draw.choice(sorted(instances.items()))
    kinds = [lambda: f"{draw.choice(outputs)}{draw.choice(['=', '!='])}{draw.randint(0, 1)}",
             lambda: f"{instance}={','.join(draw.sample(codes, draw.randint(1, 3)))}", lambda: f"{instance}!={draw.choice(codes)}",
             lambda: f"{instance}.{draw.choice(['Ready', 'Error'])}={draw.randint(0, 1)}", lambda: draw.choice(["trip", "no-trip"])]
    return [draw.choice(kinds)() for _ in range(draw.randint(1, 2))]


def drawn_line(draw, inputs, outputs, instances, has_scan):
    """A line of a case."""
    kind = draw.choice(["+", "+", "every", "expect", "expect", "set", "restart", "fault"])
    step = draw.choice([0, 1, 5, 10, 100])
    if kind == "expect" and has_scan:
        window = draw.choice([[], [], ["for", str(draw.choice([0, 5, 20, 100]))], ["within", str(draw.choice([0, 5, 20, 100]))]])
        return ["expect", *window, *drawn_checks(draw, outputs, instances)]
    if kind == "every":
        return draw.choice([["every", str(step), "times", str(draw.randint(0, 4))], ["every", str(step + 1), "for", str(draw.choice([0, 7, 40]))]])
    if kind == "set":
        return ["set", *(drawn_settings(draw, inputs) or [inputs[0] + "=1"])]
    if kind == "restart" and draw.random() < 0.3:
        return ["restart"]
    if kind == "fault" and draw.random() < 0.3:
        return ["fault", "A", draw.choice(["code", "memory"]), str(draw.randint(0, 30)), f"{draw.randint(0, 255):02x}"]
    return ["+" + str(step), *drawn_settings(draw, inputs)]


def drawn_text(draw, inputs, outputs, instances):
    """A case file in which each case ends with a scan, so that no fault is without one."""
    lines = [["set", inputs[0] + "=1"], ["every", "10", "times", "3"], ["+10", "Ack=1"], ["+10", "Ack=0"]]
    for number in range(draw.randint(1, 4)):
        lines.append(["case", "number", str(number)])
        lines += [drawn_line(draw, inputs, outputs, instances, True) for _ in range(draw.randint(1, 14))]
        lines.append(["+10"])
    return "".join(" ".join(line) + "\n" for line in lines)


def wrong_rows(programs, folder):
    """The rows that get another answer."""
    app, cases = ROOT / "examples/stop/motor.st", folder / "cases"
    for text, refusal in ROWS:
        cases.write_bytes(text.encode())
        lines, status = programs.test(app, cases)
        rule, _, line = (refusal or "").partition(" ")
        right = lines[-1:] == [f"refused {rule} line {line}"] and status == 3 if refusal else status in (0, 4) and not any(told.startswith("refused") for told in lines)
        if not right:
            yield f"{text[:60]!r}: {refusal or 'taken'} is wanted, and status {status} comes: {lines[-1:]}"


def many_inputs():
    """An application with as many inputs as there may be, one of which it reads."""
    names = "".join(f"    I{number} : BOOL;\n" for number in range(MANY))
    return f"PROGRAM Wide\nVAR_INPUT\n{names}END_VAR\nVAR_OUTPUT\n    Lamp : BOOL;\nEND_VAR\n    Lamp := I0;\nEND_PROGRAM\n"


def scan_bytes(times):
    return sum(len(str(time)) + 2 * MANY + 1 for time in times)


def sized():
    """Case files whose expanded trace is as large as may be or larger, each with the refusal that it has to get."""
    room = LARGEST - 5 - sum(1 + len(f"I{number}") for number in range(MANY)) - len("# case a\n")
    count = 0
    while room >= scan_bytes([count + 1]):
        count, room = count + 1, room - scan_bytes([count + 1])
    restarts, letters = divmod(room, len("restart\n"))
    behind = f"\nevery 1 times {count}\n" + "restart\n" * restarts
    yield "case a" + "a" * letters + behind, None
    yield "case a" + "a" * letters + "a" + behind, f"K7 {2 + restarts}"
    yield f"case a\nevery 1 times {count + 1}\n", "K7 2"
    yield f"every 1 times {count + 1}\n\ncase a\n", "K7 3"
    yield f"every 1 times {count * 2 // 5}\ncase a\ncase b\ncase c\n", "K7 4"
    yield "every 4294967 times 1000\ncase a\ncase b\n", "K4 3"


def wrong_sizes(programs, folder):
    """The sized case files that get another answer. One that is taken has a trace as large as may be."""
    app, cases, trace = folder / "wide.st", folder / "cases", folder / "trace"
    app.write_text(many_inputs())
    for text, refusal in sized():
        cases.write_text(text)
        status = programs.expand(app, cases, trace)
        with open(trace, "rb") as file:
            begin = file.readline(100)
        rule, _, line = (refusal or "").partition(" ")
        right = status == 3 and begin == f"refused {rule} line {line}\n".encode() if refusal else status == 0 and trace.stat().st_size == LARGEST
        if not right:
            yield f"{text[:60]!r}: {refusal or 'taken'} is wanted, and status {status} comes, {trace.stat().st_size} bytes: {begin[:40]!r}"


def wrong_draws(programs, folder, count, seed):
    """The drawn case files of which other things are told."""
    for number in range(count):
        draw = random.Random(f"{seed} {number}")
        app, (inputs, outputs, instances) = draw.choice(sorted(APPS.items()))
        text, cases = drawn_text(draw, inputs, outputs, instances), folder / "cases"
        cases.write_text(text)
        source = ROOT / "examples" / (app + ".st")
        wanted = judged(programs, source, inputs, text, folder)
        lines, status = programs.test(source, cases)
        if told(lines) != wanted or status != (4 if any(failed for _, _, failed in wanted) else 0):
            yield f"{app}, drawn {seed} {number}: {wanted} is wanted, and status {status} comes: {told(lines)}\n{text}"


def lines_of(programs, *words):
    """The lines of what plcsafe-bench writes, which ends with a line feed. They end at line feeds alone."""
    run = subprocess.run([programs.bench, *map(str, words)], stdin=subprocess.DEVNULL, stdout=subprocess.PIPE, stderr=subprocess.DEVNULL)
    return run.stdout.decode().split("\n")[:-1]


def name_read(text):
    """A name of what stands for it in a line."""
    return re.sub(rb"\\(?:x([0-9a-f]{2})|(\\))", lambda found: bytes([int(found[1], 16)]) if found[1] else found[2], text.encode()).decode()


def description_read(text):
    """The description of a row of TAP; nothing where a directive begins in it."""
    return re.sub(r"\\(.)", r"\1", text) if re.fullmatch(r"(?:[^\\#]|\\.)*", text) else None


def wrong_name(programs, app, other, cases, rules):
    """What the readers find in the place of what stands in the files of these names; nothing where they find that."""
    call = f"plcsafe-bench watch {app} {cases}:4"
    lines = lines_of(programs, "test", app, cases, "--format", "tap")
    found = [description_read(line.split(" - ", 1)[1]) for line in lines if re.match(r"(not )?ok ", line)]
    found += [line[len("# "):] for line in lines if line.startswith("# plcsafe-bench")]
    wanted = [f"{cases}:1 it runs", f"{cases}:4 # it \\ stops", call]
    suite = xml.etree.ElementTree.fromstring("\n".join(lines_of(programs, "test", app, cases, "--format", "junit")))[0]
    found += [suite.get("name"), *(case.get("classname") for case in suite), suite[1][0].text.split("\n")[-2]]
    wanted += [cases, cases, cases, call]
    found += lines_of(programs, "test", app, cases)
    wanted += [f"PASS {cases}:1 it runs (1 scan)", f"FAIL {cases}:4 # it \\ stops (1 scan)", "  line 6: S_Run is 1, expected 0 (at 10 ms)", "  " + call,
               "2 cases, 1 passed, 1 failed"]
    found += [line.rpartition(" (")[0] for line in lines_of(programs, "never", app, rules) + lines_of(programs, "same", app, other)]
    wanted += [f"HOLDS {rules}:1 a", f"HOLDS {rules}:3 b", f"HOLDS {app} and {other} have the same outputs"]
    found = [text and name_read(text) for text in found]
    return None if found == wanted else found


def wrong_names(programs, folder, count, seed):
    """The drawn names that readers do not find again."""
    rules = "never a\n  S_Run=1 S_A=0\nnever b\n  S_Run=0 S_A=1\n"
    for number in range(count):
        draw = random.Random(f"{seed} {number}")
        texts = {".st": SOURCE_OF_NAMES, "2.st": SOURCE_OF_NAMES.replace(":= S_A", ":= S_A AND S_A"), ".cases": CASES_OF_NAMES, ".rules": rules}
        names = [str(folder / ("".join(draw.choice(SIGNS) for _ in range(draw.randint(1, 12))) + end)) for end in texts]
        for name, text in zip(names, texts.values()):
            pathlib.Path(name).write_text(text)
        found = wrong_name(programs, *names)
        if found is not None:
            yield f"names drawn {seed} {number}: of {names!r} readers find {found!r}"


def main(words):
    options = {"--count": 40, "--seed": 1}
    while words[:1] and words[0] in options and len(words) > 1 and words[1].isdigit():
        options[words[0]], words = int(words[1]), words[2:]
    named = [word.split("=", 1)[1] for word in words if word.startswith("plcsafe-bench=")]
    plain = [word for word in words if not word.startswith("plcsafe-bench=")]
    if len(named) != 1 or len(plain) != 1 or plain[0].startswith("-"):
        return None
    programs = Programs(plain[0], named[0])
    with tempfile.TemporaryDirectory(prefix="plcsafe-cases-") as place:
        folder = pathlib.Path(place)
        wrong = [*wrong_rows(programs, folder), *wrong_sizes(programs, folder), *wrong_draws(programs, folder, options["--count"], options["--seed"]),
                 *wrong_names(programs, folder, options["--count"], options["--seed"])]
    print("\n".join(wrong[:5]) + "\n" if wrong else "", end="")
    print(f"{len(ROWS)} rows, sizes, {options['--count']} drawn case files and names, {len(wrong)} of them told otherwise")
    return 1 if wrong else 0


if __name__ == "__main__":
    plainly(main, "cases.py [--count N] [--seed N] PLCSAFE plcsafe-bench=FILE")
