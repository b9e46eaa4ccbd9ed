#!/usr/bin/env python3
"""Feeds plcsafe-bench live as a bench does, and looks at each answer before it sends on.

live.py PLCSAFE plcsafe-bench=FILE               the programs; what is answered is compared with what the first one's `run` writes, and
                                                 by name with what the second one's `watch` does
live.py --minutes N PLCSAFE plcsafe-bench=FILE   a line each 10 ms, for so long, in place of 10 seconds

All of it by report lines, and all but the times with `--names` too. Asked and answered: traces of examples/, line by line through a pipe;
behind each line what was answered is what is written of a trace with these lines, before the next one is sent. Pieces: half a line, several
lines at once, bytes one by one, a last line without LF, a stop and a continue. Refused: a line for each rule, with what stands before it and
the status, while the input stays open. Closed: the input, the output, both, an output that is full. A flood: more lines than fit into a
pipe, at once; memory stays. Times: the middle one from a line feed to the answer, and a line each 10 ms. Page: the calls of docs/live.md
with `<`, and its bench. The status is 0 where all is as it should be.
"""
import os
import pathlib
import re
import select
import signal
import statistics
import subprocess
import sys
import tempfile
import threading
import time

from plainly import Stop, plainly

ROOT = pathlib.Path(__file__).resolve().parent.parent
EXAMPLES, PAGE = ROOT / "examples", ROOT / "docs" / "live.md"
MOTOR, HEAD, LONGEST = EXAMPLES / "stop" / "motor.st", b"time S_Stop Ack Run\n", 65_536
TRACES = ["stop/motor.st stop/restart.trace", "stop/lamp.st stop/lamp.trace", "press/press.st press/guard.trace"]
FIRST, SECOND = (b"%d S_Motor=0 Lamp=0 Stop=1,0,8001 Out=1,0,8001\n" % time for time in (0, 1))
NAMED, RENAMED = (b"%d      S_Motor=0, Lamp=0, Stop=8001 first state, Out=8001 first state\n" % time for time in (0, 1))
WAIT, PAUSE = 20.0, 0.15  # seconds for an answer, and of silence
LIMIT, ROOM = 1.0, 64     # the most ms that the middle answer may take, and the most KiB by which memory may grow

# What is fed to the motor, how many of the lines that a scan, a restart and a second scan have are answered, and the refusal behind them.
REFUSED = [
    (b"Time S_Stop Ack Run\n", 0, "T1 line 1"), (b"# nothing\n\n0 1 0 0\n", 0, "T1 line 3"), (b"time S_Stop Ack Motor\n", 0, "T2 line 1"),
    (b"time S_Stop Ack\n", 0, "T3 line 1"), (b"time S_Stop Ack Run Run\n", 0, "T3 line 1"), (HEAD + b"0 1 0\n", 0, "T4 line 2"),
    (HEAD + b"0 1 0 0\nRestart\n", 1, "T4 line 3"), (HEAD + b"0 1 0 2\n", 0, "T5 line 2"), (HEAD + b"x 1 0 0\n", 0, "T6 line 2"),
    (HEAD + b"4294967296 1 0 0\n", 0, "T6 line 2"), (HEAD + b"0 1 0 0\n# between\nrestart\n1 1 0 0\n0 1 0 0\n", 3, "T7 line 6"),
    (HEAD + b"0 1 0 0\n" + b"#" * (LONGEST + 1), 1, "T8 line 3"), (b" " * (LONGEST + 1), 0, "T8 line 1"),
]


class Way:
    """How scans are told: with these options of `live`, as this command of a program has it, a first scan, a restart and one more so."""

    def __init__(self, options, command, *first):
        self.options, self.command, self.first = options, command, first

    def lines(self, programs, app, trace):
        """What the command writes of a trace, line by line."""
        program = programs[self.command != "run"]
        run = subprocess.run([program, self.command, str(app), str(trace)], stdin=subprocess.DEVNULL, stdout=subprocess.PIPE, check=True)
        return run.stdout.splitlines(keepends=True)


REPORTS, NAMES = Way([], "run", FIRST, b"restart\n", SECOND), Way(["--names"], "watch", NAMED, b"restart\n", RENAMED)


class Live:
    """A call of `live`, whose input and output are pipes."""

    def __init__(self, program, way=REPORTS, app=MOTOR, **others):
        words = [program, "live", str(app), *way.options]
        given = {name: value for name, value in os.environ.items() if name != "PLCSAFE_QUIET"}
        self.call = subprocess.Popen(words, cwd=ROOT, env=given, **{"stdin": subprocess.PIPE, "stdout": subprocess.PIPE,
                                                                    "stderr": subprocess.PIPE, "bufsize": 0, **others})
        self.held = b""

    def feed(self, data):
        """Writes all of these bytes."""
        while data:
            data = data[os.write(self.call.stdin.fileno(), data):]

    def some(self, seconds):
        """What comes within so many seconds, or nothing."""
        ready = select.select([self.call.stdout], [], [], seconds)[0]
        return os.read(self.call.stdout.fileno(), 1 << 16) if ready else None

    def line(self):
        """The next line of the answer."""
        while b"\n" not in self.held:
            more = self.some(WAIT)
            if not more:
                raise Stop("an answer is missing" if more is None else "the answer ended")
            self.held += more
        line, _, self.held = self.held.partition(b"\n")
        return line + b"\n"

    def is_silent(self):
        """Whether nothing comes for a while."""
        return not self.held and self.some(PAUSE) is None

    def rest(self):
        """All that is still to come, what is told, and the status."""
        written = self.held
        while more := self.some(WAIT):
            written += more
        told = self.call.stderr.read().decode(errors="replace")
        return written, told, self.call.wait(WAIT)

    def end(self):
        """The same behind the end of the input."""
        self.call.stdin.close()
        return self.rest()

    def memory(self):
        """The most KiB of memory that it had so far."""
        status = pathlib.Path(f"/proc/{self.call.pid}/status").read_text()
        return int(re.search(r"VmHWM:\s+(\d+)", status)[1])


def expect(holds, what):
    """Stops where something is not so."""
    if not holds:
        raise Stop(f"it is not so that {what}")


def expect_end(found, wanted, title):
    """Stops where a call did not end so: with these last bytes, and this status."""
    expect((found[0], found[2]) == wanted, f"{title} ends with {wanted!r}, but with {(found[0][-200:], found[2])!r}")


def has_answer(fed):
    """Whether a header stands among these lines."""
    return any(line.split() and not line.startswith(b"#") for line in fed.splitlines())


def by_lines(programs, way, folder):
    """Traces, line by line. How many lines were answered."""
    count, part = 0, folder / "part.trace"
    for app, trace in (row.split() for row in TRACES):
        live, fed, answers = Live(programs[1], way, EXAMPLES / app), b"", []
        for line in (EXAMPLES / trace).read_bytes().splitlines(keepends=True):
            live.feed(line)
            fed += line
            part.write_bytes(fed)
            wanted = way.lines(programs, EXAMPLES / app, part) if has_answer(fed) else []
            more = [live.line() for _ in wanted[len(answers):]]
            expect(answers + more == wanted and not live.held, f"{trace}: behind {line!r} stands {wanted[len(answers):]!r}, and not {more!r}")
            answers, count = wanted, count + len(more)
        expect(live.is_silent(), f"nothing more comes of {trace}")
        expect_end(live.end(), (b"", 0), trace)
    return count


def by_pieces(bench, way):
    """Lines that do not come as lines."""
    live, (first, restart, _) = Live(bench, way), way.first
    live.feed(HEAD + b"0 1 0")
    expect(live.is_silent(), "half a line has no answer")
    live.feed(b" 0")
    expect(live.is_silent(), "a line has no answer before its end")
    live.feed(b"\n")
    expect(live.line() == first, "the line has its answer then")
    live.feed(b"# passed over\r\n\n \t\n")
    expect(live.is_silent(), "a line that is passed over has no answer")
    live.feed(b"restart\r\n5 1 0 0\r\n6 1 0 0\n7 1")
    expect(live.line() == restart and live.line().startswith(b"5 ") and live.line().startswith(b"6 "), "each of several lines has its answer")
    os.kill(live.call.pid, signal.SIGSTOP)
    os.kill(live.call.pid, signal.SIGCONT)
    for byte in b" 0 1":
        live.feed(bytes([byte]))
    expect(live.is_silent(), "half a line has no answer behind a stop")
    written, _, status = live.end()
    expect(re.fullmatch(rb"7 +S.*\n", written) and status == 0, "the last line needs no line feed")


def by_refusals(bench, way):
    """Lines that are refused, while the input stays open."""
    for fed, answered, refusal in REFUSED:
        live = Live(bench, way)
        live.feed(fed)
        written, told, status = live.rest()
        rule, number = refusal.split()[0], refusal.split()[-1]
        wanted = b"".join(way.first[:answered]) + f"refused {refusal}\n".encode()
        expect_end((written, told, status), (wanted, 3), repr(fed[:60]))
        expect(told.startswith(f"standard input:{number}: {rule}: "), f"standard error tells of {refusal}, and not {told!r}")
        live.call.stdin.close()
    ended = Live(bench, way).end()
    expect_end(ended, (b"refused T1 line 1\n", 3), "an input without bytes")
    refused = Live(bench, way, ROOT / "README.md").rest()
    expect(refused[2] == 1 and refused[0].startswith(b"refused "), "an application that is refused has its line, and nothing is read")


def by_closing(bench, way):
    """Inputs that cannot be read, and outputs that take nothing."""
    live = Live(bench, way)
    live.feed(HEAD + b"0 1 0 0\n")
    live.line()
    live.call.stdout.close()
    live.feed(b"1 1 0 0\n")
    told = live.call.stderr.read()
    expect((told, live.call.wait(WAIT)) == (b"", 6), "an output that is closed ends it with 6, and nothing is told")
    with open("/dev/full", "wb") as full:
        live = Live(bench, way, stdout=full)
        live.feed(HEAD + b"0 1 0 0\n")
        told = live.call.stderr.read()
        expect(live.call.wait(WAIT) == 6 and b"takes no more bytes" in told, "an output that is full ends it with 6, and it is told")
    folder = os.open("/", os.O_RDONLY)
    live = Live(bench, way, stdin=folder)
    os.close(folder)
    written, told, status = live.rest()
    expect((written, status) == (b"", 5) and told.startswith("standard input: "), f"an input that cannot be read ends it with 5, and not {status}: {told!r}")
    live = Live(bench, way, stdin=None, preexec_fn=lambda: os.close(0))
    expect(live.rest()[2] in (3, 5), "an input that is closed ends it")


def flood(live, lines, wanted):
    """Feeds lines at once, and reads their answers. The most KiB of memory behind them."""
    writer = threading.Thread(target=live.feed, args=(b"".join(lines),), daemon=True)
    writer.start()
    found, left = [], sum(map(len, wanted))
    while left > 0 and (more := live.some(WAIT)):
        found.append(more)
        left -= len(more)
    writer.join(WAIT)
    expect(b"".join(found) == b"".join(wanted), "each line of a flood has its answer")
    return live.memory()


def by_flood(programs, way, folder):
    """More lines than fit into a pipe, at once, and as many again. How many."""
    count = 50_000
    lines = [b"%d 1 %d %d\n" % (n, n // 3 % 2, n // 7 % 2) for n in range(count)]
    trace, half = folder / "flood.trace", count // 2
    trace.write_bytes(HEAD + b"".join(lines[:half]))
    answered = len(way.lines(programs, MOTOR, trace))
    trace.write_bytes(HEAD + b"".join(lines))
    wanted = way.lines(programs, MOTOR, trace)
    live = Live(programs[1], way)
    live.feed(HEAD)
    first = flood(live, lines[:half], wanted[:answered])
    more = flood(live, lines[half:], wanted[answered:]) - first
    expect(more <= ROOM, f"a second flood takes at most {ROOM} KiB more than the first, but {more}")
    expect_end(live.end(), (b"", 0), "a flood")
    return count


def answered_in(live, number):
    """How many ms the answer of a scan takes, from its line feed on."""
    line = b"%d 1 %d 0" % (number, number // 3 % 2)
    live.feed(line)
    started = time.perf_counter()
    live.feed(b"\n")
    answer = live.line()
    taken = (time.perf_counter() - started) * 1000
    expect(answer.startswith(b"%d " % number), f"scan {number} has its answer, and not {answer!r}")
    return taken


def middle(bench):
    """The middle time of an answer in ms, in the best of three rounds."""
    live = Live(bench)
    live.feed(HEAD)
    rounds = [statistics.median([answered_in(live, which * 1000 + number) for number in range(1000)]) for which in range(3)]
    expect_end(live.end(), (b"", 0), "the measurement")
    expect(min(rounds) < LIMIT, f"the middle answer takes under {LIMIT} ms, but {min(rounds):.3f}")
    return min(rounds)


def paced(bench, seconds):
    """A line each 10 ms. How many there were, and the slowest answer in ms."""
    live, taken = Live(bench), []
    live.feed(HEAD)
    started = time.monotonic()
    for number in range(int(seconds * 100)):
        time.sleep(max(0.0, started + number / 100 - time.monotonic()))
        taken.append(answered_in(live, number * 10))
    expect_end(live.end(), (b"", 0), "a line each 10 ms")
    return len(taken), max(taken)


def blocks():
    """The blocks of code of the page, each with its language."""
    return re.findall(r"^```(\w*)\n(.*?)^```$", PAGE.read_text(), flags=re.M | re.S)


def fits(shown, written):
    """Whether this was written, where a line `..` stands for any lines."""
    form = "".join("(?:.*\n)*" if line == ".." else re.escape(line) + "\n" for line in shown)
    return re.fullmatch(form, written) is not None


def by_page(bench):
    """The page's calls with a file behind `<`, and its bench, which is a script. How many there were."""
    count, script = 0, None
    for language, text in blocks():
        lines = text.splitlines()
        call = re.fullmatch(r"\$ \./plcsafe-bench (live [^<]+) < (\S+)", lines[0])
        if call:
            with open(ROOT / call[2], "rb") as trace:
                run = subprocess.run([bench, *call[1].split()], cwd=ROOT, stdin=trace, stdout=subprocess.PIPE, stderr=subprocess.DEVNULL, text=True)
            expect(fits(lines[1:], run.stdout), f"{PAGE.name} shows what {lines[0][2:]} writes:\n{run.stdout}")
            count += 1
        elif language == "python":
            script = text.replace('"./plcsafe-bench"', repr(str(bench)))
        elif script:
            run = subprocess.run([sys.executable, "-c", script], cwd=ROOT, stdin=subprocess.DEVNULL, stdout=subprocess.PIPE, text=True, timeout=60)
            expect(run.returncode == 0 and fits(lines, run.stdout), f"{PAGE.name} shows what its bench writes:\n{run.stdout}")
            count, script = count + 1, None
    expect(count >= 3 and script is None, f"{PAGE.name} shows a call of each way and a bench with what they write")
    return count


def main(words):
    seconds = 10.0
    if words[:1] == ["--minutes"] and len(words) > 1:
        if not words[1].isdecimal():
            raise Stop(f"--minutes {words[1]}: this is no number")
        seconds, words = int(words[1]) * 60.0, words[2:]
    if len(words) != 2 or not words[1].startswith("plcsafe-bench=") or words[0].startswith("-"):
        return None
    programs = [str(pathlib.Path(word.removeprefix("plcsafe-bench=")).resolve()) for word in words]
    for program in programs:
        if not os.path.isfile(program) or not os.access(program, os.X_OK):
            raise Stop(f"{program} is no program")
    bench, lines, flood = programs[1], 0, 0
    with tempfile.TemporaryDirectory() as folder:
        for way in (REPORTS, NAMES):
            lines += by_lines(programs, way, pathlib.Path(folder))
            by_pieces(bench, way)
            by_refusals(bench, way)
            by_closing(bench, way)
            flood += by_flood(programs, way, pathlib.Path(folder))
    calls, usual = by_page(bench), middle(bench)
    count, slowest = paced(bench, seconds)
    print(f"{lines} lines answered one by one, {2 * len(REFUSED)} refused, {flood} in floods, {calls} calls of the page; the middle answer takes "
          f"{usual:.3f} ms, and of {count} lines 10 ms apart the slowest {slowest:.1f} ms")
    return 0


if __name__ == "__main__":
    plainly(main, "live.py [--minutes N] PLCSAFE plcsafe-bench=FILE")
