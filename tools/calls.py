#!/usr/bin/env python3
"""Makes calls of a program whose whole answer is known beforehand, and compares text and status.

calls.py PROGRAM [WORD]     the rows whose title has WORD, else all

No answer here comes from the program: each is computed by this script, from applications of which a person can say what they do.
The rows ask what no contract can say of an installed program: that it has memory for what it promises to take, that its reads and
writes are those of the system, and that the number with which it exits is the status. Among them are each exit status from 0 to 7,
traces of several pieces, outputs that are closed or full, and applications at the limits. Where a C compiler `cc` is on the machine,
reads and writes are cut short, interrupted and failed on the way. The status is 0 where all answers are right.
"""
import os
import pathlib
import resource
import shutil
import signal
import socket
import subprocess
import sys
import tempfile

from plainly import Stop, plainly

DONE, REFUSED, USAGE, BAD, TRIPPED, NO_READ, NO_WRITE, NO_MEMORY = range(8)
QUIET = {**os.environ, "PLCSAFE_QUIET": "1"}
NAME = 64  # the most bytes of a name
PIECE = 4096  # what the reader of a trace asks for at once

WIRE = """PROGRAM Wire
VAR_INPUT S_In : SAFEBOOL; Run : BOOL; END_VAR
VAR_OUTPUT S_Out : SAFEBOOL; END_VAR
S_Out := S_In AND Run;
END_PROGRAM
"""
USAGE_LINE = "usage: "

# What stands in the place of the C library's read and write: they do less than they are asked, or fail, as the environment says.
SHIM = r"""
#define _GNU_SOURCE
#include <dlfcn.h>
#include <errno.h>
#include <stdlib.h>
#include <string.h>
#include <unistd.h>
static long number(const char *name) { const char *text = getenv(name); return text ? atol(text) : 0; }
static int calls_of[2];
static int fails(int kind, const char *interrupted, const char *broken) {
  long call = ++calls_of[kind];
  long every = number(interrupted), at = number(broken);
  if (every && call % every == 0) { errno = EINTR; return 1; }
  if (at && call == at) { errno = EIO; return 1; }
  return 0;
}
static size_t cut(size_t asked, const char *name) {
  long most = number(name);
  return most && asked > (size_t)most ? (size_t)most : asked;
}
ssize_t read(int file, void *to, size_t asked) {
  static ssize_t (*real)(int, void *, size_t);
  if (!real) real = dlsym(RTLD_NEXT, "read");
  if (fails(0, "READ_INTERRUPTED", "READ_BROKEN")) return -1;
  return real(file, to, cut(asked, "READ_MOST"));
}
ssize_t write(int file, const void *from, size_t asked) {
  static ssize_t (*real)(int, const void *, size_t);
  if (!real) real = dlsym(RTLD_NEXT, "write");
  if (file == 1 && fails(1, "WRITE_INTERRUPTED", "WRITE_BROKEN")) return -1;
  return real(file, from, file == 1 ? cut(asked, "WRITE_MOST") : asked);
}
"""


def refused(rule, line, column=None):
    return f"refused {rule} line {line}" + (f" column {column}" if column is not None else "") + "\n"


# ---- the wire: its output is TRUE where both inputs are


def wire_scans(count):
    """Scans of the wire: the time and both inputs."""
    return [(k, k % 3 % 2, int(k % 5 > 0)) for k in range(count)]


def wire_trace(scans):
    return "time S_In Run\n" + "".join(f"{time} {first} {second}\n" for time, first, second in scans)


def wire_text(scans):
    return "".join(f"{time} S_Out={first & second}\n" for time, first, second in scans)


def wire_trips(scans, at):
    """What `fault` writes where channel A has no code from the scan of this number on."""
    lines = wire_text(scans).splitlines(True)[: at - 1]
    for number, (time, _, _) in enumerate(scans[at - 1 :]):
        lines.append(f"{time} TRIP{'' if number else ' trap A 1'} S_Out=0\n")
    return "".join(lines)


# ---- applications of many emergency stops, of which each does what the one of docs/machines.md does


# The inputs of six scans, and the DiagCode and the safe output that each instance has behind them.
STOP_SCANS = ((1, 0, "8001", 0), (1, 0, "8002", 0), (1, 0, "8003", 0), (1, 1, "8000", 1), (1, 0, "8000", 1), (0, 0, "8004", 0))
LAST_TIME = 4_294_967_295


def long_name(head, number):
    """A name of as many bytes as one may have."""
    return f"{head}{number:04d}_".ljust(NAME, "x")


def stops(instances, outputs, nested):
    """An application of so many emergency stops and outputs, all with the longest names; `nested` puts each stop into a block."""
    block = long_name("E", 9999)
    kind = "Copy" if nested else "SF_EmergencyStop"
    result = "S_Out" if nested else "S_EStopOut"
    parts = []
    if nested:
        parts.append(
            "FUNCTION_BLOCK Copy VAR_INPUT S_EStopIn : SAFEBOOL; Reset : BOOL; END_VAR VAR_OUTPUT S_Out : SAFEBOOL; END_VAR\n"
            f"VAR {block} : SF_EmergencyStop; END_VAR {block}(Activate := TRUE, S_EStopIn := S_EStopIn, Reset := Reset);\n"
            f"S_Out := {block}.S_EStopOut; END_FUNCTION_BLOCK\n"
        )
    parts.append("PROGRAM Stops VAR_INPUT S_In : SAFEBOOL; Ack : BOOL; END_VAR\nVAR_OUTPUT\n")
    parts += [f"{long_name('S_', k)} : SAFEBOOL;\n" for k in range(outputs)]
    parts.append("END_VAR\nVAR\n")
    parts += [f"{long_name('F', k)} : {kind};\n" for k in range(instances)]
    parts.append("END_VAR\n")
    activate = "" if nested else "Activate := TRUE, "
    parts += [f"{long_name('F', k)}({activate}S_EStopIn := S_In, Reset := Ack);\n" for k in range(instances)]
    parts += [f"{long_name('S_', k)} := {long_name('F', k % instances)}.{result};\n" for k in range(outputs)]
    return "".join(parts) + "END_PROGRAM\n"


def stop_times():
    """The times of the six scans, the last of which is the last that a trace may have."""
    return [LAST_TIME - 10 * (len(STOP_SCANS) - 1 - k) for k in range(len(STOP_SCANS))]


def stop_trace():
    rows = zip(stop_times(), STOP_SCANS)
    return "time S_In Ack\n" + "".join(f"{time} {pressed} {ack}\n" for time, (pressed, ack, _, _) in rows)


def stop_line(time, scan, instances, outputs, nested):
    """The report line of a scan of these stops."""
    inner = "." + long_name("E", 9999) if nested else ""
    _, _, code, out = scan
    text = "".join(f" {long_name('S_', k)}={out}" for k in range(outputs))
    return f"{time}{text}" + "".join(f" {long_name('F', k)}{inner}=1,0,{code}" for k in range(instances)) + "\n"


def stop_texts(instances, outputs, nested):
    """What `run`, `fault`, `vote` and `heal` write, where channel A has no code from the third scan on."""
    times = stop_times()
    lines = [stop_line(time, scan, instances, outputs, nested) for time, scan in zip(times, STOP_SCANS)]
    down = "".join(f" {long_name('S_', k)}=0" for k in range(outputs)) + "\n"
    trips = [f"{time} TRIP{'' if k else ' trap A 1'}{down}" for k, time in enumerate(times[2:])]
    out = [f"{time} OUTVOTED A\n" for time in times]
    voted = lines[:2] + [part for pair in zip(lines[2:], out[2:]) for part in pair]
    healed = lines[:3] + [out[2]] + lines[3:]
    return {"run": "".join(lines), "fault": "".join(lines[:2] + trips), "vote": "".join(voted), "heal": "".join(healed)}


class Calls:
    """The calls of one program in a folder of their own, and which of them were answered otherwise."""

    def __init__(self, program, folder, word):
        self.program, self.folder, self.word = program, folder, word
        self.count, self.wrong, self.skipped = 0, [], []

    def wants(self, title):
        return self.word in title

    def write(self, name, text):
        (self.folder / name).write_bytes(text if isinstance(text, bytes) else text.encode())

    def judge(self, title, wanted, got):
        """Compares a status and a text with what they have to be."""
        self.count += 1
        if wanted == got:
            return
        (status, text), (other, given) = wanted, got
        at = next((k for k, (a, b) in enumerate(zip(text, given)) if a != b), min(len(text), len(given)))
        self.wrong.append(f"{title}: wanted status {status} and {len(text)} bytes, got {other} and {len(given)}; byte {at}: {given[at:at+60]!r}")

    def run(self, words, env=None, **more):
        """The status and the text of a call."""
        run = subprocess.run([self.program, *words], cwd=self.folder, env={**QUIET, **(env or {})}, stdin=subprocess.DEVNULL,
                             stdout=subprocess.PIPE, stderr=subprocess.PIPE, timeout=300, **more)
        if run.stderr:
            self.wrong.append(f"{' '.join(words)}: standard error has {run.stderr[:200]!r}")
        return run.returncode, run.stdout

    def row(self, title, words, status, text, **more):
        """A call, and what it has to answer."""
        if self.wants(title):
            self.judge(title, (status, text.encode()), self.run(words, **more))


# ---- the rows


def statuses(calls):
    """Each exit status, by the least call that has it."""
    scans = wire_scans(6)
    calls.write("wire", WIRE)
    calls.write("trace", wire_trace(scans))
    calls.write("bad", "time S_In Run\n0 1\n")
    calls.write("faults", "before 3 A code 0 ff\n")
    calls.write("empty", "")
    calls.row("status 0", ["run", "wire", "trace"], DONE, wire_text(scans))
    calls.row("status 0, of a fault that strikes no scan", ["fault", "wire", "trace", "empty"], DONE, wire_text(scans))
    calls.row("status 1", ["check", "empty"], REFUSED, refused("P1", 1, 1))
    calls.row("status 3", ["run", "wire", "bad"], BAD, refused("T4", 2))
    calls.row("status 4", ["fault", "wire", "trace", "faults"], TRIPPED, wire_trips(scans, 3))
    calls.row("status 5", ["run", "wire", "none"], NO_READ, "")
    calls.row("status 5, of a folder", ["run", "wire", "."], NO_READ, "")
    usage = calls.run([])[1].decode()
    if not usage.startswith(USAGE_LINE) or usage.count("\n") != 1:
        calls.wrong.append(f"without words: the usage line is {usage!r}")
    for title, words in (("no words", []), ("five words", ["fault", "wire", "trace", "faults", "faults"]), ("no command", ["walk", "wire"]),
                         ("a command in capitals", ["CHECK", "wire"]), ("a word too few", ["run", "wire"]),
                         ("load of 0", ["load", "0"]), ("load of 1001", ["load", "1001"])):
        calls.row(f"status 2, {title}", words, USAGE, usage)
    title = "status 2, a command as the program's own name"
    if calls.wants(title):
        run = subprocess.run(["check", "wire"], executable=calls.program, cwd=calls.folder, env=QUIET, stdin=subprocess.DEVNULL,
                             stdout=subprocess.PIPE, stderr=subprocess.PIPE, timeout=60)
        calls.judge(title, (USAGE, usage.encode()), (run.returncode, run.stdout))


def odd_bytes(calls):
    """Bytes that are no characters: in a comment any may stand, and elsewhere none."""
    calls.write("odd", b"(*\0\xff*)")
    calls.row("odd bytes in a comment", ["check", "odd"], REFUSED, refused("P1", 1, 7))
    calls.write("odd", b"\n\xff")
    calls.row("an odd byte", ["check", "odd"], REFUSED, refused("L1", 2, 1))


COMMANDS = (
    (["run", "wire", "trace"], DONE), (["fault", "wire", "trace", "faults"], TRIPPED), (["check", "wire"], DONE), (["cert", "wire"], DONE),
    (["verify", "wire", "certificate"], DONE), (["image", "wire"], DONE), (["load", "1"], DONE), (["demand", "wire"], DONE),
    (["vote", "wire", "trace", "faults"], DONE), (["heal", "wire", "trace", "faults"], DONE), (["run"], USAGE),
)


def outputs(calls):
    """Outputs that are closed, full, or that take a part: no byte is lost unsaid, whatever the command."""
    calls.write("certificate", calls.run(["cert", "wire"])[1])
    for words, status in COMMANDS:
        name = " ".join(words)
        if calls.wants(f"{name}: a full output"):
            with open("/dev/full", "wb") as full:
                run = subprocess.run([calls.program, *words], cwd=calls.folder, env=QUIET, stdin=subprocess.DEVNULL, stdout=full, timeout=60)
            calls.judge(f"{name}: a full output", (NO_WRITE, b""), (run.returncode, b""))
        if calls.wants(f"{name}: a closed output"):
            shell = ["/bin/sh", "-c", 'exec "$0" "$@" >&-', calls.program, *words]
            run = subprocess.run(shell, cwd=calls.folder, env=QUIET, stdin=subprocess.DEVNULL, timeout=60)
            calls.judge(f"{name}: a closed output", (NO_WRITE, b""), (run.returncode, b""))
        if calls.wants(f"{name}: an open output"):
            got, text = calls.run(words)
            calls.judge(f"{name}: an open output", (status, bool(text)), (got, bool(text)))
    for name, text in (("wire", WIRE), ("faults", "before 3 A code 0 ff\n"), ("empty", "")):
        if (calls.folder / name).read_text() != text:
            calls.wrong.append(f"the file {name} was written to")


def pieces(calls):
    """Traces of several pieces: the offset of each read is that behind the one before."""
    scans = wire_scans(20_000)
    text = wire_trace(scans)
    assert len(text) > 2 * 65_536 + PIECE
    calls.write("long", text)
    calls.row("a trace of 46 pieces", ["run", "wire", "long"], DONE, wire_text(scans))
    parts, lines, wanted = [], text.splitlines(True), wire_text(scans[:2_000]).splitlines(True)
    for first in range(0, 2_000, 500):
        parts += lines[1 + first : 501 + first] + ["# a comment\r\n", "\n", "restart\n"]
        wanted.insert(len(wanted) - (1_500 - first), "restart\n")
    calls.write("restarts", lines[0] + "".join(parts))
    calls.row("restarts in a trace of pieces", ["run", "wire", "restarts"], DONE, "".join(wanted))
    for gap in (PIECE - 1, PIECE, PIECE + 1, 65_535):
        header = "time S_In Run\n"
        filled = header + "#" * (gap - len(header) - 1) + "\n" + "".join(text.splitlines(True)[1:7])
        calls.write("gap", filled)
        calls.row(f"a trace whose scans begin at byte {gap}", ["run", "wire", "gap"], DONE, wire_text(scans[:6]))


def limits(calls):
    """Applications at the limits: what a program that finds memory wanting too soon would miss."""
    calls.write("stops", stop_trace())
    calls.write("faults", "before 3 A code 0 ff\n")
    for title, instances, outputs_, nested in (("400 instances and the longest names", 400, 512, False), ("names past 64 bytes", 400, 512, True),
                                               ("one instance", 1, 1, False)):
        if not calls.wants(title):
            continue
        calls.write("many", stops(instances, outputs_, nested))
        for command, text in stop_texts(instances, outputs_, nested).items():
            words = [command, "many", "stops"] + (["faults"] if command != "run" else [])
            calls.row(f"{title}: {command}", words, TRIPPED if command == "fault" else DONE, text)
    names = ", ".join(f"x{k}" for k in range(70_000))
    calls.write("names", f"PROGRAM P VAR_INPUT S_i : SAFEBOOL; END_VAR VAR_OUTPUT S_o : SAFEBOOL; END_VAR VAR {names} : BOOL; END_VAR\nS_o := S_i;\nEND_PROGRAM\n")
    calls.row("70,000 names", ["check", "names"], REFUSED, refused("B4", 1, 9))
    calls.write("lines", "time S_In Run\n" + "0 1 1\n" * 1_000 + "#" * 65_536 + "\n0 1 1\n")
    calls.row("a line of 65,536 bytes", ["run", "wire", "lines"], DONE, "0 S_Out=1\n" * 1_001)
    calls.write("comments", "#\n" * 999 + "before 3 A code 0 ff\n")
    calls.row("1,000 lines of faults", ["fault", "wire", "trace", "comments"], TRIPPED, wire_trips(wire_scans(6), 3))


def writes(calls):
    """What the system's writes are: each hands on whole lines, and what cannot be taken is said."""
    scans = wire_scans(3_000)
    text = wire_text(scans).encode()
    calls.write("some", wire_trace(scans))
    title = "each write ends with a line"
    if calls.wants(title):
        ours, its = socket.socketpair(socket.AF_UNIX, socket.SOCK_SEQPACKET)
        run = subprocess.Popen([calls.program, "run", "wire", "some"], cwd=calls.folder, env=QUIET, stdin=subprocess.DEVNULL, stdout=its)
        its.close()
        taken = []
        while piece := ours.recv(1 << 20):
            taken.append(piece)
        ours.close()
        calls.judge(title, (DONE, text), (run.wait(60), b"".join(taken)))
        if not all(piece.endswith(b"\n") for piece in taken):
            calls.wrong.append(f"{title}: one ends within a line")
    title = "an output that takes a part and then nothing"
    if calls.wants(title):
        reads, takes = os.pipe()
        os.set_blocking(takes, False)
        run = subprocess.run([calls.program, "run", "wire", "long"], cwd=calls.folder, env=QUIET, stdin=subprocess.DEVNULL, stdout=takes, timeout=60)
        os.close(takes)
        taken = b""
        while piece := os.read(reads, 1 << 20):
            taken += piece
        os.close(reads)
        is_beginning = wire_text(wire_scans(20_000)).encode().startswith(taken)
        calls.judge(title, (NO_WRITE, b"a beginning"), (run.returncode, b"a beginning" if is_beginning and taken else b"other bytes"))
    title = "a file that may have 10,000 bytes"
    if calls.wants(title):
        with open(calls.folder / "out", "wb") as out:
            run = subprocess.run([calls.program, "run", "wire", "some"], cwd=calls.folder, env=QUIET, stdin=subprocess.DEVNULL, stdout=out,
                                 preexec_fn=small_files, timeout=60)
        calls.judge(title, (NO_WRITE, text[:10_000]), (run.returncode, (calls.folder / "out").read_bytes()))


def small_files():
    """No file may grow past 10,000 bytes; the signal that says so is ignored."""
    signal.signal(signal.SIGXFSZ, signal.SIG_IGN)
    resource.setrlimit(resource.RLIMIT_FSIZE, (10_000, 10_000))


def is_sanitized(program):
    """Whether the program was compiled with tests of memory, as one that nothing proved is: then neither limits nor shims serve."""
    return b"__asan_init" in pathlib.Path(program).read_bytes()


def memory(calls):
    """Status 7: under one of these limits memory is wanting, and nothing is written; under none is there a part."""
    title = "status 7"
    if not calls.wants(title):
        return
    if is_sanitized(calls.program):
        calls.skipped.append(f"{title} (the program was compiled with tests of memory)")
        return
    calls.write("many", stops(400, 512, False))
    whole = (DONE, stop_texts(400, 512, False)["run"].encode())
    ends = set()
    for most in range(1, 33):
        limit = lambda most=most: resource.setrlimit(resource.RLIMIT_AS, (most << 20, most << 20))
        try:
            run = subprocess.run([calls.program, "run", "many", "stops"], cwd=calls.folder, env=QUIET, stdin=subprocess.DEVNULL,
                                 stdout=subprocess.PIPE, stderr=subprocess.DEVNULL, preexec_fn=limit, timeout=60)
        except (OSError, subprocess.SubprocessError):
            continue  # the system finds no room to start it
        ends.add(run.returncode)
        is_started = run.returncode in range(NO_MEMORY)
        if run.stdout and (run.returncode, run.stdout) != whole or is_started and run.returncode != DONE:
            calls.wrong.append(f"with {most} MiB: status {run.returncode} and {len(run.stdout)} bytes")
    calls.judge(title, (True, b""), (NO_MEMORY in ends, b""))


def shims(calls):
    """Reads and writes that do less than they are asked, that are interrupted, or that fail on the way."""
    title = "reads and writes cut short"
    if not calls.wants(title):
        return
    if not shutil.which("cc"):
        calls.skipped.append(f"{title} (no C compiler `cc` on this machine)")
        return
    calls.write("shim.c", SHIM)
    subprocess.run(["cc", "-shared", "-fPIC", "-o", "shim.so", "shim.c", "-ldl"], cwd=calls.folder, check=True)
    scans = wire_scans(2_000)
    calls.write("some", wire_trace(scans))
    each_under(calls, title, ["run", "wire", "some"], (DONE, wire_text(scans).encode()))
    for words, status in COMMANDS:
        got = calls.run(words)
        calls.judge(f"{' '.join(words)}: before its reads and writes fail", (status, b""), (got[0], b""))
        each_under(calls, title, words, got, reads=words[0] != "load" and status != USAGE)


def each_under(calls, title, words, whole, reads=True):
    """A call whose whole answer is this, where reads and writes are cut short, interrupted or failed in turn: it is answered so, or the
    failure is told, behind whole lines of the answer."""
    name = " ".join(words)

    def under(**how):
        given = {"LD_PRELOAD": str(calls.folder / "shim.so"), **{key: str(value) for key, value in how.items()}}
        return calls.run(words, env=given)

    def is_cut(got, status):
        return got[0] == status and whole[1].startswith(got[1]) and (status == NO_WRITE or got[1][-1:] in (b"", b"\n"))

    for how in ({"READ_MOST": 7}, {"WRITE_MOST": 5}, {"READ_MOST": 1000, "WRITE_MOST": 1000}):
        calls.judge(f"{title}, {name}: {how}", whole, under(**how))
    for key, status in (("READ_INTERRUPTED", NO_READ), ("WRITE_INTERRUPTED", NO_WRITE)):
        for every in (2, 3, 5):
            got = under(**{key: every})
            calls.judge(f"interrupted, {name}: {key} {every}", (True, b""), (got == whole or is_cut(got, status), b""))
    for key, status in (("READ_BROKEN", NO_READ), ("WRITE_BROKEN", NO_WRITE)):
        broken = 0
        for call in range(1, 12):
            got = under(**{key: call})
            broken += got[0] == status
            calls.judge(f"failed, {name}: {key} {call}", (True, b""), (got == whole or is_cut(got, status), b""))
        if broken < 1 and (reads or key == "WRITE_BROKEN"):
            calls.wrong.append(f"{name}, {key}: none of these calls failed, so the shim is not in their way")


PARTS = (statuses, odd_bytes, pieces, outputs, writes, limits, memory, shims)


def main(words):
    if len(words) not in (1, 2) or words[0].startswith("-"):
        return None
    program = str(pathlib.Path(words[0]).resolve())
    if not os.path.isfile(program) or not os.access(program, os.X_OK):
        raise Stop(f"{words[0]} is no program")
    with tempfile.TemporaryDirectory(prefix="plcsafe-calls-") as folder:
        calls = Calls(program, pathlib.Path(folder), words[1] if len(words) > 1 else "")
        for part in PARTS:
            part(calls)
    for line in calls.wrong:
        print("another answer:", line)
    for line in calls.skipped:
        print("skipped:", line)
    print(f"{calls.count} calls, {len(calls.wrong)} with another answer")
    return 1 if calls.wrong or not calls.count else 0


if __name__ == "__main__":
    plainly(main, "tools/calls.py PROGRAM [WORD]")
