#!/usr/bin/env python3
"""Tries how the scripts of tools/, bench/ and dist/ end where they are called wrongly, or cannot read or write.

plain_tests.py [WORD]     the scripts whose name has WORD, else all

Each is called with the words of a wrong call, with files that are not there, are folders, have bytes that are no UTF-8 or are empty,
and with outputs that are closed, full, or that nobody reads. It may write what it has to say, but no traceback: it ends by itself, with
a status other than 0 where it could not do what it was asked, and with one line on standard error. The status is 0 where all do.
"""
import os
import pathlib
import subprocess
import sys
import tempfile

from plainly import DONE, NO_READER, NOT_TAKEN, STOPPED, plainly

ROOT = pathlib.Path(__file__).resolve().parent.parent
MANY = ["a"] * 9
# Of each script the calls that it cannot do: GONE, FOLDER, BYTES and EMPTY stand for a file that is not there, a folder, a file of bytes that
# are no UTF-8, and one without bytes; FULL for a file that does not take what is written.
CANNOT = {
    "tools/annotate": [[], MANY, ["GONE"], ["FOLDER"]],
    "tools/believed": [["--why"], ["--why", "ps_top.whole"], ["--why", "nothing", "scan_line"]],
    "tools/build.py": [["--check", "a", "b"], ["ps_nothing"], ["--take"], ["--take", "ps_main 0"], ["--take", "x"]],
    "tools/calls.py": [[], MANY, ["GONE"], ["FOLDER"], ["BYTES"]],
    "tools/campaigns.py": [[], MANY, ["BYTES"], ["BYTES", "plcsafe-bench=GONE"], ["plcsafe-bench=FOLDER"], ["plcsafe-bench=BYTES"], ["--count", "a"]],
    "tools/cases.py": [[], ["BYTES"], ["BYTES", "plcsafe-bench=GONE"], ["GONE", "plcsafe-bench=BYTES"], ["FOLDER", "plcsafe-bench=FOLDER"], ["--count", "a"]],
    "tools/check": [["nothing"], ["--program"], ["--program", "GONE"], ["--program", "FOLDER"], ["--log", "GONE"], ["--log", "FOLDER"], ["--list", "a"]],
    "tools/claims": [["nothing"], ["--write", "a"], ["--self-test", "--write"], MANY],
    "tools/colours.py": [[], ["nothing"], MANY],
    "tools/diagrams.py": [["nothing"], MANY],
    "tools/editor.py": [[], ["GONE"], ["FOLDER"], ["BYTES"]],
    "tools/edits": [MANY, ["GONE"], ["FOLDER"]],
    "tools/examples": [["GONE"], ["FOLDER"], ["BYTES"], ["plcsafe=GONE"], ["--write", "GONE"], ["--write", "--check"]],
    "tools/launch.py": [[], ["ps_nothing"], ["ps_nothing", "nothing"]],
    "tools/launcher_tests.py": [MANY, ["no_row_has_this_name"]],
    "tools/links": [["nothing"]],
    "tools/live.py": [[], MANY, ["BYTES"], ["BYTES", "plcsafe-bench=GONE"], ["GONE", "plcsafe-bench=BYTES"], ["FOLDER", "plcsafe-bench=FOLDER"], ["--minutes", "a"]],
    "tools/logs.py": [[], MANY, ["BYTES"], ["BYTES", "plcsafe-bench=GONE"], ["plcsafe-bench=FOLDER"], ["plcsafe-bench=BYTES"], ["--count", "a"]],
    "tools/messages.py": [[], ["GONE"], ["FOLDER"], ["--show", "BYTES", "no_mistake"], ["--write", "GONE"], ["a", "b", "c"]],
    "tools/plain_tests.py": [MANY, ["no_script_has_this_name"]],
    "tools/refusals": [[], ["nothing"], ["N2", "Z9"]],
    "tools/release": [[], MANY, ["one"], ["--verify"], ["--verify", "GONE"], ["--verify", "FOLDER"], ["--verify", "RECORDS"], ["--try", "a"], ["1.0", "FOLDER"], ["1.0", "EMPTY"]],
    "tools/report.py": [[], ["BYTES"], ["BYTES", "plcsafe-bench=GONE"], ["GONE", "plcsafe-bench=BYTES"], ["FOLDER", "plcsafe-bench=FOLDER"]],
    "tools/rows.py": [[], MANY, ["GONE"], ["FOLDER"], ["BYTES", "no_row"]],
    "tools/rules.py": [[], MANY, ["BYTES"], ["BYTES", "plcsafe-bench=GONE"], ["plcsafe-bench=FOLDER"], ["plcsafe-bench=BYTES"]],
    "tools/shared": [["nothing"], MANY],
    "tools/timing.py": [[], ["nothing"], MANY],
    "tools/wrong": [MANY, ["ps_nothing"]],
    "tools/waves.py": [[], ["BYTES"], ["BYTES", "plcsafe-bench=GONE"], ["GONE", "plcsafe-bench=BYTES"], ["FOLDER", "plcsafe-bench=FOLDER"]],
    "bench/allocations.py": [MANY, ["GONE"], ["FOLDER"], ["--few", "BYTES"]],
    "bench/functions.py": [[], ["ps_nothing"], ["ps_main", "a"], MANY],
    "bench/gate.py": [["ps_nothing"], ["--costs", "GONE"], ["--processors", "0"], ["--from"], ["--from", "GONE"], ["--from", "FOLDER"], ["--from", "BYTES"], ["--from", "EMPTY"],
                      ["--from", "RECORDS/RECORD.json"], ["--kept", "--from", "EMPTY"]],
    "bench/generate.py": [[], MANY, ["EMPTY"], ["EMPTY/below"]],
    "bench/hostile.py": [MANY, ["GONE"], ["FOLDER"], ["BYTES", "a"]],
    "bench/instructions.py": [[], ["nothing"], ["program", "FOLDER", "GONE"], ["program", "FOLDER", "FOLDER"], ["channels", "GONE"], ["channels", "FOLDER"], MANY],
    "bench/mutants.py": [["nothing"], MANY],
    "bench/measure.py": [MANY, ["FOLDER", "GONE"], ["FOLDER", "FOLDER"]],
    "bench/trials.py": [[], ["1"], ["a", "1"], ["1", "-1"], ["1", "²"], MANY, ["1", "1", "0", "GONE"], ["--few", "FOLDER"], ["--few", "BYTES"]],
    "dist/campaign-parallel": [[], ["a"], ["GONE", "a", "t", "0", "1"], ["FOLDER", "a", "t", "0", "1"], ["EMPTY", "a", "t", "x", "1"], ["EMPTY", "a", "t", "0", "1", "--print"]],
    "dist/campaign-slurm": [[], ["a"], ["EMPTY", "a", "t", "0", "1"], ["FOLDER", "a", "t", "0", "1"], ["new", "a", "t", "0", "x"], ["new", "a", "t", "0", "1", "--print"]],
    "dist/install": [["a", "b"], ["--help"]],
    "dist/vcd-bits": [["a", "b"], ["--help"], ["GONE"], ["FOLDER"]],
}
NO_HELP = ("tools/launch.py", "dist/campaign-parallel", "dist/campaign-slurm", "dist/install", "dist/vcd-bits")  # the words of the first are a program's, and the others are no Python


class Trial:
    """The calls of one run, and which of them did not end as they have to."""

    def __init__(self, folder):
        self.folder, self.count, self.wrong = folder, 0, []
        (folder / "FOLDER").mkdir()
        (folder / "FOLDER" / "file").write_bytes(b"a")
        (folder / "BYTES").write_bytes(b"PROGRAM \xff\xfe\x80\n")
        (folder / "EMPTY").write_bytes(b"")
        (folder / "RECORDS").mkdir()
        (folder / "RECORDS" / "RECORD.json").write_text("[1]")

    def call(self, script, words, stdin=subprocess.DEVNULL, **more):
        more = {"stdout": subprocess.PIPE, "stderr": subprocess.PIPE, **more}
        runner = [] if script.startswith("dist/") else [sys.executable]
        return subprocess.run([*runner, ROOT / script, *words], cwd=self.folder, stdin=stdin, timeout=120,
                              env={**os.environ, "HOME": str(self.folder)}, **more)

    def judge(self, title, run, statuses, most=1):
        """A call, which has to end with one of these statuses and so many lines on standard error at most."""
        self.count += 1
        errors = (run.stderr or b"").decode(errors="replace")
        if run.returncode not in statuses or errors.count("\n") > most or "Traceback" in errors or "Exception" in errors:
            self.wrong.append(f"{title}: status {run.returncode}, {errors[-300:]!r}")

    def script(self, script, calls):
        """All calls of a script."""
        for words in calls:
            self.judge(f"{script} {' '.join(words)}", self.call(script, words), (STOPPED, NOT_TAKEN, 9))
        if script in NO_HELP:
            return
        self.judge(f"{script} --nonsense", self.call(script, ["--nonsense"]), (NOT_TAKEN,))
        for words in (["-h"], ["--help"]):
            run = self.call(script, words)
            self.judge(f"{script} {words[0]}", run, (DONE,), 0)
            if not run.stdout:
                self.wrong.append(f"{script} {words[0]}: it writes nothing")
        reads, writes = os.pipe()
        os.close(reads)
        with os.fdopen(writes, "wb") as nobody, open("/dev/full", "wb") as full:
            self.judge(f"{script} --help, which nobody reads", self.call(script, ["--help"], stdout=nobody), (NO_READER,), 0)
            self.judge(f"{script} --help, to a full output", self.call(script, ["--help"], stdout=full), (STOPPED,))
        shell = ["/bin/sh", "-c", 'exec "$0" "$@" >&-', sys.executable, ROOT / script, "--help"]
        self.judge(f"{script} --help, to a closed output", subprocess.run(shell, stdin=subprocess.DEVNULL, stderr=subprocess.PIPE), (STOPPED,))


def annotated(trial):
    """`annotate` lets the lines of a run through as they are, whatever their bytes, and takes any application."""
    application = b"PROGRAM P // \xe4\xff\nVAR E : SF_EmergencyStop; END_VAR\nEND_PROGRAM\n"
    (trial.folder / "A").write_bytes(application)
    lines = b"0 S_Motor=0 E=1,0,8001\r\n\xff\xfe\x00 no line\n10 S_Motor=0 E=1,0,8002"
    for name in ("A", "BYTES", "EMPTY"):
        (trial.folder / "lines").write_bytes(lines)
        with open(trial.folder / "lines", "rb") as run:
            done = trial.call("tools/annotate", [name], stdin=run)
        trial.judge(f"tools/annotate of bytes, {name}", done, (DONE,) if name == "A" else (STOPPED,), name != "A")
        kept = b"".join(line for line in done.stdout.splitlines(True) if not line.startswith(b"      "))
        if kept.rstrip(b"\n") != lines or (b"idle -> 8001" in done.stdout) != (name == "A"):
            trial.wrong.append(f"tools/annotate, {name}: it writes {done.stdout!r}")
    reads, writes = os.pipe()
    os.close(reads)
    (trial.folder / "lines").write_bytes(b"0 S_Motor=0 E=1,0,8001\n" * 10_000)
    with os.fdopen(writes, "wb") as nobody, open(trial.folder / "lines", "rb") as run:
        trial.judge("tools/annotate of a long run, which nobody reads", trial.call("tools/annotate", ["A"], stdin=run, stdout=nobody), (NO_READER,), 0)
    shell = ["/bin/sh", "-c", 'exec "$0" "$@" <&-', sys.executable, ROOT / "tools/annotate", "A"]
    trial.judge("tools/annotate without an input", subprocess.run(shell, cwd=trial.folder, stdout=subprocess.PIPE, stderr=subprocess.PIPE), (STOPPED,))


def main(words):
    if len(words) > 1 or words and words[0].startswith("-"):
        return None
    chosen = {script: calls for script, calls in CANNOT.items() if not words or words[0] in script}
    lacking = [str(path.relative_to(ROOT)) for folder in ("tools", "bench", "dist") for path in sorted((ROOT / folder).iterdir())
               if path.is_file() and path.read_bytes().startswith(b"#!") and str(path.relative_to(ROOT)) not in CANNOT]
    with tempfile.TemporaryDirectory(prefix="plcsafe-plain-") as folder:
        trial = Trial(pathlib.Path(folder))
        for script, calls in chosen.items():
            trial.script(script, calls)
        if "tools/annotate" in chosen:
            annotated(trial)
    for line in [*(f"{script} is not tried" for script in lacking), *trial.wrong]:
        print("it ends otherwise:", line)
    print(f"{trial.count} calls of {len(chosen)} scripts, {len(trial.wrong) + len(lacking)} of them end otherwise than they may")
    return 1 if trial.wrong or lacking or not chosen else 0


if __name__ == "__main__":
    plainly(main, "tools/plain_tests.py [WORD]")
