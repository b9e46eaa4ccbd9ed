#!/usr/bin/env python3
"""Proves and builds a program of this repository.

build.py [CRATE]                        builds the program where it is not built of the sources as they are; CRATE is ps_main
                                        where it is left out
build.py --check [CRATE]                only says by its status whether it is built (0) or not (1)
build.py --programs                     writes for each program its crate and its name: those that have a launcher at the top of the
                                        repository, and whose crate stands in crates.txt
build.py --fingerprints                 writes for each program its crate and the fingerprint of its sources
build.py --take FINGERPRINTS            takes the programs that `rt ci` has built in this repository, where their sources have these
                                        fingerprints now: those that they had before `rt ci` began
build.py --jobs                         writes how many proofs should run side by side here

What `rt ci` leaves in crates/CRATE/out says nothing of the sources that it was made from, and anybody can write there. So it is taken
by `--take` alone, from somebody who noted the fingerprints before the run, as .ci/run does.

The crates that the program stands on are laid into a folder of their own, without tests and wrong bodies, and `rt ci` proves them
there side by side, as many as `--jobs` says (or RT_JOBS, if it is set); what this machine has proved before of the same files it takes
as it is kept. On a terminal one line tells how far it is; elsewhere it is a plain line now and then. What `rt ci` says of a crate goes
to built/CRATE/build.log. The program and its record stand in built/CRATE (`sources.py`). The status is 0 where the program is built,
and 9 where it could not be.
"""
import contextlib
import fcntl
import os
import pathlib
import re
import shutil
import signal
import subprocess
import sys
import tempfile
import threading
import time

sys.path.insert(0, os.path.dirname(os.path.realpath(__file__)))
from plainly import plainly
from sources import BUILT, FOLDERS, NotComparable, Store, below, crates, fingerprint, rows_of

ROOT = pathlib.Path(__file__).resolve().parent.parent
PROGRAM = "ps_main"
NOT_BUILT = 9
MOST_MEMORY = 2_500_000_000  # bytes that the largest proof of a crate takes, and some to spare
FREE_MEMORY = re.compile(r"^MemAvailable:\s+(\d+) kB", re.M)
LIMITS = (  # of the control group: the file that has its limit, and the file and line that have what it holds
    ("/sys/fs/cgroup/memory.max", "/sys/fs/cgroup/memory.stat", re.compile(r"^anon (\d+)$", re.M)),
    ("/sys/fs/cgroup/memory/memory.limit_in_bytes", "/sys/fs/cgroup/memory/memory.stat", re.compile(r"^total_rss (\d+)$", re.M)),
)
STORED_RUN = ("args", "stdin", "stdout", "status", "data")  # what `rt ci` runs the program on, and what it has to write
CRATE_ENDED = re.compile(r"^rt: (\w+) (proved|NOT PROVED|is kept)\b")
FUNCTIONS = re.compile(r"^logic=proved functions=(\d+)")


def measured_costs(table=ROOT / "tools" / "costs.txt"):
    """The functions and processor seconds of each crate's proof, as bench/gate.py measured them last."""
    costs = {}
    if table.exists():
        for line in table.read_text().splitlines():
            words = line.partition("#")[0].split()
            if len(words) == 3:
                costs[words[0]] = (int(words[1]), float(words[2]))
    return costs


def text_of(path):
    """The text of a file, which is empty if there is none that can be read."""
    try:
        return pathlib.Path(path).read_text()
    except OSError:
        return ""


def free_memory():
    """The bytes of memory that are free, under the limit of the control group too, and 0 if the system does not say."""
    found = FREE_MEMORY.search(text_of("/proc/meminfo"))
    free = 1024 * int(found[1]) if found else 0
    for limit, holder, line in LIMITS:
        limit, held = text_of(limit).strip(), line.search(text_of(holder))
        if limit.isdecimal() and held:
            free = min(free, int(limit) - int(held[1]))
    return free


def jobs():
    """How many proofs run side by side: one a processor, and no more than memory holds.

    `rt ci` by itself reckons with up to eight times what a proof takes, and then leaves processors idle.
    """
    return max(1, min(len(os.sched_getaffinity(0)), free_memory() // MOST_MEMORY))


def guessed_cost(name):
    """The same of a crate that was never measured, by the length of its sources."""
    texts = [path.read_text() for path in sorted((ROOT / "crates" / name / "src").glob("**/*.rt"))]
    return sum(text.count("fn ") for text in texts), 0.12 * sum(text.count("\n") for text in texts) + 1


def counted(names):
    """How many crates these are, in words."""
    return f"{len(names)} crate{'' if len(names) == 1 else 's'}"


@contextlib.contextmanager
def alone_in(folder):
    """Waits until no other launcher works in a folder, and keeps them out meanwhile."""
    os.makedirs(folder, exist_ok=True)
    held = os.open(folder, os.O_RDONLY)
    try:
        fcntl.flock(held, fcntl.LOCK_EX)
        yield
    finally:
        os.close(held)


def lay(stage, names):
    """Lays these crates, and nothing else, into a folder that `rt ci` takes for the top of a repository."""
    (stage / ".git").mkdir()
    shutil.copy2(ROOT / "HANDLES", stage / "HANDLES")
    (stage / "crates.txt").write_text("".join(row + "\n" for row in rows_of(names)))
    for name in names:
        for part in (*FOLDERS, *STORED_RUN):
            held = ROOT / "crates" / name / part
            if held.is_dir():
                shutil.copytree(held, stage / "crates" / name / part, symlinks=True)
            elif held.is_file():
                shutil.copy2(held, stage / "crates" / name / part)


class Progress:
    """What is said while crates are proved: one line that changes on a terminal, and else a plain line a minute."""

    def __init__(self, name):
        self.name = name
        self.on_terminal = sys.stderr.isatty()
        self.said_at = 0.0
        self.shown = False

    def show(self, text, now):
        if self.on_terminal:
            width = shutil.get_terminal_size().columns - 1
            sys.stderr.write("\r\033[K" + f"{self.name}: {text}"[:width])
            sys.stderr.flush()
            self.shown = True
        elif now - self.said_at >= 60:
            self.said_at = now
            print(f"{self.name}: {text}", file=sys.stderr, flush=True)

    def end(self):
        if self.shown:
            sys.stderr.write("\r\033[K")
            self.shown = False


class Build:
    """One `rt ci` run over a program crate and those below it, and how far it is."""

    def __init__(self, crate, name):
        self.crate, self.name = crate, name
        self.stands_on = crates()
        self.names = below(self.stands_on, crate)
        self.store = Store(crate)
        self.log = os.path.join(self.store.folder, "build.log")
        measured = measured_costs()
        self.costs = {low: measured.get(low) or guessed_cost(low) for low in self.names}
        self.chain = {low: self.chain_above(low) for low in reversed(self.names)}
        self.proved, self.failed = [], []
        self.started = time.monotonic()
        self.progress = Progress(name)

    def say(self, text):
        print(f"{self.name}: {text}", file=sys.stderr, flush=True)

    def chain_above(self, low):
        """The processor seconds of the longest chain of crates that begins with this one and goes up."""
        users = [user for user in self.names if low in self.stands_on[user]]
        return self.costs[low][1] + max((self.chain_above(user) for user in users), default=0)

    def read(self, said):
        """Writes what `rt ci` says to the log, and takes from it which crates have ended."""
        functions = 0
        with open(self.log, "w", encoding="utf-8") as log:
            for line in said:
                log.write(line)
                log.flush()
                if found := FUNCTIONS.match(line):
                    functions = int(found[1])
                elif (ended := CRATE_ENDED.match(line)) and ended[1] in self.names:
                    (self.failed if ended[2] == "NOT PROVED" else self.proved).append(ended[1])
                    self.costs[ended[1]] = (functions or self.costs[ended[1]][0], self.costs[ended[1]][1])
                    functions = 0

    def left(self):
        """The part of all work that is done, and the seconds that are left by the speed so far, where that is known."""
        whole = sum(cost for _, cost in self.costs.values())
        waiting = [low for low in self.names if low not in self.proved]
        work = sum(self.costs[low][1] for low in waiting)
        share = 1 - work / max(whole, 1)
        if share < 0.05:
            return share, None
        processors = os.cpu_count() or 1
        at_once = min(processors, max(1, whole / max(self.chain.values())))
        slowness = (time.monotonic() - self.started) * at_once / (share * whole)
        return share, slowness * max(max(self.chain[low] for low in waiting) / 2, work / processors) if waiting else 0

    def tell(self):
        share, seconds = self.left()
        functions = sum(self.costs[low][0] for low in self.proved)
        every = sum(count for count, _ in self.costs.values())
        minutes = "" if seconds is None else f", about {max(1, round(seconds / 60))} min left"
        text = f"proved {len(self.proved)} of {counted(self.names)}, {functions} of {every} functions, {share:.0%}{minutes}"
        self.progress.show(text, time.monotonic())

    def run_in(self, stage):
        """Proves and builds all in this folder, and says what is wrong where it cannot. Whether that went well."""
        run = subprocess.Popen(["rt", "ci"], cwd=stage, stdin=subprocess.DEVNULL, stdout=subprocess.PIPE, stderr=subprocess.STDOUT,
                               env={"RT_JOBS": str(jobs()), **os.environ}, text=True, errors="replace", process_group=0)
        reader = threading.Thread(target=self.read, args=(run.stdout,), daemon=True)
        reader.start()
        try:
            while run.poll() is None:
                self.tell()
                time.sleep(0.2)
        except KeyboardInterrupt:
            os.killpg(run.pid, signal.SIGKILL)
            self.progress.end()
            self.say("interrupted")
            return False
        reader.join()
        self.progress.end()
        if run.returncode != 0:
            what = f"crate {self.failed[0]} could not be proved" if self.failed else "the program could not be built"
            self.say(f"{what}: read {os.path.relpath(self.log)}")
        return run.returncode == 0

    def run(self):
        """Proves and builds all, and keeps the program. Whether that went well."""
        self.say(f"proving {counted(self.names)} side by side; what this machine has proved before is taken as it is kept")
        with tempfile.TemporaryDirectory(prefix="plcsafe-") as folder:
            stage = pathlib.Path(folder)
            lay(stage, self.names)
            sources = fingerprint(self.names, root=folder)
            if not self.run_in(stage):
                return False
            program = stage / "crates" / self.crate / "out" / self.crate
            if not program.is_file():
                self.say(f"rt ci passed, and left no program: read {os.path.relpath(self.log)}")
                return False
            if fingerprint(self.names, root=folder) != sources:
                self.say("what was proved, or the kit, changed meanwhile: call it again")
                return False
            self.store.keep(program, sources, self.names)
        self.say(f"proved and built in {(time.monotonic() - self.started) / 60:.1f} min")
        if not self.store.is_current():
            self.say("the sources changed while they were proved: call it again")
            return False
        return True


def build(crate=PROGRAM, name="plcsafe"):
    """Proves and builds a program where it is not built of the sources as they are. Whether it is."""
    if not shutil.which("rt"):
        print(f"{name}: the command rt of the Rattle kit is not on the path", file=sys.stderr)
        return False
    for ending in (signal.SIGTERM, signal.SIGHUP):
        signal.signal(ending, signal.default_int_handler)
    try:
        with alone_in(os.path.join(BUILT, crate)):
            return Store(crate).is_current() or Build(crate, name).run()
    except (OSError, ValueError, NotComparable, shutil.Error) as error:
        print(f"{name}: the program cannot be built: {error}", file=sys.stderr)
        return False


def programs():
    """The programs that have a launcher at the top of the repository and a crate in crates.txt: each crate, and its program's name."""
    listed, found = crates(), []
    for path in sorted(ROOT.iterdir()):
        if path.is_file() and os.access(path, os.X_OK):
            found += re.findall(r'tools/launch\.py" (\w+) (\S+)', path.read_text(errors="replace"))
    return [(crate, name) for crate, name in found if crate in listed]


def fingerprints():
    """The fingerprint of the sources of each program, a line for each."""
    stands_on = crates()
    return "".join(f"{crate} {fingerprint(below(stands_on, crate))}\n" for crate, _ in programs())


def take(before):
    """Takes the programs that `rt ci` has built here of sources with these fingerprints. Whether all could be taken."""
    taken = True
    for crate, sources in (line.split() for line in before.splitlines()):
        program, names = ROOT / "crates" / crate / "out" / crate, below(crates(), crate)
        if program.is_file() and fingerprint(names) == sources:
            with alone_in(os.path.join(BUILT, crate)):
                Store(crate).keep(program, sources, names)
        else:
            print(f"build.py: the program of {crate} is not taken: there is none, or its sources changed", file=sys.stderr)
            taken = False
    return taken


def answer(flag, words):
    """The status of a call with these words behind its flag, or None where the words are not taken."""
    if flag == "--programs" and not words:
        print("".join(f"{crate} {name}\n" for crate, name in programs()), end="")
        return 0
    if flag == "--fingerprints" and not words:
        print(fingerprints(), end="")
        return 0
    if flag == "--jobs" and not words:
        print(jobs())
        return 0
    if flag == "--take" and len(words) == 1:
        return 0 if take(words[0]) else 1
    crate = words[0] if words else PROGRAM
    if flag not in ("", "--check") or len(words) > 1 or crate not in crates():
        return None
    if flag:
        return 0 if Store(crate).is_current() else 1
    return 0 if build(crate, dict(programs()).get(crate, crate)) else NOT_BUILT


def main(words):
    return answer(words.pop(0) if words and words[0].startswith("-") else "", words)


if __name__ == "__main__":
    plainly(main, "build.py [--check] [CRATE] | --programs | --fingerprints | --take FINGERPRINTS | --jobs")
