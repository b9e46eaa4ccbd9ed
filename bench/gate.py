#!/usr/bin/env python3
"""Measures the gate: what each crate takes of processor time, step by step, and how long all takes on two and on four processors.

gate.py                  runs `rt ci` from nothing and then `tools/check` over the programs that were built, at the top of the repository
gate.py CRATE..          runs `rt ci` over these crates and those below them, from nothing, without the checks
gate.py --from FILE      runs nothing, and says it all again of the run that was written to FILE
gate.py --self-test      asks whether what is computed of a small made run is what was computed by hand
--kept                   runs plain `rt ci`, which takes what this machine proved before (nothing, if it proved nothing)
--processors N           also says how long N processors take
--costs                  writes the functions and processor seconds of each proof to tools/costs.txt, by which the launcher tells how
                         much is left; only of a whole run, from nothing, that passed

The run is written to bench/out/gate.json, and what `rt ci` said to bench/out/gate.log. Ten times a second it looks in /proc at what
`rt ci` has started. What a process uses after the last look at it is known when it has ended, since the system then adds it to the
time of `rt ci`; so all sums are those of the system's own clock. Other work on the machine makes these times longer. How long other
numbers of processors take is computed, as schedule.py says. The status is that of `rt ci` or of the checks.
"""
import collections
import contextlib
import json
import os
import pathlib
import re
import resource
import subprocess
import sys
import tempfile
import time

sys.path.append(os.path.join(os.path.dirname(os.path.abspath(__file__)), "..", "tools"))
import functions
import schedule
from build import PROGRAM, measured_costs
from plainly import Stop, plainly
from schedule import STEPS, seconds_of
from sources import FOLDERS, below, crates, kit_line

ROOT = pathlib.Path(__file__).resolve().parent.parent
OUT = ROOT / "bench" / "out"
TICKS, PAGE = os.sysconf("SC_CLK_TCK"), os.sysconf("SC_PAGE_SIZE")
COLUMNS = ("proof", "tests", "seed", "bodies", "after", "compile")
GONE = (OSError, IndexError, ValueError)  # what becomes of reading a process that has just ended
BETWEEN = 0.1  # seconds between two looks
RUNS = "runs"  # the step of a program or of tests that `rt ci` starts
PROVED = re.compile(r"^logic=proved functions=(\d+)")
OF_RUN = re.compile(r"/rt-run-[^/]*/bin/(\w+?)(?:_tests)?(?:\.by-rattle)?$")
TEST = re.compile(r"#\s*\[[^]]*\btest\b")
ALL_DONE = "every proof and must-fail edit was done in this run"
IS_KEPT = re.compile(r"^rt: .*( is kept: an earlier run|were tried by an earlier run|kept from earlier runs)", re.M)


def purpose(words):
    """What a process of these words is for: the crate, the step, and the number of a wrong body or its folder; nothing if it is none of these."""
    for word in words:
        if found := OF_RUN.search(word):
            return found[1], RUNS, None
    at = next((at for at, word in enumerate(words) if os.path.basename(word) in ("rattle", "rattle-link")), len(words))
    words = words[at:]
    if words and words[0].endswith("rattle-link") and "-o" in words[:-1]:
        made = os.path.basename(words[words.index("-o") + 1]).removesuffix(".by-rattle")
        return made.removesuffix("_tests"), "compile tests" if made.endswith("_tests") else "compile", None
    if "--crate-name" not in words[:-1]:
        return None
    crate = words[words.index("--crate-name") + 1]
    if "--test" in words:
        return crate, "tests", None
    if "--crate-checked" in words:
        return crate, "compile", None
    if words[1] == "build" or "-o" in words:
        return crate, "proof", None
    over = words[words.index("--incremental") + 1] if "--incremental" in words[:-1] else ""
    return crate, "seed" if os.path.basename(over) == "seed" else "bodies", over


class Process:
    """A process that `rt ci` has started: what it is for, whether it has one job, the most memory that a look saw, in GB, its processor
    seconds, and those of what it has started."""

    def __init__(self):
        self.purpose, self.has_one_job, self.most, self.own, self.started = None, False, 0.0, 0.0, 0.0

    @property
    def used(self):
        return self.own + self.started


def times_of(process):
    """When a process began, its GB of memory, its processor seconds, and those of what it started and what has ended."""
    numbers = pathlib.Path(f"/proc/{process}/stat").read_text().rpartition(")")[2].split()
    own, ended = (int(numbers[11]) + int(numbers[12])) / TICKS, (int(numbers[13]) + int(numbers[14])) / TICKS
    return int(numbers[19]), int(numbers[21]) * PAGE / 1e9, own, ended


def started_by(process):
    """The processes that a process has started and not yet waited for."""
    found = []
    for thread in os.listdir(f"/proc/{process}/task"):
        with contextlib.suppress(*GONE):
            found += map(int, pathlib.Path(f"/proc/{process}/task/{thread}/children").read_text().split())
    return found


class Watch:
    """What is known of a run of `rt ci`."""

    def __init__(self, top):
        self.top, self.own, self.ended = top, 0.0, 0.0  # rt itself, and all that it started and that has ended
        self.every, self.live = [], {}
        self.by_one_job, self.seeds = set(), {}  # crates whose seed has one job, and what their functions took
        self.unseen = 0.0  # of processes that no look saw
        self.made_up = 0.0  # what was used after the last look at a process
        self.before = None  # when the first task began
        self.until = 0.0  # when the last task had ended

    def look(self):
        """Looks at what there is now. What ends between its reading of the sum and of the processes is looked at once more."""
        for _ in range(5):
            _, _, own, ended = times_of(self.top)
            now = {}
            for child in started_by(self.top):
                with contextlib.suppress(*GONE):
                    now.update([self.seen(child)])
            if times_of(self.top)[3] == ended:
                break
        self.note(now, own, ended)

    def seen(self, child):
        """A process with its times as they are now."""
        born, memory, own, waited = times_of(child)
        process = self.live.get((child, born)) or Process()
        if not process.purpose:
            words = pathlib.Path(f"/proc/{child}/cmdline").read_bytes().decode(errors="replace").split("\0")
            process.purpose = purpose(words)
            process.has_one_job = "--jobs" in words and words[words.index("--jobs") + 1] == "1"
        process.own, process.started, process.most = own, waited, max(process.most, memory)
        for lower in started_by(child):
            with contextlib.suppress(*GONE):
                process.started += sum(times_of(lower)[2:])
        return (child, born), process

    def note(self, now, own, ended):
        """Takes what a look saw: the processes, and the seconds of rt and of all that has ended."""
        gone = [process for key, process in self.live.items() if key not in now]
        rest = ended - self.ended - sum(process.used for process in gone)
        for process in gone:
            process.own += rest / len(gone)
        self.made_up += rest if gone else 0.0
        self.unseen += 0.0 if gone else rest
        for process in (process for key, process in now.items() if key not in self.live):
            self.every.append(process)
        if any(self.is_task(process) for process in now.values()) and self.before is None:
            self.before = self.own + self.ended
        if any(self.is_task(process) for process in [*now.values(), *gone]):
            self.until = own + ended
        self.live, self.own, self.ended = now, own, ended
        for process in now.values():
            self.keep_seed(process)

    @staticmethod
    def is_task(process):
        return bool(process.purpose) and process.purpose[1] != RUNS

    def keep_seed(self, process):
        """Notes by function what a seed of one job took, once a wrong body over it has begun, and tells a seed from the check after the bodies."""
        if not self.is_task(process):
            return
        crate, step, over = process.purpose
        if step == "seed" and crate in self.seeds:
            process.purpose = crate, "after", over
        elif step == "seed" and process.has_one_job:
            self.by_one_job.add(crate)
        elif step == "bodies" and crate not in self.seeds:
            self.seeds[crate] = {}
            with contextlib.suppress(*GONE):
                kept = functions.files(pathlib.Path(over).parent / "seed") if over and crate in self.by_one_job else []
                costs = functions.costs(kept)[0].most_common(10) if kept else []
                self.seeds[crate] = {name: round(taken, 1) for name, taken in costs if taken >= 5}


def used_by(words, log, is_watched=False):
    """Runs a command at the top of the repository. Its status, what was seen of it, and its processor seconds by the system's clock."""
    before = resource.getrusage(resource.RUSAGE_CHILDREN)
    with open(log, "wb") as out:
        run = subprocess.Popen(words, cwd=ROOT, stdin=subprocess.DEVNULL, stdout=out, stderr=subprocess.STDOUT)
        watch = Watch(run.pid)
        while is_watched and run.returncode is None:
            with contextlib.suppress(*GONE):
                watch.look()
            time.sleep(BETWEEN)
            run.poll()
        status = run.wait()
    now = resource.getrusage(resource.RUSAGE_CHILDREN)
    return status, watch, now.ru_utime + now.ru_stime - before.ru_utime - before.ru_stime


def functions_of(said):
    """How many functions each crate has, by what rt ci said of its proof."""
    found, name = {}, None
    for line in said.splitlines():
        if line.startswith("== "):
            name = line[3:]
        elif (proved := PROVED.match(line)) and name:
            found[name] = int(proved[1])
    return found


def as_it_stands(name, lows):
    """What `rt ci` reckons with of a crate: those that it stands on, its lines of code, whether it has tests, and its wrong bodies."""
    folder = ROOT / "crates" / name
    texts = [path.read_text() for part in FOLDERS for path in (folder / part).glob("**/*.rt")]
    bodies = sorted(path.name for path in (folder / "must-fail").glob("*.edit"))
    return {"on": lows, "lines": sum(text.count("\n") for text in texts), "has_tests": any(map(TEST.search, texts)), "functions": 0,
            "GB": 0.0, "seconds": {}}, bodies


def add(crate, process, bodies):
    """Adds to a crate what a process of it took."""
    _, step, over = process.purpose
    seconds, name = crate["seconds"], os.path.basename(over or "")
    crate["GB"] = max(crate["GB"], round(process.most, 2))
    if step == "bodies":
        body = bodies[int(name) if name.isdigit() else 0] if bodies else name
        tried = seconds.setdefault("bodies", {})
        tried[body] = tried.get(body, 0.0) + process.used
    else:
        compiled = process.started if step != RUNS else 0.0
        seconds[step] = seconds.get(step, 0.0) + process.used - compiled
        if compiled:
            by = "compile tests" if step == "tests" else "compile"
            seconds[by] = seconds.get(by, 0.0) + compiled


def git(*words):
    run = subprocess.run(["git", *words], cwd=ROOT, stdin=subprocess.DEVNULL, stdout=subprocess.PIPE, stderr=subprocess.DEVNULL, text=True)
    return run.stdout.strip()


def crates_as_they_stand(names):
    """Of these crates and those below them, or of all, what `rt ci` reckons with, and the names of their wrong bodies."""
    stands_on = crates()
    wanted = {low for name in names for low in below(stands_on, name)} or set(stands_on)
    return {name: as_it_stands(name, lows) for name, lows in stands_on.items() if name in wanted}


def head():
    """What a run was made of, and on what."""
    return {"date": time.strftime("%Y-%m-%d", time.gmtime()), "commit": git("rev-parse", "--short=8", "HEAD"), "kit": kit_line().split()[0],
            "has_changes": bool(git("status", "--porcelain", "--untracked-files=no")), "processors": len(os.sched_getaffinity(0)),
            "RT_JOBS": os.environ.get("RT_JOBS", "")}


def by_crate(standing, watch, said):
    """What each crate took, by what was seen of the run and what `rt ci` said."""
    found = functions_of(said)
    for name, (crate, bodies) in standing.items():
        crate["functions"] = found.get(name, 0)
        for process in watch.every:
            if process.purpose and process.purpose[0] == name:
                add(crate, process, bodies)
    return {name: crate for name, (crate, _) in standing.items()}


def what_was_said(said, is_whole):
    """The last lines of `rt ci`, and whether all was done in this run."""
    lines = said.splitlines()
    return {"said": [line for line in lines[-40:] if line.startswith(("rt: ok", "rt: FAILED"))] + lines[-1:],
            "is_from_nothing": not IS_KEPT.search(said) and (ALL_DONE in said or not is_whole)}


def measure(words, names):
    """Runs the gate, or `rt ci` over these crates, and gives what is to be known of it."""
    OUT.mkdir(exist_ok=True)
    standing, started = crates_as_they_stand(names), time.monotonic()
    run = {**head(), "words": ["rt", "ci", *words], "is_whole": not names, "checks": 0.0, "check_said": "", "check_status": 0}
    run["status"], watch, run["rt"] = used_by(run["words"], OUT / "gate.log", is_watched=True)
    said = (OUT / "gate.log").read_text(errors="replace")
    run.update(what_was_said(said, run["is_whole"]))
    run.update(start=watch.before or 0.0, end=run["rt"] - watch.until, unseen=watch.unseen, made_up=watch.made_up)
    run["crates"] = by_crate(standing, watch, said)
    run["by_function"] = {name: taken for name, taken in watch.seeds.items() if taken}
    if run["is_whole"] and not run["status"]:
        run["check_status"], _, run["checks"] = used_by([str(ROOT / "tools" / "check"), "--log", str(OUT / "gate.log")], OUT / "check.log")
        run["check_said"] = ((OUT / "check.log").read_text(errors="replace").splitlines() or ["nothing"])[-1]
    run["wall"] = time.monotonic() - started
    (OUT / "gate.json").write_text(json.dumps(run, indent=1) + "\n")
    return run


def column(crate, step):
    return seconds_of(crate, step) + (seconds_of(crate, "compile tests") if step == "compile" else 0.0)


def row(of, name):
    """A row of the table: the seconds of these crates, step by step."""
    taken = [sum(column(crate, step) for crate in of) for step in COLUMNS]
    bodies, most = sum(len(crate["seconds"].get("bodies", {})) for crate in of), max((crate["GB"] for crate in of), default=0.0)
    return f"{name:20}{sum(crate['functions'] for crate in of):10}" + "".join(f"{seconds:9.1f}" for seconds in taken) + f"{sum(taken):9.1f}{bodies:5}{most:6.1f}"


def table(run):
    """The processor seconds of each crate, the costliest first, and those of all; how many wrong bodies it has, and its most memory."""
    sums = {name: sum(seconds_of(crate, step) for step in STEPS) for name, crate in run["crates"].items()}
    yield f"{'crate':20}{'functions':>10}" + "".join(f"{step:>9}" for step in COLUMNS) + f"{'all':>9}{'n':>5}{'GB':>6}"
    for name in sorted(sums, key=lambda name: -sums[name]):
        yield row([run["crates"][name]], name)
    yield row(list(run["crates"].values()), "all")


def by_function(run):
    """The costliest functions of those crates whose seed was seen."""
    every = [(taken, crate, name) for crate, taken_by in run["by_function"].items() for name, taken in taken_by.items()]
    if every:
        yield "functions, by the clock, of the crates with two wrong bodies or more"
    for taken, crate, name in sorted(every, reverse=True)[:20]:
        yield f"{taken:8.1f}  {crate}  {name}"


def told(chain):
    """A chain of tasks in words, each once."""
    words = {"proof": "", "tests": "'s tests"}
    return " ".join(dict.fromkeys(key[0] + words.get(key[1], "'s wrong bodies") for key in chain))


def counted(processors):
    return f"{processors} processor{'' if processors == 1 else 's'}"


def minutes(seconds):
    return f"{seconds / 60:6.1f} min"


def figures(run, processors):
    """What is said of a run, line by line."""
    whole = run["rt"] + run["checks"]
    ran = sum(crate["seconds"].get(RUNS, 0.0) for crate in run["crates"].values())
    tasks = schedule.in_tasks(run)
    between = run["rt"] - run["start"] - run["end"] - tasks
    yield (f"by the system's clock: {whole:.0f} s; {tasks:.0f} in the table, {run['start']:.0f} before the first proof, {run['end']:.0f} after the last one"
           f" ({ran:.0f} of them runs of programs and tests), {between:.0f} rt by itself, {run['checks']:.0f} checks")
    yield (f"looks alone missed {run['made_up'] + run['unseen']:.1f} s: {run['made_up']:.1f} of processes at their end, which are in the table,"
           f" and {run['unseen']:.1f} of processes that none saw, which are rt's")
    yield f"{'whole gate':28}{minutes(whole)} of processor time; this run {run['wall'] / 60:.1f} min by the clock, on {counted(run['processors'])}"
    for number in processors:
        yield f"{f'whole gate on {counted(number)}':28}{minutes(schedule.gate(run, number))}"
    length, chain = schedule.longest_chain(schedule.tasks_of(run))
    yield f"{'its longest chain':28}{minutes(length)}: {told(chain)}"
    if PROGRAM in run["crates"]:
        lows = schedule.names_below(run, PROGRAM)
        length, chain = schedule.longest_chain(schedule.tasks_of(run, lows, False))
        for number in processors:
            yield f"{f'first answer on {counted(number)}':28}{minutes(schedule.first_answer(run, PROGRAM, number))}, {len(lows)} crates"
        yield f"{'its longest chain':28}{minutes(length)}: {told(chain)}"
    changed = ", with changes" if run["has_changes"] else ""
    jobs = f", RT_JOBS={run['RT_JOBS']}" if run["RT_JOBS"] else ""
    yield f"{run['date']}, commit {run['commit']}{changed}, {run['kit']}: {' '.join(run['words'])}{jobs}"
    yield "nothing was kept from earlier runs" if run["is_from_nothing"] else "NOT FROM NOTHING: parts were kept from earlier runs, or rt ci did not pass"
    yield from run["said"]
    if run["check_said"]:
        yield run["check_said"]


def costs_text(run):
    """The table of tools/costs.txt: of a program with its compiling, since the launcher compiles it too."""
    rows = {name: (crate["functions"], seconds_of(crate, "proof") + seconds_of(crate, "compile")) for name, crate in sorted(run["crates"].items())}
    mean = sum(seconds for _, seconds in rows.values()) / max(len(rows), 1)
    head = (f"# crate, functions, processor seconds of its proof from nothing (bench/gate.py --costs), measured on {run['date']} of {run['commit']}"
            f" with {run['kit']}: {mean:.0f} s a crate")
    return "\n".join([head, *(f"{name} {count} {seconds:.0f}" for name, (count, seconds) in rows.items())]) + "\n"


def write_costs(run):
    if not run["is_whole"] or not run["is_from_nothing"] or run["status"]:
        raise Stop("tools/costs.txt stays as it is: only a whole run from nothing that passed says what all crates cost")
    (ROOT / "tools" / "costs.txt").write_text(costs_text(run))


def made(on, lines, proof, bodies=(), **seconds):
    """A crate of a made run."""
    tried = {"bodies": {f"{number}.edit": taken for number, taken in enumerate(bodies)}} if bodies else {}
    return {"on": on, "lines": lines, "has_tests": "tests" in seconds, "functions": 2, "GB": 1.0, "seconds": {"proof": proof, **tried, **seconds}}


def made_run():
    """A run whose figures were computed by hand: four crates, of which `right` has two wrong bodies and `low` one."""
    found = {"low": made([], 10, 60.0, [40.0]), "left": made(["low"], 30, 120.0), "right": made(["low"], 20, 60.0, [30.0, 20.0], seed=60.0, after=10.0),
             PROGRAM: made(["left", "right"], 5, 30.0, compile=10.0, runs=2.0)}
    return {"date": "2026-12-01", "commit": "0", "has_changes": False, "kit": "kit", "words": ["rt", "ci"], "processors": 4, "RT_JOBS": "", "crates": found,
            "by_function": {}, "rt": 460.0, "start": 13.0, "end": 7.0, "unseen": 0.0, "made_up": 0.0, "checks": 20.0, "wall": 0.0,
            "said": [], "check_said": "", "status": 0, "check_status": 0, "is_whole": True, "is_from_nothing": True}


def seen_by(looks):
    """What a watch knows after these looks: of each the processes by their numbers, rt's seconds, and those of all that has ended."""
    watch = Watch(0)
    for now, own, ended in looks:
        found = {}
        for key, (words, used) in now.items():
            found[key] = watch.live.get(key) or Process()
            found[key].purpose, found[key].own = purpose(words.split()), used
        watch.note(found, own, ended)
    return watch


def self_test():
    """Whether all is as it was computed by hand. One processor takes the 440 of the tasks and 40 around them. On two `low` ends at 60,
    `right` at 120 and `left` at 180; then the seed of `right`, which stands before the body of `low` by its lines, at 180, its bodies at
    210 and 230 and their check at 240, and beside these ps_main at 220 and the body of `low` at 260. On three the seed begins at 60, so
    that ps_main is the last, at 220."""
    run = made_run()
    tasks = schedule.tasks_of(run)
    watch = seen_by([({}, 1.0, 0.0), ({}, 2.0, 0.5), ({1: ("rattle build --crate-name low -o x", 3.0)}, 2.0, 0.5), ({}, 2.5, 3.75),
                     ({2: ("rattle check --crate-name low --incremental /gone/seed", 4.0), 3: ("sh /tmp/rt-run-1/bin/low_tests", 1.0)}, 3.0, 3.75),
                     ({4: ("rattle check --crate-name low --incremental /gone/0", 1.0)}, 3.0, 9.0),
                     ({5: ("rattle check --crate-name low --incremental /gone/seed", 1.0)}, 3.0, 10.5), ({}, 4.0, 11.5)])
    with tempfile.TemporaryDirectory() as folder:
        costs = pathlib.Path(folder) / "costs.txt"
        costs.write_text(costs_text(run))
        read_back = measured_costs(costs)
    rows = [
        ("one processor", schedule.gate(run, 1), 480.0),
        ("two processors", schedule.gate(run, 2), 300.0),
        ("three processors", schedule.gate(run, 3), 260.0),
        ("longest chain", schedule.longest_chain(tasks), (220.0, [("low", "proof"), ("left", "proof"), (PROGRAM, "proof")])),
        ("sum of the tasks", sum(task.seconds for task in tasks.values()), 440.0),
        ("first answer on two", schedule.first_answer(run, PROGRAM, 2), 13.0 + 220.0 + 2.0),
        ("costs", read_back, {"low": (2, 60.0), "left": (2, 120.0), "right": (2, 60.0), PROGRAM: (2, 40.0)}),
        ("processes", [(*process.purpose[:2], process.used) for process in watch.every],
         [("low", "proof", 3.25), ("low", "seed", 4.125), ("low", RUNS, 1.125), ("low", "bodies", 1.5), ("low", "after", 1.0)]),
        ("what no look saw", (watch.unseen, watch.made_up), (0.5, 1.0)),
        ("begin and end of the tasks", (watch.before, watch.until), (2.5, 15.5)),
        ("tests", purpose("python3 -ISc x /kit/bin/rattle build --crate-name a src/lib.rt --test -o out/a_tests.o".split())[:2], ("a", "tests")),
        ("compiling", purpose("/kit/bin/rattle build --crate-name a src/main.rt --crate-checked c -o out/a.o".split())[:2], ("a", "compile")),
        ("linking", purpose("/kit/bin/rattle-link -o out/a.by-rattle out/a.by-rattle.o".split())[:2], ("a", "compile")),
        ("a program's run", purpose("setpriv /tmp/rt-run-7-x/bin/a.by-rattle run".split())[:2], ("a", RUNS)),
        ("a body from nothing", purpose("rattle check --crate-name a src/lib.rt --jobs 1".split()), ("a", "bodies", "")),
        ("reading", purpose("rattle fmt --tokens a.rt".split()), None),
        ("functions", functions_of("== a\nlogic=proved functions=3 sum=0\nrt: a proved\n== a: its tests\nlogic=proved functions=9\n")["a"], 3),
    ]
    wrong = [f"{name}: {found}, and not {wanted}" for name, found, wanted in rows if found != wanted]
    print("\n".join([*wrong, f"{len(rows)} figures of a made run, {len(wrong)} of them other than by hand"]))
    return 1 if wrong else 0


def read_run(file):
    """A run that was written before."""
    run = json.loads(pathlib.Path(file).read_text())
    if not isinstance(run, dict) or "crates" not in run:
        raise Stop(f"{file} is no run of bench/gate.py")
    return run


def say(run, processors):
    """Says what is to be said of a run. Its status."""
    for line in [*table(run), *by_function(run), *figures(run, processors)]:
        print(line)
    return run["status"] or run["check_status"]


def main(words):
    if words == ["--self-test"]:
        return self_test()
    flags = collections.Counter()
    names, processors, file = [], [2, 4], None
    words = list(words)
    while words:
        word = words.pop(0)
        if word in ("--costs", "--kept"):
            flags[word] += 1
        elif word == "--processors" and words and words[0].isdecimal() and 1 <= int(words[0]) <= 1000:
            processors.append(int(words.pop(0)))
        elif word == "--from" and words:
            file = words.pop(0)
        elif word.startswith("-"):
            return None
        else:
            names.append(word)
    if unknown := [name for name in names if name not in crates()]:
        raise Stop(f"crates.txt has no crate {unknown[0]}")
    if file and (names or flags["--kept"]) or flags["--costs"] and names:
        return None
    run = read_run(file) if file else measure([*([] if flags["--kept"] else ["--anew"]), *names], names)
    status = say(run, sorted(set(processors)))
    if flags["--costs"]:
        write_costs(run)
    return status


if __name__ == "__main__":
    plainly(main, "bench/gate.py [--costs] [--kept] [--processors N] [CRATE.. | --from FILE] | --self-test")
