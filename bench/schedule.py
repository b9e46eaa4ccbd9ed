"""How long a run of the gate takes on other numbers of processors, computed from what each of its tasks took in one that was measured.

A run is what `gate.py` writes to bench/out/gate.json. Its tasks are those of `rt ci`: of each crate its proof, the proof of its tests,
and its wrong bodies, with the seed that they begin with and the check after them if there are two or more. They are started as
`RT_JOBS=N rt ci` starts them: one job each, as many at once as there are processors, first those with the most lines of source that
wait for them, and wrong bodies if no proof is ready. What `rt ci` does before its first task and after its last one, and the
checks, are one after another. What it does meanwhile by itself, and what no look saw, is shared out over the tasks in proportion.
"""
import collections
import heapq
import os
import sys

sys.path.append(os.path.join(os.path.dirname(os.path.abspath(__file__)), "..", "tools"))
from sources import below

STEPS = ("proof", "compile", "tests", "compile tests", "seed", "bodies", "after")  # the processor seconds that a run has of each crate
FILLERS = ("seed", "body")  # the tasks that are started if no other one is ready
Task = collections.namedtuple("Task", "waits lines seconds")


def lowest_first(run, names=None):
    """The names of these crates, or of all, in the order in which `rt ci` takes them."""
    stands_on = {name: crate["on"] for name, crate in run["crates"].items()}
    return sorted(names or stands_on, key=lambda name: len(below(stands_on, name)))


def seconds_of(crate, step):
    """The processor seconds of a step of a crate. Those of the wrong bodies stand by their names."""
    found = crate["seconds"].get(step, 0.0)
    return sum(found.values()) if step == "bodies" and found else found


def in_tasks(run):
    """The processor seconds of all tasks of a run, as they were measured."""
    return sum(seconds_of(crate, step) for crate in run["crates"].values() for step in STEPS)


def tasks_of(run, names=None, with_bodies=True):
    """The tasks of `rt ci` over these crates, or over all, by crate and step, each after those that it waits for."""
    share = (run["rt"] - run["start"] - run["end"]) / (in_tasks(run) or 1)
    tasks = {}
    for name in lowest_first(run, names):
        crate = run["crates"][name]
        seconds, lines = crate["seconds"], crate["lines"]
        bodies = list(seconds.get("bodies", {}).values()) if with_bodies else []
        lows = [(low, "proof") for low in crate["on"]]
        tasks[name, "proof"] = Task(lows, lines, share * (seconds.get("proof", 0.0) + seconds.get("compile", 0.0)))
        tasks[name, "tests"] = Task(lows, lines * crate["has_tests"], share * (seconds.get("tests", 0.0) + seconds.get("compile tests", 0.0)))
        waits = [(name, "proof"), (name, "tests")]
        if len(bodies) > 1:
            tasks[name, "seed"] = Task(lows, 0, share * seconds.get("seed", 0.0))
            waits.append((name, "seed"))
        every = [(name, "body", number) for number in range(len(bodies))]
        tasks.update({key: Task(waits, lines, share * taken) for key, taken in zip(every, bodies)})
        if len(bodies) > 1:
            tasks[name, "after"] = Task(every, 0, share * seconds.get("after", 0.0))
    return tasks


def lines_waiting(tasks):
    """Of each task the lines of the longest chain of tasks that begins with it."""
    waiting = dict.fromkeys(tasks, 0)
    for key in reversed(list(tasks)):
        waiting[key] += tasks[key].lines
        for low in tasks[key].waits:
            waiting[low] = max(waiting[low], waiting[key])
    return waiting


def span(tasks, processors):
    """How many seconds the tasks take on so many processors."""
    waiting, lacks, waited_by = lines_waiting(tasks), {}, collections.defaultdict(list)
    for key, task in tasks.items():
        lacks[key] = len(set(task.waits))
        for low in set(task.waits):
            waited_by[low].append(key)
    left = sorted(tasks, key=lambda key: (key[1] in FILLERS, -waiting[key]))
    running, now = [], 0.0
    while left or running:
        for key in [key for key in left if not lacks[key]][: processors - len(running)]:
            left.remove(key)
            heapq.heappush(running, (now + tasks[key].seconds, key))
        now, ended = heapq.heappop(running)
        for key in waited_by[ended]:
            lacks[key] -= 1
    return now


def longest_chain(tasks):
    """The seconds of the longest chain of tasks, which no number of processors makes shorter, and its tasks."""
    best = {}
    for key, task in tasks.items():
        length, chain = max((best[low] for low in task.waits), default=(0.0, []))
        best[key] = (length + task.seconds, [*chain, key])
    return max(best.values(), default=(0.0, []))


def gate(run, processors):
    """How many seconds the whole gate takes on so many processors: `rt ci` and then the checks, one after another."""
    return run["start"] + span(tasks_of(run), processors) + run["end"] + run["checks"]


def first_answer(run, program, processors):
    """How many seconds the launcher takes to prove a program and those crates that it stands on, without their wrong bodies."""
    names = names_below(run, program)
    whole = sum(crate["lines"] for crate in run["crates"].values()) or 1
    share = sum(run["crates"][name]["lines"] for name in names) / whole
    return run["start"] * share + span(tasks_of(run, names, False), processors) + run["crates"][program]["seconds"].get("runs", 0.0)


def names_below(run, program):
    """A program's crate and those that it stands on."""
    return below({name: crate["on"] for name, crate in run["crates"].items()}, program)
