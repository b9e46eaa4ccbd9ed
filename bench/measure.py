"""Measures the program on files at its limits, and prints a table.

python3 measure.py [FOLDER [PROGRAM]]     FOLDER keeps the files that generate.py writes; the default is /tmp/plcsafe-bench

Run ./plcsafe once before, so that the program is built. Times are processor times on this machine, the least of nine
runs. The peak is the most memory that the process held, as GNU time says it. At the end the same stands as one table for a page.
Instructions, which no other work on the machine touches, are counted by instructions.py.
"""
import os
import shutil
import subprocess
import sys

HERE = os.path.dirname(os.path.abspath(__file__))
sys.path.append(os.path.join(HERE, "..", "tools"))
from plainly import plainly

BUILT = os.path.join(HERE, "..", "built", "ps_main", "program")
WORKBENCH = os.path.abspath(os.path.join(HERE, "..", "built", "ps_bench_main", "program"))
PROGRAM = os.path.abspath(sys.argv[2] if len(sys.argv) > 2 else BUILT)
MIB = 1 << 20
RUNS = 9
TRACES = ("motor-32.trace", "motor-64.trace")


def processor_time(command, folder, file):
    """The exit status and the processor time in seconds of a run that reads this file and whose outputs are thrown away."""
    with open(os.path.join(folder, file), "rb") as text:
        process = subprocess.Popen(command, cwd=folder, stdin=text, stdout=subprocess.DEVNULL, stderr=subprocess.DEVNULL)
        _, status, usage = os.wait4(process.pid, 0)
    return os.waitstatus_to_exitcode(status), usage.ru_utime + usage.ru_stime


def peak_of(command, folder, file):
    """The most memory that a run held, in MiB. GNU time starts it, since a child of this process begins with its memory."""
    words = ["/usr/bin/time", "-q", "-f", "%M", *command]
    with open(os.path.join(folder, file), "rb") as text:
        run = subprocess.run(words, cwd=folder, stdin=text, stdout=subprocess.DEVNULL, stderr=subprocess.PIPE, text=True, check=False)
    return float(run.stderr.split()[-1]) / 1024


def grows(name, folder, half, whole):
    """Runs a command on an input and on one twice as large, in turn, prints a line for each, and gives its row of the table. Each of
    the two is a title, the words and the file that is read as standard input."""
    found = []
    runs = [[processor_time(command, folder, file) for _, command, file in (half, whole)] for _ in range(RUNS)]
    for place, (title, command, file) in enumerate((half, whole)):
        status, seconds = runs[0][place][0], min(run[place][1] for run in runs)
        found.append((seconds, peak_of(command, folder, file)))
        print(f"{title:42} status {status}, {seconds:8.4f} s, peak {found[-1][1]:6.1f} MiB", flush=True)
    (less, small), (more, large) = found
    print(f"{'  twice the input takes':42} {more / less:.2f} times the time")
    return f"| `{name}` | {said(less)} | {said(more)} | {more / less:.2f} | {small:.1f} | {large:.1f} |"


def said(seconds):
    """A time as it stands in the table: in ms where it is short."""
    return f"{seconds:.2f} s" if seconds >= 1 else f"{seconds * 1000:.1f} ms"


def size(folder, file):
    return os.path.getsize(os.path.join(folder, file))


def sources(folder):
    """The rows of the commands over sources. A certificate is that of its source."""
    for file in ("limits-half", "limits"):
        with open(os.path.join(folder, f"{file}.cert"), "wb") as out:
            subprocess.run([PROGRAM, "cert", f"{file}.st"], cwd=folder, stdout=out, check=True)
    rows = []
    for command in ("check", "cert", "verify", "image", "demand"):
        both = []
        for file in ("limits-half", "limits"):
            words = [PROGRAM, command, f"{file}.st", *([f"{file}.cert"] if command == "verify" else [])]
            both.append((f"{command}, {size(folder, f'{file}.st') / MIB:.1f} MiB", words, os.devnull))
        rows.append(grows(command, folder, *both))
    return rows


def wide(folder):
    """The rows of `demand` where many signals demand many parts."""
    rows = []
    for of, half, whole in (("signals", "wide-signals", "wide"), ("parts", "wide-parts", "wide"), ("signals, of pairs", "wide-groups-half", "wide-groups")):
        both = [(f"demand, {part} the {of}", [PROGRAM, "demand", f"{file}.st"], os.devnull) for part, file in (("half", half), ("all", whole))]
        rows.append(grows(f"demand, by its {of}", folder, *both))
    return rows


def reasons(folder):
    """The row of `plcsafe-bench why` at the end of a chain through the application; none where that program is not built."""
    if not os.path.isfile(WORKBENCH):
        return []
    both = []
    for part, file in (("half", "chain-half"), ("all", "chain")):
        both.append((f"why, {part} the chain", [WORKBENCH, "why", f"{file}.st", f"{file}.trace", "90", "S_End"], os.devnull))
    return [grows("plcsafe-bench why", folder, *both)]


def traces(folder):
    """The rows of the commands over traces, and of a load. The fault strikes no scan, so that each is made in full."""
    with open(os.path.join(folder, "late.faults"), "w", encoding="ascii") as out:
        out.write("before 4000000000 A code 0 00\n")
    rows = []
    for command in ("run", "fault", "vote", "heal"):
        both = []
        for file in TRACES:
            words = [PROGRAM, command, "motor.st", file, *([] if command == "run" else ["late.faults"])]
            both.append((f"{command}, {size(folder, file) / MIB:.0f} MiB", words, os.devnull))
        rows.append(grows(command, folder, *both))
    loads = [(f"load {number}", [PROGRAM, "load", str(number)], os.devnull) for number in (500, 1000)]
    return [*rows, grows("load", folder, *loads)]


def tools(folder):
    """The rows of two tools of the system over the traces."""
    rows = []
    for words in (["cat"], ["wc", "-l"]):
        name = " ".join(words)
        rows.append(grows(name, folder, *((f"{name} < {file}", words, file) for file in TRACES)))
    return rows


def main(folder):
    if not os.path.isfile(PROGRAM):
        sys.exit("the program is not built: run ./plcsafe once")
    if not os.path.isfile(os.path.join(folder, "chain.st")):
        subprocess.run([sys.executable, os.path.join(HERE, "generate.py"), folder], check=True)
    rows = [*sources(folder), *wide(folder), *reasons(folder), *traces(folder), *tools(folder)]
    if shutil.which("valgrind") is None:
        print("valgrind is not installed, and instructions.py needs it to count instructions")
    print("| | time at half | time at the limits | twice the input takes | MiB at half | MiB at the limits |")
    print("|---|---|---|---|---|---|", *rows, sep="\n")
    return 0


def called(words):
    """The status of a call with these words."""
    is_taken = len(words) <= 2 and not any(word.startswith("-") for word in words)
    return main(words[0] if words else "/tmp/plcsafe-bench") if is_taken else None


if __name__ == "__main__":
    plainly(called, "bench/measure.py [FOLDER [PROGRAM]]")
