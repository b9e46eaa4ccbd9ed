#!/usr/bin/env python3
"""Compares what plcsafe-bench campaign counts with a count of its own, trial by trial, and what sum adds with one call.

campaigns.py [--count N] plcsafe-bench=FILE, or campaigns.py [--count N] PLCSAFE plcsafe-bench=FILE    the programs; the first is not
                                                                                called; N trials of each campaign, 40 where it is left out

Trials: the faults that `--print` writes are made one by one by `watch --faults`, over traces and cases of examples/; which of them trip,
and how long after the scan that was struck, is counted here and compared with the lines. Lines: those of two parts, added here, are those
of both together; with `--channel` no other channel is struck; nothing is told to be wrong. Words: calls whose words are not taken, whose
case there is not, or whose files are refused or gone, each with its status. Sums: the parts of a campaign are added by `sum` in every
order, and sums of them, and each sum is byte for byte what one call writes; files of another application or trace, cut off at each byte,
mixed, empty, too large or no counts at all are refused at the line that is known beforehand. Read once: an application and a trace that get
other bytes while they are read are named by those that were run. The status is 0 where nothing differs.
"""
import collections
import csv
import hashlib
import itertools
import pathlib
import re
import subprocess
import sys
import tempfile

import swapping
from plainly import Stop, plainly

ROOT = pathlib.Path(__file__).resolve().parent.parent
EXAMPLES = ROOT / "examples"
LINE = re.compile(r"([AB]) (code|memory) (silent|differ|stuck|trap|report|wrong) (\d+)(?: sum (\d+) largest (\d+) table((?: \d+:\d+)+))?")
FAULT = re.compile(r"before (\d+) (?:turn \d+ )?([AB]) (code|memory) \d+ [0-9a-f]{2}")

# An application and what stands in the place of a trace, each with the channel that is struck alone, if one is.
CAMPAIGNS = [
    ("press/press", "press/closing.trace", None), ("stop/motor", "stop/restart.trace", "A"), ("tutorial/door", "tutorial/door.cases:12", "B"),
]

# Words behind `campaign`, each with the status of the call.
CALLS = [
    ("stop/motor.st stop/restart.trace 0 0", 0), ("stop/motor.st stop/restart.trace 4294967295 1", 0), ("stop/motor.st stop/restart.trace 0", 2),
    ("stop/motor.st stop/restart.trace x 1", 2), ("stop/motor.st stop/restart.trace 0 -1", 2), ("stop/motor.st stop/restart.trace 0 4294967296", 2),
    ("stop/motor.st stop/restart.trace 0 1 --channel C", 2), ("tutorial/door.st tutorial/door.cases:1 0 1", 2), ("stop/motor.st stop/motor.st 0 1", 3),
    ("stop/restart.trace stop/restart.trace 0 1", 1), ("stop/motor.st stop/gone.trace 0 1", 5), ("stop/gone.st stop/restart.trace 0 1", 5),
]


# The first numbers of parts of a campaign of 40 trials, and where the last one ends.
PARTS = (0, 7, 20, 21, 40)
LARGEST = 2**64 - 1
HEAD = f"application {'0' * 64}\ntrace {'a' * 64}\n"

# Texts that are no counts, each with the line that is refused.
FORMLESS = [
    ("nothing", "", 1), ("a trace", "time S_Stop Ack Run\n0 0 0 0\n", 1), ("an application", "PROGRAM P\nEND_PROGRAM\n", 1),
    ("half a head", HEAD[:77], 2), ("a head without its end", HEAD[:-1], 2), ("capital digits", HEAD.replace("a" * 64, "A" * 64), 2),
    ("a digit less", HEAD.replace("0" * 64, "0" * 63), 1), ("a digit more", HEAD.replace("0" * 64, "0" * 65), 1),
    ("lines of CR LF", HEAD.replace("\n", "\r\n"), 1), ("a mark", "\ufeff" + HEAD, 1), ("an empty line", HEAD + "\n", 3), ("an empty line before", "\n" + HEAD, 1),
    ("no trial", HEAD + "A code silent 0\n", 3), ("a leading 0", HEAD + "A code silent 04\n", 3), ("no end", HEAD + "A code silent 4", 3),
    ("a sign", HEAD + "A code silent +4\n", 3), ("a blank more", HEAD + "A code silent 4 \n", 3), ("another channel", HEAD + "C code silent 4\n", 3),
    ("another word", HEAD + "A code wrong 1\nA code quiet 4\n", 4), ("a line twice", HEAD + "A code silent 4\nA code silent 4\n", 4),
    ("another order", HEAD + "B code silent 4\nA code silent 4\n", 4), ("latencies of none", HEAD + "A code silent 4 sum 0 largest 0 table 0:4\n", 3),
    ("no latencies", HEAD + "A code trap 4\n", 3), ("half a table", HEAD + "A code trap 4 sum 0 largest 0 table 0:\n", 3),
    ("no such column", HEAD + "A code trap 4 sum 12 largest 3 table 3:4\n", 3), ("a column of none", HEAD + "A code trap 4 sum 0 largest 0 table 0:4 1:0\n", 3),
    ("columns in another order", HEAD + "A code trap 4 sum 2 largest 1 table 1:2 0:2\n", 3), ("a count that is too large", HEAD + f"A code silent {LARGEST + 1}\n", 3),
    ("a latency that is too large", HEAD + f"A code trap 1 sum 0 largest {2**32} table 0:1\n", 3), ("two campaigns", HEAD + "A code silent 4\n" + HEAD, 4),
    ("a fault", "before 1 A code 0 00\n" + HEAD, 1),
]

# Lines of trips that none have, and beside each one that some have: the count is that of the table; the largest latency is of its last
# column; the sum is not less than that of the least latencies with one largest, nor more than that of the largest ones.
IMPOSSIBLE = [
    ("2 sum 1 largest 5 table 4:1", "1 sum 5 largest 5 table 4:1"), ("2 sum 4 largest 4 table 4:1", "1 sum 4 largest 4 table 4:1"),
    ("1 sum 8 largest 4 table 4:2", "2 sum 8 largest 4 table 4:2"), ("1 sum 4 largest 4 table", "1 sum 4 largest 4 table 4:1"),
    ("1 sum 3 largest 3 table 4:1", "1 sum 7 largest 7 table 4:1"), ("1 sum 8 largest 8 table 4:1", "1 sum 8 largest 8 table 8:1"),
    ("2 sum 9 largest 4 table 4:1 8:1", "2 sum 15 largest 8 table 4:1 8:1"), ("1 sum 4 largest 5 table 4:1", "1 sum 5 largest 5 table 4:1"),
    ("2 sum 8 largest 5 table 4:2", "2 sum 9 largest 5 table 4:2"), ("2 sum 11 largest 5 table 4:2", "2 sum 10 largest 5 table 4:2"),
    ("2 sum 6 largest 5 table 2:1 4:1", "2 sum 7 largest 5 table 2:1 4:1"), ("2 sum 9 largest 5 table 2:1 4:1", "2 sum 8 largest 5 table 2:1 4:1"),
    ("2 sum 1 largest 1 table 0:2", "2 sum 1 largest 1 table 0:1 1:1"), ("1 sum 1 largest 0 table 0:1", "1 sum 0 largest 0 table 0:1"),
    (f"1 sum 1 largest {2**32 - 1} table 2147483648:1", f"1 sum {2**32 - 1} largest {2**32 - 1} table 2147483648:1"),
    (f"{LARGEST} sum {LARGEST - 1} largest 1 table 1:{LARGEST}", f"{LARGEST} sum {LARGEST} largest 1 table 1:{LARGEST}"),
    (f"{LARGEST - 1} sum 0 largest 0 table 0:{LARGEST}", f"{LARGEST} sum 0 largest 0 table 0:{LARGEST}"),
    (f"{LARGEST} sum {LARGEST} largest 0 table 0:{LARGEST}", f"{LARGEST} sum 1 largest 1 table 0:{LARGEST} 1:1"),
]


def expect(holds, what):
    """Ends the script where something does not hold."""
    if not holds:
        raise Stop(f"wrong: {what}")


def placed(words):
    """Words with the names of files of examples/ as they are named from here."""
    return [str(EXAMPLES / word) if "/" in word else word for word in words]


def campaign(bench, words):
    """What a campaign writes: its faults, its head and its counts."""
    run = subprocess.run([bench, "campaign", *words], stdout=subprocess.PIPE, stderr=subprocess.PIPE, text=True)
    expect(run.returncode == 0, f"campaign {' '.join(words)} ends with status {run.returncode}: {run.stderr}")
    lines = run.stdout.splitlines()
    faults = [line for line in lines if line.startswith("before ")]
    expect(lines[: len(faults)] == faults and len(lines) >= len(faults) + 2, f"the faults of campaign {' '.join(words)} stand before all else")
    return faults, lines[len(faults) : len(faults) + 2], counts(lines[len(faults) + 2 :])


def counts(lines):
    """The counts of lines: of each channel, region and outcome the count, the sum, the largest latency and the table."""
    told = {}
    for line in lines:
        found = LINE.fullmatch(line)
        expect(found and found.groups()[:3] not in told, f"this is no line of counts: {line}")
        channel, region, outcome, count, total, largest, table = found.groups()
        expect(outcome != "wrong" and (table is None) == (outcome == "silent"), f"this is no line of counts: {line}")
        columns = {int(floor): int(trips) for floor, trips in (column.split(":") for column in (table or "").split())}
        told[channel, region, outcome] = int(count), int(total or 0), int(largest or 0), columns
    return told


def floor_of(latency):
    """The least latency of the column of a latency."""
    return 1 << (latency.bit_length() - 1) if latency else 0


def added(one, other):
    """The counts of two campaigns together."""
    both = {}
    for key in one.keys() | other.keys():
        parts = [told[key] for told in (one, other) if key in told]
        columns = sum((collections.Counter(part[3]) for part in parts), collections.Counter())
        both[key] = sum(part[0] for part in parts), sum(part[1] for part in parts), max(part[2] for part in parts), dict(columns)
    return both


def outcome_of(bench, app, trace, fault, path):
    """The channel and the region that a fault strikes, and how long after the struck scan its run trips, if it does."""
    found = FAULT.fullmatch(fault)
    expect(found, f"this is no fault: {fault}")
    path.write_text(fault + "\n")
    run = subprocess.run([bench, "watch", app, trace, "--faults", str(path), "--format", "csv"], stdout=subprocess.PIPE, text=True)
    rows = list(csv.DictReader(run.stdout.splitlines()))
    trips = [int(row["@time"]) for row in rows if row["@trip"] == "1"]
    latency = trips[0] - int(rows[int(found[1]) - 1]["@time"]) if trips else None
    return found[2], found[3], latency


def by_trials(bench, count, folder):
    """Each campaign, trial by trial. How many trials there were."""
    for app, trace, channel in CAMPAIGNS:
        app, trace = str(EXAMPLES / app) + ".st", str(EXAMPLES / trace)
        only = ["--channel", channel] if channel else []
        faults, head, told = campaign(bench, [app, trace, "3", str(count), "--print", *only])
        expect(head[0] == f"application {hashlib.sha256(pathlib.Path(app).read_bytes()).hexdigest()}", f"the head names {app}: {head[0]}")
        expect(":" in trace or head[1] == f"trace {hashlib.sha256(pathlib.Path(trace).read_bytes()).hexdigest()}", f"the head names {trace}: {head[1]}")
        expect(len(faults) == count, f"{count} trials have {count} faults")
        expect(channel is None or all(f" {channel} " in fault for fault in faults), f"each fault strikes {channel}")
        found = [outcome_of(bench, app, trace, fault, folder / "one.faults") for fault in faults]
        expect(by_region(told) == counted(found), f"what campaign counts over {trace} is what watch shows:\n{told}\n{found}")
        expect(sum(line[0] for line in told.values()) == count, f"all trials over {trace} are counted")
        half = count // 2
        parts = [campaign(bench, [app, trace, str(first), str(some), *only]) for first, some in ((3, half), (3 + half, count - half))]
        expect(all(part[:2] == ([], head) for part in parts), f"the parts over {trace} have the same head, and no faults")
        expect(added(parts[1][2], parts[0][2]) == told, f"the parts over {trace} are together the whole")
    return count * len(CAMPAIGNS)


def by_region(told):
    """Counts by channel and region, and whether there was a trip."""
    both = {}
    for (channel, region, outcome), line in told.items():
        both = added(both, {(channel, region, outcome != "silent"): line})
    return both


def counted(found):
    """The same of trials one by one."""
    all_of_them = {}
    for channel, region, latency in found:
        line = (1, 0, 0, {}) if latency is None else (1, latency, latency, {floor_of(latency): 1})
        all_of_them = added(all_of_them, {(channel, region, latency is not None): line})
    return all_of_them


def sum_of(bench, files):
    """What `sum` writes of files, its status and its message."""
    run = subprocess.run([bench, "sum", *files], stdout=subprocess.PIPE, stderr=subprocess.PIPE, text=True)
    return run.stdout, run.returncode, run.stderr


def refuses(bench, files, line, place, what):
    """Whether `sum` refuses files with this line, and its message names the file at this place first."""
    told, status, message = sum_of(bench, files)
    expect((told, status) == (f"refused {line}\n", 3), f"sum refuses {what} with {line}: status {status}\n{told[:200]}")
    expect(message.startswith(f"{files[place]}:{line.split()[2]}: {line.split()[0]}: "), f"sum tells which file is refused, of {what}:\n{message}")


def written(folder, name, content):
    """The name of a file with this content."""
    path = folder / name
    path.write_bytes(content if isinstance(content, bytes) else content.encode())
    return str(path)


def told_of(bench, words):
    """What a campaign writes."""
    return subprocess.run([bench, "campaign", *placed(words.split())], stdout=subprocess.PIPE, check=True).stdout


def by_sums(bench, folder):
    """The parts of a campaign in every order, and files that are none. How many sums were made."""
    press, whole = "press/press.st press/closing.trace", told_of(bench, f"press/press.st press/closing.trace {PARTS[0]} {PARTS[-1] - PARTS[0]}")
    pieces = [told_of(bench, f"{press} {first} {last - first}") for first, last in zip(PARTS, PARTS[1:])]
    parts = [written(folder, f"{number}.counts", piece) for number, piece in enumerate(pieces)]
    none = written(folder, "none.counts", told_of(bench, f"{press} 5 0"))
    for order in itertools.permutations(parts):
        told, status, message = sum_of(bench, order)
        expect((told.encode(), status, message) == (whole, 0, ""), f"the sum of parts in any order is one campaign: {order}\n{told}")
    for one in (*parts, none):
        expect(sum_of(bench, [one])[0].encode() == pathlib.Path(one).read_bytes(), f"the sum of {one} alone is that file")
    sums = [written(folder, f"{name}.sum", sum_of(bench, some)[0]) for name, some in (("first", parts[:2]), ("last", [*parts[2:], none]))]
    expect(sum_of(bench, sums[::-1])[0].encode() == whole, "the sum of sums is one campaign")
    twice = counts(sum_of(bench, [parts[1], parts[1]])[0].splitlines()[2:])
    once = counts(pieces[1].decode().splitlines()[2:])
    expect(twice == added(once, once), "a file that is named twice counts twice")
    channels = [written(folder, f"{channel}.counts", told_of(bench, f"{press} 0 9 --channel {channel}")) for channel in "AB"]
    expect(sum_of(bench, channels)[1] == 0, "counts of both channels are added")
    other = written(folder, "other.counts", told_of(bench, "stop/motor.st stop/restart.trace 0 5"))
    trace = written(folder, "trace.counts", told_of(bench, "press/press.st press/strokes.trace 0 5"))
    faults = written(folder, "faults.counts", told_of(bench, f"{press} 0 5 --print"))
    for files, line, place, what in [
        ([parts[0], other], "U2 line 1", 1, "another application"), ([parts[0], parts[1], trace], "U3 line 2", 2, "another trace"),
        ([trace, parts[0]], "U3 line 2", 1, "another trace first"), ([other, trace], "U2 line 1", 1, "both"), ([parts[0], faults], "U1 line 1", 1, "faults"),
    ]:
        refuses(bench, files, line, place, what)
    return 24 + 14 + by_formless(bench, folder, parts[0], pieces[1]) + by_largest(bench, folder)


def by_formless(bench, folder, good, piece):
    """Files that are no counts, alone and behind one that has some; and one that is cut off at each byte."""
    for what, text, line in FORMLESS:
        file = written(folder, "formless", text)
        refuses(bench, [file], f"U1 line {line}", 0, what)
        refuses(bench, [good, file], f"U1 line {line}", 1, f"{what}, behind counts")
    for wrong, right in IMPOSSIBLE:
        head = HEAD + "A code silent 4\nA code trap "
        refuses(bench, [written(folder, "impossible", head + wrong + "\n")], "U1 line 4", 0, f"latencies that no trips have: {wrong}")
        told, status, _ = sum_of(bench, [written(folder, "possible", head + right + "\n")])
        expect((told, status) == (head + right + "\n", 0), f"latencies that some trips have are taken: {right}\n{told}")
    for end in range(len(piece)):
        file, lines = written(folder, "cut", piece[:end]), piece[:end].count(b"\n")
        if lines < 2 or not piece[:end].endswith(b"\n"):
            refuses(bench, [file], f"U1 line {lines + 1}", 0, f"a file that is cut off behind {end} bytes")
        else:
            expect(sum_of(bench, [file])[0].encode() == piece[:end], f"a file that ends with a line is taken: {end} bytes")
    for what, content, line in [("64 MiB of one byte", b"a" * 2**26, 1), ("64 MiB of lines", b"\n" * 2**26, 1), ("64 MiB behind counts", piece + b"\n" * 2**26, piece.count(b"\n") + 1)]:
        refuses(bench, [written(folder, "large", content)], f"U1 line {line}", 0, what)
    for files, what in ([good, str(folder)], "a folder"), ([str(folder / "gone"), good], "a file that is not there"):
        told, status, message = sum_of(bench, files)
        expect((told, status) == ("", 5) and message, f"sum of {what} ends with status 5: {status}\n{told}")
    told, status, message = sum_of(bench, [])
    expect((told, status) == ("", 2) and "Usage: " in message, f"sum of no file ends with status 2: {status}\n{told}")
    return 2 * (len(FORMLESS) + len(IMPOSSIBLE)) + len(piece) + 6


def by_largest(bench, folder):
    """Counts stay at the largest value."""
    line = "A code trap {0} sum {0} largest 4294967295 table 0:{0} 2147483648:{1}\n"
    few = HEAD + "A code trap 3 sum 4294967295 largest 4294967295 table 0:2 2147483648:1\n"
    full, some = written(folder, "full.counts", HEAD + line.format(LARGEST, LARGEST - 1)), written(folder, "some.counts", few)
    for files in ([full, some], [some, full], [full, full], [some, full, some]):
        told, status, _ = sum_of(bench, files)
        expect((told, status) == (HEAD + line.format(LARGEST, LARGEST), 0), f"counts stay at the largest value:\n{told}")
    return 4


def by_changes(bench, folder):
    """An application and a trace that get other bytes while they are read."""
    app, trace = folder / "swapped.st", folder / "swapped.trace"
    source = (EXAMPLES / "stop" / "motor.st").read_bytes()
    scans = b"time S_Stop Ack Run\n" + b"".join(b"%08d 1 0 1\n" % (10 * number) for number in range(600))
    commented = b"// a comment\n" * 700 + source
    for path, text, later in ((app, commented, commented.replace(b"a comment", b"A COMMENT")), (trace, scans, scans.replace(b" 1 0 1", b" 0 1 1"))):
        app.write_bytes(source)
        trace.write_bytes(scans)
        path.write_bytes(swapping.read_once(text, later))
        words = [bench, "campaign", app, trace, "0", "20"]
        wanted = subprocess.run(words, stdout=subprocess.PIPE, stderr=subprocess.DEVNULL).stdout
        got = swapping.written(words, path, text, later)
        if got is None:
            print("files that change while they are read: left out, the system gives no leases here")
            return
        expect(wanted and got == (wanted, 0), f"what is counted is of the bytes that were read, of {path.name}:\n{got}\n{wanted}")


def by_words(bench):
    """Each call of CALLS, with its status."""
    for words, status in CALLS:
        run = subprocess.run([bench, "campaign", *placed(words.split())], stdout=subprocess.PIPE, stderr=subprocess.PIPE, text=True)
        expect(run.returncode == status, f"campaign {words} ends with status {status}: {run.returncode}")
        expect(status == 0 or run.stderr, f"campaign {words} tells why")
        expect(status not in (2, 5) or not run.stdout, f"campaign {words} writes nothing:\n{run.stdout}")


def main(words):
    count = 40
    if words[:1] == ["--count"] and len(words) > 1:
        if not words[1].isdecimal():
            raise Stop(f"--count {words[1]}: this is no number")
        count, words = int(words[1]), words[2:]
    if len(words) not in (1, 2) or not words[-1].startswith("plcsafe-bench=") or words[0].startswith("-"):
        return None
    bench = pathlib.Path(words[-1].removeprefix("plcsafe-bench=")).resolve()
    if not bench.is_file():
        raise Stop(f"{bench} is no program")
    by_words(bench)
    with tempfile.TemporaryDirectory() as folder:
        trials, sums = by_trials(bench, count, pathlib.Path(folder)), by_sums(bench, pathlib.Path(folder))
        by_changes(bench, pathlib.Path(folder))
    print(f"{trials} trials made once more, {sums} sums, and {len(CALLS)} calls by their words")
    return 0


if __name__ == "__main__":
    plainly(main, "campaigns.py [--count N] [PLCSAFE] plcsafe-bench=FILE")
