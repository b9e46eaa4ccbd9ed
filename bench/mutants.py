#!/usr/bin/env python3
"""Wrong programs, each of which the campaign of `bench/trials.py` has to find.

mutants.py               makes all of them, one after the other, and prints for each after how many trials it was found
mutants.py NAME..        these alone
mutants.py --list        their names, and what is wrong in each

A mutant is an edit of a copy of the sources: one function of the world, a seat, a machine or a compiler is wrong. The copy is compiled and
not proved, since no prover would accept it, which takes a minute each. The status is 0 where all are found within 20,000 trials.
"""
import os
import pathlib
import shutil
import subprocess
import sys
import tempfile

HERE = pathlib.Path(__file__).resolve().parent
ROOT = HERE.parent
sys.path.append(str(ROOT / "tools"))
from plainly import Stop, plainly
from trials import compile_oracle

SEED, CASES = 1, 200
WORLD, VOTES, SEATS = "crates/ps_world/src/world.rt", "crates/ps_vote/src/world.rt", "crates/ps_machine/src/seat.rt"
EQUATIONS = "crates/ps_eqvm/src/channel.rt"

# The name of a mutant, what is wrong, the file, and pairs of an old text, which stands there once, and a new one.
MUTANTS = [
    ("never-differ", "two reports never differ", "crates/ps_model/src/report.rt", [
        ("if self.outs.at(j) != other.outs.at(j) {", "if self.outs.at(j) != self.outs.at(j) {"),
        ("self.diags.at(i).first_difference(other.diags.at(i))", "self.diags.at(i).first_difference(self.diags.at(i))")]),
    ("blind-to-codes", "two reports with other codes alone do not differ", "crates/ps_model/src/report.rt", [
        ("} else if self.code != other.code {", "} else if self.code != self.code {")]),
    ("idle-overwrite", "a fault changes nothing in the code and cells of A and C, and in the code of B", "crates/ps_machine/src/bytes.rt", [
        ("    replace(region, at, new);\n    Ok(())", "    Ok(())")]),
    ("trap-1", "every trap is told as trap 1", SEATS, [
        ("Progress::Trapped(n) => Err(Failing::Trap(n)),", "Progress::Trapped(_) => Err(Failing::Trap(1)),")]),
    ("spared-flipped", "in a struck scan the first output of the spared channel is flipped", WORLD, [
        ("        self.take_turns(faults);\n", """        self.take_turns(faults);
        let (spared, first) = match faults[0].channel {
            Channel::A => (Channel::B, 61),
            Channel::B => (Channel::A, 74),
        };
        let plain: u8 = if self.field_value(spared, 0) == Some(1) { 0 } else { 1 };
        let byte = if spared == Channel::B { 255 - plain } else { plain };
        let _flipped = self.spoil(spared, Region::Cells, first + scan.ins.len() as u32, &[byte]);
""")]),
    ("healed-timer", "a timer of a healed seat B begins anew", "crates/ps_eqvm/src/counting.rt", [
        ("limit.saturating_sub(now.saturating_sub(number_in_four(bytes, 5)))", "limit.saturating_sub(now.saturating_sub(now))")]),
    ("healed-code", "a healed seat B keeps its code as it is", EQUATIONS, [
        ("        self.renew(image);\n        store_counted", "        self.plain.clear();\n        store_counted")]),
    ("restarted-cells", "a restart leaves the cells of channel B", EQUATIONS, [
        ("        self.code.copy_from_slice(image.as_slice());\n        self.plain.clear();", "        self.code.copy_from_slice(image.as_slice());")]),
    ("vote-of-a", "where seat A is outvoted, its report is released", VOTES, [
        ("let _read = report_into(&self.b, into);", "let _read = report_into(&self.a, into);")]),
    ("odd-store", "a STORE of channel A takes any byte", "crates/ps_stackvm/src/stack.rt", [
        ("    let byte = cells[STACK_AT + (height - 1)];\n    if byte > 1 {",
         "    let byte = cells[STACK_AT + (height - 1)];\n    if byte > 254 {")]),
    ("no-begin", "both channels begin no scan whose time ends in 7", SEATS, [
        ("        self.channel.begin(scan);\n        self.turns = 0;",
         "        if scan.now % 10 != 7 {\n            self.channel.begin(scan);\n        }\n        self.turns = 0;")]),
    ("one-turn-more", "a channel may make one turn more than its budget", SEATS, [
        ("self.channel.progress() != Progress::Running || self.budget <= self.turns",
         "self.channel.progress() != Progress::Running || self.budget < self.turns")]),
    ("b-first", "channel B has the first turn of a struck scan", WORLD, [
        ("            Some(Channel::A) => (Channel::B, Channel::A),\n            _ => (Channel::A, Channel::B),",
         "            Some(Channel::B) => (Channel::A, Channel::B),\n            _ => (Channel::B, Channel::A),")]),
    ("last-fault", "a fault behind the last turn of two seats is left out", WORLD, [
        ("        self.strike(faults, most + 1);\n", "")]),
    ("stays-dirty", "a healed seat stays dirty", VOTES, [
        ("self.dirty = self.dirty.with(seat, false);", "self.dirty = self.dirty.with(seat, true);")]),
    ("no-trip-kept", "a world goes on behind a trip", WORLD, [
        ("            self.tripped = true;", "            self.tripped = false;")]),
]


def copied(folder):
    """A copy of what a program is compiled from."""
    place = os.path.join(folder, "copy")
    shutil.copytree(ROOT, place, ignore=shutil.ignore_patterns("out", "built", ".git", "must-fail", "wrong", "examples", "docs"))
    return pathlib.Path(place)


def edited(text, pairs, name):
    """The text with each old text replaced, which has to stand there once."""
    for old, new in pairs:
        if text.count(old) != 1:
            raise Stop(f"mutant {name}: its old text stands {text.count(old)} times in the file")
        text = text.replace(old, new)
    return text


def compiled(copy, name):
    """The program of the copy as it is."""
    done = subprocess.run(["./plcsafe", "--version"], cwd=copy, env={**os.environ, "PLCSAFE_UNPROVED": "1"}, stdin=subprocess.DEVNULL,
                          stdout=subprocess.DEVNULL, stderr=subprocess.PIPE, text=True, errors="replace")
    program = copy / "built" / "ps_main" / "unproved" / "program"
    if not program.is_file():
        raise Stop(f"mutant {name} could not be compiled: {done.stderr.strip()[-2000:]}")
    return program


def tried(oracle, program):
    """How a program is found: the trials and the command of the first call that differs; None where none does."""
    with tempfile.TemporaryDirectory(prefix="plcsafe-mutant-") as folder:
        done = subprocess.run([oracle, str(program), folder, str(SEED), "0", str(CASES)], stdin=subprocess.DEVNULL, stdout=subprocess.PIPE,
                              text=True, errors="replace")
    words = done.stdout.split()
    return (words[5], words[3]) if done.returncode == 1 and words[:1] == ["differs:"] else None


def main(words):
    if words == ["--list"]:
        for name, wrong, file, _ in MUTANTS:
            print(f"{name:16} {wrong} ({file})")
        return 0
    if any(word.startswith("-") for word in words):
        return None
    unknown = [word for word in words if word not in [row[0] for row in MUTANTS]]
    if unknown:
        raise Stop(f"there is no mutant {unknown[0]} (--list has their names)")
    missed = 0
    with tempfile.TemporaryDirectory(prefix="plcsafe-mutants-") as folder:
        copy, oracle = copied(folder), compile_oracle(folder)
        print("| Mutant | What is wrong | Trials until found | By |\n|---|---|---|---|", flush=True)
        for name, wrong, file, pairs in MUTANTS:
            if words and name not in words:
                continue
            right = (copy / file).read_text()
            (copy / file).write_text(edited(right, pairs, name))
            found = tried(oracle, compiled(copy, name))
            (copy / file).write_text(right)
            missed += found is None
            trials, command = found or ("not found", "")
            print(f"| `{name}` | {wrong} | {trials} | `{command}` |", flush=True)
    return 1 if missed else 0


if __name__ == "__main__":
    plainly(main, "bench/mutants.py [NAME.. | --list]")
