#!/usr/bin/env python3
"""Makes the calls of tests/calls/ with a program, and compares what each writes, and how it ends.

rows.py PROGRAM [NAME=FILE..] [WORD]    the rows whose file or title has WORD, else all; `bench` rows where plcsafe-bench=FILE is given

A file of tests/calls/ has sections, each of a line that begins with `@ ` and what stands below it:

@ text NAME                       a text, which other sections name: NAME, or FILE.NAME from another file
@ call WORDS ; PART ; ..          a call, and the text that it has to write
@ walk WORDS ; PART ; ..          a call, and the lines of its trace, which it reads as T: each with, behind ` => `, the line that is
                                  written for it. Between the words of several calls, which are all to write this, stands ` | `
@ each FILE of WORDS ; PART ; ..  a call for each line, which is the text of FILE: a bar stands for a line feed. Behind ` => ` stands the
                                  line that it has to write; with `gives TEXT` it writes this text, and the line's words stand for its `%`
@ told WORDS ; PART ; ..          a call, and what it has to say on standard error
@ bench WORDS ; PART ; ..         a call of plcsafe-bench, in whose words escapes stand for characters, and the text that it has to write
@ usage                           the words of a call in each line, which has to write the usage line
@ # WORDS                         a comment

A part is a file with its text, as `A=motor.MOTOR`, `F="before 1 A code 0 ff\\n"` or `A=HEAD..END` around the line of an `each`, or `file NAME=TEXT`,
whose name may have escapes; a `status N`, `gives TEXT`, or a title. Where no status is said it is that of the line: 3 for a refusal C, O, T or F, 1 for any other, else 0.
\\r, \\t, \\n, \\\\ and \\u{HEX} stand for these characters; one \\ at the end of the last line: no line feed stands behind it. The status is 0
where all calls were answered so.
"""
import os
import pathlib
import re
import subprocess
import sys
import tempfile

from calls import is_sanitized
from plainly import Stop, plainly

CALLS = pathlib.Path(__file__).resolve().parent.parent / "tests" / "calls"
USAGE = ("usage: plcsafe run APP TRACE | fault APP TRACE FAULTS | check APP | cert APP | verify APP CERT | image APP | load N | demand APP"
         " | vote APP TRACE FAULTS | heal APP TRACE FAULTS\n")
UNWRITTEN = ("plcsafe: the standard output takes no more bytes, so the answer is not whole\n"
             "look at the room on the disk, and at what reads the output (docs/refusals.md)\n")
ESCAPED = re.compile(r"\\(?:u\{([0-9a-f]+)\}|(.))", re.DOTALL)
SIGNS = {"n": "\n", "r": "\r", "t": "\t", "\\": "\\"}
QUIET = {**os.environ, "PLCSAFE_QUIET": "1"}
HEARD = {key: value for key, value in os.environ.items() if key != "PLCSAFE_QUIET"}


def meant(text):
    """A text without its escapes."""
    return ESCAPED.sub(lambda found: chr(int(found[1], 16)) if found[1] else SIGNS[found[2]], text)


def body(lines):
    """The text of these lines: each ends with a line feed, but for a last one with a \\ of its own at its end."""
    text = "".join(line + "\n" for line in lines)
    cut = len(text) > 1 and (len(text) - 1 - len(text[:-1].rstrip("\\"))) % 2 == 1
    return meant(text[:-2] if cut else text)


def row(line):
    """The text of a line of a table, whose last \\ shows where it ends."""
    return body([line]).rstrip("\n")


class Section:
    """A section: its kind, its words, its parts, and the lines below it."""

    def __init__(self, file, head):
        self.file, self.lines = file, []
        self.kind, _, rest = head.partition(" ")
        self.words, *self.parts = rest.split(" ; ")

    def part(self, key):
        """What stands behind a key among the parts."""
        return next((part[len(key):] for part in self.parts if part.startswith(key)), None)

    def title(self):
        """The title, or the words."""
        known = ("A=", "T=", "F=", "file ", "status ", "gives ")
        return next((part for part in self.parts if not part.startswith(known)), self.words)


def sections():
    """All sections, and the texts by file and name."""
    found, texts = [], {}
    for path in sorted(CALLS.glob("*.calls")):
        for line in path.read_bytes().decode().split("\n")[:-1]:
            if line.startswith("@ "):
                found.append(Section(path.stem, line[2:]))
            elif found and found[-1].file == path.stem:
                found[-1].lines.append(line)
            else:
                raise Stop(f"{path}: a line stands before the first section")
    for section in found:
        if section.kind == "text":
            texts[section.file, section.words] = body(section.lines)
    return [section for section in found if section.kind not in ("text", "#")], texts


def text_of(value, file, texts):
    """A text that a part gives: in quotes, or by its name."""
    if value.startswith('"'):
        return meant(value[1:-1])
    place = tuple(value.split(".")) if "." in value else (file, value)
    if place not in texts:
        raise Stop(f"tests/calls/{file}.calls: there is no text {value}")
    return texts[place]


def status_behind(line):
    """The status of a call that writes this line."""
    return 0 if not line.startswith("refused") else 3 if line[8:9] in "COTF" else 1


class Rows:
    """The calls of one program in a folder of their own, and which of them were answered otherwise."""

    def __init__(self, program, beside, folder, word):
        self.program, self.beside, self.folder, self.word = program, beside, pathlib.Path(folder), word
        self.held, self.count, self.wrong = {}, 0, []

    def hold(self, files):
        """Writes the files of a call, where they are others than those that stand there."""
        for name, text in files.items():
            if self.held.get(name) != text:
                (self.folder / name).write_bytes(text.encode())
                self.held[name] = text

    def gives(self, title, words, files, wanted, is_told=False, program=None):
        """A call, and the status and the text that it has to write: on standard output, or on standard error."""
        if self.word not in title:
            return
        self.hold(files)
        run = subprocess.run([program or self.program, *words], cwd=self.folder, env=HEARD if is_told else QUIET, stdin=subprocess.DEVNULL,
                             stdout=subprocess.PIPE, stderr=subprocess.PIPE, timeout=300)
        self.count += 1
        status, text = wanted
        got = run.stderr if is_told else run.stdout
        if (run.returncode, got) != (status, text.encode()):
            self.wrong.append(f"{title}: wanted status {status} and {text[-200:]!r}, got {run.returncode} and {got[-200:]!r}")
        if run.stderr and not is_told:
            self.wrong.append(f"{title}: standard error has {run.stderr[:200]!r}")


def files_of(section, texts):
    """The files that a section's parts give, but for those around a line of an `each`."""
    given = {key: section.part(key + "=") for key in "ATF"}
    return {key: text_of(value, section.file, texts) for key, value in given.items() if value is not None and ".." not in value}


def do_call(rows, section, texts):
    wanted = (int(section.part("status ")), body(section.lines))
    title = f"{section.file}: {section.title()}"
    rows.gives(title, section.words.split(" "), files_of(section, texts), wanted, section.kind == "told")


def do_bench(rows, section, texts):
    if "plcsafe-bench" not in rows.beside:
        return
    named = (part[len("file "):].partition("=") for part in section.parts if part.startswith("file "))
    files = {meant(name): text_of(value, section.file, texts) for name, _, value in named}
    words = [meant(word) for word in section.words.split(" ")]
    wanted = (int(section.part("status ")), body(section.lines))
    rows.gives(f"{section.file}: {section.title()}", words, files, wanted, program=rows.beside["plcsafe-bench"])


def do_walk(rows, section, texts):
    pairs = [meant(line).partition(" => ") for line in section.lines]
    trace = "".join(line + "\n" for line, _, _ in pairs)
    text = "".join(line + "\n" for _, sign, line in pairs if sign)
    files = {**files_of(section, texts), "T": trace}
    for words in section.words.split(" | "):
        rows.gives(f"{section.file}: {words}: {section.title()}", words.split(" "), files, (int(section.part("status ")), text))


def do_each(rows, section, texts):
    key, _, words = section.words.partition(" of ")
    head, _, end = (section.part(key + "=") or '""..""').partition("..")
    head, end = text_of(head, section.file, texts), text_of(end, section.file, texts)
    files, gives, status = files_of(section, texts), section.part("gives "), section.part("status ")
    for line in section.lines:
        text, _, said = row(line).partition(" => ")
        text = head + text.replace("|", "\n") + end
        if key == "F":
            text += "\n"
        wanted = said.replace("|", "\n") + "\n" if gives is None else text_of(gives, section.file, texts).replace("%", said)
        ends = status_behind(said) if status is None else int(status)
        rows.gives(f"{section.file}: {words}: {line}", words.split(" "), {**files, key: text}, (ends, wanted))


def do_usage(rows, section, _texts):
    for line in section.lines:
        rows.gives(f"{section.file}: {line}", row(line).split(" "), {}, (2, USAGE))
    rows.gives(f"{section.file}: no words", [], {}, (2, USAGE))
    for words in ([b"run", b"\xff"], [b"\xff"], [b"check", b"A\xc3"]):
        rows.gives(f"{section.file}: a word that is no UTF-8", words, {}, (8, ""))


KINDS = {"call": do_call, "told": do_call, "bench": do_bench, "walk": do_walk, "each": do_each, "usage": do_usage}


# ---- texts at the limits and one past them, which are too long to be written down


def copies(count, part):
    """So many copies of a part, in which `#` stands for the number of each."""
    return "".join(part.replace("#", str(number)) for number in range(count))


def accepted(inputs=0, outputs=0, locals_=0, instances=0, steps=0, nodes=0):
    return f"accepted inputs {inputs} outputs {outputs} locals {locals_} instances {instances} steps {steps} nodes {nodes}"


TOO_LARGE = "refused N11 line 1 column 9"
S_O = "END_VAR VAR_OUTPUT S_O : SAFEBOOL; END_VAR S_O := "
SIZES = (
    ("inputs", lambda n: "PROGRAM W VAR_INPUT " + copies(n, "S_# : SAFEBOOL; ") + S_O + copies(n, "S_# AND ") + "S_0; END_PROGRAM",
     ((512, accepted(inputs=512, outputs=1, steps=1, nodes=514)), (513, TOO_LARGE))),
    # Far past the limit the rule is named, and no memory is wanting.
    ("names", lambda n: "PROGRAM W VAR_INPUT " + copies(n, "a#, ") + "b : BOOL; END_VAR END_PROGRAM", ((69_999, "refused B4 line 1 column 9"),)),
    # The limit on statements is tried before the rules on names.
    ("statements", lambda n: "PROGRAM W VAR x : BOOL; END_VAR" + " x := x;" * n + " END_PROGRAM",
     ((20_000, "refused N7 line 1 column 41"), (20_001, "refused B4 line 1 column 9"))),
    # 1,048,576 bytes, and one more.
    # Bytes are counted before characters are looked at, and a token may be any of them.
    ("signs", lambda n: "@" * n, ((1_048_577, "refused L5 line 1 column 1"),)), ("tokens", lambda n: ";" * n, ((1_048_576, "refused P1 line 1 column 1"),)),
    ("operands", lambda n: "PROGRAM P\nS_o := a" + " AND a" * n + "; END_PROGRAM", ((99_999, "refused N2 line 2 column 1"),)),
    ("function blocks", lambda n: copies(n, "FUNCTION_BLOCK F# END_FUNCTION_BLOCK ") + "PROGRAM P END_PROGRAM",
     ((64, accepted()), (65, "refused B4 line 1 column 2469"))),
    ("bytes", lambda n: "PROGRAM P END_PROGRAM" + " " * (64 * 16_383 + n), ((43, accepted()), (44, "refused L5 line 1 column 1"))),
    ("inputs beside a literal",
     lambda n: "PROGRAM W VAR_INPUT " + copies(n, "S_# : SAFEBOOL; ") + "END_VAR VAR_OUTPUT o : BOOL; END_VAR o := TRUE; END_PROGRAM", ((513, TOO_LARGE),)),
    ("outputs",
     lambda n: "PROGRAM W VAR_INPUT a : BOOL; END_VAR VAR_OUTPUT " + copies(n, "o# : BOOL; ") + "END_VAR " + copies(n, "o# := a; ") + "END_PROGRAM",
     ((512, accepted(inputs=1, outputs=512, steps=512, nodes=512)), (513, TOO_LARGE))),
    ("instances", lambda n: "PROGRAM C VAR " + copies(n, "E# : SF_EDM; ") + "END_VAR " + copies(n, "E#(); ") + "END_PROGRAM",
     ((400, accepted(instances=400, steps=400)), (401, TOO_LARGE))),
    # A mode selector has 11 outputs, so 363 of them have 3,993 signals and 364 have 4,004.
    ("signals of instances", lambda n: "PROGRAM C VAR " + copies(n, "E# : SF_ModeSelector; ") + "END_VAR " + copies(n, "E#(); ") + "END_PROGRAM",
     ((363, accepted(instances=363, steps=363)), (364, TOO_LARGE))),
    # Locals that are not read, and an instance of three outputs.
    ("signals", lambda n: "PROGRAM P VAR " + copies(n, "x# : BOOL; ") + "Q : SF_EDM; END_VAR Q(); END_PROGRAM",
     ((3_997, accepted(locals_=3_997, instances=1, steps=1)), (3_998, TOO_LARGE), (3_999, TOO_LARGE))),
    # The AND of an input so many times and once more.
    ("nodes", lambda n: "PROGRAM P VAR_INPUT a : BOOL; END_VAR VAR_OUTPUT o : BOOL; END_VAR o := " + "a AND " * n + "a; END_PROGRAM",
     ((19_998, accepted(inputs=1, outputs=1, steps=1, nodes=20_000)), (19_999, TOO_LARGE))),
)
# Function blocks: the first one, how many further ones, each with instances of the one before, and what `check` says of a program with
# one instance of the last.
ONCE = "VAR a : F#; END_VAR a();"
TWICE = "VAR a, b : F#; END_VAR a(); b();"
LONG = "x" * 64
NAMED = f"VAR_OUTPUT o : BOOL; END_VAR\nVAR {LONG} : F#; END_VAR\n{LONG}();\no := {LONG}.o;"
LOCAL = "VAR x : BOOL; END_VAR"
SOURCE = "VAR x, y : BOOL; Q : SF_EDM; END_VAR y := x; x := Q.Ready; Q();"
SUM = "VAR_OUTPUT o : BOOL; END_VAR VAR x : BOOL; END_VAR x := x; o := x" + " AND x" * 9_000 + ";"
CHAINS = (
    ("60 empty copies", "", 60, TWICE, accepted()), ("two locals", LOCAL, 1, TWICE, accepted(locals_=2)),
    ("32 locals", LOCAL, 5, TWICE, accepted(locals_=32)), ("2 ^ 12 locals", LOCAL, 12, TWICE, "refused B4 line 14 column 9"),
    ("2 ^ 63 locals", LOCAL, 63, TWICE, "refused B4 line 65 column 9"), ("64 deep", SOURCE, 63, ONCE, accepted(locals_=2, instances=1, steps=3, nodes=2)),
    ("65 deep", SOURCE, 64, ONCE, "refused B4 line 66 column 9"), ("60 deep with long names", SUM, 60, NAMED, accepted(locals_=62, steps=62, nodes=9_063)),
)
ONE = "PROGRAM P VAR_INPUT a : SAFEBOOL; END_VAR VAR_OUTPUT o : SAFEBOOL; END_VAR o := a; END_PROGRAM"
CERTIFICATES = (
    ("0 SRC", 39_999, "verified 40000 lines"), ("x", 39_999, "refused C1 line 40000"), ("x", 40_000, "refused C2 line 1"),
    # 1,048,576 bytes, and one more.
    ("1" * 1_048_576, 0, "refused C1 line 1"), ("1" * 1_048_577, 0, "refused C2 line 1"),
)
FAULT = "before 7 A memory 0 00\n"
LONG_FAULTS = (
    ("most faults", FAULT * 1_000, None), ("most skipped lines", "#\n" * 1_000, None), ("a line more", FAULT * 1_000 + "x", "refused F5 line 1001\n"),
    ("a skipped line more", "#\n" * 1_001, "refused F5 line 1001\n"), ("the first line", "x\n" + "#\n" * 1_001, "refused F1 line 1\n"),
    ("a line of another form before the last", "#\n" * 999 + "x\nx", "refused F1 line 1000\n"),
    # A fault has at most 256 bytes: with so many it passes the region's end, and with one more it is no fault.
    ("the most bytes", "before 7 B memory 0 " + "00" * 256, "refused F3 line 1\n"), ("a byte more", "before 7 B memory 0 " + "00" * 257, "refused F1 line 1\n"),
    # A line has at most 600 bytes, skipped or not. A carriage return before its end counts.
    ("the longest line", "#" + "x" * 598 + "\r\n", None), ("a longer line", "#" + "x" * 599 + "\r\n", "refused F1 line 1\n"),
    ("a line of 2,000,000 bytes", "#" + "x" * 2_000_000, "refused F1 line 1\n"),
)


def unwritten(rows, texts):
    """A write that fails: the status, and what a person is told."""
    title = "exits: a write that fails"
    if rows.word not in title:
        return
    rows.hold({"A": texts["motor", "MOTOR"]})
    with open("/dev/full", "wb") as full:
        run = subprocess.run([rows.program, "check", "A"], cwd=rows.folder, env=HEARD, stdin=subprocess.DEVNULL, stdout=full, stderr=subprocess.PIPE, timeout=60)
    rows.count += 1
    if (run.returncode, run.stderr.decode()) != (6, UNWRITTEN):
        rows.wrong.append(f"{title}: got {run.returncode} and {run.stderr!r}")


def sizes(rows):
    """Applications and certificates at the limits and one past them."""
    for title, text, counts in SIZES:
        if title == "operands" and is_sanitized(rows.program):
            continue  # tests of memory make it take long
        for count, line in counts:
            rows.gives(f"sizes: {title}, {count}", ["check", "A"], {"A": text(count)}, (status_behind(line), line + "\n"))
    for end, count, line in CERTIFICATES:
        rows.gives(f"sizes: {line}", ["verify", "A", "T"], {"A": ONE, "T": "0 SRC\n" * count + end}, (status_behind(line), line + "\n"))


def blocks(first, count, body):
    """A first function block, and further ones with instances of the one before."""
    further = (f"FUNCTION_BLOCK F{number + 1} {body.replace('#', str(number))} END_FUNCTION_BLOCK\n" for number in range(count))
    return f"FUNCTION_BLOCK F0 {first} END_FUNCTION_BLOCK\n" + "".join(further)


def copies_of_blocks(rows):
    """Many copies of function blocks, deep nesting, and the limits."""
    for title, first, count, body_, line in CHAINS:
        if body_ == NAMED and is_sanitized(rows.program):
            continue  # tests of memory make it take minutes
        text = blocks(first, count, body_) + f"PROGRAM P VAR G : F{count}; END_VAR G(); END_PROGRAM\n"
        rows.gives(f"copies: {title}", ["check", "A"], {"A": text}, (status_behind(line), line + "\n"))
    text = blocks(LOCAL, 62, TWICE) + "PROGRAM P VAR x : BOOL; G : F3; END_VAR G(); x := x; END_PROGRAM\n"
    rows.gives("copies: 2 ^ 62 that no instance uses", ["check", "A"], {"A": text}, (0, accepted(locals_=9, steps=1, nodes=1) + "\n"))
    text = copies(65, "FUNCTION_BLOCK F# END_FUNCTION_BLOCK ") + "\nPROGRAM P VAR G : F1; END_VAR END_PROGRAM\n"
    rows.gives("copies: 65 blocks before an instance that is not called", ["check", "A"], {"A": text}, (1, "refused B4 line 2 column 9\n"))
    for count, behind, line in ((4_000, "END_VAR", accepted(locals_=4_000)), (4_001, "END_VAR", "refused B4 line 1 column 9"),
                                (3_999, "Q : SF_EDM; END_VAR Q();", TOO_LARGE)):
        text = "PROGRAM P VAR " + copies(count, "x# : BOOL; ") + behind + " END_PROGRAM\n"
        rows.gives(f"copies: {count} names, {behind}", ["check", "A"], {"A": text}, (status_behind(line), line + "\n"))


def demands(rows):
    """A demand that is refused by counting, at once, of 19,200 nodes and over 2 ^ 200 leaves; and one of 500 names."""
    products = "".join(f"L{k} := {' AND '.join([f'L{k - 1}'] * (2 if k <= 60 else 1_000))};\n" for k in range(1, 80))
    text = ("PROGRAM P VAR_INPUT S_A : SAFEBOOL; END_VAR VAR_OUTPUT S_o : SAFEBOOL; END_VAR VAR L0" + "".join(f", L{k}" for k in range(1, 80))
            + " : SAFEBOOL; END_VAR L0 := S_A;\n" + products + "S_o := L79; END_PROGRAM")
    rows.gives("demands: 2 ^ 200 leaves", ["demand", "A"], {"A": text}, (1, "refused M1 line 81 column 1\n"))
    names = [f"S_{k}" for k in range(500)]
    all_ = " AND ".join(names)
    text = (f"PROGRAM P VAR_INPUT {', '.join(names)} : SAFEBOOL; END_VAR VAR_OUTPUT S_o, S_p : SAFEBOOL; END_VAR VAR all : SAFEBOOL; END_VAR "
            f"all := {all_}; S_o := all AND S_499 AND S_0; S_p := S_0 OR all OR S_0; END_PROGRAM")
    rows.gives("demands: 500 names", ["demand", "A"], {"A": text}, (0, f"S_o needs {all_}\nS_p needs S_0 OR ({all_})\n"))


def wide(rows, texts):
    """The AND of 512 inputs: all of them are TRUE, all but the first, and all but the last, in two channels and in three; and the regions of C."""
    head = "time " + " ".join(f"S_{k}" for k in range(512)) + "\n"
    for title, off, value in (("all", 512, 1), ("all but the first", 0, 0), ("all but the last", 511, 0)):
        files = {"A": texts["images", "WIDE"], "T": head + "0 " + " ".join("0" if k == off else "1" for k in range(512)) + "\n", "F": ""}
        for words in (["run", "A", "T"], ["vote", "A", "T", "F"]):
            rows.gives(f"wide: {words[0]}, {title}", words, files, (0, f"0 S_O={value}\n"))
        for region, size in (("code", 11 * 512 + 2 * 8 + 1), ("memory", 22 + 513)):
            for at, wanted in ((size - 1, (0, f"0 S_O={value}\n")), (size, (3, "refused F3 line 1\n"))):
                rows.gives(f"wide: {region} of C at {at}, {title}", ["vote", "A", "T", "F"], {**files, "F": f"before 2 C {region} {at} 00\n"}, wanted)
    # C goes round in its last row until its 512 + 2 + 1 turns are spent, and is Done by a fault before the vote, or one turn too late.
    files = {"A": texts["images", "WIDE"], "T": head + "0" + " 0" * 512 + "\n"}
    for turn, line in ((1_025 + 514 + 515 + 1, ""), (1_025 + 514 + 515 + 2, "0 OUTVOTED C\n")):
        faults = f"before 1 C code 5644 00001608\nbefore 1 turn {turn} C memory 4 01\n"
        rows.gives(f"wide: the turns of C, {turn}", ["vote", "A", "T", "F"], {**files, "F": faults}, (0, "0 S_O=0\n" + line))


def long_lines(rows, texts):
    """Long fault files and long lines of a trace, of the motor."""
    motor, use, ordinary = texts["motor", "MOTOR"], texts["strikes", "USE"], texts["strikes", "ORDINARY"]
    for title, faults, refusal in LONG_FAULTS:
        wanted = (0, ordinary) if refusal is None else (3, refusal)
        rows.gives(f"long: {title}", ["fault", "A", "T", "F"], {"A": motor, "T": use, "F": faults}, wanted)
    said = "0 S_Motor=0 E=1,0,8001\n10 S_Motor=0 E=1,0,8002\n"
    begun = "time S_In Ack Run\n0 1 0 1\n#"
    # A carriage return before the end counts. Of 67,108,865 bytes the last line is too large, which comes first, and of one less too long.
    for count, after, wanted in ((65_534, "\r\n5 0 0 1", (0, "0 S_Motor=0 E=1,0,8001\n5 S_Motor=0 E=1,0,8002\n")),
                                 (65_535, "\r\n5 0 0 1", (3, "0 S_Motor=0 E=1,0,8001\nrefused T8 line 3\n")),
                                 (65_536, "", (3, "0 S_Motor=0 E=1,0,8001\nrefused T8 line 3\n")),
                                 (67_108_837, "", (3, "0 S_Motor=0 E=1,0,8001\nrefused T8 line 3\n")),
                                 (67_108_838, "", (3, "0 S_Motor=0 E=1,0,8001\nrefused T9 line 3\n"))):
        rows.gives(f"long: {count} bytes behind a sign, {after!r}", ["run", "A", "T"], {"A": motor, "T": begun + "x" * count + after}, wanted)
    for count, after, wanted in ((65_535, "\n", (0, said)), (65_536, "\n20 1 0 1\n", (3, said + "refused T8 line 4\n"))):
        trace = "time S_In Ack Run\n0 1 0 1\n10 1 0 1\n#" + "x" * count + after
        rows.gives(f"long: a line of {count} bytes behind a sign", ["run", "A", "T"], {"A": motor, "T": trace}, wanted)


def program_at(word):
    """The file of a program."""
    program = str(pathlib.Path(word).resolve())
    if not os.path.isfile(program) or not os.access(program, os.X_OK):
        raise Stop(f"{word} is no program")
    return program


def main(words):
    named = [word for word in words[1:] if word.startswith("plcsafe-") and "=" in word]
    words = [word for word in words if word not in named]
    if len(words) not in (1, 2) or words[0].startswith("-"):
        return None
    program = program_at(words[0])
    beside = {name: program_at(file) for name, _, file in (word.partition("=") for word in named)}
    found, texts = sections()
    with tempfile.TemporaryDirectory(prefix="plcsafe-rows-") as folder:
        rows = Rows(program, beside, folder, words[1] if len(words) > 1 else "")
        for section in found:
            KINDS[section.kind](rows, section, texts)
        unwritten(rows, texts)
        sizes(rows)
        copies_of_blocks(rows)
        demands(rows)
        long_lines(rows, texts)
        wide(rows, texts)
    for line in rows.wrong:
        print("another answer:", line)
    print(f"{rows.count} calls, {len(rows.wrong)} with another answer")
    return 1 if rows.wrong or not rows.count else 0


if __name__ == "__main__":
    plainly(main, "tools/rows.py PROGRAM [NAME=FILE..] [WORD]")
