"""Runs the built program on bad files and on faults of the outside, and compares each status and text with what it has to be.

python3 hostile.py [PROGRAM [WORD]]     PROGRAM is by default the one that ./plcsafe builds; WORD picks the rows whose title has it

It prints a line for each row, with the processor time and the most memory, and ends with 1 at the first row that differs or takes too
long or too much. The files lie in a folder of their own, which is deleted at the end.
"""
import os
import resource
import shutil
import signal
import subprocess
import sys
import tempfile
import threading

from changing import changing_files
from generate import MOTOR

HERE = os.path.dirname(os.path.abspath(__file__))
sys.path.append(os.path.join(HERE, "..", "tools"))
from plainly import Stop, plainly

BUILT = os.path.join(HERE, "..", "built", "ps_main", "program")
MIB = 1 << 20
SOURCE = 1_048_576  # the most bytes of a source and of a certificate
TRACE = 67_108_864  # the most bytes of a trace
MOST_SECONDS = 5.0
os.environ["PLCSAFE_QUIET"] = "1"  # what is told to a person is no part of the answer
MOST_MEMORY = 128 * MIB

USE = "time S_In Ack Run\n0 1 0 1\n10 1 0 1\n20 1 0 1\n30 1 1 1\n40 1 0 0\n50 0 0 1\n"
HEADER = "time S_In Ack Run\n"
ORDINARY = """0 S_Motor=0 E=1,0,8001
10 S_Motor=0 E=1,0,8002
20 S_Motor=0 E=1,0,8003
30 S_Motor=1 E=1,0,8000
40 S_Motor=0 E=1,0,8000
50 S_Motor=0 E=1,0,8004
"""
FIRST = "0 S_Motor=0 E=1,0,8001\n"
CERTIFICATE = "0 SRC\n3 SRC\n2 AND 2\n"
COUNTS = "accepted inputs 3 outputs 1 locals 0 instances 1 steps 2 nodes 5\n"
DONE, REFUSED, BAD, TRIPPED, NO_READ, NO_WRITE, NO_MEMORY = 0, 1, 3, 4, 5, 6, 7


class Repeated:
    """A byte so many times, which is made where it is written."""

    def __init__(self, byte, count):
        self.byte, self.count = byte, count

    def encode(self):
        return self.byte * self.count


def small(line, more=""):
    """A source of one SAFEBOOL input S_i, one BOOL input b, one SAFEBOOL output S_o and a line of statements, which is line 2."""
    return f"PROGRAM P VAR_INPUT S_i : SAFEBOOL; b : BOOL; END_VAR VAR_OUTPUT S_o : SAFEBOOL; END_VAR{more}\n{line}\nEND_PROGRAM\n"


def timed(time):
    """A source whose block has a TIME pin with this literal."""
    return small(f"E(DiscrepancyTime := {time}); S_o := S_i;", " VAR E : SF_Equivalent; END_VAR")


def grouped(groups):
    return small("S_o := " + "(" * groups + "S_i" + ")" * groups + ";")


def refused(rule, line, column=None):
    return f"refused {rule} line {line}" + (f" column {column}" if column is not None else "") + "\n"


# Sources: a title, the bytes, the status and the text of `check`.
def sources():
    accepted = "accepted inputs 2 outputs 1 locals 0 instances {} steps {} nodes 1\n"
    rows = [
        ("empty", "", REFUSED, refused("P1", 1, 1)),
        ("no line feed at the end", MOTOR.rstrip("\n"), DONE, COUNTS),
        ("CR before each line feed", MOTOR.replace("\n", "\r\n"), DONE, COUNTS),
        ("CR in place of each blank", MOTOR.replace(" ", "\r"), DONE, COUNTS),
        ("CR in place of each line feed", MOTOR.replace("\n", "\r"), DONE, COUNTS),
        ("CR within a word", "PRO\rGRAM P END_PROGRAM\n", REFUSED, refused("P1", 1, 1)),
        ("two CRs and no line feed", "PROGRAM P\r\r @", REFUSED, refused("L1", 1, 13)),
        ("NUL behind the end", MOTOR + "\0", REFUSED, refused("L1", 11, 1)),
        ("NUL first", "\0" + MOTOR, REFUSED, refused("L1", 1, 1)),
        ("NULs within a comment", MOTOR + "(*\0\0\0*)", DONE, COUNTS),
        ("bytes FF within a comment", (MOTOR + "(*").encode() + b"\xff" * 9 + b"*)", DONE, COUNTS),
        ("a byte FF", b"\xff" + MOTOR.encode(), REFUSED, refused("L1", 1, 1)),
        ("UTF-8 beyond ASCII in a name", small("S_o := S_\u00fc;"), REFUSED, refused("L1", 2, 10)),
        ("a word of 60,000 bytes", small(f"S_o := {'a' * 60000};"), REFUSED, refused("L4", 2, 8)),
        ("a name of 65 bytes", small(f"S_o := {'a' * 65};"), REFUSED, refused("L4", 2, 8)),
        ("a name of 64 bytes", small(f"S_o := {'a' * 64};"), REFUSED, refused("N2", 2, 8)),
        ("2^32 - 1 ms", timed("T#4294967295ms"), DONE, accepted.format(1, 2)),
        ("2^32 ms", timed("T#4294967296ms"), REFUSED, refused("L3", 2, 22)),
        ("2^64 ms", timed("T#18446744073709551616ms"), REFUSED, refused("L3", 2, 22)),
        ("2^64 + 1 ms", timed("T#18446744073709551617ms"), REFUSED, refused("L3", 2, 22)),
        ("days that pass 2^32 ms by 1", timed("T#49d17h2m47s296ms"), REFUSED, refused("L3", 2, 22)),
        ("60,000 zeros before a time", timed(f"T#{'0' * 60000}7ms"), DONE, accepted.format(1, 2)),
        ("60,000 nines as a time", timed(f"T#{'9' * 60000}ms"), REFUSED, refused("L3", 2, 22)),
        ("16 brackets", grouped(16), DONE, accepted.format(0, 1)),
        ("17 brackets", grouped(17), REFUSED, refused("P2", 2, 24)),
        ("17 brackets and then the end", grouped(17)[: -len("END_PROGRAM\n")], REFUSED, refused("P2", 2, 24)),
        ("a million brackets", small("S_o := " + "(" * 1_000_000 + ";"), REFUSED, refused("P2", 2, 24)),
        ("a million closing brackets", small("S_o := S_i" + ")" * 1_000_000 + ";"), REFUSED, refused("P1", 2, 11)),
        ("a comment that is not closed", MOTOR + "(*" + "*" * 1_000_000, REFUSED, refused("L2", 11, 1)),
        ("250,000 comments", MOTOR + "(**)" * 250_000, DONE, COUNTS),
        ("65 function blocks", "".join(f"FUNCTION_BLOCK F{k} END_FUNCTION_BLOCK\n" for k in range(65)) + small("S_o := S_i;"),
         REFUSED, refused("B4", 66, 9)),
        ("64 function blocks", "".join(f"FUNCTION_BLOCK F{k} END_FUNCTION_BLOCK\n" for k in range(64)) + small("S_o := S_i;"),
         DONE, accepted.format(0, 1)),
        ("blocks that double 63 times", doubled(63), DONE, accepted.format(0, 1)),
        ("blocks that double 11 times, of one name", doubled(11, "VAR x : BOOL; END_VAR "), DONE,
         "accepted inputs 2 outputs 1 locals 2048 instances 0 steps 1 nodes 1\n"),
        ("blocks that double 12 times, of one name", doubled(12, "VAR x : BOOL; END_VAR "), REFUSED, refused("B4", 14, 9)),
        ("4,001 names", small("S_o := S_i;", " VAR " + ", ".join(f"x{k}" for k in range(3998)) + " : BOOL; END_VAR"),
         REFUSED, refused("B4", 1, 9)),
        ("513 inputs", small("S_o := S_i;", " VAR_INPUT " + ", ".join(f"x{k}" for k in range(511)) + " : BOOL; END_VAR"),
         REFUSED, refused("N11", 1, 9)),
        ("an OR of 120,000 operands", small("S_o := " + "OR ".join(["S_i "] * 120_000) + ";"), REFUSED, refused("N11", 1, 9)),
        ("20,001 statements", small("S_o := S_i;" * 20_001), REFUSED, refused("B4", 1, 9)),
        ("20,000 statements", small("S_o := S_i;" * 20_000), REFUSED, refused("N7", 2, 12)),
    ]
    for title, byte, whole in (
        ("blanks", b" ", refused("P1", 1, SOURCE + 1)), ("line feeds", b"\n", refused("P1", SOURCE + 1, 1)),
        ("a", b"a", refused("L4", 1, 1)), ("(", b"(", refused("P1", 1, 1)), ("NUL", b"\0", refused("L1", 1, 1)),
        ("#", b"#", refused("L1", 1, 1)), ("0", b"0", refused("L1", 1, 1)), ("/", b"/", refused("P1", 1, SOURCE + 1)),
    ):
        rows.append((f"1 MiB of {title}", byte * SOURCE, REFUSED, whole))
        rows.append((f"1 MiB and a byte of {title}", byte * (SOURCE + 1), REFUSED, refused("L5", 1, 1)))
        rows.append((f"64 MiB of {title}", Repeated(byte, TRACE), REFUSED, refused("L5", 1, 1)))
    return rows


def doubled(times, more=""):
    """Function blocks each of which has two instances of the one before; the program has one of the last."""
    parts = [f"FUNCTION_BLOCK F0 {more}END_FUNCTION_BLOCK\n"]
    for k in range(1, times + 1):
        parts.append(f"FUNCTION_BLOCK F{k} VAR G, H : F{k - 1}; END_VAR G(); H(); END_FUNCTION_BLOCK\n")
    return "".join(parts) + small(f"G(); S_o := S_i;", f" VAR G : F{times}; END_VAR")


# Traces of the motor: a title, the bytes, the status and the text of `run`.
def traces():
    one = HEADER + "0 1 0 1"
    rows = [
        ("empty", "", BAD, refused("T1", 1)),
        ("no line feed at the end", USE.rstrip("\n"), DONE, ORDINARY),
        ("CR before each line feed", USE.replace("\n", "\r\n"), DONE, ORDINARY),
        ("CR at the end of the text", one + "\r", BAD, refused("T5", 2)),
        ("two CRs and a line feed", one + "\r\r\n", BAD, refused("T5", 2)),
        ("CR within a line", HEADER + "0 1\r 0 1\n", BAD, refused("T5", 2)),
        ("CR in place of a blank", HEADER + "0\r1 0 1\n", BAD, refused("T4", 2)),
        ("CR and a line feed", USE + "\r\n", DONE, ORDINARY),
        ("CR alone behind the last line", USE + "\r", BAD, ORDINARY + refused("T4", 8)),
        ("CRs in place of line feeds", USE.replace("\n", "\r"), BAD, refused("T2", 1)),
        ("NUL in place of a value", HEADER + "0 1 0 \0\n", BAD, refused("T5", 2)),
        ("NUL in place of a blank", HEADER + "0 1\0 0 1\n", BAD, refused("T5", 2)),
        ("NUL behind the last line", USE + "\0", BAD, ORDINARY + refused("T4", 8)),
        ("a byte FF in the header", b"time S_In Ack Run \xff\n", BAD, refused("T2", 1)),
        ("a word of 60,000 bytes in the header", f"time S_In Ack {'a' * 60000}\n", BAD, refused("T2", 1)),
        ("60,000 zeros before a time", HEADER + "0" * 60000 + " 1 0 1\n", DONE, FIRST),
        ("60,000 nines as a time", HEADER + "9" * 60000 + " 1 0 1\n", BAD, refused("T6", 2)),
        ("2^32 - 1 ms", HEADER + "4294967295 1 0 1\n", DONE, FIRST.replace("0", "4294967295", 1)),
        ("2^32 ms", HEADER + "4294967296 1 0 1\n", BAD, refused("T6", 2)),
        ("2^64 ms", HEADER + "18446744073709551616 1 0 1\n", BAD, refused("T6", 2)),
        ("2^64 + 5 ms", HEADER + "18446744073709551621 1 0 1\n", BAD, refused("T6", 2)),
        ("a minus", HEADER + "-1 1 0 1\n", BAD, refused("T6", 2)),
        ("32,760 words", HEADER + "0 " + "1 " * 32760 + "\n", BAD, refused("T4", 2)),
        ("a line of 65,536 bytes", HEADER + "#" * 65536 + "\n0 1 0 1\n", DONE, FIRST),
        ("a line of 65,537 bytes", HEADER + "#" * 65537 + "\n0 1 0 1\n", BAD, refused("T8", 2)),
        ("a line of 65,536 bytes with its CR", HEADER + "#" * 65535 + "\r\n0 1 0 1\n", DONE, FIRST),
        ("a line of 65,537 bytes with its CR", HEADER + "#" * 65536 + "\r\n0 1 0 1\n", BAD, refused("T8", 2)),
        ("a scan line of 65,536 bytes", HEADER + "0 1 0 1" + " " * 65529 + "\n", DONE, FIRST),
        ("a scan line of 65,537 bytes", HEADER + "0 1 0 1" + " " * 65530 + "\n", BAD, refused("T8", 2)),
        ("a last line of 65,537 bytes without line feed", one + "\n" + "#" * 65537, BAD, FIRST + refused("T8", 3)),
        ("a restart first", "restart\n" + USE, BAD, refused("T1", 1)),
        ("64 MiB, the last line cut", filled(USE, b"#" * 4095 + b"\n", TRACE), DONE, ORDINARY),
        ("64 MiB and a byte", filled(USE, b"#" * 4095 + b"\n", TRACE + 1), BAD, ORDINARY + refused("T9", lines_upto(USE, 4096, TRACE))),
        ("8 million restarts", HEADER + "restart\n" * 8_000_000, DONE, "restart\n" * 8_000_000),
    ]
    for title, byte, whole in (
        ("blanks", b" ", refused("T8", 1)), ("line feeds", b"\n", refused("T1", TRACE + 1)), ("a", b"a", refused("T8", 1)),
        ("NUL", b"\0", refused("T8", 1)), ("#", b"#", refused("T8", 1)), ("CR", b"\r", refused("T8", 1)),
    ):
        more = refused("T9", TRACE + 1) if byte == b"\n" else refused("T9", 1)
        rows.append((f"64 MiB of {title}", Repeated(byte, TRACE), BAD, whole))
        rows.append((f"64 MiB and a byte of {title}", Repeated(byte, TRACE + 1), BAD, more))
    return rows


def filled(first, line, size):
    """A text that begins with `first` and goes on with equal lines up to this size."""
    first = first.encode()
    return (first + line * (size // len(line) + 1))[:size]


def lines_upto(first, length, size):
    """The line that holds the byte behind the first `size` of such a text, whose lines have this length."""
    return first.count("\n") + (size - len(first)) // length + 1


def tripped_text():
    """What `fault` writes where channel A has no code from the third scan on."""
    trips = "20 TRIP trap A 1 S_Motor=0\n30 TRIP S_Motor=0\n40 TRIP S_Motor=0\n50 TRIP S_Motor=0\n"
    return "".join(ORDINARY.splitlines(True)[:2]) + trips


def outvoted(seats, text=ORDINARY):
    """The lines of a run, with an OUTVOTED line behind each whose number, from 1, has a seat."""
    lines = []
    for number, line in enumerate(text.splitlines(True), 1):
        lines.append(line)
        if number in seats:
            lines.append(f"{line.split()[0]} OUTVOTED {seats[number]}\n")
    return "".join(lines)


def from_third(seat, heals):
    """What `vote` or `heal` writes where this seat is struck before the third scan, and gives no report from then on."""
    return outvoted({3: seat} if heals else dict.fromkeys(range(3, 7), seat))


# Fault files for the motor of which a command says the same, but for what comes where channel A is struck before the third scan: a title,
# the bytes, the status and the text.
def fault_files(struck, status):
    line = "before 3 A code 0 ff"
    rows = [
        ("empty", "", DONE, ORDINARY),
        ("no line feed at the end", line, status, struck),
        ("CR before the line feed", line + "\r\n", status, struck),
        ("CR at the end of the text", line + "\r", BAD, refused("F1", 1)),
        ("two CRs and a line feed", line + "\r\r\n", BAD, refused("F1", 1)),
        ("CR in place of a blank", line.replace(" ", "\r", 1) + "\n", BAD, refused("F1", 1)),
        ("CR and a line feed", "\r\n" + line + "\n", status, struck),
        ("NUL behind the line", line + "\0\n", BAD, refused("F1", 1)),
        ("NUL behind the last line", line + "\n\0", BAD, refused("F1", 2)),
        ("a word of 60,000 bytes", "before 3 A code 0 " + "f" * 60000 + "\n", BAD, refused("F1", 1)),
        ("a comment of 600 bytes", "#" * 600 + "\n" + line, status, struck),
        ("a comment of 601 bytes", "#" * 601 + "\n" + line, BAD, refused("F1", 1)),
        ("a comment of 600 bytes with its CR", "#" * 599 + "\r\n" + line, status, struck),
        ("a comment of 601 bytes with its CR", "#" * 600 + "\r\n" + line, BAD, refused("F1", 1)),
        ("a line of 600 bytes", line + " " * (600 - len(line)) + "\n", status, struck),
        ("a line of 601 bytes", line + " " * (601 - len(line)) + "\n", BAD, refused("F1", 1)),
        ("512 digits", "before 3 A code 0 " + "ff" * 256 + "\n", BAD, refused("F3", 1)),
        ("514 digits", "before 3 A code 0 " + "ff" * 257 + "\n", BAD, refused("F1", 1)),
        ("an odd number of digits", "before 3 A code 0 fff\n", BAD, refused("F1", 1)),
        ("scan 0", "before 0 A code 0 ff\n", BAD, refused("F1", 1)),
        ("turn 0", "before 3 turn 0 A code 0 ff\n", BAD, refused("F1", 1)),
        ("scan 2^32 - 1", "before 4294967295 A code 0 ff\n", DONE, ORDINARY),
        ("scan 2^32", "before 4294967296 A code 0 ff\n", BAD, refused("F1", 1)),
        ("scan 2^64 + 3", "before 18446744073709551619 A code 0 ff\n", BAD, refused("F1", 1)),
        ("turn 2^32 - 1", "before 3 turn 4294967295 A code 0 ff\n", DONE, ORDINARY),
        ("turn 2^32 + 1", "before 3 turn 4294967297 A code 0 ff\n", BAD, refused("F1", 1)),
        ("offset 2^32 - 1", "before 3 A code 4294967295 ff\n", BAD, refused("F3", 1)),
        ("offset 2^32 - 1 and two bytes", "before 3 A code 4294967295 ffff\n", BAD, refused("F3", 1)),
        ("offset 2^32", "before 3 A code 4294967296 ff\n", BAD, refused("F1", 1)),
        ("offset 2^64", "before 3 A code 18446744073709551616 ff\n", BAD, refused("F1", 1)),
        ("500 zeros before a scan", "before " + "0" * 500 + "3 A code 0 ff\n", status, struck),
        ("the last byte of the code", "before 3 A code 32 ff\n", status, struck),
        ("one past the code", "before 3 A code 33 ff\n", BAD, refused("F3", 1)),
        ("1,000 faults", (line + "\n") * 1000, status, struck),
        ("1,000 lines and no line feed", "#\n" * 999 + line, status, struck),
        ("1,001 lines", "#\n" * 1000 + line, BAD, refused("F5", 1001)),
        ("1,001 lines, the 1,000th wrong", "#\n" * 999 + "x\n#\n", BAD, refused("F1", 1000)),
    ]
    for title, byte, whole in (
        ("blanks", b" ", refused("F1", 1)), ("line feeds", b"\n", refused("F5", 1001)), ("a", b"a", refused("F1", 1)),
        ("NUL", b"\0", refused("F1", 1)), ("#", b"#", refused("F1", 1)), ("CR", b"\r", refused("F1", 1)),
    ):
        rows.append((f"64 MiB of {title}", Repeated(byte, TRACE), BAD, whole))
    return rows


# Fault files for the three seats of `vote` and `heal`: a title, the bytes, the status and the text.
def seat_files(heals):
    line = "before 3 A code 0 ff\n"
    silent = "before 3 A memory 10 01\n"  # a byte of the stack, which is written before it is read
    rows = fault_files(from_third("A", heals), DONE)
    rows += [
        ("seat B", line.replace("A", "B"), DONE, from_third("B", heals)),
        ("seat C", line.replace("A", "C"), DONE, from_third("C", heals)),
        ("seat D", line.replace("A", "D"), BAD, refused("F1", 1)),
        ("a small letter for the seat", line.replace("A", "c"), BAD, refused("F1", 1)),
        ("two letters for the seat", line.replace("A", "AB"), BAD, refused("F1", 1)),
        ("the last byte of C's code", "before 3 C code 126 ff\n", DONE, from_third("C", heals)),
        ("one past C's code", "before 3 C code 127 ff\n", BAD, refused("F3", 1)),
        ("the last two bytes of C's code and one past", "before 3 C code 125 ffffff\n", BAD, refused("F3", 1)),
        ("the last byte of C's memory", "before 3 C memory 44 ff\n", DONE, from_third("C", heals)),
        ("one past C's memory", "before 3 C memory 45 ff\n", BAD, refused("F3", 1)),
        ("C's offset 2^32 - 1", "before 3 C memory 4294967295 ff\n", BAD, refused("F3", 1)),
        ("C's offset 2^32", "before 3 C memory 4294967296 ff\n", BAD, refused("F1", 1)),
        ("C's offset 2^64", "before 3 C memory 18446744073709551616 ff\n", BAD, refused("F1", 1)),
        ("C's whole memory", "before 3 C memory 0 " + "ff" * 45 + "\n", DONE, from_third("C", heals)),
        ("C's scan 2^32 - 1", "before 4294967295 C code 0 ff\n", DONE, ORDINARY),
        ("C's scan 2^64 + 3", "before 18446744073709551619 C code 0 ff\n", BAD, refused("F1", 1)),
        ("C's turn 2^32 - 1", "before 3 turn 4294967295 C code 0 ff\n", DONE, ORDINARY),
        ("scans that fall", "before 4 A code 0 ff\n" + line, BAD, refused("F2", 2)),
        ("scans that fall, and another seat", "before 4 B code 0 ff\n" + line, BAD, refused("F2", 2)),
        ("turns that fall", "before 3 turn 2 A code 0 ff\nbefore 3 turn 1 A code 0 ff\n", BAD, refused("F2", 2)),
        ("a turn, and then none in the same scan", "before 3 turn 2 A code 0 ff\n" + line, BAD, refused("F2", 2)),
        ("another seat, and past its region", line + "before 4 C code 127 ff\n", BAD, refused("F3", 2)),
        ("C running again behind its last turn", "before 2 turn 28 C memory 4 00\n", DONE, ORDINARY),
        ("a progress of C that is none, at the last turn", "before 2 turn 28 C memory 4 09\n", DONE, outvoted({2: "C"})),
        ("a seat that is not seen, and it again", silent + "before 4 A code 0 ff\n", DONE,
         outvoted({4: "A"} if heals else dict.fromkeys(range(4, 7), "A"))),
    ]
    two = "".join(ORDINARY.splitlines(True)[:2])
    for title, content, text in (  # of two seats: what `heal` writes
        ("two seats, one after the other", line + "before 4 B code 0 ff\n", outvoted({3: "A", 4: "B"})),
        ("each seat in turn", line + "before 4 B code 0 ff\nbefore 5 C code 0 ff\nbefore 6 A code 0 ff\n",
         outvoted({3: "A", 4: "B", 5: "C", 6: "A"})),
        ("two seats in one scan", line + "before 3 B code 0 ff\n", two + refused("F4", 2)),
        ("two seats in one scan, the second at a turn", line + "before 3 turn 9 B code 0 ff\n", two + refused("F4", 2)),
        ("a seat that is not seen, and another", silent + "#\n\nbefore 6 C code 0 ff\n",
         "".join(ORDINARY.splitlines(True)[:5]) + refused("F4", 4)),
        ("a seat whose bytes stood there before, and another", "before 1 A memory 0 00\nbefore 2 B memory 0 00\n", FIRST + refused("F4", 2)),
        ("a seat that is not seen, and another one never", silent + "before 7 C code 0 ff\n", ORDINARY),
    ):
        number = next(n for n, row in enumerate(content.splitlines(), 1) if row.startswith("before") and " A " not in row)
        status = BAD if "refused" in text else DONE
        rows.append((title, content, status, text) if heals else (title, content, BAD, refused("F4", number)))
    return rows


# Certificates of the motor: a title, the bytes, the status and the text of `verify`.
def certificates():
    passed = "verified {} lines\n"
    many = "3 SRC\n" * 39_997
    rows = [
        ("empty", "", BAD, refused("O4", 1)),
        ("no line feed at the end", CERTIFICATE.rstrip("\n"), DONE, passed.format(3)),
        ("CR before a line feed", CERTIFICATE.replace("\n", "\r\n"), BAD, refused("C1", 1)),
        ("CR at the end of the text", CERTIFICATE.rstrip("\n") + "\r", BAD, refused("C1", 3)),
        ("an empty line", CERTIFICATE + "\n", BAD, refused("C1", 4)),
        ("NUL behind a line", "0 SRC\0\n", BAD, refused("C1", 1)),
        ("NUL behind the last line", CERTIFICATE + "\0", BAD, refused("C1", 4)),
        ("two blanks", "0  SRC\n", BAD, refused("C1", 1)),
        ("a tab", "0\tSRC\n", BAD, refused("C1", 1)),
        ("small letters", "0 src\n", BAD, refused("C1", 1)),
        ("a zero before a number", "00 SRC\n", BAD, refused("C1", 1)),
        ("node 2^32 - 1", "4294967295 SRC\n", BAD, refused("O1", 1)),
        ("node 2^32", "4294967296 SRC\n", BAD, refused("C1", 1)),
        ("node 2^64", "18446744073709551616 SRC\n", BAD, refused("C1", 1)),
        ("premise 2^32 - 1", "0 SRC\n2 AND 4294967295\n", BAD, refused("O2", 2)),
        ("premise 2^32 + 1", "0 SRC\n2 AND 4294967297\n", BAD, refused("C1", 2)),
        ("premise 0", "0 SRC\n2 AND 0\n", BAD, refused("O2", 2)),
        ("a word of 60,000 bytes", "0 " + "S" * 60000 + "\n", BAD, refused("C1", 1)),
        ("60,000 digits", "9" * 60000 + " SRC\n", BAD, refused("C1", 1)),
        ("a line with 300,000 premises", "0 SRC\n2 AND" + " 1" * 300_000 + "\n", BAD, refused("O3", 2)),
        ("40,000 lines, the first of use", CERTIFICATE + "3 SRC\n" * 39_997, DONE, passed.format(40_000)),
        ("40,000 lines, the last of use", many + CERTIFICATE.replace("AND 2", "AND 39999"), DONE, passed.format(40_000)),
        ("40,000 lines, each of them of use", resting(40_000), DONE, passed.format(40_000)),
        ("40,000 lines, none of use", "3 SRC\n" * 40_000, BAD, refused("O4", 40_001)),
        ("40,001 lines", CERTIFICATE + "3 SRC\n" * 39_998, BAD, refused("C2", 1)),
        ("40,001 lines, the last without line feed", CERTIFICATE + "3 SRC\n" * 39_997 + "x", BAD, refused("C2", 1)),
    ]
    for title, byte, whole in (("blanks", b" ", 1), ("a", b"a", 1), ("NUL", b"\0", 1), ("0", b"0", 1), ("CR", b"\r", 1)):
        rows.append((f"1 MiB of {title}", byte * SOURCE, BAD, refused("C1", whole)))
        rows.append((f"1 MiB and a byte of {title}", byte * (SOURCE + 1), BAD, refused("C2", 1)))
        rows.append((f"64 MiB of {title}", Repeated(byte, TRACE), BAD, refused("C2", 1)))
    rows.append(("64 MiB of line feeds", Repeated(b"\n", TRACE), BAD, refused("C2", 1)))
    return rows


def resting(count):
    """A certificate of the motor in which each line but the first two rests on line 2."""
    return "0 SRC\n3 SRC\n" + "2 AND 2\n" * (count - 2)


def ored(operands):
    """A source whose output is an OR of so many operands, so its nodes are 0 for the OR and then one for each operand."""
    return small("S_o := " + "OR ".join(["S_i "] * operands) + ";")


def reversed_certificate(operands, lines):
    """Its certificate with the operands from the last to the first, and then so many lines for the OR."""
    sources = "".join(f"{node} SRC\n" for node in range(operands, 0, -1))
    return sources + ("0 OR " + " ".join(str(line) for line in range(operands, 0, -1)) + "\n") * lines


class Run:
    """A run of the program in the folder of the files."""

    def __init__(self, program, folder):
        self.program, self.folder = program, folder

    def path(self, name):
        return os.path.join(self.folder, name)

    def write(self, name, content):
        with open(self.path(name), "wb") as out:
            out.write(content if isinstance(content, bytes) else content.encode())

    def ended(self, words, stdout=None, **more):
        """The status, the text, the processor time in seconds and the most memory in bytes of a run, as GNU time says them."""
        told = self.path("told")
        if os.path.exists(told):
            os.remove(told)
        command = ["/usr/bin/time", "-q", "-f", "%U %S %M", "-o", told, self.program, *words]
        run = subprocess.run(command, cwd=self.folder, stdout=stdout if stdout is not None else subprocess.PIPE,
                             stdin=subprocess.DEVNULL, stderr=subprocess.PIPE, check=False, timeout=120, **more)
        with open(told, encoding="ascii") as lines:
            user, system, most = lines.read().split()[-3:]
        return run.returncode, run.stdout, float(user) + float(system), int(most) * 1024, run.stderr


class Table:
    """The rows that were run so far."""

    def __init__(self, word):
        self.word, self.count, self.slowest, self.largest = word, 0, 0.0, 0

    def wants(self, title):
        return self.word in title

    def add(self, title, wanted, ended):
        """Prints a row, and ends the program where it differs."""
        status, text, seconds, memory, errors = ended
        self.count += 1
        self.slowest, self.largest = max(self.slowest, seconds), max(self.largest, memory)
        first = (text or b"").split(b"\n", 1)[0][:48].decode(errors="replace")
        print(f"{title:62} status {status:3}  {seconds:6.2f} s {memory / MIB:6.1f} MiB  {first}", flush=True)
        wanted_status, wanted_text = wanted
        if errors:
            sys.exit(f"standard error has {errors[:200]!r}")
        if status != wanted_status:
            sys.exit(f"wanted: status {wanted_status}")
        if wanted_text is not None and text != wanted_text.encode():
            sys.exit(f"wanted: {wanted_text[:400]!r}, and {len(wanted_text)} bytes; there are {len(text)}: {text[:400]!r}")
        if seconds > MOST_SECONDS or memory > MOST_MEMORY:
            sys.exit(f"wanted: at most {MOST_SECONDS} s and {MOST_MEMORY / MIB:.0f} MiB")


def bad_files(run, table):
    """Every bad file, by the command that reads it."""
    readers = (
        ("source", ["check", "bad"], sources), ("trace", ["run", "M", "bad"], traces),
        ("faults", ["fault", "M", "U", "bad"], lambda: fault_files(tripped_text(), TRIPPED)),
        ("certificate", ["verify", "M", "bad"], certificates),
        ("faults of vote", ["vote", "M", "U", "bad"], lambda: seat_files(False)),
        ("faults of heal", ["heal", "M", "U", "bad"], lambda: seat_files(True)),
    )
    for reader, words, rows in readers:
        for title, content, status, text in rows():
            title = f"{reader}: {title}"
            if table.wants(title):
                run.write("bad", content)
                table.add(title, (status, text), run.ended(words))


def large_certificates(run, table):
    """Certificates of an OR of 12,000 operands, whose lines come in the worst order."""
    run.write("wide", ored(12_000))
    for title, content, status, text in (
        ("certificate: 14 lines of 12,000 premises, the last operand first", reversed_certificate(12_000, 14), DONE, "verified 12014 lines\n"),
        ("certificate: the same with two premises exchanged", reversed_certificate(12_000, 14).replace("6001 6000", "6000 6001", 1), BAD,
         refused("O3", 12_001)),
        ("certificate: the same with a premise of its own line", reversed_certificate(12_000, 14).replace("0 OR 12000", "0 OR 12001", 1), BAD,
         refused("O2", 12_001)),
    ):
        if table.wants(title):
            run.write("bad", content)
            table.add(title, (status, text), run.ended(["verify", "wide", "bad"]))


def many_faults(run, table):
    """As many faults as a file may have, each in the next seat, and each of them healed before the next."""
    title = "faults of heal: 1,000 faults, each in the next seat"
    if table.wants(title):
        seats = {number: "ABC"[number % 3] for number in range(1, 1001)}
        run.write("bad", "".join(f"before {number} {seat} code 0 ff\n" for number, seat in seats.items()))
        run.write("parts", HEADER + "".join(f"{10 * k} {int(k % 10 != 8)} {int(k % 10 == 3)} 1\n" for k in range(2_000)))
        text = run.ended(["run", "M", "parts"])[1].decode()
        table.add(title, (DONE, outvoted(seats, text)), run.ended(["heal", "M", "parts", "bad"]))
    title = "faults of heal: a restart between two seats"
    if table.wants(title):
        run.write("bad", "before 1 A memory 10 01\nbefore 2 B code 0 ff\n")
        run.write("parts", HEADER + "0 1 0 1\nrestart\n10 1 0 1\n")
        text = FIRST + "restart\n10 S_Motor=0 E=1,0,8001\n10 OUTVOTED B\n"
        table.add(title, (DONE, text), run.ended(["heal", "M", "parts", "bad"]))


# The words in which a name stands that is no ordinary file, and what is written before it is read.
READERS = (
    ("source", ["check", "{}"], ""), ("trace", ["run", "M", "{}"], ""),
    ("faults", ["fault", "M", "U", "{}"], ""), ("certificate", ["verify", "M", "{}"], ""),
    ("faults of vote", ["vote", "M", "U", "{}"], ""), ("faults of heal", ["heal", "M", "U", "{}"], ""),
)


def odd_names(run, table):
    """Folders, missing files, files without the right to read, devices and pipes."""
    os.mkdir(run.path("folder"))
    os.symlink("loop", run.path("loop"))
    run.write("locked", MOTOR)
    os.chmod(run.path("locked"), 0)
    for reader, words, written in READERS:
        for title, name in (("a folder", "folder"), ("no file", "none"), ("a link to itself", "loop"), ("a name below a file", "M/x"),
                            ("a name of 5,000 bytes", "n" * 5000)):
            if table.wants(f"{reader}: {title}"):
                table.add(f"{reader}: {title}", (NO_READ, written), run.ended([word.format(name) for word in words]))
        title = f"{reader}: a file without the right to read"
        if table.wants(title):
            table.add(title, (NO_READ, written), run.ended([word.format("locked") for word in words], **as_nobody()))
        title = f"{reader}: a pipe"
        if table.wants(title):
            table.add(title, (NO_READ, written), through_pipe(run, [word.format("pipe") for word in words]))
    devices = (
        ("source", ["check", "{}"], {"/dev/null": (REFUSED, refused("P1", 1, 1)), "/dev/zero": (REFUSED, refused("L5", 1, 1)),
                                     "/dev/full": (REFUSED, refused("L5", 1, 1))}),
        ("trace", ["run", "M", "{}"], {"/dev/null": (BAD, refused("T1", 1)), "/dev/zero": (BAD, refused("T9", 1)),
                                       "/dev/full": (BAD, refused("T9", 1))}),
        ("faults", ["fault", "M", "U", "{}"], {"/dev/null": (DONE, ORDINARY), "/dev/zero": (BAD, refused("F1", 1))}),
        ("faults of vote", ["vote", "M", "U", "{}"], {"/dev/null": (DONE, ORDINARY), "/dev/zero": (BAD, refused("F1", 1))}),
        ("faults of heal", ["heal", "M", "U", "{}"], {"/dev/null": (DONE, ORDINARY), "/dev/zero": (BAD, refused("F1", 1))}),
        ("certificate", ["verify", "M", "{}"], {"/dev/null": (BAD, refused("O4", 1)), "/dev/zero": (BAD, refused("C2", 1))}),
    )
    for reader, words, wanted in devices:
        for device, row in wanted.items():
            if table.wants(f"{reader}: {device}"):
                table.add(f"{reader}: {device}", row, run.ended([word.format(device) for word in words]))


def as_nobody():
    """How a process is started that is no superuser: that may read any file."""
    return {"user": 65534, "group": 65534, "extra_groups": []} if os.geteuid() == 0 else {}


def through_pipe(run, words):
    """A run over a named pipe into which something is written. It cannot be read from an offset on."""
    pipe = run.path("pipe")
    if not os.path.exists(pipe):
        os.mkfifo(pipe)

    def feed():
        try:
            with open(pipe, "wb") as out:
                out.write(MOTOR.encode())
        except BrokenPipeError:
            pass

    feeder = threading.Thread(target=feed, daemon=True)
    feeder.start()
    ended = run.ended(words)
    os.close(os.open(pipe, os.O_RDONLY | os.O_NONBLOCK))  # where the program never opened it
    feeder.join(5)
    return ended


COMMANDS = (
    ["run", "M", "U"], ["fault", "M", "U", "F"], ["check", "M"], ["cert", "M"], ["verify", "M", "C"], ["image", "M"], ["load", "1"],
    ["demand", "M"], ["vote", "M", "U", "F"], ["heal", "M", "U", "F"], ["run"],
)


def outputs(run, table):
    """Outputs that take nothing: of each command no byte is lost unsaid."""
    for words in COMMANDS:
        name = " ".join(words)
        if table.wants(f"{name}: to /dev/full"):
            with open("/dev/full", "wb") as full:
                table.add(f"{name}: to /dev/full", (NO_WRITE, None), run.ended(words, stdout=full))
        if table.wants(f"{name}: a closed output"):
            table.add(f"{name}: a closed output", (NO_WRITE, None), closed(run, words))
        if table.wants(f"{name}: to /dev/null"):
            status = 2 if words == ["run"] else DONE
            with open("/dev/null", "wb") as null:
                table.add(f"{name}: to /dev/null", (status, None), run.ended(words, stdout=null))
    for name, text in (("M", MOTOR), ("U", USE), ("F", ""), ("C", CERTIFICATE)):
        with open(run.path(name), encoding="ascii") as held:
            if held.read() != text:
                sys.exit(f"the file {name} was written to")
    limited_output(run, table)
    heads(run, table)


def closed(run, words):
    """A run without a standard output: the first file that it opens gets its number."""
    command = 'exec "$0" "$@" >&-'
    ended = subprocess.run(["/bin/sh", "-c", command, run.program, *words], cwd=run.folder, stdin=subprocess.DEVNULL,
                           stderr=subprocess.PIPE, check=False)
    return ended.returncode, b"", 0.0, 0, ended.stderr


def limit_files():
    """No file may grow past 100,000 bytes; the signal that says so is ignored."""
    signal.signal(signal.SIGXFSZ, signal.SIG_IGN)
    resource.setrlimit(resource.RLIMIT_FSIZE, (100_000, 100_000))


def limited_output(run, table):
    """A file that may not grow further: what it holds is the beginning of the text."""
    title = "a long run: into a file that may have 100,000 bytes"
    if not table.wants(title):
        return
    whole = run.ended(["run", "M", "long"])[1]
    with open(run.path("out"), "wb") as out:
        ended = run.ended(["run", "M", "long"], stdout=out, preexec_fn=limit_files)
    with open(run.path("out"), "rb") as out:
        taken = out.read()
    table.add(title, (NO_WRITE, None), ended)
    if len(taken) != 100_000 or not whole.startswith(taken):
        sys.exit(f"wanted: the first 100,000 bytes; there are {len(taken)}")


def heads(run, table):
    """A reader that takes some lines and goes away: the program ends, and what the reader took is the beginning of the text."""
    title = "a long run: into a pipe that is closed after two lines"
    if not table.wants(title):
        return
    whole = run.ended(["run", "M", "long"])[1]
    for title, ignored in ((title, False), (title + ", its signal ignored", True)):
        process = subprocess.Popen([run.program, "run", "M", "long"], cwd=run.folder, stdin=subprocess.DEVNULL, stdout=subprocess.PIPE,
                                   stderr=subprocess.PIPE, restore_signals=not ignored)
        taken = process.stdout.readline() + process.stdout.readline()
        process.stdout.close()
        errors = process.stderr.read()
        status = process.wait(30)
        table.add(title, (NO_WRITE if ignored else status, None), (status, taken, 0.0, 0, errors))
        if not whole.startswith(taken) or status not in (NO_WRITE, -13):
            sys.exit("wanted: 6 or the signal of a closed pipe, and the first two lines")


def proportions(run, table):
    """Twice the input takes about twice the time."""
    pairs = (
        ("source of line feeds", ["check", "bad"], lambda n: b"\n" * (n * SOURCE // 2)),
        ("source of brackets", ["check", "bad"], lambda n: small("S_o := S_i" + " OR (S_i)" * (n * 9_000) + ";").encode()),
        ("trace of line feeds", ["run", "M", "bad"], lambda n: b"\n" * (n * TRACE // 2)),
        ("trace of one line", ["run", "M", "bad"], lambda n: b"a" * (n * TRACE // 2)),
        ("trace of lines of 65,536 bytes", ["run", "M", "bad"], lambda n: filled(USE, b"#" * 65535 + b"\n", n * TRACE // 2)),
        ("certificate of lines on one node", ["verify", "M", "bad"], lambda n: resting(n * 20_000).encode()),
    )
    for title, words, content in pairs:
        if not table.wants(f"twice: {title}"):
            continue
        times = []
        for n in (1, 2):
            run.write("bad", content(n))
            ends = [run.ended(words) for _ in range(5)]
            times.append(min(end[2] for end in ends))
        print(f"{'twice: ' + title:62} {times[0]:.2f} s and {times[1]:.2f} s", flush=True)
        if times[1] > 3 * times[0] + 0.05:
            sys.exit("wanted: at most three times the time")


def main(words):
    if len(words) > 2 or words and words[0].startswith("-"):
        return None
    program, word = os.path.abspath(words[0] if words else BUILT), words[1] if len(words) > 1 else ""
    if not os.path.isfile(program) or not os.access(program, os.X_OK):
        raise Stop(f"{program} is no program: run ./plcsafe once")
    folder = tempfile.mkdtemp()
    os.chmod(folder, 0o777)
    run, table = Run(program, folder), Table(word)
    try:
        for name, text in (("M", MOTOR), ("U", USE), ("F", ""), ("C", CERTIFICATE)):
            run.write(name, text)
        run.write("long", HEADER + "".join(f"{10 * k} {int(k % 10 != 8)} {int(k % 10 == 3)} 1\n" for k in range(100_000)))
        bad_files(run, table)
        large_certificates(run, table)
        many_faults(run, table)
        odd_names(run, table)
        changing_files(run, table)
        outputs(run, table)
        proportions(run, table)
    finally:
        shutil.rmtree(folder)
    print(f"{table.count} rows; the slowest took {table.slowest:.2f} s, the largest {table.largest / MIB:.1f} MiB")
    return 0


if __name__ == "__main__":
    plainly(main, "bench/hostile.py [PROGRAM [WORD]]")
