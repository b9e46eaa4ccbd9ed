#!/usr/bin/env python3
"""Provokes messages as a new user does, and compares what the program says with what is written down.

messages.py PROGRAM            makes each mistake of `mistakes.py`, and compares with tools/messages.told
messages.py --write PROGRAM    writes that file anew; to be looked through before it is kept
messages.py --show PROGRAM [WORD]     prints the mistakes whose name has WORD, else all, each in a line of at most 300 characters

The file has for each mistake a line `== NAME: COMMAND`, the first line of standard output that is a refusal, usage or trip, a line
`status N`, and all of standard error. Each rule of the application, of traces, fault files and certificates is broken by one mistake
at least. The status is 0 where the program says what the file has.
"""
import os
import pathlib
import re
import subprocess
import sys
import tempfile

from mistakes import CASES, GOOD, TRACE, WORDS
from plainly import Stop, plainly

ROOT = pathlib.Path(__file__).resolve().parent.parent
STORED = ROOT / "tools" / "messages.told"
RULES = ROOT / "crates" / "ps_base" / "src" / "failing.rt"
TEXTS = ("a.st", "t", "f", "c")


def run(program, words, folder, stdin=subprocess.DEVNULL):
    """The status, the output and the message of a call."""
    given = {name: value for name, value in os.environ.items() if name != "PLCSAFE_QUIET"}
    made = subprocess.run([program, *words], cwd=folder, env=given, stdin=stdin, capture_output=True, timeout=120)
    return made.returncode, made.stdout.decode("utf-8", "replace"), made.stderr.decode("utf-8", "replace")


def put(path, text):
    path.write_bytes(text if isinstance(text, bytes) else text.encode())


def certificate(kind, cert):
    """A certificate of this kind, by one that is right."""
    lines = cert.splitlines(True)
    made = {
        "good": cert, "lower": cert.lower(), "blank": "\n" + cert, "head": "".join(lines[:2]), "long": "0 SRC\n" * 40001,
        "node": "9000 SRC\n" + cert, "crlf": cert.replace("\n", "\r\n"), "application": GOOD, "literal": "0 SRC\n1 SRC\n",
        "premise": re.sub(r"(?m)^(\d+ (?:AND|OR) \d+).*$", r"\1 999", cert, count=1),
        "rule": cert.replace("SRC", "LIT", 1) if "LIT" in cert else re.sub(r"(?m)^(\d+) AND.*$", r"\1 SRC", cert, count=1),
    }
    return made[kind]


def texts_of(case, cert):
    """The words of the call of a mistake, and the texts that they name."""
    _, command, app, second, third = case
    words, held = [command, "a.st"], {"a.st": app}
    if command in ("run", "fault", "vote", "heal"):
        words.append("t")
        held["t"] = second
    if command in ("fault", "vote", "heal"):
        words.append("f")
        held["f"] = third
    if command == "verify":
        words.append("c")
        held["c"] = certificate(second.partition(":")[2], cert)
    return words, held


def answer_of(program, case, cert, folder):
    """What the program answers to a mistake."""
    if case[1] == "folder":
        return run(program, ["check", "."], folder)
    if case[1] == "unread":
        return run(program, ["check", "/proc/self/mem"], folder)
    if case[1] == "pipe":
        with subprocess.Popen(["cat", "motor.st"], cwd=folder, stdout=subprocess.PIPE) as pipe:
            return run(program, ["check", "/dev/stdin"], folder, pipe.stdout)
    for name in TEXTS:
        (folder / name).unlink(missing_ok=True)
    words, held = texts_of(case, cert)
    for name, text in held.items():
        if text is not None:
            put(folder / name, text)
    return run(program, words, folder)


def answers(program, word, folder):
    """What the program answers to each mistake whose name has a word: the name, the command, and the answer."""
    for name, text in (("motor.st", GOOD), ("t.trace", TRACE)):
        put(folder / name, text)
    cert = run(program, ["cert", "motor.st"], folder)[1]
    for case in CASES:
        if word in case[0]:
            yield case[0], case[1], answer_of(program, case, cert, folder)
    for words in WORDS:
        name = "words " + " ".join(repr(word) for word in words)
        if word in name:
            yield name, words[0] if words else "", run(program, words, folder)


def head_of(output):
    """The first line of an output that says why a call did not do all."""
    lines = [line for line in output.splitlines() if line.startswith(("refused ", "usage: ")) or " TRIP " in line]
    return "".join(line + "\n" for line in lines[:1])


def told(program, folder):
    """What the file is to have."""
    parts = []
    for name, command, (status, output, message) in answers(program, "", folder):
        parts.append(f"== {name}: {command!r}\n{head_of(output)}status {status}\n{message}")
    return "".join(part if part.endswith("\n") else part + "\n" for part in parts)


def unbroken(text):
    """The rules that no mistake breaks."""
    rules = re.findall(r"^    ([A-Z]\d+),$", RULES.read_text(), re.M)
    return [rule for rule in rules if f"\nrefused {rule} " not in text]


def differing(text, stored):
    """The mistakes of which the program says something else than is stored."""
    parts, held = ({part.partition("\n")[0]: part for part in one.split("== ")[1:]} for one in (text, stored))
    return [name for name in {**parts, **held} if parts.get(name) != held.get(name)]


def short(text, most):
    """A text in a line."""
    text = re.sub(" {5,}", "    ", text.rstrip("\n").replace("\n", " / "))
    return text if len(text) <= most else text[: most - 3] + "..."


def show(program, word, folder):
    for name, command, (status, output, message) in answers(program, word, folder):
        print(short(f"{name} [{command}] -> {status} {short(head_of(output), 45)} :: {message}", 299))


def compare(program, folder, writes):
    """Compares with the file, or writes it. The status."""
    text = told(program, folder)
    if writes:
        STORED.write_text(text)
    wrong = differing(text, STORED.read_text() if STORED.is_file() else "")
    left = unbroken(text)
    for name in wrong:
        print(f"otherwise: {name}")
    for rule in left:
        print(f"no mistake breaks {rule}")
    print(f"{len(CASES) + len(WORDS)} mistakes, {len(wrong)} of them told otherwise than tools/messages.told has, {len(left)} rules without one")
    return 1 if wrong or left else 0


def main(words):
    option = words.pop(0) if words and words[0] in ("--write", "--show") else None
    if not 1 <= len(words) <= (2 if option == "--show" else 1) or words[0].startswith("-"):
        return None
    program = str(pathlib.Path(words[0]).resolve())
    if not os.access(program, os.X_OK) or os.path.isdir(program):
        raise Stop(f"{words[0]} is no program")
    with tempfile.TemporaryDirectory(prefix="plcsafe-messages-") as folder:
        if option == "--show":
            show(program, words[1] if len(words) == 2 else "", pathlib.Path(folder))
            return 0
        return compare(program, pathlib.Path(folder), option == "--write")


if __name__ == "__main__":
    plainly(main, "tools/messages.py [--write] PROGRAM | --show PROGRAM [WORD]")
