"""Files that change while the program reads them: rows of hostile.py.

The program opens a file anew for each 4,096 bytes that it reads. The first open is made to wait by a lease (fcntl, F_SETLEASE), which the
system asks back where somebody else opens the file. Meanwhile the name gets another file, and then the lease is given back. So the first
read has the file as it was, and each later one what stands under the name by then, in each run alike.
"""
import fcntl
import os
import shutil
import signal
import sys
import threading
import time

from generate import MOTOR

PIECE = 4096
HEADER = "time S_In Ack Run\n"
USE = HEADER + "0 1 0 1\n10 1 0 1\n20 1 0 1\n30 1 1 1\n"
NO_READ = 5
PATIENCE = 20.0  # seconds

# The words of a call that reads the file `bad`, that file, and the same with other bytes: each text is longer than three pieces.
SCANS = "".join(f"{10 * k:08d} 1 0 1\n" for k in range(1_000))
FILLED = "#" * 99 + "\n"
READERS = (
    ("source", ["check", "bad"], MOTOR.replace("END_PROGRAM", "// a line of text\n" * 800 + "END_PROGRAM"), ("// a", "(* a")),
    ("trace", ["run", "M", "bad"], HEADER + SCANS, (" 1 0 1", " 0 1 1")),
    ("faults", ["fault", "M", "T", "bad"], FILLED * 150 + "before 3 A code 0 ff\n", ("A code", "B code")),
    ("certificate", ["verify", "M", "bad"], "0 SRC\n3 SRC\n2 AND 2\n" + "3 SRC\n" * 3_000, ("3 SRC", "1 SRC")),
    ("faults of vote", ["vote", "M", "T", "bad"], FILLED * 150 + "before 3 A code 0 ff\n", ("A code", "C code")),
    ("faults of heal", ["heal", "M", "T", "bad"], FILLED * 150 + "before 3 A code 0 ff\n", ("A code", "C code")),
)


def files_in_its_place(text, change):
    """What the name holds from the second read on: a title and the bytes."""
    return (
        ("a file that shrinks within a line", text[: 2 * PIECE + 3]),
        ("a file that shrinks to what was read", text[:PIECE]),
        ("a file that shrinks below what was read", text[:7]),
        ("a file that is emptied", ""),
        ("a file that grows by bytes that are refused", text + "@\n" * PIECE),
        ("a file with other bytes in its place", text.replace(*change)),
    )


# What else a name may hold from the second read on, with what a person is told.
GONE, FOLDER, LOCKED, PIPE = "gone", "folder", "locked", "pipe"
NO_FILES = (
    ("a file that is removed", GONE, b"bad: there is no file of this name\n"),
    ("a folder in the place of the file", FOLDER, b"bad: this is a folder, and a file is asked\n"),
    ("a file whose right to be read is taken away", LOCKED, b"bad: the system does not let this user read the file\n"),
    ("a pipe in the place of the file", PIPE, b"bad: this cannot be read at a place, as a file can: it is a pipe or a terminal\n"),
)


held = []  # pipes that are held open


class Kept:
    """The file `bad`, whose first open by another process waits until `change` has been called."""

    def __init__(self, run, change):
        self.change, self.failed = change, False
        self.file = os.open(run.path("bad"), os.O_RDONLY)
        fcntl.fcntl(self.file, fcntl.F_SETLEASE, fcntl.F_WRLCK)
        self.watcher = threading.Thread(target=self.watch, daemon=True)
        self.watcher.start()

    def watch(self):
        started = time.monotonic()
        while fcntl.fcntl(self.file, fcntl.F_GETLEASE) == fcntl.F_WRLCK and not self.failed:
            self.failed = time.monotonic() - started > PATIENCE
            time.sleep(0.001)
        self.change()
        fcntl.fcntl(self.file, fcntl.F_SETLEASE, fcntl.F_UNLCK)
        os.close(self.file)

    def end(self):
        self.watcher.join(2 * PATIENCE)
        if self.failed:
            sys.exit("the program did not open the file")


def answer(run, words, text, change, **more):
    """A run over the file `bad`, which has this text until the first read was made, and is then changed."""
    run.write("bad", text)
    kept = Kept(run, change)
    ended = run.ended(words, **more)
    kept.end()
    return ended


def put(run, text):
    """The name `bad` gets another file with this text."""
    run.write("next", text)
    os.replace(run.path("next"), run.path("bad"))


def put_no_file(run, kind):
    """The name `bad` gets what cannot be read."""
    os.remove(run.path("bad"))
    if kind == FOLDER:
        os.mkdir(run.path("bad"))
    elif kind == LOCKED:
        run.write("bad", "")
        os.chmod(run.path("bad"), 0)
    elif kind == PIPE:
        os.mkfifo(run.path("bad"))
        held.append(os.open(run.path("bad"), os.O_RDWR))  # a pipe that nobody holds open makes its reader wait


def clear(run):
    """Nothing has the name `bad` any more."""
    while held:
        os.close(held.pop())
    path = run.path("bad")
    shutil.rmtree(path) if os.path.isdir(path) else os.path.lexists(path) and os.remove(path)


def lines_of_first_piece(run, reader, words, text):
    """What is written before the second read: of a trace the lines of the scans that stand whole in the first piece."""
    if reader != "trace":
        return ""
    run.write("bad", text[: text.rindex("\n", 0, PIECE) + 1])
    return run.ended(words)[1].decode()


def can_lease(run):
    """Whether the system gives leases on the files of this folder."""
    run.write("bad", "")
    with open(run.path("bad"), "rb") as file:
        try:
            fcntl.fcntl(file, fcntl.F_SETLEASE, fcntl.F_WRLCK)
        except OSError:
            return False
    return True


def changing_files(run, table):
    """The answer is that of the bytes as they were read; where a read fails the status is 5, and what was written stays."""
    signal.signal(signal.SIGIO, lambda *_: None)  # by which the system asks a lease back
    if not can_lease(run):
        print("files that change: left out, the system gives no leases here", flush=True)
        return
    run.write("T", USE)
    for reader, words, text, change in READERS:
        for title, later in files_in_its_place(text, change):
            if table.wants(f"{reader}: {title}"):
                run.write("bad", text[:PIECE] + later[PIECE:])
                status, wanted, *_ = run.ended(words)
                table.add(f"{reader}: {title}", (status, wanted.decode()), answer(run, words, text, lambda: put(run, later)))
        for title, kind, told in NO_FILES:
            if table.wants(f"{reader}: {title}"):
                unread(run, table, f"{reader}: {title}", (reader, words, text), (kind, told))
    clear(run)


def unread(run, table, title, call, change):
    """A row in which the second read fails, once without a message and once with it."""
    (reader, words, text), (kind, told) = call, change
    wanted = lines_of_first_piece(run, reader, words, text)
    user = {"user": 65534, "group": 65534, "extra_groups": []} if kind == LOCKED and os.geteuid() == 0 else {}
    ended = answer(run, words, text, lambda: put_no_file(run, kind), **user)
    clear(run)
    table.add(title, (NO_READ, wanted), ended)
    *first, errors = answer(run, words, text, lambda: put_no_file(run, kind), env={**os.environ, "PLCSAFE_QUIET": "0"}, **user)
    clear(run)
    table.add(title + ", and its message", (NO_READ, wanted), (*first, b""))
    if not errors.startswith(told):
        sys.exit(f"wanted: {told!r}; standard error has {errors!r}")
