"""The sources of a program: which files it is built from, and whether what was built is still of these.

What is built of a program crate stands in built/CRATE: the program, and a record of what it was built from. The fingerprint of the
record is a sum of every byte that the program's proof and its compilers read. `is_current` compares it, and the sum of the program
itself, before each start. Where no file has been touched since the last comparison it looks at each file's size, inode and time of
change alone; a time of change (ctime) cannot be set by hand. What cannot be read or compared counts as not built.
"""
import os

ROOT = os.path.dirname(os.path.dirname(os.path.realpath(__file__)))
BUILT = os.path.join(ROOT, "built")
FOLDERS = ("src", "specs", "proofs")
READ_BY = {"proved": FOLDERS, "unproved": ("src", "specs")}  # what of each crate the making of a program reads
GRAIN = 50_000_000  # a file touched so few nanoseconds ago may be touched again within one tick of the clock


class NotComparable(Exception):
    """Something that cannot be read or compared."""


def crates(root=ROOT):
    """Each crate of the repository with the crates of the repository that it stands on."""
    stands_on = {}
    with open(os.path.join(root, "crates.txt"), encoding="utf-8") as lines:
        for line in lines:
            head, colon, rest = line.partition("#")[0].partition(":")
            if colon:
                stands_on[head.split()[0]] = rest.split()
    return {name: [low for low in lows if low in stands_on] for name, lows in stands_on.items()}


def below(stands_on, top):
    """The crates that a crate needs, itself among them, each behind those that it stands on."""
    if top not in stands_on:
        raise NotComparable(f"crates.txt has no crate {top}")
    order = []

    def visit(name):
        if name not in order:
            for low in stands_on[name]:
                visit(low)
            order.append(name)

    visit(top)
    return order


def rows_of(names, root=ROOT):
    """The rows of crates.txt for these crates, in the order of the file."""
    with open(os.path.join(root, "crates.txt"), encoding="utf-8") as lines:
        return [line.rstrip("\n") for line in lines if line.partition(":")[0].strip() in names]


def files_below(folder):
    """The files below a folder, in order. A link, a pipe or a device among them cannot be compared."""
    found = []
    with os.scandir(folder) as entries:
        for entry in entries:
            if entry.is_dir(follow_symlinks=False):
                found += files_below(entry.path)
            elif entry.is_file(follow_symlinks=False):
                found.append(entry.path)
            else:
                raise NotComparable(f"{entry.path} is no ordinary file")
    return sorted(found)


def source_files(names, kind, root=ROOT):
    """The files that a program of these crates is made from, in order."""
    found = [os.path.join(root, "HANDLES"), os.path.join(root, "crates.txt")]
    for name in names:
        folder = os.path.join(root, "crates", name)
        held = os.listdir(folder)
        if "src" not in held:
            raise NotComparable(f"{folder} has no folder src")
        for part in READ_BY[kind]:
            if part in held:
                found += files_below(os.path.join(folder, part))
    return found


def kit():
    """The folder of the kit whose `rt` is on the path, or None."""
    for folder in os.environ.get("PATH", "").split(os.pathsep):
        command = os.path.join(folder, "rt")
        if folder and os.access(command, os.X_OK) and os.path.isfile(command):
            return os.path.dirname(os.path.dirname(os.path.realpath(command)))
    return None


def kit_files():
    """The files by which a kit is told from another one: its name, its commands, and the sums of its libraries."""
    folder = kit()
    if folder is None:
        raise NotComparable("the command rt of the Rattle kit is not on the path")
    found = [os.path.join(folder, name) for name in sorted(os.listdir(folder)) if name == "KIT-ID" or name.startswith("WHAT")]
    for part in ("bin", "c"):
        at = os.path.join(folder, part)
        found += [os.path.join(at, name) for name in sorted(os.listdir(at))] if os.path.isdir(at) else []
    libraries = os.path.join(folder, "rlibs")
    found += [os.path.join(libraries, name, "format") for name in sorted(os.listdir(libraries))] if os.path.isdir(libraries) else []
    return [path for path in found if os.path.isfile(path)]


def sum_of_file(path):
    """The SHA-256 of a file's bytes."""
    import hashlib

    with open(path, "rb") as file:
        return hashlib.file_digest(file, "sha256").hexdigest() if hasattr(hashlib, "file_digest") else hashlib.sha256(file.read()).hexdigest()


def kit_sum():
    """A sum of the kit: the names and bytes of its files above."""
    import hashlib

    whole, folder = hashlib.sha256(), kit()
    for path in kit_files():
        whole.update(f"{os.path.relpath(path, folder)} {sum_of_file(path)}\n".encode())
    return whole.hexdigest()


def kit_line():
    """The kit's own line of itself."""
    folder = kit()
    if folder is None:
        raise NotComparable("the command rt of the Rattle kit is not on the path")
    with open(os.path.join(folder, "KIT-ID"), encoding="utf-8") as file:
        return " ".join(file.read().split())


def fingerprint(names, kind="proved", root=ROOT):
    """One number of all that a program of these crates is made from: their files, their rows of crates.txt, HANDLES, and the kit."""
    import hashlib

    whole = hashlib.sha256(f"{kind}\n{kit_sum()}\n".encode())
    whole.update("".join(row + "\n" for row in rows_of(names, root)).encode())
    for path in source_files(names, kind, root):
        if os.path.basename(path) != "crates.txt":
            whole.update(f"{os.path.relpath(path, root)} {sum_of_file(path)}\n".encode())
    return whole.hexdigest()


class Store:
    """Where a program that was built stands, with its record: of `kind` proved or unproved."""

    def __init__(self, crate, kind="proved"):
        self.crate, self.kind = crate, kind
        self.folder = os.path.join(BUILT, crate) if kind == "proved" else os.path.join(BUILT, crate, kind)
        self.program = os.path.join(self.folder, "program")
        self.record = os.path.join(self.folder, "record")
        self.seen = os.path.join(self.folder, "seen")

    def read_record(self):
        """What the program was built from: lines of a word and a value, where `crate` comes once for each crate."""
        found = {"crate": []}
        with open(self.record, encoding="utf-8") as lines:
            for line in lines:
                word, _, value = line.rstrip("\n").partition(" ")
                if word == "crate":
                    found["crate"].append(value)
                else:
                    found[word] = value
        return found

    def touches(self, names):
        """What tells whether any file was touched: of each its place, size, inode and time of change. And the latest such time."""
        rows, latest = [], 0
        for path in source_files(names, self.kind) + kit_files() + [self.program, self.record]:
            found = os.stat(path)
            rows.append(f"{path} {found.st_size} {found.st_ino} {found.st_dev} {found.st_mode} {found.st_ctime_ns}\n")
            latest = max(latest, found.st_ctime_ns)
        return "".join(rows), latest

    def is_current(self):
        """Whether the program is there, and is the one that was built from the sources as they are now."""
        try:
            record = self.read_record()
            names = record["crate"]
            touches, latest = self.touches(names)
            try:
                with open(self.seen, encoding="utf-8") as file:
                    if file.read() == touches:
                        return True
            except OSError:
                pass
            return self.is_same(record, touches, latest)
        except (OSError, ValueError, KeyError, NotComparable):
            return False

    def is_same(self, record, touches, latest):
        """The same by the bytes of all files; where they are the same, it notes how they stand, for the next call."""
        import time

        started = time.time_ns()
        is_same = (
            below(crates(), self.crate) == record["crate"]
            and fingerprint(record["crate"], self.kind) == record["sources"]
            and sum_of_file(self.program) == record["program"]
        )
        if is_same and latest < started - GRAIN:
            replace(self.seen, touches.encode())
        return is_same

    def keep(self, program, sources, names):
        """Keeps a program that was built of these sources: first the program, and then the record of it, each by a rename."""
        os.makedirs(self.folder, exist_ok=True)
        with open(program, "rb") as file:
            replace(self.program, file.read(), 0o755)
        lines = [f"sources {sources}", f"program {sum_of_file(self.program)}", f"kit {kit_line()}", f"kit-sum {kit_sum()}"]
        replace(self.record, "".join(line + "\n" for line in [*lines, *(f"crate {name}" for name in names)]).encode())


def replace(path, content, mode=0o644):
    """Puts a file in the place of the one of this name, in one step."""
    new = f"{path}.{os.getpid()}.new"
    try:
        with open(new, "wb") as file:
            file.write(content)
            file.flush()
            os.fsync(file.fileno())
        os.chmod(new, mode)
        os.rename(new, path)
    finally:
        if os.path.exists(new):
            os.remove(new)
