"""What a wrong body says: a file NAME.edit with a line `file:` and pairs of an old and a new text of one line each.

Those of crates/CRATE/must-fail/ are tried by the gate, and those of wrong/CRATE/ by tools/wrong.
"""
import pathlib

ROOT = pathlib.Path(__file__).resolve().parent.parent


def in_gate(crate, root=ROOT):
    """The wrong bodies of a crate that the gate tries, by their files."""
    return sorted((root / "crates" / crate / "must-fail").glob("*.edit"))


def beside_gate(crate, root=ROOT):
    """The other wrong bodies of a crate, by their files."""
    return sorted((root / "wrong" / crate).glob("*.edit"))


def pairs_of(edit):
    """The pairs of an edit: the file, the old text and the new one."""
    file, old = None, None
    for line in edit.read_text().splitlines():
        head, _, rest = line.partition(": ")
        if head == "file":
            file = rest.strip()
        elif head == "old":
            old = rest
        elif line.startswith("new:"):
            yield file, old, rest


def apply(pairs, texts):
    """Applies the pairs of an edit to the texts of a crate, which are held by the names of their files. Why it cannot be done, or nothing."""
    for file, old, new in pairs:
        if file not in texts or not old:
            return f"there is no file {file}, or no old text"
        if texts[file].count(old) != 1:
            return f"its old text stands in {pathlib.PurePath(file).name} {texts[file].count(old)} times, and not once"
        if old == new:
            return "its new text is its old one"
        texts[file] = texts[file].replace(old, new)
    return None if pairs else "it has no pair of an old and a new text"


def texts_of(crate):
    """The texts of a crate, by the names of their files."""
    paths = [path for folder in ("src", "specs", "proofs") for path in sorted((crate / folder).glob("**/*")) if path.is_file()]
    return {str(path.relative_to(crate)): path.read_text() for path in paths}
