"""The contracts of this repository as tools/claims compares them with the pages: of each function of crates/*/src its clauses, with
their text as the source has it, and which functions the programs reach.

Calls are found by their names, so a call counts as reached wherever one of its name is made.
"""
import functools
import re
from typing import NamedTuple

LAWS = re.compile(r"(?:.*/)?(?:\w+_)?laws\.rt")  # the files of laws within a crate's src/
# How pages cite clauses: `CRATE: NAME, NAME` of `CALL`, with any further `NAME` before the call.
CALLS = r"(?: of ((?:`[\w:]+`(?:, | and )?)+))?"
CITED = re.compile(r"`(ps_\w+): ([^`]+)`((?:(?:,| and|, and) `[.\w]+`)*)" + CALLS)
QUOTED = re.compile(r"`([^`]+)`")
# Calls of traits that the language makes by itself.
BY_ITSELF = ("Drop", "From", "Iterator", "Display", "Debug", "Default", "Clone", "Copy", "PartialEq", "Eq", "PartialOrd", "Ord", "Deref", "Index", "Write",
             "Read", "Error", "IntoIterator", "Model")


class Clause(NamedTuple):
    """A line `ensures NAME { .. }` or `requires NAME { .. }`: its text within the brackets, and all of it as the source has it."""

    word: str
    name: str
    text: str
    statement: str


def blanked(text):
    """A text of the same length without comments, strings and characters."""
    mark = r'//[^\n]*|/\*.*?\*/|b?"(?:\\.|[^"\\])*"|\'(?:\\.[^\']*|[^\'\\\n])\''
    return re.sub(mark, lambda found: re.sub(r"[^\n]", " ", found[0]), text, flags=re.S)


def group_end(text, start):
    """Where the bracket that opens at a place is closed."""
    closes, depth = {"{": "}", "(": ")"}[text[start]], 0
    for at in range(start, len(text)):
        depth += (text[at] == text[start]) - (text[at] == closes)
        if depth == 0:
            return at + 1
    return len(text)


def parts(text):
    """A clause at its own arrows: what stands before each, and what is said in the end."""
    text, depth, start, found = " ".join(text.split()), 0, 0, []
    for at, mark in enumerate(text):
        depth += (mark in "({[") - (mark in ")}]")
        if mark == "→" and depth == 0:
            found.append(text[start:at].strip())
            start = at + 1
    return found, text[start:].strip()


def said(text):
    """What a clause says in the end, after its arrows."""
    return parts(text)[1]


class Function:
    """A function of a crate: whether others can call it, its head, what it requires, its clauses, and the calls that its body makes."""

    def __init__(self, crate, file, name, owner, trait, is_public):
        self.crate, self.file, self.name, self.owner, self.trait, self.is_public = crate, file, name, owner, trait, is_public
        self.head, self.requires, self.ensures, self.body = "", [], [], ""

    def __str__(self):
        return f"{self.crate}/src/{self.file}: {self.owner + '::' if self.owner else ''}{self.name}"

    @property
    def called(self):
        """The name by which a page cites the call."""
        return f"{self.owner}::{self.name}" if self.owner else self.name

    @property
    def is_law(self):
        return bool(LAWS.fullmatch(self.file)) and self.is_public

    def clause(self, name):
        return next((one for one in self.ensures if one.name == name), None)

    def is_called(self, call):
        """Whether this is the call of a name: `top`, or with the type that has it, `World::make_scan`."""
        owner, _, name = call.rpartition("::")
        return self.name == name and owner in ("", self.owner)

    def cited(self, name):
        """The clauses that a citation of this name means: of a law all."""
        return self.ensures if self.is_law and self.name == name else [one for one in self.ensures if one.name == name]

    def calls(self):
        """The calls of the body: what stands before the name (a type, a module, `.` or nothing), and the name."""
        found = set(re.findall(r"(?:(\w+)::|(\.))?(\w+)(?:::<[^<>]*>)?\(", self.body))
        found |= {(of, "", name) for of, name in re.findall(r"(\w+)::(\w+)(?![\w(:])", self.body)}
        found |= {("", "", name) for name in re.findall(r"[(,] *(\w+)(?=[),])", self.body)}
        return {(of or dot, name) for of, dot, name in found}


def as_read(text, indent):
    """A piece of a source that begins after so many blanks in its line: without comments, and with its lines so much to the left."""
    lines = [line.rstrip() for line in text.splitlines() if line.strip() and not line.lstrip().startswith("//")]
    return "\n".join(line[indent:] if line[:indent].isspace() else line for line in lines).strip()


@functools.cache
def read_functions(crate, file, source):
    """The functions of a source file."""
    text, found = blanked(source), []
    heads = list(re.finditer(r"(?m)^(impl|trait|pub trait|pub\(crate\) trait|unsafe impl)\b([^\n{]*)", text))
    for head in re.finditer(r"(?m)^( *)(pub(?:\([^)]*\))? )?((?:const |unsafe )*)fn (\w+)", text):
        owner, trait = "", ""
        if head[1]:
            block = [one for one in heads if one.start() < head.start()]
            if block:
                words = re.sub(r"<[^<>]*(?:<[^<>]*>[^<>]*)*>", "", block[-1][2])
                is_trait = "trait" in block[-1][1]
                trait, _, owner = words.rpartition(" for ") if not is_trait else (words, "", words)
                owner = (re.findall(r"\w+", owner.partition(" where ")[0].split(":")[0]) or [""])[0]
                trait = (re.findall(r"\w+", trait.split("::")[-1]) or [""])[0]
        is_public = (head[2] or "").strip() == "pub" or bool(trait)
        one = Function(crate, file, head[4], owner, trait, is_public)
        at = text.find("(", head.end())
        at = group_end(text, at) if at >= 0 else len(text)
        begin = head.start() + len(head[1])
        one.head = as_read(source[begin:at], len(head[1]))
        while at < len(text):
            word = re.compile(r"(ensures|requires)\*?(?: (\w+))? \{|[{;]|\[[^\[\]]*\]").search(text, at)
            if not word or word[0] == ";":
                break
            if word[0].startswith("["):
                at = word.end()
                continue
            end = group_end(text, word.end() - 1)
            if word[0] == "{":
                one.body = re.sub(r"ghost\b[^;{]*(?:\{[^{}]*\})?[^;{]*;", " ", text[word.start() : end])
                break
            if not one.requires and not one.ensures:
                one.head = as_read(source[begin : word.start()], len(head[1]))
            indent = word.start() - source.rfind("\n", 0, word.start()) - 1
            clause = Clause(word[1], word[2] or "", text[word.end() : end - 1], as_read(source[word.start() : end], indent))
            (one.ensures if word[1] == "ensures" else one.requires).append(clause)
            at = end
        found.append(one)
    return found


def definitions_named(text):
    """The definitions of specs/ that a source file names: the name with its file; of a module that it names, what begins with it."""
    found = {}
    for crate, parts, names, alias in re.findall(r"ghost use Rattle\.(ps_\w+)\.specs\.([\w.]+?)(?:\.\{([^}]*)\}| as (\w+));", text):
        module = parts.split(".")[0]
        if module != "declared":
            for name in [alias + "."] if alias else [one.split()[-1].strip() for one in names.split(",") if one.strip()]:
                found[name] = f"crates/{crate}/specs/{module}.antt"
    return found


def cited_of_calls(text):
    """The clauses that a page cites of calls: the crate, the call and the name of each."""
    for crate, names, more, calls in CITED.findall(text):
        for call in QUOTED.findall(calls):
            for name in [*(name.strip() for name in names.split(",")), *QUOTED.findall(more)]:
                yield crate, call, name


class Sources:
    """The crates of a repository and their functions; `changed` has files that are to be read with another text, by their paths. Of each
    source file they have the names of its `use` lines, those that these take from its own crate, and the definitions that it names."""

    def __init__(self, root, changed=None):
        self.root, self.changed, self.stands_on, self.functions = root, changed or {}, {}, []
        self.imports, self.own, self.defined = {}, {}, {}
        for line in (root / "crates.txt").read_text().splitlines():
            head, colon, rest = line.partition("#")[0].partition(":")
            if colon:
                self.stands_on[head.split()[0]] = rest.split()
        for crate in self.stands_on:
            for path in sorted((root / "crates" / crate / "src").glob("**/*.rt")):
                file = str(path.relative_to(root / "crates" / crate / "src"))
                text = self.text(str(path.relative_to(root)))
                self.functions += read_functions(crate, file, text)
                uses = re.findall(r"(?m)^(?:pub(?:\([^)]*\))? )?use ([^;]*);", text)
                self.imports[crate, file] = set(re.findall(r"\w+", " ".join(uses)))
                self.own[crate, file] = set(re.findall(r"\w+", " ".join(use for use in uses if not re.match(r"ps_|std\b", use))))
                self.defined[crate, file] = definitions_named(text)

    def text(self, short):
        """The text of a file."""
        return self.changed.get(short) or (self.root / short).read_text()

    def has_word(self, crates, word):
        """Whether the sources or definitions of these crates have a word."""
        paths = [path for crate in crates for form in ("src/**/*.rt", "specs/**/*.antt", "proofs/**/*.antt") for path in (self.root / "crates" / crate).glob(form)]
        return any(path.stem == word or re.search(rf"\b{word}\b", path.read_text()) for path in paths)

    def definition(self, file, name):
        """A definition of a file of specs/ with the sentence before it, in lines; none if the file has it from elsewhere."""
        lines = self.text(file).splitlines()
        head = re.compile(rf"( *)(?:(?:abbrev|unfoldable|pub|record|data) )*{re.escape(name)}(?= |$)")
        at = next((at for at, line in enumerate(lines) if head.match(line)), None)
        if at is None:
            return []
        indent, first = len(head.match(lines[at])[1]), at
        while first > 0 and lines[first - 1][indent:].startswith("--"):
            first -= 1
        while at < len(lines) and (lines[at] or (at + 1 < len(lines) and lines[at + 1].startswith(" " * (indent + 2)))):
            at += 1
        return [line[indent:] for line in lines[first:at]]

    def below(self, top):
        found = [top]
        for crate in found:
            found += [low for low in self.stands_on.get(crate, []) if low in self.stands_on and low not in found]
        return found

    def programs(self):
        """The crates of the programs: of those that have a launcher, as ./plcsafe is one."""
        launchers = [path.read_text(errors="replace") for path in self.root.iterdir() if path.name.startswith("plcsafe") and path.is_file()]
        return [crate for text in launchers for crate in re.findall(r'tools/launch\.py" (\w+) ', text) if crate in self.stands_on]

    @functools.cached_property
    def names(self):
        """The functions by crate and name."""
        return {(one.crate, one.name) for one in self.functions}

    @functools.cached_property
    def reached(self):
        """The functions that the programs reach, by the names of calls."""
        return set().union(*map(self.reached_by, self.programs()))

    def reached_by(self, program):
        """The functions that a program reaches."""
        by_name, found = {}, []
        crates = self.below(program)
        for one in self.functions:
            if one.crate in crates:
                by_name.setdefault(one.name, []).append(one)
        waiting = [one for one in by_name.get("main", []) if one.crate == program]
        waiting += [one for ones in by_name.values() for one in ones if one.trait in BY_ITSELF]
        seen = set(map(id, waiting))
        while waiting:
            this = waiting.pop()
            found.append(this)
            lows = set(self.below(this.crate))
            for of, name in this.calls():
                for there in by_name.get(name, []):
                    if id(there) not in seen and (there.crate in lows or there.trait) and self.may_be(this, of, there):
                        seen.add(id(there))
                        waiting.append(there)
        return set(map(id, found))

    def may_be(self, this, of, there):
        """Whether a call in a function can be of another one."""
        if there.owner:
            return bool(of) and (of == "." or of in (there.owner, there.trait, "Self") or len(of) <= 2)
        if of == ".":
            return False
        if there.crate == this.crate or of == there.crate:
            return True
        is_own = there.name in self.own[this.crate, this.file] and (this.crate, there.name) in self.names
        return there.name in self.imports[this.crate, this.file] and not is_own


@functools.lru_cache(maxsize=2)
def read_once(root, changed):
    """The sources with these files changed."""
    return Sources(root, dict(changed))


def sources_of(root, changed=()):
    """The sources with these files changed, pages apart; what was read of a folder before is kept."""
    return read_once(root, tuple((file, text) for file, text in dict(changed).items() if not file.endswith(".md")))
