#!/usr/bin/env python3
"""The colours of applications, traces, fault files, case files and rules files in editors: a TextMate grammar for editors/vscode and a
syntax file for editors/vim for each, made from the words that the program's own readers know.

colours.py --write        makes the files, and what the extension's manifest and Vim's detection say of them
colours.py --check        whether they are those of the program
"""
import json
import os
import pathlib
import re
import sys

sys.path.insert(0, os.path.dirname(os.path.realpath(__file__)))
from plainly import plainly

ROOT = pathlib.Path(__file__).resolve().parent.parent
CRATES = ROOT / "crates"
VIM, CODE = ROOT / "editors" / "vim", ROOT / "editors" / "vscode"
LEXER = CRATES / "ps_lexer" / "src" / "scanner.rt"
KINDS = CRATES / "ps_model" / "src" / "kind.rt"
PINS = CRATES / "ps_model" / "src" / "pin_tables.rt"
TYPES = ["SAFEBOOL", "BOOL", "TIME"]
CONSTANTS = ["TRUE", "FALSE"]
# what a text with function blocks has besides, which are names to the lexer
HEADS = ["FUNCTION_BLOCK", "END_FUNCTION_BLOCK"]
# each class of words: the name that TextMate has for it, and the group of Vim
CLASSES = {
    "Keyword": ("keyword.control", "Statement"),
    "Constant": ("constant.language", "Constant"),
    "Type": ("storage.type", "Type"),
    "Kind": ("support.class", "Structure"),
    "Pin": ("variable.parameter", "Identifier"),
    "Time": ("constant.numeric", "Number"),
    "Number": ("constant.numeric", "Number"),
    "Operator": ("keyword.operator", "Operator"),
    "Title": ("entity.name.section", "Title"),
    "Comment": ("comment.line", "Comment"),
}
NAME = r"[A-Za-z_][0-9A-Za-z_.]*"


def words_of(*files):
    """The words that these readers compare with, in their order, each once."""
    found = []
    for file in files:
        found += re.findall(r'b"([A-Za-z][a-z-]+|NOT)"', (CRATES / file).read_text())
    return list(dict.fromkeys(found))


def application():
    """The keywords, kinds and pins of applications, each list in the order of its table."""
    keywords = re.findall(r'eq_ignore_ascii_case\(b"(\w+)"\)', LEXER.read_text())
    kinds = re.findall(r'=> "(SF_\w+)"', KINDS.read_text())
    pins = list(dict.fromkeys(re.findall(r'pin!\("(\w+)"', PINS.read_text())))
    if len(keywords) != 10 or len(kinds) != 13 or not pins:
        raise ValueError("the tables of keywords, kinds or pins do not read as they did")
    return [word for word in keywords if word not in CONSTANTS] + HEADS, kinds, pins


def words_in(kind):
    """The words of one of the other sorts of texts."""
    found = {
        "trace": words_of("ps_trace/src/header.rt", "ps_trace/src/scan_line.rt"),
        "faults": words_of("ps_trace/src/fault_line.rt"),
        "cases": words_of("ps_bench_cases/src/line.rt", "ps_bench_cases/src/deeds.rt", "ps_bench_cases/src/checks.rt", "ps_bench_cases/src/strike.rt"),
        "rules": words_of("ps_bench_rules/src/line.rt", "ps_bench_rules/src/taking.rt", "ps_bench_rules/src/words.rt"),
    }[kind]
    wanted = {"trace": 2, "faults": 4, "cases": 16, "rules": 8}[kind]
    if len(found) != wanted:
        raise ValueError(f"the readers of .{kind} know {len(found)} words, and not {wanted} as they did: {' '.join(found)}")
    return found


def any_of(found):
    """A pattern of whole words between blanks, which Vim and TextMate have their own forms of."""
    return sorted(found, key=len, reverse=True)


class Sort:
    """A sort of texts: its ending, what it is called, the word behind which a line is a title, if there is one, its colours, each a class
    with a pattern of TextMate and one of Vim, and its comments."""

    def __init__(self, ending, title, head, colours, comments):
        self.ending, self.title, self.head, self.colours, self.comments = ending, title, head, colours, comments
        self.name = "plcsafe" if ending == "st" else f"plcsafe-{ending}"

    def scope(self, group):
        """The scope of TextMate of a class."""
        return f"{CLASSES[group][0]}.{self.name}"

    def grammar(self):
        """The TextMate grammar."""
        patterns = [{"name": self.scope("Comment"), "match": pattern} for pattern, _ in self.comments]
        if self.ending == "st":
            patterns.insert(0, {"name": "comment.block.plcsafe", "begin": r"\(\*", "end": r"\*\)"})
        if self.head:
            captures = {"1": {"name": self.scope("Keyword")}, "2": {"name": self.scope("Title")}}
            patterns.insert(0, {"match": rf"^[ \t]*({self.head})(?:[ \t]+(.*))?$", "captures": captures})
        for group, pattern, _ in self.colours:
            patterns.append({"name": self.scope(group), "match": pattern})
        scope = f"source.{self.name.replace('-', '.')}"
        return json.dumps({"name": self.title, "scopeName": scope, "fileTypes": [self.ending], "patterns": patterns}, indent=2) + "\n"

    def detection(self):
        """The line by which Vim knows such a file: by its ending, and a rules file, whose ending others use too, by one of its lines."""
        name = self.name.replace("-", "")
        if self.ending == "rules":
            return f"autocmd BufRead,BufNewFile *.rules if search('^[ \\t]*{self.head}[ \\t]', 'nw') | set filetype={name} | endif\n"
        return f"autocmd BufRead,BufNewFile *.{self.ending} set filetype={name}\n"

    def syntax(self):
        """The syntax file of Vim, in which what stands later comes first."""
        name = self.name.replace("-", "")
        lines = [f'" Colours of .{self.ending} files of plcsafe; made by tools/colours.py.', 'if exists("b:current_syntax")', "  finish", "endif",
                 "syntax case " + ("ignore" if self.ending == "st" else "match")]
        if self.ending != "st":
            lines.append("syntax iskeyword @,48-57,_,-")
        for group, _, of_vim in reversed(self.colours):
            lines.append(f"syntax {of_vim[0]} {name}{group} {of_vim[1]}")
        lines += [f"syntax match {name}Comment {pattern}" for _, pattern in self.comments]
        if self.ending == "st":
            lines.append(rf"syntax region {name}Comment start=/(\*/ end=/\*)/")
        groups = [group for group, _, _ in self.colours] + ["Comment"]
        if self.head:
            lines += [rf"syntax match {name}Keyword /^[ \t]*{self.head}\>/ nextgroup={name}Title", rf"syntax match {name}Title /.*$/ contained"]
            groups.append("Title")
        for group in dict.fromkeys(groups):
            lines.append(f"highlight default link {name}{group} {CLASSES[group][1]}")
        lines.append(f'let b:current_syntax = "{name}"')
        return "\n".join(lines) + "\n"


def words(group, found, any_case=False):
    """Whole words of a class."""
    prefix = "(?i)" if any_case else ""
    return group, rf"{prefix}(?<![\w.-])(?:{'|'.join(any_of(found))})(?![\w-])", ("keyword", " ".join(found))


def match(group, pattern, of_vim):
    """What a pattern finds, which Vim writes in its own way."""
    return group, pattern, ("match", of_vim)


def sorts():
    """All sorts of texts that have colours."""
    keywords, kinds, pins = application()
    found = [Sort("st", "Safety application", None, [
        match("Time", r"(?i)\b(?:T|TIME)#[0-9A-Za-z_.]+", r"/\<\(T\|TIME\)#[0-9A-Za-z_.]\+/"),
        words("Keyword", keywords, True), words("Constant", CONSTANTS, True), words("Type", TYPES, True), words("Kind", kinds, True),
        words("Pin", pins, True), match("Operator", ":=|&", r"/:=\|&/"),
    ], [(r"//.*$", r"/\/\/.*$/")])]
    first = [(r"^#.*$", r"/^#.*$/")]
    behind = [(r"(?<![^ \t])#.*$", r"/\(^\|[ \t]\)\@1<=#.*$/")]
    found.append(Sort("trace", "Trace of a safety application", None, [
        words("Keyword", words_in("trace")),
        match("Time", r"^[ \t]*[0-9]+", r"/^[ \t]*[0-9]\+/"), match("Constant", r"(?<![\w.])[01](?![\w.])", r"/\<[01]\>/"),
    ], first))
    found.append(Sort("faults", "Faults of a channel", None, [
        words("Keyword", words_in("faults")),
        words("Type", ["A", "B", "C"]), match("Number", r"(?<![\w.])[0-9A-Fa-f]+(?![\w.])", r"/\<[0-9A-Fa-f]\+\>/"),
    ], first))
    for ending, title, head in (("cases", "Cases of a safety application", "case"), ("rules", "Rules of a safety application", "never")):
        found.append(Sort(ending, title, head, [
            match("Operator", "!?=|,", "/!\\?=\\|,/"),
            match("Constant", r"(?<==|,)(?:[0-9A-Fa-f]{4}|[01]|(?i:TRUE|FALSE))(?![\w.])", r"/[=,]\@1<=\c\([0-9A-F]\{4}\|[01]\|TRUE\|FALSE\)\>/"),
            match("Time", r"(?<![\w.+])\+?[0-9]+(?![\w.])", r"/[0-9A-Za-z_.+]\@1<!+\?[0-9]\+[0-9A-Za-z_.]\@!/"),
            words("Keyword", [word for word in words_in(ending) if word != head]),
            match("Pin", rf"{NAME}(?=(?:@before)?!?=)", r"/[A-Za-z_][0-9A-Za-z_.]*\(\(@before\)\?!\?=\)\@=/"),
        ], behind))
    return found


def manifest(found):
    """The manifest of the extension, with these sorts of texts."""
    held = json.loads((CODE / "package.json").read_text())
    held["contributes"]["languages"] = [
        {"id": sort.name, "aliases": [sort.title], "extensions": [f".{sort.ending}"], **({"configuration": "./language-configuration.json"} if sort.ending == "st" else {})}
        for sort in found]
    held["contributes"]["grammars"] = [
        {"language": sort.name, "scopeName": f"source.{sort.name.replace('-', '.')}", "path": f"./syntaxes/{sort.name}.tmLanguage.json"} for sort in found]
    return json.dumps(held, indent=2) + "\n"


def files():
    """Each file that is made, with its text."""
    found = sorts()
    made = {CODE / "package.json": manifest(found)}
    made[VIM / "ftdetect" / "plcsafe.vim"] = "".join(sort.detection() for sort in found)
    for sort in found:
        made[CODE / "syntaxes" / f"{sort.name}.tmLanguage.json"] = sort.grammar()
        made[VIM / "syntax" / f"{sort.name.replace('-', '')}.vim"] = sort.syntax()
    return made


def main(given):
    if given == ["--write"]:
        for path, made in files().items():
            path.write_text(made)
        print(f"{len(files())} files written")
        return 0
    if given == ["--check"]:
        made = files()
        wrong = [path for path, text in made.items() if not path.is_file() or path.read_text() != text]
        for path in wrong:
            print(f"{os.path.relpath(path, ROOT)} is not that of the program's words: call tools/colours.py --write")
        print(f"{len(made) - len(wrong)} of {len(made)} files are those of the program's words")
        return 1 if wrong else 0
    return None


if __name__ == "__main__":
    plainly(main, "colours.py --write | --check")
