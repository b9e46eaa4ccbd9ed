#!/usr/bin/env python3
"""Reads the pages of plcsafe-bench report with an HTML parser, and compares them with what the other commands say.

report.py PLCSAFE plcsafe-bench=FILE    the programs: what the page tells is compared with what these two write

Form: every element is closed in its turn; no script, no link, no picture file, no attribute that runs or fetches something; ids stand
once, and what names a picture is there; each picture has a title, each table a caption and heads. Told: the SHA-256 of the files, the
results and what is told of each case, the source with its lines, demands and coverage, as the other commands have them; the values of
the tables of changes, and the lines and bands of the pictures, as `watch` has them. Hostile: a case named as an element, comments that end
one, a title, a name of a file, control bytes, a text of 1 MiB. Refused: an application and a case file. Read once: a file that gets other
bytes while it is read is named by those that were run. Limits: 100 cases of 100 scans in two seconds and 5 MB. The status is 0 where all is
as it should be.
"""
import csv
import hashlib
import html.parser
import io
import os
import pathlib
import re
import subprocess
import sys
import tempfile
import time

import swapping
from plainly import Stop, plainly

ROOT = pathlib.Path(__file__).resolve().parent.parent
PRESS = ROOT / "examples" / "press"
VOID = {"meta"}
ELEMENTS = set("html head meta style title body main section h1 h2 h3 p pre span ul li table caption thead tbody tr th td figure figcaption svg desc g rect "
               "path text".split())
ATTRIBUTES = set("lang charset name content class id scope role aria-labelledby x y width height d viewbox".split())
MOST_SECONDS, MOST_BYTES = 2.0, 5_000_000


class Element:
    """An element of a page: its name, attributes, and what it holds."""

    def __init__(self, tag, given):
        self.tag, self.given, self.holds = tag, dict(given), []

    def text(self):
        return "".join(one if isinstance(one, str) else one.text() for one in self.holds)

    def all(self, *tags):
        """The elements of these names below it, in order."""
        found = []
        for one in self.holds:
            if not isinstance(one, str):
                if one.tag in tags:
                    found.append(one)
                found += one.all(*tags)
        return found


class Page(html.parser.HTMLParser):
    """A page as a tree; what breaks its form is an error."""

    def __init__(self, data):
        super().__init__(convert_charrefs=True)
        self.top, self.wrong = Element("", ()), []
        self.open = [self.top]
        self.feed(data.decode("utf-8", "replace"))
        self.close()
        if len(self.open) > 1:
            self.wrong.append(f"<{self.open[-1].tag}> is not closed")
        self.look()

    def handle_starttag(self, tag, given):
        if tag not in ELEMENTS:
            self.wrong.append(f"there is an element <{tag}>")
        for name, _ in given:
            if name not in ATTRIBUTES:
                self.wrong.append(f"<{tag}> has an attribute {name}")
        one = Element(tag, given)
        self.open[-1].holds.append(one)
        if tag not in VOID:
            self.open.append(one)

    def handle_endtag(self, tag):
        if self.open[-1].tag != tag:
            self.wrong.append(f"</{tag}> ends <{self.open[-1].tag}>")
        else:
            self.open.pop()

    def handle_data(self, data):
        self.open[-1].holds.append(data)

    def handle_comment(self, data):
        self.wrong.append("there is a comment")

    def look(self):
        """What holds of every page."""
        every = self.top.all(*ELEMENTS)
        ids = [one.given["id"] for one in every if "id" in one.given]
        if len(ids) != len(set(ids)):
            self.wrong.append("an id stands twice")
        style = "".join(one.text() for one in self.top.all("style"))
        if "url(" in style or "@import" in style:
            self.wrong.append("the style fetches something")
        for one in self.top.all("svg"):
            titles = [it for it in one.holds if not isinstance(it, str) and it.tag == "title"]
            if one.given.get("role") != "img" or len(titles) != 1 or one.given.get("aria-labelledby") != titles[0].given.get("id"):
                self.wrong.append("a picture has no title")
        for one in self.top.all("table"):
            heads = one.all("th")
            if len(one.all("caption")) != 1 or not heads or any(it.given.get("scope") not in ("row", "col") for it in heads):
                self.wrong.append("a table has no caption or heads")
        if len(self.top.all("h1")) != 1 or len(self.top.all("main")) != 1:
            self.wrong.append("the page has not one heading and one part that it is about")

    def part(self, heading):
        """The part with this heading."""
        for one in self.top.all("section"):
            heads = [it for it in one.holds if not isinstance(it, str) and it.tag in ("h2", "h3")]
            if heads and heads[0].text() == heading:
                return one
        raise Stop(f"there is no part {heading!r}")


class Tries:
    """The programs, and what went wrong."""

    def __init__(self, program, bench):
        self.program, self.bench, self.wrong, self.made = program, bench, 0, 0

    def call(self, program, *words, status=0):
        run = subprocess.run([program, *map(str, words)], cwd=ROOT, stdin=subprocess.DEVNULL, capture_output=True)
        if run.returncode != status:
            self.tell(f"{' '.join(map(str, words))}: status {run.returncode}, not {status}: {run.stderr[:200]!r}")
        return run.stdout

    def tell(self, what):
        self.wrong += 1
        print(f"to be mended: {what}")

    def same(self, what, got, wanted):
        self.made += 1
        if got != wanted:
            at = next((k for k, (a, b) in enumerate(zip(got, wanted)) if a != b), min(len(got), len(wanted)))
            self.tell(f"{what}: {got[max(0, at - 60):at + 60]!r} in place of {wanted[max(0, at - 60):at + 60]!r}")

    def page(self, *words):
        """The page of a call, in the right form."""
        page = Page(self.call(self.bench, "report", *words))
        self.made += 1
        for what in page.wrong[:5]:
            self.tell(f"report {' '.join(map(str, words))[:200]}: {what}")
        return page

    def told(self, app, *files):
        """The page of an application and its cases says what the other commands say."""
        page = self.page(app, *files)
        rows = [[cell.text() for cell in row.all("th", "td")] for row in page.part("Files").all("tr")[1:]]
        self.same("files", rows, [[str(name), hashlib.sha256(pathlib.Path(name).read_bytes()).hexdigest()] for name in (app, *files)])
        told = subprocess.run([self.bench, "test", str(app), *map(str, files)], cwd=ROOT, capture_output=True).stdout.decode()
        cases = re.findall(r"^(PASS|FAIL) (\S+:\d+) (.*) \((\d+) scans?\)$", told, re.MULTILINE)
        rows = [[cell.text() for cell in row.all("th", "td")] for row in page.part("Results").all("tr")[1:]]
        self.same("results", rows, [[name, place, result, scans] for result, place, name, scans in cases])
        blocks = "".join(one.all("pre")[0].text() for one in page.part("Cases").all("section"))
        self.same("what is told of cases", blocks, told[:told.rstrip("\n").rindex("\n") + 1])
        text = pathlib.Path(app).read_bytes().decode("utf-8", "replace")
        listed = "".join(f"{number:6}  {line}\n" for number, line in enumerate(text.split("\n"), 1))
        self.same("the source", page.part("Application").all("pre")[0].text(), listed)
        demands = self.call(self.program, "demand", app).decode()
        self.same("demands", "".join(one.text() for one in page.part("Demands").all("pre")), demands)
        if len(files) == 1:
            covered = self.call(self.bench, "cover", app, files[0]).decode()
            self.same("coverage", page.part("Coverage").all("pre")[0].text(), covered)
        for one, (_, place, name, _) in zip(page.part("Cases").all("section"), cases):
            self.same("a case", one.all("h3")[0].text(), name)
            self.changes(app, place, one)

    def changes(self, app, place, part):
        """The table of a case and its pictures say what `watch` says of it."""
        rows = list(csv.DictReader(io.StringIO(self.call(self.bench, "watch", app, place, "--format", "csv").decode())))
        values, shown, at = {}, [], 0
        for row in part.all("tbody")[0].all("tr"):
            now, changes, _ = [cell.text() for cell in row.all("th", "td")]
            for change in re.sub(r"^(TRIP|down|restart)(, |$)", "", changes).split(", "):
                name, _, value = change.partition(" ")
                if name:
                    values[name] = value[:4]
            while at < len(rows) and any(rows[at][key if "." in key or key in rows[at] else f"{key}.DiagCode"] != value for key, value in values.items()
                                         if key in rows[at]) or at < len(rows) and rows[at]["@time"] != now:
                at += 1
            if at == len(rows):
                self.tell(f"{place}: there is no scan at {now} ms with these values")
                return
            shown.append(now)
        self.made += 1
        times = [one.text() for svg in part.all("svg") for one in svg.all("text") if one.given.get("class") == "time"]
        behind = iter(shown)
        if not all(one in behind for one in times):
            self.tell(f"{place}: the times of the pictures are not those of the table")


def hostile(tries, folder):
    """Names and texts that would break out."""
    app, cases = folder / "a&b<c>.st", folder / "d'e\".cases"
    source = (PRESS / "press.st").read_text()
    evil = "</pre></main><script>alert(1)</script><!-- & ' \" ]]> \\"
    app.write_text(f"(* {evil} *)\n" + source)
    given = (PRESS / "press.cases").read_text()
    first = given[given.index("\ncase "):]
    names = ["<script>alert(1)</script>", "\"' onload=alert(1) &amp; &#60; <!--", "</h3></section>]]>", "\u00e4\u20ac\U0001f600"]
    body = first.split("\n", 2)[2].split("\ncase ")[0]
    cases.write_text(given[:given.index("\ncase ")] + "".join(f"\ncase {name}\n{body}\n" for name in names))
    tries.told(app, cases)
    page = tries.page(app, cases, "--title", evil)
    tries.same("a title", page.top.all("h1")[0].text(), evil)
    long = folder / "long.st"
    line = "(* < & > ' \" </pre> and so on, a line of a comment that is long *)\n"
    long.write_text(line * ((1_048_576 - len(source.encode())) // len(line)) + source)
    started = time.monotonic()
    page = tries.page(long, PRESS / "press.cases")
    tries.same("a long text", page.part("Application").all("pre")[0].text().count("</pre>"), long.read_text().count("</pre>"))
    print(f"a text of {long.stat().st_size:,} bytes in {time.monotonic() - started:.2f} s")
    tries.same("a refused application", tries.call(tries.bench, "report", PRESS / "press.cases", cases, status=1)[:8], b"refused ")
    tries.same("a refused case file", tries.call(tries.bench, "report", app, app, status=3)[:9], b"refused K")


def read_once(tries, folder):
    """An application and a case file that get other bytes while they are read."""
    app, cases = folder / "swapped.st", folder / "swapped.cases"
    source, given = (PRESS / "press.st").read_bytes(), (PRESS / "press.cases").read_bytes()
    for path, text in ((app, b"(* a comment *)\n" * 600 + source), (cases, b"# a comment\n" * 800 + given)):
        later = text.replace(b"a comment", b"A COMMENT")
        app.write_bytes(source)
        cases.write_bytes(given)
        path.write_bytes(swapping.read_once(text, later))
        wanted = tries.call(tries.bench, "report", app, cases)
        got = swapping.written([tries.bench, "report", app, cases], path, text, later)
        if got is None:
            print("files that change while they are read: left out, the system gives no leases here")
            return
        tries.same(f"a file that changes while it is read, {path.name}: the status", [got[1]], [0])
        tries.same(f"a file that changes while it is read, {path.name}", got[0], wanted)


def limits(tries, folder):
    """100 cases of 100 scans."""
    cases = folder / "hundred.cases"
    given = (PRESS / "press.cases").read_text()
    body = "".join(f"  +10 S_L={k % 2} S_R={k % 2}\n" + ("  expect S_Ram=0\n" if k % 10 == 9 else "") for k in range(100))
    cases.write_text(given[:given.index("\ncase ")] + "".join(f"\ncase number {k}\n{body}" for k in range(100)))
    started = time.monotonic()
    data = tries.call(tries.bench, "report", PRESS / "press.st", cases)
    took = time.monotonic() - started
    print(f"100 cases of 100 scans: {took:.2f} s, {len(data):,} bytes")
    if b"__asan_init" not in pathlib.Path(tries.bench).read_bytes() and took > MOST_SECONDS:
        tries.tell(f"100 cases took {took:.2f} s")
    if len(data) > MOST_BYTES:
        tries.tell(f"the page of 100 cases has {len(data):,} bytes")


def main(words):
    if len(words) != 2 or not words[1].startswith("plcsafe-bench="):
        return None
    program, bench = words[0], words[1].partition("=")[2]
    for one in (program, bench):
        if not os.access(one, os.X_OK):
            raise Stop(f"{one}: there is no such program")
    tries = Tries(os.path.abspath(program), os.path.abspath(bench))
    for cases in sorted((ROOT / "examples").glob("*/*.cases")):
        apps = [cases.with_suffix(".st"), *sorted(cases.parent.glob("*.st"))]
        app = next((one for one in apps if one.is_file() and b"refused" not in subprocess.run(
            [tries.bench, "test", str(one), str(cases)], cwd=ROOT, capture_output=True).stdout), None)
        if app:
            tries.told(app, cases)
    with tempfile.TemporaryDirectory() as folder:
        hostile(tries, pathlib.Path(folder))
        read_once(tries, pathlib.Path(folder))
        limits(tries, pathlib.Path(folder))
    print(f"report: {tries.made} comparisons, {tries.wrong} wrong")
    return 1 if tries.wrong else 0


if __name__ == "__main__":
    plainly(main, "tools/report.py PLCSAFE plcsafe-bench=FILE")
