"""docs/statements.md: each claim of README.md and docs/proofs.md with the clauses that it cites, copied from the sources."""
import re
from typing import NamedTuple

from clauses import said

PAGE = "docs/statements.md"
PAGES = ("README.md", "docs/proofs.md")
HEAD = """# Claims beside their clauses

Each claim of README.md and docs/proofs.md, and below it what the prover was asked to show: the clauses that the claim cites, copied from the sources by `tools/claims --write`, with the head of the call and what it requires, and the definitions in which a clause ends (not for the tables of crates). Below are the names of all definitions that the clause names, each with its file. `tools/claims`, and so the gate, compares this page with the sources: if a clause changes under a claim, it fails until somebody has read both again. [audit.md](audit.md) says in which ways a claim is refused, and CONTRIBUTING.md how a clause is read.
"""


class Claim(NamedTuple):
    """A claim of a page: where it stands, what it says, its premises, and whether the clauses alone stand beside it, without definitions."""

    page: str
    place: str
    text: str
    premises: str | None = None
    in_brief: bool = False


class Citation(NamedTuple):
    """Clauses of a function that a claim cites."""

    claim: Claim
    function: object
    clauses: tuple

    def title(self):
        """What is cited: the clauses of a call, or a law."""
        one, names = self.function, [clause.name for clause in self.clauses if clause.name]
        path = f"crates/{one.crate}/src/{one.file}"
        if one.is_law:
            return f"Law `{one.crate}: {one.name}` in `{path}`"
        return f"`{one.crate}: {', '.join(names)}` of `{one.called}` in `{path}`" if names else f"The clause of `{one.called}` of `{one.crate}` in `{path}`"

    def statement(self):
        """The clauses as the source has them, with the head of the function and what it requires."""
        one = self.function
        return "\n".join([one.head, *(clause.statement for clause in (*one.requires, *self.clauses))])


def ends_in(sources, citation):
    """What the clauses of a citation say in the end: the relations of specs/ that stand after their last arrows, as the sources have them."""
    one, found = citation.function, {}
    named = sources.defined[one.crate, one.file]
    for clause in citation.clauses:
        for word in re.findall(r"[A-Z][\w']*", said(clause.text)):
            if word in named and word not in found and (lines := sources.definition(named[word], word)):
                found[word] = lines
    return ["\n".join(lines) for lines in found.values()]


def definitions(sources, citation):
    """The definitions of specs/ that the clauses of a citation name, by their files."""
    one, found = citation.function, {}
    named = sources.defined[one.crate, one.file]
    text = "\n".join(clause.text for clause in (*one.requires, *citation.clauses))
    for word in re.findall(r"[A-Za-z_][\w'.]*", text):
        name, file = (word, named.get(word)) if word in named else (word.partition(".")[2], named.get(word.partition(".")[0] + "."))
        if file and name not in found.setdefault(file, []):
            found[file].append(name)
    return [f"{', '.join(f'`{name}`' for name in names)} (`{file}`)" for file, names in found.items()]


def together(citations):
    """The citations, with those of one claim and one function as one."""
    found = {}
    for one in citations:
        key = one.claim, one.function
        found[key] = found.get(key, ()) + tuple(clause for clause in one.clauses if clause not in found.get(key, ()))
    return [Citation(claim, function, clauses) for (claim, function), clauses in found.items()]


def quoted(claim):
    """A claim as a quotation."""
    return f"> {claim.text}" + (f"\n>\n> Premise: {claim.premises}" if claim.premises else "")


def blocks(sources, citations):
    """The parts of the page: of each claim, in the order of the pages, its quotation and what it cites, title by title."""
    found = {}
    for one in together(citations):
        if one.claim.page in PAGES:
            found.setdefault(one.claim, []).append(one)
    for claim in sorted(found, key=lambda claim: (PAGES.index(claim.page), int(claim.place.rpartition(":")[2]))):
        cited = {}
        for one in found[claim]:
            named, ends = definitions(sources, one), [] if claim.in_brief else ends_in(sources, one)
            cited[one.title()] = "\n\n".join([f"```\n{one.statement()}", *ends]) + "\n```\n" + (f"\nNamed there: {'; '.join(named)}\n" if named else "")
        yield claim, cited


def page(sources, citations):
    """The text of the page."""
    parts, of = [HEAD], None
    for claim, cited in blocks(sources, citations):
        if claim.page != of:
            of = claim.page
            parts.append(f"## {of}\n")
        parts.append(quoted(claim) + "\n")
        parts += [f"{title}:\n\n{text}" for title, text in cited.items()]
    return "\n".join(parts)


def read_back(text):
    """Of a page that was written before: of each claim what it cited, title by title."""
    found, cited = {}, {}
    for part in re.split(r"(?m)^(?=> (?!Premise: ))", text)[1:]:
        claim = re.match(r"(?:>.*\n)+", part)[0].strip()
        part = re.sub(r"(?m)^## .*\n?", "", part)
        cited = found.setdefault(claim, {})
        for title, statement in re.findall(r"(?ms)^(\S[^\n]*):\n\n(```\n.*?\n```\n)", part):
            cited[title] = statement
    return found


def changes(sources, citations, before):
    """What is not as the page has it: a clause that changed under its claim, and a claim that the page does not have beside its clause."""
    old = read_back(before)
    for claim, cited in blocks(sources, citations):
        then = old.get(quoted(claim))
        for title, text in cited.items():
            if then is None or title not in then:
                yield f"{claim.place}: {PAGE} does not have this claim beside {title.partition(' in ')[0]}: read both, and call tools/claims --write"
            elif not text.startswith(then[title]):
                yield f"{claim.place}: {title.partition(' in ')[0]} has changed under the claim: read both, and call tools/claims --write"
