#!/usr/bin/env python3
"""The state diagrams of docs/blocks.md, made from the mask rows of the crate ps_rows.

diagrams.py            prints the diagrams, in mermaid
diagrams.py --write    writes them into the page, each between its two marks
diagrams.py --check    asks whether the page has these diagrams, and whether its tables have the states and the ways of the
                       rows, in the order in which they are tried, and the words of ps_ways; by its status

The rows are those that channel B runs. They are proved equal to the tables of ps_model (laws `.._rows` of ps_rows). Ways to Idle
are left out, since they are the same in each state: Activate FALSE.
"""
import re
import sys

from blocks import FILES, PAGE, codes_of, rows_of, tables, words as words_of_states
from plainly import plainly

END = "<!-- up to here -->"


def mark(file):
    return f"<!-- made by tools/diagrams.py from crates/ps_rows/src/{file}.rt -->"


def phrase(name, says, is_on):
    """What a condition says where it is to be TRUE, or FALSE."""
    text = re.split(r"[;:]", says[name])[0]
    is_long = " is " in text or " are " in text or " or " in text
    text = text.removeprefix("the ") if not is_long else f"({text})"
    return text if is_on else f"not {text}"


def condition(row, says):
    """What a row asks, as the label of an arrow."""
    on, off, parts = list(row.on), list(row.off), []
    for name, last, now in (("RESET", "LAST_RESET", "Reset"), ("P", "LAST_P", "ProcessControl")):
        if name in on and last in off:
            on.remove(name), off.remove(last)
            parts.append(f"{now} rises")
        elif name in on and last in on:
            on.remove(name), on.remove(last)
            parts.append(f"{now} is static")
    parts = [phrase(name, says, True) for name in on] + [phrase(name, says, False) for name in off] + parts
    return " and ".join(parts) or "else"


def ways(rows):
    """The ways of each state, in the order in which they are tried: the next state, and the rows that lead there."""
    found = {}
    for row in rows:
        ways_of = found.setdefault(row.state, [])
        is_idle, stays = row.next == "0000", row.next == row.state and not row.is_anew
        if row.state == "0000" or is_idle or stays:
            continue
        if ways_of and ways_of[-1][0] == row.next:
            ways_of[-1][1].append(row)
        else:
            ways_of.append((row.next, [row]))
    return found


def diagram(file, meanings):
    """The diagram of a file of rows, in mermaid."""
    rows, says = rows_of(file)
    first = next(row.next for row in rows if row.state == "0000")
    lines = ["```mermaid", "stateDiagram-v2", f"    [*] --> s{first} : Activate"]
    for state, ways_of in ways(rows).items():
        if state == "0000":
            continue
        meaning = meanings.get(state, ("",))[0].replace(";", ",").replace(":", ",")
        lines.append(f"    s{state} : {state} {meaning}")
        for place, (next_state, those) in enumerate(ways_of, 1):
            label = " or ".join(condition(row, says) for row in those)
            anew = ", its time begins anew" if next_state == state else ""
            lines.append(f"    s{state} --> s{next_state} : ({place}) {label}{anew}")
    errors = ",".join(f"s{state}" for state in ways(rows) if state.startswith("C"))
    lines += ["    classDef enabled fill:#dff0d8,stroke:#3c763d", "    classDef error fill:#f2dede,stroke:#a94442"]
    lines += ["    class s8000 enabled", f"    class {errors} error", "```"]
    return "\n".join(lines)


def files():
    """Each file of rows once, with the table of the page that it is drawn with."""
    found = {}
    for kind, file in FILES.items():
        found.setdefault(file, tables().get(kind, {}))
    return found


def page_with_diagrams():
    text = PAGE.read_text()
    for file, meanings in files().items():
        head, begin, rest = text.partition(mark(file))
        if begin:
            text = f"{head}{begin}\n{diagram(file, meanings)}\n{END}{rest.partition(END)[2]}"
    return text


def next_codes(kind, state, text):
    """The next states that a table of the page names for a state, in order."""
    found = []
    for way in text.split(";"):
        found += codes_of(way)[-1:]
    if kind == "SF_EnableSwitch" and state != "8004":
        found.insert(0, "8004")
    if kind == "SF_TwoHandControlTypeIII" and state in ("8005", "8006"):
        found = ["C006", "C004", "C005", *found]
    return [code for i, code in enumerate(found) if i == 0 or found[i - 1] != code]


def wrong_tables():
    """The states in which a table of the page and the rows differ."""
    wrong = []
    for kind, file in FILES.items():
        shown = {state: next_codes(kind, state, text) for state, (_, text) in tables()[kind].items()}
        real = {state: [way for way, _ in ways_of if way != state] for state, ways_of in ways(rows_of(file)[0]).items() if state != "0000"}
        wrong += [f"{kind} {state}: {shown.get(state)} and {real.get(state)}" for state in sorted({*shown, *real}) if shown.get(state) != real.get(state)]
        called = words_of_states()[kind]
        wrong += [f"{kind} {state} is called {called.get(state)}" for state, (meaning, _) in tables()[kind].items() if called.get(state) != meaning]
    return wrong


def main(words):
    if words not in ([], ["--write"], ["--check"]):
        return None
    if words == ["--write"]:
        PAGE.write_text(page_with_diagrams())
    elif words == ["--check"]:
        wrong = wrong_tables()
        if page_with_diagrams() != PAGE.read_text() or not all(mark(file) in PAGE.read_text() for file in files()):
            wrong.append("a diagram of the page is another")
        print("\n".join(wrong) or "docs/blocks.md has the tables and diagrams of the rows")
        return 1 if wrong else 0
    else:
        for file, meanings in files().items():
            print(diagram(file, meanings))
    return 0


if __name__ == "__main__":
    plainly(main, "tools/diagrams.py [--write | --check]")
