"""The tables of docs/blocks.md, the words of states of the crate ps_ways, and the mask rows of the crate ps_rows, for the
scripts of this folder."""
import pathlib
import re

ROOT = pathlib.Path(__file__).resolve().parent.parent
PAGE = ROOT / "docs" / "blocks.md"
ROWS = ROOT / "crates" / "ps_rows" / "src"
WORDS = ROOT / "crates" / "ps_ways" / "specs" / "Words.antt"
FILES = {  # the file of a kind's rows
    "SF_Equivalent": "equivalent",
    "SF_Antivalent": "equivalent",
    "SF_EmergencyStop": "stop",
    "SF_ESPE": "stop",
    "SF_ModeSelector": "modes",
    "SF_TwoHandControlTypeII": "two_hand_two",
    "SF_TwoHandControlTypeIII": "two_hand_three",
    "SF_GuardMonitoring": "guard_monitoring",
    "SF_GuardLocking": "guard_locking",
    "SF_EnableSwitch": "enable_switch",
    "SF_SafetyRequest": "safety_request",
    "SF_OutControl": "out_control",
    "SF_EDM": "edm",
}


class Row:
    """A mask row: its state, the conditions that are to be TRUE and FALSE, the next state, and whether its time begins anew."""

    def __init__(self, state, on, off, next_state, action):
        self.state, self.next = state[2:], next_state[2:]
        self.on = [word.strip() for word in on.split("|") if word.strip() != "0"]
        self.off = [word.strip() for word in off.split("|") if word.strip() != "0"]
        self.is_anew = "ANEW" in action


def rows_of(file):
    """The rows of a file of ps_rows in order, and what each condition says."""
    text = (ROWS / f"{file}.rt").read_text()
    says = dict(re.findall(r"const (\w+): u32 = \w+; // (.*)", text))
    rows = [Row(*found) for found in re.findall(r"row!\((0x\w+), ([^,]*), ([^,]*), (0x\w+), ([^)]*)\)", text)]
    return rows, says


def words():
    """What the states of each kind are called, as the crate ps_ways has it: for each kind the words of its codes."""
    lists = re.findall(r"abbrev pub (\w+) : List Called\n\w+ =\n(.*?)\n    ∷ \[\]", WORDS.read_text(), re.S)
    found = {name: dict(re.findall(r'\(0x(\w+), codes "([^"]*)"\)', rows)) for name, rows in lists}
    found["two_hand_three"] = {**found["two_hand_two"], **found["late"]}
    return {kind: found[file] for kind, file in FILES.items()}


def codes_of(cell):
    """The codes that a text of the page names."""
    return re.findall(r"[0-9A-F]{4}", cell)


def tables():
    """What the page says: for each kind its states in order, each with its meaning and the text of where it goes."""
    found, kinds = {}, []
    for line in PAGE.read_text().splitlines():
        if line.startswith("## "):
            kinds = re.findall(r"SF_\w+", line)
        elif kinds and re.match(r"\| [0-9A-F]{4}\b", line):
            cells = [cell.strip() for cell in line.strip("|").split("|")]
            for kind in kinds:
                for code in codes_of(cells[0]):
                    if kind == "SF_TwoHandControlTypeII" and code in ("C004", "C005", "C006"):
                        continue  # type III alone
                    found.setdefault(kind, {})[code] = cells[1], cells[2]
    if "SF_Equivalent" in found:
        found["SF_Antivalent"] = found["SF_Equivalent"]
    return found
