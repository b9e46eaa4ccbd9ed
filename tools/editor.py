#!/usr/bin/env python3
"""Tries the language server: by messages of this script's own, whole and broken, and by Neovim, where it is on the machine.

editor.py PROGRAM [NAME=PROGRAM..]    PROGRAM, or the one that is given as plcsafe-lsp=FILE, is the server

Each request has to be answered once, under its id; a refusal has to stand at its place, in UTF-16 code units; and no message may end
the server with anything but the status that it has for it. Changes of a text of 1 MiB have to be answered in time.
"""
import json
import os
import pathlib
import random
import shutil
import subprocess
import sys
import tempfile
import time

sys.path.insert(0, os.path.dirname(os.path.realpath(__file__)))
from plainly import Stop, plainly

ROOT = pathlib.Path(__file__).resolve().parent.parent
URI = "file:///press.st"
# the name that is not declared stands behind characters of two and of four bytes
TEXT = """PROGRAM Press
VAR_INPUT S_Stop : SAFEBOOL; Reset : BOOL; END_VAR
VAR_OUTPUT S_Motor : SAFEBOOL; END_VAR
VAR E : SF_EmergencyStop; END_VAR
E(Activate := TRUE, S_EStopIn := S_Stop, );
(* \u00e4\U0001f600 *) S_Motor := S_None;
END_PROGRAM
"""
WRONG = TEXT.replace(", );", ", Reset := Reset);")
RIGHT = WRONG.replace("S_None", "E.S_EStopOut")
BROKEN_BODIES, BROKEN_TEXTS, BROKEN_STREAMS = 6_000, 3_900, 100
METHODS = ("hover", "completion", "definition", "documentSymbol")
CHANGES = 9  # of a text of 1 MiB, so many are tried
MOST_LEAST, MOST_MIDDLE = 0.2, 0.4  # the seconds of the quickest answer, and of the middle one: what else the machine does slows single ones


def frame(body):
    """A message with this body."""
    return b"Content-Length: %d\r\n\r\n" % len(body) + body


def message(**members):
    """A message with these members."""
    return frame(json.dumps({"jsonrpc": "2.0", **members}, ensure_ascii=False).encode())


def opened(text, method="textDocument/didOpen"):
    """The notification that a text is opened, or changed."""
    if method == "textDocument/didOpen":
        return message(method=method, params={"textDocument": {"uri": URI, "languageId": "plcsafe", "version": 1, "text": text}})
    return message(method=method, params={"textDocument": {"uri": URI, "version": 2}, "contentChanges": [{"text": text}]})


def asked(number, method, line, character):
    """A question about a place."""
    return message(id=number, method=f"textDocument/{method}",
                   params={"textDocument": {"uri": URI}, "position": {"line": line, "character": character}})


BEGIN = message(id=1, method="initialize", params={"capabilities": {}}) + message(method="initialized", params={})
END = message(id="end", method="shutdown") + message(method="exit")


def split(written):
    """The values of the messages that were written."""
    found = []
    while written:
        head, mark, rest = written.partition(b"\r\n\r\n")
        if not mark or not head.startswith(b"Content-Length: "):
            raise Stop(f"what was written is no message: {written[:60]!r}")
        length = int(head[16:])
        found.append(json.loads(rest[:length]))
        written = rest[length:]
    return found


def served(server, sent):
    """What the server writes for these bytes, and its status."""
    run = subprocess.run([server], input=sent, stdout=subprocess.PIPE, stderr=subprocess.PIPE, timeout=120)
    if run.stderr:
        raise Stop(f"the server wrote on standard error: {run.stderr[:200]!r}")
    return split(run.stdout), run.returncode


def answers(found, number):
    """The one answer under an id."""
    under = [value for value in found if "id" in value and value["id"] == number]
    if len(under) != 1:
        raise Stop(f"{len(under)} answers under the id {number!r}")
    return under[0]


def told(found):
    """The lists of diagnostics that were published, in order."""
    return [value["params"]["diagnostics"] for value in found if value.get("method") == "textDocument/publishDiagnostics"]


def expect(holds, what):
    """Stops where something is not so."""
    if not holds:
        raise Stop(f"it is not so that {what}")


def by_messages(server):
    """A session as an editor has it."""
    sent = BEGIN + opened(WRONG) + asked(2, "hover", 3, 10) + asked(3, "completion", 4, 20) + asked(4, "definition", 5, 12)
    sent += asked(5, "rename", 0, 0) + message(id=6, method="textDocument/documentSymbol", params={"textDocument": {"uri": URI}})
    sent += opened(RIGHT, "textDocument/didChange") + END
    found, status = served(server, sent)
    expect(status == 0, "the status is 0 behind a shutdown")
    lists = told(found)
    expect(len(lists) == 2, "each text has its diagnostics")
    first = lists[0][0]
    expect(first["code"] == "N2" and first["severity"] == 1, "the first diagnostic is the refusal N2")
    place = {"start": {"line": 5, "character": 21}, "end": {"line": 5, "character": 27}}
    expect(first["range"] == place, f"the range of S_None is {place}, and not {first['range']}")
    expect(all(one["severity"] == 3 for one in lists[1]), "the text that is right has no refusal")
    expect("S_EStopIn : SAFEBOOL" in answers(found, 2)["result"]["contents"]["value"], "hover tells the pins of a kind")
    labels = [item["label"] for item in answers(found, 3)["result"]]
    expect("S_EStopIn" in labels and "Activate" not in labels, "completion leaves out what is given before")
    expect(answers(found, 4)["result"]["range"]["start"] == {"line": 2, "character": 11}, "S_Motor is declared in line 2")
    expect(answers(found, 5)["error"]["code"] == -32601, "an unknown method is answered with MethodNotFound")
    expect([one["name"] for one in answers(found, 6)["result"]] == ["S_Stop", "Reset", "S_Motor", "E"], "the symbols are those of the text")
    expect(answers(found, "end")["result"] is None, "shutdown is answered")


def by_pins(server):
    """Completion in a call, and behind the dot of an instance."""
    dotted = RIGHT.replace("E.S_EStopOut", "E.")
    column = dotted.split("\n")[5].index("E.") + 2 + 1
    found, _ = served(server, BEGIN + opened(TEXT) + asked(2, "completion", 4, 41) + opened(dotted, "textDocument/didChange")
                      + asked(3, "completion", 5, column) + END)
    labels = [item["label"] for item in answers(found, 2)["result"]]
    expect("Reset" in labels and "Activate" not in labels, f"a call is completed by the pins that it does not give: {labels}")
    expect(any(item["label"] == "S_EStopOut" for item in answers(found, 3)["result"]), "an instance is completed by its outputs")


def by_words(server):
    """What hover tells of a signal, of an instance and of a kind."""
    found, _ = served(server, BEGIN + opened(RIGHT) + asked(2, "hover", 5, 12) + asked(3, "hover", 4, 0) + asked(4, "hover", 3, 10) + END)
    told = [answers(found, number)["result"]["contents"]["value"].split("\n") for number in (2, 3, 4)]
    statement = RIGHT.split("\n")[5].split("*) ")[1].rstrip(";")
    expect(told[0] == ["S_Motor : SAFEBOOL, an output", f"driven in line 6: {statement}", "S_Motor needs S_Stop"],
           f"hover tells what drives an output, and what it demands: {told[0]}")
    expect(told[1][:2] == ["E : SF_EmergencyStop, an instance", f"driven in line 5: {RIGHT.split(chr(10))[4].rstrip(';')}"],
           f"hover tells what calls an instance: {told[1]}")
    expect("8002 waiting for the sensor after the start" in told[1] and told[1][3:] == told[2], "an instance has the pins and states of its kind")


def by_last_parsed(server):
    """What a text does not declare while it is written is looked for in the last one that parsed."""
    undone = RIGHT.replace("S_Motor : SAFEBOOL", "S_Motor SAFEBOOL")
    unclosed = RIGHT.replace("VAR_OUTPUT S_Motor : SAFEBOOL; END_VAR\n", "").replace("END_PROGRAM", "(* END_PROGRAM")
    found, _ = served(server, BEGIN + opened(RIGHT) + opened(undone, "textDocument/didChange") + asked(2, "definition", 5, 12)
                      + asked(3, "completion", 5, 0) + opened(unclosed, "textDocument/didChange") + asked(4, "definition", 4, 12) + END)
    for number in (2, 4):
        start = answers(found, number)["result"]["range"]["start"]
        expect(start == {"line": 2, "character": 11}, f"S_Motor is declared where it was in the last text that parsed, and not at {start}")
    labels = [item["label"] for item in answers(found, 3)["result"]]
    expect(labels.count("S_Motor") == 1 and labels.count("S_Stop") == 1, f"each name is offered once: {labels}")


def spoilt(random_numbers, sent):
    """These bytes with some of them changed, left out or doubled."""
    spoiled = bytearray(sent)
    for _ in range(random_numbers.randint(1, 4)):
        at = random_numbers.randrange(len(spoiled))
        what = random_numbers.randrange(3)
        if what == 0:
            spoiled[at] = random_numbers.randrange(256)
        elif what == 1:
            del spoiled[at : at + random_numbers.randint(1, 9)]
        else:
            spoiled[at:at] = spoiled[at : at + random_numbers.randint(1, 9)]
    return bytes(spoiled)


def by_broken_bodies(server):
    """Broken bodies in whole frames: each is answered at most once, and the server goes on to the last."""
    numbers = random.Random(53)
    bodies = [part.split(b"\r\n\r\n", 1)[1] for part in (opened(WRONG), asked(2, "hover", 3, 10), asked(3, "completion", 4, 20))]
    sent = BEGIN + b"".join(frame(spoilt(numbers, numbers.choice(bodies))) for _ in range(BROKEN_BODIES)) + END
    found, status = served(server, sent)
    expect(status == 0 and answers(found, "end")["result"] is None, "broken bodies do not end the server")
    return BROKEN_BODIES


def units(line):
    """How many UTF-16 code units a line has."""
    return len(line.encode("utf-16-le", "surrogatepass")) // 2


def is_within(place, lines):
    """Whether a range stands in a text of these lines."""
    ends = [place[end] for end in ("start", "end")]
    return all(at["line"] < len(lines) and at["character"] <= units(lines[at["line"]]) for at in ends) and \
        [ends[0]["line"], ends[0]["character"]] <= [ends[1]["line"], ends[1]["character"]]


def by_broken_texts(server):
    """Broken texts, one after the other in the place of one, with a question about a place of each: each is told of once, at places that it
    has, and each question is answered once."""
    numbers = random.Random(55)
    held = [TEXT, WRONG, RIGHT, *((ROOT / "examples" / name).read_text() for name in ("press/press.st", "stop/motor.st"))]
    texts = [spoilt(numbers, numbers.choice(held).encode()).decode("utf-8", "replace") for _ in range(BROKEN_TEXTS)]
    sent = [BEGIN]
    for i, text in enumerate(texts):
        sent.append(opened(text, "textDocument/didOpen" if i == 0 else "textDocument/didChange"))
        sent.append(asked(i + 10, METHODS[i % len(METHODS)], numbers.randrange(30), numbers.randrange(60)))
    found, status = served(server, b"".join([*sent, END]))
    lists = told(found)
    expect(status == 0 and len(lists) == len(texts), "each broken text is told of once")
    ids = [value["id"] for value in found if isinstance(value.get("id"), int)]
    expect(sorted(ids) == [1, *range(10, len(texts) + 10)], "each question about a broken text is answered once")
    for text, one in ((text, one) for text, list in zip(texts, lists) for one in list):
        expect(is_within(one["range"], text.split("\n")), f"{one} stands in {text!r}")
    return len(texts)


def by_broken_streams(server):
    """Broken streams: the server ends with a status of its own, and what it wrote are messages."""
    numbers = random.Random(54)
    whole = BEGIN + opened(WRONG) + asked(2, "hover", 3, 10) + END
    for _ in range(BROKEN_STREAMS):
        _, status = served(server, spoilt(numbers, whole))
        expect(status in (0, 1), f"a broken stream ends with 0 or 1, and not {status}")
    for sent in (b"", b"\r\n\r\n", b"Content-Length: 99999999999\r\n\r\n", b"Content-Length: 16777217\r\n\r\n", b"x" * 10_000):
        _, status = served(server, sent)
        expect(status == 1, f"a stream that ends without an exit ends with 1, and not {status}")
    return BROKEN_STREAMS + 5


class Talk:
    """A server that answers while it is being asked."""

    def __init__(self, server):
        self.run = subprocess.Popen([server], stdin=subprocess.PIPE, stdout=subprocess.PIPE, stderr=subprocess.PIPE)

    def say(self, sent):
        self.run.stdin.write(sent)
        self.run.stdin.flush()

    def hear(self):
        """The next message."""
        length = 0
        while (line := self.run.stdout.readline()) != b"\r\n":
            if not line:
                raise Stop("the server ended")
            if line.startswith(b"Content-Length: "):
                length = int(line[16:])
        return json.loads(self.run.stdout.read(length))

    def end(self):
        self.say(END)
        self.run.communicate(timeout=60)


def large_text(bad):
    """A text of 1 MiB of statements, of which none is right; or of few, and a comment."""
    head = "PROGRAM P\nVAR_INPUT S_1 : SAFEBOOL; END_VAR\nVAR_OUTPUT S_O : SAFEBOOL; END_VAR\n"
    line = "S_O := S_1 OR S_3 ;\n" if bad else "// " + "\u00e4" * 30 + "\n"
    tail = "S_O := S_1;\nEND_PROGRAM\n"
    return head + line * ((1_048_576 - len(head) - len(tail)) // len(line.encode())) + tail


def worked(process):
    """The seconds that a process has been on a processor, where the system says it."""
    try:
        return int(pathlib.Path(f"/proc/{process.pid}/schedstat").read_text().split()[0]) / 1e9
    except OSError:
        return None


def answer_time(talk, change):
    """How long the notice on a change takes, in seconds; without what the server waits while others are at work."""
    before, begun = worked(talk.run), time.monotonic()
    talk.say(change)
    talk.hear()
    took, after = time.monotonic() - begun, worked(talk.run)
    return took if before is None or after is None else min(took, after - before)


def by_large_texts(server):
    """How long the notices on changes of a text of 1 MiB take, in seconds and in order of size, for each of two texts."""
    took = {}
    for name, text in (("bad statements", large_text(True)), ("comments", large_text(False))):
        talk = Talk(server)
        talk.say(BEGIN + opened(text))
        while "method" not in talk.hear():
            pass
        change = opened(text, "textDocument/didChange")
        took[name] = sorted(answer_time(talk, change) for _ in range(CHANGES))
        talk.end()
    return took


SCRIPT = r"""
local server, file, out = unpack(vim.split(vim.env.PLCSAFE_TRY, "\n"))
local said = {}
local function say(line) table.insert(said, line) end
local function finish() vim.fn.writefile(said, out) vim.cmd("qall!") end
vim.defer_fn(function() say("late") finish() end, 30000)
local function try()
vim.cmd("edit " .. file)
local begun = { name = "plcsafe", cmd = { server }, root_dir = vim.fn.fnamemodify(file, ":h") }
if vim.lsp.start then vim.lsp.start(begun) else vim.lsp.buf_attach_client(0, vim.lsp.start_client(begun)) end
vim.wait(10000, function() return #vim.diagnostic.get(0) > 0 end, 20)
for _, one in ipairs(vim.diagnostic.get(0)) do
  say(("diagnostic %s %d:%d-%d:%d %s"):format(one.code or "-", one.lnum, one.col, one.end_lnum, one.end_col, vim.split(one.message, "\n")[1]))
end
local function ask(method, line, character)
  local found = vim.lsp.buf_request_sync(0, "textDocument/" .. method,
    { textDocument = { uri = vim.uri_from_bufnr(0) }, position = { line = line, character = character } }, 10000)
  for _, one in pairs(found or {}) do return one.result end
end
for _, at in ipairs({ { 3, 10 }, { 5, 12 } }) do
  say("hover " .. vim.split(ask("hover", at[1], at[2]).contents.value, "\n")[1])
end
local labels = {}
for _, item in ipairs(ask("completion", 4, 41)) do table.insert(labels, item.label) end
say("completion " .. table.concat(labels, " "))
say("definition line " .. ask("definition", 5, 12).range.start.line)
end
local ok, why = pcall(try)
if not ok then say(tostring(why)) end
finish()
"""


def by_neovim(server):
    """Neovim opens a wrong application, receives the diagnostic at its place, hovers, completes a pin and jumps."""
    if not shutil.which("nvim"):
        return "skipped Neovim: it is not on this machine"
    with tempfile.TemporaryDirectory(prefix="plcsafe-") as folder:
        at = pathlib.Path(folder)
        (at / "press.st").write_text(TEXT.replace(", );", ", Reset := Reset);").replace("S_Stop, ", "S_Stop, "))
        (at / "try.lua").write_text(SCRIPT)
        env = {**os.environ, "PLCSAFE_TRY": f"{server}\n{at / 'press.st'}\n{at / 'said'}", "XDG_STATE_HOME": folder, "HOME": folder}
        subprocess.run(["nvim", "--headless", "--clean", "-c", f"luafile {at / 'try.lua'}"], cwd=folder, env=env, stdin=subprocess.DEVNULL,
                       stdout=subprocess.PIPE, stderr=subprocess.STDOUT, timeout=60)
        said = (at / "said").read_text() if (at / "said").is_file() else ""
    # Neovim counts the columns of a line in bytes
    column = len(TEXT.split("\n")[5].split("S_None")[0].encode())
    expect(f"diagnostic N2 5:{column}-5:{column + 6} " in said, f"Neovim shows the refusal at its place:\n{said}")
    expect("hover SF_EmergencyStop" in said, f"Neovim shows what a kind is:\n{said}")
    expect("definition line 2" in said, f"Neovim jumps to the declaration:\n{said}")
    expect("completion " in said and "Reset" in said.split("completion ")[1], f"Neovim is told the pins:\n{said}")
    return "tried with Neovim:\n" + said.rstrip()


def main(words):
    if not words or any(word.startswith("-") for word in words):
        return None
    named = dict(word.split("=", 1) for word in words[1:] if "=" in word)
    server = os.path.abspath(named.get("plcsafe-lsp", words[0]))
    by_messages(server)
    by_pins(server)
    by_words(server)
    by_last_parsed(server)
    count = by_broken_bodies(server) + by_broken_texts(server) + by_broken_streams(server)
    took = by_large_texts(server)
    for name, times in took.items():
        least, middle, most = (1000 * times[at] for at in (0, CHANGES // 2, -1))
        print(f"a change of 1 MiB of {name} is answered in {least:.0f} ms at least, {middle:.0f} in the middle, {most:.0f} at most")
        if b"__asan_init" not in pathlib.Path(server).read_bytes() and not server.endswith(".by-rattle"):
            expect(times[0] < MOST_LEAST, f"the quickest is answered in {1000 * MOST_LEAST:.0f} ms")
            expect(times[CHANGES // 2] < MOST_MIDDLE, f"the middle one is answered in {1000 * MOST_MIDDLE:.0f} ms")
    print(by_neovim(server))
    print(f"a whole talk, and {count} broken messages, texts and streams, have the answers that they are to have")
    return 0


if __name__ == "__main__":
    plainly(main, "tools/editor.py PROGRAM [plcsafe-lsp=PROGRAM]")
