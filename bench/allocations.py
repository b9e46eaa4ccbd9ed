"""Refuses each allocation of the program in turn, and looks for an answer that changes in place of the error.

python3 allocations.py [PROGRAM]           PROGRAM is by default the one that ./plcsafe builds; the C compiler `cc` has to be there
python3 allocations.py --few PROGRAM       some of the commands alone, each allocation of them

For each command on a motor, for a long trace and for calls that are refused, the k-th allocation is refused, for k from 1 up to the
first run that asks for fewer. Each such run has to write nothing and end with status 7, or to write all of its text with the status
of a run of which nothing is refused. That status stands in the table below, and is compared too. The script prints how many runs
ended how, and ends with 1 where one ended otherwise.
"""
import os
import subprocess
import sys
import tempfile

from generate import MOTOR

HERE = os.path.dirname(os.path.abspath(__file__))
sys.path.append(os.path.join(HERE, "..", "tools"))
from plainly import Stop, plainly

BUILT = os.path.join(HERE, "..", "built", "ps_main", "program")
TRACE = "time S_In Ack Run\n0 1 0 1\n10 1 0 1\n20 1 0 1\n30 1 1 1\n40 1 0 0\n50 0 0 1\n"
CERTIFICATE = "0 SRC\n3 SRC\n2 AND 2\n"
# A fault that trips the motor in its third scan, and outvotes one seat of three there; and two that strike one seat after the other.
FAULT = "before 3 A memory 81 8000\n"
TWO_FAULTS = "before 2 C code 0 ff\nbefore 4 A memory 81 8001\n"
# A trace that is read by three reads.
LONG_TRACE = "time S_In Ack Run\n" + "0 0 0 0\n" * 1000
# The words of each run, and its status where no allocation is refused.
COMMANDS = (
    (["run", "M", "U"], 0),
    (["fault", "M", "U", "F"], 4),
    (["check", "M"], 0),
    (["cert", "M"], 0),
    (["verify", "M", "C"], 0),
    (["image", "M"], 0),
    (["load", "1"], 0),
    (["demand", "M"], 0),
    (["vote", "M", "U", "F"], 0),
    (["heal", "M", "U", "G"], 0),
    (["run", "M", "V"], 0),
    (["run", "M"], 2),
    (["check", "C"], 1),
    (["verify", "M", "U"], 3),
    (["run", "M", "C"], 3),
    (["fault", "M", "U", "C"], 3),
)

# Takes the place of the C library's allocator: the call whose number FAIL_AT gives is refused, and says so in the file REFUSED.
SHIM = """
#include <errno.h>
#include <fcntl.h>
#include <stdlib.h>
#include <unistd.h>
extern void *__libc_malloc(size_t), *__libc_calloc(size_t, size_t), *__libc_realloc(void *, size_t);
static long calls, at;
static int refused(void) {
  if (!at) { const char *text = getenv("FAIL_AT"); at = text ? atol(text) : -1; }
  if (++calls != at) return 0;
  close(open("REFUSED", O_CREAT | O_WRONLY, 0600));
  errno = ENOMEM;
  return 1;
}
void *malloc(size_t n) { return refused() ? 0 : __libc_malloc(n); }
void *calloc(size_t m, size_t n) { return refused() ? 0 : __libc_calloc(m, n); }
void *realloc(void *p, size_t n) { return refused() ? 0 : __libc_realloc(p, n); }
"""


def ended(program, folder, words, k):
    """The status and the text of a run whose k-th allocation is refused, and whether it came to that one."""
    sign = os.path.join(folder, "REFUSED")
    if os.path.exists(sign):
        os.remove(sign)
    given = {**os.environ, "LD_PRELOAD": os.path.join(folder, "shim.so"), "FAIL_AT": str(k)}
    run = subprocess.run([program, *words], cwd=folder, env=given, stdout=subprocess.PIPE, stderr=subprocess.DEVNULL, check=False)
    return run.returncode, run.stdout, os.path.exists(sign)


def tried(program, folder, words, done):
    """Prints how the runs of a command ended, and says how many ended otherwise than they may."""
    run = subprocess.run([program, *words], cwd=folder, stdout=subprocess.PIPE, stderr=subprocess.DEVNULL, check=False)
    whole, ends, k, comes = run.stdout, {}, 1, True
    wrong = 0 if run.returncode == done and whole else 1
    while comes:
        status, text, comes = ended(program, folder, words, k)
        right = (status == 7 and not text) or (status == done and text == whole)
        if not right:
            wrong += 1
            print(f"{' '.join(words)}: the allocation {k} refused gives status {status} and {len(text)} bytes")
        ends[status] = ends.get(status, 0) + 1
        k += 1
    counts = ", ".join(f"{count} with status {status}" for status, count in sorted(ends.items()))
    print(f"{' '.join(words):12} {k - 2} allocations; runs: {counts}", flush=True)
    return wrong


FEW = ("fault", "verify", "heal")


def main(words):
    given = [word for word in words if word != "--few"]
    if len(given) > 1 or given and given[0].startswith("-"):
        return None
    program = os.path.abspath(given[0] if given else BUILT)
    if not os.path.isfile(program) or not os.access(program, os.X_OK):
        raise Stop(f"{program} is no program: run ./plcsafe once")
    commands = [row for row in COMMANDS if row[0][0] in FEW] if "--few" in words else COMMANDS
    with tempfile.TemporaryDirectory() as folder:
        texts = {"M": MOTOR, "U": TRACE, "C": CERTIFICATE, "F": FAULT, "G": TWO_FAULTS, "V": LONG_TRACE, "shim.c": SHIM}
        for name, text in texts.items():
            with open(os.path.join(folder, name), "w", encoding="ascii") as out:
                out.write(text)
        subprocess.run(["cc", "-shared", "-fPIC", "-o", "shim.so", "shim.c"], cwd=folder, check=True)
        return 1 if sum(tried(program, folder, row, done) for row, done in commands) else 0


if __name__ == "__main__":
    plainly(main, "bench/allocations.py [--few] [PROGRAM]")
