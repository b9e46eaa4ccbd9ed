"""How a script of tools/ and bench/ ends when a person calls it: with a status, and never with a traceback.

A script hands its `main` to `plainly`, which calls it with the words of the call:

    plainly(main, "annotate APP")          what `main` answers is the status; None says that the words are not taken

With the one word -h or --help it writes the script's own text, with status 0. Words that are not taken have status 2 and the usage on
standard error. Whatever else stands in the way (a file that is not there, bytes that are no UTF-8, a full output) is one line on
standard error, with status 1. Where the reader of the output has gone, as `head` does, the status is 141, as the shell says it.
"""
import os
import subprocess
import sys

DONE, STOPPED, NOT_TAKEN, INTERRUPTED, NO_READER = 0, 1, 2, 130, 141


class Stop(Exception):
    """Why a script does not go on, in a line."""


def said(error):
    """An error in one line."""
    if type(error).__module__ != "builtins" and not isinstance(error, (OSError, ValueError, subprocess.SubprocessError)):
        text = str(error)  # one of the scripts' own, as Stop
    elif isinstance(error, UnicodeDecodeError):
        text = f"bytes that are no UTF-8: {error.object[error.start : error.start + 4].hex(' ')} at byte {error.start}"
    elif isinstance(error, OSError) and error.strerror:
        text = f"{error.filename}: {error.strerror}" if error.filename is not None else error.strerror
    elif isinstance(error, subprocess.CalledProcessError):
        words = [error.cmd] if isinstance(error.cmd, str) else list(map(str, error.cmd))
        text = f"{' '.join(words)[:200]} ended with status {error.returncode}"
    else:
        text = f"{type(error).__name__}: {error}"
    return (text.splitlines() or [type(error).__name__])[0]


def let_go_of_output():
    """What is still to be written goes nowhere, so that nothing is said of it when Python ends."""
    nowhere = os.open(os.devnull, os.O_WRONLY)
    os.dup2(nowhere, 1)
    os.close(nowhere)


def ended(main, usage, name, words):
    """The status of a call."""
    if sys.stdout is None:
        raise Stop("standard output is closed")
    if words in (["-h"], ["--help"]):
        print((sys.modules["__main__"].__doc__ or usage).strip())
        status = DONE
    else:
        status = main(words)
    sys.stdout.flush()
    if status is None:
        print(f"usage: {usage} (--help says more)", file=sys.stderr)
        return NOT_TAKEN
    return int(status)


def plainly(main, usage):
    """Ends the script with the status of `main`, which is given the words of the call."""
    name = os.path.basename(sys.argv[0])
    try:
        status = ended(main, usage, name, sys.argv[1:])
    except BrokenPipeError:
        let_go_of_output()
        status = NO_READER
    except KeyboardInterrupt:
        let_go_of_output()
        print(f"{name}: interrupted", file=sys.stderr)
        status = INTERRUPTED
    except Exception as error:  # whatever it is, a person gets a line
        if sys.stdout is not None:
            try:
                sys.stdout.flush()
            except OSError:
                let_go_of_output()
        print(f"{name}: {said(error)}", file=sys.stderr)
        status = STOPPED
    sys.exit(status)
