"""A file that gets other bytes while a program reads it.

The programs open a file anew for each 4,096 bytes that they read. The first open is made to wait by a lease (fcntl, F_SETLEASE), which the
system asks back where somebody else opens the file. Meanwhile the name gets another file, and then the lease is given back. So one reading
has the first piece of the one text, and all behind it of the other, in each run alike; a second reading has the other text alone.
"""
import fcntl
import os
import signal
import subprocess
import time

PIECE = 4096
PATIENCE = 20.0  # seconds


def read_once(text, later):
    """What one reading has of a file that gets another text behind its first piece."""
    return text[:PIECE] + later[PIECE:]


def leased(path):
    """The file, for which an open by another process waits; None where the system gives no leases."""
    file = os.open(path, os.O_RDONLY)
    try:
        fcntl.fcntl(file, fcntl.F_SETLEASE, fcntl.F_WRLCK)
    except OSError:
        os.close(file)
        return None
    return file


def written(words, path, text, later):
    """What a call writes, and its status, where this file gets another text behind its first piece; None where the system gives no leases."""
    signal.signal(signal.SIGIO, lambda *_: None)  # by which the system asks a lease back
    path.write_bytes(text)
    file = leased(path)
    if file is None:
        return None
    other = path.with_suffix(".next")
    other.write_bytes(later)
    with subprocess.Popen(words, stdin=subprocess.DEVNULL, stdout=subprocess.PIPE, stderr=subprocess.DEVNULL) as run:
        started = time.monotonic()
        while fcntl.fcntl(file, fcntl.F_GETLEASE) == fcntl.F_WRLCK and time.monotonic() - started < PATIENCE:
            time.sleep(0.001)
        os.replace(other, path)
        fcntl.fcntl(file, fcntl.F_SETLEASE, fcntl.F_UNLCK)
        os.close(file)
        told = run.communicate()[0]
    return told, run.returncode
