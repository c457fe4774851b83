"""Log files, which servers are fed from: the lock of their writers, lines that are appended, and who set a number.

A file has no authors. A line of glb-watch, or one that hands its name back, has two spaces behind its first word, which a
feed takes as one. A line with one space was written by somebody else.
"""

import fcntl
import os
import time
from collections.abc import Iterator
from contextlib import contextmanager
from pathlib import Path

from glb_tools.options import Fault
from glb_tools.precedence import AUTHOR

BY_HAND = "hand"
OWN = (b"demand  ", b"capacity  ")
# how often a lock that somebody has is tried again, in seconds
AGAIN = 0.05


@contextmanager
def locked(log: str | Path, seconds: float, is_made: bool = True) -> Iterator[None]:
    """Has the lock that each writer of a log file takes, the file `lock` in its folder; a fault where somebody else has it for
    so long. Who only reads makes none."""
    lock = Path(log).parent / "lock"
    if not is_made and not lock.exists():
        yield
        return
    descriptor = os.open(lock, os.O_RDONLY | (os.O_CREAT if is_made else 0), 0o666)
    try:
        end = time.monotonic() + seconds
        while True:
            try:
                fcntl.flock(descriptor, fcntl.LOCK_EX | fcntl.LOCK_NB)
                break
            except BlockingIOError:
                if time.monotonic() > end:
                    raise Fault(f"{lock}: somebody else has the lock") from None
                time.sleep(AGAIN)
        yield
    finally:
        os.close(descriptor)


def own_line(line: str) -> str:
    """A line as glb-watch writes it."""
    return line.replace(" ", "  ", 1)


def author_of_line(line: bytes) -> str:
    return AUTHOR if line.startswith(OWN) else BY_HAND
