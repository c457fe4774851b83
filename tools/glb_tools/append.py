"""glb-append: appends a batch of changes to the log that the servers of a fleet follow."""

import argparse
import getpass
import os
import socket
import sys
import time
import uuid
from collections.abc import Mapping
from pathlib import Path

from glb_tools.etcd import ETCD_STATUSES, NO_MAJORITY, Full, Unreachable, add_etcd_options, etcd_of
from glb_tools.history import with_numbers
from glb_tools.log import LARGEST_BATCH, Log, Look, Signed
from glb_tools.options import DONE, FAULT, Fault, Progress, check_word, parser, run
from glb_tools.precedence import keep_hands
from glb_tools.text import MOST_CHANGES, Names, Refused, Replay, lines_of, words_of

DROPPED = 2
STATUSES = {
    DONE: "appended; its number is on standard output",
    FAULT: "nothing was appended: a line is at fault, or something cannot be read or used",
    DROPPED: "appended, and a server dropped it whole: it says why",
    **ETCD_STATUSES,
    NO_MAJORITY: "no majority of etcd's members answered in time: it may have been appended; ask again by the same --id",
}
# how often it is looked whether a server has worked it, in seconds
AGAIN = 0.1


class AnyName(Mapping[str, int]):
    """Takes any name: a batch is checked by itself before it is checked by the base."""

    def __getitem__(self, name: str) -> int:
        return 0

    def __contains__(self, name: object) -> bool:
        return True

    def __iter__(self):  # type: ignore[no-untyped-def]
        return iter(())

    def __len__(self) -> int:
        return 0


class AnyNames:
    unit_at = node_at = AnyName()


def batch_of(octets: bytes) -> str:
    """The lines of a batch, with names of any kind."""
    lines = lines_of(octets)
    if not lines:
        raise Fault("there is no change")
    check(lines, AnyNames())
    text = b"".join(line + b"\n" for line in lines).decode()
    if len(text) > LARGEST_BATCH:
        raise Fault(f"the batch has more than {LARGEST_BATCH} octets")
    return text


def check(lines: list[bytes], names: Names) -> None:
    """That a server whose topology has these names takes all lines; the first one that it refuses is told."""
    replay = Replay(names)
    for number, line in enumerate(lines, 1):
        try:
            words = words_of(line)
            if words[0] not in ("demand", "capacity"):
                raise Refused("unknown word")
            replay.work(words)
        except Refused as why:
            raise Fault(f"line {number}: {why} (nothing was appended)") from None
    assert len(lines) <= MOST_CHANGES


def appended(log: Log, lines: str, signed: Signed, ident: str, seconds: float) -> int:
    """The number of the entry; tries again by the same id until a majority answers."""
    each, end = lines_of(lines.encode()), time.monotonic() + seconds
    while True:
        try:
            return log.append(ident, signed, lines, lambda names: check(each, names))
        except Unreachable as why:
            if time.monotonic() >= end:
                raise Fault(
                    f"{why}; it may have been appended: ask again with --id {ident}", NO_MAJORITY
                )
            time.sleep(0.2)


def dropped(log: Log, number: int, seconds: float) -> str | None:
    """Why a server dropped the batch, as soon as one has worked it; nothing where none did so in time."""
    end = time.monotonic() + seconds
    while True:
        try:
            look, found = log.look(), log.dropped(number).get(number)
        except (Unreachable, Full):
            return None
        if found:
            return f"entry {number} was dropped whole by {found.get('server')}: {found.get('why')}"
        entries = [state.get("entry") for state in look.states.values()]
        worked = any(isinstance(entry, int) and entry >= number for entry in entries)
        if worked or not entries or time.monotonic() >= end:
            return None
        time.sleep(AGAIN)


def cut(log: Log) -> int:
    """Takes away what stands before the numbers of the newest base, where no server needs it; says the first that stays."""
    look = log.look()
    base = log.newest_base()
    for name in sorted(look.servers.keys() | look.states.keys()):
        at = look.states.get(name, look.servers.get(name, {})).get("base", "")
        if not at or not base.checksum.startswith(at):
            raise Fault(f"{name} is not at {base} yet, and needs what would be cut (glb-fleet)")
    keep_hands(log, look, base.upto)
    return log.cut(look, base)


# The command.


def add_signature(words: argparse.ArgumentParser) -> None:
    words.add_argument("--why", default="", metavar="TEXT", help="the reason, which glb-log shows")
    author = os.environ.get("GLB_AUTHOR")
    words.add_argument(
        "--author", default=author, metavar="WHO", help="who does it (GLB_AUTHOR; USER@HOST)"
    )


def signed_of(options: argparse.Namespace) -> Signed:
    author = options.author
    if not author:
        try:
            author = f"{getpass.getuser()}@{socket.gethostname()}"
        except (OSError, KeyError):
            author = f"{os.getuid()}@{socket.gethostname()}"
    if len(author) > 200 or len(options.why) > 2000:
        raise Fault("an author has at most 200 letters, and a reason 2,000")
    return Signed(author, options.why)


ABOUT = """Appends a batch of changes to the log that several servers follow, and says its number.

    glb-append [FILE] < LINES        the lines `demand GROUP N` and `capacity NODE N` of one batch
    glb-append --numbers TOPOLOGY    writes a topology with the numbers of the log, for glb-roll
    glb-append --cut                 takes away what stands before the newest base

Any number of writers may append: each batch gets the next number, no number is left out, and no batch gets two. Lines,
names and ranges are checked by the newest base before. Then it waits for the word of a server that worked the batch."""


def main() -> int:
    words = parser("glb-append", ABOUT, STATUSES)
    add_etcd_options(words)
    words.add_argument(
        "file", nargs="?", metavar="FILE", help="the lines, in place of standard input"
    )
    add_signature(words)
    words.add_argument(
        "--numbers", metavar="TOPOLOGY", help="writes this topology with the numbers of the log"
    )
    words.add_argument(
        "--cut", action="store_true", help="takes away what no server needs any more"
    )
    words.add_argument(
        "--id", default=uuid.uuid4().hex, help="by which a batch is known that is asked for again"
    )
    words.add_argument(
        "--seconds",
        type=float,
        default=30,
        metavar="N",
        help="how long it tries without a majority (30)",
    )
    words.add_argument(
        "--wait",
        type=float,
        default=5,
        metavar="N",
        help="how long it waits for a server's word (5)",
    )
    options = words.parse_args()
    check_word(options.id, "--id", "/")
    log = Log(etcd_of(options), options.prefix)
    if options.numbers:
        with Progress("reads the log"):
            octets = with_numbers(log, Path(options.numbers).read_bytes(), options.numbers)
        sys.stdout.write(octets.decode())
    elif options.cut:
        print(f"the log begins at entry {cut(log)}")
    else:
        return append(log, options)
    return DONE


def append(log: Log, options: argparse.Namespace) -> int:
    octets = Path(options.file).read_bytes() if options.file else sys.stdin.buffer.read()
    lines = batch_of(octets)
    number = appended(log, lines, signed_of(options), options.id, options.seconds)
    print(number, flush=True)
    why = dropped(log, number, options.wait)
    if why:
        raise Fault(why, DROPPED)
    return DONE


if __name__ == "__main__":
    run(main)
