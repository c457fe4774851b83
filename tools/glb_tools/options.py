"""What all commands share: options, exit statuses, faults in one line, progress, and files that are written whole."""

import argparse
import ast
import errno
import importlib
import os
import sys
import tempfile
import threading
import time
import traceback
from collections.abc import Callable, Iterator, Mapping
from contextlib import contextmanager
from pathlib import Path
from types import TracebackType
from typing import IO, NoReturn

from glb_tools import VERSION

DONE, FAULT = 0, 1
# as sysexits.h has them
WRONG_WORDS, OWN_FAULT = 64, 70
# as a shell says them of a program that a signal ended: SIGINT, SIGPIPE
INTERRUPTED, CLOSED_PIPE = 130, 141
STATUSES = {
    DONE: "done",
    FAULT: "something cannot be read, used or written: one line on standard error says what",
    WRONG_WORDS: "an option or a word that the command does not have",
    OWN_FAULT: "a fault of the command itself (with GLB_TRACE=1 it shows where)",
    INTERRUPTED: "interrupted from the keyboard",
    CLOSED_PIPE: "whoever read the output has gone",
}
# by module, Debian's package of it
PACKAGES = {
    "dns": "python3-dnspython",
    "flask": "python3-flask",
    "jinja2": "python3-jinja2",
    "maxminddb": "python3-maxminddb",
    "numpy": "python3-numpy",
    "prometheus_client": "python3-prometheus-client",
    "requests": "python3-requests",
    "scipy": "python3-scipy",
    "waitress": "python3-waitress",
    "werkzeug": "python3-werkzeug",
    "yaml": "python3-yaml",
}
# how long a command works before it shows its progress, in seconds
SILENT = 2.0


class Fault(Exception):
    """What cannot be read or used, and why, in one line; the status is the command's then."""

    def __init__(self, why: object, status: int = FAULT) -> None:
        super().__init__(str(why))
        self.status = status


class Parser(argparse.ArgumentParser):
    """Options as all commands have them: in whole words, and a wrong one is told in one line."""

    def error(self, message: str) -> NoReturn:
        raise Fault(f"{message} (see {self.prog} --help)", WRONG_WORDS)

    def _print_message(self, message: str, file: IO[str] | None = None) -> None:
        # a help that cannot be written is a fault, which argparse leaves out
        (file or sys.stderr).write(message)


def parser(
    name: str, about: str, statuses: Mapping[int, str] | None = None, *, json: bool = False
) -> Parser:
    """A command's parser with `--help`, which lists the exit statuses, `--version`, and `--json` where asked for.

    `about` begins with one sentence; `statuses` are those of the command beside the common ones, or in their place.
    """
    listed = sorted({**STATUSES, **(statuses or {})}.items())
    ends = "\n".join(f"  {status:<5} {words}" for status, words in listed)
    made = Parser(
        prog=name,
        description=about,
        epilog=f"exit status:\n{ends}",
        formatter_class=argparse.RawDescriptionHelpFormatter,
        allow_abbrev=False,
    )
    made.add_argument("--version", action="version", version=f"{name} {VERSION}")
    if json:
        made.add_argument("--json", action="store_true", help="the same for programs, as JSON")
    return made


def command() -> str:
    """The name of the command that runs."""
    return Path(sys.argv[0]).name


def words_of(error: OSError) -> str:
    """What went wrong with a file or a connection, with its name."""
    name = "" if error.filename is None else f"{error.filename}: "
    return f"{name}{error.strerror or error}"


def told(main: Callable[[], int | None]) -> int:
    """Runs a command and gives its status: each fault is told in one line."""
    try:
        try:
            status = main() or DONE
        except SystemExit as end:
            status = end.code if isinstance(end.code, int) else DONE if end.code is None else FAULT
            if isinstance(end.code, str):
                print(end.code, file=sys.stderr)
        sys.stdout.flush()
        return status
    except BrokenPipeError:
        return CLOSED_PIPE
    except KeyboardInterrupt:
        return INTERRUPTED
    except Fault as why:
        return said(why, why.status)
    except OSError as why:
        return CLOSED_PIPE if why.errno == errno.EPIPE else said(words_of(why), FAULT)
    except MemoryError:
        return said("there is not enough memory", FAULT)
    except Exception as why:  # noqa: BLE001: an operator gets one line, whatever it is
        if os.environ.get("GLB_TRACE"):
            traceback.print_exc()
        return said(f"a fault of this command: {type(why).__name__}: {why}", OWN_FAULT)


def said(why: object, status: int) -> int:
    try:
        print(f"{command()}: {' '.join(str(why).split())}", file=sys.stderr, flush=True)
    except OSError:
        pass
    return status


def tell(why: Exception) -> None:
    """Says why something failed that is tried again."""
    kind = "" if isinstance(why, (Fault, OSError)) else f"{type(why).__name__}: "
    said(f"{kind}{why}", FAULT)


def run(main: Callable[[], int | None]) -> NoReturn:
    """Runs a command to its end, and ends the process with its status."""
    if sys.stderr is None:
        sys.stderr = open(os.devnull, "w")
    if sys.stdout is None:
        sys.exit(said("standard output is closed", FAULT))
    status = told(main)
    # what could not be written is not tried again at the end, which would say a traceback
    try:
        nothing = os.open(os.devnull, os.O_WRONLY)
        os.dup2(nothing, 1)
        os.dup2(nothing, 2)
    except OSError:
        pass
    sys.exit(status)


def start(name: str) -> NoReturn:
    """Runs the command whose `main` is that of the module `name` of this package."""

    def main() -> int | None:
        try:
            found: int | None = importlib.import_module(f"glb_tools.{name}").main()
        except ModuleNotFoundError as why:
            package = PACKAGES.get(str(why.name).partition(".")[0])
            if package is None:
                raise
            if not told_without(name, sys.argv[1:], package):
                raise Fault(f"the package {package} is not installed") from None
            found = DONE
        return found

    run(main)


def told_without(name: str, words: list[str], package: str) -> bool:
    """Whether no more than help or the version is asked for, which is told though a package is missing."""
    if "--help" in words or "-h" in words:
        tree = ast.parse(
            Path(__file__).parent.joinpath(*name.split(".")).with_suffix(".py").read_text()
        )
        print(ast.get_docstring(tree))
        print(
            f"(the package {package} is not installed; with it the options are listed)",
            file=sys.stderr,
        )
    elif "--version" in words:
        print(f"{Path(sys.argv[0]).name} {VERSION}")
    else:
        return False
    return True


def check_word(word: str, option: str, more: str = "") -> None:
    """That a word can be part of a key in etcd."""
    is_text = word.isascii() or word.encode(errors="replace").decode() == word
    if not word or not is_text or any(letter in word for letter in more):
        without = f" without `{more}`" if more else ""
        raise Fault(f"{option} is a word of UTF-8{without}", WRONG_WORDS)


class Progress:
    """Shows on a terminal what a command does, once it has taken longer than two seconds."""

    def __init__(self, what: str, total: int = 0) -> None:
        self.what, self.total, self.done = what, total, 0
        self.over = threading.Event()
        self.began = time.monotonic()
        self.shows = threading.Thread(target=self.show, daemon=True)

    def __enter__(self) -> "Progress":
        if sys.stderr.isatty():
            self.shows.start()
        return self

    def __exit__(
        self, kind: type[BaseException] | None, why: BaseException | None, at: TracebackType | None
    ) -> None:
        self.over.set()
        if self.shows.ident is not None:
            self.shows.join()

    def step(self, count: int = 1) -> None:
        self.done += count

    def show(self) -> None:
        shown = False
        wait = SILENT
        while not self.over.wait(wait):
            seconds = int(time.monotonic() - self.began)
            part = f", {100 * self.done // self.total} %" if self.total else ""
            print(f"\r{self.what}: {seconds} s{part} ", end="", file=sys.stderr, flush=True)
            shown, wait = True, 0.5
        if shown:
            print("\r\x1b[K", end="", file=sys.stderr, flush=True)


@contextmanager
def written_whole(path: str | Path, mode: int = 0o644) -> Iterator[Path]:
    """A file beside `path` to write to, which is put in its place whole, or not at all."""
    path = Path(path)
    descriptor, name = tempfile.mkstemp(prefix=f".{path.name}.", suffix=".new", dir=path.parent)
    beside = Path(name)
    os.close(descriptor)
    try:
        yield beside
        with open(beside, "rb") as file:
            os.fsync(file.fileno())
        os.chmod(beside, mode)
        os.replace(beside, path)
    except BaseException as why:
        beside.unlink(missing_ok=True)
        if isinstance(why, OSError):
            why.filename = str(path)
        raise


def write_file(path: str | Path, octets: bytes, mode: int = 0o644) -> None:
    """Writes a file whole, or leaves the one that is there as it is."""
    with written_whole(path, mode) as beside:
        beside.write_bytes(octets)


def read_file(path: str | Path) -> bytes:
    return Path(path).read_bytes()
