#!/usr/bin/env python3
"""Runs the tools' tests by Python's own unittest, with no other package.

    tools/tests/run.py                 all tests: each module in a process of its own, several at once
    tools/tests/run.py NAME..          those of the modules test_NAME, or of classes and tests of them, NAME.CLASS..

What a test needs and the machine lacks is told, and such a test counts as skipped, never as passed. The last line is
`N passed, N failed`, with `, N skipped` where there are any. The status is 1 where one failed, or none passed. The
tests are also pytest's: `pytest tools`.
"""

import os
import re
import signal
import subprocess
import sys
import time
import unittest
from collections import Counter
from collections.abc import Mapping
from concurrent.futures import ThreadPoolExecutor
from pathlib import Path
from typing import IO

HERE = Path(__file__).resolve().parent
WORDS = ("passed", "failed", "skipped")
LAST = re.compile(r"(?P<passed>\d+) passed, (?P<failed>\d+) failed(?:, (?P<skipped>\d+) skipped)?")


class Counted(unittest.TextTestResult):
    """Counts each test once, whatever becomes of its parts."""

    def __init__(self, stream, descriptions, verbosity):  # type: ignore[no-untyped-def]
        super().__init__(stream, descriptions, verbosity)
        self.ended: dict[str, str] = {}

    def addSuccess(self, test):  # type: ignore[no-untyped-def]
        super().addSuccess(test)
        self.ended.setdefault(test.id(), "passed")

    def fail(self, test):  # type: ignore[no-untyped-def]
        self.ended[test.id()] = "failed"

    def addFailure(self, test, err):  # type: ignore[no-untyped-def]
        super().addFailure(test, err)
        self.fail(test)

    def addError(self, test, err):  # type: ignore[no-untyped-def]
        super().addError(test, err)
        self.fail(test)

    def addUnexpectedSuccess(self, test):  # type: ignore[no-untyped-def]
        super().addUnexpectedSuccess(test)
        self.fail(test)

    def addExpectedFailure(self, test, err):  # type: ignore[no-untyped-def]
        super().addExpectedFailure(test, err)
        self.ended[test.id()] = "skipped"
        print(f"left out: {test.id()}: known to fail", file=sys.stderr)

    def addSkip(self, test, reason):  # type: ignore[no-untyped-def]
        super().addSkip(test, reason)
        self.ended[test.id()] = "skipped"
        print(f"left out: {test.id()}: {reason}", file=sys.stderr)

    def addSubTest(self, test, subtest, err):  # type: ignore[no-untyped-def]
        super().addSubTest(test, subtest, err)
        if err is not None:
            self.fail(test)


def counted(suite: unittest.TestSuite, stream: IO[str]) -> Counter[str]:
    """How many tests passed, failed, and were left out."""
    found = unittest.TextTestRunner(stream=stream, resultclass=Counted, verbosity=0).run(suite)
    assert isinstance(found, Counted)
    return Counter(found.ended.values())


def tests_of(name: str) -> unittest.TestSuite:
    """The tests of a module, or a class or a test of it; one that cannot be read is a test that fails."""
    loader = unittest.TestLoader()
    module = name.partition(".")[0]
    if not (HERE / f"test_{module}.py").exists():
        print(f"run.py: there is no test_{module}.py", file=sys.stderr)
        sys.exit(64)
    if module != name:
        return loader.loadTestsFromName(f"test_{name}")
    return loader.discover(str(HERE), f"test_{name}.py", str(HERE))


def alone(name: str) -> tuple[str, dict[str, int]]:
    """What a module's tests say in a process of their own, and their counts; one that dies is a test that fails."""
    words = [sys.executable, "-B", __file__, name]
    found = subprocess.run(words, stdout=subprocess.PIPE, stderr=subprocess.PIPE, text=True)
    last = LAST.fullmatch(found.stdout.rpartition("\n")[0].rpartition("\n")[2])
    if last is None or found.returncode not in (0, 1):
        return f"{found.stderr}ended with {found.returncode}\n", {"failed": 1}
    return found.stderr, {word: int(last[word] or 0) for word in WORDS}


def all_of_them() -> Counter[str]:
    """The counts of all modules, each by itself, as many at once as there are processors."""
    names = sorted(path.stem.removeprefix("test_") for path in HERE.glob("test_*.py"))
    counts: Counter[str] = Counter()
    with ThreadPoolExecutor(os.cpu_count() or 1) as pool:
        for name, (said, found) in zip(names, pool.map(alone, names)):
            counts.update(found)
            print(f"-- {name}: {said_of(found)}", file=sys.stderr)
            # what failed whole, and what was left out
            left = [line for line in said.splitlines(True) if line.startswith("left out: ")]
            sys.stderr.write(said if found.get("failed") else "".join(left))
    return counts


def said_of(counts: Mapping[str, int]) -> str:
    left = f", {counts['skipped']} skipped" if counts.get("skipped") else ""
    return f"{counts.get('passed', 0)} passed, {counts.get('failed', 0)} failed{left}"


def main() -> int:
    sys.path.insert(0, str(HERE))
    sys.path.append(str(HERE.parent))
    # whoever is started in the background ignores it, and so would all that the tests start and interrupt
    signal.signal(signal.SIGINT, signal.default_int_handler)
    names, began = sys.argv[1:], time.monotonic()
    if "--help" in names:
        print(__doc__)
        return 0
    if names:
        counts = counted(unittest.TestSuite(tests_of(name) for name in names), sys.stderr)
    else:
        counts = all_of_them()
    print(f"{time.monotonic() - began:.1f} s", file=sys.stderr)
    print(said_of(counts), flush=True)
    return 1 if counts["failed"] or not counts["passed"] else 0


if __name__ == "__main__":
    sys.exit(main())
