"""Starts of a command that share what it imports: each is forked from a process that has its modules already.

    forked.py PATH CASES      CASES are a list of JSON: words, and a file for the output, or none

What comes of each is a list of JSON: status, output, and what is said on standard error. A start by itself is
`samples.command`, which tests of a command's own start use.
"""

import contextlib
import importlib
import json
import os
import re
import runpy
import subprocess
import sys
import tempfile
from pathlib import Path
from types import SimpleNamespace

STARTED = re.compile(r'^start\("([a-z_.]+)"\)', re.M)


def forked(path, cases):
    """What becomes of a command with each of these words, as `subprocess.run` has it."""
    words = [sys.executable, "-B", __file__, str(path), json.dumps(cases)]
    env = {name: value for name, value in os.environ.items() if name != "PYTHONUNBUFFERED"}
    found = subprocess.run(words, stdout=subprocess.PIPE, env=env, timeout=120, check=True)
    for status, out, said in json.loads(found.stdout):
        yield SimpleNamespace(returncode=status, stdout=out.encode(), stderr=said.encode())


def one(path, words, output):
    """What becomes of one start."""
    with tempfile.TemporaryFile() as out, tempfile.TemporaryFile() as said:
        process = os.fork()
        if not process:
            os.dup2(os.open(output, os.O_WRONLY) if output else out.fileno(), 1)
            os.dup2(said.fileno(), 2)
            sys.argv, sys.path[:0] = [path, *words], [str(Path(path).parent)]
            runpy.run_path(path, run_name="__main__")
            sys.exit()
        status = os.waitstatus_to_exitcode(os.waitpid(process, 0)[1])
        texts = [(file.seek(0), file.read().decode())[1] for file in (out, said)]
        return [status, *texts]


def main():
    path, cases = sys.argv[1], json.loads(sys.argv[2])
    folder = str(Path(path).parent)
    sys.path[0] = folder
    sys.path.append(sys.path.pop(0))
    for name in STARTED.findall(Path(path).read_text()):
        # one that is not installed is told of at each start
        with contextlib.suppress(ModuleNotFoundError):
            importlib.import_module(f"glb_tools.{name}")
    sys.path.remove(folder)
    print(json.dumps([one(path, words, output) for words, output in cases]))


if __name__ == "__main__":
    main()
