#!/usr/bin/env python3
"""Runs each example that the documents show, looks up what they cite, and which functions may wait.

    documents.py             all
    documents.py examples    each `$ glb ..`, and what stands below it, and the sessions of docs/operating/feed.md
    documents.py sessions    the commands of docs/GUIDE.md, docs/TOPOLOGY.md and README.md (sessions.py)
    documents.py names       each path, link, word, clause, crate, command and option of blocks, status, limit, figure and text
                             of a refusal (lookups.py), and the names of docs/STATEMENT.md
    documents.py waits       each function that takes a handle by which it may wait or start threads

A path has to be there: from the top, or in a crate that the same line or heading names, of a table's row also the words
in bold above the table. A word has to stand somewhere in the code, the specifications or the files of examples. A clause,
`x` of `f` or (`x`) in docs/PROVED.md, has to be an `ensures` or a field of a record, in a crate that the line, or of a row
the words in bold, names, or a field of a record that `f` promises. What stands in the last cell of a row, under `Where`,
has to be a clause of such a crate, a condition, a field, a definition or a function. A link needs its file and its heading.
GLB names the program, the built one if it is not set. What is not installed is left out, and said.
The status is 0 where all is found and each example writes what is shown.
"""

import os
import re
import shutil
import subprocess
import sys
import tempfile
from collections import Counter
from pathlib import Path

import lookups
import sessions

TOP = lookups.TOP
GLB = sessions.GLB
TREE = lookups.Tree()
DOCUMENTS = [*TREE.documents, "docs/glb.1"]
# the crates whose functions may wait, and in the map cell, which workers use, those functions: no other does, so no reply waits
MAY_WAIT = {"big_run", "drive", "feed_queue", "glb", "glb_program", "mapper"}
MAY_WAIT_IN_THE_CELL = {"admit", "close", "fill", "open", "publish", "put", "put_at", "put_back", "put_shown", "show", "start"}
# words of docs/STATEMENT.md that are no definitions: the program, its commands, and `code`
COMMANDS = {"glb", "serve", "map", "places", "check", "answer", "repair", "large", "good", "code"}


def examples_of(path, text):
    """The commands that a document shows, each with the lines below it."""
    lines = text.splitlines()
    indent = "" if path.endswith(".1") else "    "
    shown = []
    for number, line in enumerate(lines):
        if line.startswith((f"{indent}$ glb", f"{indent}$ printf")):
            below = []
            for later in lines[number + 1 :]:
                if not later.startswith(indent) or not later.strip() or later.startswith((f"{indent}$", ".EE")):
                    break
                below.append(later.removeprefix(indent).replace("\\-", "-"))
            shown.append((line.removeprefix(f"{indent}$ "), "".join(f"{text}\n" for text in below)))
    return shown


class Examples:
    """A folder that has the example files, by their names alone and under examples/, and `glb` in the path."""

    def __init__(self, folder):
        self.folder = folder
        shutil.copytree(TOP / "examples", f"{folder}/examples")
        for file in (TOP / "examples").iterdir():
            if file.is_file():
                shutil.copy(file, folder)
        os.mkdir(f"{folder}/bin")
        os.symlink(GLB, f"{folder}/bin/glb")

    def run(self, command):
        """What a command writes, in a network of its own and with a /run of its own."""
        environment = {**os.environ, "PATH": f"{self.folder}/bin:{os.environ['PATH']}"}
        words = [*sessions.APART, "bash", "-c", f"ip link set lo up; mount -t tmpfs none /run; {command}"]
        return subprocess.run(words, cwd=self.folder, env=environment, capture_output=True, text=True, timeout=60).stdout

    def faults(self, path, text):
        """Of each example of a document what it writes, where that is not what is shown."""
        for command, below in examples_of(path, text):
            written = self.run(command)
            yield "" if written == below else f"{path}: $ {command}\nwrites\n{written}in place of\n{below}"
        if path == "docs/operating/feed.md":
            for _, lines, kind in lookups.blocks(text):
                if kind == "block" and lines[0].startswith("mkdir -p /run/glb"):
                    block = "\n".join(lines)
                    wanted = re.findall(r" # (.*)$", block, re.M) or ["status: NOERROR"]
                    written = self.run(block)
                    said = written.replace("\n", ", ")
                    yield "" if all(words in said for words in wanted) else f"{path}: {block}\nwrites\n{written}in place of\n{wanted}"


def run_examples():
    told = Tally("examples")
    with tempfile.TemporaryDirectory() as work:
        examples = Examples(work)
        for path in DOCUMENTS:
            for fault in examples.faults(path, (TOP / path).read_text()):
                told.take(not fault, fault)
    return told.end("as shown")


def look_up():
    """All that the documents cite."""
    failed, found = 0, Counter()
    for path in DOCUMENTS:
        for kind, is_there, said in lookups.look_up(path, (TOP / path).read_text(), TREE):
            found[kind] += is_there
            failed += not is_there
            if not is_there:
                print(said)
    print(", ".join(f"{kind} {count}" for kind, count in found.items()))
    print(f"looked up: {sum(found.values())} found, {failed} not")
    return failed


def statement():
    """The names of docs/STATEMENT.md: each has to be a definition of the page, or, behind `of CRATE`, one of that crate."""
    told = Tally("names of the page")
    text = (TOP / "docs/STATEMENT.md").read_text()
    for line in text.splitlines():
        for name, crate in re.findall(r"`([A-Za-z_]\w*)`(?: of (\w+))?", line):
            if name in TREE.crates or name in COMMANDS or name in TREE.functions("headline"):
                continue
            told.take(name in TREE.definitions(crate if crate in TREE.crates else "headline"), f"docs/STATEMENT.md: no definition {name}")
    for name in ("AreMaps", "IsFeasible", "IsGood", "Refuses", "IsReply", "AreRight", "IsRepaired", "IsHeadline"):
        told.take(f"`{name}`" in text, f"docs/STATEMENT.md: it does not name {name}")
    return told.end()


class Tally:
    """Counts what is found, and says what is not."""

    def __init__(self, kind):
        self.kind, self.found, self.failed = kind, 0, 0

    def take(self, is_there, text):
        if is_there:
            self.found += 1
        else:
            self.failed += 1
            print(text)

    def end(self, words="found"):
        print(f"{self.kind}: {self.found} {words}, {self.failed} not")
        return self.failed


def heads(text):
    """The name of each function, or of an `impl` None, with all that stands ahead of its clauses and its body."""
    for at in re.finditer(r"\bfn (\w+)|^(?:unsafe )?impl\b", text, re.M):
        yield at[1], re.split(r"\{\s*\n|\{\}|;\s*\n|\n +(?:requires|ensures)\b", text[at.start():], maxsplit=1)[0]


def waits():
    """Looks up which functions may wait, by the bounds that they take; tests and what they stand on aside."""
    of_tests = {name for name in TREE.crates if name.endswith("_tests")} | {"trial_runs", "worlds", "world_versions"}
    told = Tally("functions that may wait")
    seen = set()
    for path in sorted(TOP.glob("crates/*/src/**/*.rt")):
        crate = path.relative_to(TOP).parts[1]
        if crate in of_tests or "tests" in path.stem or "tests" in path.parts:
            continue
        for name, head in heads(path.read_text().split("#[cfg(test)]")[0]):
            seen.add((crate, name))
            if re.search(r"\b(Wait|Threads)\b", head):
                may = crate in MAY_WAIT or crate == "map_cell" and name in MAY_WAIT_IN_THE_CELL
                told.take(may, f"{path.relative_to(TOP)}: {name or 'an impl'} may wait")
    for answers in (("map_cell", "look"), ("name_workers", "answer"), ("name_workers", "serve_port"), ("tcp_lane", "serve_streams")):
        told.take(answers in seen, f"{'::'.join(answers)}: it was not looked at")
    return told.end()


def main():
    asked = sys.argv[1:] or ["examples", "sessions", "names", "waits"]
    failed = run_examples() if "examples" in asked else 0
    if "sessions" in asked:
        failed += sessions.run_all()[0]
    if "names" in asked:
        failed += look_up() + statement()
    if "waits" in asked:
        failed += waits()
    sys.exit(1 if failed else 0)


if __name__ == "__main__":
    main()
