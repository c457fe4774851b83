#!/usr/bin/env python3
"""Planted bugs, and which of them the clauses of a crate refuse.

    bench/planted.py [--fit] CRATE..

bench/planted/CRATE.edits has wrong bodies of the crate's functions, each with what it does wrong, its file, and lines of
that file with what takes their place. They are written into a copy of the repository, one into each function at once, in
which `rt check --allow-holes` goes over the crate. So the check is repeated as often as the function with most bugs wants.
A bug counts as refused where its function has a goal of its own that is not proved, and as let through where the function
is proved. Where all that the function lacks is that others which it calls are proved, its goals may not have been looked
at, and its bug is tried again without those that were judged. Those that are let through are shown: by docs/PROVED.md
nothing is promised there, or the answer is want of memory, which no clause ties to a cause. One that no longer fits the
text, or does not compile, is named too.

It takes as long as some checks of the crate, from minutes to half an hour, beside the libraries below it, which a copy
builds anew where no check has kept them. With `--fit` nothing is copied or checked: it is only said which bugs do not fit
the text, or have the name or the edits of another one. That takes a second.

Status 0 where each bug could be tried, or fits, 1 where one could not or does not, and 2 where the words are wrong: then
nothing is copied or checked.
"""

import argparse
import re
import shutil
import subprocess
import sys
import tempfile
from pathlib import Path

TOP = Path(__file__).resolve().parent.parent
PLANTED = TOP / "bench" / "planted"


def bugs_of(crate):
    """Each bug: its name, what it does wrong, and its edits as (file, old, new)."""
    for block in (PLANTED / f"{crate}.edits").read_text().strip().split("\n\n"):
        name = what = file = old = ""
        edits = []
        for line in block.split("\n"):
            key, _, rest = line.partition(":")
            text = rest[1:]
            if key == "bug":
                name = text
            elif key == "what":
                what = text
            elif key == "file":
                file = text
            elif key == "old":
                old = text
            elif key == "new":
                edits.append((file, old, text))
        yield name, what, edits


def function_at(text, place):
    """The name of the function whose body holds that place."""
    found = re.findall(r"\bfn (\w+)", text[:place])
    return found[-1] if found else ""


def misfits(folder, bugs):
    """Those of a crate's bugs, as (name, what it does wrong, edits), that can't be tried one by one: each with the reason."""
    found = []
    names, all_edits = set(), set()
    for name, what, edits in bugs:
        if not (name and what and edits):
            found.append((name, "has no name, no text or no edit"))
            continue
        texts = {}
        for file, old, new in edits:
            if file not in texts and not (folder / file).is_file():
                found.append((name, f"{file} is not there"))
                break
            text = texts.get(file) or (folder / file).read_text()
            if text.count(old) != 1 or old == new:
                found.append((name, f"stands {text.count(old)} times in {file}: {old}"))
                break
            texts[file] = text.replace(old, new)
        same = tuple(
            (file, " ".join(old.split()), " ".join(new.split())) for file, old, new in edits
        )
        if name in names or same in all_edits:
            found.append((name, "has the name or the edits of another one"))
        names.add(name)
        all_edits.add(same)
    return found


def plant(folder, bugs):
    """Writes bugs into the copy of a crate, into each function one at most: of two, one could be refused for the other. Gives,
    for each, its functions; none where it does not fit beside others.
    """
    planted = {}
    taken = set()
    for name, edits in bugs.items():
        texts, functions = {}, []
        for file, old, new in edits:
            text = texts.get(file) or (folder / file).read_text()
            if text.count(old) != 1:
                functions = None
                break
            functions.append((file, function_at(text, text.index(old) + len(old))))
            texts[file] = text.replace(old, new)
        if functions is not None and taken.isdisjoint(functions):
            taken.update(functions)
            for file, text in texts.items():
                (folder / file).write_text(text)
        else:
            functions = None
        planted[name] = functions
    return planted


def verdicts(said):
    """What a check said of each function, by its path."""
    return re.findall(r"^fn (\S+): (.*)$", said, re.MULTILINE)


def blamed(said, folder, bugs):
    """Those of the bugs which stand in a line that the compiler names where it refuses a crate: they do not compile."""
    found = set()
    for file, number in re.findall(r"(src/[\w/]+\.rt):(\d+)", said):
        if not (folder / file).is_file():
            continue
        line = "".join((folder / file).read_text().split("\n")[int(number) - 1 : int(number)])
        for name, edits in bugs.items():
            if any(other == file and new.strip() and new in line for other, _, new in edits):
                found.add(name)
    return found


def outcome_of(functions, found):
    """What came of the functions of a bug, with their blocks: None where all they lack are proofs of others."""
    answers = []
    for file, function in functions:
        module = file.removeprefix("src/").removesuffix(".rt").replace("/", "::")
        named = [
            (path, answer)
            for path, answer in found
            if path.split("::")[-1] == function or f"::fn::{function}::" in path
        ]
        answers += [answer for path, answer in named if f"::{module}::" in path] or [
            answer for _, answer in named
        ]
    if not answers:
        return None
    if all(answer in ("no holes", "proved") for answer in answers):
        return "let through"
    by_others = r"it (calls|passes the block) .*, which (is|are) not proved"
    lacks = [part for answer in answers for part in answer.removeprefix("no proof: ").split("; ")]
    if all(part in ("no holes", "proved") or re.fullmatch(by_others, part) for part in lacks):
        return None
    return "refused"


def judge(folder, crate):
    """Tries the bugs of a crate in a copy of its folder, in rounds: a function that calls a wrong one may not have been
    looked at, and then its bug stands in the next round, without those that were judged. Gives the outcome of each.
    """
    bugs = {name: edits for name, _, edits in bugs_of(crate)}
    files = {file for edits in bugs.values() for file, _, _ in edits}
    texts = {file: (folder / file).read_text() for file in files}
    outcomes = {}
    while len(outcomes) < len(bugs):
        left = {name: edits for name, edits in bugs.items() if name not in outcomes}
        for file, text in texts.items():
            (folder / file).write_text(text)
        planted = plant(folder, left)
        check = subprocess.run(
            ["rt", "check", "--allow-holes"], cwd=folder, capture_output=True, text=True
        )
        said = check.stdout
        found = verdicts(said)
        if not found:
            stand = {name: left[name] for name, functions in planted.items() if functions}
            wrong = blamed(said + check.stderr, folder, stand)
            if not wrong:
                print(f"{crate}: the check judged nothing: {said.strip()[-300:]}")
                break
            outcomes |= dict.fromkeys(wrong, "does not compile")
            continue
        judged = {
            name: outcome_of(functions, found)
            for name, functions in planted.items()
            if functions is not None
        }
        judged = {name: outcome for name, outcome in judged.items() if outcome}
        if not judged:
            break
        outcomes |= judged
    for file, text in texts.items():
        (folder / file).write_text(text)
    return outcomes


def tried(crate):
    """Tries all bugs of a crate. Gives whether each could be tried."""
    with tempfile.TemporaryDirectory() as folder:
        copy = Path(folder) / "glb"
        shutil.copytree(TOP, copy, ignore=shutil.ignore_patterns("out", ".git", "__pycache__"))
        subprocess.run(["git", "init", "-q", str(copy)], check=True)
        outcomes = judge(copy / "crates" / crate, crate)
    bugs = list(bugs_of(crate))
    for name, what, _ in bugs:
        outcome = outcomes.get(name, "does not fit, or was not judged")
        if outcome != "refused":
            print(f"{crate}: {outcome}: {name}: {what}")
    print(f"{crate}: {len(bugs)} bugs, {list(outcomes.values()).count('refused')} refused")
    return all(outcomes.get(name) in ("refused", "let through") for name, _, _ in bugs)


def fit(crate):
    """Says which bugs of a crate do not fit. Gives whether all do."""
    found = misfits(TOP / "crates" / crate, bugs_of(crate))
    for name, reason in found:
        print(f"{crate}: {name}: {reason}")
    return not found


def main():
    words = argparse.ArgumentParser(
        usage="bench/planted.py [--fit] CRATE..",
        description=__doc__,
        formatter_class=argparse.RawDescriptionHelpFormatter,
    )
    words.add_argument(
        "crates",
        metavar="CRATE",
        nargs="+",
        help="a crate with a file of bugs, bench/planted/CRATE.edits",
    )
    words.add_argument(
        "--fit", action="store_true", help="look only whether the bugs fit the text, and try none"
    )
    asked = words.parse_args()
    crates = asked.crates
    known = {file.stem for file in PLANTED.glob("*.edits")}
    for crate in crates:
        if crate not in known:
            words.error(f"{crate}: bench/planted has no file of bugs for it")
    results = [fit(crate) if asked.fit else tried(crate) for crate in crates]
    sys.exit(0 if all(results) else 1)


if __name__ == "__main__":
    main()
