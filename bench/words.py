#!/usr/bin/env python3
"""Counts, for each document, what makes it hard to read.

    words.py [--at COMMIT] [--show] [DOCUMENT..]

Words; sentences; those of more than 30 words; documents that are named without a link; and sentences that begin with a
pronoun (It, They, He, and This, That, These, Those ahead of a verb) in the place of a noun. What stands in backquotes counts as one
word, blocks and headings do not count, and each cell of a table ends a sentence. With --at the documents are those of a commit;
with --show the long sentences are written out. The last line has the sums.
"""

import argparse
import re
import subprocess
from pathlib import Path

TOP = Path(__file__).resolve().parent.parent
LONGEST = 30
# This, That and so on count only in the place of a noun
WITHOUT_NOUN = re.compile(r"(It|They|He)\b|(This|That|These|Those)\b (?:is|are|was|were|has|have|does|do|did|goes|go|holds|hold|needs|says|say|takes|take|comes|come|makes|make|can|will|may|must|counts?|works?|stands?|keeps?|ends?)\b")
NAMED = re.compile(r"(?<![\w/.\[(-])(?:`?(?:docs/(?:operating/)?|bench/)?(?:FORMATS|OPERATING|PROVED|MAP|EXTENDING|DECISIONS|PROOFS|STATEMENT|HOW-IT-WORKS|TOPOLOGY|GUIDE|GLOSSARY|README|CHANGELOG|CONTRIBUTING|SECURITY)(?:\.md)?`?)(?![\w/\]-])")


def sentences(text):
    """The sentences of a document, without its blocks and headings."""
    text = re.sub(r"^```.*?^```$", "", text, flags=re.M | re.S)
    for line in text.splitlines():
        if line.startswith(("    ", "#", "|---")) or not line.strip():
            continue
        parts = re.split(r"(?<!\\)\|", line) if line.startswith("|") else [re.sub(r"^(?:- |\d+\. |> )", "", line)]
        for part in parts:
            plain = re.sub(r"`[^`]*`", "CODE", part)
            plain = re.sub(r"\[([^\]]*)\]\([^)]*\)", r"\1", plain).replace("**", "").replace("*", "")
            plain = re.sub(r"\.\.", "", plain)
            for sentence in re.split(r"(?<=[.?!])\)?\s+(?=[A-Z(0-9\"'])", plain):
                if re.search(r"\w", sentence):
                    yield sentence.strip()


def links_missing(text):
    """How often a document is named outside of a link."""
    text = re.sub(r"^```.*?^```$", "", text, flags=re.M | re.S)
    count = 0
    for line in text.splitlines():
        if not line.startswith(("    ", "#")):
            plain = re.sub(r"!?\[[^\]]*\]\([^)]*\)", " ", line)
            plain = re.sub(r"`([^`]*)`", lambda quoted: quoted[1] if quoted[1].endswith(".md") else "CODE", plain)
            count += len(NAMED.findall(plain))
    return count


def counts(text):
    said = list(sentences(text))
    long = [sentence for sentence in said if len(sentence.split()) > LONGEST]
    starts = [sentence for sentence in said if WITHOUT_NOUN.match(sentence)]
    return [sum(len(sentence.split()) for sentence in said), len(said), len(long), links_missing(text), len(starts)], long


def texts(commit, named):
    if commit:
        listed = subprocess.run(["git", "ls-tree", "-r", "--name-only", commit], cwd=TOP, capture_output=True, text=True, check=True).stdout.split()
    else:
        listed = subprocess.run(["git", "ls-files"], cwd=TOP, capture_output=True, text=True, check=True).stdout.split()
    for path in sorted(path for path in listed if path.endswith(".md") and (not named or path in named)):
        if commit:
            yield path, subprocess.run(["git", "show", f"{commit}:{path}"], cwd=TOP, capture_output=True, text=True, check=True).stdout
        else:
            yield path, (TOP / path).read_text()


def main():
    parser = argparse.ArgumentParser(description=__doc__, formatter_class=argparse.RawDescriptionHelpFormatter)
    parser.add_argument("--at", metavar="COMMIT")
    parser.add_argument("--show", action="store_true")
    parser.add_argument("documents", nargs="*")
    words = parser.parse_args()
    sums = [0] * 5
    print(f"{'document':34} {'words':>7} {'sentences':>9} {'long':>6} {'unlinked':>8} {'pronouns':>8}")
    for path, text in texts(words.at, words.documents):
        found, long = counts(text)
        sums = [one + other for one, other in zip(sums, found)]
        print(f"{path:34} {found[0]:7} {found[1]:9} {found[2]:6} {found[3]:8} {found[4]:8}")
        if words.show:
            for sentence in sorted(long, key=lambda sentence: -len(sentence.split())):
                print(f"    {len(sentence.split())}: {sentence}")
    print(f"{'all':34} {sums[0]:7} {sums[1]:9} {sums[2]:6} {sums[3]:8} {sums[4]:8}")


if __name__ == "__main__":
    main()
