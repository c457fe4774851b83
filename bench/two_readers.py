#!/usr/bin/env python3
"""Compares what two programs say of the same topologies, most of them broken.

    two_readers.py OLD NEW [COUNT] [SEED]

The topologies are those of examples/ and two small worlds of `generate.py`, with
one to three changes each: a line left out, doubled or moved, an octet, a word or
a number put in place of another, a list made longer or shorter, a cut. Both
programs map each of them, and have to write the same and end with the same
status: the fault with its place, or the map. It prints how often each fault
came, and the first topology on which the programs differ.
"""

import collections
import random
import re
import subprocess
import sys
import tempfile
from pathlib import Path

TOP = Path(__file__).resolve().parent.parent
WORLDS = (("--limits", "--classes", "6", "24", "7", "2", "95"), ("--long", "20", "6", "2", "80"))
WORDS = (
    '""', '"www"', '"g1"', '"n1"', '"n0"', "'n1'", '"""n1"""', '"n\\u0031"', '"a b"', '"' + "x" * 33 + '"', '"é"',
    "0", "1", "00", "01", "-1", "+7", "0x10", "1_000", "4294967295", "4294967296", "281474976710656", "281474976710657",
    "9223372036854775807", "9223372036854775808", "99999999999999999999", "1.5", "1e3", "inf", "true", "false",
    "2020-01-01", "12:30:00", "[]", "{}", "[[]]", "{ a = 1 }", "", "# x", "10.0.0.0/8", '"10.0.0.0/8"', '"::/0"',
    '"0.0.0.0/0"', '"192.0.2.1"', '"2001:db8::1"', '"ns1.cdn.example"',
)
LINES = (
    "[[node]]", "[[group]]", "[[class]]", "[zone]", "[x]", "x = 1", "node = 1", 'name = "g1"', 'name = "n1"', "demand = 5",
    "pool = true", "pool = false", 'parent = "n0"', "capacity = 7", 'a = ["192.0.2.9"]', 'aaaa = ["2001:db8::9"]', "limits = [1]",
    'pools = ["n1", "n1"]', "scores = [1, 2]", 'prefixes = ["10.0.0.0/8", "10.0.0.0/8"]', "group.x = 1", "# nothing",
)
TOKEN = re.compile(r'"[^"\n]*"|\b\d+\b|true|false')


def sources():
    """The texts that are changed."""
    found = [path.read_text() for path in sorted((TOP / "examples").glob("*.toml")) if path.stat().st_size < 40000]
    for words in WORLDS:
        with tempfile.NamedTemporaryFile(suffix=".toml") as made:
            subprocess.run([sys.executable, str(TOP / "bench/generate.py"), *words, made.name], check=True)
            found.append(Path(made.name).read_text())
    return found


def changed(draw, text):
    """The text with one change."""
    lines = text.split("\n")
    at = draw.randrange(len(lines))
    kind = draw.choices(range(9), (2, 2, 2, 3, 1, 1, 8, 12, 2))[0]
    if kind == 0:
        del lines[at]
    elif kind == 1:
        lines.insert(draw.randrange(len(lines) + 1), lines[at])
    elif kind == 2:
        lines.insert(draw.randrange(len(lines)), lines.pop(at))
    elif kind == 3:
        lines.insert(at, draw.choice(LINES))
    elif kind == 4:
        return text[: draw.randrange(len(text) + 1)]
    elif kind == 5:
        place = draw.randrange(len(text) + 1)
        return text[:place] + chr(draw.choice((draw.randrange(128), draw.randrange(32, 127)))) + text[place + 1 :]
    else:
        tokens = list(TOKEN.finditer(text))
        if not tokens:
            return text + "x"
        token = draw.choice(tokens)
        alike = [other[0] for other in tokens if other[0][0].isdigit() == token[0][0].isdigit()]
        word = draw.choice(WORDS) if kind == 6 else draw.choice(alike)
        if kind == 8:
            word = draw.choice((f"{token[0]}, {word}", f"{token[0]},", f"{token[0]} {word}", f" {token[0]}\n"))
        return text[: token.start()] + word + text[token.end() :]
    return "\n".join(lines)


def said(program, path):
    """What a program writes of a topology, and its status."""
    run = subprocess.run([program, "map", path], capture_output=True)
    return run.returncode, run.stdout, run.stderr


def main():
    old, new = sys.argv[1:3]
    count = int(sys.argv[3]) if len(sys.argv) > 3 else 2000
    draw = random.Random(int(sys.argv[4]) if len(sys.argv) > 4 else 1)
    texts, seen = sources(), collections.Counter()
    with tempfile.TemporaryDirectory() as folder:
        path = f"{folder}/topology.toml"
        for number in range(count):
            text = draw.choice(texts)
            for _ in range(0 if number < len(texts) else draw.randint(1, 3)):
                text = changed(draw, text)
            if number < len(texts):
                text = texts[number]
            Path(path).write_bytes(text.encode("utf-8", "surrogateescape"))
            first, second = said(old, path), said(new, path)
            if first != second:
                Path("differs.toml").write_text(text)
                sys.exit(f"number {number} differs, see differs.toml:\n{first}\n{second}")
            fault = re.search(rb"\d+ [a-z ]+?(?: at|$)", first[2] + first[1], re.MULTILINE) if first[0] else None
            seen[(first[0], fault[0].decode() if fault else "")] += 1
    for (status, fault), times in sorted(seen.items()):
        print(f"status {status} {fault}: {times}")
    print(f"{count} topologies, none differs")


if __name__ == "__main__":
    main()
