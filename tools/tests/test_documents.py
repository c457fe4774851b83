"""bench/documents.py notices what is broken in a document: a copy is broken in many ways, each chosen from what it has."""

import importlib.util
import os
import random
import re
import sys
import tempfile
import unittest
from pathlib import Path

from samples import TOP

BENCH = TOP / "bench"
sys.path.append(str(BENCH))
import lookups  # noqa: E402

TREE = lookups.Tree()
DOCUMENTS = [*TREE.documents, "docs/glb.1"]
TEXTS = {path: (TOP / path).read_text() for path in DOCUMENTS}
# how many places of one kind are broken in one document
MOST = 40


class Place:
    """A part of a text, and what is put in its place."""

    def __init__(self, found, group, new):
        self.start, self.end, self.new = found.start(group), found.end(group), new
        self.old = found[group]

    def line(self, text):
        return text.count("\n", 0, self.start) + 1


def in_prose(text):
    """The text with all blocks blanked out, so that places keep their numbers."""
    blank = re.sub(
        r"^```.*?^```$", lambda found: re.sub(r"[^\n]", " ", found[0]), text, flags=re.M | re.S
    )
    return re.sub(r"^    .*$", lambda found: " " * len(found[0]), blank, flags=re.M)


def in_blocks(text):
    """The text with all but blocks of commands and of drawings blanked out."""
    text = re.sub(
        r"^```text$.*?^```$", lambda found: re.sub(r"[^\n]", " ", found[0]), text, flags=re.M | re.S
    )
    kept = in_prose(text)
    return "".join(
        letter if other == " " or letter == "\n" else " " for letter, other in zip(text, kept)
    )


def is_file(word):
    return any(
        (TOP / folder / word).is_file() for folder in (".", "bench", "docs", "examples", "tools")
    )


def misspelled(word):
    """A word with a letter more, ahead of its ending."""
    stem, dot, ending = word.rpartition(".")
    return f"{stem}x.{ending}" if dot and stem else f"{word}x"


def found(pattern, text, group=1, new=misspelled, flags=re.M, where=None):
    return [
        Place(at, group, new(at[group]))
        for at in re.finditer(pattern, text, flags)
        if where is None or where(at[group])
    ]


def paths(text):
    pattern = r"(?<![\w/.~(-])((?:(?:docs|bench|tools|examples)/)?[\w@-]+\.(?:md|sh|py|toml|service|timer|yml))(?![\w/.*])"
    return found(
        pattern,
        re.sub(r"\]\([^)]*\)", lambda at: " " * len(at[0]), in_prose(text)),
        where=lambda word: is_file(word) and "@" not in word,
    )


def paths_of_blocks(text):
    return found(
        r"(?<![\w/.~-])((?:bench|tools|examples)/[\w@./-]*\w)",
        in_blocks(text),
        where=lambda word: (TOP / word).is_file(),
    )


def paths_of_specifications(text):
    return found(r"`(specs/[A-Z]\w+)`", text)


def manual_paths(text):
    return found(r"^\.I (docs/[A-Z]+\.md)", text)


def links(text):
    return found(r"\]\(((?:\.\./)*[\w./-]+\.(?:md|svg))[)#]", in_prose(text))


def anchors(text):
    return found(r"\]\([\w./-]*#([\w-]+)\)", in_prose(text))


def names(text):
    return found(r"(?<!\[)`([a-z]+_[a-z_]+)`", in_prose(text))


def clauses(text):
    return found(r"`([a-z_]+)` of `(?:\w+::)*\w+`", text)


def clauses_of_others(text):
    """A word that the repository has, and that is no clause."""
    return found(r"`([a-z_]+)` of `(?:\w+::)*\w+`", text, new=lambda _: "zurich")


def drawn_crates(text):
    block = re.sub(r"\(.*\)", lambda at: " " * len(at[0]), in_blocks(text))
    return found(r"\b([a-z]+_[a-z_]+)\b", block, where=lambda word: word in TREE.crates)


def headings_of_crates(text):
    return found(r"^## ([a-z_]+)$", text)


def bold_crates(text):
    return found(r"^\*\*([a-z]+_[a-z_]+)\.\*\*", text)


def options(text):
    return found(
        r"(?<![\w-])--([a-z][a-z0-9-]+)(?=[`\s])", in_prose(text), new=lambda word: f"q{word}"
    )


def options_of_the_manual(text):
    return found(r"\\-\\-([a-z][a-z0-9]+)", text, new=lambda word: f"q{word}")


def options_of_blocks(text):
    return found(
        r"^.*?(?:glb-|glb serve).*?--([a-z][a-z0-9-]+)",
        in_blocks(text),
        new=lambda word: f"q{word}",
    )


def commands(text):
    block = in_blocks(text)
    pattern = r"^(?:    )?((?:tools/)?glb-[a-z]+|glb|systemctl|install|mkfifo|dig|echo|nft|cp|mkdir|apt-get)(?= )"
    shown = re.sub(r"^ *glb map \d$", lambda at: " " * len(at[0]), block, flags=re.M)
    return found(pattern, shown, new=lambda word: f"{word}q")


def commands_of_tables(text):
    return found(r"^\| `(glb-[a-z]+)", text)


def commands_of_the_manual(text):
    return found(r"^\.B glb (\w+)$", text)


def subcommands_of_rt(text):
    return found(r"\brt (try|run)\b", in_blocks(text))


def units(text):
    return found(r"systemctl [^\n`;|]*?\b(glb-[a-z]+)\b", text)


def statuses(text):
    table = re.search(r"\| Status \|.*\n\|---.*\n((?:\|.*\n)+)", text)
    if table is None:
        return []
    return [
        place
        for place in found(r"^\| (\d) \|", text, new=lambda word: str((int(word) + 5) % 10))
        if table.start() < place.start < table.end()
    ]


def statuses_of_the_manual(text):
    return found(r"^\.TP\n\.B (\d)$", text, new=lambda word: str((int(word) + 9) % 10))


def limits(text):
    def other(number):
        value = int(number.replace(",", ""))
        others = (value + more for more in (100, 101, 103, 107, 109))
        return next(
            f"{other:,}"
            for other in others
            if other not in TREE.numbers and f"{other:,}" not in TREE.measured
        )

    return found(r"(?<![\w.,:/-])(\d{1,3}(?:,\d{3})+)(?![\w,]*\.?\d)", in_prose(text), new=other)


def figures(text):
    table = re.search(r"\|.*Queries a second.*\n(?:\|.*\n)+", text)
    if table is None:
        return []
    inside = " " * table.start() + table[0]
    return found(
        r"(?<= )(\d+,\d{3}|\d+\.\d+)(?= )",
        inside,
        new=lambda number: number[:-1] + ("7" if number[-1] != "7" else "3") + "9",
    )


def refusals(text):
    """The words of the tables that begin with WORDS or with texts of refusals."""
    tables = re.finditer(r"^\| (?:WORDS|Text) \|.*\n\|---.*\n((?:\|.*\n)+)", text, re.M)
    inside = " " * len(text)
    for table in tables:
        inside = inside[: table.start(1)] + table[1] + inside[table.end(1) :]
    return (
        found(
            r"^\| `((?:refused )?[a-z ]+)",
            "\n".join(inside.splitlines()),
            new=lambda words: f"{words.rstrip()} octet ",
            where=lambda words: len(words) > 6,
        )
        if "WORDS" in text
        else []
    )


def numbers_of_faults(text):
    return found(r"^\| (\d+) [a-z ]+ \|", text, new=lambda number: str(int(number) - 1))


def words_of_faults(text):
    return found(r"^\| \d+ ([a-z ]+) \|", text)


def usage(text):
    return found(r"`usage: glb check, (answer), ", text, new=lambda word: "ask")


def lines_of_maps(text):
    block = in_blocks(text)
    return [
        place
        for place in found(
            r"^ *(?:glb map \d\n(?: +.*\n)*? +)place \w+ \w+ (\d+)  ",
            block,
            new=lambda number: str(int(number) + 1),
        )
    ]


def shown_commands(text):
    """A whole example: the only one of its command."""
    pattern = r"((?:^    \$ .*\bglb (places|large|repair) .*\n)(?:^    .*\n)*)"
    return [Place(at, 1, "") for at in re.finditer(pattern, text, re.M)]


# by kind: what finds its places, in which documents, and whether a fault names the line and what stands there
KINDS = {
    "a path in prose": (paths, None, True),
    "a path in a block": (paths_of_blocks, None, True),
    "a path of a specification": (paths_of_specifications, None, True),
    "a path of the manual page": (manual_paths, ("docs/glb.1",), True),
    "a link": (links, None, True),
    "a heading of a link": (anchors, None, True),
    "a name of the code": (names, None, True),
    "a clause": (clauses, ("docs/PROVED.md",), True),
    "a clause that is none": (clauses_of_others, ("docs/PROVED.md",), True),
    "a crate of the drawing": (drawn_crates, ("docs/MAP.md",), True),
    "a crate's heading": (headings_of_crates, ("docs/MAP.md",), True),
    "a crate in bold": (bold_crates, ("docs/PROVED.md",), True),
    "an option": (options, None, True),
    "an option of the manual page": (options_of_the_manual, ("docs/glb.1",), True),
    "an option in a block": (options_of_blocks, None, True),
    "a command in a block": (commands, None, True),
    "a command of a table": (commands_of_tables, None, True),
    "a command of the synopsis": (commands_of_the_manual, ("docs/glb.1",), False),
    "a command of rt": (subcommands_of_rt, ("README.md",), True),
    "a unit of systemd": (units, None, True),
    "a status": (statuses, ("docs/FORMATS.md", "docs/operating/watching.md"), False),
    "a status of the manual page": (statuses_of_the_manual, ("docs/glb.1",), False),
    "a limit": (limits, lookups.LIMITED, True),
    "a figure": (figures, ("README.md",), True),
    "the text of a refusal": (refusals, ("docs/FORMATS.md",), True),
    "the number of a fault": (numbers_of_faults, ("docs/FORMATS.md",), False),
    "the words of a fault": (words_of_faults, ("docs/FORMATS.md",), False),
    "the usage line": (usage, ("docs/FORMATS.md",), True),
    "a line of a map": (lines_of_maps, ("docs/HOW-IT-WORKS.md",), False),
    "a whole example": (shown_commands, ("docs/FORMATS.md",), False),
}
# in this document paths and links alone are looked up, since it tells of what is not there any more
PARTLY = ("docs/PROOFS.md",)


def broken(text, places):
    for place in sorted(places, key=lambda place: -place.start):
        text = text[: place.start] + place.new + text[place.end :]
    return text


def faults(path, text):
    return [said for _, is_there, said in lookups.look_up(path, text, TREE) if not is_there]


def one_a_line(places, text):
    """At most so many of the places, one of a line, chosen by a fixed seed."""
    by_line = {place.line(text): place for place in places}
    chosen = list(by_line.values())
    random.Random(1).shuffle(chosen)
    return chosen[:MOST]


def documents_of(kind):
    _, listed, _ = KINDS[kind]
    kept = DOCUMENTS if listed is None else listed
    return [
        path
        for path in kept
        if path not in PARTLY or kind in ("a link", "a heading of a link", "a path in prose")
    ]


class Documents(unittest.TestCase):
    def test_nothing_is_broken(self):
        for path in DOCUMENTS:
            with self.subTest(path):
                self.assertEqual(faults(path, TEXTS[path]), [])

    def test_each_kind_is_noticed(self):
        """Of each document one line in two is broken, and then the others: each fault names its line and what stands there."""
        counts = dict.fromkeys(KINDS, 0)
        for path in DOCUMENTS:
            text = TEXTS[path]
            by_line = {}
            for kind, (finder, _, names_line) in KINDS.items():
                if path not in documents_of(kind):
                    continue
                places = one_a_line(finder(text), text)
                counts[kind] += len(places)
                if names_line:
                    for place in places:
                        by_line.setdefault(place.line(text), []).append((kind, place))
                else:
                    self.notices_each(path, kind, places)
            # of the kinds of a line each is broken in its turn
            for turn in range(max(map(len, by_line.values()), default=0)):
                self.notices(path, [kinds[turn] for kinds in by_line.values() if turn < len(kinds)])
        for kind, count in counts.items():
            with self.subTest(kind=kind):
                self.assertGreater(count, 0, f"no document has {kind}: nothing was broken")

    def notices(self, path, broken_ones):
        text = TEXTS[path]
        said = {}
        for fault in faults(path, broken(text, [place for _, place in broken_ones])):
            where = re.match(rf"{re.escape(path)}:(\d+): ", fault)
            if where:
                said.setdefault(int(where[1]), []).append(fault)
        for kind, place in broken_ones:
            with self.subTest(kind=kind, document=path, line=place.line(text), new=place.new):
                here = "\n".join(said.get(place.line(text), []))
                self.assertIn(place.new.strip(), here, place.old)

    def notices_each(self, path, kind, places):
        for place in places:
            with self.subTest(kind=kind, document=path, new=place.new):
                self.assertNotEqual(faults(path, broken(TEXTS[path], [place])), [], place.old)


# thirty-four ways in which documents were broken once, by document and kind; of those in capitals the program is run
WAYS = [
    ("README.md", "a link", "the path of a document"),
    ("docs/HOW-IT-WORKS.md", "a line of a map", "a line of the first map"),
    ("README.md", "A SESSION", "what the session expects"),
    ("docs/glb.1", "an option of the manual page", "an option renamed"),
    ("docs/FORMATS.md", "a status", "two statuses swapped"),
    ("docs/FORMATS.md", "AN EXAMPLE", "the output of `glb map limits.toml`"),
    ("docs/FORMATS.md", "the number of a fault", "12 bad prefix becomes 11"),
    ("docs/FORMATS.md", "the text of a refusal", "bad byte becomes bad octet"),
    ("docs/FORMATS.md", "a limit", "8,300 becomes 8,200"),
    ("docs/operating/service.md", "a path in a block", "the unit that is installed"),
    ("docs/operating/feed.md", "A SESSION", "what is said of two feeds"),
    ("docs/operating/feed.md", "an option in a block", "--feed2"),
    ("docs/glb.1", "AN EXAMPLE", "the output of an example"),
    ("docs/glb.1", "a status of the manual page", "a status described twice"),
    ("docs/glb.1", "a path of the manual page", "docs/FORMATS.md"),
    ("docs/DECISIONS.md", "a name of the code", "the name of a function"),
    ("docs/PROVED.md", "a clause", "the name of a clause"),
    ("docs/MAP.md", "a crate of the drawing", "a crate misspelled"),
    ("docs/MAP.md", "a crate's heading", "a heading for no crate"),
    ("bench/README.md", "a path in prose", "a script of the table"),
    ("README.md", "a figure", "a figure"),
    ("docs/PROOFS.md", "a path in prose", "a path"),
    ("docs/FORMATS.md", "a path in prose", "the path of a unit in prose"),
    ("docs/operating/feed.md", "AN EXAMPLE", "the first example of the feed"),
    ("docs/FORMATS.md", "AN EXAMPLE", "a line of `glb large 64`"),
    ("README.md", "a link", "the picture"),
    ("README.md", "a command of rt", "rt run"),
    ("docs/FORMATS.md", "a whole example", "an example dropped"),
    ("docs/FORMATS.md", "the usage line", "the usage line"),
    ("docs/EXTENDING.md", "a path of a specification", "a specification"),
    ("CONTRIBUTING.md", "a path in prose", "bench/documents.py"),
    ("docs/operating/fleet.md", "a path in prose", "examples/fleet.sh"),
    ("docs/operating/what-if.md", "a path in a block", "a tool in a block"),
    ("docs/operating/metrics.md", "a path in prose", "a unit of metrics"),
]


class Ways(unittest.TestCase):
    def test_each_of_the_ways(self):
        self.assertEqual(len(WAYS), 34)
        for path, kind, what in WAYS:
            if kind.isupper():
                continue
            with self.subTest(document=path, kind=kind, what=what):
                text = TEXTS[path]
                places = KINDS[kind][0](text)
                self.assertTrue(places, "the document has none")
                self.assertNotEqual(faults(path, broken(text, places[:1])), [], places[0].old)

    def test_a_length_of_a_line(self):
        text = TEXTS["docs/FORMATS.md"]
        self.assertIn("8,300", text)
        self.assertNotEqual(faults("docs/FORMATS.md", text.replace("8,300", "8,200", 1)), [])

    def test_the_octet_of_a_refusal(self):
        text = TEXTS["docs/FORMATS.md"]
        self.assertIn("| `bad byte` |", text)
        self.assertNotEqual(
            faults("docs/FORMATS.md", text.replace("| `bad byte` |", "| `bad octet` |")), []
        )


@unittest.skipUnless(os.environ.get("GLB"), "GLB does not name the built program")
class WithTheProgram(unittest.TestCase):
    """Examples and sessions: each line that is shown is broken, in the example that is run."""

    def setUp(self):
        spec = importlib.util.spec_from_file_location("documents", BENCH / "documents.py")
        self.documents = importlib.util.module_from_spec(spec)
        spec.loader.exec_module(self.documents)

    def test_lines_of_examples(self):
        with tempfile.TemporaryDirectory() as folder:
            examples = self.documents.Examples(Path(folder))
            for path in sorted({path for path, kind, _ in WAYS if kind == "AN EXAMPLE"}):
                for command, below in self.documents.examples_of(path, TEXTS[path]):
                    written = examples.run(command)
                    with self.subTest(document=path, command=command):
                        self.assertEqual(written, below)
                        self.assertTrue(below)

    def test_a_broken_line_is_a_fault(self):
        with tempfile.TemporaryDirectory() as folder:
            examples = self.documents.Examples(Path(folder))
            for path, old in (
                ("docs/operating/feed.md", "unplaced 5 full 2\n\n"),
                ("docs/operating/feed.md", "3 published 2, 1 show"),
            ):
                text = TEXTS[path]
                self.assertIn(old, text)
                said = [
                    fault
                    for fault in examples.faults(path, text.replace(old, old.replace("2", "7")))
                    if fault
                ]
                with self.subTest(path):
                    self.assertEqual(len(said), 1, said)

    def test_a_session(self):
        text = TEXTS["README.md"]
        sessions = self.documents.sessions
        if sessions.missing(text):
            self.skipTest("what README's session needs is not installed")
        said = []
        sessions.run(text.replace("published 1", "published 7"), told=said.append)
        self.assertTrue(said)


if __name__ == "__main__":
    unittest.main()
