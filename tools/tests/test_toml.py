"""Documents of TOML beside Python's tomllib, and numbers that are put into their texts."""

import random
import tomllib
import unittest

from glb_tools.options import Fault
from glb_tools.toml import Document, Plain, Unusual

# of each the plain reader is sure
PLAIN = [
    "",
    "\n",
    "# a remark",
    "a = 1",
    "a = -1\nb = 0\r\n",
    "[t]\na = 1\n\n[[u]]\na = 2 # demand = 3\n[[u]]\n[v]\nb = [1]\n",
    'a = "x # y"\nb = [ "x", "]",\n "z" ]\nc = []\nd = [\n]\n',
    'a = true\nb = [1, 2]\nc = [1, "x"]\n',
    "[ t ]\n  a=1\n[[ u ]]\n",
    "a = 'x \\t\\n\t# \"'\nb = ''\n",
    'a = [1, 2,]\nb = [\n  "x",\n  ",]",\n]\nc = [ 1 , ] # r\n',
    "a-b_C3 = 999999999999999999",
    'a = "\u00e4\U0001f600"',
]
# and these are left to tomllib, which reads them
OTHERS = [
    '"a" = 1',
    "a.b = 1",
    "a = 0x10",
    "a = 1_000",
    "a = +1",
    "a = 1.5",
    "a = 1979-05-27",
    'a = """x"""',
    'a = "\\u0041"',
    "a = [[1], [2]]",
    "a = [1, # one\n 2]",
    "a = {b = 1}",
    "[a.b]\nc = 1",
    '[["x y"]]\nc = 1',
    "a = [1.0]",
    "a = [true]",
    "a = 9999999999999999999999",
    'a = "\t"',
    "a = ['x']",
    "a = [1, 'y']",
    "a = '''x'''",
]
# and these are no TOML
WRONG = [
    "a = 1\na = 2",
    "[t]\n[t]",
    "[t]\n[[t]]",
    "[[t]]\n[t]",
    "t = 1\n[t]",
    "t = []\n[[t]]",
    "a = ",
    "a = 01",
    "a = -01",
    "a = 1 b = 2",
    "a = [1 2]",
    "a = [,]",
    "a = [1,,]",
    "a = 'x\ny'",
    "a = 'x'y'",
    'a = "x\ny"',
    'a = "\x7f"',
    "a = nul",
    "# \x00",
    "a = 1\rb = 2",
    "[t",
    "[[t]",
    "= 1",
    "a",
    "\ufeffa = 1",
]


class Readers(unittest.TestCase):
    def test_plain(self):
        for text in PLAIN:
            with self.subTest(text):
                self.assertEqual(Plain(text).top, tomllib.loads(text))

    def test_others(self):
        for text in OTHERS:
            with self.subTest(text):
                self.assertRaises(Unusual, Plain, text)
                self.assertEqual(Document(text.encode()).top, tomllib.loads(text))

    def test_wrong(self):
        for text in WRONG:
            with self.subTest(text):
                self.assertRaises(tomllib.TOMLDecodeError, tomllib.loads, text)
                self.assertRaises(Unusual, Plain, text)
                # the mark at the very beginning is none of the document's
                self.assertRaises(Fault, Document, b"\xef\xbb\xbf" + text.encode(), "x.toml")

    def test_long(self):
        """What is long is read, by one or by the other, and needs no time that grows faster."""
        most = 1 << 18
        for text in (
            "a = [" + "1, " * most + "2]",
            "a = [" + "1, " * (most - 1) + "2]",
            'a = ["' + '",\n"'.join(map(str, range(most))) + '",\n]',
            "a = 1\n" + "\r\n" * 1000 + "b = [1,\r\n 2]\r\n",
            "a = [" + "\r\n" * 1000 + "]",
            "# a\n" * 100000 + "a = 1",
            "a = '" + "x" * 1000000 + "'",
        ):
            with self.subTest(text[:20]):
                self.assertEqual(Document(text.encode()).top, tomllib.loads(text))
        for text in ("a = [" + "1, " * most, "a = [" + "\r\n" * most, 'a = "' + "x" * most):
            with self.subTest(text[:20]):
                self.assertRaises(Fault, Document, text.encode())

    def test_faults(self):
        for octets in (b"a = \xff", b"a = " + b"[" * 5000, b"a = " + b"9" * 5000):
            with self.subTest(octets[:8]), self.assertRaisesRegex(Fault, "^x.toml: "):
                Document(octets, "x.toml")

    def test_mark(self):
        self.assertEqual(Document(b"\xef\xbb\xbfa = 1").top, {"a": 1})

    def test_harmed(self):
        """Whatever is done to a text, the plain reader says what tomllib says, or nothing."""
        chance = random.Random(75)
        text = '[z]\na = "x # y" # r\nb = [ "x",\n "]" ]\n[[u]]\nc = true\ne = \'y\'\nf = [1, 2,\n]\nd = -12\n[[u]]\n\nd = [1, 20]\r\n'
        marks = "[]\"=#,\n\r\t 019-_\\'{}.ab\x00é"
        agreed = 0
        for _ in range(4000):
            harmed = list(text)
            for _ in range(chance.randint(1, 3)):
                at = chance.randrange(len(harmed))
                harmed[at : at + chance.randint(0, 2)] = chance.choice(marks)
            try:
                read = Plain("".join(harmed)).top
            except Unusual:
                continue
            agreed += 1
            self.assertEqual(read, tomllib.loads("".join(harmed)), "".join(harmed))
        self.assertGreater(agreed, 100)


class Numbers(unittest.TestCase):
    def written(self, text, numbers):
        return Document(text.encode()).written(numbers)

    def test_plain(self):
        text = "[[node]]\nn = 1 # n = 1\nm = 22\n[[node]]\nn = 3\n"
        due = "[[node]]\nn = 1000 # n = 1\nm = 22\n[[node]]\nn = 0\n"
        self.assertEqual(self.written(text, {("node", 1, "n"): 0, ("node", 0, "n"): 1000}), due)
        self.assertEqual(self.written(text, {}), text)

    def test_walk(self):
        """Whatever form a number has, and whatever looks as one."""
        for text in (
            "node = [{n = 1}, {'m' = [{n = 1}], \"n\" = X}]",
            'node = [{n = 1}, {m = "n = 1", n = X}]',
            "[[node]]\nn = 1\n[[node]]\nm = '''\nn = 1\n'''\n\"n\" = X # n",
            '[[node]]\n[node.n]\nn = 1\n[[node]]\nm = """\\"\nn = 1"""\nn = X\n[node.k]\nn = 2',
            '[["no\\u0064e"]]\n[[node]]\nm.n = 1\nn = X\r\n[other]\nn = 7',
            "[[node]]\n[[node]]\nm = [[1, 2], # n = 3\n [3]]\nn=X#n",
            "[[node]]\n[[node.m]]\nn = 1\n[[node.m]]\nn = 2\n[[node]]\nn = X\n[[node.m]]\nn = 3",
        ):
            for digits in ("1_0", "0xA", "0b1010", "+10", "10"):
                with self.subTest(text=text, digits=digits):
                    wrote = self.written(text.replace("X", digits), {("node", 1, "n"): 12345})
                    self.assertEqual(wrote, text.replace("X", "12345"))

    def test_remarks(self):
        text = "node = [" + "# n = 1\n" * 3000 + "{n = X}, # n\n\n # m\n ]"
        self.assertEqual(
            self.written(text.replace("X", "0x1"), {("node", 0, "n"): 7}), text.replace("X", "7")
        )

    def test_not_found(self):
        """An array that is not one of tables has no such place."""
        with self.assertRaisesRegex(Fault, "`n` of node 0 .* not found"):
            self.written("[[node]]\nm.n = 1\n", {("node", 0, "n"): 2})

    def test_as_by_hand(self):
        """Many numbers at once, in both forms, as a plain replacement has them."""
        plain = "".join(f"[[node]]\nn = {i}\nm = [1]\n" for i in range(2000))
        other = "node = [" + ",".join(f"{{n = {i}, m = [1]}}" for i in range(2000)) + "]\n"
        numbers = {("node", i, "n"): i * i for i in range(0, 2000, 3)}
        for text, form, end in (
            (plain, "[[node]]\nn = {}\nm = [1]\n", ""),
            (other, "{{n = {}, m = [1]}},", "]\n"),
        ):
            wrote = self.written(text, numbers)
            due = "".join(form.format(i if i % 3 else i * i) for i in range(2000)).rstrip(",")
            self.assertEqual(wrote, ("node = [" if end else "") + due + end)


if __name__ == "__main__":
    unittest.main()
