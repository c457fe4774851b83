"""Drawings: what is as wide as what, and that words have room."""

import re
import unittest
from xml.etree import ElementTree

from glb_tools import drawing
from glb_tools.drawing import (
    Canvas,
    Columns,
    Flow,
    Row,
    bar,
    chosen,
    draw_chart,
    draw_flows,
    draw_rows,
    fitted,
    limit_of,
    merged,
    named,
    of_capacity,
    round_up,
    share,
    short,
    short_value,
    width_of,
)

MOST = 2**48


def widths(text, kind):
    return [float(each) for each in re.findall(rf'width="([\d.]+)"[^>]*class="{kind}"', text)]


class Words(unittest.TestCase):
    def test_numbers(self):
        for number, due in (
            (0, "0"),
            (999_999, "999,999"),
            (1_000_000, "1.0 M"),
            (1_234_567_890, "1.2 G"),
            (281_474_976_710_656, "281.5 T"),
        ):
            self.assertEqual(short(number), due)
            self.assertLessEqual(len(due), 7)
        self.assertEqual(of_capacity(5, MOST), "5 of no end")

    def test_shares(self):
        for load, capacity, due in (
            (0, 0, "out"),
            (3, 0, "over"),
            (10, 10, "100 %"),
            (999, 1000, ">99 %"),
            (1, 1000, "<1 %"),
            (0, 10, "0 %"),
            (1, 3, "33 %"),
        ):
            self.assertEqual(share(load, capacity), due)

    def test_room(self):
        for text in ("a name", "WWWWWWWWWWWWWWWWWWWWWWWWWWWWWWWW", "iiiiiiiiii", ""):
            for width in (10, 40, 90, 500):
                with self.subTest(text=text, width=width):
                    found = fitted(text, width)
                    self.assertTrue(found == text or found.endswith("…"))
                    if found != "…":
                        self.assertLessEqual(width_of(found), width)
        self.assertEqual(fitted("short", 100), "short")

    def test_named(self):
        pairs = [(f"g{n}", "P" if n % 2 else "Q") for n in range(9)]
        self.assertEqual(named(pairs[:1], "Q", 5), "g0")
        self.assertEqual(named(pairs[:2], "Q", 500), "g0, g1 (P)")
        found = named(pairs, "Q", 60)
        shown = found.split(" and ")[0].count(",") + 1
        self.assertEqual(found.split(" and ")[1], f"{9 - shown} more")
        self.assertTrue(named(pairs, "Q", 60, 5000).endswith(f"{5000 - shown:,} more"))

    def test_round(self):
        for value, due in (
            (0, 1),
            (-3, 1),
            (0.7, 1),
            (1, 1),
            (1.01, 2),
            (4, 5),
            (501, 1000),
            (2e9, 2e9),
        ):
            self.assertAlmostEqual(round_up(value), due)
        for value, due in ((5.0, "5"), (0.25, "0.25"), (1.26, "1.3"), (2_500_000.0, "2.5 M")):
            self.assertEqual(short_value(value), due)


class Bars(unittest.TestCase):
    def test_free(self):
        drawn = bar(Row("A", 0, 30, 60), 120, 0, 0, 240, 10)
        self.assertEqual(widths(drawn, "free"), [60.0])
        self.assertEqual(widths(drawn, "frame"), [120.0])
        self.assertIn("<title>A: 30 of 60 units</title>", drawn)
        self.assertNotIn("break", drawn)

    def test_full(self):
        drawn = bar(Row("A", 0, 60, 60), 60, 0, 0, 240, 10)
        self.assertIn('width="240.0" height="10.0" fill="url(#hatch)"', drawn)

    def test_cut(self):
        drawn = bar(Row("L", 0, 5, MOST), 10, 0, 0, 240, 10)
        self.assertEqual((widths(drawn, "frame"), drawn.count('class="break"')), ([240.0], 2))
        self.assertIn("5 of no end", drawn)

    def test_out(self):
        drawn = bar(Row("A", 0, 0, 0), 60, 0, 0, 240, 10)
        self.assertEqual((widths(drawn, "frame"), drawn.count('class="break"')), ([0.0], 1))

    def test_parts(self):
        drawn = bar(Row("A", 0, 30, 60, parts=[(0, 10), (1, 20)]), 60, 0, 0, 60, 10)
        self.assertEqual((widths(drawn, "g0"), widths(drawn, "g1")), ([10.0], [20.0]))

    def test_hostile_names(self):
        drawn = bar(Row("<b>&", 0, 1, 2), 2, 0, 0, 9, 9)
        ElementTree.fromstring(drawn)
        self.assertIn("&lt;b&gt;&amp;", drawn)

    def test_limit(self):
        self.assertEqual(limit_of([Row("A", 0, 10, 50), Row("B", 0, 2, 80)]), 80)
        # a capacity far above every load
        self.assertEqual(limit_of([Row("A", 0, 10, 50), Row("L", 0, 2, MOST)]), 20)
        self.assertEqual(limit_of([]), 1)
        self.assertEqual(limit_of([Row("A", 0, 0, 0)]), 1)

    def test_chosen(self):
        rows = [Row(name, 0, load, 10) for name, load in (("r", 1), ("a", 9), ("b", 2), ("c", 10))]
        self.assertEqual([row.name for row in chosen(rows, 3)], ["r", "a", "c"])
        self.assertEqual([row.name for row in chosen(rows, 1)], ["r"])
        self.assertEqual(chosen(rows, 9), rows)


class Trees(unittest.TestCase):
    """However long names and numbers are, no word stands on another one or on a bar."""

    def rows(self):
        for depth in range(8):
            for name in ("A", "W" * 32, "a-name-of-32-letters-as-of-a-pool"[:32]):
                for load, capacity in ((0, 0), (281_474_976_710_655, MOST), (999_999, 999_999)):
                    yield Row(name, depth, load, capacity, "refuses " + "WWWW, " * 60)

    def test_room(self):
        for width in (600, 1000):
            rows = list(self.rows())
            columns = Columns.of(rows, width)
            canvas = Canvas(width)
            draw_rows(canvas, rows, limit_of(rows), columns)
            whole = ElementTree.fromstring(canvas.whole())
            space = "{http://www.w3.org/2000/svg}"
            self.assertGreater(columns.words, columns.numbers)
            for text in whole.iter(f"{space}text"):
                wide, x = width_of(text.text), float(text.get("x"))
                if text.get("text-anchor") == "end":
                    # numbers begin behind the bars
                    self.assertGreaterEqual(x - wide, columns.bars + columns.bar_width, text.text)
                elif x < columns.bars:
                    self.assertLessEqual(x + min(wide, width_of("…") * 2), columns.bars + 1)
                    if not text.text == "…":
                        self.assertLessEqual(x + wide, columns.bars, text.text)
                else:
                    self.assertLessEqual(x + wide, width, text.text)


class Flows(unittest.TestCase):
    def test_bands(self):
        drawn = draw_flows([Flow("A", "B", 30), Flow("A", "", 10), Flow("", "C", 20)])
        ElementTree.fromstring(drawn)
        heights = {
            name: float(re.search(rf"v([\d.]+)C[^>]*><title>{name}</title>", drawn)[1])
            for name in ("30 from A to B", "10 from A to nowhere", "20 from nowhere to C")
        }
        self.assertAlmostEqual(heights["30 from A to B"], 3 * heights["10 from A to nowhere"], 0)
        self.assertAlmostEqual(
            heights["20 from nowhere to C"], 2 * heights["10 from A to nowhere"], 0
        )
        self.assertEqual(drawn.count('class="band lost"'), 1)
        self.assertEqual(draw_flows([]), "")

    def test_room_of_words(self):
        """However few units go, no word stands on another one."""
        flows = [Flow("a", "z", 10**9)] + [Flow(f"s{n}", f"t{n}", 1) for n in range(20)]
        drawn = draw_flows(flows)
        words = re.findall(r'<text x="([\d.]+)" y="([\d.]+)"', drawn)
        self.assertEqual(len(words), 24)
        for side in {x for x, _ in words}:
            heights = sorted(float(y) for x, y in words if x == side)
            self.assertGreaterEqual(min(b - a for a, b in zip(heights, heights[1:])), 12)
        height = float(re.search(r'viewBox="0 0 900 (\d+)"', drawn)[1])
        self.assertLessEqual(max(float(y) for _, y in words), height)

    def test_merged(self):
        flows = [Flow(f"s{n}", f"t{n % 2}", 100 - n) for n in range(40)] + [Flow("s0", "", 1)]
        found = merged(flows, 5)
        self.assertEqual(sum(flow.units for flow in found), sum(flow.units for flow in flows))
        self.assertEqual({flow.source for flow in found}, {"s0", "s1", "s2", "s3", drawing.OTHERS})
        self.assertEqual({flow.target for flow in found}, {"t0", "t1", ""})
        self.assertEqual(len(merged(flows[:5], 5)), 5)

    def test_hostile_names(self):
        drawn = draw_flows([Flow("<script>", '"&', 5)])
        ElementTree.fromstring(drawn)
        self.assertNotIn("<script>", drawn)


class Charts(unittest.TestCase):
    def lines(self, drawn, number):
        return re.findall(rf'<path class="s{number}" d="([^"]*)"', drawn)

    def test_a_line(self):
        pairs = [(0.0, 0.0), (50.0, 10.0), (100.0, 5.0)]
        drawn = draw_chart({"": pairs}, 0, 9600, width=170, height=130)
        ElementTree.fromstring(drawn)
        # 100 wide for 9,600 seconds from 64 on; 0 is at 106, and 10 at 6
        (line,) = self.lines(drawn, 0)
        self.assertEqual(line, "M64.0 106.0L64.5 6.0L65.0 56.0")
        self.assertIn("it is 5 now, at most 10", drawn)

    def test_gaps(self):
        drawn = draw_chart({"a": [(0.0, 1.0), (100.0, 1.0), (5000.0, 1.0)]}, 0, 9600)
        self.assertEqual(re.sub(r"[\d. ]", "", self.lines(drawn, 0)[0]), "MLM")

    def test_many(self):
        drawn = draw_chart({f"h{n}": [(0.0, float(n))] for n in range(20)}, 0, 100)
        self.assertEqual([len(self.lines(drawn, n)) for n in range(8)], [1] * 6 + [0, 0])
        self.assertEqual(draw_chart({}, 0, 100).count("<path"), 3)

    def test_hostile_names(self):
        ElementTree.fromstring(draw_chart({'"<&': [(0.0, 1.0)]}, 0, 100))


def luminance(colour):
    parts = [int(colour[at : at + 2], 16) / 255 for at in (1, 3, 5)]
    linear = [p / 12.92 if p <= 0.03928 else ((p + 0.055) / 1.055) ** 2.4 for p in parts]
    return 0.2126 * linear[0] + 0.7152 * linear[1] + 0.0722 * linear[2]


def contrast(one, other):
    high, low = sorted((luminance(one), luminance(other)), reverse=True)
    return (high + 0.05) / (low + 0.05)


class Colours(unittest.TestCase):
    def test_contrast(self):
        """WCAG 2.1, AA: 4.5 for words (1.4.3), 3 for marks (1.4.11), by light and by dark."""
        self.assertAlmostEqual(contrast("#ffffff", "#000000"), 21)
        for which in (0, 1):
            grounds = [drawing.COLOURS[name][which] for name in ("ground", "shade")]
            for ground in grounds:
                for name in ("ink", "grey", "alarm"):
                    with self.subTest(name, ground=ground):
                        self.assertGreaterEqual(contrast(drawing.COLOURS[name][which], ground), 4.5)
                marks = [drawing.COLOURS[name][which] for name in ("free", "full")]
                lines = [drawing.LINES[n][which] for n in ("frame", "break", *drawing.DASHES, "s0")]
                for mark in marks + lines:
                    with self.subTest(mark, ground=ground):
                        self.assertGreaterEqual(contrast(mark, ground), 3)

    def test_told_apart_without_colour(self):
        """Lines of a chart have dashes of their own, and full and unplaced ones patterns of their own."""
        self.assertEqual(len(set(drawing.DASHES.values())), drawing.MOST_LINES - 1)
        for pattern in ("hatch", "dots"):
            self.assertIn(f'id="{pattern}"', drawing.PATTERNS)


if __name__ == "__main__":
    unittest.main()
