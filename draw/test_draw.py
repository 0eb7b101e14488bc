"""Tests of the picture: well-formed whatever bytes come in, and showing what happened, each thing at its place.

The run behind it is the model that tests/model.py holds against the proved program; here the picture is held against the model.
"""

import functools
import random
import re
import sys
import unittest
import xml.etree.ElementTree as ElementTree
from pathlib import Path

import colours
import draw
import layout
import reading
import rounds
import shown
import svg

ROOT = Path(__file__).resolve().parent.parent
sys.path.append(str(ROOT / "tests"))
import generate  # noqa: E402

EXAMPLES = sorted((ROOT / "examples").glob("*.txt"))
SVG = "{http://www.w3.org/2000/svg}"


@functools.cache
def texts():
    """The examples and generated texts of every family, up to 250 lines."""
    found = [path.read_bytes() for path in EXAMPLES] + [generate.text("run", seed, 250) for seed in range(60)]
    return [text for text in found if len(text) <= reading.TEXT_MAX]


@functools.cache
def drawn(text):
    return Picture(text)


class Picture:
    """A drawn picture, and questions to it."""

    def __init__(self, text, name="run.txt", lines=None, benches=None):
        self.root = ElementTree.fromstring(draw.picture(text, name, lines, benches))

    def all(self, kind, layer=None):
        """The elements of a class, those of the legend left out where a layer is named."""
        root = self.root if layer is None else next(g for g in self.root if g.get("class") == layer)
        return [element for element in root.iter() if kind in element.get("class", "").split()]

    def words(self, kind=None):
        return [e.text or "" for e in self.root.iter(SVG + "text") if kind is None or kind in e.get("class").split()]

    def boxes(self, kind):
        """The boxes of words, by the widths that the layout counts with."""
        for element in self.all(kind, "labels"):
            if element.tag == SVG + "text":
                x, y, size = (float(element.get(key)) for key in ("x", "y", "font-size"))
                yield element.text, x, y - 0.72 * size, x + svg.text_width(element.text, size, 0.5), y + 0.2 * size

    def ways(self):
        """The straight pieces of every arrow, as boxes without thickness."""
        for path in self.all("arrow", "arrows"):
            x = y = None
            for letter, numbers in re.findall(r"([MHVQ])([^MHVQ]*)", path.get("d")):
                at = [float(n) for n in re.findall(r"-?[\d.]+", numbers)]
                new_x, new_y = (at[0], y) if letter == "H" else (x, at[0]) if letter == "V" else (at[-2], at[-1])
                if x is not None:
                    yield min(x, new_x), min(y, new_y), max(x, new_x), max(y, new_y)
                x, y = new_x, new_y


class ContentTest(unittest.TestCase):
    """What stands in the pictures."""

    def test_any_bytes_and_names_are_well_formed(self):
        for seed in range(60):
            Picture(random.Random(seed).randbytes(seed * 40))
        for text in texts():
            drawn(text)
        for name in ("", ".txt", "<&\">.txt", "\udcff\x01.txt", "x" * 300):
            Picture(b"step=turn bench=1", name)

    def test_an_arrow_with_a_tip_and_a_round_for_each_message_taken(self):
        for text in texts():
            picture, taken = drawn(text), [line.taken for line in rounds.play(text).lines if line.taken]
            groups = [g for g in picture.root.iter(SVG + "g") if any("arrow" in e.get("class", "").split() for e in g)]
            self.assertEqual(len(picture.all("arrow", "arrows")), len(taken))
            for message, group in zip(taken, [g for g in groups if g.find(SVG + "title") is not None], strict=True):
                self.assertIn(f"from bench {message.sender}, sent in line {message.line}.", group.find(SVG + "title").text)
                self.assertEqual(group.find(SVG + "text").text, f"r{message.round}" if message.round else "OUT")

    def test_every_mark_has_a_tip(self):
        for text in texts():
            picture, run = drawn(text), rounds.play(text)
            for layer in ("arrows", "marks", "threads"):
                for mark in next(g for g in picture.root if g.get("class") == layer):
                    self.assertTrue(mark.find(SVG + "title").text, layer)
            marked = [line for line in run.lines if line.answer == 0 and line.step.kind != "arrive"]
            tips = [tip.text for g in picture.root if g.get("class") == "marks" for tip in g.iter(SVG + "title")]
            for line in marked:
                self.assertTrue(any(tip.startswith(f"line {line.number}: ") for tip in tips), line)

    def test_messages_that_nobody_took_have_stubs_with_their_receivers(self):
        for text in texts():
            run, expected = rounds.Run(), []
            done = [line for line in rounds.play(text).lines if line.answer == 0]
            lanes = {bench for line in done for bench in {line.step.bench, *(line.sent.world if line.sent else ())}}
            open_lines = {}  # message to the benches that could take it and have not
            for line in run.play(text):
                if line.sent:
                    open_lines[line.sent] = {b for b in lanes - {line.sent.sender} if run.benches[b].state in rounds.TAKING}
                if line.taken:
                    open_lines[line.taken].discard(line.step.bench)
            for message, benches in open_lines.items():
                lost = {b for b in benches if message.sender in run.benches[b].noticed}
                expected += [f"not taken by {shown.world_text(benches - lost)}"] if benches - lost else []
                expected += [f"lost to {shown.world_text(lost)}"] if lost else []
            self.assertEqual([w for w in drawn(text).words("label") if re.match("not taken by|lost to", w)], expected)

    def test_whole_lines_in_their_order_refused_ones_at_their_place(self):
        for text in texts():
            picture, run = drawn(text), rounds.play(text)
            sources = picture.all("source", "column")
            heights = [float(e.get("y")) for e in sources]
            self.assertEqual(heights, sorted(heights))
            numbers = [e.text for e in picture.all("number", "column")]
            covered = [n for number in numbers for n in range(int(number.split("\u2013")[0]), int(number.split("\u2013")[-1]) + 1)]
            self.assertEqual(covered, [line.number for line in run.lines])
            for number, source in zip(numbers, sources, strict=True):
                line = run.lines[int(number.split("\u2013")[0]) - 1]
                if line.answer == 0:
                    self.assertEqual(source.text, line.text.decode())
                self.assertEqual("refused" in source.get("class") or "faded" in source.get("class"), line.answer != 0)

    def test_who_is_awaited_at_a_refused_turn(self):
        text = b"\n".join(b"step=start bench=%d value=1 world=1,2,3,4" % b for b in (1, 2)) + b"\nstep=turn bench=1"
        picture = Picture(text)
        self.assertEqual(len(picture.all("ask", "marks")), 3)
        self.assertIn("awaits 2,3,4", picture.words("refused"))
        self.assertIn("refused 11: a member is awaited", picture.words("reason"))

    def test_repeated_refusals_are_grouped(self):
        picture = Picture(b"step=turn bench=1\n" * 300)
        self.assertIn("step=turn bench=1  \u00d7300", picture.words("source"))
        self.assertEqual(picture.words("number"), ["1\u2013300"])
        mixed = b"".join(b"step=turn bench=%d\n" % (1 + i % 16) for i in range(300))
        picture = Picture(mixed)
        self.assertEqual(len(picture.words("number")), layout.SHOWN_FIRST + 1)
        self.assertIn(f"{300 - layout.SHOWN_FIRST} more lines refused: {300 - layout.SHOWN_FIRST} with 3", picture.words("source"))
        self.assertEqual(Picture(b"\n" * reading.TEXT_MAX).words("number"), [f"1\u2013{reading.TEXT_MAX}"])

    def test_the_legend_is_on_top(self):
        for text in texts():
            picture = drawn(text)
            keys = [float(e.get("y")) for e in picture.all("key")]
            rows = [float(e.get("y")) for e in picture.all("number")]
            if keys and rows:
                self.assertLess(max(keys), min(rows))

    def test_a_text_too_long(self):
        self.assertIn("Refused with 23: the text is longer than 65,536 bytes.", Picture(b"\n" * (reading.TEXT_MAX + 1)).words())

    def test_no_text_and_nothing_done(self):
        self.assertIn("The text has no line.", Picture(b"").words())
        words = Picture(b"step=turn  bench=1\n\n").words()
        self.assertIn("step=turn\u2423\u2423bench=1", words)
        self.assertIn("malformed (20): more than one space stands between two keys", words)
        self.assertIn("(empty line)", words)

    def test_lid_shut(self):
        words = Picture((ROOT / "examples/05-lid-shut.txt").read_bytes(), "05-lid-shut.txt").words()
        for expected in ("Lid shut", "r2 v3 {1,2,3}", "r2 v7 {1,2}", "r3 v3 {1,2}", "fails", "notices 3, r1 lost", "lost to 2", "bench 3", "decided",
                         "value 3"):
            self.assertIn(expected, words)
        self.assertEqual(words.count("decides"), 2)


class GeometryTest(unittest.TestCase):
    """No arrow meets a label; no two labels or lane names meet."""

    def test_labels_are_not_crossed(self):
        crossed = 0
        for text in texts():
            picture = drawn(text)
            labels, ways = list(picture.boxes("label")), list(picture.ways())
            for words, left, top, right, bottom in labels:
                for x1, y1, x2, y2 in ways:
                    if x1 < right and x2 > left and y1 < bottom and y2 > top:
                        self.fail(f"an arrow crosses '{words}'")
            crossed += len(labels) * len(ways)
        self.assertGreater(crossed, 10000)

    def test_labels_do_not_meet(self):
        for text in texts():
            picture = drawn(text)
            boxes = sorted(picture.boxes("label"), key=lambda box: box[2])
            for i, (words, left, top, right, bottom) in enumerate(boxes):
                for other, left2, top2, right2, bottom2 in boxes[i + 1:i + 6]:
                    self.assertFalse(left < right2 and left2 < right and top < bottom2 and top2 < bottom, (words, other))
            names = [(float(e.get("x")), float(e.get("y")), float(e.get("width"))) for e in picture.all("chip")]
            for (x1, y1, width), (x2, y2, _) in zip(names, names[1:]):
                self.assertFalse(y1 == y2 and x1 < x2 < x1 + width)


class ColoursTest(unittest.TestCase):
    def test_no_colour_twice_in_a_run(self):
        for theme in ("light", "dark"):
            self.assertEqual(len(set(colours.of_rounds(rounds.ROUND_MAX, theme))), rounds.ROUND_MAX)

    def test_colours_can_be_read(self):
        self.assertAlmostEqual(colours.contrast("#000000", "#ffffff"), 21)
        for theme, palette in (("light", colours.LIGHT), ("dark", colours.DARK)):
            for colour in [*colours.of_rounds(rounds.ROUND_MAX, theme), palette["ink"], palette["quiet"], palette["loss"]]:
                self.assertGreater(colours.contrast(colour, palette["paper"]), 4.5, (theme, colour))


class PartsTest(unittest.TestCase):
    """--lines and --benches."""

    def test_a_range_of_lines(self):
        text = (ROOT / "examples/05-lid-shut.txt").read_bytes()
        picture = Picture(text, lines=(9, 14))
        self.assertEqual(picture.words("number"), [str(n) for n in range(9, 15)])
        self.assertEqual(len(picture.all("arrow", "arrows")), 2)
        self.assertEqual(picture.words("strong"), ["running", "running", "failed"])
        self.assertEqual(sorted(e.text for e in picture.all("in", "marks")), ["1", "1", "2", "2", "3"])  # the first two: where the lanes come in
        self.assertIn("round 3", picture.words("foot"))
        self.assertNotIn("decides", picture.words())
        self.assertEqual(Picture(text, lines=(5, 5)).words("number"), ["5"])

    def test_a_choice_of_benches(self):
        text = (ROOT / "examples/05-lid-shut.txt").read_bytes()
        picture = Picture(text, benches={1, 3})
        self.assertEqual(picture.words("head"), ["bench 1", "bench 3"])
        steps = [line.step.bench for line in rounds.play(text).lines if str(line.number) in picture.words("number")]
        self.assertEqual(set(steps), {1, 3})
        self.assertIn("r1 from 2", picture.words("tag"))
        none = Picture(text, benches={9})
        self.assertCountEqual(none.words(), ["Run", "run.txt: 19 lines, none refused; shown: bench 9 alone. Time runs down, a row for each line.",
                                             "No line shown is a step of these benches."])

    def test_every_part_can_be_drawn(self):
        for seed in range(40):
            text = generate.text("run", seed, 120, "deep")
            count, rng = len(reading.split(text)), random.Random(seed)
            first = rng.randint(1, count)
            Picture(text, lines=(first, rng.randint(first, count + 5)), benches=rng.choice([None, set(rng.sample(range(1, 17), 3))]))

    def test_words(self):
        self.assertEqual([draw.line_range(w) for w in ("5-9", "5-", "5")], [(5, 9), (5, reading.TEXT_MAX), (5, 5)])
        self.assertEqual(draw.bench_set("1,16"), {1, 16})
        for wrong in ("", "0-3", "9-5", "a", "5-9-11", "-4", "\u0665"):
            with self.assertRaises(draw.calling.Failure):
                draw.line_range(wrong)
        for wrong in ("", "0", "17", "1,,2", "1;2", "01"):
            with self.assertRaises(draw.calling.Failure):
                draw.bench_set(wrong)
        with self.assertRaises(draw.calling.Failure):
            Picture(b"step=turn bench=1\n", lines=(2, 3))


class ShownTest(unittest.TestCase):
    def test_worlds(self):
        self.assertEqual(shown.world_text({1, 2, 3}), "1,2,3")
        self.assertEqual(shown.world_text(range(1, 17)), "1-16")
        self.assertEqual(shown.world_text({1, 3, 4, 5, 6, 16}), "1,3-6,16")

    def test_meanings_come_from_the_page(self):
        meanings = shown.meanings()
        self.assertEqual(sorted(meanings)[:26], list(range(26)))
        self.assertEqual(meanings[11], "a member is awaited")

    def test_the_pictures_in_the_docs_are_these(self):
        for name in ("08-first-morning", "09-early-leaver"):
            made = draw.picture((ROOT / f"examples/{name}.txt").read_bytes(), f"{name}.txt")
            self.assertEqual((ROOT / f"docs/{name[3:]}.svg").read_text(), made)


if __name__ == "__main__":
    unittest.main()
