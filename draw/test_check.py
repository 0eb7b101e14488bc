"""Tests of check: what it says of malformed and refused lines, what --fix changes, and how the commands of this folder end."""

import os
import random
import re
import signal
import subprocess
import sys
import tempfile
import time
import unittest
from pathlib import Path

import check
import faults
import mend
import reading
import shown
import why

HERE = Path(__file__).resolve().parent
EXAMPLES = sorted((HERE.parent / "examples").glob("*.txt"))
START = b"step=start bench=1 value=9 world=1,2"

# a malformed line, the place of the caret, words of the reason, the nearest line (None: left out), and whether it is beyond doubt
CASES = (
    (b"", 0, "empty", None, True),
    (b"   ", 0, "nothing but spaces", None, True),
    (b"# a comment", 0, "comment", None, True),
    (b"// a comment", 0, "comment", None, True),
    (b"\xef\xbb\xbfstep=turn bench=1", 0, "byte order mark", b"step=turn bench=1", True),
    (b"step=turn bench=1\r", 17, "carriage return stands before the line's end", b"step=turn bench=1", True),
    (b"step=turn bench=1 ", 17, "1 space at the end", b"step=turn bench=1", True),
    (b"  step=turn bench=1", 0, "2 spaces before the first key", b"step=turn bench=1", True),
    (b"step=turn  bench=1", 10, "more than one space", b"step=turn bench=1", True),
    (b"step=turn\tbench=1", 9, "a tab", b"step=turn bench=1", True),
    (b"step=turn bench=1\xc2\xa0", 17, "no-break space", b"step=turn bench=1", True),
    (b"step=turn bench =1", 15, "before the equals sign", b"step=turn bench=1", True),
    (b"step=turn bench= 1", 16, "behind the equals sign", b"step=turn bench=1", True),
    (b"step=turn bench:1", 15, "an equals sign belongs behind 'bench'", b"step=turn bench=1", True),
    (b"STEP=turn bench=1", 0, "upper case", b"step=turn bench=1", True),
    (b"step=Turn bench=1", 5, "upper case", b"step=turn bench=1", True),
    (b"step=turn BENCH=1", 10, "upper case", b"step=turn bench=1", True),
    (b"turn bench=1", 0, "'step=' is missing before 'turn'", b"step=turn bench=1", True),
    (b"step=turn bench=1 # go", 17, "comment", b"step=turn bench=1", True),
    (b"step=turn bench=01", 16, "'01' has a leading zero", b"step=turn bench=1", True),
    (b"step=turn bench=+1", 16, "a sign", b"step=turn bench=1", True),
    (b"step=trun bench=1", 5, "a slip of 'turn'?", b"step=turn bench=1", True),
    (b"step=turn bnech=1", 10, "misspelt 'bench'", b"step=turn bench=1", True),
    (b"bench=1 step=turn", 0, "'step=' belongs before 'bench='", b"step=turn bench=1", True),
    (b"step=arrive from=2 bench=1", 12, "'bench=' belongs before 'from='", b"step=arrive bench=1 from=2", True),
    (b"step=start bench=1 world=1,2 value=9", 19, "'value=' belongs before 'world='", START, True),
    (b"step=start bench=1 value=9 world=1, 2", 35, "behind the comma", START, True),
    (b"step=start bench=1 value=9 world=2,1", 35, "1 stands behind 2", START, True),
    (b"step=start bench=1 value=9 world=1;2", 34, "where a comma belongs", START, True),
    (b"step=start bench=1 value=9 world={1,2}", 33, "where a number belongs", START, True),
    (b"step=start bench=1 value=9 world=1-2", 34, "a range", START, True),
    (b"step=start bench=1 value=9 world=1,2,2", 37, "bench 2 stands twice", START, False),
    (b"step=start bench=1 value=9 world=1,2,", 37, "no bench stands behind the comma", START, False),
    (b"step=start bench=1 value=9 world=1,2,17", 37, "'17' is no bench", START, False),
    (b"step=start bench=1 value=9 world=0,1,2", 33, "'0' is no bench", START, False),
    (b"step=start bench=1 value=9 world=1 2", 34, "a space stands where a comma belongs", START, False),
    (b"step=start bench=1 value=9 world=", 33, "the world is empty", b"step=start bench=1 value=9 world=1", False),
    (b"step=start bench=1 value=9", 26, "'world=' is missing", b"step=start bench=1 value=9 world=1", False),
    (b"step=start bench=1 world=1,2", 19, "'value=' is missing before", b"step=start bench=1 value=0 world=1,2", False),
    (b"step=start bench=1 value=100000 world=1,2", 25, "6 digits", b"step=start bench=1 value=65535 world=1,2", False),
    (b"step=start bench=1 value= world=1,2", 25, "'value=' has no number", b"step=start bench=1 value=0 world=1,2", False),
    (b"step=turn bench=-1", 16, "a sign", b"step=turn bench=1", False),
    (b"step=turn bench=1 from=2", 17, "'from=2' is one key too many", b"step=turn bench=1", False),
    (b"step=arrive bench=1", 19, "'from=' is missing", b"step=arrive bench=1 from=2", False),
)
# lines that no right line is near
FAR = (b"step=", b"step=stop bench=1", b"hello", b"x" * 9000, b"\x80\xff\x00", b"===", b"join sender=1")


class FaultsTest(unittest.TestCase):
    """Each usual mistake, its place, its reason and the nearest right line."""

    def test_cases(self):
        for line, at, words, nearest, certain in CASES:
            with self.subTest(line=line):
                fault = reading.read(line)
                self.assertIsInstance(fault, reading.Fault)
                self.assertEqual(fault.at, at)
                self.assertIn(words, faults.reason(line, fault))
                self.assertEqual(mend.mend(line), mend.Mended(() if nearest is None else (nearest,), certain))

    def test_lines_that_nothing_is_near(self):
        for line in FAR:
            with self.subTest(line=line[:30]):
                self.assertIsInstance(reading.read(line), reading.Fault)
                self.assertIsNone(mend.mend(line))

    def test_several_steps_on_one_line(self):
        both = (b"step=turn bench=1", b"step=turn bench=2")
        for line in (b" ".join(both), b"\r".join(both)):
            self.assertEqual(mend.mend(line), mend.Mended(both, True))
        self.assertEqual(mend.fix(b"\r".join(both * 1500)).text, b"\n".join(both * 1500))

    def test_any_bytes_have_a_reason_and_a_right_nearest_line(self):
        rng = random.Random(1)
        for _ in range(3000):
            line = bytearray(rng.choice(CASES)[0] or b"step=turn bench=1")
            for _ in range(rng.randint(1, 6)):
                at = rng.randrange(len(line) + 1)
                line[at:at + rng.randrange(3)] = rng.choice([b"", rng.randbytes(1), b" ", b"=", b"1", b",", b"step="])
            line = bytes(line).replace(b"\n", b"")
            fault = reading.read(line)
            if isinstance(fault, reading.Fault):
                self.assertTrue(faults.reason(line, fault))
                self.assertLessEqual(fault.at, len(line))
                for right in (mend.mend(line) or mend.Mended((), True)).lines:
                    self.assertIsInstance(reading.read(right), reading.Step)

    def test_caret(self):
        for line, at, *_ in CASES:
            shown_line, caret = shown.with_caret(line, at, 100)
            self.assertEqual(caret, " " * len("".join(piece for place, piece in shown.letters(line) if place < at)) + "^")
        long = b"step=start bench=1 value=1 world=1" + b",2" * 400 + b"x" * 4000
        shown_line, caret = shown.with_caret(long, 35, 60)
        self.assertEqual((shown_line[caret.index("^")], len(shown_line)), ("2", 60))
        shown_line, caret = shown.with_caret(long, 834, 60)
        self.assertEqual(shown_line[caret.index("^") - 2:caret.index("^") + 1], ",2x")


def harmless(rng, step):
    """A step's line, written in one of the ways whose meaning is not in doubt."""
    fields = reading.spell(step).split(" ")
    if rng.random() < 0.3:
        rng.shuffle(fields)
    pairs = [field.split("=") for field in fields]
    for pair in pairs:
        if pair[0] == "world" and rng.random() < 0.5:
            members = [rng.choice(["", "0"]) + m for m in pair[1].split(",")]
            rng.shuffle(members)
            pair[1] = rng.choice([",", ", ", ";", " ,"]).join(members)
        elif pair[1].isdigit() and rng.random() < 0.3:
            pair[1] = "0" * rng.randint(1, 5) + pair[1]
    line = rng.choice([" ", "  ", "\t", " \t ", "\u00a0"]).join(rng.choice(["=", " =", "= ", ":"]).join(pair) for pair in pairs)
    line = rng.choice([line, line.upper(), line.title()])
    return rng.choice(["", " ", "\t"]) + line + rng.choice(["", " ", "\r", "  # and so on", " \t\r"])


class FixTest(unittest.TestCase):
    """What --fix changes, and what it leaves."""

    def damaged(self, rng, text):
        """The text damaged without harm to its meaning, with lines put in that mean nothing."""
        lines = []
        for line in reading.split(text):
            lines += rng.choice([[], [], [""], ["# a note"], ["\r"]])
            lines.append(harmless(rng, reading.read(line)))
        return rng.choice(["", "\ufeff"]) + "\n".join(lines) + "\n"

    def test_harmless_damage_is_mended(self):
        for seed in range(12):
            rng = random.Random(seed)
            for path in EXAMPLES:
                text = path.read_bytes()
                with self.subTest(seed=seed, path=path.name):
                    damaged = self.damaged(rng, text)
                    for code in ("utf-8", "utf-16", "utf-16-le", "utf-16-be"):
                        fixed = mend.fix(damaged.encode(code))
                        self.assertEqual((fixed.text, fixed.left), (text, []))

    def test_zeros_are_no_utf_16(self):
        for text in (b"\0" * 9000, b"\0\0\1" * 100, b"step=turn bench=1\n" * 9 + b"\0"):
            self.assertEqual(mend.decoded(text), text)

    def test_right_lines_and_doubtful_ones_stay(self):
        doubtful = [case[0] for case in CASES if not case[4]] + list(FAR)
        right = [line for path in EXAMPLES for line in reading.split(path.read_bytes())]
        for text in (b"\n".join(doubtful), b"\n".join(right), b"\n".join(right) + b"\n", b""):
            fixed = mend.fix(text)
            self.assertEqual((fixed.text, fixed.changed), (text, {}))
        self.assertEqual(mend.fix(b"\n".join(doubtful)).left, list(range(1, len(doubtful) + 1)))


class RefusalsTest(unittest.TestCase):
    """What is said of refused steps."""

    def told(self, *lines):
        run = why.explained("\n".join(lines).encode())
        self.assertNotEqual(run.lines[-1].answer, 0)
        return run.lines[-1].answer, " ".join(run.lines[-1].why.words), run.lines[-1].why

    def test_awaited_for_four_reasons(self):
        start = "step=start bench={} value=9 world=1,2,3,4,5"
        number, words, told = self.told(*(start.format(b) for b in (1, 2, 3)), "step=fail bench=4", "step=turn bench=1")
        self.assertEqual(number, 11)
        for expected in ("in round 1 with the world 1-5", "benches 2,3: r1 v9 {1-5} waits on the line",
                         "bench 4: failed in line 4, and not noticed yet", "bench 5: fresh"):
            self.assertIn(expected, words)
        self.assertEqual((told.enough, told.benches), (False, (2, 3, 4, 5)))
        one = ["step=start bench=1 value=9 world=1,2", "step=start bench=2 value=8 world=1,2", "step=arrive bench=1 from=2", "step=turn bench=1"]
        number, words, told = self.told(*one, "step=turn bench=1")
        self.assertIn("bench 2: still in round 1, and round 2 not yet sent; awaiting bench 1 there", words)
        number, words, told = self.told(*one, "step=arrive bench=2 from=1", "step=turn bench=1")
        self.assertIn("able to turn now", words)
        self.assertEqual((told.before, told.enough), (("step=turn bench=2", "step=arrive bench=1 from=2"), True))

    def test_who_is_lacked_and_who_started_without(self):
        one = "step=start bench=1 value=9 world=1,2"
        number, words, told = self.told(one, "step=start bench=2 value=9 world=2")
        self.assertEqual((number, told.benches, told.instead), (6, (1,), "step=start bench=2 value=9 world=1,2"))
        number, words, told = self.told(one, "step=start bench=3 value=9 world=1,2,3")
        self.assertEqual((number, told.benches, told.instead), (7, (1,), "step=abstain bench=3"))
        self.assertIn("Bench 1 started in line 1 with the world 1,2, which lacks bench 3", words)

    def test_alike_lines_are_told_once(self):
        text = b"\n" * 4 + b"step=turn bench=1\n" * 300 + b"\n"
        told = check.report(why.explained(text), text)
        self.assertEqual(re.findall("^lines? .+:", told, re.M), [
            "lines 1 to 4 are each malformed (20):", "lines 5 to 304 are each refused (3):", "line 305 is malformed (20):"])
        self.assertIn("line 305 is malformed (20): as in line 1\n", told)
        self.assertTrue(told.endswith("may come of that.\n305 lines: 0 done, 300 refused, 5 malformed; --fix can mend 5 of them\n"))


class DocsTest(unittest.TestCase):
    """docs/LOOKING.md shows what the commands print."""

    def test_what_is_quoted(self):
        page = (HERE.parent / "docs" / "LOOKING.md").read_text()
        quoted = re.findall(r"^    \$ (.+)\n((?:(?:    .*)?\n)+?)(?=\S)", page, re.M)
        self.assertGreaterEqual(len(quoted), 2)
        for command, output in quoted:
            done = subprocess.run(["bash", "-c", command], cwd=HERE.parent, capture_output=True, text=True)
            self.assertEqual(done.stdout, re.sub("^    ", "", output, flags=re.M).rstrip("\n") + "\n")

    def test_commands_that_are_quoted(self):
        page = (HERE.parent / "docs" / "LOOKING.md").read_text()
        with tempfile.TemporaryDirectory() as folder:
            for words in re.findall(r"^    (\./funkenrille .+)$", page, re.M):
                shell = re.sub(r"(> |-o )(\S+)", rf"\1{folder}/\2", words)
                done = subprocess.run(["bash", "-c", shell], cwd=HERE.parent, capture_output=True)
                self.assertEqual((done.returncode, done.stdout, done.stderr), (0, b"", b""), words)
            self.assertEqual(sorted(os.listdir(folder)), ["page.html", "part.svg", "picture.svg", "two-lanes.svg"])


class CommandsTest(unittest.TestCase):
    """How check, draw and page end, whatever their input and output are."""

    NAMES = ("check", "draw", "page")

    def call(self, name, *words, **more):
        more.setdefault("stdin", subprocess.DEVNULL)
        if "input" in more:
            del more["stdin"]
        more = {"stdout": subprocess.PIPE, "stderr": subprocess.PIPE} | more
        return subprocess.run([sys.executable, "-B", str(HERE / f"{name}.py"), *map(str, words)], **more)

    def ends(self, done, status, lines=1):
        """The status, and one line on standard error that is no traceback."""
        self.assertEqual((done.returncode, done.stderr.count(b"\n")), (status, lines), done.stderr)
        self.assertNotIn(b"Traceback", done.stderr)

    def through_shell(self, name, tail):
        command = f'exec "$0" -B "$1" "$2" {tail}'
        return subprocess.run(["bash", "-c", command, sys.executable, str(HERE / f"{name}.py"), str(EXAMPLES[0])], capture_output=True)

    def test_wrong_use_and_files_that_cannot_be_read(self):
        for name in self.NAMES:
            wrong = [["--no-such"], [EXAMPLES[0], EXAMPLES[1]], ["-o"]]
            unread = [["no such file"], [HERE], ["\udcff"]]
            for words, status in [*((words, 2) for words in wrong), *((words, 4) for words in unread)]:
                with self.subTest(name=name, words=words):
                    done = self.call(name, *words)
                    self.ends(done, status)
                    self.assertEqual(done.stdout, b"")
        for words in (["--lines", "9-5"], ["--lines", "99-"], ["--benches", "17"], ["--html", "--lines", "1-2"]):
            self.ends(self.call("draw", *words, EXAMPLES[0]), 2)

    def test_help(self):
        for name in self.NAMES:
            done = self.call(name, "--help")
            self.ends(done, 0, 0)
            self.assertIn(b"FILE", done.stdout)

    def test_too_long(self):
        long = b"\n" * (reading.TEXT_MAX + 1)
        for name in self.NAMES:
            self.ends(self.call(name, input=long), 3)
        with tempfile.NamedTemporaryFile() as file:
            file.write(long)
            file.flush()
            self.ends(self.call("check", "--fix", "-o", file.name, file.name), 3)
            self.assertEqual(Path(file.name).read_bytes(), long)

    def test_input_and_output_that_fail(self):
        for name in self.NAMES:
            with self.subTest(name=name):
                self.ends(self.through_shell(name, ">/dev/full"), 4)
                self.ends(self.through_shell(name, ">&-"), 4)
                self.ends(self.through_shell(name, "2>&-"), 0, 0)
                self.ends(self.through_shell(name, "-o /dev/full"), 4)
                self.ends(self.through_shell(name, "-o /no/such/folder/file"), 4)
                self.ends(self.through_shell(name, "<&- >/dev/null"), 0, 0)
                self.ends(subprocess.run(["bash", "-c", f"'{sys.executable}' -B '{HERE / name}.py' <&-"], capture_output=True), 4)
                piped = subprocess.run(["bash", "-c", f"set -o pipefail; '{sys.executable}' -B '{HERE / name}.py' | true"], input=b"\n" * 60000,
                                       capture_output=True)
                self.assertEqual(piped.stderr, b"")

    def test_interrupted(self):
        for name in self.NAMES:
            pipes = dict.fromkeys(("stdin", "stdout", "stderr"), subprocess.PIPE)
            waits = subprocess.Popen([sys.executable, "-B", str(HERE / f"{name}.py")], **pipes)
            waits.stdin.write(b"step=turn bench=1\n")
            waits.stdin.flush()
            time.sleep(1)
            waits.send_signal(signal.SIGINT)
            self.assertEqual((waits.wait(20), waits.stderr.read(), waits.stdout.read()), (-signal.SIGINT, b"", b""))
            for stream in (waits.stdin, waits.stdout, waits.stderr):
                stream.close()

    def test_standard_input_and_out_file(self):
        for name in self.NAMES:
            with self.subTest(name=name), tempfile.TemporaryDirectory() as folder:
                out = Path(folder) / "out"
                text = EXAMPLES[7].read_bytes()
                made = self.call(name, "-", input=text).stdout
                self.assertTrue(made)
                out.write_bytes(b"old")
                out.chmod(0o640)
                self.ends(self.call(name, "-o", out, input=text), 0, 0)
                self.assertEqual((out.read_bytes(), os.listdir(folder), out.stat().st_mode & 0o777), (made, ["out"], 0o640))

    def test_status_of_check(self):
        self.ends(self.call("check", input=b"step=turn bench=1\n"), 0, 0)
        self.ends(self.call("check", input=b"step=turn bench=1\r\n"), 1, 0)
        self.ends(self.call("check", "--fix", input=b"step=turn bench=1\r\n"), 0)
        self.ends(self.call("check", "--fix", input=b"step=turn\n"), 1)
        self.assertEqual(self.call("check", "--fix", input=b"step=turn bench=1\r\n\nstep=turn").stdout, b"step=turn bench=1\nstep=turn")


if __name__ == "__main__":
    unittest.main()
