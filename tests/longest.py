#!/usr/bin/env python3
"""Plays longest runs of 1 to 16 benches on both programs: how far rounds come (docs/ROUNDS.md), and that retiring refusal 12 changed no report.

Each run is made to last: lids shut in pairs, so that two failures cost three rounds. It must be done step by step, go as far as ROUNDS.md says and no
further, and be told the same by the second program. The report of the longest, 16 benches to round 24, must be the one that the program printed
while document 01's limit on rounds stood: its SHA-256 is kept here.

    longest.py          plays them
    longest.py --text N prints the run text of N benches
"""

import argparse
import hashlib
import re
import subprocess
import tempfile

import programs

BENCHES = 16
BEFORE = "f3d1c9fe7039caff786a5e97091c2d7b57044eff6c2371c99346f7671d358afc"  # of 16 benches, as version 2.1.0 printed it


class Steps:
    """The lines of a run text; benches are lists in rising number."""

    def __init__(self):
        self.lines = []

    def start(self, benches):
        """All start together; the first proposes less than the others."""
        world = ",".join(map(str, benches))
        for bench in benches:
            self.lines.append(f"step=start bench={bench} value={0 if bench == benches[0] else 1} world={world}")

    def turn(self, bench, heard, missed=()):
        """The bench takes a message of each that it hears, notices each that it misses, and turns."""
        self.lines += [f"step=notice bench={bench} from={other}" for other in missed]
        self.lines += [f"step=arrive bench={bench} from={other}" for other in heard if other != bench]
        self.lines.append(f"step=turn bench={bench}")

    def fail(self, bench):
        self.lines.append(f"step=fail bench={bench}")

    def text(self):
        return "".join(line + "\n" for line in self.lines).encode()


def without(benches, *gone):
    return [bench for bench in benches if bench not in gone]


def pair(steps, benches):
    """All have sent the same in this round. Three rounds later they have again, and the first two have failed."""
    x, y, i, *others = benches
    steps.turn(x, benches)  # decides
    steps.fail(x)
    steps.turn(y, without(benches, x), [x])
    steps.fail(y)
    steps.turn(i, without(benches, y), [y])
    for bench in others:
        steps.turn(bench, without(benches, x), [x])
    # the world of i has x, that of the others has y: neither is within the other
    steps.turn(i, others, [x])
    for bench in others:
        steps.turn(bench, without(benches, x))
    # the others still have y in their worlds, which i has not
    steps.turn(i, others)
    for bench in others:
        steps.turn(bench, without(benches, x, y), [y])
    return without(benches, x, y)


def odd_one(steps, benches):
    """From round 1 to round 4, in which all have sent the same, and the first has failed in round 2."""
    x, k, *others = benches
    steps.turn(x, benches)
    steps.fail(x)
    steps.turn(k, others, [x])
    for bench in others:
        steps.turn(bench, benches)
    steps.turn(k, others)  # its value is another
    for bench in others:
        steps.turn(bench, benches)
    steps.turn(k, others)  # their worlds still have x
    for bench in others:
        steps.turn(bench, without(benches, x), [x])
    return without(benches, x)


def longest(n):
    """The text of a longest run of n benches."""
    steps, benches = Steps(), list(range(1, n + 1))
    steps.start(benches)
    if n % 2:
        benches = odd_one(steps, benches) if n > 1 else benches
    else:
        for bench in benches:
            steps.turn(bench, benches)
    while len(benches) > 2:
        benches = pair(steps, benches)
    if len(benches) == 2:
        steps.turn(benches[0], benches)  # decides
        steps.fail(benches[0])
        steps.turn(benches[1], [], [benches[0]])
    steps.turn(benches[-1], [])
    return steps.text()


def played(words, text):
    return subprocess.run(words, input=text, capture_output=True, check=True).stdout


def play_all(second):
    run = programs.proved("run")
    for n in range(1, BENCHES + 1):
        text = longest(n)
        report = played(run, text)
        refused = re.findall(rb"^line=(\d+) answer=([1-9]\d*)$", report, re.M)
        if refused:
            programs.stop(f"{n} benches: line {refused[0][0].decode()} is answered {refused[0][1].decode()}")
        last = max(int(number) for number in re.findall(rb" round=(\d+) ", report))
        wanted = (3 * n + 1) // 2 if n > 1 else 1
        if last != wanted:
            programs.stop(f"{n} benches come to round {last}, and not to {wanted}")
        if played([second, "run"], text) != report:
            programs.stop(f"{n} benches: the second program prints another report")
    if hashlib.sha256(report).hexdigest() != BEFORE:
        programs.stop(f"{n} benches: the report is not the one of version 2.1.0")
    print(f"longest: 1 to {BENCHES} benches, {BENCHES} to round {last} in {len(text)} bytes; every step is done, and that report is as it was")


def main():
    parser = argparse.ArgumentParser(description=__doc__, formatter_class=argparse.RawDescriptionHelpFormatter)
    parser.add_argument("--text", type=int, metavar="N", choices=range(1, BENCHES + 1))
    options = parser.parse_args()
    if options.text:
        print(longest(options.text).decode(), end="")
        return 0
    with tempfile.TemporaryDirectory() as folder:
        play_all(programs.second(folder))
    return 0


if __name__ == "__main__":
    programs.finish(main)
