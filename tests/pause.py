#!/usr/bin/env python3
"""Holds the run program to W8 (docs/PAUSE.md), on the examples and on generated texts: how far the rounds of a report go after the last fail line that is done.

What has been sent at each line is counted from the text and its answers alone: a start that is done is round 1, each turn that is done one more, but for the
turn that decided. So three things are looked at: every round that is printed is the one counted; none is above r + 2, where r is the highest when the last
failure came, and 1 if nothing had been sent; and that round is reached, after failures and without any.

    pause.py [--lines N] [--first SEED]    N generated lines, 200,000 if nothing is said
"""

import argparse
import collections
import itertools
import re
import subprocess

import generate
import programs

STEP = re.compile(rb"step=(\w+) bench=(\d+)")
ANSWER = re.compile(rb"^line=\d+ answer=(\d+)$", re.M)
BENCH = re.compile(rb"^bench=(\d+) state=\w+ round=(\d+) value=(\w+)$", re.M)
LINES = 3000  # of one text at most


def done(text, report):
    """The steps that are done: the line, the verb, the bench."""
    for at, (line, answer) in enumerate(zip(text.split(b"\n"), ANSWER.findall(report))):
        if answer == b"0":
            verb, bench = STEP.match(line).groups()
            yield at, verb, bench


def sent(text, report):
    """For each bench the lines at which it sent its rounds, and the line of the last failure, -1 if there is none."""
    lines, failure = collections.defaultdict(list), -1
    for at, verb, bench in done(text, report):
        if verb in (b"start", b"turn"):
            lines[bench].append(at)
        elif verb == b"fail":
            failure = at
    for bench, _, value in BENCH.findall(report):
        if value != b"none":
            lines[bench].pop()
    return lines, failure


def texts(first):
    """The examples, then generated texts without end: the name, the text."""
    for example in sorted((programs.TOP / "examples").glob("*.txt")):
        yield example.name, example.read_bytes()
    for seed in itertools.count(first):
        yield f"seed {seed}", generate.text("run", seed, LINES)


def looked_at(name, text, report):
    """Whether anybody failed, r, and the highest round that is printed."""
    lines, failure = sent(text, report)
    printed = {bench: int(last) for bench, last, _ in BENCH.findall(report)}
    for bench, last in printed.items():
        if last != len(lines[bench]):
            programs.stop(f"{name}: round {last} is printed of bench {bench.decode()}, which sent {len(lines[bench])}")
    r = max([1, *(sum(at < failure for at in its) for its in lines.values())])
    highest = max(printed.values(), default=0)
    if highest > r + 2:
        programs.stop(f"{name}: round {highest} was sent, and {r} when the last failure came")
    return failure >= 0, r, highest


def main():
    parser = argparse.ArgumentParser(description=__doc__, formatter_class=argparse.RawDescriptionHelpFormatter)
    parser.add_argument("--lines", type=int, default=200_000)
    parser.add_argument("--first", type=int, default=1)
    options = parser.parse_args()
    run, lines, count, reached = programs.proved("run"), 0, 0, collections.Counter()
    for name, text in texts(options.first):
        report = subprocess.run(run, input=text, capture_output=True, check=True).stdout
        failed, r, highest = looked_at(name, text, report)
        reached[failed, highest - r] += 1
        lines += text.count(b"\n")
        count += 1
        if lines >= options.lines:
            break
    if not reached[True, 2] or not reached[False, 2]:
        programs.stop(f"r + 2 is reached after failures in {reached[True, 2]} texts, and without any in {reached[False, 2]}")
    print(f"pause: {lines} lines of {count} texts; r + 2 is never passed, and reached in {reached[True, 2]} texts after failures and in {reached[False, 2]} without any")
    return 0


if __name__ == "__main__":
    programs.finish(main)
