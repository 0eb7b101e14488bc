#!/usr/bin/env python3
"""Compares the proved programs with the second program on generated texts.

    compare.py [--lines N] [--first SEED] [--kind run|ledger]

Both are given the same texts, made by generate.py from rising seeds, until N lines (1,000,000 if nothing is said) have been compared.
It fails at the first difference, which it shrinks and prints, and if so many lines (ENOUGH of a kind) left out a refusal number that its texts can meet.
"""

import argparse
import collections
import itertools
import multiprocessing
import os
import re
import signal
import subprocess
import tempfile
import time

import generate
import programs

# what a text or a script can be answered; 12 is retired, 21 and 22 have no line in a run text
MUST_MEET = {
    "run": {0, 1, 2, 3, 4, 5, 6, 7, 8, 9, 10, 11, 20, 23},
    "ledger": {0, 1, 13, 14, 15, 16, 17, 18, 19, 20, 22, 23, 24, 25},
}
PROVED = {"run": "run", "ledger": "ledger_run"}
ENOUGH = {"run": 300_000, "ledger": 200_000}
LINES = (3000, 3000, 3000, 3000, 70000)  # of one text at most, in turn: with 70,000 every family is free to do what it likes


class Pair:
    """The two programs of a kind."""

    def __init__(self, kind, ours, second):
        self.kind = kind
        self.ours = ours
        self.other = [second, kind]

    def outputs(self, data):
        ran = [subprocess.run(words, input=data, capture_output=True, check=False) for words in (self.ours, self.other)]
        return [(r.returncode, r.stdout) for r in ran]

    def differs(self, data):
        ours, other = self.outputs(data)
        return ours != other


def shrunk(pair, data):
    """A small text on which the two still differ: lines are left out, then bytes, as long as that changes nothing."""
    for parts in (lambda d: d.splitlines(keepends=True), lambda d: [d[i:i + 1] for i in range(len(d))]):
        pieces = parts(data)
        size = max(1, len(pieces) // 2)
        while True:
            at = 0
            while at < len(pieces):
                fewer = pieces[:at] + pieces[at + size:]
                if fewer and pair.differs(b"".join(fewer)):
                    pieces = fewer
                else:
                    at += size
            if size == 1:
                break
            size //= 2
        data = b"".join(pieces)
        if len(data) > 2000:
            break
    return data


def compared(job):
    """Compares one text: (kind, seed, lines, numbers met, the text if the outputs differ)."""
    pair, seed = job
    kind = pair.kind
    data = generate.text(kind, seed, LINES[seed % len(LINES)])
    ours, other = pair.outputs(data)
    met = set(map(int, re.findall(rb"^line=\d+ answer=(\d+)", ours[1], re.M)))
    if ours[1] == b"refused=23\n":
        met.add(23)
    lines = data.count(b"\n") + (not data.endswith(b"\n") and data != b"")
    return kind, seed, lines, met, data if ours != other or ours[0] else None


def jobs(pairs, first):
    """Texts without end, of the kinds in turn."""
    for at in itertools.count():
        yield pairs[at % len(pairs)], first + at


def show(pair, seed, data):
    """Prints a difference, shrunk."""
    print(f"compare: {pair.kind}, seed {seed}: the programs differ; shrinking", flush=True)
    small = shrunk(pair, data)
    ours, other = pair.outputs(small)
    print(f"text ({len(small)} bytes): {small[:4000]!r}")
    print(f"proved program: status {ours[0]}, {ours[1][:4000]!r}")
    print(f"second program: status {other[0]}, {other[1][:4000]!r}")


def at_ease():
    """Leaves Ctrl-C to the process that started the workers."""
    signal.signal(signal.SIGINT, signal.SIG_IGN)


def all_met(lines, met):
    """Whether every number was met that so many lines must meet; it says what was not."""
    missing = {kind: sorted(MUST_MEET[kind] - met[kind]) for kind in lines}
    for kind in lines:
        if missing[kind]:
            print(f"compare: no {kind} text met {missing[kind]}" + ("" if lines[kind] >= ENOUGH[kind] else f", which takes {ENOUGH[kind]} lines to be sure of"))
    return not any(missing[kind] and lines[kind] >= ENOUGH[kind] for kind in lines)


def main():
    parser = argparse.ArgumentParser(description=__doc__, formatter_class=argparse.RawDescriptionHelpFormatter)
    parser.add_argument("--lines", type=int, default=1_000_000)
    parser.add_argument("--first", type=int, default=1)
    parser.add_argument("--kind", choices=sorted(PROVED), help="only texts of this kind")
    options = parser.parse_args()
    kinds = [options.kind] if options.kind else ["run", "run", "run", "ledger"]
    started = {kind: programs.proved(PROVED[kind]) for kind in kinds}  # here and not in a worker, which would be started again for ever
    began = shown = time.time()
    lines, texts, met = collections.Counter(), collections.Counter(), collections.defaultdict(set)
    with tempfile.TemporaryDirectory() as folder, multiprocessing.Pool(os.cpu_count(), at_ease) as pool:
        second = programs.second(folder)
        pairs = [Pair(kind, started[kind], second) for kind in kinds]
        for kind, seed, count, numbers, difference in pool.imap_unordered(compared, jobs(pairs, options.first), chunksize=4):
            if difference is not None:
                pool.terminate()
                show(pairs[kinds.index(kind)], seed, difference)
                return 1
            lines[kind] += count
            texts[kind] += 1
            met[kind] |= numbers
            if time.time() - shown > 20:
                shown = time.time()
                print(f"compare: {sum(lines.values())} lines so far", flush=True)
            if sum(lines.values()) >= options.lines:
                pool.terminate()
                break
    if not all_met(lines, met):
        return 1
    said = ", ".join(f"{lines[kind]} lines of {texts[kind]} {kind} texts" for kind in lines)
    print(f"compare: {said}; no difference; {time.time() - began:.0f} s")
    return 0


if __name__ == "__main__":
    programs.finish(main)
