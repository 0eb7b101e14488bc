#!/usr/bin/env python3
"""Holds the Python model of the rounds, on which `check`, the picture and the page rest, against the proved program.

    model.py [--texts N] [--first SEED]

On N generated texts (all families of generate.py, well-formed and damaged), from rising seeds:

- the report of the whole text, and that of its prefixes, is the model's: so the model's states are right after every line;
- what `check` prints names exactly the lines that are not answered 0, each with its number;
- what waits on each line and how each running bench views its world, asked of the model after some prefix, is what arrivals and turns meet there;
- what `check` advises helps: lines to put before a refused one are done, and where they are said to be enough it is done too; a line to
  put instead is done;
- what `check --fix` changed is well-formed, what it left is not, and mending twice changes nothing more.
"""

import argparse
import collections
import multiprocessing
import os
import re
import subprocess
import sys
import time

import generate
import programs

sys.path.insert(0, str(programs.TOP / "draw"))
import check  # noqa: E402
import mend  # noqa: E402
import reading  # noqa: E402
import rounds  # noqa: E402
import why  # noqa: E402

RUN = programs.proved("run")
PREFIXES = 16  # of one text; all of them where it is not much longer
ADVISED = 6  # refused lines of one text whose advice is tried
MUST_MEET = {0, 1, 2, 3, 4, 5, 6, 7, 8, 9, 10, 11, 20}
MUST_ADVISE = {5, 6, 7, 8, 10, 11, 20}


class Differs(Exception):
    """What differs, and on which text."""


def proved(text):
    return subprocess.run(RUN, input=text, capture_output=True, check=True).stdout.decode()


def answers(report):
    return [int(n) for n in re.findall(r"^line=\d+ answer=(\d+)$", report, re.M)]


def must(held, words, text):
    if not held:
        raise Differs(words, text)


def prefixes(text):
    """Plays a text and compares its reports on the way; gives the number of reports."""
    count = len(reading.split(text))
    every = max(1, count // PREFIXES)
    run, compared = rounds.Run(), 0
    for line in run.play(text):
        if line.number % every == 0 or line.number == count:
            prefix = generate.cut(text, line.number)
            must(proved(prefix) == rounds.report(run), f"the report after line {line.number}", prefix)
            compared += 1
    return compared


def asked(text, rng):
    """Asks the model after a prefix what waits on every line and whom each bench awaits, and the program the same by arrivals and turns."""
    lines = [line for line in reading.split(text) if len(line) < 200][:rng.randint(1, 120)]
    run = rounds.play(b"\n".join(lines))
    probes, expected = [], []
    for b, bench in run.benches.items():
        for f in reading.BENCHES:
            if f != b:
                waiting = len(run.waiting(b, f))
                probes += [f"step=arrive bench={b} from={f}"] * (waiting + 1)
                expected += [3] * (waiting + 1) if bench.state not in rounds.TAKING else [9] if f in bench.noticed else [0] * waiting + [8]
    turns, views = [], []
    for b, bench in run.benches.items():
        turns.append(f"step=turn bench={b}")
        views.append(3 if bench.state != "running" else 11 if run.awaits(b) else 0)
    for more, wanted in ((probes, expected), (turns, views)):
        whole = b"\n".join([*lines, *(probe.encode() for probe in more)])
        must(answers(proved(whole))[len(lines):] == wanted, f"what is asked after line {len(lines)}", whole)
    return 2


def advised(run, rng):
    """Tries the advice given at some refused lines; gives the numbers whose advice was tried."""
    lines, tried = [b"" if line.fault else line.text for line in run.lines], set()  # what is malformed changes nothing, and may be long
    helped = [line for line in run.lines if line.why and (line.why.before or line.why.instead)]
    for line in rng.sample(helped, min(ADVISED, len(helped))):
        before, told = lines[:line.number - 1], line.why
        tried.add(line.answer)
        if told.before:
            whole = b"\n".join([*before, *(more.encode() for more in told.before), line.text])
            met = answers(proved(whole))[len(before):]
            wanted = [0] * len(told.before) + [0 if told.enough else line.answer]
            must(met == wanted, f"the advice before line {line.number}: {told}", whole)
        if told.instead:
            whole = b"\n".join([*before, told.instead.encode()])
            met = answers(proved(whole))[-1]
            must(met != 20 if line.answer == 20 else met == 0, f"the advice instead of line {line.number}: {told}", whole)
    return tried


def checked(run, text, report):
    """What check prints of the text's lines are the program's numbers."""
    told = check.report(run, text)
    numbers = {}
    for first, last, number in re.findall(r"^lines? (\d+)(?: to (\d+))? (?:is|are each) (?:malformed|refused) \((\d+)\): .+$", told, re.M):
        numbers.update(dict.fromkeys(range(int(first), int(last or first) + 1), int(number)))
    must(numbers == {n: a for n, a in enumerate(answers(report), 1) if a}, "what check says", text)


def fixed(text):
    """What --fix writes has exactly the malformed lines that it says it left."""
    done = mend.fix(text)
    if len(done.text) <= reading.TEXT_MAX:
        must(answers(proved(done.text)).count(20) == len(done.left), "what --fix left", text)
        must(mend.fix(done.text).text == done.text, "mending twice", text)


def compared(seed):
    """Compares one text: (seed, lines, reports, numbers met, numbers advised, difference)."""
    text = generate.text("run", seed, 500)
    rng = generate.random.Random(f"model {seed}")
    if len(text) > reading.TEXT_MAX:
        return seed, 0, 0, set(), set(), None
    try:
        run, report = why.explained(text), proved(text)
        must(rounds.report(run) == report, "the report", text)
        checked(run, text, report)
        fixed(text)
        reports = prefixes(text) + asked(text, rng) + 2
        return seed, len(run.lines), reports, set(answers(report)), advised(run, rng), None
    except Differs as difference:
        return seed, 0, 0, set(), set(), difference.args


def main():
    parser = argparse.ArgumentParser(description=__doc__, formatter_class=argparse.RawDescriptionHelpFormatter)
    parser.add_argument("--texts", type=int, default=300)
    parser.add_argument("--first", type=int, default=1)
    options = parser.parse_args()
    began, count = time.time(), collections.Counter()
    met, tried = set(), set()
    with multiprocessing.Pool(os.cpu_count()) as pool:
        for seed, lines, reports, numbers, helped, difference in pool.imap_unordered(compared, range(options.first, options.first + options.texts)):
            if difference:
                pool.terminate()
                words, text = difference
                print(f"model: seed {seed}: {words}; the text ({len(text)} bytes): {text[:800]!r}")
                return 1
            count.update(lines=lines, reports=reports)
            met |= numbers
            tried |= helped
    for name, wanted, had in (("met", MUST_MEET, met), ("advised", MUST_ADVISE, tried)):
        if options.texts >= 300 and wanted - had:
            print(f"model: no text {name} {sorted(wanted - had)}")
            return 1
    said = f"{options.texts} texts, {count['lines']} lines, {count['reports']} reports of texts and prefixes"
    print(f"model: {said}; no difference; {time.time() - began:.0f} s")
    return 0


if __name__ == "__main__":
    sys.exit(main())
