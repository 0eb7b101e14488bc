#!/usr/bin/env python3
"""Shows that shipped.c prints what second.c prints.

    agree.py [--texts N] [--first SEED]

Both are built for this machine and given N texts (4,000 if nothing is said) of every family of both kinds in turn, from rising seeds, and every
text of the benchmark. It fails at the first difference and says how to get the text again.
"""

import argparse
import collections
import itertools
import pathlib
import subprocess
import tempfile

import texts  # first: it opens the way to tests/
import generate
import programs

HERE = pathlib.Path(__file__).resolve().parent
LINES = 70000  # of one text at most: no family is held back by it


def shipped(folder):
    """Builds shipped.c in the folder for this machine, and gives its path."""
    program = pathlib.Path(folder) / "shipped"
    subprocess.run(["gcc", "-std=c11", "-O2", "-Wall", "-Wextra", "-Werror", "-o", program, HERE / "shipped.c"], check=True)
    return str(program)


def generated(first):
    """Texts without end, (what it is, kind, bytes): of every family of both kinds, with one seed after the other."""
    families = [(kind, family) for kind, names in generate.FAMILIES.items() for family in names]
    for seed in itertools.count(first):
        for kind, family in families:
            yield f"generate.py {kind} {seed} {LINES} --family {family}", kind, generate.text(kind, seed, LINES, family)


def answer(program, kind, data):
    """What a program does with a text: its status and its output."""
    ran = subprocess.run([program, kind], input=data, capture_output=True, check=False)
    return ran.returncode, ran.stdout


def main():
    parser = argparse.ArgumentParser(description=__doc__, formatter_class=argparse.RawDescriptionHelpFormatter)
    parser.add_argument("--texts", type=int, default=4000)
    parser.add_argument("--first", type=int, default=1)
    options = parser.parse_args()
    own = [(f"the benchmark's {text.name}", text.kind, text.head + text.body) for text in texts.TEXTS]
    lines = collections.Counter()
    with tempfile.TemporaryDirectory() as folder:
        second, ours = programs.second(folder), shipped(folder)
        for name, kind, data in own + list(itertools.islice(generated(options.first), options.texts)):
            if answer(second, kind, data) != answer(ours, kind, data):
                print(f"agree: the programs differ on {name}")
                return 1
            lines[kind] += texts.lines(data)
    print(f"agree: {options.texts + len(own)} texts, {lines['run']} lines of run texts, {lines['ledger']} of ledger scripts; no difference")
    return 0


if __name__ == "__main__":
    programs.finish(main)
