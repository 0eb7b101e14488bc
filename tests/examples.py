#!/usr/bin/env python3
"""Plays every run text and every ledger script in examples/, by `./funkenrille` and by the second program, and compares with the report beside it; and looks
that the early leaver is the very case of which theorems speak."""

import re
import subprocess
import sys
import tempfile

import programs

KINDS = {"run": "*.txt", "ledger": "ledger/*.txt"}


def spelled(verb, numbers):
    """A step of a definition as a line of run text."""
    if verb == "start":
        bench, value, world = numbers
        return f"step=start bench={bench} value={value} world={','.join(str(b) for b, has in enumerate(world[:1:-1], 1) if has == '1')}"
    return f"step={verb} bench={numbers[0]}" + (f" from={numbers[1]}" if verb == "arrive" else "")


def leaver():
    """examples/09-early-leaver.txt has the steps of crates/examples/specs/Leaver.antt, line by line."""
    steps = re.findall(r"(start|leave|turn|arrive) ([0-9][0-9b ]*?)\s+∷", (programs.TOP / "crates/examples/specs/Leaver.antt").read_text())
    lines = [spelled(verb, numbers.split()) for verb, numbers in steps]
    if lines != (programs.TOP / "examples/09-early-leaver.txt").read_text().splitlines():
        programs.stop("09-early-leaver.txt has other steps than crates/examples/specs/Leaver.antt")


def play(second):
    for command, pattern in KINDS.items():
        texts = sorted((programs.TOP / "examples").glob(pattern))
        for text in texts:
            for words in ([programs.TOP / "funkenrille", command], [second, command]):
                made = subprocess.run(words, input=text.read_bytes(), capture_output=True, check=True).stdout
                if made != text.with_suffix(".report").read_bytes():
                    programs.stop(f"{text.name} does not give its report by {words[0]}")
        if not texts:
            programs.stop(f"there is no example for {command}")
        print(f"examples: {len(texts)} for {command} give their reports, by both programs")


def main():
    with tempfile.TemporaryDirectory() as folder:
        play(programs.second(folder))
    leaver()
    return 0


if __name__ == "__main__":
    sys.exit(main())
