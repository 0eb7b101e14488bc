#!/usr/bin/env python3
"""Tests the comparison itself: on a clone where nothing is built it says so once and stops; few lines do not fail for what they could not meet, many do."""

import contextlib
import shutil
import subprocess
import sys
import tempfile

import compare
import programs


def unbuilt():
    with tempfile.TemporaryDirectory() as folder:
        for part in ("tests", "second"):
            shutil.copytree(programs.TOP / part, f"{folder}/{part}")
        ran = subprocess.run([sys.executable, "-B", f"{folder}/tests/compare.py"], capture_output=True, text=True, timeout=60, check=False)
        if ran.returncode != 1 or ran.stdout or ran.stderr.count("\n") != 1 or "is not built" not in ran.stderr:
            programs.stop(f"on an unbuilt clone: status {ran.returncode}, {ran.stdout!r}, {ran.stderr!r}")


def few():
    for lines in ("1", "3000"):
        subprocess.run([sys.executable, "-B", programs.TOP / "tests" / "compare.py", "--lines", lines], check=True, timeout=60, stdout=subprocess.DEVNULL)


def judged():
    """Of each kind, one number that was not met: all is well below the number of lines that is enough, and not from there on."""
    for kind, enough in compare.ENOUGH.items():
        lacking = compare.MUST_MEET[kind] - {20}
        with contextlib.redirect_stdout(None):
            verdicts = [compare.all_met({kind: lines}, {kind: met}) for lines, met in ((enough, compare.MUST_MEET[kind]), (enough - 1, lacking), (enough, lacking))]
        if verdicts != [True, True, False]:
            programs.stop(f"{kind}: all met, one missing of few lines, one missing of many: {verdicts}")


def main():
    unbuilt()
    few()
    judged()
    print("comparing: it stops where nothing is built, passes few lines, and misses what many lines must meet")
    return 0


if __name__ == "__main__":
    sys.exit(main())
