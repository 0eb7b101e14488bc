#!/usr/bin/env python3
"""Instructions a step: the proved steps alone, without text, beside the same in plain C.

    steps.py

A program over the crate `rounds` (steps/drive) and a C program (steps/rounds.c, its steps inlined and out of line) play one schedule: 16 benches start,
then twice every arrival, 16 of them refused, and every turn, so that all decide in round 2; 560 steps a play. All must write the same sum of answers and states.
The program's sources end in `.in`, because `rt` wants every Rattle file of a repository in a crate that crates.txt lists; it is proved in a folder of its own.
"""

import pathlib
import shutil
import subprocess
import tempfile

import measure
import programs

HERE = pathlib.Path(__file__).resolve().parent / "steps"
PLAYS, STEPS = 200, 560


def below(crate):
    """The line of a crate in crates.txt and those of the crates that it leans on, which that line names."""
    lines = {line.split(":")[0]: line for line in (programs.TOP / "crates.txt").read_text().splitlines()}
    return {name: lines[name] for name in [crate, *lines[crate].partition(":")[2].split()]}


def built(folder):
    """Proves and builds the program over `rounds`; a library that the repository has built already is not proved again."""
    shutil.copytree(HERE / "drive", folder / "crates" / "drive")
    for file in list((folder / "crates" / "drive").rglob("*.in")):
        file.rename(file.with_suffix(""))
    lines = below("rounds")
    for crate in lines:
        source, goal = programs.TOP / "crates" / crate, folder / "crates" / crate
        shutil.copytree(source, goal, ignore=shutil.ignore_patterns("out"))
        if (source / "out" / "rlib" / "stamp").exists():
            shutil.copytree(source / "out" / "rlib", goal / "out" / "rlib")
    (folder / "crates.txt").write_text("\n".join([*lines.values(), "drive: rounds reads tables kinds"]) + "\n")
    ran = subprocess.run(["rt", "run"], cwd=folder / "crates" / "drive", stdin=subprocess.DEVNULL, capture_output=True, text=True, check=False)
    if ran.returncode:
        programs.stop(ran.stderr[-2000:])
    (folder / "lib").symlink_to(programs.kit_tools() / "lib")
    return ["lib/ld-linux-x86-64.so.2", "--library-path", "lib", "crates/drive/out/drive"]


def main():
    with tempfile.TemporaryDirectory() as name:
        folder = pathlib.Path(name)
        measure.build_plugin(folder)
        measure.build_c(folder, HERE / "rounds.c", name="inlined")
        measure.build_c(folder, HERE / "rounds.c", "-DAPART", name="apart")
        rows = [("proved", built(folder)), ("C, steps inlined", ["./inlined"]), ("C, steps out of line", ["./apart"])]
        sums = set()
        print(measure.heading(["steps"], "instructions a step"))
        for title, words in rows:
            start, _ = measure.counted(folder, words, b"")
            whole, said = measure.counted(folder, words, bytes(PLAYS))
            sums.add(said)
            print(measure.row(title, f"{(whole - start) / (PLAYS * STEPS):.1f}"))
        if len(sums) != 1:
            programs.stop("the programs do not write the same sum")
    return 0


if __name__ == "__main__":
    programs.finish(main)
