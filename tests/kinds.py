#!/usr/bin/env python3
"""Bench, slot and round numbers are three kinds: one given where another is wanted must not build.

For every ordered pair of kinds, and for an argument and a held field each, a small crate in a temporary folder gives the one where the
other is wanted; the compiler must refuse it for its types. The same crate with nothing swapped must pass. Works from any folder.
"""
import shutil
import subprocess
import sys
import tempfile
from pathlib import Path

KINDS = Path(__file__).resolve().parent.parent / "crates" / "kinds"

# kind: where a step or a message wants it
FIELD = {
    "BenchNo": ("Step", "Step::Abstain(x)"),
    "SlotNo": ("Step", "Step::Start(BenchNo(1), x, 1)"),
    "RoundNo": ("RoundMessage", "RoundMessage { round: x, value: SlotNo(0), world: 0 }"),
}

HEAD = "// One kind given where one is wanted.\n#![tactic(auto)]\n\nuse kinds::{BenchNo, RoundMessage, RoundNo, SlotNo, Step};\n"


def argument(given, wanted):
    return f"""
fn take_{wanted.lower()}(x: {wanted}) -> u32 {{
    x.0
}}

pub fn give_{wanted.lower()}(x: {given}) -> u32 {{
    take_{wanted.lower()}(x)
}}
"""


def field(given, wanted):
    result, value = FIELD[wanted]
    return f"""
pub fn hold_{wanted.lower()}(x: {given}) -> {result} {{
    {value}
}}
"""


def build(folder, name, code):
    """The exit status of a crate's check, and what the compiler says."""
    source = folder / "crates" / name / "src"
    source.mkdir(parents=True)
    (source / "lib.rt").write_text(HEAD + code)
    (folder / "crates.txt").write_text(f"kinds:\n{name}: kinds\n")
    done = subprocess.run(["rt", "check"], cwd=source.parent, stdin=subprocess.DEVNULL, stdout=subprocess.PIPE, stderr=subprocess.STDOUT, text=True)
    shutil.rmtree(folder / "crates" / name)
    return done.returncode, done.stdout


def main():
    wrong = 0
    tried = 0
    with tempfile.TemporaryDirectory() as made:
        folder = Path(made)
        # the types and the refusals' numbers alone: what the rest stands for is proved elsewhere
        shutil.copytree(KINDS / "src", folder / "crates" / "kinds" / "src")
        (folder / "crates" / "kinds" / "specs").mkdir()
        shutil.copy(KINDS / "specs" / "Refusals.antt", folder / "crates" / "kinds" / "specs")
        (folder / "crates" / "kinds" / "specs" / "Lib.antt").write_text("pub mod Refusals\n")
        status, said = build(folder, "straight", "".join(form(kind, kind) for kind in FIELD for form in (argument, field)))
        if status != 0 or "logic=proved functions=9" not in said:
            wrong += 1
            print(f"kinds: nothing swapped, and refused:\n{said}")
        for given in FIELD:
            for wanted in FIELD:
                if given == wanted:
                    continue
                for form in (argument, field):
                    tried += 1
                    status, said = build(folder, "swapped", form(given, wanted))
                    words = f"error[mismatched-types]: expected `{wanted}`, found `{given}`"
                    if status == 0 or words not in said:
                        wrong += 1
                        print(f"kinds: {given} as {wanted} ({form.__name__}) was not refused for its types:\n{said}")
    print(f"kinds: {tried} swaps refused for their types, the straight crate passes" if wrong == 0 else f"kinds: {wrong} wrong")
    return 1 if wrong else 0


if __name__ == "__main__":
    sys.exit(main())
