#!/usr/bin/env python3
"""What the pages quote is true: commands work as they are quoted, transcripts are what is printed, and the rules in docs/SCOPE.md are those of the other pages.

- every `./funkenrille` command that a page quotes whole ends with 0;
- README.md's transcripts, and its way to the C library;
- docs/RUN-TEXT.md: the first text and its report; the answer to each line of its table;
- docs/SCOPE.md: every refusal number, the order of checks as docs/REFUSALS.md has it, the whole case;
- CHANGELOG.md begins with the version that the file VERSION has.
"""

import os
import platform
import re
import shlex
import subprocess
import sys
import tempfile

import programs

TOP = programs.TOP
PAGES = [*TOP.glob("*.md"), *TOP.glob("*/*.md")]
NATIVE = platform.machine() == "x86_64"


def page(name):
    return (TOP / name).read_text(encoding="utf-8")


def same(what, found, wanted):
    if found != wanted:
        programs.stop(f"{what}: {found!r}, not {wanted!r}")


def report(command, text):
    return subprocess.run([TOP / "funkenrille", command], input=text.encode(), capture_output=True, check=True).stdout.decode()


def block(text, before):
    """The indented lines behind the words, without their indent."""
    found = re.search(re.escape(before) + r"\n\n((?: {4}.*\n)+)", text)
    if not found:
        programs.stop(f"there is no block behind '{before}'")
    return "".join(line[4:] + "\n" for line in found[1].splitlines())


def cells(text, head):
    """The rows of the table that begins with this head, as lists of cells."""
    found = re.search(re.escape(head) + r"\n\|[-|: ]+\|\n((?:\|.*\n)+)", text)
    if not found:
        programs.stop(f"there is no table '{head}'")
    return [[cell.strip() for cell in row.strip("|").split("|")] for row in found[1].splitlines()]


def quoted():
    """Every command that a page quotes whole, options included; what one writes goes to a folder that has the examples."""
    commands = set()
    for path in PAGES:
        for words in re.findall(r"\./funkenrille ((?:run|ledger|check|draw|page|explain|help)\b[^`\n|\[]*)", path.read_text(encoding="utf-8")):
            command = words.partition(">")[0].split(";")[0].strip()
            if re.fullmatch(r"(?:run|ledger|check|draw|page)(?: --?\S+(?: \S+)?)*? examples/\S+\.txt(?: -o \S+)?|explain [0-9 ]+|help(?: \w+)?", command):
                commands.add(command)
    for name in ("run", "ledger", "check", "draw", "page", "explain"):
        if not any(command.split()[0] == name for command in commands):
            programs.stop(f"no page quotes a whole './funkenrille {name}'")
    with tempfile.TemporaryDirectory() as folder:
        os.symlink(TOP / "examples", os.path.join(folder, "examples"))
        for command in sorted(commands):
            ran = subprocess.run([TOP / "funkenrille", *shlex.split(command)], cwd=folder, stdin=subprocess.DEVNULL, capture_output=True, check=False)
            same(f"./funkenrille {command}", (ran.returncode, ran.stderr), (0, b""))
    return len(commands)


def readme():
    text = page("README.md")
    printed = iter(report("run", page("examples/08-first-morning.txt")).splitlines())
    for line in re.search(r"\$ \./funkenrille run examples/08.*\n((?: {4}.*\n)+)", text)[1].splitlines():
        if line.strip() != "..." and line.strip() not in printed:  # looking for it goes on where the last one was found
            programs.stop(f"README.md quotes a line that is not printed there: {line}")
    script = page("examples/ledger/lid-shut.txt").splitlines()
    answers = report("ledger", page("examples/ledger/lid-shut.txt")).splitlines()
    for step, number, answer in re.findall(r"^ {4}(step=.*?) {2,}(line=(?:\d+)) (answer=.*)$", text, re.M):
        at = int(number[5:]) - 1
        same("README.md, the ledger", (script[at], answers[at]), (step, f"{number} {answer}"))
    if NATIVE:
        with tempfile.TemporaryDirectory() as folder:
            lines = block(text, "with bounds for text, report and stack:").replace("/tmp/stage", folder).replace("-o play", f"-o {folder}/play").replace("./play", f"{folder}/play")
            made = subprocess.run(["sh", "-e", "-c", lines], cwd=TOP, stdin=subprocess.DEVNULL, capture_output=True, text=True, check=True).stdout
            same("README.md, from C", made.endswith(page("examples/05-lid-shut.report")), True)


def run_text():
    text = page("docs/RUN-TEXT.md")
    same("docs/RUN-TEXT.md, in one minute", report("run", block(text, "no longer count: 31, and 30.")).splitlines()[-3:],
         block(text, "answers every line with 0, done, and ends in").splitlines())
    rows = cells(text, "| Line | Answer | Why |")
    for line, answer, _ in rows:
        same(f"docs/RUN-TEXT.md: {line}", report("run", line.strip("`")).splitlines()[0], f"line=1 answer={answer}")
    return len(rows)


def scope():
    text, refusals = page("docs/SCOPE.md"), page("docs/REFUSALS.md")
    same("docs/SCOPE.md, refusals", [row[0] for row in cells(text, "| No. | Condition |")], re.findall(r"^## (\d+) ", refusals, re.M))
    plain = [[re.sub(r"[^0-9a-z]+", " ", cell).replace("where ", "").strip() for cell in row] for row in cells(text, "| Step | Numbers, in the order checked |")]
    other = [[re.sub(r"[^0-9a-z]+", " ", cell).replace("where ", "").strip() for cell in row] for row in cells(refusals, "| Step | Numbers, in the order checked |")]
    same("docs/SCOPE.md, order of checks", plain, other)
    case = cells(text, "| Text | Report |")
    for at, name in enumerate(("stdin", "stdout")):
        same(f"docs/SCOPE.md, the whole case ({name})", "".join(row[at].strip("`") + "\n" for row in case if row[at]), page(f"crates/run/{name}"))
    same("docs/SCOPE.md, examples", [row[0] for row in cells(text, "| | |")], [f"P{k}" for k in range(1, 11)])


def main():
    commands = quoted()
    readme()
    lines = run_text()
    scope()
    same("CHANGELOG.md", re.search(r"^## (.*)$", page("CHANGELOG.md"), re.M)[1], page("VERSION").strip())
    print(f"pages: {commands} commands work as quoted, {lines} lines are answered as the page says, the rules are the same on every page")
    return 0


if __name__ == "__main__":
    sys.exit(main())
