#!/usr/bin/env python3
"""What the must-fail edits cost: the sum over crates of functions x (edits + 1).

    cost.py [--table]

An edit checks its whole crate again, and what that takes goes by the functions of the crate, so that this sum says how long the gate takes without
asking the machine. It fails where the sum passes LIMIT, where a crate with edits has more than MOST functions, and where the table in
docs/ARCHITECTURE.md is not the one that it finds. --table prints the table.
"""

import pathlib
import re
import sys

TOP = pathlib.Path(__file__).resolve().parent.parent
LIMIT = 2000
MOST = 40
FUNCTION = re.compile(r'^\s*(?:pub(?:\(crate\))? )?(?:extern "C" )?fn \w+', re.M)
BEGIN, END = "<!-- cost -->", "<!-- /cost -->"


def crates():
    """The crates, in the order of crates.txt."""
    lines = (TOP / "crates.txt").read_text(encoding="utf-8").splitlines()
    return [line.split(":")[0].split()[0] for line in lines if line.partition("#")[0].strip()]


def count(name):
    """The functions of a crate, and its must-fail edits."""
    folder = TOP / "crates" / name
    functions = sum(len(FUNCTION.findall(path.read_text(encoding="utf-8"))) for path in (folder / "src").rglob("*.rt"))
    return functions, len(list((folder / "must-fail").glob("*.edit")))


def table(rows):
    """The table, as Markdown."""
    lines = ["| Crate | Functions | Edits | Functions × (edits + 1) |", "|---|---:|---:|---:|"]
    lines += [f"| `{name}` | {functions} | {edits} | {functions * (edits + 1)} |" for name, functions, edits in rows]
    total = sum(functions * (edits + 1) for _, functions, edits in rows)
    lines.append(f"| **all** | {sum(row[1] for row in rows)} | {sum(row[2] for row in rows)} | **{total}** |")
    return "\n".join(lines), total


def main():
    rows = [(name, *count(name)) for name in crates()]
    text, total = table(rows)
    if sys.argv[1:] == ["--table"]:
        print(text)
        return 0
    wrong = [f"{name} has edits and {functions} functions, more than {MOST}" for name, functions, edits in rows if edits and functions > MOST]
    if total > LIMIT:
        wrong.append(f"the sum is {total}, more than {LIMIT}")
    page = (TOP / "docs" / "ARCHITECTURE.md").read_text(encoding="utf-8")
    if page.partition(BEGIN)[2].partition(END)[0].strip() != text:
        wrong.append("docs/ARCHITECTURE.md has another table than tests/cost.py --table prints")
    for line in wrong:
        print(f"cost: {line}")
    print(f"cost: functions x (edits + 1) is {total}, of {LIMIT} at most")
    return 1 if wrong else 0


if __name__ == "__main__":
    sys.exit(main())
