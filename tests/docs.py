#!/usr/bin/env python3
"""The documents are held to the tree: what they link to, count and name is there, and what they must name they name.

- every link of a Markdown file leads to a file;
- docs/THEOREMS.md lists exactly the files that say of themselves that they are to be believed, with their lines, and every theorem that it names is stated;
- every line of a statement that a page quotes (a block marked antt) stands so in a file of definitions or laws;
- docs/PROMISES.md has every public function, under its crate, every must-fail edit of code, and those of definitions but for
  the crates that hold little else; the edits that it names are there;
- `./funkenrille explain` prints every entry of docs/REFUSALS.md, which has 0 to 25 in rising order, and no other number.

Works from any folder.
"""
import re
import subprocess
import sys
from pathlib import Path

TOP = Path(__file__).resolve().parent.parent
CRATES = TOP / "crates"
# Their edits are of definitions, but for those of a function of theirs, and too many to be named one by one.
DEFINITIONS = ("common", "published", "tables", "book", "spelling", "reports", "examples")
faults = []


def fault(place, words):
    faults.append(f"{place.relative_to(TOP)}: {words}")


def tracked():
    names = subprocess.run(["git", "ls-files", "*.md"], cwd=TOP, capture_output=True, text=True)
    if names.returncode == 0 and names.stdout:
        return [TOP / name for name in names.stdout.splitlines()]
    return [p for p in TOP.rglob("*.md") if not {"target", "out"} & set(p.parts)]


def links():
    count = 0
    for page in tracked():
        for goal in re.findall(r"\]\(([^)#\s]+)[^)]*\)", page.read_text()):
            count += 1
            if "://" not in goal and not (page.parent / goal).exists():
                fault(page, f"a link leads nowhere: {goal}")
    return count


def believed():
    page = TOP / "docs" / "THEOREMS.md"
    listed = dict(re.findall(r"^\| `(crates/\S+)` \| (\d+) \|", page.read_text(), re.M))
    for name, lines in listed.items():
        if not (TOP / name).exists():
            fault(page, f"there is no {name}")
        elif len((TOP / name).read_text().splitlines()) != int(lines):
            fault(page, f"{name} has {len((TOP / name).read_text().splitlines())} lines, not {lines}")
    for spec in sorted(CRATES.glob("*/specs/*.antt")):
        says = "is to be believed" in spec.read_text()
        if says != (str(spec.relative_to(TOP)) in listed):
            fault(spec, "says that it is to be believed, and is not listed" if says else "is listed, and does not say that it is to be believed")
    return len(listed)


def theorems():
    page = TOP / "docs" / "THEOREMS.md"
    stated = set()
    for proof in CRATES.glob("*/proofs/*.antt"):
        stated |= set(re.findall(r"^ *(?:pub )?(?:record |data |abbrev )?(?:pub )?(\S+) :", proof.read_text(), re.M))
    # the first cell of each row of the tables that begin with 'Name'
    names, on = [], False
    for line in page.read_text().splitlines():
        on = line.startswith("| Name") or on and line.startswith("|")
        if on:
            names += re.findall(r"`([^`]+)`", line.split("|")[1])
    for name in names:
        if name not in stated:
            fault(page, f"no theorem is called {name}")
    return len(names)


def quotes():
    """A quoted line may leave out `pub`."""
    lines = {line.strip().removeprefix("pub ") for file in CRATES.glob("*/[sp][pr]*/**/*.antt") for line in file.read_text().splitlines()}
    count = 0
    for page in tracked():
        for quote in re.findall(r"^```antt\n(.*?)^```$", page.read_text(), re.M | re.S):
            for line in filter(str.strip, quote.splitlines()):
                count += 1
                if line.strip() not in lines:
                    fault(page, f"quotes a line that stands in no file: {line.strip()}")
    return count


def promises():
    page = TOP / "docs" / "PROMISES.md"
    sections = dict(re.findall(r"^## (\w+)\n(.*?)(?=^## |\Z)", page.read_text(), re.M | re.S))
    edit_files = sorted(CRATES.glob("*/must-fail/*.edit"))
    functions, edits = set(), {e.stem for e in edit_files}
    for source in sorted(CRATES.glob("*/src/*.rt")):
        crate = source.parts[-3]
        for name in re.findall(r"^ *pub (?:extern \"C\" )?fn (\w+)", source.read_text(), re.M):
            functions.add(name)
            if not re.search(rf"`(?:\w+::)*{name}[`(]", sections.get(crate, "")):
                fault(page, f"has no row for {crate}::{name}")
    for edit in edit_files:
        crate = edit.parts[-3]
        if (crate not in DEFINITIONS or "\nfile: src/" in edit.read_text()) and not re.search(rf"[`/]{edit.stem}`", page.read_text()):
            fault(page, f"does not name the edit {crate}/{edit.stem}")
    known = edits | functions | declared()
    for row in re.findall(r"^\|.*\|$", page.read_text(), re.M):
        for name in re.findall(r"`((?:\w+/)?[a-z0-9]+(?:_[a-z0-9]+)+)`", row.split("|")[-2]):
            crate, slash, edit = name.partition("/")
            if slash and not (CRATES / crate / "must-fail" / f"{edit}.edit").exists():
                fault(page, f"names {name}, and the crate has no such edit")
            elif not slash and name not in known and not (CRATES / name).exists() and f"fn {name}" not in sources():
                fault(page, f"names {name}, which is no edit, no function, no definition and no theorem")
    return len(functions), len(edit_files)


def declared():
    """The names of our definitions and lemmas, and of the cases and fields of our types."""
    name = re.compile(r"^ *(?:(?:pub|unfoldable|abbrev) )*(?:record |data )?([^\s(){}]+)(?: \{[^}]*\})* :(?:\s|$)", re.M)
    return {found for file in CRATES.glob("*/[sp][pr]*/**/*.antt") for found in name.findall(file.read_text())}


def sources():
    if not hasattr(sources, "text"):
        sources.text = "\n".join(s.read_text() for s in CRATES.glob("*/src/*.rt"))
    return sources.text


def refusals():
    page = TOP / "docs" / "REFUSALS.md"
    numbers = re.findall(r"^## (\d+) ", page.read_text(), re.M)
    if numbers[:26] != [str(k) for k in range(26)] or numbers != sorted(set(numbers), key=int):
        fault(page, "lacks a number, or has them in another order")
    for number in numbers:
        said = subprocess.run([TOP / "funkenrille", "explain", number], capture_output=True, text=True)
        if said.returncode != 0 or not said.stdout.startswith(f"{number}: ") or len(said.stdout.splitlines()) < 2:
            fault(page, f"explain {number} says nothing of it")
    past = str(int(numbers[-1]) + 1)
    if subprocess.run([TOP / "funkenrille", "explain", past], capture_output=True).returncode == 0:
        fault(page, f"explain {past} explains a number that has no entry")
    return len(numbers)


def main():
    link_count, file_count, theorem_count, line_count, (function_count, edit_count), refusal_count = links(), believed(), theorems(), quotes(), promises(), refusals()
    for line in faults:
        print(line)
    print(f"docs: {link_count} links, {file_count} files to be believed, {theorem_count} theorems, {line_count} lines of statements, {function_count} public functions, {edit_count} must-fail edits, {refusal_count} answers explained")
    return 1 if faults else 0


if __name__ == "__main__":
    sys.exit(main())
