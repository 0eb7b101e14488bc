#!/usr/bin/env python3
"""Brings the repository's own definitions and lemmas to today's spelling: words in snake case, a prime an apostrophe. Run once, at the top, after the kit's port.py.

The names are in spell.tsv beside this script, a row for each: old, a tab, new. In .antt files whole words turn, wherever the file does not have the old name
from a library; below proofs/F/, where Rattle's own labels have dashes too, only what the file imports from this repository or reads as a field. In .rt files
words turn in clauses, ghost items and comments' code spans: Rust has no name with a capital behind a small letter or with a dash. In must-fail edits the lines of
text turn as the file that they edit, and a projection is written tight, as port.py writes it elsewhere. In .md files code spans turn that are such a name.
Strings, functions of src/ and exported names stay. Two names that would fall together have got `_lem`, where one is a lemma on the other.
"""

import re
import sys
from pathlib import Path

TOP = Path(__file__).resolve().parent.parent
TABLE = dict(row.split("\t") for row in (TOP / "tools" / "spell.tsv").read_text(encoding="utf-8").splitlines())
WORD = re.compile(r"[^\s(){}.;,@\"«»`\[\]]+")
USE = re.compile(r"(?m)^\s*(?:pub |ghost )?use ([^\s;{]+)(\{[^}]*\})?")
MARKED = re.compile(r"-|[a-z0-9][A-Z]")  # a name that no word of Rust's or of a sentence is
CAMEL = re.compile(r"[a-z0-9][A-Z]")
PLAIN = {word for word in TABLE if not MARKED.search(word)}  # lemmas whose names other words have too
QUOTED = re.compile(r'"(?:[^"\\\n]|\\.)*"')
SPAN = re.compile(r"`[^`\n]+`")
TIGHT = re.compile(r"(?<=[\w'₀-₉)]) \.(?=[a-z0-9])")


def imported(text):
    """The names that a file has from this repository, and those that it has from libraries."""
    own, other = set(), set()
    for path, items in USE.findall(text):
        ours = path.startswith("Rattle") and not path.startswith("Rattle.std")
        names = own if ours else other
        for item in items.strip("{}").split(","):
            names.update(item.split(" as "))
    return {name.strip() for name in own}, {name.strip() for name in other}


def turned(text, stays=(), wanted=None):
    """The text with each word turned that the table has; `wanted`, if given, are those words that turn without a dot before them and are no camel case."""

    def turn(match):
        word, before = match[0], match.string[match.start() - 1 : match.start()]
        if word not in TABLE or word in stays:
            return word
        if not MARKED.search(word) and before == "." and word != "row_is":
            return word
        if wanted is not None and not CAMEL.search(word) and before != "." and word not in wanted:
            return word
        return TABLE[word]

    return WORD.sub(turn, text)


def spans(text):
    return SPAN.sub(lambda span: turned(span[0]), text)


def antt(text, below):
    own, other = imported(text)
    lines = []
    for line in text.split("\n"):
        code, mark, comment = line.partition("--") if line.lstrip().startswith("--") or " -- " in line else (line, "", "")
        lines.append(turned(code, other, own if below else None) + mark + spans(comment))
    return "\n".join(lines)


def rust(text):
    lines = []
    for line in text.split("\n"):
        code, mark, comment = line.partition("//")
        kept = QUOTED.findall(code)
        parts = [turned(part, PLAIN) for part in QUOTED.split(code)]
        code = "".join(part + (kept[i] if i < len(kept) else "") for i, part in enumerate(parts))
        lines.append(code + mark + spans(comment))
    return "\n".join(lines)


def edit(text):
    lines, file = [], ""
    for line in text.split("\n"):
        head, colon, rest = line.partition(":")
        if head == "file":
            file = rest.strip()
        elif head in ("old", "new"):
            line = head + colon + (TIGHT.sub(".", turned(rest)) if file.endswith(".antt") else rust(rest))
        elif line.startswith("#"):
            line = spans(line)
        lines.append(line)
    return "\n".join(lines)


def main():
    changed = 0
    files = [p for p in sorted((TOP / "crates").rglob("*")) if p.suffix in (".antt", ".rt", ".edit") and "out" not in p.parts]
    files += sorted(TOP.glob("*.md")) + sorted((TOP / "docs").rglob("*.md")) + sorted((TOP / "examples").rglob("*.md"))
    for path in files:
        text = path.read_text(encoding="utf-8")
        if path.suffix == ".antt":
            new = antt(text, "proofs" in path.parts and path.parent.name != "proofs")
        elif path.suffix == ".rt":
            new = rust(text)
        elif path.suffix == ".edit":
            new = edit(text)
        else:
            new = spans(text)
        if new != text:
            path.write_text(new, encoding="utf-8")
            changed += 1
    print(f"spell: {len(TABLE)} names, {changed} files changed")
    return 0


if __name__ == "__main__":
    sys.exit(main())
