#!/usr/bin/env python3
"""The list of what must be believed is closed: docs/THEOREMS.md lists just the definition files that its theorems and the public promises rest on.

Of every theorem of docs/THEOREMS.md (but for the sections that only serve other proofs) the statement is taken, of every public function its promise, of every
trait and impl its laws, and each name in them is followed to its definition, and from there on, as far as our own files go. Each file that is reached must be listed there: under 'What must be
believed', with its lines and the reason why it is believed, or under 'Settled by theorems', with the theorems that say in believed words all that counts of it. A
file that is listed and not reached is a fault; so is a definition that a theorem is stated by and that stands in a proof, and a public function that asks something of its caller.

    believed.py [--show]    --show prints what each file is reached from
"""
import re
import sys
import textwrap
from pathlib import Path

TOP = Path(__file__).resolve().parent.parent
CRATES = TOP / "crates"
PAGE = TOP / "docs" / "THEOREMS.md"
BELIEVED, SETTLED = "## What must be believed", "## Settled by theorems"
SERVING = {"## The demands, sentence by sentence", "## What other crates use", "## Common laws"}
NAME = r"[^\s(){}\[\],;:.λ→×≡]+"
faults = []


def fault(place, words):
    faults.append(f"{place.relative_to(TOP)}: {words}")


def module(path):
    """The file of a module's path, None where it is the toolchain's or a type of the code."""
    parts = re.match(r"Rattle\.([a-z_]+)\.(specs|proofs)\.(.+)$", path)
    if not parts or parts[3].startswith("declared"):
        return None
    file = CRATES / parts[1] / parts[2] / (parts[3].replace(".", "/") + ".antt")
    return file if file.exists() else None


def scope(text, word):
    """What a file's `use` lines bring in: names, and other names of whole modules."""
    names, modules = {}, {}
    for path, some, whole in re.findall(rf"^{word} (\S+?)(?:\.\{{([^}}]*)\}}| as (\S+?));?$", text, re.M):
        file = module(path)
        if file and whole:
            modules[whole] = file
        for name in (some or "").split(","):
            old, _, new = name.strip().partition(" as ")
            if file and old:
                names[new or old] = (file, old)
    return names, modules


class File:
    """A file of definitions and laws: what it brings in, and its declarations with their text."""

    def __init__(self, path):
        text = path.read_text()
        self.names, self.modules = scope(text, "use")
        self.blocks = {}
        lines = [line for line in text.splitlines() if not line.lstrip().startswith("--")]
        headers = []  # the modules with parameters that a line stands in: their depth and their text
        starts = []
        for at, line in enumerate(lines):
            depth = len(line) - len(line.lstrip())
            if not line.strip():
                continue
            while headers and depth <= headers[-1][0]:
                headers.pop()
            opened = re.match(r"\s*module _ (.*)", line)
            if opened:
                header, more = line, at
                while not header.rstrip().endswith("where"):
                    more += 1
                    header += " " + lines[more]
                headers.append((depth, header))
                continue
            found = re.match(r"\s*(?:unfoldable |abbrev )?(?:pub )?(record|data) (\S+)", line)
            found = found or re.match(rf"\s*(?:unfoldable |abbrev )?(?:pub )?()({NAME})(?: \{{[^}}]*\}})? :(?:\s|$)", line)
            if found and depth == (headers[-1][0] + 2 if headers else 0) and found[2] not in ("use", "unfolding"):
                starts.append((at, depth, found[2], bool(found[1]), " ".join(h for _, h in headers)))
        for place, (at, depth, name, whole, header) in enumerate(starts):
            end = starts[place + 1][0] if place + 1 < len(starts) else len(lines)
            block = lines[at:end]
            said = next((i for i, line in enumerate(block) if i and re.match(rf"\s*(?:unfolding\b|{re.escape(name)}(?:\s|$))", line)), len(block))
            self.blocks[name] = (header + "\n" + "\n".join(block), header + "\n" + "\n".join(block if whole else block[:said]))

    def follow(self, text, own):
        """The declarations of our files that a text names."""
        for token in re.findall(rf"{NAME}(?:\.{NAME})?", text):
            alias, _, rest = token.partition(".")
            if token in self.names:
                yield self.names[token]
            elif rest and alias in self.modules:
                yield self.modules[alias], rest
            elif alias in self.names:
                yield self.names[alias]
            elif alias in self.blocks:
                yield own, alias


files = {path: File(path) for path in CRATES.glob("*/[sp][pr]*/**/*.antt")}


def constructors(path, name):
    """The declaration that has a name: its own, or that of the data type whose case it is."""
    if name in files[path].blocks:
        return name
    for other, (text, _) in files[path].blocks.items():
        if re.search(rf"^\s+(?:pub )?{re.escape(name)} :", text, re.M):
            return other
    return None


def closure(goals):
    """All files reached from declarations, each with a way to it."""
    reached, seen, ahead = {}, set(), list(goals)
    while ahead:
        path, name, way = ahead.pop()
        if path not in files:
            continue
        name = constructors(path, name)
        if name is None or (path, name) in seen:
            continue
        seen.add((path, name))
        reached.setdefault(path, way + [name])
        text = files[path].blocks[name][0]
        ahead += [(p, n, way + [name]) for p, n in files[path].follow(text, path)]
    return reached


def stating(section, name):
    """The files that state a theorem: those of the crates that the section names, and of these the ones that only state, if it stands there."""
    crates = set(re.findall(r"crates/([a-z_]+)/proofs", section)) | set(re.findall(r"\b([a-z_]+)/proofs/", section))
    found = [path for path, file in files.items() if path.parts[-3:-1] == (path.parts[-3], "proofs") and path.parts[-3] in crates
             and name in file.blocks and re.search(rf"^\s*(?:abbrev )?pub {re.escape(name)} ", file.blocks[name][1], re.M)]
    return [path for path in found if path.name.endswith("Theorems.antt")] or found


def theorems():
    """What the statements of the listed theorems name, each with the theorem."""
    goals, count = [], 0
    for section in re.split(r"^(?=## )", PAGE.read_text(), flags=re.M):
        title = section.partition("\n")[0]
        if title in SERVING or title in (BELIEVED, SETTLED):
            continue
        for row in re.findall(r"^\| (`[^|]*`) \|", section, re.M):
            for name in re.findall(r"`([^`]+)`", row):
                places = stating(section, name)
                if not places:
                    fault(PAGE, f"`{name}` is stated in no file that its section names")
                for path in places:
                    count += 1
                    goals += [(p, n, [name]) for p, n in files[path].follow(files[path].blocks[name][1], path) if n != name]
    return goals, count


def closed(text, at):
    """The place behind the brace that closes the one before the place."""
    depth = 1
    while depth:
        depth += {"{": 1, "}": -1}.get(text[at], 0)
        at += 1
    return at


def functions(text):
    """The functions of a source: what stands before `fn`, the name, whether something is asked of the caller, and what the clauses say."""
    for found in re.finditer(r"^ *((?:pub(?:\(crate\))? )?)(?:extern \"C\" )?fn (\w+)", text, re.M):
        asks, said, at = False, [], found.end()
        while True:
            brace = text.index("{", at)
            clause = re.match(r"\s*(requires|ensures)\b", text[text.rfind("\n", 0, brace) + 1:brace])
            if not clause:
                break
            at = closed(text, brace + 1)
            asks = asks or clause[1] == "requires"
            said.append(text[brace + 1:at - 1])
        yield found[1].strip(), found[2], asks, " ".join(said)


def parts(text):
    """A source cut into its top and its blocks: the words that open each impl, trait or type, and what stands there. Names that a block brings in are its own."""
    blocks = re.compile(r"^((?:pub )?(?:impl|trait|struct|enum)\b[^;{}]*)\{\n(.*?)^\}$", re.M | re.S)
    yield "", blocks.sub("", text)
    for found in blocks.finditer(text):
        yield found[1].strip(), textwrap.dedent(found[2])


def laws(text):
    """The ghost items of a trait, an impl or a type: the name, whether it is given here (`=`) or stated (`:`), and the clause."""
    for found in re.finditer(r"^(?:pub )?ghost (?!use\b)(\w+)(:| =) \{", text, re.M):
        yield found[1], found[2] == " =", text[found.end():closed(text, found.end()) - 1]


def named(clause, names, modules):
    """The declarations of our files that a clause names."""
    for token in re.findall(rf"{NAME}(?:\.{NAME})?", clause):
        alias, _, rest = token.partition(".")
        if token in names or alias in names:
            yield names.get(token, names.get(alias))
        elif rest and alias in modules:
            yield modules[alias], rest


def promises():
    """What is named by the promises of public functions, by the laws of traits and impls, and by what types carry, each with its place."""
    said, proved, count = [], set(), 0
    for source in sorted(CRATES.glob("*/src/*.rt")):
        text, crate, brought = source.read_text(), source.parent.parent.name, 0
        top = {}, {}
        for opening, part in parts(text):
            own = scope(part, "ghost use")
            brought += len(re.findall(r"^ghost use ", part, re.M))
            names, modules = {**top[0], **own[0]}, {**top[1], **own[1]}
            top = top if opening else (names, modules)
            for name, given, clause in laws(part):
                goals = list(named(clause, names, modules))
                said.append((crate, name, given, goals))
                # what a trait of ours states in our words is a law, and each impl gives its proof
                proved |= {name} if goals and opening.startswith("pub trait") else set()
            for public, name, asks, clause in functions(part):
                if public != "pub" and not opening.startswith("pub trait"):
                    continue
                count += 1
                if asks:
                    fault(source, f"the public function {name} asks something of its caller")
                said.append((crate, name, False, list(named(clause, names, modules))))
        if brought != len(re.findall(r"^\s*ghost use ", text, re.M)):
            fault(source, "a `ghost use` stands where no promise is looked for")
    return [(*goal, [f"{crate}::{name}"]) for crate, name, given, goals in said if not (given and name in proved) for goal in goals], count


def listed(title):
    """The files that a section of the page lists, with what stands beside them."""
    section = PAGE.read_text().partition(title + "\n")[2].partition("\n## ")[0]
    return {TOP / name: cells for name, cells in re.findall(r"^\| `(crates/\S+)` \|(.*)\|$", section, re.M)}


def main(show):
    goals, stated = theorems()
    promised, functions = promises()
    believed, settled = listed(BELIEVED), listed(SETTLED)
    reached = closure(goals + promised)
    for path, way in sorted(reached.items()):
        if show:
            print(f"{path.relative_to(TOP)}: {' > '.join(way[:1] + way[-1:])}")
        if "proofs" in path.parts:
            fault(path, f"`{way[0]}` is stated by its `{way[-1]}`, which belongs to specs/")
        elif path not in believed and path not in settled:
            fault(path, f"`{way[0]}` rests on its `{way[-1]}`, and it is listed neither as to be believed nor as settled")
    for path in sorted((set(believed) | set(settled)) - set(reached)):
        fault(path, "is listed, and neither a theorem nor a promise rests on it")
    for path in sorted(set(settled) & set(believed)):
        fault(path, "is listed twice")
    for line in faults:
        print(line)
    if not faults:
        lines = sum(len(path.read_text().splitlines()) for path in believed)
        print(f"believed: {stated} statements and {functions} promises rest on {len(believed)} files of {lines} lines, and on {len(settled)} that theorems settle")
    return 1 if faults else 0


if __name__ == "__main__":
    sys.exit(main("--show" in sys.argv[1:]))
