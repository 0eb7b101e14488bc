"""The nearest right line to a malformed one, and whether it is surely what was meant.

A line is read as a person would read it: spaces, tabs, letters' size, the order of keys and of a world's members, leading zeros and
comments carry no meaning. Whatever had to be guessed (a forgotten key, a number out of range, a bench named twice) leaves a doubt, and
`fix` changes only lines that are beyond doubt.
"""

import functools
import re
from dataclasses import dataclass

import reading

REMEMBERED = 65536  # lines of a text are often alike, and at most so many
WORD_LETTERS = 12  # a longer word is a slip of none
STEP_LETTERS = 400  # a longer piece is no step written badly
KINDS = tuple(reading.KEYS)
ALL_KEYS = ("step", "bench", "value", "world", "from")
HIGHEST = {"bench": reading.BENCHES[-1], "from": reading.BENCHES[-1], "value": 65535}
UNSEEN = {**dict.fromkeys(map(ord, "\ufeff\u200b\u200e\u200f\u2060\0")), 0xdca0: " "}  # byte order mark, letters of no width; a Latin-1 space
COMMENT = re.compile(r"(^|\s)(#|//).*$")
PAIR = re.compile(r"([a-z]+)\s*[=:]\s*")
BARE_KEY = re.compile(r"\b(bench|value|world|from)\s+(?=\d)|\b(step)\s+(?=[a-z])")
NUMBER = re.compile(r"""["'(\[{]*\+?(\d+)["')\]}]*[,;.]?""")
MEMBERS = re.compile(r"\d+(?:\s*(?:-|\.\.)\s*\d+)?(?:\s*[,;]\s*\d+(?:\s*(?:-|\.\.)\s*\d+)?)*")
MEMBER = re.compile(r"(\d+)(?:\s*(?:-|\.\.)\s*(\d+))?")


@dataclass(frozen=True)
class Mended:
    """The lines that a malformed line should be, none where it is to be left out; certain if nothing had to be guessed."""

    lines: tuple
    certain: bool


@dataclass(frozen=True)
class Fixed:
    """A text mended: the lines that were changed, each with what it became, and the malformed lines that were left."""

    text: bytes
    changed: dict
    left: list


@functools.lru_cache(REMEMBERED)
def near(word, words):
    """The one of the words that this is a slip of, and how many slips away it is; None if none or several are."""
    if len(word) > WORD_LETTERS:
        return None
    found = {other: slips(word, other) for other in words}
    least = min(found.values())
    best = [other for other, count in found.items() if count == least]
    most = 1 if len(word) < 4 else 2
    return (best[0], least) if least <= most and len(best) == 1 else None


def slips(one, other):
    """How many letters left out, put in, changed or swapped with their neighbour lie between two words."""
    rows = [list(range(len(other) + 1))]
    for i, a in enumerate(one, 1):
        row = [i]
        for j, b in enumerate(other, 1):
            row.append(min(rows[-1][j] + 1, row[-1] + 1, rows[-1][j - 1] + (a != b)))
            if i > 1 and j > 1 and (a, one[i - 2]) == (other[j - 2], b):
                row[j] = min(row[j], rows[-2][j - 2] + 1)
        rows.append(row)
    return rows[-1][-1]


@functools.lru_cache(REMEMBERED)
def mend(line):
    """The line mended, or None where nothing in it looks like a step."""
    plain = line.decode("utf-8", "surrogateescape").translate(UNSEEN)
    lines, certain = [], b"\0" not in line
    for piece in plain.split("\r"):
        piece = " ".join(COMMENT.sub("", piece).lower().split())
        for part in filter(None, steps_in(piece)):
            guess = Guess(part) if len(part) <= STEP_LETTERS else None
            if guess is None or guess.step is None:
                return None
            lines.append(reading.spell(guess.step).encode())
            certain = certain and guess.certain
    return Mended(tuple(lines), certain)


def steps_in(piece):
    """Pieces that begin with a step's name each, where several steps stand on one line."""
    return re.split(r"(?<=\d) (?=step *[=:])", piece) if piece.startswith("step") else [piece]


class Guess:
    """One piece of text read with good will: the step it seems to be, or None, and whether that is certain."""

    def __init__(self, text):
        self.certain = True
        self.fields = {}
        self.step = None
        self.collect(BARE_KEY.sub(lambda found: f"{found[1] or found[2]}=", text))
        kind = self.kind()
        if kind:
            self.step = self.filled(kind)

    def doubt(self, value):
        self.certain = False
        return value

    def collect(self, text):
        """The values under the keys they belong to; what stands before the first key may be the step's name."""
        pairs = list(PAIR.finditer(text))
        ends = [pair.start() for pair in pairs[1:]] + [len(text)]
        head = text[:pairs[0].start()].strip() if pairs else text
        if head:
            self.fields["step"] = head
        for pair, end in zip(pairs, ends):
            found = near(pair[1], ALL_KEYS)
            if not found or found[1] > 1:
                self.doubt(None)
            if found:
                value = text[pair.end():end].strip()
                if self.fields.setdefault(found[0], value) != value:
                    self.doubt(None)

    def kind(self):
        """The kind of step, by its name or, where that is missing, by the keys."""
        name = self.fields.pop("step", "").strip("\"',;.")
        if name in reading.KEYS:
            return name
        found = near(name.split(" ")[0], KINDS) if name else None
        if found:
            if found[1] > 1 or " " in name:
                self.doubt(None)
            return found[0]
        if set(self.fields) != set(reading.KEYS["start"]) or name:
            self.doubt(None)
        if {"value", "world"} & set(self.fields):
            return "start"
        return None if name or not self.fields else "arrive" if "from" in self.fields else "turn"

    def filled(self, kind):
        """The step of this kind, with a guess for each key that is missing or makes no sense."""
        if set(self.fields) != set(reading.KEYS[kind]):
            self.doubt(None)
        bench = self.number("bench", 1)
        sender = self.number("from", 1 if bench != 1 else 2) if kind in ("arrive", "notice") else 0
        if kind != "start":
            return reading.Step(kind, bench, sender=sender)
        return reading.Step(kind, bench, self.number("value", 0), self.world(bench))

    def number(self, key, otherwise):
        value = self.fields.get(key, "")
        found = NUMBER.fullmatch(value)
        if not found:
            found = self.doubt(re.search(r"(\d+)", value))
        if not found:
            return self.doubt(otherwise)
        number = int(found[1][:20])
        return number if number < 10 ** reading.DIGITS_MAX else self.doubt(HIGHEST[key])

    def world(self, bench):
        value = self.fields.get("world", "").strip("\"'()[]{} ")
        if not MEMBERS.fullmatch(value):
            self.doubt(None)
        members = []
        for low, high in MEMBER.findall(value):
            low, high = int(low[:20]), int((high or low)[:20])
            members += range(low, min(high, 99) + 1) if low < high else [low]
        world = frozenset(members) & frozenset(reading.BENCHES)
        if len(world) != len(members):
            self.doubt(None)
        return world or self.doubt(frozenset({bench} & set(reading.BENCHES)) or frozenset({1}))


def decoded(text):
    """A text saved as UTF-16 as UTF-8; any other as it is."""
    code = {b"\xff\xfe": "utf-16-le", b"\xfe\xff": "utf-16-be"}.get(text[:2])
    if not code and len(text) > 3:
        even, odd = (half.count(0) / len(half) for half in (text[0::2], text[1::2]))
        code = "utf-16-le" if odd > 0.9 and even < 0.1 else "utf-16-be" if even > 0.9 and odd < 0.1 else None
    return text.decode(code, "replace").encode() if code else text


def fix(text):
    """The text with every malformed line mended that is beyond doubt; the end of the text stays as it is."""
    plain, lines, changed, left = decoded(text), [], {}, []
    for number, line in enumerate(reading.split(plain), 1):
        malformed = isinstance(reading.read(line), reading.Fault)
        mended = mend(line) if malformed else None
        if mended and mended.certain:
            changed[number] = mended.lines
            lines += mended.lines
        else:
            lines.append(line)
            left += [number] if malformed else []
    ended = b"\n" if lines and plain.endswith(b"\n") else b""
    return Fixed(b"\n".join(lines) + ended, changed, left)
