"""Run text as document 01 spells it: a text's lines, and the step that a line is, or the place where it stops being one.

`read` goes over a line from left to right and ends at the first byte that cannot stand where it stands. It tells what was wanted there;
faults.py puts that into words. `spell` is the way back.
"""

import re
from dataclasses import dataclass

TEXT_MAX = 65536
DIGITS_MAX = 5
BENCHES = range(1, 17)
KEYS = {  # of each kind of step, in their order
    "start": ("bench", "value", "world"),
    "abstain": ("bench",),
    "leave": ("bench",),
    "fail": ("bench",),
    "turn": ("bench",),
    "arrive": ("bench", "from"),
    "notice": ("bench", "from"),
}


@dataclass(frozen=True)
class Step:
    """One well-formed line."""

    kind: str
    bench: int
    value: int = 0
    world: frozenset = frozenset()
    sender: int = 0  # "from" of arrive and notice


@dataclass(frozen=True)
class Fault:
    """Where a line stops being a step, and what was wanted there: a name of faults.WORDS, and the key it belongs to."""

    at: int
    wanted: str
    key: str = ""


class Malformed(Exception):
    """Carries a fault out of the reader."""


def split(text):
    """The lines of a text: byte 10 ends a line and begins none by itself."""
    lines = text.split(b"\n")
    return lines[:-1] if lines[-1] == b"" else lines


def read(line):
    """The step that a line is, or its fault."""
    try:
        return Reader(line).step()
    except Malformed as fault:
        return fault.args[0]


def spell(step):
    """The line of a step."""
    words = {"bench": step.bench, "value": step.value, "from": step.sender, "world": ",".join(map(str, sorted(step.world)))}
    return f"step={step.kind}" + "".join(f" {key}={words[key]}" for key in KEYS[step.kind])


class Reader:
    """A place in a line, and what can be read from there."""

    def __init__(self, line):
        self.line = line
        self.at = 0

    def run(self, letters):
        """The longest piece from here that has only these letters; the place stays."""
        return re.compile(rb"[%s]*" % letters).match(self.line, self.at)[0]

    def fail(self, wanted, key=""):
        raise Malformed(Fault(self.at, wanted, key))

    def step(self):
        self.key("step")
        kind = self.run(b"a-z").decode()
        if kind not in KEYS:
            self.fail("kind")
        self.at += len(kind)
        fields = {"kind": kind}
        for key in KEYS[kind]:
            if self.line[self.at:self.at + 1] != b" ":
                self.fail("space", key)
            self.at += 1
            self.key(key)
            fields["sender" if key == "from" else key] = self.world() if key == "world" else self.number(key)
        if self.at < len(self.line):
            self.fail("end")
        return Step(**fields)

    def key(self, key):
        word = self.run(b"A-Za-z")
        if word != key.encode():
            self.fail("key", key)
        self.at += len(word)
        if self.line[self.at:self.at + 1] != b"=":
            self.fail("equals", key)
        self.at += 1

    def number(self, key):
        """1 to 5 digits without a leading zero."""
        digits = self.run(b"0-9")
        if not digits:
            self.fail("number", key)
        if len(digits) > 1 and digits.startswith(b"0"):
            self.fail("no leading zero", key)
        if len(digits) > DIGITS_MAX:
            self.fail("five digits", key)
        self.at += len(digits)
        return int(digits)

    def world(self):
        """Bench numbers, strictly rising, joined by commas."""
        world = []
        while True:
            place = self.at
            bench = self.number("world")
            if bench not in BENCHES or world and bench <= world[-1]:
                self.at = place
                self.fail("a bench" if bench not in BENCHES else "rising", "world")
            world.append(bench)
            if self.line[self.at:self.at + 1] != b",":
                return frozenset(world)
            self.at += 1
