"""Where things stand in the picture: which lines get a row, how rows follow each other, where lanes stand.

A message goes down beside its sender's lane and crosses to the receiver in the row of the line that takes it. As each row is one line
of the text, whatever crosses in it crosses alone, above it there is room for the row's label, and no arrow ever meets a label.
"""

from collections import Counter, defaultdict
from dataclasses import dataclass, field

import rounds
import shown
import svg

MARGIN = 28
SHOWN_LETTERS = 96  # of a source line: more than any well-formed one has
STRETCH = 24  # rows of refused lines in a row that are all shown
SHOWN_FIRST = 16  # rows of a longer stretch that are
LABEL_LETTERS = 24  # of the words at a refused line's lane; the tip has them all
LANE_GAP = 86  # room for a lane's name at least
BUS_GAP = 5
BAND = 48  # height of a band for names and rounds in a long run
BAND_EVERY = 40  # rows
SIZES = ((60, 27, 12), (250, 21, 11), (None, 16, 9.5))  # rows at most, their pitch, the size of letters


@dataclass
class Row:
    """One row: a line, or several alike that were refused."""

    lines: list
    done: bool
    rest: bool = False  # stands for lines that differ
    y: float = 0.0
    stubs: list = field(default_factory=list)

    @property
    def first(self):
        return self.lines[0]

    def numbers(self):
        first, last = self.lines[0].number, self.lines[-1].number
        return str(first) if first == last else f"{first}\u2013{last}"

    def source(self):
        if self.rest:
            counts = Counter(line.answer for line in self.lines)
            return f"{len(self.lines):,} more lines refused: " + ", ".join(f"{n} with {answer}" for answer, n in sorted(counts.items()))
        return shown.legible(self.first.text, SHOWN_LETTERS) + (f"  \u00d7{len(self.lines)}" if len(self.lines) > 1 else "")


@dataclass
class Stub:
    """The receivers that never took a message: those that lost it to a notice, or the others."""

    message: rounds.Message
    receivers: list
    lost: bool

    def words(self):
        return f"{'lost to' if self.lost else 'not taken by'} {shown.world_text(self.receivers)}"


def grouped(lines):
    """Rows for these lines: done ones by themselves; refused ones that are alike as one, and a long stretch of them cut short."""
    rows = []
    for line in lines:
        alike = rows and not rows[-1].done and line.answer and (rows[-1].first.text, rows[-1].first.answer) == (line.text, line.answer)
        if alike and rows[-1].lines[-1].number == line.number - 1:
            rows[-1].lines.append(line)
        else:
            rows.append(Row([line], line.answer == 0))
    kept, stretch = [], []
    for row in rows + [None]:
        if row and not row.done:
            stretch.append(row)
            continue
        if len(stretch) > STRETCH:
            stretch[SHOWN_FIRST:] = [Row([line for more in stretch[SHOWN_FIRST:] for line in more.lines], False, rest=True)]
        kept += stretch + ([row] if row else [])
        stretch = []
    return kept


class Layout:
    """All positions of one picture. Rows and lanes have theirs after `settle`, which is told where the rows begin."""

    def __init__(self, run, first, last, only):
        self.run = run
        self.meanings = shown.meanings()
        self.first, self.last = first, last
        lines = run.lines[first - 1:last]
        if only:
            lines = [line for line in lines if line.step and line.step.bench in only]
        self.rows = grouped(lines)
        self.benches = sorted(only or self.taking_part(lines)) if lines else []
        self.pitch, self.letter = next((pitch, letter) for most, pitch, letter in SIZES if most is None or len(self.rows) <= most)
        self.small = self.letter - 1.5
        self.takes = defaultdict(list)  # a message's line to the lines that take it
        for line in run.lines[:last]:
            if line.taken:
                self.takes[line.taken.line].append(line)
        self.row_of = {line.number: row for row in self.rows for line in row.lines}
        self.add_stubs()

    def taking_part(self, lines):
        """The benches that do a step here or stand in the world of one that has started."""
        found = {line.step.bench for line in lines if line.answer == 0}
        for line in self.run.lines[:self.last]:
            if line.sent and line.step.bench in found:
                found |= line.sent.world
        return found

    def settle(self, top):
        """Gives each row its height and each lane its place."""
        self.top = top
        y = top + 0.9 * self.pitch
        for i, row in enumerate(self.rows):
            if self.has_bands() and i and i % BAND_EVERY == 0:
                y += BAND
            row.y = y
            y += self.height(row)
        self.bottom = y
        self.place_lanes()

    def height(self, row):
        """A row's height: one with a second line of words has more."""
        return self.pitch + (self.small + 3 if row.stubs or not row.done else 0)

    def has_bands(self):
        return self.pitch < SIZES[0][1]

    def names(self):
        """Where the lanes say whose they are: on top, and in the bands. Each height comes with the number of the line before it."""
        bands = self.rows[BAND_EVERY::BAND_EVERY] if self.has_bands() else ()
        return [(self.top - 16, self.first - 1)] + [(row.y - BAND + 4, row.first.number - 1) for row in bands]

    def place_lanes(self):
        self.source_x = MARGIN + 10 + max((svg.text_width(row.numbers(), self.small, 0.6) for row in self.rows), default=0)
        widths = [svg.mono_width(row.source(), self.letter - 0.5) for row in self.rows]
        widths += [svg.text_width(self.reason(row), self.small) for row in self.rows if not row.done]
        self.source_end = self.source_x + max(widths, default=0)
        self.bus = self.settle_buses()
        self.slots = Counter()  # beside each lane
        for message, (slot, _) in self.bus.items():
            self.slots[message.sender] = max(self.slots[message.sender], slot + 1)
        rights, self.x = defaultdict(float), {}
        for row in self.rows:
            for bench, width in self.label_widths(row):
                rights[bench] = max(rights[bench], width)
        x = self.source_end + 30
        for bench in self.benches:
            self.x[bench] = x + self.channel(bench) + 8
            x = self.x[bench] + max(LANE_GAP - 8, rights[bench] + 12)
        self.right = x

    def label_widths(self, row):
        """How far this row's words reach to the right of their lane."""
        step = row.first.step
        if row.rest or step is None or step.bench not in self.benches:
            return
        width = svg.text_width(self.label(row), self.letter)
        if row.first.decided is not None:
            width += svg.decision_width(str(row.first.decided), self.letter) / 2
        yield step.bench, 14 + width
        if row.stubs:
            yield step.bench, 14 + sum(svg.text_width(stub.words(), self.small) + 24 for stub in row.stubs)

    def label(self, row):
        """The words at the lane; a message taken needs none, it has its arrow."""
        line = row.first
        if not row.done:
            short = line.why.short
            return short if len(short) <= LABEL_LETTERS else short[:LABEL_LETTERS - 1] + "\u2026"
        if line.decided is None and line.sent and line.sent.round:
            return shown.message_text(line.sent)
        if line.step.kind == "notice":
            lost = ", ".join(f"r{m.round}" if m.round else "OUT" for m in line.lost)
            return f"notices {line.step.sender}" + (f", {lost} lost" if lost else "")
        return {"turn": "decides", "abstain": "abstains", "leave": "leaves", "fail": "fails", "arrive": ""}[line.step.kind]

    def reason(self, row):
        """The words under a refused line in the left column."""
        if row.rest:
            return "funkenrille check tells each of them"
        if row.first.fault:
            return f"malformed ({row.first.answer}): {row.first.why.short}"
        return f"refused {row.first.answer}: {self.meanings.get(row.first.answer, '')}"

    def state_at(self, bench, number):
        """The last line up to this one that changed what the bench is or its round; None while it is fresh."""
        for line in reversed(self.run.lines[:number]):
            if line.answer == 0 and line.step.bench == bench and line.step.kind not in ("arrive", "notice"):
                return line
        return None

    def add_stubs(self):
        """Stubs of the messages that some bench in the picture could have taken and did not."""
        gone = {}  # bench to the line after which it takes nothing more
        lost = defaultdict(set)
        for line in self.run.lines[:self.last]:
            if line.answer == 0 and line.step.kind in ("abstain", "leave", "fail") or line.decided is not None:
                gone.setdefault(line.step.bench, line.number)
            for message in line.lost:
                lost[message.line].add(line.step.bench)
        for row in self.rows:
            message = row.first.sent if row.done else None
            if message:
                took = {line.step.bench for line in self.takes[message.line]} | {message.sender}
                never = [b for b in self.benches if b not in took and gone.get(b, message.line + 1) > message.line]
                for was_lost in (False, True):
                    receivers = [b for b in never if (b in lost[message.line]) == was_lost]
                    if receivers:
                        row.stubs.append(Stub(message, receivers, was_lost))

    def settle_buses(self):
        """For each message that is taken here, its slot beside the sender's lane, and where it begins: slots are shared as soon as they are free."""
        spans = []
        for row in self.rows:
            message = row.first.taken if row.done else None
            if message and message.sender in self.benches:
                sent = self.row_of.get(message.line)
                spans.append((sent.y if sent else self.top, row.y, message))
        ends, begins = {}, {}
        for begin, end, message in spans:
            begins[message], ends[message] = begin, max(end, ends.get(message, 0))
        buses, free = {}, defaultdict(list)
        for message in sorted(begins, key=lambda m: (begins[m], m.line)):
            taken = free[message.sender]
            slot = next((i for i, end in enumerate(taken) if end < begins[message]), len(taken))
            taken[slot:slot + 1] = [ends[message]]
            buses[message] = slot, begins[message]
        return buses

    def channel(self, bench):
        """How far the messages beside a lane reach to the left."""
        return BUS_GAP * self.slots[bench]

    def bus_x(self, message):
        return self.x[message.sender] - 9 - BUS_GAP * self.bus[message][0]
