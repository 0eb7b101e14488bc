"""The one Python model of document 01's rounds: a run text played line by line, for `check`, the picture and the page.

`play` answers every line with the number that the run program prints for it, and keeps for each what it moved: the message it sent,
the message it took, the messages it lost. Between two lines the run can be asked for its state: what each bench is, how it views the
members of its world, what waits on each line. It is no part of the proved program; the tests hold it against that program, the report
of every prefix included.
"""

from dataclasses import dataclass, field

import reading
from reading import BENCHES

VALUE_MAX = 65535
ROUND_MAX = 6 * len(BENCHES)  # no higher round is ever sent
OUT = 0  # stands where a round message has its round
GONE = ("left", "failed")
TAKING = ("fresh", "running")  # the states in which a bench takes messages and notices

# why a member is awaited: the first that applies
WAITS, UNNOTICED, FRESH, UNSENT = "a message waits", "failed, not noticed", "fresh", "not yet sent"


@dataclass(frozen=True)
class Message:
    """A round message, or OUT, which has neither value nor world."""

    sender: int
    line: int  # the number of the line that sent it
    round: int
    value: int = 0
    world: frozenset = frozenset()


@dataclass
class Line:
    """One line of the text, its answer, and what it moved if it was done."""

    number: int
    text: bytes
    step: reading.Step | None
    fault: reading.Fault | None
    answer: int = 0
    sent: Message | None = None
    taken: Message | None = None
    lost: list = field(default_factory=list)
    decided: int | None = None
    view: "View | None" = None  # what a turn looked at
    told: tuple = ()  # the line in words, put there by why.explained
    why: object = None  # and of a refused one what would help


@dataclass(frozen=True)
class View:
    """How a running bench looks at the members of its world: heard with their messages, the others by number."""

    heard: dict
    excused: list
    missed: list
    awaited: list


class Bench:
    """One bench: what it sent, and what it has of the others."""

    def __init__(self):
        self.state = "fresh"
        self.since = 0  # the line that brought it there
        self.sent = []
        self.round = 0  # the last round sent
        self.decision = None
        self.has = {}  # (sender, round) to message, its own included
        self.count = dict.fromkeys(BENCHES, 0)  # how many it took from each line
        self.noticed = {}  # bench to the line of the notice

    def own(self):
        """The last round message that it sent, or None."""
        rounds = [message for message in self.sent if message.round != OUT]
        return rounds[-1] if rounds else None

    def started_with(self):
        """The world it started with; None if it never started."""
        return self.sent[0].world if self.round else None


class Run:
    """Sixteen benches and the lines between them."""

    def __init__(self):
        self.benches = {number: Bench() for number in BENCHES}
        self.lines = []

    def play(self, text):
        """Plays a text of at most TEXT_MAX bytes, and hands out each line as it is answered."""
        for text_line in reading.split(text):
            read = reading.read(text_line)
            malformed = isinstance(read, reading.Fault)
            line = Line(len(self.lines) + 1, text_line, None if malformed else read, read if malformed else None)
            line.answer = 20 if malformed else self.do(line, line.step)
            self.lines.append(line)
            yield line

    # -------------------------------------------------------------- what the run can be asked

    def waiting(self, number, sender):
        """The messages that wait for a bench on the line from another; none where the line is closed."""
        bench = self.benches[number]
        return [] if number == sender or sender in bench.noticed else self.benches[sender].sent[bench.count[sender]:]

    def view(self, number):
        """A running bench's view of its world."""
        bench = self.benches[number]
        own = bench.own()
        heard, excused, missed, awaited = {}, [], [], []
        for member in sorted(own.world):
            if (member, own.round) in bench.has:
                heard[member] = bench.has[member, own.round]
            elif (member, OUT) in bench.has:
                excused.append(member)
            elif member in bench.noticed:
                missed.append(member)
            else:
                awaited.append(member)
        return View(heard, excused, missed, awaited)

    def awaits(self, number):
        """Whom a running bench awaits, each with the reason."""
        return {member: self.reason(number, member) for member in self.view(number).awaited}

    def reason(self, number, member):
        if self.waiting(number, member):
            return WAITS
        return {"failed": UNNOTICED, "fresh": FRESH}.get(self.benches[member].state, UNSENT)

    def lacked(self, world):
        """The benches that take part and that this world lacks: refusal 6."""
        return [n for n, bench in self.benches.items() if bench.round and bench.state not in GONE and n not in world]

    def shut_out_by(self, number):
        """The benches that started without this one: refusal 7."""
        return [n for n, bench in self.benches.items() if bench.round and number not in bench.started_with()]

    # -------------------------------------------------------------- the steps: checks in document 01's order

    def do(self, line, step):
        bench = self.benches.get(step.bench)
        has_from = "from" in reading.KEYS[step.kind]
        if bench is None or (has_from and step.sender not in BENCHES):
            return 1
        if has_from and step.bench == step.sender:
            return 2
        return getattr(self, step.kind)(line, step, bench)

    def become(self, line, bench, state):
        bench.state, bench.since = state, line.number

    def send(self, line, bench, *content):
        """Puts a message on all lines; a bench has its own messages at once."""
        message = Message(line.step.bench, line.number, *content)
        bench.sent.append(message)
        bench.has[message.sender, message.round] = message
        bench.round = max(bench.round, message.round)
        line.sent = message

    def start(self, line, step, bench):
        if bench.state != "fresh":
            return 3
        if step.value > VALUE_MAX:
            return 4
        if step.bench not in step.world:
            return 5
        if self.lacked(step.world):
            return 6
        if self.shut_out_by(step.bench):
            return 7
        self.become(line, bench, "running")
        self.send(line, bench, 1, step.value, step.world)
        return 0

    def abstain(self, line, step, bench):
        if bench.state != "fresh":
            return 3
        self.become(line, bench, "abstained")
        self.send(line, bench, OUT)
        return 0

    def leave(self, line, step, bench):
        if bench.state in GONE:
            return 3
        self.become(line, bench, "left")
        if (step.bench, OUT) not in bench.has:
            self.send(line, bench, OUT)
        return 0

    def fail(self, line, step, bench):
        if bench.state in GONE:
            return 3
        self.become(line, bench, "failed")
        return 0

    def arrive(self, line, step, bench):
        if bench.state not in TAKING:
            return 3
        if step.sender in bench.noticed:
            return 9
        waiting = self.waiting(step.bench, step.sender)
        if not waiting:
            return 8
        bench.count[step.sender] += 1
        bench.has[step.sender, waiting[0].round] = line.taken = waiting[0]
        return 0

    def notice(self, line, step, bench):
        if bench.state not in TAKING:
            return 3
        if self.benches[step.sender].state != "failed":
            return 10
        if step.sender in bench.noticed:
            return 9
        line.lost = self.waiting(step.bench, step.sender)
        bench.noticed[step.sender] = line.number
        return 0

    def turn(self, line, step, bench):
        if bench.state != "running":
            return 3
        own, view = bench.own(), self.view(step.bench)
        line.view = view
        if view.awaited:
            return 11
        agreed = all(message.value == own.value and message.world <= own.world for message in view.heard.values())
        if agreed and not view.missed:
            self.become(line, bench, "decided")
            bench.decision = line.decided = own.value
            self.send(line, bench, OUT)
            return 0
        self.send(line, bench, bench.round + 1, min(m.value for m in view.heard.values()), frozenset(view.heard))
        return 0


def play(text):
    """The run of a whole text."""
    run = Run()
    for _ in run.play(text):
        pass
    return run


def bench_lines(run):
    """What the report says of each bench that is not fresh."""
    return [f"bench={number} state={bench.state} round={bench.round} value={'none' if bench.decision is None else bench.decision}"
            for number, bench in run.benches.items() if bench.state != "fresh"]


def report(run):
    """The run program's report, from the model."""
    answers = [f"line={line.number} answer={line.answer}" for line in run.lines]
    refused = sum(line.answer != 0 for line in run.lines)
    return "\n".join([*answers, *bench_lines(run), f"lines={len(run.lines)} refused={refused}", ""])
