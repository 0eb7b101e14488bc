"""A run as data for the page: what each line is and says, and the state after every line as changes, with a whole state now and then.

The page shows what stands here and works out nothing by itself. A state has for each bench: its state, the last round sent, the value and
world of that round, the decision, whom it has heard, excuses, misses and awaits with the reasons, and what waits on each line to it.
"""

import rounds
import shown
import why
from reading import BENCHES

CHECKPOINT_EVERY = 64  # changes between two whole states
LINE_LETTERS = 160  # of a shown line


def of_bench(run, number):
    """What the page shows of one bench."""
    bench = run.benches[number]
    own = bench.own()
    state = {"state": bench.state, "round": bench.round, "decided": bench.decision,
             "value": own.value if own else None, "world": shown.world_text(own.world) if own else ""}
    running = bench.state == "running"
    view = run.view(number) if running else rounds.View({}, [], [], [])
    state.update(heard=sorted(view.heard), excused=view.excused, missed=view.missed,
                 awaited=[[member, reason] for member, reason in run.awaits(number).items()] if running else [])
    for sender in BENCHES:
        if sender != number:
            waiting = [shown.message_text(message) for message in run.waiting(number, sender)]
            state[f"from{sender}"] = "closed" if sender in bench.noticed else waiting if bench.state in rounds.TAKING else []
    return state


class Table:
    """Things told once, and named by their places."""

    def __init__(self):
        self.things = []
        self.places = {}

    def place(self, key, thing):
        if key not in self.places:
            self.places[key] = len(self.things)
            self.things.append(thing)
        return self.places[key]


class Recorder:
    """Watches a run being played, and keeps what changed."""

    def __init__(self):
        self.state = {number: of_bench(rounds.Run(), number) for number in BENCHES}
        self.changes = []  # [line, {bench: {what: its new value}}]
        self.checkpoints = [copied(self.state)]  # after every CHECKPOINT_EVERY changes
        self.texts, self.tales = Table(), Table()
        self.lines = {"text": [], "answer": [], "bench": [], "tale": []}

    def watch(self, run, line):
        self.lines["text"].append(self.texts.place(line.text, shown.legible(line.text, LINE_LETTERS)))
        self.lines["answer"].append(line.answer)
        self.lines["bench"].append(line.step.bench if line.step else 0)
        helps = why.help_lines(line.why) if line.why else []
        self.lines["tale"].append(self.tales.place((tuple(line.told), tuple(helps)), {"words": list(line.told), "helps": helps}))
        if line.answer == 0:
            self.record(run, line)

    def data(self):
        return {"texts": self.texts.things, "tales": self.tales.things, "lines": self.lines, "meanings": shown.meanings(),
                "changes": self.changes, "checkpoints": self.checkpoints, "every": CHECKPOINT_EVERY}

    def record(self, run, line):
        """The changes of a line that was done: of its bench, and of all others where it sent a message or changed a state."""
        alone = line.step.kind in ("arrive", "notice")
        change = {}
        for number in [line.step.bench] if alone else BENCHES:
            now, before = of_bench(run, number), self.state[number]
            differs = {what: value for what, value in now.items() if before[what] != value}
            if differs:
                change[number] = differs
                self.state[number] = now
        self.changes.append([line.number, change])
        if len(self.changes) % CHECKPOINT_EVERY == 0:
            self.checkpoints.append(copied(self.state))


def copied(state):
    """A state to keep; a line on which nothing waits is left out."""
    def kept(bench):
        return {what: value for what, value in bench.items() if value != [] or not what.startswith("from")}

    return {number: kept(bench) for number, bench in state.items()}
