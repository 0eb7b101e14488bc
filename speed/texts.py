#!/usr/bin/env python3
"""The benchmark's texts, the same bytes at every call: some of tests/generate.py's families, and texts that put one kind of line to the test.

    texts.py FOLDER     writes each text there, to be looked at or given to profile.sh

A text is a head and a body. The head brings the run or the ledger where the body's lines do what they are to do; what it costs is taken off.
"""

import functools
import itertools
import pathlib
import sys

sys.path.insert(0, str(pathlib.Path(__file__).resolve().parent.parent / "tests"))
import generate  # noqa: E402  found by the line above

LIMIT = generate.LIMIT
BENCHES = generate.NUMBERS
GENERATED_LINES = 70000  # no family is held back by it
DEEP_SEED = 387  # the longest run text of family deep among the first 6,000 seeds
SCRIPT_SEED = 17  # a ledger script of family deep, and one of family full, that come up to the limit
FULL_SEED = 7

WHOLE_CASE = b"""\
step=start bench=1 value=9 world=1,2,3
step=start bench=2 value=8 world=1,2,3
step=abstain bench=3
step=turn bench=1
step=arrive bench=1 from=2
step=arrive bench=1 from=3
step=turn bench=1
"""


def lines(data):
    """How many lines a text has."""
    return data.count(b"\n") + (not data.endswith(b"\n") and data != b"")


def prefix(data, size):
    """The first whole lines of a text, at most `size` bytes."""
    return data if len(data) <= size else data[: data.rindex(b"\n", 0, size) + 1]


def spelled(rows):
    """Rows as a text."""
    return "".join(row + "\n" for row in rows).encode("latin-1")


def filled(head, rows):
    """The head, and as a body the rows again and again, as many as 65,536 bytes hold."""
    room, body = LIMIT - len(spelled(head)), []
    for row in itertools.cycle(rows):
        room -= len(row) + 1
        if room < 0:
            return spelled(head), spelled(body)
        body.append(row)


# ------------------------------------------------------------------ run texts


def small():
    """Document 01's whole case, again and again, up to 1 KiB: from the second time on, most steps are refused."""
    return b"", prefix(WHOLE_CASE * 6, 1024)


def deep():
    """A deep run: many benches, differing worlds, abstaining, leaving, failing, messages held back; one line in five is refused."""
    return b"", generate.text("run", DEEP_SEED, GENERATED_LINES, "deep")


def all_started():
    """A run in which all 16 benches have started, each with a value of its own and the world of all."""
    run = generate.Run(None)
    for b in BENCHES:
        run.start(b, 1000 * b, generate.ALL)
    return run


def play_round(run, victim, deaf):
    """One round of those that run: each takes the message of every member or notices its failure. Then the victim fails, whose message
    all others have but the deaf one, and the others turn."""
    running = [b for b in BENCHES if run.state[b] == generate.RUNNING]
    for b in running:
        for f in run.waiting(b):
            if (b, f) != (deaf, victim):
                run.arrive(b, f)
        for f in run.unnoticed(b):
            run.notice(b, f)
    if victim in running:
        run.stop(victim, "fail")
        run.notice(deaf, victim)
    for b in running:
        if b != victim:
            run.turn(b)


def accepted():
    """Accepted steps alone, as many as can be had: in every round one bench fails, and bench 16 alone has not heard it, so that nobody
    decides until bench 16 is left. A run comes to its end: every round costs a bench, and so no text of 65,536 bytes is accepted whole."""
    run = all_started()
    for victim in BENCHES[:-1]:
        play_round(run, victim, 16)
    run.turn(16)
    return b"", spelled(run.rows)


def malformed():
    """Malformed lines: each kind of error that tests/generate.py knows, in turn."""
    return filled([], generate.MALFORMED)


def empty_lines():
    """Empty lines: as many lines as a text can have, and the longest report."""
    return b"", b"\n" * LIMIT


def turn_awaited():
    """Turns that are refused 11 after a look at the whole world: of 16 benches each has heard all but the last."""
    run = all_started()
    for b in BENCHES:
        for f in run.waiting(b)[:-1]:
            run.arrive(b, f)
    return filled(run.rows, generate.TURN[1:])


def turn_fresh():
    """Turns of fresh benches: refused 3 at the first look, so that reading and writing are what is left."""
    return filled([], generate.TURN[1:])


def all_taken():
    """A run in which all 16 benches have started and have taken all that waits."""
    run = all_started()
    for b in BENCHES:
        for f in run.waiting(b):
            run.arrive(b, f)
    return run


def arrive_empty():
    """Arrivals from lines on which nothing waits any more: refused 8."""
    return filled(all_taken().rows, [generate.ARRIVE[b][f] for b in BENCHES for f in BENCHES if b != f])


def arrive_taken():
    """Arrivals that are done: all 240 messages of round 2."""
    run = all_taken()
    for b in BENCHES:
        run.turn(b)
    head = spelled(run.rows)
    for b in BENCHES:
        for f in run.waiting(b):
            run.arrive(b, f)
    return head, spelled(run.rows)[len(head):]


# -------------------------------------------------------------- ledger scripts


def script_deep():
    """A deep script: senders join, sweep, close and end; slots are handed out with room that suffices or not."""
    return b"", generate.text("ledger", SCRIPT_SEED, GENERATED_LINES, "deep")


def script_full():
    """The store filled to 1,024 sweeps, run over, emptied in part and filled again."""
    return b"", generate.text("ledger", FULL_SEED, GENERATED_LINES, "full")


def script_hand_outs():
    """Many hand-outs: four senders, in each slot a sweep and a close of each, then the slot before it is handed out with its four tags."""
    joins = [f"step=join sender={s} slot=0" for s in (1, 2, 15, 16)]
    slot = [f"step=sweep sender={s} tag={1000 * s}" for s in (16, 2, 15, 1)]
    slot += [f"step=close sender={s}" for s in (1, 2, 15, 16)]
    return filled(joins + slot, [*slot, "step=handout room=1024"])


def script_empty_slots():
    """Nothing but hand-outs of slots without members."""
    return filled([], ["step=handout room=0"])


def script_held():
    """Hand-outs from a full store: sender 2 holds 1,022 sweeps for later slots while the slots of sender 1, one sweep each, are handed out, each
    when the one after it is closed."""
    slot = ["step=sweep sender=1 tag=8", "step=close sender=1"]
    head = ["step=join sender=1 slot=0", "step=join sender=2 slot=60000", *["step=sweep sender=2 tag=7"] * 1022, *slot]
    return filled(head, [*slot, "step=handout room=1024"])


def script_malformed():
    """Malformed lines of a script: each kind of error that tests/generate.py knows, in turn."""
    return filled([], generate.LEDGER_MALFORMED)


# -------------------------------------------------------------------- the list


class Text:
    """A text of the benchmark: its name in the table, its kind ("run" or "ledger"), its head and body, made when they are first wanted, and
    whether the benchmark shows how its cost grows."""

    def __init__(self, name, kind, make, grows=False):
        self.name, self.kind, self.make, self.grows = name, kind, make, grows

    @functools.cached_property
    def parts(self):
        return self.make()

    @property
    def head(self):
        return self.parts[0]

    @property
    def body(self):
        return self.parts[1]


TEXTS = [
    Text("small", "run", small),
    Text("deep", "run", deep, True),
    Text("accepted", "run", accepted, True),
    Text("malformed", "run", malformed, True),
    Text("empty lines", "run", empty_lines),
    Text("turn, one awaited", "run", turn_awaited, True),
    Text("turn, fresh", "run", turn_fresh),
    Text("arrive, nothing waits", "run", arrive_empty, True),
    Text("arrive, taken", "run", arrive_taken),
    Text("deep script", "ledger", script_deep, True),
    Text("full store", "ledger", script_full, True),
    Text("hand-outs", "ledger", script_hand_outs, True),
    Text("hand-outs, empty slots", "ledger", script_empty_slots),
    Text("hand-outs, full store", "ledger", script_held),
    Text("malformed script", "ledger", script_malformed),
]


def main(words):
    if len(words) != 1:
        print(__doc__, file=sys.stderr)
        return 2
    for text in TEXTS:
        name = text.name.replace(",", "").replace(" ", "-")
        (pathlib.Path(words[0]) / f"{text.kind}-{name}.txt").write_bytes(text.head + text.body)
    return 0


if __name__ == "__main__":
    sys.exit(main(sys.argv[1:]))
