#!/usr/bin/env python3
"""Deterministic generator of run texts and ledger scripts for comparing programs.

    generate.py run SEED LINES [--family NAME]       one run text on standard output
    generate.py ledger SEED LINES [--family NAME]    one ledger script
    generate.py families                             the names of the families
    generate.py many KIND SEED COUNT LINES FOLDER [--family NAME]
                 COUNT texts, seeds SEED, SEED + 1, ..., as FOLDER/KIND-SEED.txt

From Python: text(kind, seed, lines, family=None) gives the same bytes.

LINES is an upper bound. A text stays within 65,536 bytes, except in family
`limits`, where some are meant to be longer. The same arguments always give the
same bytes. A LINES of 70000 leaves every family free to do what it likes.
"""

import os
import random
import sys

LIMIT = 65536
OUT = None  # in a log: the message OUT; a round message is (round, value, world)
NUMBERS = range(1, 17)
ALL = 131070  # the world of all 16 benches, as in mask()
FRESH, RUNNING, DECIDED, ABSTAINED, LEFT, FAILED = range(6)

ARRIVE = [[f"step=arrive bench={b} from={f}" for f in range(17)] for b in range(17)]
NOTICE = [[f"step=notice bench={b} from={f}" for f in range(17)] for b in range(17)]
TURN = [f"step=turn bench={b}" for b in range(17)]

STRANGE = ["0", "17", "18", "255", "256", "257", "65535", "65536", "65537", "99999"]
OUT_OF_RANGE = [
    line.replace("#", n)
    for n in STRANGE
    for line in ("step=start bench=# value=1 world=1", "step=abstain bench=#",
                 "step=leave bench=#", "step=fail bench=#", "step=turn bench=#",
                 "step=arrive bench=# from=1", "step=arrive bench=1 from=#",
                 "step=notice bench=# from=2", "step=notice bench=2 from=#",
                 "step=arrive bench=# from=#", "step=notice bench=# from=#",
                 "step=start bench=# value=65536 world=2")
]
MALFORMED = [
    "", " ", "step", "step=", "step=start", "step=turn", "step=turn bench=",
    "step=turn bench=1 ", " step=turn bench=1", "step=turn  bench=1", "step=turn bench=01",
    "step=turn bench=100000", "step=turn bench=-1", "step=turn bench=+1", "step=turn bench=1\r",
    "step=turn bench=1\0", "Step=turn bench=1", "step=turn\tbench=1", "step=turn bench =1",
    "step=turn bench= 1", "step=turn bench=1,", "step=turn bench=1 from=2", "turn bench=1",
    "step=stop bench=1", "step=turn bench=\xb9", "step=turn bench=1\xa0", "bench=1 step=turn",
    "step=arrive bench=1", "step=arrive from=1 bench=2", "step=arrive bench=1 from=",
    "step=arrive bench=1 from=02", "step=arrive bench=1 from=100000", "step=notice bench=1,2",
    "step=start bench=1 value=1", "step=start bench=1 value=1 world=", "step=start bench=1 world=1",
    "step=start bench=1 value=100000 world=1", "step=start bench=1 value=00 world=1",
    "step=start bench=1 world=1 value=1", "step=start bench=1 value= world=1",
    "step=start bench=1 value=1 world=0", "step=start bench=1 value=1 world=17",
    "step=start bench=1 value=1 world=0,1", "step=start bench=1 value=1 world=1,17",
    "step=start bench=1 value=1 world=2,1", "step=start bench=1 value=1 world=1,1",
    "step=start bench=1 value=1 world=1,", "step=start bench=1 value=1 world=,1",
    "step=start bench=1 value=1 world=1,,2", "step=start bench=1 value=1 world=1, 2",
    "step=start bench=1 value=1 world=01", "step=start bench=1 value=1 world=1,02",
    "step=start bench=1 value=1 world=1;2", "step=start bench=1 value=1 world=1 2",
    "step=start bench=17 value=65536 world=17", "step=start bench=1 value=1 world=1,100001",
]

_members = {}


def members(world):
    """The benches of a world, which is kept as an integer with bit b for bench b."""
    known = _members.get(world)
    if known is None:
        known = _members[world] = tuple(b for b in NUMBERS if world >> b & 1)
    return known


def mask(benches):
    """The world of these benches."""
    world = 0
    for b in benches:
        world |= 1 << b
    return world


def spell(world):
    """A world as a run text writes it."""
    return ",".join(map(str, members(world)))


def chance(rng, *choices):
    """One of the choices."""
    return choices[int(rng.random() * len(choices))]


def some(rng, items, share):
    """Each item with this chance."""
    return [item for item in items if rng.random() < share]


def shuffled(rng, items):
    """The items in another order."""
    items = list(items)
    rng.shuffle(items)
    return items


def pack(rng, rows, lines):
    """Rows to bytes: at most `lines` rows and 65,536 bytes; at times no last byte 10."""
    data = "\n".join(rows[:lines]).encode("latin-1") + b"\n" if rows and lines > 0 else b""
    if len(data) > LIMIT:
        data = data[: data.rindex(b"\n", 0, LIMIT) + 1]
    if data and rng.random() < 0.08:
        data = data[:-1]
    return data


def cut(data, lines):
    """The first `lines` lines of some bytes."""
    rows = data.split(b"\n", lines)
    return data if len(rows) <= lines else b"\n".join(rows[:lines]) + b"\n"


# ------------------------------------------------------------------ run texts


class Run:
    """A light picture of one run. Every step is written; the answer is a good guess."""

    def __init__(self, rng):
        self.rng = rng
        self.rows = []
        self.state = [FRESH] * 17
        self.log = [[] for _ in range(17)]
        # a bench never waits for its own messages: its own position is far ahead
        self.taken = [[0] * 17 for _ in range(17)]
        for b in range(17):
            self.taken[b][b] = 1000
        self.closed = [[False] * 17 for _ in range(17)]
        self.started = {}  # bench: the world it started with
        self.failed = []
        self.finished = []  # benches neither fresh nor running

    def start(self, b, value, world):
        self.rows.append(f"step=start bench={b} value={value} world={spell(world)}")
        if self.state[b] != FRESH or value > 65535 or not world >> b & 1:
            return False
        for other, first in self.started.items():
            gone = self.state[other] in (LEFT, FAILED)
            if not first >> b & 1 or not (gone or world >> other & 1):
                return False
        self.state[b] = RUNNING
        self.started[b] = world
        self.log[b].append((1, value, world))
        return True

    def stop(self, b, kind):
        """abstain, leave or fail"""
        self.rows.append(f"step={kind} bench={b}")
        state = self.state[b]
        if state in (LEFT, FAILED) or kind == "abstain" and state != FRESH:
            return False
        if state in (FRESH, RUNNING):
            self.finished.append(b)
            if kind != "fail":
                self.log[b].append(OUT)
        if kind == "fail":
            self.failed.append(b)
        self.state[b] = {"abstain": ABSTAINED, "leave": LEFT, "fail": FAILED}[kind]
        return True

    def arrive(self, b, f):
        self.rows.append(ARRIVE[b][f])
        if self.state[b] > RUNNING or self.closed[b][f]:
            return False
        row = self.taken[b]
        if row[f] >= len(self.log[f]):
            return False
        row[f] += 1
        return True

    def notice(self, b, f):
        self.rows.append(NOTICE[b][f])
        if self.state[b] > RUNNING or self.state[f] != FAILED or self.closed[b][f] or b == f:
            return False
        self.closed[b][f] = True
        return True

    def ready(self, b):
        """What a turn of b would send: a message, or False if a member is awaited."""
        if self.state[b] != RUNNING:
            return False
        r, value, world = self.log[b][-1]
        taken, closed, log = self.taken[b], self.closed[b], self.log
        decide, heard, least = True, 1 << b, value
        for m in members(world):
            if m == b:
                continue
            t, sent = taken[m], log[m]
            if t >= r and sent[r - 1] is not OUT:
                message = sent[r - 1]
                heard |= 1 << m
                if message[1] != value or message[2] & ~world:
                    decide = False
                    if message[1] < least:
                        least = message[1]
            elif t and sent[t - 1] is OUT:
                pass
            elif closed[m]:
                decide = False
            else:
                return False
        return OUT if decide else (r + 1, least, heard)

    def turn(self, b):
        """True if b went on or decided."""
        message = self.ready(b)
        self.rows.append(TURN[b])
        if message is False:
            return False
        self.log[b].append(message)
        if message is OUT:
            self.state[b] = DECIDED
            self.finished.append(b)
        return True

    def waiting(self, b):
        """The benches from which a message waits for b."""
        row, closed, log = self.taken[b], self.closed[b], self.log
        return [f for f in NUMBERS if row[f] < len(log[f]) and not closed[f]]

    def unnoticed(self, b):
        """The failed benches that b has not noticed."""
        closed = self.closed[b]
        return [f for f in self.failed if not closed[f] and f != b]

    def active(self):
        """The benches that still take part: fresh or running."""
        return [b for b in NUMBERS if self.state[b] <= RUNNING]


def refused_step(run):
    """Writes one step that is refused (nearly always), of a kind that fits the run."""
    rng, rnd = run.rng, run.rng.random
    b, f, pick = 1 + int(rnd() * 16), 1 + int(rnd() * 16), int(rnd() * 13)
    if 3 <= pick <= 6:
        refused_start(run, pick)
    elif pick == 0:
        run.rows.append(chance(rng, *OUT_OF_RANGE))
    elif pick == 1:
        run.rows.append((ARRIVE if rnd() < 0.5 else NOTICE)[b][b])
    elif pick == 2 and run.finished:
        b = chance(rng, *run.finished)
        if run.state[b] in (LEFT, FAILED) and rnd() < 0.5:
            run.stop(b, chance(rng, "abstain", "leave", "fail"))
        else:
            chance(rng, run.arrive, run.notice)(b, f)
    elif pick == 7:
        run.arrive(b, chance(rng, *[o for o in NUMBERS if run.taken[b][o] >= len(run.log[o])]))
    elif pick == 8 and run.failed:
        f = chance(rng, *run.failed)
        shut = [o for o in NUMBERS if run.closed[o][f]]
        if shut:
            chance(rng, run.arrive, run.notice)(chance(rng, *shut), f)
    elif pick == 9 and run.state[f] != FAILED:
        run.notice(b, f)
    elif pick == 10:
        for b in shuffled(rng, run.started)[:4]:
            if run.ready(b) is False:
                run.turn(b)
                break
    elif pick == 11:
        run.rows.append(chance(rng, *MALFORMED))
    elif pick == 12 and run.started:
        run.stop(chance(rng, *run.started), "abstain")


def refused_start(run, pick):
    """Writes a start that meets refusal 3, 4, 5, 6 or 7."""
    rng = run.rng
    fresh = [o for o in NUMBERS if run.state[o] == FRESH]
    b, world = chance(rng, *(fresh or NUMBERS)), int(rng.random() * 65536) * 2
    if pick == 3:
        run.start(b, chance(rng, 65536, 65537, 70000, 99999), world | 2)
    elif pick == 4:
        run.start(b, b, world & ~(1 << b) or ALL & ~(1 << b))
    elif pick == 5 and run.started:
        run.start(b, b, (world | 1 << b) & ~(1 << chance(rng, *run.started)) or 2)
    elif run.started:  # best a bench that only those lack that have left or failed
        lacked = [o for o in fresh if any(not w >> o & 1 for w in run.started.values())]
        worlds = [w for s, w in run.started.items() if run.state[s] < LEFT]
        by_gone = [o for o in lacked if all(w >> o & 1 for w in worlds)]
        run.start(chance(rng, *(by_gone or lacked or run.started)), b, ALL)


class Plan:
    """What a deep run is to be like: who takes part, with what, and how unevenly."""

    def __init__(self, rng):
        labels = shuffled(rng, NUMBERS)
        count = min(16, 2 + int(rng.random() ** 0.5 * 16))
        self.starters = labels[: max(1, int(count * chance(rng, 0.5, 0.8, 0.9, 1.0)))]
        self.extras = labels[len(self.starters):count]  # in some worlds, but do not start
        self.pending = list(self.starters)
        self.loose = list(self.extras)  # extras that have not yet come to an end
        low = chance(rng, 0, 1, 500, 65533, int(rng.random() * 60000))
        self.values = [low + i for i in range(chance(rng, 1, 2, 3, 3))]
        if rng.random() < 0.6:
            self.values = [int(rng.random() * 65536) for _ in range(16)]
        self.fault = chance(rng, 0.05, 0.3, 0.7)  # chance to stop after a turn
        self.faults_left = int(rng.random() ** 0.5 * len(self.starters))
        self.fail_share = chance(rng, 0.3, 0.9, 1.0)
        self.hearers = chance(rng, 0.0, 0.1, 0.2, 0.5)  # of a bench that is about to stop
        self.paced = rng.random() < 0.7  # at most one bench stops in a round
        self.last_fault = 0
        self.refused = 0.04 + 0.08 * rng.random()
        self.late = chance(rng, 0.05, 0.3, 0.9)  # how soon the benches start
        self.share = chance(rng, 0.3, 0.7, 1.0)  # of the waiting lines, in one visit
        hold = chance(rng, 0.0, 0.1, 0.4)  # of all lines, those that are slow
        self.slow = {(b, f) for b in labels for f in labels if rng.random() < hold}

    def world(self, run, b):
        """A world for b that is allowed most of the time, and rarely the same twice."""
        rng = run.rng
        gone = [s for s in self.starters if run.state[s] >= LEFT]
        core = [s for s in self.starters if s not in gone]
        share = chance(rng, 0.0, 0.3, 1.0)
        world = mask(core + some(rng, gone, 0.5) + some(rng, self.extras, share)) | 1 << b
        if rng.random() < 0.03:
            world ^= 2 << int(rng.random() * 16)
        return world or 1 << b


def begin_one(run, plan):
    """Starts the next bench; if it may not start it stops in some way instead."""
    b = plan.pending.pop()
    if run.state[b] == FRESH and not run.start(b, chance(run.rng, *plan.values),
                                               plan.world(run, b)):
        plan.loose.append(b)


def end_one(run, plan):
    """A bench that will not start abstains, leaves or fails."""
    b = plan.loose.pop(int(run.rng.random() * len(plan.loose)))
    if run.state[b] == FRESH:
        run.stop(b, chance(run.rng, "abstain", "abstain", "leave", "fail"))


def stop_unevenly(run, plan, b):
    """b fails or leaves when some benches, not all, have taken its last message."""
    rng = run.rng
    plan.faults_left -= 1
    for other in some(rng, run.active(), plan.hearers):
        while other != b and not run.closed[other][b] and run.taken[other][b] < len(run.log[b]):
            run.arrive(other, b)
    run.stop(b, "fail" if rng.random() < plan.fail_share else "leave")


def stop_late(run, b):
    """A decided or abstained b leaves or fails; another empties its line and tries again."""
    run.stop(b, chance(run.rng, "leave", "fail"))
    active = run.active()
    if active and run.rng.random() < 0.5:
        other = chance(run.rng, *active)
        while run.arrive(other, b):
            pass


def visit(run, plan, b):
    """b takes some of what waits, in bursts, notices some failures and may turn."""
    rng, rnd, row, log = run.rng, run.rng.random, run.taken[b], run.log
    early = rnd() < 0.3
    if early and run.failed:
        for f in some(rng, run.unnoticed(b), 0.5):
            run.notice(b, f)
    lines = run.waiting(b)
    if rnd() < 0.3:
        lines = lines[:: 1 + int(rnd() * 3)]
    if rnd() < 0.5:
        rng.shuffle(lines)
    share, slow, burst = plan.share, plan.slow, rnd() < 0.6
    for f in lines:
        if rnd() > share or (b, f) in slow and rnd() < 0.9:
            continue
        for _ in range(len(log[f]) - row[f] if burst else 1):
            run.arrive(b, f)
    if not early and run.failed:
        for f in some(rng, run.unnoticed(b), 0.4):
            run.notice(b, f)
    if run.state[b] == RUNNING and (run.ready(b) is not False or rnd() < 0.05):
        if run.turn(b) and run.state[b] == RUNNING:
            r = run.log[b][-1][0]
            if plan.faults_left > 0 and rnd() < plan.fault and r > plan.last_fault:
                plan.last_fault = r if plan.paced else 0
                stop_unevenly(run, plan, b)


def release(run, plan):
    """When a run has come to a halt: everything held back is let go."""
    while plan.pending:
        begin_one(run, plan)
    while plan.loose:
        end_one(run, plan)
    for b in shuffled(run.rng, run.active()):
        for f in shuffled(run.rng, run.waiting(b)):
            for _ in range(len(run.log[f]) - run.taken[b][f]):
                run.arrive(b, f)
        for f in run.unnoticed(b):
            run.notice(b, f)
        if run.ready(b) is not False:
            run.turn(b)


def run_deep(rng, lines):
    """Many benches with differing worlds agree while others start late, abstain, leave
    or fail; messages are held back and come in bursts; some steps are refused."""
    run, plan, rnd, debt = Run(rng), Plan(rng), rng.random, 0.0
    rows, limit, quiet, halts = run.rows, min(lines, 3000), 0, 0
    begin_one(run, plan)
    while len(rows) < limit and halts < 25:
        before, x = len(rows), rnd()
        if plan.pending and x < plan.late:
            begin_one(run, plan)
        elif plan.loose and x > 0.95:
            end_one(run, plan)
        else:
            b = 1 + int(rnd() * 16)
            if run.state[b] > RUNNING:
                if rnd() < 0.03 and run.state[b] < LEFT:
                    stop_late(run, b)
            elif run.state[b] == RUNNING or b in plan.pending or b in plan.loose:
                visit(run, plan, b)
                if plan.faults_left > 0 and run.state[b] == RUNNING and rnd() < 0.005:
                    stop_unevenly(run, plan, b)
        written = len(rows) - before
        quiet = 0 if written else quiet + 1
        debt += written * plan.refused
        while debt > rnd() + 0.5:
            refused_step(run)
            debt -= 1
        if quiet > 30:
            before, quiet, halts = len(rows), 0, halts + 1
            release(run, plan)
            if len(rows) == before:
                break
    for _ in range(int(len(rows) * plan.refused * rnd())):
        refused_step(run)
    return pack(rng, rows, lines)


def chain_task(run, b, f, victim, heirs):
    """b comes to know what it needs of f for its round: its message, OUT or its failure."""
    row, log, r = run.taken[b], run.log[f], run.log[b][-1][0]
    if f != victim or b in heirs:
        while row[f] < min(r, len(log)) and not run.closed[b][f]:
            run.arrive(b, f)
        if row[f] < len(log) and run.rng.random() < 0.05:
            run.arrive(b, f)
    if run.state[f] == FAILED and not run.closed[b][f]:
        run.notice(b, f)


def chain_round(run, alive, victim, heirs, refused):
    """One round in which, of all benches, only the heirs hear the victim before it fails."""
    rnd, left, tasks = run.rng.random, {}, []
    tight = rnd() < 0.5
    for b in alive:
        others = [f for f in members(run.log[b][-1][2]) if f != b]
        base, left[b] = rnd(), len(others)
        tasks += [(base + (0.1 if tight else 9.0) * rnd(), b, f) for f in others]
    if victim:
        for heir in heirs:
            run.arrive(heir, victim)
        run.stop(victim, "fail")
    for _, b, f in sorted(tasks):
        if b == victim or run.state[b] != RUNNING:
            continue
        chain_task(run, b, f, victim, heirs)
        left[b] -= 1
        if left[b] == 0 or rnd() < 0.02:
            run.turn(b)
        if rnd() < refused:
            refused_step(run)


def run_rounds(rng, lines):
    """As many rounds as can be had: in each, the bench with the least value fails after
    one bench alone has heard it."""
    run, labels = Run(rng), shuffled(rng, NUMBERS)[: 6 + int(rng.random() ** 0.5 * 11)]
    world, refused, stray = mask(labels), 0.15 * rng.random(), chance(rng, 0.0, 0.0, 0.02, 0.1)
    values = [i * 7 if rng.random() > stray else int(rng.random() * 65536) for i in range(17)]
    for i in shuffled(rng, range(len(labels))):
        run.start(labels[i], values[i], world)
    for _ in range(40):
        alive = [b for b in labels if run.state[b] == RUNNING]
        if not alive or len(run.rows) >= lines:
            break
        victim = alive[0] if len(alive) > 1 and rng.random() >= stray else 0
        heirs = alive[1:2] + some(rng, alive[2:], chance(rng, 0.0, stray))
        if rng.random() < stray:
            heirs = []
        chain_round(run, alive, victim, heirs, refused)
    for _ in range(int(rng.random() * 30)):
        refused_step(run)
    return pack(rng, run.rows, lines)


def run_dense(rng, lines):
    """A few benches and quite random steps, so that every pair of states meets."""
    rnd, rows = rng.random, []
    labels = shuffled(rng, NUMBERS)[: 2 + int(rnd() * 3)]
    kinds = (["start"] * 6 + ["abstain", "leave", "fail"] + ["notice"] * chance(rng, 6, 20)
             + ["turn"] * 30 + ["arrive"] * 60)
    values = chance(rng, [7], [7, 8], [0, 65535, 65536], [3, 2, 1])
    todo = ["start"] * chance(rng, 0, len(labels), 2 * len(labels))
    if rnd() < 0.2:  # one comes and goes before the others start
        b, world = labels[0], mask(some(rng, labels[1:], 0.5) + labels[:1])
        rows = [f"step=start bench={b} value=7 world={spell(world)}",
                f"step={chance(rng, 'leave', 'fail', 'turn')} bench={b}"]
    for _ in range(min(lines, int(10 + rnd() * 30 * len(labels)))):
        kind = todo.pop() if todo else chance(rng, *kinds)
        b, f = chance(rng, *labels), chance(rng, *labels)
        while b == f and rnd() < 0.95:
            f = chance(rng, *labels)
        if rnd() < 0.02:
            b, f = chance(rng, (b, 17), (0, f), (chance(rng, *STRANGE), chance(rng, *STRANGE)))
        if kind == "start":
            world = mask(some(rng, labels, chance(rng, 0.7, 0.9, 1.0)))
            if b in NUMBERS and rnd() < 0.9:
                world |= 1 << b
            value = chance(rng, *values)
            rows.append(f"step=start bench={b} value={value} world={spell(world or 2)}")
        elif kind == "arrive" or kind == "notice":
            rows.append(f"step={kind} bench={b} from={f}")
        else:
            rows.append(f"step={kind} bench={b}")
    return pack(rng, rows, lines)


# Benches: a, b run; c, d, e, p, q are fresh; g left while running; x failed while running,
# y while fresh; z abstained. W is the world of all but o; the world of g lacks p as well,
# that of x lacks q. Each fragment meets the refusal it stands under.
FRAGMENTS = {
    1: ["turn bench=17", "start bench=0 value=65536 world=2", "arrive bench={a} from=17",
        "arrive bench=17 from=17", "notice bench=0 from={x}", "fail bench=99999"],
    2: ["arrive bench={z} from={z}", "notice bench={a} from={a}", "arrive bench={c} from={c}"],
    3: ["start bench={a} value=65536 world={b}", "abstain bench={a}", "turn bench={c}",
        "turn bench={z}", "abstain bench={z}", "leave bench={g}", "fail bench={g}",
        "arrive bench={g} from={a}", "notice bench={z} from={a}", "leave bench={x}",
        "fail bench={x}", "start bench={z} value=1 world={W}", "turn bench={x}"],
    4: ["start bench={c} value=65536 world={a}", "start bench={d} value=99999 world={W}"],
    5: ["start bench={c} value=65535 world={a}", "start bench={d} value=0 world={o}"],
    6: ["start bench={c} value=1 world={c}", "start bench={o} value=1 world={o}"],
    7: ["start bench={o} value=1 world={all}", "start bench={p} value=1 world={W}",
        "start bench={q} value=1 world={W}"],
    8: ["arrive bench={a} from={c}", "arrive bench={o} from={d}"],
    9: ["notice bench={b} from={x}", "notice bench={b} from={x}", "arrive bench={b} from={x}"],
    10: ["notice bench={a} from={b}", "notice bench={a} from={c}", "notice bench={a} from={g}",
         "notice bench={c} from={z}"],
    11: ["turn bench={a}", "turn bench={b}"],
    0: ["arrive bench={a} from={b}", "arrive bench={c} from={a}", "arrive bench={e} from={x}",
        "arrive bench={a} from={g}", "notice bench={e} from={y}", "arrive bench={a} from={z}"],
}


def run_refusals(rng, lines):
    """Every refusal number a run text can meet, by small fragments in changing order."""
    names = dict(zip("abcdegopqxyz", map(str, shuffled(rng, NUMBERS))))
    most = [b for b in NUMBERS if str(b) != names["o"]]
    names["W"], names["all"] = spell(mask(most)), spell(ALL)
    rows = []
    for n, lacks in shuffled(rng, ("ao", "bo", "gp", "xq")):
        world = mask(b for b in most if str(b) != names[lacks])
        rows.append(f"step=start bench={names[n]} value={chance(rng, 4, 5)} world={spell(world)}")
    last = [f"step={step} bench={names[n]}" for step, n in
            (("leave", "g"), ("fail", "x"), ("fail", "y"), ("abstain", "z"))]
    rows += shuffled(rng, last)
    for number in shuffled(rng, FRAGMENTS) + shuffled(rng, FRAGMENTS):
        rows += ["step=" + row.format(**names) for row in FRAGMENTS[number]]
        rows += [chance(rng, *MALFORMED)] if rng.random() < 0.3 else []
    tail = [f"start bench={names['e']} value=5 world={names['W']}",
            "leave bench={a}".format(**names), "turn bench=" + names["b"]]
    return pack(rng, rows + ["step=" + row for row in shuffled(rng, tail)], lines)


# --------------------------------------------------------- lines nearly right

BYTES = [chr(n) for n in (0, 9, 11, 13, 32, 44, 48, 49, 57, 58, 61, 47, 127, 128, 160, 178, 255)]


def mutate(rng, row):
    """A line changed a little: by a byte, or in one of its numbers."""
    rnd = rng.random
    at, pick = int(rnd() * (len(row) + 1)), int(rnd() * 15)
    byte = chance(rng, *BYTES)
    if pick == 0:
        return row[:at] + row[at + 1:]
    if pick == 1:
        return row[:at] + byte + row[at:]
    if pick == 2:
        return row[:at] + byte + row[at + 1:]
    if pick == 3:
        return row[:at] + row[at:at + 1] + row[at:]
    if pick == 4:
        return row[:at]
    if pick == 5:
        return row[at:]
    if pick == 6:
        return row.replace(" ", "  ", 1)
    if pick == 7:
        return chance(rng, " " + row, row + " ", row + "\r", row + "\0", row + ",", "\xef\xbb\xbf" + row)
    if pick == 8:
        return chance(rng, "", "\n", row + "\n", row[:at] + "\n" + row[at:])
    if pick == 9:
        return row.upper() if rnd() < 0.3 else row[:at] + row[at:].title()
    return mutate_number(rng, row)


def mutate_number(rng, row):
    """Changes the number behind one '=': leading zero, many digits, other lists."""
    ends = [i for i, c in enumerate(row) if c == "="]
    if not ends:
        return row + "="
    at = chance(rng, *ends) + 1
    stop = row.find(" ", at) if " " in row[at:] else len(row)
    old = row[at:stop]
    new = chance(rng, "0" + old, "", "00", "0", "017", "17", "16", "00001", "100000", "99999",
                 "65535", "65536", "4294967295", "4294967296", "04294967295", "12345678901",
                 "-" + old, "+" + old, old + ".", old + ",", old + ",17", old + "," + old,
                 old + ",16", "0," + old, "," + old, "2,1", "1,2", "1,1", "1,,2", "1,02",
                 "1,3,2", "15,16", "16,17", "1 ", old + "x", "x", old + old, "18446744073709551617")
    return row[:at] + new + row[stop:]


def spoil(rng, data, lines):
    """Mutates a share of the lines of a text."""
    share = chance(rng, 0.02, 0.1, 0.4, 0.8)
    rows = [mutate(rng, row) if rng.random() < share else row
            for row in data.decode("latin-1").split("\n")]
    rows = rows[:-1] if rows[-1:] == [""] else rows
    return cut(pack(rng, rows, lines), lines)


def run_malformed(rng, lines):
    """Run texts whose lines are right but for a byte here and there."""
    base = chance(rng, run_deep, run_dense, run_dense, run_refusals)
    return spoil(rng, base(rng, min(lines, 30 + int(rng.random() * 600))), lines)


def random_bytes(rng, lines):
    """Random bytes: all 256, or only those that occur in texts, or lines of words."""
    size = chance(rng, 1, 10, 300, 5000, 40000)
    data = rng.randbytes(int(rng.random() * size) + 1)
    pick = rng.random()
    if pick < 0.3:
        letters = b"step=arivbnchfomulwd 0123456789,=\n\n"
        data = data.translate(bytes(letters[i % len(letters)] for i in range(256)))
    elif pick < 0.6:
        words = (b"step=", b"start", b"turn", b"arrive", b"join", b"sweep", b" bench=", b" from=",
                 b" sender=", b" slot=", b" tag=", b"1", b"2", b"16", b",", b"\n", b"\n", b" ")
        data = b"".join(words[n % len(words)] for n in data)[:LIMIT]
    return cut(data, lines)


def at_limits(rng, lines, body):
    """Texts of 65,535, 65,536 or 65,537 bytes and a little around: newlines only, one
    very long line, valid lines up to the very last byte."""
    size = chance(rng, 65535, 65536, 65536, 65537, 65537,
                  chance(rng, 65534, 65538, 70000, 140000))
    pick = rng.random()
    if pick < 0.08:
        newlines = min(size, lines)
        return b"x" * (size - newlines) + b"\n" * newlines
    if pick < 0.3:
        return (chance(rng, b"1", b" ", b"\0", b"step=turn bench=1 ") * size)[:size]
    if pick < 0.4:
        return (b"step=start bench=1 value=1 world=1" + b",2" * size)[:size]
    if pick < 0.5:
        return b"x" * (size - 1) + b"\n"
    if pick < 0.9:
        return b"x" * (size - len(body) - 1) + b"\n" + body
    body = body if body.endswith(b"\n") or not body else body + b"\n"
    return body + b"x" * (size - len(body))


def run_limits(rng, lines):
    """Run texts at the limits of size."""
    body = chance(rng, run_deep, run_dense, run_rounds)
    return at_limits(rng, lines, body(rng, min(lines - 1, 1000)))


# -------------------------------------------------------------- ledger scripts


class Ledger:
    """A light picture of a ledger. Every step is written; True if it should be done."""

    def __init__(self, rng):
        self.rng = rng
        self.rows = []
        self.open = {}  # sender: its open slot, for those that joined and have not ended
        self.ended = {}  # sender: its end
        self.first = {}
        self.held = [{} for _ in range(17)]  # of each sender: slot to count
        self.total = 0
        self.next = 0

    def join(self, s, slot):
        self.rows.append(f"step=join sender={s} slot={slot}")
        if s in self.first or not self.next <= slot <= 65534:
            return False
        self.first[s] = self.open[s] = slot
        return True

    def sweep(self, s, tag):
        self.rows.append(f"step=sweep sender={s} tag={tag}")
        slot = self.open.get(s, 65535)
        if slot > 65534 or self.total >= 1024:
            return False
        held = self.held[s]
        held[slot] = held.get(slot, 0) + 1
        self.total += 1
        return True

    def close(self, s):
        self.rows.append(f"step=close sender={s}")
        if self.open.get(s, 65535) > 65534:
            return False
        self.open[s] += 1
        return True

    def end(self, s, slot):
        self.rows.append(f"step=end sender={s} slot={slot}")
        if s not in self.open or not self.next <= slot <= self.open[s]:
            return False
        del self.open[s]
        self.ended[s] = slot
        for n in [n for n in self.held[s] if n >= slot]:
            self.total -= self.held[s].pop(n)
        return True

    def count(self):
        """How many tags the next slot has."""
        n = self.next
        return sum(held.get(n, 0) for held in self.held)

    def laggard(self):
        """A sender that has the next slot or the one after it open, or None."""
        for s, slot in self.open.items():
            if slot <= self.next + 1:
                return s
        return None

    def hand_out(self, room):
        self.rows.append(f"step=handout room={room}")
        if self.laggard() is not None or self.count() > room:
            return False
        for held in self.held:
            self.total -= held.pop(self.next, 0)
        self.next += 1
        return True


def tag(rng):
    """A tag of 32 bits, mostly a short one."""
    x = rng.random()
    if x < 0.9:
        return int(x * 1000)
    return chance(rng, 0, 1, 255, 65536, 2147483647, 2147483648, 4294967294, 4294967295,
                  int(rng.random() * 4294967296))


def refused_ledger_step(ledger):
    """Writes one ledger step that is refused most of the time; a join before it, where one is wanted."""
    rng, rnd = ledger.rng, ledger.rng.random
    s, pick, n = 1 + int(rnd() * 16), int(rnd() * 13), ledger.next
    if pick == 0:
        ledger.rows.append(chance(rng, *LEDGER_OUT_OF_RANGE))
    elif pick == 1 and ledger.first:
        ledger.join(chance(rng, *ledger.first), chance(rng, n, n - 1 if n else 0, 65535))
    elif pick == 2:
        ledger.join(s, chance(rng, 65535, 65536, 99999, n - 1 if n else 65535))
    elif pick == 3:
        absent = [o for o in NUMBERS if o not in ledger.open]
        if absent:
            s = chance(rng, *absent)
            ledger.sweep(s, 1) if rnd() < 0.5 else ledger.close(s)
    elif pick == 4:
        absent = [o for o in NUMBERS if o not in ledger.first]
        if absent:
            ledger.end(chance(rng, *absent), n)
    elif pick == 5 and ledger.ended:
        s = chance(rng, *ledger.ended)
        chance(rng, ledger.end, ledger.end, ledger.sweep, ledger.join)(s, chance(rng, 0, n, 99999))
    elif pick == 6 and ledger.open:
        s = chance(rng, *ledger.open)
        ledger.end(s, chance(rng, ledger.open[s] + 1, 99999, 65535))
    elif pick == 7 and ledger.open and n:
        ledger.end(chance(rng, *ledger.open), int(rnd() * n))
    elif pick == 8:
        ledger.rows.append(chance(rng, *LEDGER_MALFORMED))
    elif pick in (9, 10) and ledger.laggard() is not None:
        ledger.hand_out(chance(rng, 0, 1024, 99999))
    elif pick == 10 and len(ledger.first) < 16 and rnd() < 0.2:  # who joins now holds n up alone
        absent = [o for o in NUMBERS if o not in ledger.first]
        ledger.join(chance(rng, *absent), n + chance(rng, 0, 1, 1))
        ledger.hand_out(chance(rng, 0, 1024, 99999))
    elif ledger.laggard() is None and ledger.count():
        ledger.hand_out(chance(rng, 0, ledger.count() - 1))


LEDGER_OUT_OF_RANGE = [line.replace("#", n) for n in STRANGE for line in (
    "step=join sender=# slot=0", "step=join sender=# slot=65535", "step=sweep sender=# tag=1",
    "step=close sender=#", "step=end sender=# slot=0", "step=end sender=# slot=99999")]
LEDGER_MALFORMED = [
    "", " ", "step=join", "step=join sender=1", "step=join sender=1 slot=", "step=close sender=",
    "step=join sender=01 slot=0", "step=join sender=1 slot=00", "step=join sender=1 slot=100000",
    "step=join slot=0 sender=1", "step=join  sender=1 slot=0", "step=join sender=1 slot=0 ",
    "step=sweep sender=1", "step=sweep sender=1 tag=", "step=sweep sender=1 tag=4294967296",
    "step=sweep sender=1 tag=9999999999", "step=sweep sender=1 tag=10000000000",
    "step=sweep sender=1 tag=04294967295", "step=sweep sender=1 tag=00", "step=sweep tag=1 sender=1",
    "step=close sender=1 slot=0", "step=close sender=1\r", "step=close sender=1\0",
    "step=close sender=100000", "step=end sender=1", "step=end sender=1 slot=-1",
    "step=handout", "step=handout room=", "step=handout room=100000", "step=handout room=01",
    "step=handout room=1 ", "step=hand out room=1", "step=handout sender=1", "Step=handout room=1",
    "step=sweep sender=100000 tag=1", "step=sweep sender=1 tag=\xb2", "step=turn bench=1",
]


def deep_sender(ledger, target):
    """A step of one of the senders that have joined."""
    rng, rnd = ledger.rng, ledger.rng.random
    senders = list(ledger.open)
    s = senders[int(rnd() * len(senders))]
    x = rnd()
    if x < 0.6 and ledger.total < target:
        for _ in range(1 + int(rnd() * 4)):
            ledger.sweep(s, tag(rng))
    elif x < 0.8 or ledger.laggard() is None:
        if ledger.open[s] < ledger.next + 6:
            ledger.close(s)
    else:
        ledger.close(ledger.laggard())


def ledger_deep(rng, lines):
    """Many senders join at various slots, sweep, close and end; the slots are handed out
    with room that suffices or not."""
    ledger, rnd = Ledger(rng), rng.random
    rows, limit = ledger.rows, min(lines, 3000)
    senders = shuffled(rng, NUMBERS)[: 1 + int(rnd() * 16)]
    target, refused = chance(rng, 30, 200, 1000, 2000), 0.02 + 0.12 * rnd()
    joining, ending = chance(rng, 0.01, 0.1, 0.5), chance(rng, 0.0, 0.002, 0.01)
    while len(rows) < limit:
        x = rnd()
        if senders and (x < joining or not ledger.open):
            ledger.join(senders.pop(), ledger.next + int(rnd() * chance(rng, 1, 4, 20)))
        elif x > 1.0 - ending and ledger.open:
            s = chance(rng, *ledger.open)
            last = ledger.open[s]
            ledger.end(s, chance(rng, last, ledger.next, last - int(rnd() * 3)))
        elif rnd() < refused:
            refused_ledger_step(ledger)
        elif rnd() < 0.12 and ledger.laggard() is None:
            n = ledger.count()
            ledger.hand_out(chance(rng, n, n, n + 1, 1024, 99999))
        elif ledger.open:
            deep_sender(ledger, target)
        else:
            ledger.hand_out(0)
            if rnd() < 0.1 and not senders:
                break
    return pack(rng, rows, lines)


def ledger_full(rng, lines):
    """The store is filled to 1,024 sweeps, runs over, is emptied in part and filled again."""
    ledger, rnd = Ledger(rng), rng.random
    senders = shuffled(rng, NUMBERS)[: 1 + int(rnd() * 5)]
    for s in senders:
        ledger.join(s, 0 if rnd() < 0.8 else int(rnd() * 3))
    high = chance(rng, *[s for s in NUMBERS if s not in senders])
    if rnd() < 0.5:  # its open slot becomes 65,535, and stays out of ledger.open below
        ledger.rows += [f"step=join sender={high} slot=65534", f"step=close sender={high}"]
    for s in senders:  # each is a slot ahead, so that a slot can be handed out whenever all close
        for _ in range(int(rnd() * 200)):
            ledger.sweep(s, int(rnd() * 10))
        ledger.close(s)
    while len(ledger.rows) < min(lines, 2600):
        if not ledger.open:
            ledger.hand_out(1024)
            if ledger.total == 0:
                break
            continue
        s = chance(rng, *ledger.open)
        while ledger.total < 1024 and rnd() < 0.98 and len(ledger.rows) < lines:
            ledger.sweep(s, int(rnd() * 10))
        if ledger.total < 1024:
            ledger.close(s) if rnd() < 0.1 else None
            continue
        for _ in range(1 + int(rnd() * 3)):
            ledger.sweep(chance(rng, s, s, high), 7)
        if rnd() < 0.1:
            ledger.end(s, chance(rng, ledger.next, ledger.open[s]))
        for s in list(ledger.open):
            ledger.close(s)
        ledger.hand_out(chance(rng, 0, 1023, ledger.count()))
        ledger.hand_out(chance(rng, 1024, 1025, 99999))
    return pack(rng, ledger.rows, lines)


def ledger_high(rng, lines):
    """Slots at the upper end: 65,533 to 65,536 for joins, closes, sweeps and ends."""
    ledger, rnd = Ledger(rng), rng.random
    senders = shuffled(rng, NUMBERS)[: 2 + int(rnd() * 14)]
    slots = (65532, 65533, 65534, 65534, 65535, 65536, 99999)
    for s in senders[1:]:
        ledger.join(s, chance(rng, 65532, 65533, 65534, 65535))
    for _ in range(min(lines, 20 + int(rnd() * 150))):
        x, s = rnd(), chance(rng, *senders)
        if x < 0.1:
            ledger.join(s, chance(rng, *slots))
        elif x < 0.45:
            ledger.close(s)
        elif x < 0.85:
            ledger.sweep(s, tag(rng))
        elif x < 0.92:
            ledger.end(s, chance(rng, *slots, 0, ledger.next, int(rnd() * 65536)))
        else:
            ledger.hand_out(chance(rng, 0, 3))
    return pack(rng, ledger.rows, lines)


def ledger_dense(rng, lines):
    """A few senders, low slots and quite random steps."""
    rnd, rows = rng.random, []
    senders = shuffled(rng, NUMBERS)[: 1 + int(rnd() * 3)]
    top = chance(rng, 2, 4, 8)
    kinds = (["join"] + ["end"] + ["sweep"] * 16 + ["close"] * chance(rng, 8, 14)
             + ["handout"] * chance(rng, 2, 6, 12))
    todo = ["join"] * chance(rng, 0, len(senders), 2 * len(senders))
    for _ in range(min(lines, int(20 + rnd() * 100))):
        kind = todo.pop() if todo else chance(rng, *kinds)
        s, n = chance(rng, *senders), int(rnd() * top)
        if rnd() < 0.02:
            s = chance(rng, *STRANGE)
        if kind == "sweep":
            rows.append(f"step=sweep sender={s} tag={tag(rng)}")
        elif kind == "close":
            rows.append(f"step=close sender={s}")
        elif kind == "handout":
            rows.append(f"step=handout room={chance(rng, n, 1024, 0, 99999)}")
        else:
            rows.append(f"step={kind} sender={s} slot={n}")
    return pack(rng, rows, lines)


LEDGER_FRAGMENTS = {
    1: ["join sender=17 slot=65535", "sweep sender=0 tag=1", "close sender=18", "end sender=0 slot=9"],
    13: ["join sender={a} slot=65535", "join sender={e} slot=9"],
    14: ["join sender={o} slot=0", "join sender={o} slot=65535", "join sender={o} slot=99999"],
    15: ["sweep sender={o} tag=1", "close sender={o}", "end sender={o} slot=99999",
         "sweep sender={e} tag=1", "close sender={e}"],
    16: ["end sender={e} slot=0", "end sender={e} slot=99999"],
    17: ["sweep sender={h} tag=1", "close sender={h}"],
    18: ["end sender={a} slot=65535", "end sender={b} slot=99999"],
    19: ["end sender={a} slot=0", "end sender={h} slot=0"],
    24: ["handout room=0"],
    22: ["sweep sender={b} tag=5", "sweep sender={a} tag=6", "close sender={b}", "close sender={a}",
         "handout room=1", "handout room=0", "handout room=2"],
}


def ledger_refusals(rng, lines):
    """Every refusal number a script can meet but 25, by fragments in changing order."""
    def each(step, rest=""):
        return [f"{step} sender={{{name}}}{rest}" for name in shuffled(rng, "abe")]

    names = dict(zip("abehlo", map(str, shuffled(rng, NUMBERS))))
    rows = each("join", " slot=0") + ["handout room=1024"]
    rows += each("close") + each("sweep", " tag=4") + each("close")
    rows += ["join sender={l} slot=1", "handout room=1024", "end sender={l} slot=1", "handout room=0",
             "end sender={e} slot=1", "join sender={h} slot=65534", "close sender={h}"]
    for number in shuffled(rng, LEDGER_FRAGMENTS) + shuffled(rng, LEDGER_FRAGMENTS):
        rows += LEDGER_FRAGMENTS[number]
    rows = ["step=" + row.format(**names) for row in rows]
    for _ in range(4):
        rows.insert(int(rng.random() * len(rows)), chance(rng, *LEDGER_MALFORMED))
    return pack(rng, rows, lines)


def ledger_malformed(rng, lines):
    """Ledger scripts whose lines are right but for a byte here and there."""
    base = chance(rng, ledger_deep, ledger_dense, ledger_dense, ledger_refusals)
    return spoil(rng, base(rng, min(lines, 30 + int(rng.random() * 600))), lines)


def ledger_limits(rng, lines):
    """Ledger scripts at the limits of size."""
    body = chance(rng, ledger_deep, ledger_dense)
    return at_limits(rng, lines, body(rng, min(lines - 1, 1000)))


# ------------------------------------------------------------------- choosing

FAMILIES = {  # name: (how often of 100, function)
    "run": {"deep": (46, run_deep), "rounds": (15, run_rounds), "dense": (14, run_dense),
            "refusals": (7, run_refusals), "malformed": (12, run_malformed),
            "bytes": (3, random_bytes), "limits": (3, run_limits)},
    "ledger": {"deep": (47, ledger_deep), "full": (8, ledger_full), "high": (8, ledger_high),
               "dense": (12, ledger_dense), "refusals": (7, ledger_refusals),
               "malformed": (12, ledger_malformed), "bytes": (3, random_bytes),
               "limits": (3, ledger_limits)},
}


def text(kind, seed, lines, family=None):
    """The text of this kind ("run" or "ledger") and seed, of the family or of any."""
    rng = random.Random(f"{kind} {seed}")
    families = FAMILIES[kind]
    number = rng.random() * 100
    if family is None:
        for family, (share, _) in families.items():
            number -= share
            if number < 0:
                break
    return families[family][1](rng, lines) if lines > 0 else b""


def main(words):
    family = None
    if "--family" in words[:-1]:
        at = words.index("--family")
        family = words[at + 1]
        words = words[:at] + words[at + 2:]
    if words == ["families"]:
        for kind, families in FAMILIES.items():
            for name, (share, function) in families.items():
                print(f"{kind} {name} ({share} of 100): {' '.join(function.__doc__.split())}")
        return 0
    many = len(words) == 6 and words[0] == "many"
    kind = words[1] if many else words[0] if len(words) == 3 else None
    if kind not in FAMILIES or family not in (None, *FAMILIES[kind]):
        print(__doc__, file=sys.stderr)
        return 2
    if not many:
        sys.stdout.buffer.write(text(kind, int(words[1]), int(words[2]), family))
        return 0
    first, count, lines = map(int, words[2:5])
    for seed in range(first, first + count):
        with open(os.path.join(words[5], f"{kind}-{seed}.txt"), "wb") as file:
            file.write(text(kind, seed, lines, family))
    return 0


if __name__ == "__main__":
    sys.exit(main(sys.argv[1:]))
