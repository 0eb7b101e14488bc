"""Why a line was refused and what would help, in words, told at the line itself: the run is asked as it stood there.

What would help is said in lines of run text as well, so that it can be tried: `before` are lines that are done in front of the refused
one, and where they are `enough` it is then done too; `instead` is a line that is done in its place.
"""

import functools
from dataclasses import dataclass

import faults
import mend
import reading
import rounds
import what
from shown import benches_text, message_text, sentence, world_text

SINCE = {"running": "started", "decided": "decided", "abstained": "abstained", "left": "left", "failed": "failed"}
ALLOWED = {
    "start": "only a fresh bench starts", "abstain": "only a fresh bench abstains", "turn": "only a running bench turns",
    "arrive": "only a fresh or running bench takes messages", "notice": "only a fresh or running bench takes notices",
    "leave": "a bench that has left or failed does nothing more", "fail": "a bench that has left or failed does nothing more",
}


@dataclass(frozen=True)
class Why:
    """A refusal told: in a few words, in sentences, in lines that help, and with the benches it is about."""

    short: str
    words: tuple
    before: tuple = ()
    enough: bool = False
    instead: str | None = None
    benches: tuple = ()


def explained(text, watch=None):
    """The run of a text, each line told in words and each refused one with its Why; `watch` is called with the run after each line."""
    run = rounds.Run()
    for line in run.play(text):
        if line.answer:
            line.why = explain(run, line)
        line.told = line.why.words if line.answer else what.did(run, line)
        if watch:
            watch(run, line)
    return run


def explain(run, line):
    """The Why of the line that was refused last: the run still stands as the line met it."""
    if line.step is None:
        return malformed(line.text)
    return REFUSALS[line.answer](run, line.step)


@functools.lru_cache(mend.REMEMBERED)
def malformed(text):
    reason = faults.reason(text, reading.read(text))
    mended = mend.mend(text)
    nearest = mended.lines[0].decode() if mended and len(mended.lines) == 1 else None
    return Why(reason, (sentence(reason) + ".",), instead=nearest)


def became(run, number):
    """What a bench is, and since which line."""
    bench = run.benches[number]
    if bench.state == "fresh":
        return f"bench {number} is fresh: it has not started"
    return f"bench {number} is {bench.state} ({SINCE[bench.state]} in line {bench.since})"


def no_bench(run, step):
    named = [("bench", step.bench)] + ([("from", step.sender)] if "from" in reading.KEYS[step.kind] else [])
    wrong = [f"{key}={number}" for key, number in named if number not in reading.BENCHES]
    return Why(f"no {' and no '.join(wrong)}", (f"There is no bench for {' and '.join(wrong)}: benches are 1 to 16.",))


def itself(run, step):
    return Why("bench and from are equal", (f"Bench and from are both {step.bench}. A bench has its own messages at once: leave the line out.",))


def wrong_state(run, step):
    words = [f"{sentence(became(run, step.bench))}; {ALLOWED[step.kind]}."]
    if step.kind == "turn" and run.benches[step.bench].state == "fresh":
        words.append("Start it first.")
    return Why(f"is {run.benches[step.bench].state}", tuple(words))


def value_too_high(run, step):
    return Why("value above 65535", (f"A value is a slot, 0 to {rounds.VALUE_MAX}; {step.value} is above.",))


def lacks_itself(run, step):
    return Why("its world lacks itself", (f"The world {world_text(step.world)} lacks bench {step.bench} itself.",), instead=start_instead(run, step))


def lacks_others(run, step):
    lacked = run.lacked(step.world)
    words = [f"The world {world_text(step.world)} lacks {benches_text(lacked)}, which {'takes' if len(lacked) == 1 else 'take'} part already:"
             f" {'; '.join(became(run, n) for n in lacked)}."]
    return Why(f"its world lacks {world_text(lacked)}", tuple(words), instead=start_instead(run, step), benches=tuple(lacked))


def shut_out(run, step):
    by = run.shut_out_by(step.bench)
    words = [f"Bench {n} started in line {run.benches[n].sent[0].line} with the world {world_text(run.benches[n].started_with())}, "
             f"which lacks bench {step.bench}." for n in by]
    words.append(f"So bench {step.bench} can no longer start in this run; it can abstain.")
    return Why(f"{world_text(by)} started without it", tuple(words), instead=f"step=abstain bench={step.bench}", benches=tuple(by))


def start_instead(run, step):
    """A start with a world that lacks nobody, or abstaining where no world would do."""
    if run.shut_out_by(step.bench):
        return f"step=abstain bench={step.bench}"
    world = step.world | {step.bench} | set(run.lacked(step.world))
    return reading.spell(reading.Step("start", step.bench, step.value, frozenset(world)))


def nothing_waits(run, step):
    sender = run.benches[step.sender]
    taken = f"bench {step.bench} has taken {'the one message' if len(sender.sent) == 1 else f'all {len(sender.sent)} messages'} that it sent"
    words = [f"{sentence(became(run, step.sender))}; {taken if sender.sent else 'it has sent nothing'}."]
    before, instead = (), None
    if sender.state == "running":
        awaits = run.awaits(step.sender)
        words.append("It sends again at its next turn" + (f", and awaits {benches_text(awaits)} for it." if awaits else ", and can turn now."))
        before = () if awaits else (f"step=turn bench={step.sender}",)
    elif sender.state == "fresh":
        words.append("It sends when it starts, abstains or leaves.")
    else:
        words.append("It sends nothing more.")
        if sender.state == "failed":
            instead = f"step=notice bench={step.bench} from={step.sender}"
    return Why(f"nothing from {step.sender}", tuple(words), before, bool(before), instead, (step.sender,))


def closed(run, step):
    bench = run.benches[step.bench]
    lost = run.benches[step.sender].sent[bench.count[step.sender]:]
    words = [f"Bench {step.bench} noticed in line {bench.noticed[step.sender]} that bench {step.sender} failed, which closed the line."]
    if lost:
        words.append(f"What it had not taken is lost to it: {', '.join(map(message_text, lost))}.")
    return Why(f"line from {step.sender} is closed", tuple(words), benches=(step.sender,))


def not_failed(run, step):
    words = [f"{sentence(became(run, step.sender))}; only a failed bench is noticed."]
    waiting = run.waiting(step.bench, step.sender)
    out = run.benches[step.sender].sent[-1:] and run.benches[step.sender].sent[-1].round == rounds.OUT
    if out:
        words.append(f"It has said OUT, which {'waits on the line' if waiting else f'bench {step.bench} has taken'}.")
    instead = f"step=arrive bench={step.bench} from={step.sender}" if waiting else None
    return Why(f"{step.sender} has not failed", tuple(words), instead=instead, benches=(step.sender,))


def awaiting(run, step):
    own, view = run.benches[step.bench].own(), run.view(step.bench)
    others = [m for m in view.heard if m != step.bench]
    seen = [f"{word} {world_text(members)}" for word, members in (("heard", others), ("excused", view.excused), ("missed", view.missed)) if members]
    words = [f"Bench {step.bench} is in round {own.round} with the world {world_text(own.world)}"
             + (f": {'; '.join(seen)}." if seen else " and has nothing of the others yet.")]
    before, enough, said = [], True, {}
    for member, reason in run.awaits(step.bench).items():
        how, lines = AWAITED[reason](run, step.bench, member)
        said.setdefault(how, []).append(member)
        before += lines
        enough = enough and bool(lines)
    words += [f"It awaits {benches_text(members)}: {how}." for how, members in said.items()]
    return Why(f"awaits {world_text(view.awaited)}", tuple(words), tuple(before), enough, benches=tuple(view.awaited))


def message_waits(run, number, member):
    return f"{message_text(run.waiting(number, member)[0])} waits on the line", [f"step=arrive bench={number} from={member}"]


def not_noticed(run, number, member):
    return f"failed in line {run.benches[member].since}, and not noticed yet", [f"step=notice bench={number} from={member}"]


def is_fresh(run, number, member):
    return "fresh; wanted is a start, an abstain or a leave, or a fail and its notice", []


def not_sent(run, number, member):
    """The member is one round behind: it has to turn first."""
    awaits, behind = run.awaits(member), run.benches[member].round
    still = f"still in round {behind}, and round {behind + 1} not yet sent"
    if awaits:
        return f"{still}; awaiting {benches_text(awaits)} there", []
    return f"{still}; able to turn now", [f"step=turn bench={member}", f"step=arrive bench={number} from={member}"]


AWAITED = {rounds.WAITS: message_waits, rounds.UNNOTICED: not_noticed, rounds.FRESH: is_fresh, rounds.UNSENT: not_sent}
REFUSALS = {1: no_bench, 2: itself, 3: wrong_state, 4: value_too_high, 5: lacks_itself, 6: lacks_others, 7: shut_out,
            8: nothing_waits, 9: closed, 10: not_failed, 11: awaiting}


def help_lines(why):
    """What would help, each line with how it is meant."""
    meant = "put before it" if why.enough else "put before it, though more is needed"
    return [(meant, line) for line in why.before] + ([("instead", why.instead)] if why.instead else [])
