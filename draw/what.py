"""What a line that was done did, in words: the other side of why.py."""

from shown import benches_text, message_text, world_text


def did(run, line):
    """Sentences on a line that was done; the run stands as the line left it."""
    return DONE[line.step.kind](run, line, line.step)


def start(run, line, step):
    return [f"Bench {step.bench} starts with {step.value} and the world {world_text(step.world)}, and sends {message_text(line.sent)} to all others."]


def abstain(run, line, step):
    return [f"Bench {step.bench} abstains: it takes no part, and sends OUT to all others."]


def leave(run, line, step):
    return [f"Bench {step.bench} leaves" + (" and sends OUT to all others." if line.sent else "; its OUT was sent before.")]


def fail(run, line, step):
    return [f"Bench {step.bench} fails, and sends nothing. What is on its lines may still arrive, until it is noticed."]


def arrive(run, line, step):
    taken = f"takes {message_text(line.taken)} from bench {step.sender}, sent in line {line.taken.line}"
    return [f"Bench {step.bench} {taken}.", *still_awaited(run, step.bench)]


def notice(run, line, step):
    lost = f"; {', '.join(map(message_text, line.lost))} {'is' if len(line.lost) == 1 else 'are'} lost to it" if line.lost else ""
    return [f"Bench {step.bench} learns that bench {step.sender} has failed{lost}. The line is closed.", *still_awaited(run, step.bench)]


def still_awaited(run, number):
    if run.benches[number].state != "running":
        return []
    awaits = run.awaits(number)
    return [f"It awaits {benches_text(awaits)} in round {run.benches[number].round}." if awaits else "It awaits nobody and can turn."]


def turn(run, line, step):
    view = line.view
    own = view.heard[step.bench]
    excused = f", {benches_text(view.excused)} {'is' if len(view.excused) == 1 else 'are'} excused" if view.excused else ""
    if line.decided is not None:
        others = [m for m in view.heard if m != step.bench]
        agree = f"{benches_text(others)} said {own.value} too, with no wider world" if others else "nobody else is left to be heard"
        return [f"Bench {step.bench} decides {line.decided} in round {own.round}: {agree}{excused}. It sends OUT to all others."]
    return [f"Bench {step.bench} cannot decide in round {own.round}: {'; '.join(obstacles(own, view))}{excused}.",
            f"It goes to round {line.sent.round} with those it heard, {world_text(line.sent.world)}, and the least value heard, {line.sent.value}."]


def obstacles(own, view):
    """Why a turn on which nobody is awaited does not decide."""
    found = [f"{benches_text(view.missed)} {'is' if len(view.missed) == 1 else 'are'} missed"] if view.missed else []
    other = [m for m in view.heard if view.heard[m].value != own.value]
    found += [f"{benches_text(other)} said another value than {own.value}"] if other else []
    wider = [m for m in view.heard if not view.heard[m].world <= own.world]
    return found + ([f"{benches_text(wider)} named a wider world"] if wider else [])


DONE = {"start": start, "abstain": abstain, "leave": leave, "fail": fail, "arrive": arrive, "notice": notice, "turn": turn}
