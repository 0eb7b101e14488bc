"""Says of a run text which lines are malformed, where and why, and of each refused step what was missing: `check.py [--fix] [FILE]`."""

import calling
import mend
import shown
import why

MOST = 110  # letters of a shown line


def parser():
    words = calling.Words("check", "Says which lines of a run text are malformed, where and why, and why steps were refused.")
    words.add_argument("--fix", action="store_true", help="write the text with every line mended that is beyond doubt")
    return words


def told(line, meanings):
    """What there is to say of one refused or malformed line, below the row that names it."""
    if line.fault:
        shown_line, caret = shown.with_caret(line.text, line.fault.at, MOST)
        nearest = mend.mend(line.text)
        return line.why.short, [f"    {shown_line}", f"    {caret}", *(told_nearest(nearest) if nearest else ["  no right line is near it"])]
    rows = [f"    {shown.legible(line.text, MOST)}", *(f"  {words}" for words in line.why.words)]
    return meanings.get(line.answer, "see docs/REFUSALS.md"), rows + [f"  {meant}: {helps}" for meant, helps in why.help_lines(line.why)]


def told_nearest(nearest):
    if not nearest.lines:
        return ["  nearest: leave the line out"]
    guess = "" if nearest.certain else " (a guess: the meaning is in doubt)"
    more = [f"  and {len(nearest.lines) - 8} more lines"] if len(nearest.lines) > 8 else []
    return [f"  nearest: {line.decode()}{guess}" for line in nearest.lines[:8]] + more


def alike(lines):
    """Refused lines in groups: those that follow each other and are told alike."""
    groups = []
    for line in lines:
        last = groups[-1][-1] if groups else None
        if last and (last.number + 1, last.text, last.why) == (line.number, line.text, line.why):
            groups[-1].append(line)
        else:
            groups.append([line])
    return groups


def report(run, text):
    """What is said of a text and its run. What was told of a line before is not told again."""
    meanings, rows, before = shown.meanings(), [], {}
    if mend.decoded(text) != text:
        rows += ["The text is saved as UTF-16, so no line of it can be read; save it as UTF-8 without a byte order mark, or use --fix.", ""]
    for group in alike([line for line in run.lines if line.answer]):
        line, last = group[0], group[-1]
        name = f"line {line.number} is" if line is last else f"lines {line.number} to {last.number} are each"
        verdict = f"{name} {'malformed' if line.fault else 'refused'} ({line.answer})"
        first = before.setdefault((line.text, line.why), line.number)
        if first != line.number:
            rows += [f"{verdict}: as in line {first}", ""]
            continue
        words, more = told(line, meanings)
        rows += [f"{verdict}: {words}", *more, ""]
    return "\n".join([*rows, summary(run, text), ""])


def summary(run, text):
    malformed = sum(line.fault is not None for line in run.lines)
    refused = sum(line.answer != 0 for line in run.lines) - malformed
    counts = f"{shown.many(len(run.lines), 'line')}: {len(run.lines) - malformed - refused} done, {refused} refused, {malformed} malformed"
    mendable = len(mend.fix(text).changed) if malformed else 0
    first = "Mend what is malformed first: it does nothing, and refusals below it may come of that.\n" if malformed and refused else ""
    return first + counts + (f"; --fix can mend {mendable} of them" if mendable else "")


def fixed(options, text):
    """Writes the mended text; what was done is said on standard error. The status is that of the text written. Of a text that is too long,
    which is not read to its end, nothing is written: OUT may be the text's own file."""
    if calling.is_too_long(text):
        raise calling.Failure(calling.TOO_LONG, calling.TEXT_TOO_LONG)
    done = mend.fix(text)
    left = f": line{'s' if len(done.left) > 1 else ''} {shown.runs_text(done.left)}" if done.left else ""
    status = calling.finish(options, text, done.text, calling.FOUND if done.left else calling.DONE)
    calling.streams.say(f"{shown.many(len(done.changed), 'line')} mended, {len(done.left)} malformed left{left}")
    return status


def main(arguments):
    options = parser().parse_args(arguments)
    text, _ = calling.read(options)
    if options.fix:
        return fixed(options, text)
    if calling.is_too_long(text):
        return calling.finish(options, text, b"refused=23\n")
    run = why.explained(text)
    malformed = any(line.fault for line in run.lines)
    return calling.finish(options, text, report(run, text).encode(), calling.FOUND if malformed else calling.DONE)


if __name__ == "__main__":
    calling.start(main)
