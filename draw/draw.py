"""Draws a run text as a space-time diagram: `draw.py [--lines A-B] [--benches 1,3] [-o OUT] [FILE]`.

A lane for each bench, time running down, one row for each line of the text, so that text and picture are read side by side.
"""

import re
from pathlib import Path

import calling
import figure
import layout
import reading
import shown
import why


def parser():
    words = calling.Words("draw", "Draws a run text as a space-time diagram (SVG).")
    words.add_argument("--lines", metavar="A-B", type=line_range, help="only these lines of the text")
    words.add_argument("--benches", metavar="1,3", type=bench_set, help="only these benches")
    words.add_argument("--html", action="store_true", help="make the page to step through instead, as 'funkenrille page' does")
    return words


def line_range(text):
    """`5-9`, `5-` or `5`: the first and the last line."""
    found = re.fullmatch(r"([1-9]\d{0,8})(-?)(\d{0,9})", text)
    if not found or found[3] and (not found[2] or int(found[3]) < int(found[1])):
        raise calling.Failure(calling.WRONG_USE, f"'{text}' is no range of lines: --lines wants A-B, as in --lines 5-9")
    return int(found[1]), int(found[3]) if found[3] else reading.TEXT_MAX if found[2] else int(found[1])


def bench_set(text):
    parts = text.split(",")
    if not all(re.fullmatch("[1-9]|1[0-6]", part) for part in parts):
        raise calling.Failure(calling.WRONG_USE, f"'{text}' names no benches: --benches wants numbers 1 to 16 joined by commas, as in --benches 1,3")
    return frozenset(map(int, parts))


def title_of(file_name):
    """`05-lid-shut.txt` is "Lid shut"."""
    stem = re.sub(r"^0\d\W+", "", Path(file_name).stem)
    title = re.sub("[-_]+", " ", stem).strip() or file_name
    return shown.legible((title[:1].upper() + title[1:]).encode(errors="replace"), 60)


def subtitle_of(run, name, lines, benches):
    """What the text has, and which part of it is shown."""
    refused = sum(line.answer != 0 for line in run.lines)
    part = [f"lines {lines[0]} to {min(lines[1], len(run.lines))}"] if lines else []
    part += [f"{shown.benches_text(benches)} alone"] if benches else []
    words = f"{name}: {shown.many(len(run.lines), 'line')}, {refused or 'none'} refused" + (f"; shown: {', '.join(part)}" if part else "")
    return f"{words}. Time runs down, a row for each line."


def made(text, file_name, watch=None, lines=None, benches=None):
    """The figure of a text's run, or of a part of it, and the words on top: title, subtitle, and what is said where there is no row."""
    title, name = title_of(file_name), shown.legible(file_name.encode(errors="replace"), 60)
    if calling.is_too_long(text):
        nothing = figure.Figure(layout.Layout(why.explained(b""), 1, 0, None))
        return nothing, (title, f"{name}: not read.", shown.sentence(calling.TEXT_TOO_LONG) + ".")
    run = why.explained(text, watch)
    first, last = lines or (1, len(run.lines))
    if lines and first > len(run.lines):
        raise calling.Failure(calling.WRONG_USE, f"the text has {shown.many(len(run.lines), 'line')}, and --lines begins with {first}")
    drawn = figure.Figure(layout.Layout(run, first, min(last, len(run.lines)), benches))
    empty = "No line shown is a step of these benches." if run.lines else "The text has no line."
    return drawn, (title, subtitle_of(run, name, lines, benches), empty)


def picture(text, file_name, lines=None, benches=None):
    """The picture of a text; one that is too long gets a picture that says so."""
    drawn, on_top = made(text, file_name, None, lines, benches)
    return drawn.draw(*on_top)


def main(arguments):
    options = parser().parse_args(arguments)
    text, name = calling.read(options)
    if options.html:
        if options.lines or options.benches:
            raise calling.Failure(calling.WRONG_USE, "--html shows the whole run, and takes neither --lines nor --benches")
        import page  # here, since the page draws the picture too
        return calling.finish(options, text, page.page(text, name).encode())
    return calling.finish(options, text, picture(text, name, options.lines, options.benches).encode())


if __name__ == "__main__":
    calling.start(main)
