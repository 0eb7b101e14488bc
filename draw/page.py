"""Makes the page of a run text: one file, without any network, to look at the run, step through it and ask it.

    page.py [-o OUT] [FILE]

The page is page.html with page.css, page.js, the picture and the run's data put in.
"""

import json
import re
from html import escape
from pathlib import Path

import calling
import colours
import draw
import moments
import svg

HERE = Path(__file__).resolve().parent


def parser():
    return calling.Words("page", "Makes a page (HTML) of a run text: the picture, and each bench's state after every line.")


def variables(palette, rounds):
    """Colours as custom properties."""
    named = {**palette, **{f"r{number}": colour for number, colour in enumerate(rounds, 1)}}
    return " ".join(f"--{name}: {colour};" for name, colour in named.items())


def style(rounds):
    """The colours for light and dark, by the viewer's wish or by the page's button, and the picture's style in them."""
    light, dark = (variables(palette, colours.of_rounds(rounds, theme)) for palette, theme in ((colours.LIGHT, "light"), (colours.DARK, "dark")))
    by_name = {name: f"var(--{name})" for name in colours.LIGHT}
    return "\n".join([
        f":root {{ color-scheme: light; {light} }}",
        f":root[data-theme=dark] {{ color-scheme: dark; {dark} }}",
        f"@media (prefers-color-scheme: dark) {{ :root:not([data-theme=light]) {{ color-scheme: dark; {dark} }} }}",
        svg.style(by_name, [f"var(--r{number})" for number in range(1, rounds + 1)], ".picture"),
    ])


def for_script(data):
    """Data as JSON that can stand in a page: nothing in it ends the script."""
    return json.dumps(data, separators=(",", ":")).replace("<", "\\u003c").replace("\u2028", "\\u2028").replace("\u2029", "\\u2029")


def placed(drawn, lines):
    """Where the page finds each line's row and each lane in the picture."""
    place = drawn.place
    rows = [place.row_of[number] for number in range(1, lines + 1)]
    return {"tops": [round(row.y - place.pitch / 2) for row in rows],
            "ends": [round(row.y - place.pitch / 2 + place.height(row)) for row in rows],
            "lanes": [[bench, round(place.x[bench])] for bench in place.benches]}


def page(text, file_name):
    """The page of a text; one that is too long gets a page that says so."""
    recorder = moments.Recorder()
    drawn, (title, subtitle, empty) = draw.made(text, file_name, recorder.watch)
    picture, count = drawn.draw(title, subtitle, empty, alone=False), len(drawn.place.run.lines)
    parts = {
        "title": escape(title), "subtitle": escape(subtitle.split(". ")[0].rstrip(".") + "."), "count": str(count), "picture": picture,
        "style": style(drawn.rounds) + (HERE / "page.css").read_text(encoding="utf-8"),
        "script": (HERE / "page.js").read_text(encoding="utf-8"),
        "data": for_script(recorder.data() | placed(drawn, count) | {"empty": empty}),
    }
    return re.sub(r"\{\{(\w+)\}\}", lambda found: parts[found[1]], (HERE / "page.html").read_text(encoding="utf-8"))


def main(arguments):
    options = parser().parse_args(arguments)
    text, name = calling.read(options)
    return calling.finish(options, text, page(text, name).encode())


if __name__ == "__main__":
    calling.start(main)
