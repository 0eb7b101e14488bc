"""The vocabulary of the picture: SVG elements and marks.

Every function gives markup as a string and knows nothing of runs. A mark stands centred on a point, so that a lane and the legend can
use the same one. Colours come from classes alone, so that a page can show the same picture light and dark: `style` gives them.
"""

import math
from html import escape

STYLE = """
text { font-family: sans-serif; fill: %(ink)s; }
.paper { fill: %(paper)s; }
.title { font-size: 21px; font-weight: bold; }
.subtitle, .key { font-size: 12px; fill: %(quiet)s; }
.head { font-weight: bold; text-anchor: middle; }
.chip { fill: %(chip)s; }
.foot { font-size: 12px; text-anchor: middle; }
.strong { font-weight: bold; }
.source { font-family: monospace; }
.number { text-anchor: end; fill: %(quiet)s; }
.reason, .faded { fill: %(quiet)s; }
.refused { fill: %(loss)s; }
.tag { font-weight: bold; }
.value, .in { font-weight: bold; fill: %(paper)s; text-anchor: middle; }
.badge, .ask { text-anchor: middle; fill: %(loss)s; font-weight: bold; }
.box { fill: %(paper)s; stroke: %(loss)s; stroke-width: 1.2; }
.guide { stroke: %(ghost)s; stroke-width: 1; }
.arrow { fill: none; stroke-linejoin: round; }
.out { stroke: %(quiet)s; }
.outhead { fill: %(paper)s; stroke: %(quiet)s; }
.open { stroke: %(quiet)s; fill: %(paper)s; stroke-width: 1.4; }
.lost, .thread, .awaits { stroke: %(loss)s; fill: none; stroke-width: 1.2; }
.lost { stroke-dasharray: 4 3; }
.thread { stroke-dasharray: 0.1 3.6; stroke-linecap: round; stroke-width: 1.6; }
.awaits { stroke-dasharray: 3 3; }
.cross { stroke: %(loss)s; fill: none; stroke-linecap: round; }
.halo { fill: %(paper)s; }
.hollow { fill: %(paper)s; stroke: %(quiet)s; stroke-width: 2; }
.diamond { fill: %(paper)s; stroke: %(loss)s; stroke-width: 1.8; }
.solid { fill: %(ink)s; stroke: %(paper)s; stroke-width: 1; }
.disc { stroke: %(paper)s; stroke-width: 1; }
.lane { stroke-width: 5; }
.fresh, .abstained { stroke: %(faint)s; stroke-width: 1.5; }
.abstained { stroke-dasharray: 2 4; }
.decided { stroke: %(ink)s; stroke-width: 1.5; }
"""


def style(palette, rounds, scope=""):
    """The style sheet of a picture in these colours, those of its rounds apart; with a scope, for the pictures under it alone."""
    rules = (STYLE % palette).strip().splitlines()
    for number, colour in enumerate(rounds, 1):
        rules += [f".s{number} {{ stroke: {colour}; }}", f".f{number} {{ fill: {colour}; }}"]
    if scope:
        parts = (rule.split("{", 1) for rule in rules)
        rules = [", ".join(f"{scope} {one.strip()}" for one in names.split(",")) + " {" + rest for names, rest in parts]
    return "\n".join(rules) + "\n"


def show(value):
    """A number without needless digits; anything else as it is."""
    return f"{value:.1f}".removesuffix(".0") if isinstance(value, float) else str(value)


def tag(name, *content, **attributes):
    """One element. Content is markup already; attributes are escaped here."""
    pairs = (f' {key.rstrip("_").replace("_", "-")}="{escape(show(value))}"' for key, value in attributes.items())
    return f"<{name}{''.join(pairs)}>{''.join(content)}</{name}>"


def words(kind, x, y, text, size, **attributes):
    """One line of text in a style."""
    return tag("text", escape(text), class_=kind, x=x, y=y, font_size=size, **attributes)


def line(kind, x1, y1, x2, y2, **attributes):
    return tag("line", class_=kind, x1=x1, y1=y1, x2=x2, y2=y2, **attributes)


def with_tip(tip, *markup):
    """Marks with the words that a viewer shows over them."""
    return tag("g", tag("title", escape(tip)), *markup)


def text_width(text, size, letter=0.56):
    """A cautious guess, since only the viewer knows the font."""
    return len(text) * size * letter


def mono_width(text, size):
    return text_width(text, size, 0.615)


def arrow_heads(rounds, size):
    """One filled head for each round and a hollow one for OUT."""
    def head(name, kind):
        return tag("marker", tag("path", d="M1,1 L9,4.5 L1,8 z", class_=kind), id=name, viewBox="0 0 10 9", refX=9, refY=4.5,
                   markerWidth=size, markerHeight=size, orient="auto", markerUnits="userSpaceOnUse")

    heads = [head(f"head{number}", f"f{number}") for number in range(1, rounds + 1)]
    return tag("defs", *heads, head("head0", "outhead"))


def route(x1, y1, bus, y2, x2):
    """A message's way: from the sender to the bus beside its lane, down, and straight across to the receiver in the row that takes it.

    It ends at the edge of the receiver's lane. Without a sending in sight (x1 is None) it begins on the bus.
    """
    across = math.copysign(1, x2 - bus)
    bend = min(5.0, (y2 - y1) / 2)
    begin = f"M{bus:.1f},{y1:.1f}" if x1 is None else f"M{x1:.1f},{y1:.1f}H{bus + bend:.1f}Q{bus:.1f},{y1:.1f} {bus:.1f},{y1 + bend:.1f}"
    return begin + f"V{y2 - bend:.1f}Q{bus:.1f},{y2:.1f} {bus + across * bend:.1f},{y2:.1f}H{x2 - across * 3.5:.1f}"


def arrow(path, number, width):
    """A message taken; number 0 is OUT."""
    kind = f"arrow s{number}" if number else "arrow out"
    return tag("path", class_=kind, d=path, stroke_width=width, marker_end=f"url(#head{number})")


def cross(x, y, arm, width):
    shape = f"M{x - arm:.1f},{y - arm:.1f} l{2 * arm},{2 * arm} m0,{-2 * arm} l{-2 * arm},{2 * arm}"
    return tag("path", class_="cross", d=shape, stroke_width=width)


def open_stub(x, y):
    """A message that nobody took: a short way that ends in an open ring at the point."""
    return tag("path", class_="open", d=f"M{x - 10:.1f},{y - 8:.1f} Q{x - 10:.1f},{y:.1f} {x - 3:.1f},{y:.1f}", fill="none") + tag(
        "circle", class_="open", cx=x, cy=y, r=3)


def lost_stub(x, y):
    """A message lost to a notice: a short dashed way that ends in a cross at the point."""
    return tag("path", class_="lost", d=f"M{x - 10:.1f},{y - 8:.1f} Q{x - 10:.1f},{y:.1f} {x - 3:.1f},{y:.1f}") + cross(x, y, 3, 1.6)


def lane_name(x, y, name, size):
    width = text_width(name, size, 0.62) + 18
    return tag("rect", class_="chip", x=x - width / 2, y=y - 11, width=width, height=22, rx=11) + words("head", x, y + size * 0.36, name, size)


def round_mark(x, y, number, size):
    """A disc that carries the round's number."""
    return tag("circle", class_=f"disc f{number}", cx=x, cy=y, r=size * 0.68) + words("in", x, y + size * 0.31, str(number), size * 0.86)


def decision_width(value, size):
    return max(22, text_width(value, size, 0.7) + 10)


def decision_mark(x, y, value, size):
    """A filled badge that carries the decided value."""
    width, height = decision_width(value, size), size + 6
    badge = tag("rect", class_="solid", x=x - width / 2, y=y - height / 2, width=width, height=height, rx=height / 2)
    return badge + words("value", x, y + size * 0.36, value, size)


def abstain_mark(x, y):
    return tag("circle", class_="hollow", cx=x, cy=y, r=5)


def leave_mark(x, y):
    return tag("rect", class_="hollow", x=x - 5, y=y - 5, width=10, height=10)


def fail_mark(x, y):
    return tag("circle", class_="halo", cx=x, cy=y, r=8) + cross(x, y, 5, 3)


def notice_mark(x, y):
    return tag("path", class_="diamond", d=f"M{x:.1f},{y - 6:.1f} l6,6 l-6,6 l-6,-6 z")


def refusal_width(text, size):
    return text_width(text, size, 0.62) + 8


def refusal_mark(x, y, text, size):
    """The refusal's number in a thin box."""
    width, height = refusal_width(text, size), size + 4
    box = tag("rect", class_="box", x=x - width / 2, y=y - height / 2, width=width, height=height, rx=3)
    return box + words("badge", x, y + size * 0.36, text, size)


def awaited_mark(x, y, size):
    """A question mark in a ring, on the lane of a bench that is awaited."""
    return tag("circle", class_="box", cx=x, cy=y, r=size * 0.6) + words("ask", x, y + size * 0.34, "?", size * 0.95)
