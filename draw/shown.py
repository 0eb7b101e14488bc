"""How bytes, worlds and messages are shown to people: safe in a terminal, in a picture and on a page, and never wider than said."""

import re
from pathlib import Path

REFUSALS = Path(__file__).resolve().parent.parent / "docs" / "REFUSALS.md"


def letters(text):
    """The bytes of a line as pieces that can be shown, each with the place of its first byte.

    Narrow printable letters stand for themselves, all else is escaped: wide, stacked or right-to-left letters would break a column.
    Spaces that are easily overlooked, at the ends and where several stand together, become visible.
    """
    pieces, at = [], 0
    hidden = {i for spaces in re.finditer(rb"^ +| +$| {2,}", text) for i in range(*spaces.span())}
    for letter in text.decode("utf-8", "surrogateescape"):
        size = 1 if "\udc80" <= letter <= "\udcff" else len(letter.encode())
        if "\udc80" <= letter <= "\udcff":
            piece = f"\\x{ord(letter) - 0xdc00:02x}"
        elif at in hidden:
            piece = "\u2423"
        else:
            piece = letter if letter.isprintable() and letter < "\u0250" else letter.encode("unicode_escape").decode()
        pieces.append((at, piece))
        at += size
    return pieces


def legible(text, most):
    """The bytes of a line as text of at most so many letters; where it is cut, it says how much is left."""
    if text == b"":
        return "(empty line)"
    shown = "".join(piece for _, piece in letters(text[:4 * most]))
    if len(shown) <= most and len(text) <= 4 * most:
        return shown
    rest = f"\u2026 ({len(text)} bytes)"
    return shown[:most - len(rest)] + rest


def with_caret(text, at, most):
    """The line and, under the byte at this place, a caret; of a long line the part around it."""
    first = max(0, at - 2 * most)
    pieces = [(first + place, piece) for place, piece in letters(text[first:at + 2 * most])]
    column = sum(len(piece) for place, piece in pieces if place < at)
    shown = "".join(piece for _, piece in pieces)
    if first or column > most - 10:
        skip = max(0, column - most // 2)
        shown, column = "\u2026" + shown[skip:], column - skip + 1
    return (shown if len(shown) <= most else shown[:most - 1] + "\u2026"), " " * column + "^"


def world_text(world):
    """Benches as 1,2,3; four or more in a row become a range, 1-4."""
    groups = []
    for bench in sorted(world):
        if groups and bench == groups[-1][-1] + 1:
            groups[-1].append(bench)
        else:
            groups.append([bench])
    return ",".join(f"{g[0]}-{g[-1]}" if len(g) > 3 else ",".join(map(str, g)) for g in groups)


def benches_text(benches):
    return f"bench{'es' if len(benches) > 1 else ''} {world_text(benches)}"


def message_text(message):
    """A message as the picture writes it: r2 v30 {1,2}, or OUT."""
    return f"r{message.round} v{message.value} {{{world_text(message.world)}}}" if message.round else "OUT"


def sentence(words):
    return words[:1].upper() + words[1:]


def many(count, word):
    return f"{count:,} {word}{'' if count == 1 else 's'}"


def runs_text(numbers):
    """Rising line numbers as 3, 7 to 9, ...: the first few of them."""
    runs = []
    for number in numbers:
        if runs and number == runs[-1][1] + 1:
            runs[-1][1] = number
        else:
            runs.append([number, number])
    parts = [str(a) if a == b else f"{a} to {b}" for a, b in runs]
    return ", ".join(parts[:12]) + (", \u2026" if len(parts) > 12 else "")


def meanings():
    """The short meaning of each refusal number, from the headings of docs/REFUSALS.md."""
    try:
        page = REFUSALS.read_text(encoding="utf-8", errors="replace")
    except OSError:
        return {}
    return {int(n): words for n, words in re.findall(r"^## (\d+) (.+)$", page, re.MULTILINE)}
