"""The entries of docs/REFUSALS.md, by number."""

import re

from status import NOT_BUILT, WRONG_USE, Failure
from streams import why

HOW = "as in './funkenrille explain 11'"


def numbers(words):
    """The numbers that the words name: 11, answer=11, and the lines line=5 answer=11 and refused=23 as a report has them."""
    named = []
    for word in " ".join(words).split():
        if found := re.fullmatch(r"(?:answer=)?([0-9]{1,5})|refused=(23)", word):
            named.append(int(found[1] or found[2]))
        elif not re.fullmatch(r"line=[0-9]+", word):
            raise Failure(WRONG_USE, f"explain wants refusal numbers, {HOW}, and '{word}' is none")
    if not named:
        raise Failure(WRONG_USE, f"explain wants a refusal number, {HOW}")
    return named


def entries(top):
    """Title and lines of each number's entry."""
    page = top / "docs" / "REFUSALS.md"
    try:
        text = page.read_text(encoding="utf-8")
    except OSError as error:
        raise Failure(NOT_BUILT, f"'{page}' cannot be read: {why(error)}") from None
    return {int(number): (title, body) for number, title, body in re.findall(r"^## (\d+) (.+)\n((?:(?!## ).*\n)*)", text, re.M)}


def explained(top, words):
    """What the page says of the numbers, as plain text: links are left as the words that carry them."""
    known, said = entries(top), []
    for number in numbers(words):
        if number not in known:
            raise Failure(WRONG_USE, f"there is no refusal {number}: the numbers are those of docs/REFUSALS.md")
        title, body = known[number]
        lines = [line for line in re.sub(r"\[([^]]*)\]\([^)]*\)", r"\1", body).splitlines() if line]
        said.append("\n".join([f"{number}: {title}", *lines]) + "\n")
    return "\n".join(said)
