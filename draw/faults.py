"""What is wrong with a malformed line, in words: first what stands at the place, if that is a thing people know, else what was wanted."""

import re

import mend
import reading
from shown import letters, many

BYTE_ORDER_MARK = b"\xef\xbb\xbf"
SPACES = {b"\t": "a tab", b"\xc2\xa0": "a no-break space", b"\xa0": "a no-break space", b"\v": "a vertical tab", b"\f": "a form feed"}


def reason(line, fault):
    """Why the line is no step, as a phrase without a full stop."""
    rest = line[fault.at:]
    return known_thing(line, fault, rest) or WANTED[fault.wanted](line, fault, rest)


def known_thing(line, fault, rest):
    """Names what stands at the place where it is one of the usual causes; None otherwise."""
    if line == b"":
        return "the line is empty, and every line has to be a step"
    if b"\0" in line or line[:2] in (b"\xff\xfe", b"\xfe\xff"):
        return "the line has bytes 0, as a text saved as UTF-16 has; save it as UTF-8 without a byte order mark"
    if rest.startswith(BYTE_ORDER_MARK):
        return "a byte order mark stands before the first letter; save the text without it"
    if rest.startswith(b"\r"):
        where = "before the line's end, as Windows writes it" if rest == b"\r" else "inside the line"
        return f"a carriage return stands {where}; byte 10 alone ends a line"
    if re.match(rb"\s*(#|//)", rest):
        return "a comment stands here, and run text has none"
    return space(line, fault, rest)


def space(line, fault, rest):
    """What is wrong with a space, a tab or their like."""
    kind = next((words for space, words in SPACES.items() if rest.startswith(space)), None)
    if kind:
        return f"{kind} stands here; one space stands between two keys, and none elsewhere"
    if not rest.startswith(b" "):
        return None
    behind = rest.lstrip(b" ")
    if not behind:
        return f"{many(len(rest), 'space')} at the end of the line" if fault.at else "the line has nothing but spaces"
    if fault.at == 0:
        return f"{many(len(rest) - len(behind), 'space')} before the first key"
    if fault.wanted == "key":
        return "more than one space stands between two keys"
    if fault.wanted == "equals" and behind.startswith(b"="):
        return "a space stands before the equals sign"
    if fault.wanted in ("number", "kind") and not re.match(rb"[a-z]+=", behind):
        return "a space stands behind the " + ("comma" if line[fault.at - 1:fault.at] == b"," else "equals sign")
    return None


def word_at(rest, pattern=rb"[^\s=,]*"):
    """What stands there, of at most 24 bytes, made safe to show; a single space stays one."""
    found = re.match(pattern, rest, re.DOTALL)[0][:24]
    return " " if found == b" " else "".join(piece for _, piece in letters(found))


def kind(line, fault, rest):
    word = word_at(rest)
    if not word:
        return "the name of the step is missing"
    if word.lower() in reading.KEYS:
        return f"'{word}' has letters in upper case; steps are written small"
    return f"'{word}' is no step{slip(word)}: steps are {', '.join(reading.KEYS)}"


def slip(word):
    found = mend.near(word.lower(), mend.KINDS)
    return f" (a slip of '{found[0]}'?)" if found else ""


def key(line, fault, rest):
    """Another word stands where a key belongs."""
    word, wanted = word_at(rest), f"'{fault.key}='"
    if word == "":
        return f"{wanted} belongs here"
    if word.lower() == fault.key:
        return f"'{word}' has letters in upper case; keys are written small"
    if fault.key == "step" and mend.near(word.lower(), mend.KINDS) and rest[len(word):len(word) + 1] != b"=":
        return f"{wanted} is missing before '{word}'"
    if word in mend.ALL_KEYS:
        if re.search(rb"\b%s *=" % fault.key.encode(), rest):
            return f"the keys are in the wrong order: {wanted} belongs before '{word}='"
        return f"{wanted} is missing before '{word}='"
    found = mend.near(word.lower(), mend.ALL_KEYS)
    if found and found[0] == fault.key:
        return f"'{word}' is a misspelt '{fault.key}'"
    return f"'{word}' is no key; {wanted} belongs here"


def equals(line, fault, rest):
    there = f", and {'a space' if rest[:1] == b' ' else repr(word_at(rest, rb'.'))} stands there" if rest else ""
    return f"an equals sign belongs behind '{fault.key}'{there}"


def space_wanted(line, fault, rest):
    """The value before is at its end, and another key has to follow."""
    if not rest:
        return f"'{fault.key}=' is missing"
    before = "the number" if line[fault.at - 1:fault.at].isdigit() else "the step's name"
    return f"'{word_at(rest, rb'.')}' stands behind {before}, where a space and '{fault.key}=' belong"


def number(line, fault, rest):
    there = word_at(rest, rb".?")
    if fault.key == "world" and line[fault.at - 1:fault.at] == b",":
        return "no bench stands behind the comma" if there in ("", ",", " ") else f"'{there}' stands where a bench number belongs"
    if there in ("", " "):
        return "the world is empty; at least the bench itself belongs in it" if fault.key == "world" else f"'{fault.key}=' has no number"
    if there in "+-":
        return f"'{there}' is a sign, and numbers have none"
    return f"'{there}' stands where a number belongs"


def leading_zero(line, fault, rest):
    return f"'{word_at(rest, rb'[0-9]*')}' has a leading zero"


def five_digits(line, fault, rest):
    digits = re.match(rb"[0-9]*", rest)[0]
    return f"the number has {len(digits)} digits, and at most {reading.DIGITS_MAX} are read"


def a_bench(line, fault, rest):
    return f"'{word_at(rest, rb'[0-9]*')}' is no bench: a world's members are 1 to 16"


def rising(line, fault, rest):
    member = word_at(rest, rb"[0-9]*")
    before = line[:fault.at].rsplit(b"=", 1)[-1].split(b",")
    if member.encode() in before:
        return f"bench {member} stands twice in the world"
    return f"{member} stands behind {before[-2].decode()}, and a world's members are written in rising order"


def end(line, fault, rest):
    there, whole_word = word_at(rest, rb"."), word_at(rest.lstrip(b" "), rb"[^\s=]*=?\S*")
    step, in_world = line.split(b" ", 1)[0], b" world=" in line[:fault.at]
    if in_world and there == "-":
        return "a range; a world names each bench by itself, joined by commas"
    if in_world and re.match(rb"[ ;/]*[0-9]", rest):
        return f"{'a space' if there == ' ' else repr(there)} stands where a comma belongs"
    if there == " " and whole_word.startswith("step="):
        return "a second step stands on the line; each has a line of its own"
    if there == " " and "=" in whole_word:
        return f"'{whole_word}' is one key too many for '{step.decode()}'"
    return f"'{whole_word if there == ' ' else there}' stands behind the end of the step"


WANTED = {"kind": kind, "key": key, "equals": equals, "space": space_wanted, "number": number, "no leading zero": leading_zero,
          "five digits": five_digits, "a bench": a_bench, "rising": rising, "end": end}
