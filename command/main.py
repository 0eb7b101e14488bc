"""The command ./funkenrille: which words it knows, and what each does. docs/COMMAND.md says the same for readers."""

import importlib
import signal
import sys

if sys.version_info < (3, 10):
    sys.exit("funkenrille: this Python is older than 3.10")
if signal.getsignal(signal.SIGINT) == signal.default_int_handler:
    signal.signal(signal.SIGINT, signal.SIG_DFL)  # Ctrl-C ends the command at once; only a build has something to take away first

from pathlib import Path

import explain
import program
import streams
from build import Stopped
from status import DONE, NOT_BUILT, TOO_LONG, WRONG_USE, Failure

TOP = Path(__file__).resolve().parent.parent
sys.path.insert(1, str(TOP / "draw"))

USAGE = {
    "run": "run [FILE]      play a run text and print its report",
    "ledger": "ledger [FILE]   play a ledger script and print its report",
    "check": "check [FILE]    say which lines of a run text are malformed or refused, and why",
    "draw": "draw [FILE]     draw a run text as a space-time diagram (SVG)",
    "page": "page [FILE]     make a page of it to step through (HTML)",
    "explain": "explain N...    what refusal N means and what to do",
    "help": "help [COMMAND]  this page, or a line on one command",
}

PAGE = """\
funkenrille: play run texts and ledger scripts, and see what they come to

{commands}

Without FILE, or where it is '-', the text is read from standard input; what comes of it goes to
standard output. Every command knows --help and --version, and '--' before a FILE that begins with '-'.

The first use of run and of ledger builds the program, which proves all that it stands on and takes
some minutes. The Rattle kit has to be on PATH for that; the other commands need Python alone.

Status: 0 it was printed, whole; 1 check found a malformed line; 2 wrong use; 3 the text was refused
with 23; 4 something could not be read or written; 5 a program could not be built or started;
128 + n ended by signal n.

docs/RUN-TEXT.md has the form of run texts, docs/LEDGER-SCRIPT.md that of ledger scripts,
docs/REFUSALS.md every refusal, docs/COMMAND.md this command in full.
"""


def version():
    return "funkenrille " + (TOP / "VERSION").read_text()


def page(name=None):
    if name:
        return f"usage: ./funkenrille {USAGE[name]}\n"
    return PAGE.format(commands="\n".join(f"  ./funkenrille {line}" for line in USAGE.values()))


def wrong(sentence):
    return Failure(WRONG_USE, f"{sentence}; './funkenrille help' says how")


def plain(words):
    """The words without options, of which every command knows the same two; an option that asks for something else is handed back in its stead."""
    left = []
    for at, word in enumerate(words):
        if word == "--":
            return None, left + words[at + 1:]
        if word in ("--help", "-h"):
            return page, left
        if word == "--version":
            return version, left
        if word.startswith("-") and word != "-":
            raise wrong(f"there is no option '{word}'")
        left.append(word)
    return None, left


def one_text(words):
    """Name and bytes of the one text that the words name."""
    if len(words) > 1:
        raise wrong("one file at a time")
    name = words[0] if words else "-"
    return name, streams.read_text(name)


def finish(data, text):
    """Prints what came of the text, and gives the status."""
    streams.write(data)
    if len(text) <= streams.TEXT_MAX:
        return DONE
    streams.say(f"refused with 23: the text is longer than {streams.TEXT_MAX:,} bytes")
    return TOO_LONG


def play(name, words):
    _, text = one_text(words)
    return finish(program.report(TOP, name, text), text)


def show(text):
    streams.write(text.encode())
    return DONE


def help_on(words):
    if len(words) > 1 or words and words[0] not in USAGE:
        raise wrong(f"there is no help on '{' '.join(words)}'")
    return show(page(*words))


COMMANDS = {
    "run": lambda words: play("run", words),
    "ledger": lambda words: play("ledger_run", words),
    "explain": lambda words: show(explain.explained(TOP, words)),
    "help": help_on,
}


OWN_WORDS = ("check", "draw", "page")  # modules of draw/, which have options of their own


def command(words):
    """Does what the words ask, and gives the status."""
    name, *rest = words or ["help"]
    if name in ("--help", "-h", "--version"):
        name, rest = "help", words
    if name in OWN_WORDS and "--version" not in rest:
        return importlib.import_module(name).main(rest)
    if name not in COMMANDS and name not in OWN_WORDS:
        raise wrong(f"there is no command '{name}'")
    asked, left = plain(rest)
    if asked is version:
        return show(version())
    if asked is page:
        return show(page(None if name == "help" else name))
    return COMMANDS[name](left)


def main(words):
    streams.guard()
    try:
        return command(words)
    except Failure as failure:
        streams.say(failure)
        return failure.status
    except OSError as error:  # of a file of the checkout itself
        streams.say(error)
        return NOT_BUILT
    except Stopped as stopped:
        streams.end_by(stopped.number)


if __name__ == "__main__":
    sys.exit(main(sys.argv[1:]))
