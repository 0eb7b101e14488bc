"""How check, draw and page are called: their words, their text, their output and their status.

Each can be called by itself (`python3 -B draw/check.py FILE`), and its `main` from the command, whose streams and statuses they share.
Whatever happens, a person sees one line and never a traceback.
"""

import argparse
import os
import signal
import stat
import sys
from pathlib import Path

if sys.version_info < (3, 10):  # each of the three imports this first of all in the folder
    sys.exit("funkenrille: this Python is older than 3.10")

sys.path.insert(0, str(Path(__file__).resolve().parent.parent / "command"))
import streams  # noqa: E402
from status import DONE, FOUND, NO_STREAM, TOO_LONG, WRONG_USE, Failure  # noqa: E402

TEXT_TOO_LONG = f"refused with 23: the text is longer than {streams.TEXT_MAX:,} bytes"


class Words(argparse.ArgumentParser):
    """The words of a command; wrong ones end it with one line."""

    def __init__(self, name, does):
        super().__init__(prog=f"./funkenrille {name}", description=does, allow_abbrev=False)
        self.name = name
        self.add_argument("file", nargs="?", default="-", metavar="FILE", help="the run text; without it, or for -, standard input")
        self.add_argument("-o", metavar="OUT", dest="out", default="-", help="write there instead of standard output")

    def error(self, message):
        raise Failure(WRONG_USE, f"{message.replace(chr(10), ' ')}; './funkenrille {self.name} --help' says how")

    def print_help(self, file=None):
        streams.write(self.format_help().encode())


def read(options):
    """The text that the words name, and the name to show for it."""
    return streams.read_text(options.file), "run text" if options.file == "-" else Path(options.file).name


def is_too_long(text):
    return len(text) > streams.TEXT_MAX


def finish(options, text, data, status=DONE):
    """Writes what came of the text, and gives the status."""
    if options.out == "-":
        streams.write(data)
    else:
        write_file(options.out, data)
    if not is_too_long(text):
        return status
    streams.say(TEXT_TOO_LONG)
    return TOO_LONG


def write_file(path, data):
    """Writes a file. One that was there is replaced when the new one is whole, and kept otherwise; a device or a pipe is written as it is."""
    try:
        if os.path.exists(path) and not stat.S_ISREG(os.stat(path).st_mode):
            write_whole(path, data, os.O_WRONLY)
        else:
            replace(os.path.realpath(path), data)
    except (OSError, ValueError) as error:
        raise Failure(NO_STREAM, f"'{path}' cannot be written: {streams.why(error) if isinstance(error, OSError) else error}") from None


def write_whole(path, data, how):
    descriptor = os.open(path, how | os.O_CLOEXEC, 0o666)
    try:
        left = memoryview(data)
        while left:
            left = left[os.write(descriptor, left):]
    finally:
        os.close(descriptor)


def replace(path, data):
    """The whole file or none: written beside its place, with interruptions held back, and then moved there."""
    beside = f"{path}.{os.getpid()}.new"
    held = signal.pthread_sigmask(signal.SIG_BLOCK, {signal.SIGINT, signal.SIGTERM, signal.SIGHUP})
    try:
        write_whole(beside, data, os.O_WRONLY | os.O_CREAT | os.O_EXCL)
        if os.path.exists(path):
            os.chmod(beside, stat.S_IMODE(os.stat(path).st_mode))
        os.replace(beside, path)
    except OSError:
        if os.path.exists(beside):
            os.unlink(beside)
        raise
    finally:
        signal.pthread_sigmask(signal.SIG_SETMASK, held)


def start(main):
    """Runs one of the three by itself, and ends with its status."""
    streams.guard()
    try:
        status = main(sys.argv[1:])
    except SystemExit:  # --help, which has been printed
        status = DONE
    except Failure as failure:
        streams.say(failure)
        status = failure.status
    except KeyboardInterrupt:
        streams.end_by(signal.SIGINT)
    sys.exit(status)
