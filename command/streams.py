"""Reading a text and writing what came of it, so that nothing is lost in silence.

Everything goes by os.read and os.write, which try an interrupted call again; no buffer is left that could fail behind the command's back when
the interpreter ends.
"""

import os
import signal
import stat
import sys

from status import NO_STREAM, Failure

TEXT_MAX = 65536
INPUT, OUTPUT, MESSAGES = 0, 1, 2
FOLDER = 3  # where ./funkenrille puts a folder that is standard input
closed = set()  # those of the three that were closed when the command began


def guard():
    """Fills the places of closed streams, so that no file that is opened later takes one of them and is read or written in its stead."""
    for descriptor in (INPUT, OUTPUT, MESSAGES):
        if not is_open(descriptor):
            closed.add(descriptor)
            os.open(os.devnull, os.O_RDWR)  # takes the lowest free place, which is this one
    if INPUT in closed and is_open(FOLDER) and stat.S_ISDIR(os.fstat(FOLDER).st_mode):
        os.dup2(FOLDER, INPUT)
        closed.remove(INPUT)


def is_open(descriptor):
    try:
        os.fstat(descriptor)
    except OSError:
        return False
    return True


def tell(words):
    """Words on standard error, as they are. Where that fails, the status still tells."""
    try:
        os.write(MESSAGES, os.fsencode(words))
    except OSError:
        pass


def say(sentence):
    """One line on standard error."""
    tell(f"funkenrille: {sentence}\n")


def why(error):
    """What the system says of an error, without number and file name."""
    if isinstance(error, BlockingIOError):
        return "it does not wait (it is set to be non-blocking)"
    return error.strerror or str(error)


def read_text(name):
    """The bytes of the file, or of standard input where the name is '-'; one more than a text may have is enough to see that it is too long."""
    if name == "-":
        if INPUT in closed:
            raise Failure(NO_STREAM, "standard input cannot be read: it is closed")
        if os.isatty(INPUT):
            say("reading from the terminal; Ctrl-D at the start of a line ends the text")
        return read_whole(INPUT, "standard input")
    try:
        descriptor = os.open(name, os.O_RDONLY | os.O_CLOEXEC)
    except OSError as error:
        raise Failure(NO_STREAM, f"'{name}' cannot be opened: {why(error)}") from None
    try:
        return read_whole(descriptor, f"'{name}'")
    finally:
        os.close(descriptor)


def read_whole(descriptor, name):
    parts, length = [], 0
    try:
        while length <= TEXT_MAX and (part := os.read(descriptor, TEXT_MAX + 1 - length)):
            parts.append(part)
            length += len(part)
    except OSError as error:
        raise Failure(NO_STREAM, f"{name} cannot be read: {why(error)}") from None
    return b"".join(parts)


def write(data):
    """Writes all of it to standard output and closes it, since some systems tell of a full disk only then. A reader that is gone ends the command as it
    ends any other: quietly, by SIGPIPE."""
    if OUTPUT in closed:
        raise Failure(NO_STREAM, "standard output cannot be written: it is closed")
    left = memoryview(data)
    try:
        while left:
            left = left[os.write(OUTPUT, left):]
        os.close(OUTPUT)
    except BrokenPipeError:
        end_by(signal.SIGPIPE)
    except OSError as error:
        raise Failure(NO_STREAM, f"standard output cannot be written: {why(error)}; what is there is not whole") from None


def end_by(number):
    """Ends the command as the signal would have, so that whoever waits for it sees that."""
    signal.signal(number, signal.SIG_DFL)
    os.kill(os.getpid(), number)
    sys.exit(128 + number)  # only where the signal is blocked
