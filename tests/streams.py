#!/usr/bin/env python3
"""Nothing is lost in silence: the command, and the programs by themselves, where something cannot be read or written.

Of the command the status and the message are held to what docs/COMMAND.md says; of the programs the message alone, since their
status is always 0. What is on standard output is in every case nothing, or the start of the true report.
"""

import fcntl
import os
import signal
import socket
import subprocess
import sys
import tempfile
import threading
import time

import programs

COMMAND = str(programs.TOP / "funkenrille")
TEXT = (programs.TOP / "crates" / "run" / "stdin").read_bytes()
MANY = b"\n" * 65536  # its report is the longest there is
DONE, WRONG_USE, TOO_LONG, NO_STREAM = 0, 2, 3, 4
PLAYERS = ([COMMAND, "run"], [COMMAND, "ledger"], [COMMAND, "draw"])
TALKERS = ([COMMAND, "explain", "11"], [COMMAND, "help"], [COMMAND, "--version"])
count = 0


def expect(what, found, wanted):
    global count
    count += 1
    if found != wanted:
        programs.stop(f"{what}: {found!r}, not {wanted!r}")


def ended(what, words, status, message, **streams):
    """Runs the words; the status must be this one, and the one line on standard error must have the message in it."""
    streams = {"stdin": subprocess.DEVNULL, "stdout": subprocess.DEVNULL, **streams}
    if "input" in streams:
        del streams["stdin"]
    ran = subprocess.run(words, stderr=subprocess.PIPE, check=False, timeout=60, **streams)
    said = ran.stderr.decode()
    expect(f"{what}: status of {words[1:]} ({said})", ran.returncode, status)
    expect(f"{what}: {words[1:]} says {said!r}", (message in said, said.count("\n")), (True, 1 if message else 0))


def closed(words, how):
    """The words, started with a stream closed."""
    return ["sh", "-c", f'exec "$@" {how}', "sh", *words]


def proved():
    """The programs by themselves, and their names in their messages."""
    return [(name, programs.proved(name)) for name in ("run", "ledger_run")]


def unreadable():
    """Standard input is a folder, closed, or does not wait and has nothing yet."""
    reader, writer = os.pipe()
    os.set_blocking(reader, False)
    folder = os.open(programs.TOP, os.O_RDONLY)
    for words in PLAYERS:
        ended("a folder as input", words, NO_STREAM, "standard input cannot be read: Is a directory", stdin=folder)
        ended("closed input", closed(words, "<&-"), NO_STREAM, "standard input cannot be read: it is closed")
        ended("input that does not wait", words, NO_STREAM, "standard input cannot be read: it does not wait", stdin=reader)
    for name, words in proved():
        message = f"{name}: standard input cannot be read"
        ended("a folder as input", words, 0, message, stdin=folder)
        ended("closed input", closed(words, "<&-"), 0, message)
        ended("input that does not wait", words, 0, message, stdin=reader)
    for descriptor in (reader, writer, folder):
        os.close(descriptor)


def files():
    """A file that cannot be opened or read is never answered by playing standard input."""
    with tempfile.TemporaryDirectory() as folder, socket.socket(socket.AF_UNIX) as listener:
        listener.bind(f"{folder}/socket")  # it is there, it may be read, and it cannot be opened
        wrong = {f"{folder}/socket": "No such device", f"{folder}/none": "No such file", "": "No such file", f"{COMMAND}/x": "Not a directory",
                 folder: "Is a directory", "x" * 5000: "File name too long"}
        for words in PLAYERS:
            for name, message in wrong.items():
                ran = subprocess.run([*words, name], input=TEXT, capture_output=True, check=False)
                expect(f"'{name[:60]}' is not played", (ran.returncode, ran.stdout), (NO_STREAM, b""))
                expect(f"'{name[:60]}': {ran.stderr!r}", message in ran.stderr.decode(), True)
        vanishing(folder)


def vanishing(folder):
    """A named pipe opens, or not, only at the moment of reading; one whose writer is gone has no text, which is a text."""
    pipe = f"{folder}/pipe"
    os.mkfifo(pipe)
    for words in PLAYERS[:2]:
        feeder = threading.Thread(target=lambda: open(pipe, "wb").close())
        feeder.start()
        ran = subprocess.run([*words, pipe], input=TEXT, capture_output=True, check=False)
        feeder.join()
        expect("an empty pipe", (ran.returncode, ran.stdout.splitlines()[-1], ran.stderr), (DONE, b"lines=0 refused=0", b""))


def unwritable():
    """Standard output is full, closed, does not wait, or may not grow further."""
    with open("/dev/full", "wb") as full, tempfile.TemporaryDirectory() as folder:
        for words in PLAYERS + TALKERS:
            ended("a full disk", words, NO_STREAM, "No space left on device; what is there is not whole", stdout=full)
            ended("closed output", closed(words, ">&-"), NO_STREAM, "standard output cannot be written: it is closed")
        for name, words in proved():
            message = f"{name}: standard output cannot be written"
            ended("a full disk", words, 0, message, stdout=full)
            ended("closed output", closed(words, ">&-"), 0, message)
            ended("a full disk, refused=23", words, 0, message, stdout=full, input=MANY + b"\n")
        for words in PLAYERS[:2]:
            limited = ["sh", "-c", 'ulimit -f 8; exec "$@"', "sh", *words]
            with open(f"{folder}/grown", "wb") as file:
                ended("a file that may not grow", limited, NO_STREAM, "File too large", stdout=file, input=MANY)


def not_waiting():
    """An output that does not wait: a report that finds room is whole, and one that does not is told of."""
    for words in [*PLAYERS[:2], *(words for _, words in proved())]:
        reader, writer = os.pipe()
        fcntl.fcntl(writer, fcntl.F_SETPIPE_SZ, 65536)
        os.set_blocking(writer, False)
        ended("an output that does not wait, with room", words, DONE, "", stdout=writer, input=TEXT)
        small = os.read(reader, 65536)
        expect("a small report is whole", small.endswith((b"lines=7 refused=1\n", b"lines=7 refused=7\n")), True)
        status = NO_STREAM if words[0] == COMMAND else 0
        ended("an output that does not wait", words, status, "standard output cannot be written", stdout=writer, input=MANY)
        expect("what was written is the report's start", os.read(reader, 65536).startswith(b"line=1 answer=20\nline=2 answer=20\n"), True)
        os.close(reader)
        os.close(writer)


def broken_pipe():
    """A reader that goes ends every command quietly, as it ends any other program."""
    for words in [*PLAYERS, *TALKERS]:
        reader, writer = os.pipe()
        os.close(reader)
        ended("a broken pipe", words, -signal.SIGPIPE, "", stdout=writer, input=MANY)
        os.close(writer)


def scripts():
    """The scripts that people call besides: the comparison stands for all, since they end by one function."""
    words = [sys.executable, "-B", str(programs.TOP / "tests" / "compare.py"), "--lines", "100"]
    with open("/dev/full", "wb") as full:
        ended("a full disk", words, NO_STREAM, "No space left on device", stdout=full)
    ended("closed output", closed(words, ">&-"), NO_STREAM, "standard output is closed")
    reader, writer = os.pipe()
    os.close(reader)
    ended("a broken pipe", words, -signal.SIGPIPE, "", stdout=writer)
    os.close(writer)


def interrupted():
    """A text that comes in pieces, while the reader is stopped and told to go on, and a reader that takes its time: nothing is lost."""
    for (name, program), words in zip(proved(), PLAYERS):
        text = TEXT * 300
        wanted = subprocess.run(program, input=text, capture_output=True, check=True).stdout
        expect(f"{name}: {len(wanted)} bytes", wanted.count(b"\n") > 2100, True)
        child = subprocess.Popen(words, stdin=subprocess.PIPE, stdout=subprocess.PIPE, stderr=subprocess.PIPE)
        with child.stdin as feed:
            for at in range(0, len(text), 9001):
                feed.write(text[at:at + 9001])
                feed.flush()
                for number in (signal.SIGSTOP, signal.SIGCONT, signal.SIGWINCH):
                    time.sleep(0.002)
                    child.send_signal(number)
        made = b""
        while part := os.read(child.stdout.fileno(), 4096):
            made += part
        expect(f"{name}: a text in pieces", (child.wait(), child.stderr.read(), made), (DONE, b"", wanted))


def longest():
    """The longest report of each program, through the command, byte for byte; and the refusal with 23, of which all three tell alike."""
    for (_, program), words in zip(proved(), PLAYERS):
        wanted = subprocess.run(program, input=MANY, capture_output=True, check=True).stdout
        ran = subprocess.run(words, input=MANY, capture_output=True, check=False)
        expect(f"{words[1]}: the longest report", (ran.returncode, ran.stdout == wanted, len(wanted) > 1_200_000), (DONE, True, True))
        ran = subprocess.run(words, input=MANY + b"\n", capture_output=True, check=False)
        expect(f"{words[1]}: too long", (ran.returncode, ran.stdout), (TOO_LONG, b"refused=23\n"))
    for words in PLAYERS:
        ended("too long", words, TOO_LONG, "refused with 23", input=MANY + b"\n")


def main():
    for test in (unreadable, files, unwritable, not_waiting, broken_pipe, scripts, interrupted, longest):
        test()
    print(f"streams: {count} things seen of the command and of the programs; nothing was lost in silence")
    return 0


if __name__ == "__main__":
    sys.exit(main())
