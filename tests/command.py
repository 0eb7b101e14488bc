#!/usr/bin/env python3
"""The words that ./funkenrille knows, and the status with which it ends: one meaning in every command, and never a traceback."""

import array
import fcntl
import os
import re
import shutil
import signal
import subprocess
import sys
import tempfile
import termios
import time

import programs

COMMAND = programs.TOP / "funkenrille"
VERSION = "funkenrille " + (programs.TOP / "VERSION").read_text()
EXAMPLE = programs.TOP / "examples" / "01-alone.txt"
PLAYERS = ("run", "ledger", "draw")
NAMES = (*PLAYERS, "explain", "help")
STATUSES = range(6)
DONE, FOUND, WRONG_USE, TOO_LONG, NO_STREAM, NOT_BUILT = STATUSES
count = 0


def call(*words, text=b"", status=DONE, **more):
    """Calls the command; the status must be this one. A message is one line, and there is one exactly where the status is not 0."""
    global count
    count += 1
    ran = subprocess.run([COMMAND, *words], input=text, capture_output=True, check=False, **more)
    said, printed = ran.stderr.decode(errors="replace"), ran.stdout.decode()
    lines = 0 if status == DONE else 1
    if (ran.returncode, said.count("\n")) != (status, lines) or said and not said.startswith("funkenrille: "):
        programs.stop(f"{words}: status {ran.returncode}, not {status}; it said {said!r}")
    if status in (NOT_BUILT, WRONG_USE, NO_STREAM) and printed:
        programs.stop(f"{words}: printed {printed!r} although the status is {status}")
    return printed if status == DONE else said


def same(what, found, wanted):
    if found != wanted:
        programs.stop(f"{what}: {found!r}, not {wanted!r}")


def help_and_version():
    whole = call("help")
    for words in ((), ("--help",), ("-h",), ("help", "--help")):
        same(f"{words}", call(*words), whole)
    for name in NAMES:
        same(f"{name} --version", call(name, "--version"), VERSION)
        same(f"help {name}", call("help", name).split()[:3], ["usage:", "./funkenrille", name])
        if f"./funkenrille {name}" not in whole:
            programs.stop(f"help does not name {name}")
    for name in NAMES[:-1]:
        for option in ("--help", "-h"):
            same(f"{name} {option}", call(name, option).split()[:3], ["usage:", "./funkenrille", name])
    same("--version", call("--version"), VERSION)


def wrong_use():
    for name in NAMES:
        for option in ("--nothing", "-x", "--help=1"):
            call(name, option, status=WRONG_USE)
    for name in PLAYERS:
        call(name, EXAMPLE, EXAMPLE, status=WRONG_USE)
        call(name, "-", "-", status=WRONG_USE)
    for words in (("nothing",), ("",), ("-",), ("--",), ("help", "nothing"), ("help", "run", "draw"), ("explain",), ("explain", "x"), ("explain", "99"),
                  ("explain", "-1"), ("explain", "answer="), ("explain", "refused=1"), ("explain", "\u0661")):
        call(*words, status=WRONG_USE)


def files():
    text = EXAMPLE.read_bytes()
    for name in PLAYERS:
        wanted = call(name, text=text)
        same(f"{name} -", call(name, "-", text=text), wanted)
        if name != "draw":  # a picture has its file's name in it
            same(f"{name} FILE", call(name, EXAMPLE), wanted)
            same(f"{name} -- FILE", call(name, "--", EXAMPLE), wanted)
        with tempfile.TemporaryDirectory() as folder:
            for file in ("-x", "--help", "\udcff\n"):
                shutil.copy(EXAMPLE, os.path.join(folder, file))
                call(name, "--", file, cwd=folder)
            call(name, "--", "--none\udcfe", cwd=folder, status=NO_STREAM)
        call(name, text=b"\n" * 65537, status=TOO_LONG)


def explaining():
    eleven, twelve = call("explain", "11"), call("explain", "12")
    same("answer=11", call("explain", "answer=11"), eleven)
    same("line=5 answer=11", call("explain", "line=5", "answer=11"), eleven)
    same("'line=5 answer=11'", call("explain", "line=5 answer=11"), eleven)
    same("11 12", call("explain", "11", "12"), f"{eleven}\n{twelve}")
    same("refused=23", call("explain", "refused=23"), call("explain", "23"))
    twenty = call("explain", "20")
    for cause in ("CRLF", "byte order mark", "blank line", "comment", "space", "upper case", "leading zero", "docs/RUN-TEXT.md"):
        if cause not in twenty:
            programs.stop(f"explain 20 does not name: {cause}")
    if re.search(r"\]\(", twenty):
        programs.stop("explain prints a link as Markdown")


def not_built():
    """No kit, and a kit that is none: the command says so and builds nothing."""
    with tempfile.TemporaryDirectory() as folder:
        os.symlink(sys.executable, os.path.join(folder, "python3"))
        for tool in ("readlink", "dirname"):
            os.symlink(shutil.which(tool), os.path.join(folder, tool))
        for name in ("run", "ledger"):
            said = call(name, env={"PATH": folder}, status=NOT_BUILT)
            same("no kit", "no command 'rt'" in said, True)
        os.symlink("/bin/true", os.path.join(folder, "rt"))
        call("run", env={"PATH": folder}, status=NOT_BUILT)
        call("explain", "11", env={"PATH": folder})
        call("draw", EXAMPLE, env={"PATH": folder})


def stopped():
    """Ctrl-C while a text is awaited ends the command by that signal, and quietly."""
    global count
    for name in PLAYERS:
        child = subprocess.Popen([COMMAND, name], stdin=subprocess.PIPE, stdout=subprocess.PIPE, stderr=subprocess.PIPE, bufsize=0)
        child.stdin.write(b"step")
        waiting = array.array("i", [4])
        while waiting[0]:  # until it has taken that, and awaits the rest
            time.sleep(0.01)
            fcntl.ioctl(child.stdin, termios.FIONREAD, waiting)
        child.send_signal(signal.SIGINT)
        count += 1
        same(f"{name}, Ctrl-C", (child.wait(timeout=20), child.communicate()), (-signal.SIGINT, (b"", b"")))


def documented():
    """The table of docs/COMMAND.md, the man page and help have the same statuses."""
    table = (programs.TOP / "docs" / "COMMAND.md").read_text()
    same("docs/COMMAND.md", re.findall(r"^\| (\d) \|", table, re.M), [str(status) for status in STATUSES])
    manual = (programs.TOP / "docs" / "funkenrille.1.in").read_text()
    same("the man page", re.findall(r"^\.B (\d)$", manual, re.M), [str(status) for status in STATUSES])
    same("help", re.findall(r"[:;]\s+(\d) ", call("help").partition("Status")[2]), [str(status) for status in STATUSES])


def main():
    for test in (help_and_version, wrong_use, files, explaining, not_built, stopped, documented):
        test()
    print(f"command: {count} calls, each with the status and the words that it must have")
    return 0


if __name__ == "__main__":
    sys.exit(main())
