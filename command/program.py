"""Runs a proved program on a text and sees that its report is whole.

The proved programs' status is always 0, so the report itself has to tell: it must end in a line of totals that counts every line of the text.
"""

import os
import re
import shutil
import subprocess
from pathlib import Path

import build
from status import NOT_BUILT, Failure
from streams import TEXT_MAX, say, why

REFUSED = b"refused=23\n"


def kit_tools():
    """The kit's tools, with the loader and the libraries that its programs are linked with."""
    rt = shutil.which("rt")
    if not rt:
        raise Failure(NOT_BUILT, "there is no command 'rt' here: install the Rattle kit and put its bin/ on PATH")
    kit = Path(rt).resolve().parent.parent
    tools = kit / "toolchain"
    if not os.access(tools / "lib" / "ld-linux-x86-64.so.2", os.R_OK):
        raise Failure(NOT_BUILT, f"the Rattle kit at {kit} has no toolchain/lib/ld-linux-x86-64.so.2, by which programs are started")
    return tools


def emulator():
    """The words before a program, since programs are x86-64 always: none on such a machine, and QEMU on another."""
    machine = os.uname().machine
    if machine == "x86_64":
        return []
    found = shutil.which("qemu-x86_64")
    if not found:
        raise Failure(NOT_BUILT, f"programs are x86-64, and this machine ({machine}) has no qemu-x86_64 to run them: install Debian's qemu-user")
    return [found]


def words(tools, program):
    """How the program is started: by the kit's loader, with the libraries that it was linked with."""
    return [*emulator(), tools / "lib" / "ld-linux-x86-64.so.2", "--library-path", tools / "lib", program]


def whole(report, text):
    """Whether the report is all that such a program prints for the text."""
    if len(text) > TEXT_MAX:
        return report == REFUSED
    lines = text.count(b"\n") + (not text.endswith(b"\n") and text != b"")
    return re.search(rb"(?:^|\n)lines=%d refused=\d+\n\Z" % lines, report) is not None


def played(tools, program, text):
    """The report, or None where it is not whole. The program gets no environment, in which a loader or an emulator could find orders."""
    try:
        ran = subprocess.run(words(tools, program), input=text, capture_output=True, env={}, check=False)
    except OSError as error:
        raise Failure(NOT_BUILT, f"'{program}' cannot be started: {why(error)}") from None
    return ran.stdout if ran.returncode == 0 and whole(ran.stdout, text) else None


def report(top, name, text):
    """The program's report, built where it has to be. A program that gives no whole report is broken, and is built again, once."""
    tools, program = kit_tools(), build.program(top, name)
    build.ready(top, name)
    made = played(tools, program, text)
    if made is None:
        say(f"'{program}' gives no whole report, so it is built again")
        build.again(top, name)
        made = played(tools, program, text)
    if made is None:
        raise Failure(NOT_BUILT, f"'{program}' gives no whole report")
    return made
