"""Builds a proved program by `rt run`: nothing is left where a build is broken off, and two builds at once wait for each other."""

import fcntl
import hashlib
import os
import re
import shutil
import signal
import subprocess
import tempfile
import threading
import time
from contextlib import contextmanager
from pathlib import Path

from status import NOT_BUILT, Failure
from streams import MESSAGES, say, tell, why

EXPECTED = {"run": 240, "ledger_run": 190}  # seconds of a first build on two cores, with nothing built before
SHOWN = 20  # lines of what rt said, where it could not build
SOURCES = ("src", "specs", "proofs")  # what a program is made from, in each crate


def made(top, name):
    """The folder of a crate in which rt puts what it makes."""
    return top / "crates" / name / "out"


def program(top, name):
    return made(top, name) / name


def whole(top, name):
    """Whether the program is all there, as far as rt tells. `rt run` leaves the program's sum at the end of its stamp, once it has linked it; `rt ci` leaves no stamp, but
    what the program printed when it was run, which came of that very program if it is not older."""
    out = made(top, name)
    try:
        if (out / f"{name}.stamp").exists():
            return (out / f"{name}.stamp").read_text()[-64:] == hashlib.sha256((out / name).read_bytes()).hexdigest()
        printed, wanted = out / "stdout", out.parent / "stdout"
        return printed.stat().st_mtime >= (out / name).stat().st_mtime and printed.read_bytes() == wanted.read_bytes()
    except OSError:
        return False


def current(top, name):
    """Whether the program is built, whole, and not older than a source."""
    if not (os.access(program(top, name), os.X_OK) and whole(top, name)):
        return False
    built = program(top, name).stat().st_mtime
    folders = (top / "crates" / crate / part for crate in crates_of(top, name) for part in SOURCES)
    sources = (path for folder in folders if folder.exists() for path in (folder, *folder.rglob("*")))
    return all(source.lstat().st_mtime <= built for source in (top / "crates.txt", *sources))


def ready(top, name):
    """Builds the program where it is missing or older than a source."""
    if not current(top, name):
        with alone(top):
            if not current(top, name):  # somebody else may have built it meanwhile
                build(top, name)


def again(top, name):
    """Builds a program that rt takes for built."""
    with alone(top):
        program(top, name).with_name(f"{name}.stamp").unlink(missing_ok=True)
        build(top, name)


@contextmanager
def alone(top):
    """Holds off every other build in this checkout. The lock is on a file that is there anyway, so it leaves nothing behind."""
    with open(top / "crates.txt", "rb") as file:
        try:
            fcntl.flock(file, fcntl.LOCK_EX | fcntl.LOCK_NB)
        except BlockingIOError:
            say("another build is at work in this checkout; waiting for it")
            fcntl.flock(file, fcntl.LOCK_EX)
        except OSError:  # a file system without locks
            pass
        yield


def crates_of(top, name):
    """The crates of the repository that the program stands on, itself the last, in the order in which rt builds them: each behind those that it uses."""
    lines = re.sub(r"#.*", "", (top / "crates.txt").read_text(encoding="utf-8")).splitlines()
    needs = {crate.split()[0]: rest.split() for crate, colon, rest in (line.partition(":") for line in lines) if colon}
    found = []

    def add(crate):
        if crate in needs and crate not in found:
            for below in needs[crate]:
                add(below)
            found.append(crate)

    add(name)
    return found


def build(top, name):
    crates = crates_of(top, name)
    before = Before(top, crates)
    out = made(top, name)
    try:
        out.mkdir(exist_ok=True)
        tempfile.TemporaryFile(dir=out).close()
    except OSError as error:
        raise Failure(NOT_BUILT, f"'{name}' has to be built first, and {out} cannot be written: {why(error)}; use a clone in a folder of your own") from None
    with stoppable():
        try:
            with tempfile.TemporaryDirectory(prefix="funkenrille-") as room:
                said = proved(top, name, crates, room)
        except BaseException:
            before.restore()
            raise
    if said is not None:
        say(f"'{name}' could not be built; the last lines of 'rt run' in crates/{name}:")
        tell("".join(said[-SHOWN:]))
        raise Failure(NOT_BUILT, f"'{name}' could not be built")
    os.utime(program(top, name))  # rt does not write a program anew whose sources' times alone have changed


class Before:
    """What stood in the crates' out/ before a build, so that a build that is broken off leaves none of its own."""

    def __init__(self, top, crates):
        self.outs = [made(top, crate) for crate in crates]
        self.there = {path for out in self.outs if out.exists() for path in (out, *out.iterdir())}
        self.stamped = {out for out in self.outs if (out / "rlib" / "stamp").exists()}
        self.program = program(top, crates[-1])
        self.linked = self.state()

    def state(self):
        found = self.program.stat() if self.program.exists() else None
        return found and (found.st_ino, found.st_size, found.st_mtime_ns)

    def restore(self):
        """Takes away what was not there, and a library or a program that replaced another and is not whole. Kept work that was there stays as rt left it."""
        for out in filter(Path.exists, self.outs):
            for path in (out, *out.iterdir()):
                if path not in self.there:
                    remove(path)
            if out in self.stamped and not (out / "rlib" / "stamp").exists():
                remove(out / "rlib")
        if self.state() != self.linked and not self.program.with_name(f"{self.program.name}.stamp").exists():
            remove(self.program)


def remove(path):
    if path.is_dir() and not path.is_symlink():
        shutil.rmtree(path)
    else:
        path.unlink(missing_ok=True)


def proved(top, name, crates, room):
    """Has rt build the program, and tells how far it is. The answer is None where it was built, and otherwise what rt said."""
    said, crate = [], None
    with Progress(name, crates) as progress:
        child = subprocess.Popen(["rt", "run"], cwd=top / "crates" / name, stdin=subprocess.DEVNULL, stdout=subprocess.PIPE, stderr=subprocess.STDOUT, text=True,
                                 errors="replace", env={**os.environ, "TMPDIR": room}, start_new_session=True)
        try:
            for line in child.stdout:
                said.append(line)
                if found := re.match(r"crate (\w+): modules loaded", line):
                    crate = found[1]
                elif line.startswith("logic=proved ") and crate:
                    progress.step(crate)
                elif re.match(r"rt: (?:waiting for another rt|\w+: another copy of the repository)", line):
                    progress.wait(line.removeprefix("rt: ").strip())
            return None if child.wait() == 0 else said
        finally:
            end(child)


def members(session):
    """The processes of a session that have not ended."""
    for place in Path("/proc").glob("[0-9]*"):
        try:
            state, _, _, of = (place / "stat").read_text(errors="replace").rpartition(")")[2].split()[:4]
        except OSError:  # it has ended meanwhile
            continue
        if of == str(session) and state not in "ZX":
            yield int(place.name)


def end(child):
    """Ends all that rt started: it has a session of its own, which Ctrl-C at the terminal does not reach, and in it more than one group of processes."""
    for number in (signal.SIGTERM, signal.SIGKILL):
        for _ in range(40):
            child.poll()
            left = list(members(child.pid))
            if not left:
                child.wait()
                return
            for process in left:
                try:
                    os.kill(process, number)
                except ProcessLookupError:
                    pass
            time.sleep(0.05)


@contextmanager
def stoppable():
    """While this holds, a signal that would end the command raises Stopped, so that what was begun is taken away first."""
    caught = [number for number in (signal.SIGINT, signal.SIGTERM, signal.SIGHUP) if signal.getsignal(number) == signal.SIG_DFL]

    def handle(how):
        for number in caught:
            signal.signal(number, how)

    def stop(number, _):
        handle(signal.SIG_IGN)  # a second Ctrl-C does not break off the taking away
        raise Stopped(number)

    handle(stop)
    try:
        yield
    finally:
        handle(signal.SIG_DFL)


class Stopped(BaseException):
    """A signal that ends the command."""

    def __init__(self, number):
        super().__init__()
        self.number = number


class Progress:
    """How far a build is, on standard error: a line that goes on counting where that is a terminal, else a line for each crate."""

    def __init__(self, name, crates):
        self.name, self.crates, self.done = name, crates, 0
        self.began, self.over = time.monotonic(), threading.Event()
        self.live = os.isatty(MESSAGES)
        self.ticking = threading.Thread(target=self.tick, daemon=True)

    def __enter__(self):
        say(f"building '{self.name}', once: {len(self.crates)} crates are proved first, about {EXPECTED[self.name]} s on two idle cores; Ctrl-C breaks off and leaves nothing")
        if self.live:
            self.ticking.start()
        return self

    def step(self, crate):
        """The crate is proved, and so are those before it: rt passes over in silence what was built earlier."""
        self.done = self.crates.index(crate) + 1
        if not self.live:
            say(f"{self.words()}: {crate}")

    def wait(self, sentence):
        if self.live:
            tell("\r\033[K")
        say(sentence)

    def words(self):
        return f"'{self.name}': crate {self.done} of {len(self.crates)} proved, {time.monotonic() - self.began:.0f} s (about {EXPECTED[self.name]} s in all)"

    def tick(self):
        while not self.over.wait(1):
            tell(f"\r{self.words()} ")

    def __exit__(self, *_):
        self.over.set()
        if self.live:
            self.ticking.join()
            tell("\r\033[K")
