#!/usr/bin/env python3
"""Building by ./funkenrille, in a copy of the checkout: what it tells, what it leaves where it is broken off, two at once, a broken program, a source that is refused, and a checkout
that cannot be written. The copy has the proved libraries of this checkout (`rt lib` in crates/run_report_c makes them), so that only the program itself has to be built."""

import hashlib
import os
import pathlib
import pty
import re
import shutil
import signal
import subprocess
import sys
import tempfile
import time

import programs

sys.path.insert(0, str(programs.TOP / "command"))
import build  # noqa: E402

NAME = "run"
LOWEST = "crates/common/specs/Benches.antt"  # a source that every other crate stands on
TEXT, REPORT = (programs.TOP / "crates" / NAME / part for part in ("stdin", "stdout"))
PARTS = ("funkenrille", "command", "crates", "crates.txt", "VERSION")
NOBODY = ["setpriv", "--reuid=65534", "--regid=65534", "--clear-groups"]


class Checkout:
    """A copy of the checkout, and a folder for temporary files that must be empty after every command."""

    def __init__(self, folder):
        self.top, self.room = pathlib.Path(folder) / "checkout", pathlib.Path(folder) / "room"
        for place in (self.top, self.room):
            place.mkdir()
        os.chmod(folder, 0o755)  # where this is root, a program is run as nobody
        os.chmod(self.room, 0o777)
        for part in PARTS:
            copy(programs.TOP / part, self.top / part)
        self.program, self.stamp = build.program(self.top, NAME), build.program(self.top, NAME).with_name(f"{NAME}.stamp")

    def libraries(self):
        """Gives it the libraries, and a program that is half written: rt leaves no stamp of such a one."""
        for crate in build.crates_of(self.top, NAME)[:-1]:
            if not (build.made(programs.TOP, crate) / "rlib" / "stamp").exists():
                programs.stop(f"crates/{crate}/out/rlib is not built: run 'rt lib' in crates/{crate} first")
            copy(build.made(programs.TOP, crate) / "rlib", build.made(self.top, crate) / "rlib")
        self.program.parent.mkdir()
        self.halve(programs.built(NAME))

    def halve(self, whole):
        """Leaves of a program its first half."""
        data = whole.read_bytes()
        self.program.write_bytes(data[:len(data) // 2])
        self.program.chmod(0o755)

    def start(self, *before, **streams):
        streams = {"stdout": subprocess.PIPE, "stderr": subprocess.PIPE, **streams}
        with open(TEXT, "rb") as text:
            return subprocess.Popen([*before, self.top / "funkenrille", NAME], env={**os.environ, "TMPDIR": str(self.room)}, stdin=text, **streams)

    def files(self):
        return {str(path) for path in self.top.rglob("*")}

    def check_nothing_left(self, what):
        """No temporary file, and no process that knows the folder for them."""
        if left := list(self.room.iterdir()):
            programs.stop(f"{what}: left {left}")
        if running := [process for process in pathlib.Path("/proc").glob("[0-9]*") if str(self.room).encode() in environment(process)]:
            programs.stop(f"{what}: still running: {[(p.name, (p / 'cmdline').read_bytes()) for p in running]}")


def copy(source, goal):
    if source.is_dir():
        shutil.copytree(source, goal, ignore=shutil.ignore_patterns("__pycache__", "out"))
    else:
        shutil.copy2(source, goal)


def environment(process):
    try:
        return (process / "environ").read_bytes()
    except OSError:
        return b""


def finished(child, what):
    """The command must print the report; what it said is handed back."""
    printed, said = child.communicate(timeout=900)
    if (child.returncode, printed) != (0, REPORT.read_bytes()):
        programs.stop(f"{what}: status {child.returncode}, {printed!r}, {said!r}")
    return (said or b"").decode()


def unwritable(checkout):
    """Somebody who may not write there, and has no program: one sentence, and status 5."""
    drop = NOBODY if os.geteuid() == 0 else []
    if not drop:
        checkout.top.chmod(0o555)
    child = checkout.start(*drop)
    printed, said = child.communicate(timeout=60)
    checkout.top.chmod(0o755)
    if child.returncode != 5 or printed or said.count(b"\n") != 1 or b"cannot be written" not in said:
        programs.stop(f"a checkout that cannot be written: status {child.returncode}, {printed!r}, {said!r}")


def broken_off(checkout, number, sign):
    """A build that is sent a signal once it has said the words: the checkout is as it was, and nothing goes on."""
    before = checkout.files()
    child = checkout.start()
    for line in child.stderr:
        if sign in line:
            break
    time.sleep(1)
    for _ in range(3):  # as somebody does who is in a hurry
        child.send_signal(number)
        time.sleep(0.01)
    status, what = child.wait(timeout=60), f"broken off by signal {number}"
    if status != -number or child.stdout.read() or b"Traceback" in child.stderr.read():
        programs.stop(f"{what}: status {status}")
    checkout.check_nothing_left(what)
    if checkout.files() != before:
        programs.stop(f"{what}: {sorted(checkout.files() ^ before)[:5]}")


def together(checkout):
    """Two at once: one builds and tells how far it is, the other waits; both print the report."""
    children = [checkout.start(), checkout.start()]
    waited, built = sorted((finished(child, "two at once") for child in children), key=len)
    steps = re.findall(r"crate (\d+) of (\d+) proved, \d+ s \(about \d+ s in all\)", built)
    count = len(build.crates_of(checkout.top, NAME))
    at = [int(k) for k, _ in steps]
    if "another build is at work" not in waited or not steps or at != list(range(at[0], count + 1)) or {of for _, of in steps} != {str(count)}:
        programs.stop(f"two at once: {waited!r}, {built!r}")
    checkout.check_nothing_left("two at once")


def broken(checkout):
    """A program that rt takes for built and that is none: it is built again, before the eyes of somebody at a terminal. One that is not what rt linked is not even started."""
    checkout.halve(checkout.program)
    said = finished(checkout.start(), "a program that lacks its end")
    if "building" not in said or "is built again" in said:
        programs.stop(f"a program that lacks its end: {said!r}")
    checkout.halve(checkout.program)
    checkout.stamp.write_text(checkout.stamp.read_text()[:-64] + hashlib.sha256(checkout.program.read_bytes()).hexdigest())
    terminal, screen = pty.openpty()
    child = checkout.start(stderr=screen)
    os.close(screen)
    finished(child, "a broken program")
    shown = b""
    try:
        while part := os.read(terminal, 4096):
            shown += part
    except OSError:  # how Linux tells that nobody has the terminal open any more
        pass
    os.close(terminal)
    if b"is built again" not in shown or b"\r'run': crate " not in shown:
        programs.stop(f"a broken program: {shown!r}")
    if said := finished(checkout.start(), "a program that was mended"):
        programs.stop(f"a program that was mended is built once more: {said}")


def refused(checkout):
    """A source that rt refuses: what it said last is shown, and the program that was built from other sources is not used."""
    with open(checkout.top / "crates" / NAME / "src" / "main.rt", "a", encoding="utf-8") as source:
        source.write("\nfn too_large() -> u8 {\n    256\n}\n")
    child = checkout.start()
    printed, said = child.communicate(timeout=300)
    if child.returncode != 5 or printed or not said.endswith(b"funkenrille: 'run' could not be built\n") or b"error" not in said:
        programs.stop(f"a source that is refused: status {child.returncode}, {printed!r}, {said!r}")


def judged(checkout):
    """The program as `rt ci` leaves it, with no stamp and with what it printed: it is used as it is. Where that is not what it has to print, it is built."""
    printed = checkout.program.with_name("stdout")
    checkout.stamp.unlink()
    shutil.copy(checkout.program.parent.parent / "stdout", printed)
    if said := finished(checkout.start(), "a program that rt ci has run"):
        programs.stop(f"a program that rt ci has run is built once more: {said}")
    printed.write_bytes(b"lines=0 refused=0\n")
    if "building" not in finished(checkout.start(), "a program that printed something else"):
        programs.stop("a program that printed something else under rt ci is not built again")


def main():
    began = time.time()
    with tempfile.TemporaryDirectory() as folder:
        checkout = Checkout(folder)
        unwritable(checkout)
        lowest = checkout.top / LOWEST
        text = lowest.read_text(encoding="utf-8")
        lowest.write_text(text + "\n-- Another text: rt takes what a checkout beside this one has built of the same.\n", encoding="utf-8")
        broken_off(checkout, signal.SIGINT, b"crate 1 of")
        lowest.write_text(text, encoding="utf-8")
        checkout.libraries()
        broken_off(checkout, signal.SIGTERM, b"building")
        together(checkout)
        broken(checkout)
        judged(checkout)
        refused(checkout)
    print(f"building: broken off twice, two at once, mended, a source refused, a checkout that cannot be written; {time.time() - began:.0f} s")
    return 0


if __name__ == "__main__":
    sys.exit(main())
