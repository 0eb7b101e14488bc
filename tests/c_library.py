#!/usr/bin/env python3
"""Tests the C library as it is installed: `make install` into a temporary folder, and all that follows is built against what is there, by pkg-config.

It sees which symbols the archive and the shared library have, runs c_entry.c (every byte) and c_calls.c (version, NULL, threads, stack) on texts of every
kind, the first under valgrind too where the machine can, and builds and runs the examples. On Arm it takes Debian's cross compiler for x86-64 and
QEMU; there programs are static, and the shared library is not loaded, since neither QEMU nor Python finds the x86-64 libraries that it needs.
"""

import os
import pathlib
import platform
import re
import shutil
import subprocess
import sys
import tempfile

import generate
import programs

WHOLE_CASE = programs.TOP / "crates" / "run"  # its stdin and stdout are document 01's whole case
LIMIT = 65536
NATIVE = platform.machine() == "x86_64"
CROSS, PACKAGE = ("", "gcc") if NATIVE else ("x86_64-linux-gnu-", "gcc-x86-64-linux-gnu")
OURS = {"funkenrille_report", "funkenrille_version"}
NEEDED = {"memcpy", "memset"}
ABI = 1  # the number in the shared library's name, by which the Python example loads it
C, CPP = ("gcc", "-std=c11"), ("g++", "-std=c++17")
EXAMPLES = (("examples/c/play.c", C), ("examples/cpp/play.cpp", CPP))


def texts():
    """Name and bytes of each text."""
    case = (WHOLE_CASE / "stdin").read_bytes()
    yield "whole-case", case
    yield "nothing", b""
    yield "one-byte", b"\n"
    yield "unended", case[:-1]
    yield "every-byte", bytes(range(256)) * 4
    yield "longest-report", b"\n" * LIMIT
    yield "at-the-limit", (case * (LIMIT // len(case) + 1))[:LIMIT]
    yield "one-too-long", (case * (LIMIT // len(case) + 1))[:LIMIT + 1]
    for seed in range(1, 25):
        yield f"generated-{seed}", generate.text("run", seed, 4000)


class Installed:
    """The library, installed below a folder as a packager would do it."""

    def __init__(self, folder, prefix="/opt/somewhere"):
        self.root, self.lib = folder, pathlib.Path(folder + prefix) / "lib"
        said = subprocess.run(["make", "-C", programs.TOP, "install", f"DESTDIR={folder}", f"PREFIX={prefix}"], capture_output=True, text=True, check=False,
                              stdin=subprocess.DEVNULL)
        if said.returncode != 0:
            programs.stop(f"make install: {said.stdout[-2000:]}{said.stderr[-2000:]}")

    def flags(self, *kinds):
        """What pkg-config says; the folder stands in for the root of the system."""
        env = {**os.environ, "PKG_CONFIG_LIBDIR": str(self.lib / "pkgconfig"), "PKG_CONFIG_SYSROOT_DIR": self.root}
        return subprocess.run(["pkg-config", *kinds, "funkenrille"], env=env, capture_output=True, text=True, check=True).stdout.split()

    def compiled(self, name, source, language, static=False):
        """Compiles a program for x86-64 against the shared library, or against the archive alone."""
        compiler, standard = language
        alone = ["-static"] if not NATIVE else ["-Wl,-Bstatic"] if static else []
        after = ["-Wl,-Bdynamic"] if NATIVE and static else []
        program = pathlib.Path(self.root) / name
        subprocess.run([CROSS + compiler, standard, "-O2", "-g", "-Wall", "-Wextra", "-Werror", "-pthread", *self.flags("--cflags"), "-o", program,
                        programs.TOP / source, *alone, *self.flags("--libs"), *after], check=True)
        return program

    def started(self, program):
        """How a compiled program is started here: it must find the shared library."""
        if NATIVE:
            return ["env", f"LD_LIBRARY_PATH={self.lib}", str(program)]
        return [*programs.emulator(), str(program)]


def symbols(path, *words):
    """The names that nm tells of a file, without versions."""
    said = subprocess.run([CROSS + "nm", "-P", *words, path], capture_output=True, text=True, check=True).stdout
    return {re.split("[@ ]", line)[0] for line in said.splitlines() if line.strip() and not line.rstrip().endswith(":")}


def visible(installed):
    """Both libraries show what the header declares, need two functions of the C library, and have one version."""
    version = (programs.TOP / "VERSION").read_text().strip()
    shared = installed.lib / f"libfunkenrille.so.{version}"
    for path, words in ((installed.lib / "libfunkenrille.a", ()), (shared, ("-D",))):
        found = symbols(path, *words, "-g", "--defined-only"), symbols(path, *words, "-u")
        if found != (OURS, NEEDED):
            programs.stop(f"{path.name} shows {found[0]} and needs {found[1]}")
    name = re.search(r"SONAME\s+(\S+)", subprocess.run([CROSS + "objdump", "-p", shared], capture_output=True, text=True, check=True).stdout)[1]
    links = [(installed.lib / link).resolve() for link in (name, "libfunkenrille.so")]
    if name != f"libfunkenrille.so.{ABI}" or links != [shared.resolve()] * 2 or installed.flags("--modversion") != [version]:
        programs.stop(f"version {version}: SONAME {name}, links {links}, pkg-config {installed.flags('--modversion')}")
    print("c_library: archive and shared library show funkenrille_report and funkenrille_version alone")


def written(folder):
    """The texts as files, each with the second program's report beside it."""
    second, files = programs.second(folder), []
    for name, data in texts():
        file = pathlib.Path(folder) / name
        file.write_bytes(data)
        report = subprocess.run([second, "run"], input=data, capture_output=True, check=True).stdout
        file.with_name(f"{name}.report").write_bytes(report)
        files.append(str(file))
    return files


def entry(installed, files):
    program = installed.compiled("c_entry", "tests/c_entry.c", C, static=True)
    subprocess.run([*installed.started(program), *files], check=True)
    if NATIVE and shutil.which("valgrind"):
        subprocess.run(["valgrind", "-q", "--error-exitcode=1", str(program), *files[:5], files[7]], check=True, stdout=subprocess.DEVNULL)
        print("c_library: valgrind has nothing to say")
    subprocess.run([*installed.started(installed.compiled("c_calls", "tests/c_calls.c", C)), *files], check=True)


def example(words, name):
    """An example prints document 01's whole case, refuses a text that is too long, and tells of a full disk."""
    case, wanted = ((WHOLE_CASE / part).read_bytes() for part in ("stdin", "stdout"))
    played = subprocess.run(words, input=case, capture_output=True, check=False)
    long = subprocess.run(words, input=b"\n" * (LIMIT + 1), capture_output=True, check=False)
    with open("/dev/full", "wb") as full:
        unwritten = subprocess.run(words, input=case, stdout=full, stderr=subprocess.PIPE, check=False)
    found = (played.returncode, played.stdout, played.stderr), (long.returncode, long.stdout, long.stderr.count(b"\n")), (unwritten.returncode, unwritten.stderr.count(b"\n"))
    if found != ((0, wanted, b""), (3, b"", 1), (4, 1)):
        programs.stop(f"{name}: {found}")
    print(f"c_library: {name} prints document 01's whole case")


def examples(installed):
    for source, language in EXAMPLES:
        for static in (False, True):
            example(installed.started(installed.compiled("play", source, language, static)), source + (" (static)" if static else ""))
    python = programs.TOP / "examples" / "python" / "play.py"
    longest = re.search(r"FUNKENRILLE_REPORT_MAX (\d+)u", (installed.lib.parent / "include" / "funkenrille.h").read_text())[1]
    if f"REPORT_MAX = {longest} " not in python.read_text():
        programs.stop("examples/python/play.py and the header have different bounds")
    if NATIVE:
        example([sys.executable, str(python), str(installed.lib / f"libfunkenrille.so.{ABI}")], "examples/python/play.py")
    else:
        print("c_library: examples/python/play.py is not run, since Python here is not x86-64")


def main():
    for command, package in ((CROSS + "gcc", PACKAGE), (CROSS + "g++", PACKAGE.replace("gcc", "g++")), ("make", "make"), ("pkg-config", "pkgconf")):
        programs.install(command, package)
    with tempfile.TemporaryDirectory() as folder:
        installed = Installed(folder)
        visible(installed)
        entry(installed, written(folder))
        examples(installed)
    return 0


if __name__ == "__main__":
    sys.exit(main())
