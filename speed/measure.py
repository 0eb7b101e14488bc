#!/usr/bin/env python3
"""The benchmark: how many instructions the proved programs execute, beside the same in C.

    measure.py [--quick] [--programs FOLDER]

Prints two Markdown tables: instructions per line of every text of texts.py, and instructions per byte as texts grow from 1 to 64 KiB. Start-up
is taken off: what the same program executes on an empty text, or on the lines that a text needs before those that are measured.

--quick takes few texts. --programs names a folder with other `run` and `ledger_run` than those that rt has built in crates/NAME/out; a kind of text whose
program is not there is left out. What it needs and does not find it installs from Debian, by the package's name, and says so.

All programs are x86-64 and are run by QEMU, on x86-64 and Arm alike, so that the same programs give the same numbers on every machine.
"""

import argparse
import concurrent.futures
import os
import pathlib
import platform
import re
import shutil
import subprocess
import tempfile

import texts  # first: it opens the way to tests/
import programs

HERE = pathlib.Path(__file__).resolve().parent
# Without `rep movsb`: QEMU counts each byte that it moves as an instruction, and the C library takes it only where the processor has erms.
CPU = "max,-erms"
EMULATOR = "qemu-x86_64"
PROVED = {"run": "run", "ledger": "ledger_run"}
SIZES = [1, 2, 4, 8, 16, 32, 64]  # KiB
QUICK_TEXTS = {"small", "deep", "arrive, nothing waits", "deep script"}
QUICK_SIZES = [1, 8, 64]


def first_line(*words):
    """The first line that a command prints."""
    return subprocess.run(words, check=True, capture_output=True, text=True).stdout.splitlines()[0]


def compiler():
    """The compiler for x86-64, installed where it is missing."""
    if platform.machine() == "x86_64":
        programs.install("gcc", "gcc")
        return "gcc"
    programs.install("x86_64-linux-gnu-gcc", "gcc-x86-64-linux-gnu")
    return "x86_64-linux-gnu-gcc"


def build_plugin(folder):
    """Builds the plugin that counts, for the QEMU that is installed."""
    programs.install(EMULATOR, "qemu-user")
    programs.install("gcc", "gcc")
    major = int(re.search(r"version (\d+)", first_line(EMULATOR, "--version"))[1])
    flags = ["-O2", "-shared", "-fPIC", "-Wall", "-Wextra", "-Werror", f"-DAPI={1 if major < 9 else 2}"]
    subprocess.run(["gcc", *flags, "-o", folder / "count.so", HERE / "count.c"], check=True)


def build_c(folder, source, *more, name=None):
    """Builds a C program for x86-64. It is static: no loader, and no library that is not in it."""
    flags = ["-std=gnu11", "-O2", "-Wall", "-Wextra", "-Werror", "-static", *more]
    subprocess.run([compiler(), *flags, "-o", folder / (name or source.stem), source], check=True)


def counted(folder, words, data):
    """The instructions that a program in the folder executes on its input, and what it prints."""
    with tempfile.TemporaryFile(dir=folder) as text, tempfile.TemporaryFile(dir=folder) as report:
        text.write(data)
        text.seek(0)
        ran = subprocess.run([shutil.which(EMULATOR), "-cpu", CPU, "-plugin", "./count.so", *words], cwd=folder, env={}, stdin=text,
                             stdout=report, stderr=subprocess.PIPE, text=True, check=False)
        number = re.search(r"^instructions=(\d+)$", ran.stderr, re.M)
        if ran.returncode or not number:
            programs.stop(f"{words}: status {ran.returncode}, {ran.stderr}")
        report.seek(0)
        return int(number[1]), report.read()


class Meter:
    """The programs in a folder, which are started there by the same short words on every machine: their names lie on a program's stack."""

    def __init__(self, folder, proved=None):
        self.folder = folder
        build_plugin(folder)
        build_c(folder, programs.TOP / "second" / "second.c")
        build_c(folder, HERE / "shipped.c")
        (folder / "lib").symlink_to(programs.kit_tools() / "lib")
        self.words = {}
        for kind, name in PROVED.items():
            program = proved / name if proved else programs.built(name)
            if program.exists():
                (folder / name).symlink_to(program.resolve())
                loader = ["lib/ld-linux-x86-64.so.2", "--library-path", "lib"]
                self.words[kind] = [[*loader, f"./{name}"], ["./second", kind], ["./shipped", kind]]
            else:
                print(f"There is no `{name}` ('rt run' in crates/{name} builds it): {kind} texts are left out.\n", flush=True)
        if not self.words:
            programs.stop("nothing to measure")

    def run(self, words, data):
        """The instructions that a program executes on a text, and what it prints."""
        return counted(self.folder, words, data)

    def counts(self, kind, data):
        """The instructions of the proved program, second.c and shipped.c, which must print the same."""
        ran = [self.run(words, data) for words in self.words[kind]]
        if len({report for _, report in ran}) != 1:
            programs.stop(f"the programs differ on a {kind} text of {len(data)} bytes: see tests/compare.py")
        return [count for count, _ in ran]

    def all_counts(self, jobs):
        """For many (kind, head, body), what the body costs: the counts on both without those on the head, which is empty in most texts. The
        jobs are done side by side, which changes no count."""
        with concurrent.futures.ThreadPoolExecutor(os.cpu_count()) as pool:
            heads = list(dict.fromkeys((kind, head) for kind, head, _ in jobs))
            before = dict(zip(heads, pool.map(lambda job: self.counts(*job), heads)))
            whole = list(pool.map(lambda job: self.counts(job[0], job[1] + job[2]), jobs))
        return [[own - off for own, off in zip(counts, before[job[:2]])] for job, counts in zip(jobs, whole)]


def row(*cells):
    """A row of a Markdown table."""
    return "| " + " | ".join(str(cell) for cell in cells) + " |"


def heading(words, *figures):
    """The head of a Markdown table: columns of words to the left, of figures to the right."""
    return row(*words, *figures) + "\n" + row(*["---"] * len(words), *["---:"] * len(figures))


def print_lines(meter, chosen):
    """The first table: instructions per line."""
    counted = meter.all_counts([(text.kind, text.head, text.body) for text in chosen])
    print(heading(["text"], "bytes", "lines", "proved", "second.c", "shipped.c", "proved / second.c", "proved / shipped.c"))
    for text, counts in zip(chosen, counted):
        lines = texts.lines(text.body)
        proved, second, shipped = counts
        print(row(text.name, f"{len(text.body):,}", f"{lines:,}", *(f"{count / lines:.1f}" for count in counts),
                  f"{proved / second:.2f}", f"{proved / shipped:.2f}"))


def print_startup(meter):
    """What was taken off: the whole cost of an empty text, with the loader's work and the clearing of tables."""
    for kind in meter.words:
        proved, second, shipped = meter.counts(kind, b"")
        print(f"\nAn empty {kind} text: proved {proved:,}, second.c {second:,}, shipped.c {shipped:,} instructions.")


def print_growth(meter, chosen, sizes):
    """The second table: instructions per byte of the first 1, 2, 4, ... KiB of a text."""
    jobs = [(text.kind, text.head, texts.prefix(text.body, size * 1024)) for text in chosen for size in sizes]
    per_byte = [[count / len(body) for count in counts] for (_, _, body), counts in zip(jobs, meter.all_counts(jobs))]
    print(heading(["text", "program"], *(f"{size} KiB" for size in sizes)))
    for at, text in enumerate(chosen):
        own = per_byte[at * len(sizes):(at + 1) * len(sizes)]
        for number, program in enumerate(("proved", "second.c", "shipped.c")):
            print(row(text.name, program, *(f"{figures[number]:.2f}" for figures in own)))


def main():
    parser = argparse.ArgumentParser(description=__doc__, formatter_class=argparse.RawDescriptionHelpFormatter)
    parser.add_argument("--quick", action="store_true", help="few texts")
    parser.add_argument("--programs", type=pathlib.Path, help="a folder of other proved programs")
    options = parser.parse_args()
    with tempfile.TemporaryDirectory() as folder:
        meter = Meter(pathlib.Path(folder), options.programs)
        chosen = [text for text in texts.TEXTS if text.kind in meter.words and (text.name in QUICK_TEXTS or not options.quick)]
        print("Instructions per line, start-up taken off:\n", flush=True)
        print_lines(meter, chosen)
        print_startup(meter)
        print("\nInstructions per byte as the text grows:\n", flush=True)
        print_growth(meter, [text for text in chosen if text.grows], QUICK_SIZES if options.quick else SIZES)
    print(f"\nCounted by {first_line(EMULATOR, '--version')}, CPU {CPU}; C compiled by {first_line(compiler(), '--version')}, -O2.")
    return 0


if __name__ == "__main__":
    programs.finish(main)
