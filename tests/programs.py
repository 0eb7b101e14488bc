"""How tests run the project's programs: the proved ones by the kit's loader, and the second program, built from second/second.c."""

import errno
import os
import pathlib
import platform
import shutil
import signal
import subprocess
import sys

TOP = pathlib.Path(__file__).resolve().parent.parent
NO_STREAM = 4  # the status where something could not be read or written


def stop(message):
    """Ends a test that cannot be made."""
    sys.exit(f"{os.path.basename(sys.argv[0])}: {message}")


def finish(main):
    """Runs a script that people call, and ends it as docs/COMMAND.md says of every command: nothing is lost in silence, and there is no traceback."""
    try:
        if sys.stdout is None:
            raise OSError(errno.EBADF, "standard output is closed")
        status = main()
        sys.stdout.flush()
        sys.exit(status)
    except (BrokenPipeError, KeyboardInterrupt) as error:
        number = signal.SIGINT if isinstance(error, KeyboardInterrupt) else signal.SIGPIPE
        signal.signal(number, signal.SIG_DFL)
        os.kill(os.getpid(), number)
    except OSError as error:
        os.write(2, f"{os.path.basename(sys.argv[0])}: {error.strerror or error}\n".encode())
        os._exit(NO_STREAM)  # at once, since an ordinary end would try to write again what could not be written


def install(command, package):
    """Installs the Debian package that has the command, where the command is missing."""
    if shutil.which(command):
        return
    print(f"installing Debian's {package}, which has {command}", flush=True)
    words = ["apt-get", "install", "-y", "-q", package]
    if os.geteuid() != 0:
        words = ["sudo", *words]
    quiet = {"stdout": subprocess.DEVNULL, "stderr": subprocess.DEVNULL, "stdin": subprocess.DEVNULL}
    try:
        if subprocess.call(words, **quiet):
            subprocess.call([*words[:-4], "update", "-q"], **quiet)
            subprocess.call(words, **quiet)
    except OSError:
        pass
    if not shutil.which(command):
        stop(f"there is no {command}, and {package} could not be installed")


def kit_tools():
    """The kit's tools, with the loader and the libraries that its programs are linked with."""
    rt = shutil.which("rt")
    if not rt:
        stop("there is no command 'rt': install the Rattle kit and put its bin/ on PATH")
    return pathlib.Path(os.path.realpath(rt)).parent.parent / "toolchain"


def emulator():
    """The words before an x86-64 program: none on x86-64, and QEMU where the machine is another, since the kit has no emulator."""
    if platform.machine() == "x86_64":
        return []
    install("qemu-x86_64", "qemu-user")
    return [shutil.which("qemu-x86_64")]


def started(program):
    """The words that start an x86-64 program: by the kit's loader."""
    tools = kit_tools()
    return [*emulator(), str(tools / "lib" / "ld-linux-x86-64.so.2"), "--library-path", str(tools / "lib"), str(program)]


def built(name):
    """Where `rt run` and `rt ci` leave a proved program of this repository."""
    return TOP / "crates" / name / "out" / name


def proved(name):
    """The words that start a proved program of this repository."""
    program = built(name)
    if not program.exists():
        stop(f"{program.relative_to(TOP)} is not built: run 'rt run' in crates/{name} first")
    return started(program)


def second(folder):
    """Builds the second program in the folder, and gives its path."""
    install("gcc", "gcc")
    program = pathlib.Path(folder) / "second"
    subprocess.run(["gcc", "-std=c11", "-O2", "-Wall", "-Wextra", "-Werror", "-o", program, TOP / "second" / "second.c"], check=True)
    return str(program)
