"""Plays the run text on standard input and prints its report, from Python, by ctypes: `python3 play.py [LIBRARY] < TEXT`, on x86-64.

LIBRARY is the path of libfunkenrille.so.1, where it is not installed in a place that the system looks in.
Status: 0 the report was printed; 3 the text is too long (refusal 23); 4 something could not be read or written.
"""

import ctypes
import sys

REPORT_MAX = 1365176  # FUNKENRILLE_REPORT_MAX


def loaded(path):
    library = ctypes.CDLL(path)
    library.funkenrille_report.restype = ctypes.c_size_t
    library.funkenrille_report.argtypes = [ctypes.c_char_p, ctypes.c_size_t, ctypes.c_char_p, ctypes.c_size_t]
    library.funkenrille_version.restype = ctypes.c_char_p
    return library


def report(library, text):
    """The report of a text, or None where the text is too long."""
    room = ctypes.create_string_buffer(REPORT_MAX)
    length = library.funkenrille_report(text, len(text), room, len(room))
    return room.raw[:length] if length else None


def main(words):
    try:
        library = loaded(words[0] if words else "libfunkenrille.so.1")
        made = report(library, sys.stdin.buffer.read())
        if made is None:
            print("play: refusal 23: the text is longer than 65536 bytes", file=sys.stderr)
            return 3
        sys.stdout.buffer.write(made)
        sys.stdout.buffer.flush()
    except OSError as error:
        print(f"play: {error}", file=sys.stderr)
        return 4
    return 0


if __name__ == "__main__":
    sys.exit(main(sys.argv[1:]))
