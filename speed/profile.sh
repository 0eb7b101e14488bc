#!/usr/bin/env bash
# profile.sh PROGRAM TEXT [WORD...]: the functions in which PROGRAM spends its instructions on TEXT, as instructions per line of the text.
# PROGRAM is an x86-64 program, started with the WORDs: crates/run/out/run, or a C program with `run` or `ledger`. Start-up is not taken off.
# It counts with Debian's valgrind, on x86-64 only; its processor is this machine's, so the C library's share may differ from measure.py's.
set -eu
here=$(cd "$(dirname "$(readlink -f "$0")")" && pwd)
if [ $# -lt 2 ]; then
    sed -n '2,4s/^# //p' "$0" >&2
    exit 2
fi
program=$(readlink -f "$1") text=$2
shift 2
if [ "$(uname -m)" != x86_64 ]; then
    echo "profile.sh: valgrind cannot run an x86-64 program on $(uname -m)" >&2
    exit 2
fi

# What starts the program: the kit's loader, unless the program is static.
PYTHONPATH=$here/../tests python3 -c 'import programs; programs.install("valgrind", "valgrind"); programs.install("readelf", "binutils")'
words=("$program")
if readelf -lW "$program" | grep -q INTERP; then
    mapfile -t words < <(PYTHONPATH=$here/../tests python3 -c 'import programs, sys; print(*programs.started(sys.argv[1]), sep="\n")' "$program")
fi

folder=$(mktemp -d)
trap 'rm -rf "$folder"' EXIT
valgrind --tool=callgrind --callgrind-out-file="$folder/counts" "${words[@]}" "$@" <"$text" >"$folder/report" 2>"$folder/log" || {
    cat "$folder/log" >&2
    exit 1
}
lines=$(tr -cd '\n' <"$text" | wc -c)
echo "$lines lines; instructions per line, share, function:"
callgrind_annotate --auto=no --threshold=99 "$folder/counts" |
    sed -n 's/^ *\([0-9,]*\) (\( *[0-9.]*%\))  *\(.*\)$/\1\t\2\t\3/p' |
    awk -F '\t' -v lines="$((lines ? lines : 1))" '{
        gsub(",", "", $1)
        sub(/^.*:/, "", $3) # the source file
        sub(/\[.*\//, "[", $3) # the folder of the program or library
        printf "%10.1f %7s  %s\n", $1 / lines, $2, $3
    }' |
    head -40
