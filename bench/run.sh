#!/bin/sh
# Compares the proved program with Python and C on five studies that it runs, with C on the restart file that it keeps, with
# Python on one that it goes on with and on a study that it reads, with C on the files of attempts, on attempts with children
# and on a study over children, and on this one with xargs, parallel and a loop in Python: run.sh [RUNS]. With --most in the
# place of RUNS it runs a study of 100,000 evaluations over children, once, and nothing else. README.md beside it says more.
here=$(CDPATH='' cd -P -- "$(dirname -- "$0")" && pwd) || exit 1
runs=${1:-11}
program=$here/../crates/dakota/out/dakota
measure=$here/../crates/dk_measure/out/dk_measure
if ! command -v python3 >/dev/null 2>&1; then
    echo "bench: python3, which measures, isn't on this machine" >&2
    exit 1
fi
# No words: the program is built, where need be, and ends with status 2.
"$here/../dakota" >/dev/null
if [ "$?" -ne 2 ]; then
    echo "bench: the proved program can't be run" >&2
    exit 1
fi
# The restart file on a disk is that of a run in the program's own folder.
scratch=$(mktemp -d "$here/../crates/dakota/out/bench.XXXXXX") || exit 1
memory=
trap 'rm -rf "$scratch" ${memory:+"$memory"}' EXIT
trap 'exit 1' HUP INT TERM
if [ -d /dev/shm ] && [ -w /dev/shm ]; then
    memory=$(mktemp -d /dev/shm/bench.XXXXXX) || exit 1
else
    echo "bench: no file system in memory (/dev/shm) is on this machine, so the studies are left out" >&2
fi
compiled=
if command -v gcc >/dev/null 2>&1; then
    gcc -O2 -o "$scratch/study" "$here/study.c" && compiled=$scratch
    for name in journal texts attempts children; do
        gcc -O2 -o "$scratch/$name" "$here/$name.c" "$here/files.c" || compiled=
    done
    for name in child failing; do
        gcc -O2 -static -o "$scratch/$name" "$here/$name.c" 2>/dev/null ||
            gcc -O2 -o "$scratch/$name" "$here/$name.c" || compiled=
    done
else
    echo "bench: gcc isn't on this machine, so what is in C and all with children is left out" >&2
fi
if [ "$runs" = --most ]; then
    [ -n "$memory" ] && [ -n "$compiled" ] || exit 1
    python3 "$here/most.py" "$memory" "$here/most.in" "$program" "$compiled/failing"
    exit
fi
if [ -n "$compiled" ]; then
    "$here/build.sh" || exit 1
fi
if [ -n "$memory" ]; then
    for study in study.in recover.in grid.in long.in compass.in; do
        python3 "$here/measure.py" "$runs" "$memory" "$here/$study" "$program" "$here/study.py" \
            ${compiled:+"$compiled/study" "$compiled/journal"} || exit 1
    done
fi
if [ -n "$compiled" ]; then
    if command -v strace >/dev/null 2>&1; then
        python3 "$here/journal.py" --calls "${memory:-$scratch}" "$here/study.in" "$program" "$compiled/journal" || exit 1
    else
        echo "bench: strace isn't on this machine, so the writes and syncs aren't compared" >&2
    fi
    python3 "$here/journal.py" 31 "$scratch" "$here/study.in" "$program" "$compiled/journal" || exit 1
fi
python3 "$here/resume.py" "$runs" "$scratch" "$here/long.in" "$program" "$here/records.py" || exit 1
python3 "$here/list.py" --make "$scratch/list.in" || exit 1
python3 "$here/read.py" "$runs" "$scratch/list.in" "$program" "$here/list.py" || exit 1
[ -n "$compiled" ] || exit 0
set -- "$measure" "$compiled/attempts" "$compiled/child"
python3 "$here/texts.py" 101 "${memory:-$scratch}" "$1" "$compiled/texts" "$2" "$3" || exit 1
if command -v strace >/dev/null 2>&1; then
    python3 "$here/attempts.py" --calls "${memory:-$scratch}" "$@" || exit 1
else
    echo "bench: strace isn't on this machine, so the calls of attempts aren't compared" >&2
fi
for folder in ${memory:+"$memory"} "$scratch"; do
    python3 "$here/attempts.py" 101 "$folder" "$@" || exit 1
done
set -- "$here/children.in" "$program" "$compiled/children" "$compiled/child"
if command -v strace >/dev/null 2>&1; then
    python3 "$here/children.py" --calls "${memory:-$scratch}" "$@" || exit 1
else
    echo "bench: strace isn't on this machine, so the calls of studies over children aren't compared" >&2
fi
python3 "$here/children.py" 31 "$scratch" "$@" || exit 1
python3 "$here/tools.py" 5 "$scratch" "$1" "$2" "$4" "$here/tool.sh" "$here/loop.py"
