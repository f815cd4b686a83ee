#!/bin/sh
# Stops a run by a signal, goes on with its restart file, and compares what that leaves with what a run leaves that
# nobody stopped.
#
#     examples/resume.sh PROGRAM
#
# The study is longer.in. The last line begins with `resumed:` where the table, the summary and the restart file are the
# same, byte for byte, and the exit status is 0 then. All files are made in a temporary folder, which is removed.
#
# How long the study runs is up to the disk, which syncs the restart file twice for each evaluation: from less than a
# tenth of a second, where the folder is in memory, to minutes. So the signal comes once the file has grown to half of
# its size in the end, and where the run was done before it came, earlier in another run.

set -u

# The bytes of the header and the end gate, and of a record, of two variables x1 and x2 and one response obj_fn.
header=27
record=60

# How many runs are stopped at the most.
tries=20

fail() {
    printf 'resume: %s\n' "$1" >&2
    exit 1
}

[ "$#" -eq 1 ] || fail "usage: examples/resume.sh PROGRAM"
program=$(command -v -- "$1") || fail "there is no program $1"
case $program in
/*) ;;
*) program=$PWD/$program ;;
esac
study=$(CDPATH='' cd -P -- "$(dirname -- "$0")" && pwd)/longer.in || fail "the study can't be found"
folder=$(mktemp -d) || fail "there is no room for temporary files"
running=

clean() {
    [ -z "$running" ] || kill -KILL "$running" 2>/dev/null
    rm -rf -- "$folder"
}
trap clean EXIT
trap 'exit 1' HUP INT TERM
cd -- "$folder" || fail "the temporary folder can't be entered"

# How many bytes a file has; none where it isn't there yet.
size_of() {
    if [ -f "$1" ]; then
        echo $(($(wc -c <"$1")))
    else
        echo 0
    fi
}

# How many records a restart file of so many bytes has at the most. The last one may not count yet.
records_in() {
    echo $((($1 - header) / record))
}

# Becomes a run of the study in a folder, with the words behind the folder's name.
run_in() {
    cd -- "$1" || exit
    shift
    exec "$program" -i "$study" "$@" >summary
}

# Runs the study in a new folder, and stops it by a signal once its restart file has so many bytes. Answers whether some
# evaluations were made by then, and some not.
stop_at() {
    rm -rf stopped
    mkdir stopped || fail "no folder can be made"
    run_in stopped &
    running=$!
    while [ "$(size_of stopped/dakota.rst)" -lt "$1" ] && kill -0 "$running" 2>/dev/null; do
        sleep 0.01 2>/dev/null || :
    done
    kill -TERM "$running" 2>/dev/null
    { wait "$running"; } 2>/dev/null
    status=$?
    running=
    kept=$(size_of stopped/dakota.rst)
    [ "$status" -gt 128 ] && [ "$kept" -gt $((header + record)) ] && [ "$kept" -lt "$whole" ]
}

mkdir whole || fail "no folder can be made"
(run_in whole) || fail "the study doesn't run to its end"
whole=$(size_of whole/dakota.rst)
echo "not stopped: $(records_in "$whole") evaluations, a restart file of $whole bytes"

aim=$((whole / 2))
until stop_at "$aim"; do
    tries=$((tries - 1))
    [ "$tries" -gt 0 ] || fail "no run could be stopped on its way; the last one ended with status $status"
    aim=$((aim / 2))
    [ "$aim" -gt "$header" ] || aim=$((header + 1))
done
[ ! -e stopped/longer.dat ] || fail "the run that was stopped has left a table"
echo "stopped by SIGTERM, status $status: $(records_in "$kept") evaluations, a restart file of $kept bytes, no table"

(run_in stopped -r dakota.rst) || fail "the run doesn't go on"
for file in longer.dat summary dakota.rst; do
    cmp -- "whole/$file" "stopped/$file" || fail "$file is another one"
done
[ ! -e stopped/dakota.rst.old ] || fail "the restart file was begun anew"
cat stopped/summary
echo "resumed: the table, the summary and the restart file are those of the run that nobody stopped"
