#!/bin/sh
# Proves and builds dk_measure, the program that measures texts and attempts, where that wasn't done yet or a source file is
# newer, as ../dakota does it with its own. The kit's command is rt, or what the variable RT names.
here=$(CDPATH='' cd -P -- "$(dirname -- "$0")" && pwd) || exit 1
root=$(dirname -- "$here")
crates=$root/crates
data=$crates/dk_measure/data
out=$crates/dk_measure/out
program=$out/dk_measure
log=$out/build.log
rt=${RT:-rt}

# Whether the program is there, and no source is newer.
is_built() {
    [ -x "$program" ] &&
        [ -z "$(find "$root/crates.txt" "$crates"/*/src "$crates"/*/specs "$crates"/*/proofs \
            -newer "$program" -print 2>/dev/null | head -n 1)" ]
}

# The program's crate and those that it stands on, each behind those below it.
lowest_first() {
    awk -F : '
        function visit(name, names, count, at) {
            if (!(name in below) || name in seen) return
            seen[name]
            count = split(below[name], names, " ")
            for (at = 1; at <= count; at++) visit(names[at])
            print name
        }
        { sub(/#.*/, "") }
        NF > 1 { split($1, words, " "); below[words[1]] = $2 }
        END { visit("dk_measure") }
    ' "$root/crates.txt"
}

# Proves and builds a crate in the current folder. The kit runs the program, once it is built, on its own example.
build_crate() {
    if [ "$1" = dk_measure ]; then
        "$rt" run -- texts 1 "$data/study.in" "$data/results.out" 0.5 0.5
    else
        "$rt" lib
    fi
}

is_built && exit 0
mkdir -p -- "$out" && : >"$log" && begun=$(mktemp "$out/begun.XXXXXX") || exit 1
trap 'rm -f -- "$begun"' EXIT
trap 'exit 1' HUP INT TERM
echo "bench: dk_measure has to be proved and built first; the log is $log" >&2
for name in $(lowest_first); do
    if ! (cd -- "$crates/$name" && build_crate "$name") </dev/null >>"$log" 2>&1; then
        echo "bench: $name couldn't be proved and built; the log is $log" >&2
        exit 1
    fi
done
[ -x "$program" ] && touch -r "$begun" "$program"
