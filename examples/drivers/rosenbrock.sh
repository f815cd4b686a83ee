#!/bin/sh
# Rosenbrock's function by awk, in floating point: rosenbrock.sh PARAMETERS RESULTS. Reads the parameters file of the
# standard form by its tags, and leaves the value and the response's label, or FAIL where something is wrong.
LC_ALL=C awk '
$1 !~ /^-?[0-9]/ { next }
$2 == "x1" { x1 = $1; found++ }
$2 == "x2" { x2 = $1; found++ }
$2 ~ /^ASV_1:/ { label = substr($2, 7); found++ }
END {
    b = x2 - x1 * x1
    f = 1 - x1
    value = sprintf("%.16e", 100 * b * b + f * f)
    # A value that is out of range is written inf or nan.
    if (found != 3 || value !~ /^[0-9]/) exit 1
    print value, label
}' <"$1" >"$2.part" || echo FAIL >"$2.part"
# Whole or not at all: a number that is cut reads as another one.
mv -f -- "$2.part" "$2"
