#!/bin/sh
# How far a wooden beam of one metre bends under 50 N at its end, in millimetres, by its width. It is cut from a log of
# 100 mm: beam.sh PARAMETERS RESULTS
LC_ALL=C awk '
$2 == "width" { width = $1 }
END {
    height = sqrt(100 ^ 2 - width ^ 2)
    print 2e7 / (width * height ^ 3), "deflection"
}' <"$1" >"$2.part" && mv -- "$2.part" "$2"
