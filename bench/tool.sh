#!/bin/sh
# The evaluations of a vector study of two variables by steps, by a tool that starts the child: tool.sh TOOL COUNT X1 X2 STEP1
# STEP2, where TOOL is xargs or parallel. Three parts follow each other: awk writes the parameters files of all evaluations; the
# tool runs ./child for each of them, one after the other; awk reads all results files and writes the table t.dat, and all
# files are removed. No record is kept and nothing is synced; no file is looked at before all children have run.
tool=$1 count=$2
first1=$3 first2=$4 step1=$5 step2=$6

# Writes the parameters files, and prints the names of each evaluation's two files.
lay() {
    awk -v count="$count" -v first1="$first1" -v first2="$first2" -v step1="$step1" -v step2="$step2" 'BEGIN {
        form = "%22d variables\n%22.15e x1\n%22.15e x2\n%22d functions\n%22d ASV_1:obj_fn\n%22d derivative_variables\n" \
            "%22d DVV_1:x1\n%22d DVV_2:x2\n%22d analysis_components\n%22d eval_id\n"
        for (row = 1; row <= count; row++) {
            file = "params.in." row
            printf form, 2, first1 + (row - 1) * step1, first2 + (row - 1) * step2, 1, 1, 2, 1, 2, 0, row >file
            close(file)
            print file, "results.out." row
        }
    }'
}

# Runs the child for each line of names.
run() {
    case $tool in
    xargs) xargs -n 2 ./child ;;
    parallel) PARALLEL_HOME=$PWD parallel --will-cite -j1 --colsep ' ' ./child '{1}' '{2}' ;;
    *) return 2 ;;
    esac
}

# Reads the results files, and prints the table.
read_all() {
    awk -v count="$count" -v first1="$first1" -v first2="$first2" -v step1="$step1" -v step2="$step2" 'BEGIN {
        print "%eval_id interface x1 x2 obj_fn"
        for (row = 1; row <= count; row++) {
            file = "results.out." row
            if ((getline <file) <= 0) exit 1
            print row, "NO_ID", first1 + (row - 1) * step1, first2 + (row - 1) * step2, $1
            close(file)
        }
    }'
}

lay >names && run <names && read_all >t.dat && xargs rm -- <names && rm -- names
