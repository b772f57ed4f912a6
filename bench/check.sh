#!/bin/sh
# Checks: what the program says of each assertion of the programs of bench/check, and of a `main` of 500 statements in a row
# that is made here, with the time, the memory, the steps, and, where valgrind is there, the questions to the solver and the
# instructions that it takes.
# It fails where a status or a text isn't the one that bench/check.tsv wants, where a `found` doesn't replay to its assertion,
# and where a run takes more than SECONDS (120).
# With a FOLDER it goes on with the programs below it, and also fails where a verdict isn't that of the folder's truth.tsv, if
# there is one (rows of a program, the number of an assertion, and `proved` or `found`).
# usage: bench/check.sh [--limit SECONDS] [PROGRAM [FOLDER]]
. "$(dirname "$0")/common.sh"
seconds=120
if [ "$1" = --limit ]; then
    seconds=$2
    shift 2
fi
program_or_end "$1"
work_in

# so many statements in a row, mostly assignments by which `x` rises from at most 1000
straight() {
    awk -v many="$1" 'BEGIN {
        print "int main() {\n    int x = input();\n    assume(x >= 0 && x <= 1000);"
        for (i = 0; i < many - 5; i++) { print "    x = x + " i % 7 + 1 ";"; sum += i % 7 + 1 }
        print "    assert(x >= " sum ");\n    assert(x != " sum + 77 ");\n    return 0;\n}"
    }'
}

straight 500 > "$work/straight-500.c"
cp "$top"/bench/check/*.c "$work/"
python3 "$top/bench/check.py" --limit "$seconds" "$program" "$work" "$top/bench/check.tsv"
status=$?
[ -z "$2" ] || python3 "$top/bench/check.py" --limit "$seconds" "$program" "$2" || status=1
exit $status
