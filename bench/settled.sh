#!/bin/sh
# What is settled: of the labelled programs (tests/programs), with one worker and 2,000 steps, the assertions that are settled
# and the processor time by folder, of one program or of several side by side. Fails where a verdict isn't that of tests/truth.tsv.
# usage: bench/settled.sh [PROGRAM..]
. "$(dirname "$0")/common.sh"
program_or_end "$1"
[ $# -gt 0 ] || set -- "$program"
exec python3 "$top/bench/settled.py" "$@"
