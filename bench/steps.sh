#!/bin/sh
# What steps cost: the programs below a folder with one worker and the largest budget, what is settled, seconds and memory, and
# the instructions of some with the default budget and of a step of examples/count.c. Holds them to bench/limits.tsv.
# usage: bench/steps.sh PROGRAM FOLDER
. "$(dirname "$0")/common.sh"
program_or_end "$1"
[ -d "$2" ] || { echo "usage: bench/steps.sh PROGRAM FOLDER" >&2; exit 64; }
exec python3 "$top/bench/steps.py" "$program" "$2" "$limits" "$top/examples/count.c"
