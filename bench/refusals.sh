#!/bin/sh
# Refuses each allocation of the built program in turn, and then each one from the n-th on: `check` with four workers and
# with one, `workload 3`, a replay, a bundle, its check, a sweep and an edit. Each run has to end with status 7 and print
# nothing, or to end as it does without a refusal, output and status. It prints a table, and ends with 1 where a run ends
# otherwise.
# usage: bench/refusals.sh [PROGRAM [MOST [RUN..]]]     MOST: at most so many numbers a command (else 1000000);
#        RUN..: only those whose name in the table begins so, as `edit`
. "$(dirname "$0")/common.sh"
program_or_end "${1:-}"
work_in
cc -O2 -shared -fPIC -o "$work/refuse.so" "$top/bench/refuse.c" -ldl || exit 70
[ $# -lt 1 ] || shift
python3 "$top/bench/refusals.py" "$program" "$work/refuse.so" "$@"
