#!/bin/sh
# Workers: the time by the clock, the least of five runs, of the programs of bench/check, or of those below a FOLDER, and of the
# workload of 60 procedures, with 1, 2 and 4 workers, and how many times as fast they are; and their verdicts beside one another.
# It fails where a report has another form than it is to have, where a list doesn't replay to its assertion, where an assertion is
# proved in one run and found in another, and where a run takes more than SECONDS (120).
# usage: bench/workers.sh [--limit SECONDS] [--runs N] [PROGRAM [FOLDER]]
. "$(dirname "$0")/common.sh"
seconds=120 runs=5
while [ "$1" = --limit ] || [ "$1" = --runs ]; do
    if [ "$1" = --limit ]; then seconds=$2; else runs=$2; fi
    shift 2
done
program_or_end "$1"
exec python3 "$top/bench/workers.py" --limit "$seconds" --runs "$runs" --workers 1,2,4 --workload 60 "$program" "${2:-$top/bench/check}"
