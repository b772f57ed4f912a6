#!/bin/sh
# Schedules: each program of examples/, or of those below a FOLDER, N (20) times with 1, 2, 4 and 16 workers each.
# It fails where a report has another form than it is to have, where a list doesn't replay to its assertion, where an assertion is
# proved in one run and found in another, where a verdict isn't that of the folder's truth.tsv, if there is one, and where a run
# takes more than SECONDS (120).
# usage: bench/schedules.sh [--limit SECONDS] [--runs N] [PROGRAM [FOLDER]]
. "$(dirname "$0")/common.sh"
seconds=120 runs=20
while [ "$1" = --limit ] || [ "$1" = --runs ]; do
    if [ "$1" = --limit ]; then seconds=$2; else runs=$2; fi
    shift 2
done
program_or_end "$1"
exec python3 "$top/bench/workers.py" --limit "$seconds" --runs "$runs" --workers 1,2,4,16 "$program" "${2:-$top/examples}"
