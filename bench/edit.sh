#!/bin/sh
# Edits: a constant in `main`, in a procedure that calls none and in one that calls others is raised by one, in the programs of
# examples/ and of those below a FOLDER, and each is given to `edit` as it stands too: seconds and questions to the solver of
# `check` on the new source and of `edit` without those of `check` on the old one, and how many summaries were kept.
# With --random N there are N edits at random in place of these, of the programs and of the workload of 12 procedures.
# It fails where a verdict of `edit` contradicts that of `check` on the new source, or the folder's truth.tsv where the source is
# as it was, where not all summaries of such a source are kept, and where a list doesn't replay to its assertion.
# (bench/edits.sh is about wrong bodies.)
# usage: bench/edit.sh [--limit SECONDS] [--random N] [--seed S] [PROGRAM [FOLDER]]
. "$(dirname "$0")/common.sh"
given=
while case ${1:-} in --*) true ;; *) false ;; esac; do
    given="$given $1 $2"
    shift 2
done
program_or_end "${1:-}"
exec python3 "$top/bench/edit.py" $given "$program" "$top/examples" ${2:+"$2"}
