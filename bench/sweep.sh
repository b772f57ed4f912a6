#!/bin/sh
# Sweeps: seconds, paths a second and instructions of programs with many branches, a long loop and a deep recursion, each on
# constants and on inputs, with 1,250, 2,500 and 5,000 edges, and by how much they grow at each doubling. With a FOLDER it goes
# on with the programs below it: how `sweep --edges 5000` ends, and in how many seconds.
# It fails where a limit of bench/limits.tsv is missed, where a text isn't as wanted, where a list doesn't replay to its
# assertion, and where a verdict isn't that of `check` or of the folder's truth.tsv.
# usage: bench/sweep.sh [--limits] [--limit SECONDS] [PROGRAM [FOLDER]]     (with --limits the shapes with 5,000 edges alone)
. "$(dirname "$0")/common.sh"
given=
while case ${1:-} in --*) true ;; *) false ;; esac; do
    case $1 in
        --limits) given="$given $1"; shift ;;
        *) given="$given $1 $2"; shift 2 ;;
    esac
done
program_or_end "${1:-}"
exec python3 "$top/bench/sweep.py" $given "$program" ${2:+"$2"}
