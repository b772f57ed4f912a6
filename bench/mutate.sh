#!/bin/sh
# Changes bundles at random, and gives each one to `recheck`: none may end by a signal or with another status than 0, 2 and 3,
# take more than 10 seconds, be called a bundle where the grammar has none (or none where it has one), or be accepted while
# its assertion is found by `check` or fails on some small inputs. The bundles are those of the programs of examples/, and of
# those below a folder where one is given. Some 100 texts at the limits of the grammar come first.
# usage: bench/mutate.sh [--changes N] [--seed S] [--limit SECONDS] [PROGRAM [FOLDER]]     N is 10,000 if it isn't given
. "$(dirname "$0")/common.sh"
given=
while case ${1:-} in --*) true ;; *) false ;; esac; do
    given="$given $1 $2"
    shift 2
done
program_or_end "${1:-}"
exec python3 "$top/bench/mutate.py" $given "$program" "$top/examples" ${2:+"$2"}
