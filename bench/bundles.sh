#!/bin/sh
# Bundles of proved assertions, with budgets of 200, 2,000 and 20,000: their bytes, the seconds of `check` by one worker, of
# `bundle` and of `recheck`, and the memory of `recheck`; of the programs of bench/check and, where a FOLDER is given, of those
# below it. Then loops of more and more turns, texts of 16 MiB of one claim, ones of a byte more, and ones of many splits.
# It fails where `recheck` doesn't accept a bundle at the assertion's place, where `bundle` says another verdict than `check`,
# and where a limit of bench/limits.tsv is missed. A program whose check takes more than SECONDS (20) is left out.
# usage: bench/bundles.sh [--long] [--limit SECONDS] [--budgets N,N..] [PROGRAM [FOLDER]]     (with --long the long texts alone)
. "$(dirname "$0")/common.sh"
given=
while case ${1:-} in --*) true ;; *) false ;; esac; do
    case $1 in
        --long) given="$given $1"; shift ;;
        *) given="$given $1 $2"; shift 2 ;;
    esac
done
program_or_end "${1:-}"
exec python3 "$top/bench/bundles.py" $given "$program" "$top/bench/check" ${2:+"$2"}
