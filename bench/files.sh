#!/bin/sh
# What `smash-files` settles of labelled programs: how many assertions each stage settles, in how many seconds, with four
# files at once, and whether anything is wrong. A FOLDER has a truth.tsv (tests/files/labels.py says which columns).
# usage: bench/files.sh [--workers N] [--stage-time SECONDS] [--engine z3|none] [--graphs PATH] PROGRAM FOLDER..
exec python3 "$(dirname "$0")/files.py" "$@"
