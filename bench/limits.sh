#!/bin/sh
# Holds the built program to bench/limits.tsv, in seconds: sources of 64 KiB of each shape, and replays.
# usage: bench/limits.sh [PROGRAM]
here=$(dirname "$0")
"$here/front.sh" --limits "$@"
front=$?
"$here/replay.sh" --limits "$@"
replay=$?
exit $((front | replay))
