#!/bin/sh
# Runs the built program with little machine stack (`ulimit -s`): on sources that nest as deep as the limits allow, on queries
# and on calls that are deep, and on questions and certificates that are split as often as may be. Each run has to end with the
# 2 MiB that docs/USING.md names as it does with 64. The table has the least stack with which it does, to 4 KiB, and whether
# 1,024 and 512 KiB do. Takes a minute or two.
# usage: bench/stack.sh [PROGRAM]
. "$(dirname "$0")/common.sh"
program_or_end "${1:-}"
exec python3 "$top/bench/stack.py" "$program"
