#!/bin/sh
# Runs the built program on inputs and outputs that are closed, full, endless, slow or interrupted: each run has to end with
# its status, and nothing may be lost. Takes some seconds.
# usage: bench/streams.sh [PROGRAM]
. "$(dirname "$0")/common.sh"
program_or_end "${1:-}"
work_in
cc -O2 -shared -fPIC -o "$work/interrupt.so" "$top/bench/interrupt.c" -ldl || exit 70
INTERRUPT=$work/interrupt.so python3 "$top/bench/streams.py" "$program"
