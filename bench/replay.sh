#!/bin/sh
# Replays: instructions for each step and steps for each second of user and system time, the least of five runs, of a
# counting loop, of calls that return, of a recursion that doesn't, with its memory for each call, and of a loop over
# blocks that are nested 60 deep, which are left at their end and by `continue`.
# It fails where a run does anything else, and where a limit of bench/limits.tsv is missed.
# usage: bench/replay.sh [--limits] [PROGRAM]   (with --limits a tenth of the steps, for their limits)
. "$(dirname "$0")/common.sh"
fuel=200000000
if [ "$1" = --limits ]; then
    fuel=20000000
    shift
fi
program_or_end "$@"
work_in

# label, fuel, steps for each call that stays (0: none does) and source
replay() {
    printf '%s' "$4" > "$work/source.c"
    taken=$(measure --status 2 --text "fuel $2 spent" --input "$work/source.c" -- "$program" replay --fuel "$2" '[]') || exit 1
    few=1000000
    count=$(measure --runs 1 --status 2 --text "fuel $few spent" --input "$work/source.c" --count -- "$program" replay --fuel "$few" '[]') || exit 1
    set -- "$1" "$2" "$3" $taken "${count##* }"
    steps=$(echo "$2 $4" | awk '{ printf "%.1f", $1 / $2 / 1e6 }')
    each=$(echo "$6 $few" | awk '{ print ($1 == "-" ? "-" : sprintf("%.1f", $1 / $2)) }')
    bytes=$(echo "$2 $3 $5" | awk '{ print ($2 > 0 ? sprintf("%.0f", $3 * 1024 / ($1 / $2)) : "-") }')
    printf '%-10s %10s steps %8s s %8s million steps/s %8s instructions/step %8s KB %6s bytes/call\n' "$1" "$2" "$4" "$steps" "$each" "$5" "$bytes"
    hold replay "$1" any steps "$steps"
    hold replay "$1" any instructions "$each"
    hold replay "$1" any bytes "$bytes"
}

deep() {
    awk -v n=60 -v inside="$1" 'BEGIN { for (i = 0; i < n; i++) t = t "{"; t = t inside; for (i = 0; i < n; i++) t = t "}"; print t }'
}

replay loop $fuel 0 'int main() { int x; for (x = 0; ; x++) ; }'
replay calls $fuel 0 'int f(int n) { return n + 1; } int main() { int x; for (;;) x = f(x); }'
replay recursion 10000000 5 'int f(int n) { return f(n + 1); } int main() { return f(0); }'
replay ending $fuel 0 "int main() { int x; for (x = 0; ; x++) $(deep ';') }"
replay leaving $fuel 0 "int main() { int x; for (x = 0; ; x++) $(deep 'continue;') }"
exit $missed
