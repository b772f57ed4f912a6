#!/bin/sh
# Lexing, parsing and typing of sources of 8, 16, 32 and 64 KiB: the least user and system time of five runs, and, where
# valgrind is there, instructions and by how much they grow at each doubling. (Sources are whole procedures and a comment:
# the growth is that of the instructions for a byte of the procedures, times 2.)
# Each shape is measured refused, by its last line alone so that all before it is read, parsed and checked, and accepted:
# then it is replayed too, and `main` returns at once. Two shapes are refused by their names: so many of one procedure, and
# as many whose hashes collide in the map of names.
# It fails where a run does anything else, and where a limit of bench/limits.tsv is missed.
# usage: bench/front.sh [--limits] [PROGRAM]   (with --limits only the sources of 64 KiB, for their limits)
. "$(dirname "$0")/common.sh"
sizes='8192 16384 32768 65536'
if [ "$1" = --limits ]; then
    sizes=65536
    shift
fi
program_or_end "$@"
work_in
refused='refused [0-9]+:[0-9]+: '

# shape, words of the program, wanted status, wanted text, and what `main` returns
shape() {
    label=$1-$5
    before=-
    for size in $sizes; do
        awk -v shape="$1" -v size="$size" -v last="$6" -v file="$names" -f "$top/bench/source.awk" > "$work/source.c"
        taken=$(measure --status "$3" --text "$4" --input "$work/source.c" --count -- "$program" $2) || exit 1
        set -- "$1" "$2" "$3" "$4" "$5" "$6" $taken
        each=$(grep -v '^/\*' "$work/source.c" | wc -c | awk -v count="$9" '{ print (count == "-" ? "-" : count / $1) }')
        growth=$(echo "$each $before" | awk '{ print ($2 > 0 ? sprintf("%.2f", 2 * $1 / $2) : "-") }')
        printf '%-14s %8d %10s %14s %6s\n' "$label" "$(wc -c < "$work/source.c")" "$7" "$9" "$growth"
        hold front "$label" "$size" instructions "$9"
        hold front "$label" "$size" growth "$growth"
        before=$each
        set -- "$1" "$2" "$3" "$4" "$5" "$6"
    done
}

printf '%-14s %8s %10s %14s %6s\n' shape bytes seconds instructions growth
for name in deep chain many long empty nest; do
    shape $name check 3 "${refused}unknown name" refused x
    shape $name 'replay []' 0 'returned 0, inputs used 0' accepted 0
done
shape names check 3 "${refused}too many variables" refused x
names=$top/out/collide.txt
[ -s "$names" ] || { mkdir -p "$top/out" && cc -O2 -o "$work/collide" "$top/bench/collide.c" 2> /dev/null && "$work/collide" 6400 > "$names"; }
if [ -s "$names" ]; then
    shape collide check 3 "${refused}too many variables" refused x
else
    echo 'collide: no C compiler, so not measured'
fi
exit $missed
