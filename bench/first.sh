#!/bin/sh
# The first build of the program, in a fresh clone of the last commit: seconds by the clock and of processors, the memory
# of the largest process, and disk. What other copies on this machine have kept is hidden from it, which only root can.
# usage: bench/first.sh [DIRECTORY]   (a temporary one, if none is given)
top=$(cd "$(dirname "$0")/.." && pwd) || exit 70
work=${1:-$(mktemp -d)} || exit 70
[ $# -gt 0 ] || trap 'rm -rf "$work"' EXIT
kit=$(readlink -f "$(command -v rt)")
kept=${kit%/*/bin/rt}/rattle-kept

git clone -q "$top" "$work/clone" || exit 1
# shellcheck disable=SC2016
unshare -m sh -c '
    [ ! -d "$1" ] || mount -t tmpfs none "$1" || exit 1
    cd "$2" && /usr/bin/time -f "%e %U %S %M" -o ../time ./smash build
' sh "$kept" "$work/clone" || exit 1
disk=$(du -cm "$work"/clone/crates/*/out "$work/clone/out" | tail -n 1 | cut -f 1)
awk -v disk="$disk" -v processors="$(nproc)" '{
    printf "%.1f minutes on %d processors, of which they worked %.1f minutes; the largest process took %.1f GB, and the disk %.1f GB\n",
        $1 / 60, processors, ($2 + $3) / 60, $4 / 1048576, disk / 1024
}' "$work/time"
