# What the scripts of this folder share: sourced by each.

top=$(cd "$(dirname "$0")/.." && pwd) || exit 70
limits=$top/bench/limits.tsv
missed=0

# Sets `work` to the folder given, or to a new one that goes with the script.
work_in() {
    work=${1:-$(mktemp -d)} || exit 70
    [ $# -gt 0 ] || trap 'rm -rf "$work"' EXIT
    mkdir -p "$work" || exit 70
}

# The program that is measured, or an end with a message.
program_or_end() {
    program=${1:-$top/crates/smash_main/out/smash_main}
    [ -x "$program" ] || { echo "$program isn't there: ./smash build makes it" >&2; exit 70; }
}

# The commit of the crates, and a sum of what was changed since.
stamp_of() {
    echo "$(git -C "$top" rev-parse HEAD) $(git -C "$top" diff HEAD -- crates crates.txt HANDLES | cksum)"
}

# The crates named, with all that they stand on, lowest first.
with_those_below() {
    awk -v wanted="$*" '
        { sub(/#.*/, "") }
        /:/ { split($0, part, ":"); name = part[1]; sub(/ .*/, "", name); below[name] = part[2] }
        function visit(name, deps, n, i) {
            if (!(name in below) || name in seen) return
            seen[name] = 1
            n = split(below[name], deps, " ")
            for (i = 1; i <= n; i++) visit(deps[i])
            print name
        }
        END { n = split(wanted, names, " "); for (i = 1; i <= n; i++) visit(names[i]) }' "$top/crates.txt"
}

# Builds a program, proved, in a copy of the crates that it stands on: its name, the words of its first run, and those
# crates; its source is standard input. A copy of the same commit and changes is used again. Where `unhinted` is set, the
# copy's functions have no `inline(always)`, so that what each takes can be told apart. Sets `program`.
build_over() {
    name=$1 words=$2
    shift 2
    program=$work/crates/$name/out/$name
    cat > "$work/$name.rt"
    stamp="$(stamp_of) $(cksum < "$work/$name.rt")"
    [ -x "$program" ] && [ "$(cat "$work/stamp" 2> /dev/null)" = "$stamp" ] && return
    rm -rf "$work/crates" "$work/stamp"
    mkdir -p "$work/crates/$name/src"
    for crate in $(with_those_below "$@"); do
        mkdir -p "$work/crates/$crate"
        for part in src specs proofs; do
            [ -d "$top/crates/$crate/$part" ] && cp -r "$top/crates/$crate/$part" "$work/crates/$crate/"
        done
    done
    [ -z "${unhinted:-}" ] || sed -i '/^ *#\[inline(always)\]$/d' "$work"/crates/*/src/*.rt
    { cat "$top/crates.txt"; echo "$name: $(with_those_below "$@" | tr '\n' ' ')"; } |
        awk -v root="$work/crates/" '{ name = $0; sub(/[ :].*/, "", name) } /^[a-z]/ && system("test -d " root name) == 0' > "$work/crates.txt"
    cp "$top/HANDLES" "$work/"
    cp "$work/$name.rt" "$work/crates/$name/src/main.rt"
    echo 'int main() { return 0; }' > "$work/crates/$name/stdin"
    (cd "$work/crates/$name" && rt run -- $words) > "$work/build.log" 2>&1
    [ -x "$program" ] || { echo "the benchmark could not be built; see $work/build.log" >&2; exit 70; }
    echo "$stamp" > "$work/stamp"
}

# Runs a command as bench/measure.py says, or ends.
measure() {
    python3 "$top/bench/measure.py" "$@" || exit 1
}

# Holds a number to its limit, and says where it misses: script, shape, size, what, the number. A row's shape and size may be
# `any`; without a row nothing is held.
hold() {
    awk -F '\t' -v script="$1" -v shape="$2" -v size="$3" -v what="$4" -v value="$5" '
        $1 == script && ($2 == shape || $2 == "any") && ($3 == size || $3 == "any") && $4 == what && value != "-" {
            is_least = $5 == "least"
            if (is_least ? value + 0 < $6 + 0 : value + 0 > $6 + 0) {
                printf "MISSED: %s %s %s: %s is %s, and %s %s is the limit\n", script, shape, size, what, value, is_least ? "at least" : "at most", $6
                exit 1
            }
        }' "$limits" || missed=1
}
