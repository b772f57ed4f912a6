#!/bin/sh
# Tries the wrong bodies that the gate doesn't: each crates/NAME/must-fail/*.md beside the *.edit files, in a copy of the
# crates over what `rt check` kept of them. Run it when a contract changes, and before a release. Each line of
# bench/edits.tsv says when an edit was last tried, at which sources of its crate (a sum of src/ and specs/), and what came
# of it. A body that no contract refuses names the test that does, by a line `test: NAME`.
# usage: bench/edits.sh [NAME..]     these crates, or all; the status is 1 where one is still proved or can't be read
#        bench/edits.sh old          the crates whose sources are others than when their edits were last tried
. "$(dirname "$0")/common.sh"
log=$top/bench/edits.tsv

# A sum of what a crate's edits are tried against.
sources_of() {
    (cd "$top/crates/$1" && find src specs -type f 2> /dev/null | sort | xargs cat | cksum | cut -d' ' -f1)
}

# The crates that have edits beside those of the gate.
crates_with_edits() {
    (cd "$top/crates" && ls -d */must-fail/*.md 2> /dev/null | cut -d/ -f1 | sort -u)
}

# Notes what came of an edit, in place of what the log had of it.
note() {
    awk -F '\t' -v crate="$1" -v edit="$2" '!($1 == crate && $2 == edit)' "$log" > "$work/log"
    printf '%s\t%s\t%s\t%s\t%s\n' "$1" "$2" "$3" "$(date +%Y-%m-%d)" "$4" >> "$work/log"
    { grep '^crate' "$work/log"; grep -v '^crate' "$work/log" | sort; } > "$log"
}

# Whether the test that a wrong body names fails with it, unproved: a crate of the copy, and the edit.
by_test() {
    file=$work/copy/crates/$1/$(sed -n 's/^file: //p' "$2")
    cp "$file" "$work/whole"
    awk '
        FNR == NR { if (sub(/^old: /, "")) old = $0; else if (sub(/^new: /, "")) new = $0; next }
        (at = index($0, old)) { $0 = substr($0, 1, at - 1) new substr($0, at + length(old)) }
        { print }' "$2" "$work/whole" > "$file"
    (cd "$work/copy/crates/$1" && rt try --test) > "$work/said" 2>&1
    cp "$work/whole" "$file"
    grep -qE "^test (.*::)?$(sed -n 's/^test: //p' "$2") \.\.\. FAILED" "$work/said"
}

if [ "${1:-}" = old ]; then
    for crate in $(crates_with_edits); do
        sum=$(sources_of "$crate")
        awk -F '\t' -v crate="$crate" -v sum="$sum" '$1 == crate { seen = 1; if ($3 != sum) old = 1 } END { exit seen && !old }' "$log" &&
            echo "$crate"
    done
    exit 0
fi

work_in
[ -s "$log" ] || printf 'crate\tedit\tsources\tdate\twhat came of it\n' > "$log"
mkdir -p "$work/copy/crates"
cp "$top/crates.txt" "$top/HANDLES" "$work/copy/"
for crate in "$top"/crates/*/; do
    name=$(basename "$crate")
    mkdir -p "$work/copy/crates/$name"
    for part in src specs proofs; do
        [ ! -d "$crate/$part" ] || cp -r "$crate/$part" "$work/copy/crates/$name/"
    done
done
for crate in ${*:-$(crates_with_edits)}; do
    mkdir -p "$work/copy/crates/$crate/must-fail"
    for edit in "$top/crates/$crate"/must-fail/*.md; do
        [ -e "$edit" ] && ! grep -q '^test: ' "$edit" || continue
        cp "$edit" "$work/copy/crates/$crate/must-fail/$(basename "$edit" .md).edit"
    done
    (cd "$work/copy" && rt must-fail "$crate") > "$work/said" 2>&1
    sum=$(sources_of "$crate")
    for edit in "$work/copy/crates/$crate"/must-fail/*.edit; do
        name=$(basename "$edit" .edit)
        said=$(grep -F "$crate/$name.edit: " "$work/said" | head -1 | sed "s|.*$name.edit: ||")
        case $said in
            "refused, as it must be"*) came=refused ;;
            "NOT REFUSED"*) came='STILL PROVED' missed=1 ;;
            *) came="${said:-not tried}" missed=1 ;;
        esac
        echo "$crate $name: $came"
        note "$crate" "$name" "$sum" "$came"
    done
    for edit in $(grep -ls '^test: ' "$top/crates/$crate"/must-fail/*.md); do
        name=$(basename "$edit" .md)
        came='refused by its test'
        by_test "$crate" "$edit" || { came='PASSES ITS TEST'; missed=1; }
        echo "$crate $name: $came"
        note "$crate" "$name" "$sum" "$came"
    done
done
exit "$missed"
