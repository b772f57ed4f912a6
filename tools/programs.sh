# shellcheck shell=sh
# Which sources a program is made of, what they sum to, and which program of them runs here. It is read by ./smash, .ci/run
# and .ci/release, which have the top of the repository in `top`.
#
# out/built/SUMS and release/SUMS have a line `FILE SOURCES KIT SHA256 COMMIT` for each program in their folder: SOURCES is the
# checksum of all that it was made of, KIT the version of the kit that proved and built it, SHA256 that of the file, COMMIT the
# commit whose sources they are (`-` where that isn't known, and with `-changed` where they were edited).
# shellcheck disable=SC2034 # variables that are set for those who read this

: "${top:?}"

# All programs are linked for this machine, with its C library.
machine='Linux x86_64'
loader=/lib64/ld-linux-x86-64.so.2

if command -v sha256sum > /dev/null; then
    sha256=sha256sum
elif command -v shasum > /dev/null; then
    sha256='shasum -a 256'
else
    sha256=
fi

# What `release/` calls the program of a crate.
released_name() {
    case $1 in
        smash_main) echo smash-x86_64-linux ;;
        smash_graphs) echo smash-graphs-x86_64-linux ;;
    esac
}

# The crates of those programs that crates.txt lists.
listed_programs() {
    for program_crate in smash_main smash_graphs; do
        [ -z "$(needed "$program_crate")" ] || echo "$program_crate"
    done
}

# The lines of crates.txt of a program and of the crates that it stands on, each behind those that it uses.
needed() {
    awk -F: -v top="$1" '
        { sub(/#.*/, ""); split($1, words, " "); if (words[1] != "") { line[words[1]] = $0; uses[words[1]] = $2 } }
        function visit(name,    below, count, at) {
            if (!(name in line) || name in seen) return
            seen[name] = 1
            count = split(uses[name], below, /[ \t,]+/)
            for (at = 1; at <= count; at++) visit(below[at])
            sub(/^[ \t]+/, "", line[name])
            print line[name]
        }
        END { visit(top) }' "$top/crates.txt"
}

# The crates' names in such lines.
names_of() {
    printf '%s\n' "$1" | sed 's/[ :].*//'
}

# The folders of these crates that a program is made of, from the top.
folders_of() {
    for crate in $1; do
        for part in src specs proofs; do
            [ ! -d "$top/crates/$crate/$part" ] || echo "crates/$crate/$part"
        done
    done
}

# Searches below the paths given, from the top, for all but what editors leave beside the files that they edit.
find_from_top() (
    paths=$1
    shift
    CDPATH='' cd -- "$top" || exit 1
    # shellcheck disable=SC2086 # paths without blanks
    find -L $paths \( -name '*~' -o -name '.*.sw?' -o -name '.#*' -o -name '#*#' \) -prune -o "$@"
)

# The sha256 of a file, or of standard input.
sha256_of() {
    # shellcheck disable=SC2086 # a command and its options
    whole=$($sha256 "$@") && printf '%s' "${whole%% *}"
}

# The checksum of all that a program is made of.
sources_sum() (
    lines=$(needed "$1") && [ -n "$lines" ] && [ -n "$sha256" ] || exit 1
    # shellcheck disable=SC2086 # a command and its options
    sums=$(find_from_top "HANDLES $(folders_of "$(names_of "$lines")")" -type f -exec $sha256 {} +) || exit 1
    { printf '%s\n' "$lines" && printf '%s\n' "$sums" | LC_ALL=C sort; } | sha256_of
)

# The version of the kit, with `-` for blanks. What `rt version` prints is the kit's file KIT-ID, and rt takes some hundred
# milliseconds to print it.
kit_version() {
    at=$(readlink -f "$(command -v rt)")
    if [ -r "${at%/bin/rt}/KIT-ID" ]; then
        read -r line < "${at%/bin/rt}/KIT-ID"
    else
        line=$(rt version)
    fi
    case $line in
        '') return 1 ;;
        *[!A-Za-z0-9.\ _-]*) printf '%s' "$line" | sha256_of ;;
        *) printf '%s' "$line" | tr ' ' '-' ;;
    esac
}

# The last commit, with `-changed` where what programs are made of was edited since.
commit_here() {
    if ! commit_found=$(git -C "$top" rev-parse HEAD 2> /dev/null); then
        echo -
    elif [ -n "$(git -C "$top" status --porcelain -- crates crates.txt HANDLES \
        ':(exclude)*~' ':(exclude)*/.*.sw?' ':(exclude)*/.#*' ':(exclude)*/#*#' 2> /dev/null)" ]; then
        echo "$commit_found-changed"
    else
        echo "$commit_found"
    fi
}

# Whether a file has the sha256 that is written down of it.
is_right() {
    [ -f "$1" ] && [ "$(sha256_of "$1" 2> /dev/null)" = "$2" ]
}

# keep_built CRATE SOURCES KIT FILE: keeps a program that was proved and built of these sources in out/built, and no older one.
# The file comes before its line, and each by one rename, so a start never meets half a program.
keep_built() {
    folder=$top/out/built
    kept=$1-$2-$3
    mkdir -p "$folder" || return 1
    cp "$4" "$folder/new.$$" || return 1
    kept_sum=$(sha256_of "$folder/new.$$") || return 1
    mv -f "$folder/new.$$" "$folder/$kept" || return 1
    {
        [ ! -r "$folder/SUMS" ] || grep -v "^$1-" "$folder/SUMS"
        echo "$kept $2 $3 $kept_sum $(commit_here)"
    } > "$folder/SUMS.new" || return 1
    mv -f "$folder/SUMS.new" "$folder/SUMS" || return 1
    for old in "$folder/$1"-*; do
        [ "$old" = "$folder/$kept" ] || rm -f "$old"
    done
}

# find_built CRATE SOURCES [KIT]: sets `file`, `kit`, `sum` and `commit` to the line of a program of these sources, by this
# version of the kit or by any, whose file has its sha256.
find_built() {
    [ -r "$top/out/built/SUMS" ] || return 1
    while read -r file of kit sum commit; do
        case "$file $of $kit" in
            "$1"-*" $2 ${3:-$kit}") ! is_right "$top/out/built/$file" "$sum" || return 0 ;;
        esac
    done < "$top/out/built/SUMS"
    return 1
}

# find_released CRATE: sets `file`, `of`, `kit`, `sum` and `commit` to the line of the released program.
find_released() {
    [ -r "$top/release/SUMS" ] || return 1
    while read -r file of kit sum commit; do
        [ "$file" != "$(released_name "$1")" ] || return 0
    done < "$top/release/SUMS"
    return 1
}

# Whether this machine can run a program, which without words and input ends with 3 or 4: it refuses one of them. A loader that
# refuses the program ends with another status.
runs_here() {
    [ "$(uname -sm)" = "$machine" ] && [ -x "$loader" ] || return 1
    "$1" < /dev/null > /dev/null 2>&1
    case $? in 3 | 4) ;; *) return 1 ;; esac
}

# choose CRATE: sets `program`, from the top, to the one that a start runs, `kind` to built, released, or changed, where the
# sources aren't those of the release, and `kit` and `commit` to what its line says. Where there is none, `why` says why. The
# sources are summed only where they matter.
choose() {
    kind='' sources='' why='none is built here of these sources, and none is released'
    if [ -z "$sha256" ]; then
        why="neither sha256sum nor shasum is there, without which no program can be verified"
        return 1
    fi
    if sources_matter; then
        sources=$(sources_sum "$1" 2> /dev/null) || why="the sources in $top can't be read, and none is released"
    fi
    if [ -n "$sources" ] && find_built "$1" "$sources"; then
        program=out/built/$file kind=built
        ! runs_here "$top/$program" || return 0
        why="$program can't run on this machine"
    fi
    find_released "$1" || return 1
    program=release/$file kind=released
    [ "$of" = "${sources:-$of}" ] || kind=changed
    if ! is_right "$top/$program" "$sum"; then
        why="$program doesn't have the sha256 that release/SUMS names"
        return 1
    fi
    why="$program, for $machine with $loader, can't run on this machine"
    runs_here "$top/$program"
}

# What the choice of a program depends on: each file and folder that is summed, run or read for it, and the folders in which one
# may appear.
paths_of() {
    echo "$loader"
    find_from_top "smash tools release out/built" -print 2> /dev/null
    sources_matter || return 0
    crates=$(names_of "$(needed "$1" 2> /dev/null)")
    for crate in $crates; do
        echo "crates/$crate"
    done
    find_from_top "HANDLES crates.txt $(folders_of "$crates")" -print 2> /dev/null
}

# The time on the disk, in seconds, and nothing where out/ can't be written or lies on another disk, whose time may differ.
time_on_disk() {
    mkdir -p "$top/out/built" || return 1
    : > "$top/out/clock" || return 1
    [ "$(stat -L -c %d "$top/out/clock")" = "$(stat -L -c %d "$top/crates")" ] && stat -c %Z "$top/out/clock"
}

# choose_and_remember CRATE FILE: chooses, and keeps in FILE what a later start needs to find the same again. The listing is as
# before and after the choice, and all in it changed in an earlier second than the one in which it was begun, so what changes
# later, even in that second, gets another time.
choose_and_remember() {
    began=$(time_on_disk 2> /dev/null)
    paths=$(paths_of "$1") listed=$(list_now)
    choose "$1" || return 1
    if [ -n "$began" ] && [ "$(list_now)" = "$listed" ] && is_settled && { [ -n "$sources" ] || ! sources_matter; }; then
        remember "$2"
    fi
    return 0
}

list_now() {
    printf '%s\n' "$paths" | tr '\n' '\0' | listing 2> /dev/null
}

# Whether each path has a line in the listing, and none changed in the second in which it was begun or later.
is_settled() {
    [ "$(printf '%s\n' "$listed" | wc -l)" -eq "$(printf '%s\n' "$paths" | wc -l)" ] &&
        printf '%s\n' "$listed" | awk -v began="$began" '$NF >= began { late = 1 } END { exit late }'
}

# Each file comes by one rename. The listing names the paths, so files that two starts wrote fit only where they are the same.
remember() {
    printf '%s\n' "$paths" | tr '\n' '\0' > "$1.new.$$" && mv -f "$1.new.$$" "$1.paths" &&
        printf '%s\n' "$kind $program" "$listed" "$kind $program" > "$1.new.$$" && mv -f "$1.new.$$" "$1"
} 2> /dev/null
