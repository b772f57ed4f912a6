# shellcheck shell=sh
# Proves and builds the programs: what `./smash build` does. The sources are summed before a build and after it, and a program
# of other sources isn't kept. Standard error gets what is being done where it is a terminal, and else one line at the beginning
# of a build, and the reason why it failed (status 70). ./smash reads it, which has `top`, `tell` and `fail`.

# shellcheck source=tools/programs.sh
. "${top:?}/tools/programs.sh"

out=$top/out
log=$out/build.$$.log
first_build="; the first build takes ${minutes:?}, later ones seconds"
job='' said='' begun='' told=0

say() {
    [ ! -t 2 ] || tell "$1"
}

# Whether the program of the crate in `name`, of these sources and by this version of the kit, is kept.
is_built() {
    sources=$(sources_sum "$name" 2> /dev/null) || fail "the sources in $top can't be read"
    kit_here=$(kit_version) || fail "rt doesn't tell its version"
    find_built "$name" "$sources" "$kit_here"
}

require_writable() {
    { mkdir -p "$1" 2> /dev/null && [ -w "$1" ]; } || fail "the folder $1, where the program is proved and built, can't be written"
}

require_tools() {
    [ -n "$sha256" ] || fail "neither sha256sum nor shasum is there, without which no program can be verified"
    command -v rt > /dev/null || fail "rt, the kit's command that proves and builds the program, isn't on the path"
    require_writable "$out"
    [ -n "$(listed_programs 2> /dev/null)" ] || fail "the sources in $top can't be read"
    for crate in $(crates_of_programs | sort -u); do
        require_writable "$top/crates/$crate/out"
    done
    if ! (: > "$log" && : >> "$out/lock") 2> /dev/null; then
        fail "the folder $out, where the program is proved and built, can't be written"
    fi
}

crates_of_programs() {
    for program in $(listed_programs); do
        names_of "$(needed "$program")"
    done
}

# One build goes on at a time, and removes what failed ones left. Without the command flock two may, each with its own log;
# rt lets one at a time into a crate.
take_turn() {
    command -v flock > /dev/null || return 0
    exec 9>> "$out/lock"
    if ! flock -n 9; then
        say "another start proves and builds the program; waiting for it"
        flock 9 &
        job=$!
        wait "$job"
        job=
    fi
    for old in "$out"/build.*.log "$out"/built/new.* "$out"/start-*.new.*; do
        [ "$old" = "$log" ] || rm -f "$old"
    done
}

# As many checks at once as there are processors, and as there is memory for, at 4 GB each: most take 1 to 3 GB, and the
# largest process of a first build 6.
checks_at_once() {
    processors=$(nproc 2> /dev/null || getconf _NPROCESSORS_ONLN 2> /dev/null || echo 1)
    memory=$(awk '/^MemAvailable:/ { print $2 }' /proc/meminfo 2> /dev/null)
    memory=${memory:-0}
    for file in /sys/fs/cgroup/memory.max /sys/fs/cgroup/memory/memory.limit_in_bytes; do
        limit=
        [ ! -r "$file" ] || read -r limit < "$file"
        case $limit in
            '' | *[!0-9]*) ;;
            *) [ "$((limit / 1024))" -ge "$memory" ] || memory=$((limit / 1024)) ;;
        esac
    done
    fitting=$((memory / 4194304))
    [ "$fitting" -le "$processors" ] || fitting=$processors
    [ "$fitting" -ge 1 ] || fitting=1
    echo "$fitting"
}

# How far `rt all` is: it writes `== NAME` once a crate is done. Those are being proved, or are next, whose libraries are done.
progress() {
    ended=" $(sed -n 's/^== //p' "$log" | tr '\n' ' ')"
    case $(tail -n 1 "$log") in
        'rt: waiting '*) tail -n 1 "$log" | sed 's/^rt: //' ;;
        *) needed "$name" | awk -F: -v ended="$ended" '
            function is_over(name) { return index(ended, " " name " ") > 0 }
            {
                split($1, words, " ")
                total++
                listed[words[1]] = 1
                if (is_over(words[1])) { over++; next }
                count = split($2, below, /[ \t,]+/)
                for (at = 1; at <= count; at++) if (below[at] in listed && !is_over(below[at])) next
                now = now (now == "" ? "" : ", ") words[1]
            }
            END { if (now != "") printf "proving %s, %d of %d crates\n", now, over, total }' ;;
    esac
}

# Says how far it is where that changed, and each minute, with the minutes so far and where the log is.
say_progress() {
    text=$(progress) now=$(date +%s)
    [ "${text:-$said}" != "$said" ] || [ "$((now - told))" -ge 60 ] || return 0
    told=$now said=${text:-$said}
    say "${said:-beginning} ($(((now - begun) / 60)) min; log $log)$first_build"
    first_build=
}

# Runs rt in the program's crate, with a program to check as its standard input, and without what its environment may change.
step() {
    (unset RT_BACKEND RT_ALLOW_C RT_SECONDS && cd "$top/crates/$name" && exec rt "$@") >> "$log" 2>&1 << 'SOURCE' &
int main() { }
SOURCE
    job=$!
    while [ -t 2 ] && [ "$1" = all ] && sleep 1 && kill -0 "$job" 2> /dev/null; do
        say_progress
    done
    wait "$job" || failed "rt $1" $?
    job=
}

# The log's last lines, but those that only list what the kit has loaded.
failed() {
    {
        echo "smash: the program can't be proved and built: $1 ended with status $2. The last lines of $log:"
        grep -v '^statements \|^logic /' "$log" | tail -n 30
    } >&2
    exit 70
}

stop() {
    [ -z "$job" ] || kill "$job" 2> /dev/null
    rm -f "$log" "$out/built/new.$$"
    exit "$1"
}

build() {
    begun=$(date +%s) told=$(date +%s)
    say "reading the sources of $(needed "$name" | wc -l) crates$first_build"
    if [ ! -t 2 ] && [ -n "$first_build" ]; then
        tell "proving and building the program, which takes $minutes the first time; the log is $log"
    fi
    first_build=
    step all check --jobs "$(checks_at_once)"
    say "building the program"
    case $name in
        smash_main) step run -- check ;;
        *) step run ;;
    esac
    if [ "$(sources_sum "$name")" = "$sources" ]; then
        keep_built "$name" "$sources" "$kit_here" "$top/crates/$name/out/$name" 2>> "$log" || failed "keeping it in $out/built" $?
    else
        say "the sources changed meanwhile; once more"
    fi
    rm -f "$log"
}

# Where the released program is of the same sources, by the same kit, its bytes ought to be those that were built here.
compare_with_released() {
    sum_here=$sum
    find_released "$name" || return 0
    case "$of $kit $sum" in
        "$sources $kit_here $sum_here") say "it has the bytes of release/$file" ;;
        "$sources $kit_here "*) tell "release/$file isn't what was built here of the same sources: its sha256 is $sum, and not $sum_here" ;;
    esac
}

build_programs() {
    require_tools
    trap 'stop 129' HUP
    trap 'stop 130' INT
    trap 'stop 143' TERM
    take_turn
    for name in $(listed_programs); do
        tries=0
        while ! is_built; do
            tries=$((tries + 1))
            [ "$tries" -le 3 ] || fail "the sources changed during each of three builds; start again once they stand still"
            build
        done
        say "$name is proved and built of these sources"
        compare_with_released
    done
    rm -f "$log"
}
