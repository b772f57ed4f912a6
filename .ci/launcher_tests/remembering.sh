# shellcheck shell=sh
# What is remembered from start to start.
# shellcheck disable=SC2016 # texts of scripts
# shellcheck disable=SC2034,SC2154 # variables of room.sh and for it

# is_remembered WHAT: a start found the program without summing a file.
is_remembered() {
    rm -f "$room/summed"
    start "$with"
    is "$1: files summed" "$(wc -l 2> /dev/null < "$room/summed" || echo 0)" 0
}

changed_sources() {
    fresh
    released first
    built
    so_far=2
    sleep 1.1
    start "$with"
    is_remembered 'a start after a start'
    runs 'a start after a start' 'of first low'
    echo third > "$main/src/main.rt"
    start "$with"
    runs 'an edit' 'released first'
    echo first > "$main/src/main.rt"
    start "$with"
    runs 'an edit taken back' 'of first low'
    echo thirt > "$main/src/main.rt"
    start "$with"
    runs 'an edit of the same length in the same second' 'released first'
    echo first > "$main/src/main.rt"
    sleep 1.1
    start "$with"
    is_remembered 'once more'
    cp -p "$main/src/main.rt" "$room/time"
    echo thirt > "$main/src/main.rt"
    touch -r "$room/time" "$main/src/main.rt"
    start "$with"
    runs 'an edit with the old date' 'released first'
    cp -p "$room/time" "$main/src/main.rt"
    start "$with"
    runs 'the old file with its date' 'of first low'
    for file in crates/base/specs/Lib.antt crates/smash_main/proofs/Proof.antt HANDLES crates/base/src/lib.rt; do
        cp "$here/$file" "$room/file"
        sleep 1.1
        start "$with"
        echo more >> "$here/$file"
        start "$with"
        runs "an edit of $file" 'released first'
        cp "$room/file" "$here/$file"
    done
    echo new > "$here/crates/base/src/new.rt"
    start "$with"
    runs 'a new file' 'released first'
    rm "$here/crates/base/src/new.rt"
    sleep 1.1
    start "$with"
    runs 'the new file removed' 'of first low'
    mkdir -p "$main/specs" && echo new > "$main/specs/New.antt"
    start "$with"
    runs 'a new folder' 'released first'
    rm -r "$main/specs"
    mv "$here/crates/base/specs/Lib.antt" "$here/crates/base/specs/Other.antt"
    start "$with"
    runs 'a renamed file' 'released first'
    mv "$here/crates/base/specs/Other.antt" "$here/crates/base/specs/Lib.antt"
    sed -i 's/^smash_main: base thiserror/smash_main: base/' "$here/crates.txt"
    start "$with"
    runs 'a changed line of crates.txt' 'released first'
    sed -i 's/^smash_main: base/smash_main: base thiserror/' "$here/crates.txt"
    echo changed > "$here/crates/above/src/lib.rt"
    echo 'another: base' >> "$here/crates.txt"
    start "$with"
    runs 'a changed crate that the program does not need' 'of first low'
    sleep 1.1
    start "$with"
    ln -s "$main/src/main.rt" "$here/crates/base/src/link.rt"
    start "$with"
    runs 'a link among the sources' 'released first'
}

# What was remembered of a release gives way to a build, and to a C library that changes.
other_than_sources() {
    fresh
    released first
    cp -p "$here/smash" "$room/ld.so"
    sed -i "s|^loader=.*|loader=$room/ld.so|" "$here/tools/programs.sh"
    start "$with"
    sleep 1.1
    start "$with"
    so_far=0
    is_remembered 'a release'
    echo second > "$main/src/main.rt"
    is_remembered 'a release, where the sources matter to nobody'
    runs 'a release, where the sources matter to nobody' 'released first'
    rm "$room/ld.so"
    start "$with"
    refuses 'the loader removed after a start' "can't run on this machine"
    cp -p "$here/smash" "$room/ld.so"
    sleep 1.1
    start "$with"
    is_remembered 'a release again'
    cp -p "$here/tools/words.sh" "$room/ld.so"
    chmod +x "$room/ld.so"
    rm -f "$room/summed"
    start "$with"
    is 'another loader: the release is looked at anew' "$([ -s "$room/summed" ] && echo summed)" summed
    built
    so_far=2
    start "$with"
    runs 'a build after a start that is remembered' 'of second low'
    rm -r "$here/out/built"
    start "$with"
    runs 'a build that is removed' 'released first'
    rm "$here/release/SUMS"
    start "$with"
    refuses 'a release that is removed' 'none is released'
}

# On a disk whose times are whole seconds, several edits come in one.
edits_in_a_second() {
    fresh
    released first
    built
    so_far=2
    rm "$room/tools/stat"
    # shellcheck disable=SC2016 # of the script that is written
    printf '#!/bin/sh\n"%s" "$@" | sed "s/[.][0-9]*$//"\n' "$(command -v stat)" > "$room/tools/stat"
    chmod +x "$room/tools/stat"
    sleep 1.1
    start "$with"
    is_remembered 'a disk of whole seconds'
    for turn in 1 2 3 4 5 6; do
        echo third > "$main/src/main.rt"
        start "$with"
        runs "edit $turn of several in a second" 'released first'
        echo first > "$main/src/main.rt"
        start "$with"
        runs "edit $turn of several in a second, taken back" 'of first low'
    done
    rm "$room/tools/stat"
    ln -s "$(command -v stat)" "$room/tools/stat"
}

editors_leavings() {
    fresh
    released first
    built
    so_far=2
    touch "$main/src/main.rt~" "$main/src/.main.rt.swp" "$main/src/#main.rt#" "$here/crates/base/specs/.Lib.antt.swo" "$here/HANDLES~"
    ln -s nobody@nowhere "$main/src/.#main.rt"
    start "$with"
    runs "an editor's leavings" 'of first low'
    sleep 1.1
    start "$with"
    is_remembered "an editor's leavings"
    echo more > "$main/src/main.rt~"
    is_remembered "an editor's leaving that changes"
}

other_places() {
    fresh
    released first
    so_far=0
    ln -sf "$here/smash" "$room/link"
    out=$(cd / && PATH=$with "$room/link" check < /dev/null)
    is 'by a link, elsewhere' "$out" "$(printf 'released first\n<check>')"
    out=$(cd "$here/release" && PATH=$with ../smash check < /dev/null)
    is 'by a path from here' "$out" "$(printf 'released first\n<check>')"
    out=$(cd "$here" && PATH=$with sh smash check < /dev/null)
    is 'by its name' "$out" "$(printf 'released first\n<check>')"
    out=$(cd "$room" && CDPATH=$here PATH=$with:$here smash check < /dev/null)
    is 'on the path' "$out" "$(printf 'released first\n<check>')"
    built
    so_far=2
    sleep 1.1
    start "$with"
    is_remembered 'before a copy'
    rm -rf "$room/copy"
    cp -a "$here" "$room/copy"
    echo third > "$room/copy/crates/smash_main/src/main.rt"
    touch -r "$main/src/main.rt" "$room/copy/crates/smash_main/src/main.rt"
    out=$(PATH=$with "$room/copy/smash" check < /dev/null)
    is 'a copy with its dates, edited' "$out" "$(printf 'released first\n<check>')"
    (
        cd "$here" || exit 1
        printf 'out/\n' > .gitignore
        git init -q . && git add -A && git commit -qm one
        echo third > crates/smash_main/src/main.rt
        git commit -qam two
    )
    sleep 1.1
    start "$with"
    start "$with"
    runs 'a later commit' 'released first'
    git -C "$here" checkout -q HEAD~
    start "$with"
    runs 'the commit before, checked out' 'of first low'
    git -C "$here" checkout -q -
    start "$with"
    runs 'the later commit, checked out' 'released first'
}

# What is remembered selects nothing where it is damaged, and nothing needs it.
memory_files() {
    fresh
    released first
    built
    so_far=2
    sleep 1.1
    start "$with"
    is_remembered 'before damage'
    for damage in '1s/^built .*/built release\/SUMS/' '1d' '2d' '$d'; do
        for file in "$here"/out/start-smash_main-of-sources "$here"/out/start-smash_main-of-sources.paths; do
            sed -i "$damage" "$file"
            start "$with"
            runs "${file##*/} damaged by $damage" 'of first low'
            is_remembered "after ${file##*/} damaged by $damage"
        done
    done
    for file in "$here"/out/start-*; do
        : > "$file"
        start "$with"
        runs "${file##*/} empty" 'of first low'
        rm "$file"
        start "$with"
        runs "${file##*/} removed" 'of first low'
    done
    fresh
    released first
    : > "$here/out"
    so_far=0
    start "$with"
    start "$with"
    runs 'a file for the folder out' 'released first'
    [ "$(id -u)" -ne 0 ] || return 0
    rm "$here/out"
    chmod a-w "$here"
    start "$with"
    chmod u+w "$here"
    runs 'a folder without leave' 'released first'
}

no_sources() {
    fresh
    so_far=0
    rm "$here/crates.txt"
    start "$with"
    refuses 'no crates.txt' 'none is released'
    call "$with" build
    refuses 'no crates.txt, build' "can't be read"
    fresh
    released first
    rm -r "$here/crates" "$here/HANDLES"
    start "$with"
    runs 'a released program without sources' 'released first'
    rm -r "$here/tools"
    start "$with"
    refuses 'no tools' "tools/words.sh can't be read"
}
