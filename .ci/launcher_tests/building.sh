# shellcheck shell=sh
# What ./smash build does.
# shellcheck disable=SC2016 # texts of scripts
# shellcheck disable=SC2034,SC2154 # variables of room.sh and for it

builds_of_changes() {
    fresh
    : > "$room/kit/bin/edit"
    built
    so_far=4
    start "$with"
    runs 'an edit during the build' 'of edited low'
    fresh
    : > "$room/kit/bin/edits"
    call "$with" build
    is 'edits during each build: status' "$status" 70
    has 'edits during each build' "$err" 'the sources changed during each of three builds'
    rm "$room/kit/bin/edits"
    echo still > "$main/src/main.rt"
    built
    so_far=8
    start "$with"
    runs 'then none' 'of still low'
    is 'programs kept' "$(find "$here/out/built" -name 'smash_main-*' | wc -l)" 1
}

another_kit() {
    fresh
    built
    echo 'kit 2' > "$room/kit/KIT-ID"
    so_far=2
    start "$with"
    runs 'another kit' 'of first low'
    built
    is 'another kit, build: calls of rt' "$(calls)" 4
    has 'another kit, build' "$(cat "$here/out/built/SUMS")" ' kit-2 '
    rm "$room/kit/KIT-ID"
    built
    has 'a kit that rt itself must tell' "$(cat "$here/out/built/SUMS")" ' kit-of-version '
    ! command -v rt > /dev/null || {
        kit=$(readlink -f "$(command -v rt)")
        is "what the kit's rt tells" "$(rt version)" "$(cat "${kit%/bin/rt}/KIT-ID")"
    }
}

# What is built here of the sources and by the kit of the release ought to have its bytes.
builds_of_the_release() {
    fresh
    released first
    sed -i 's/ kit-0 / kit-1 /' "$here/release/SUMS"
    call "$with" build
    has 'other bytes than the release' "$err" "release/smash-x86_64-linux isn't what was built here of the same sources"
    so_far=2
    start "$with"
    runs 'other bytes than the release' 'of first low'
    cp "$here"/out/built/smash_main-* "$here/release/smash-x86_64-linux"
    sed -i "s/ kit-1 [0-9a-f]*/ kit-1 $(of_here sha256_of "$here/release/smash-x86_64-linux")/" "$here/release/SUMS"
    call "$with" build
    is 'the bytes of the release' "$err" ''
}

folders_not_writable() {
    so_far=0
    fresh
    : > "$here/out"
    call "$with" build
    refuses 'a file for the folder out' "the folder $here/out"
    fresh
    : > "$here/crates/base/out"
    call "$with" build
    refuses "a file for a crate's folder out" "the folder $here/crates/base/out"
    [ "$(id -u)" -ne 0 ] || return 0
    fresh
    chmod a-w "$here"
    call "$with" build
    chmod u+w "$here"
    refuses 'a folder without leave' "the folder $here/out"
}

failed_builds() {
    for how in fails fails-run; do
        fresh
        : > "$room/kit/bin/$how"
        call "$with" build
        is "$how: status" "$status" 70
        is "$how: output" "$out" ''
        has "$how" "$err" 'ended with status 1'
        has "$how: the log" "$err" 'line 40'
        is "$how: no whole log" "$(printf '%s\n' "$err" | grep -c 'line 2$\|statements')" 0
        rm "$room/kit/bin/$how"
        built
        start "$with"
        is "$how, and then mended" "$out" "$(printf 'of first low\n<check>')"
        echo broken > "$main/src/main.rt"
        : > "$room/kit/bin/$how"
        call "$with" build
        is "$how after a build: status" "$status" 70
        call "$with" build
        is "$how twice: one log" "$(find "$here/out" -name 'build.*' | wc -l)" 1
    done
}

two_at_once() {
    for lock in flock none; do
        fresh
        [ "$lock" = flock ] || rm -f "$without/flock"
        echo 0.3 > "$room/kit/bin/slow"
        PATH=$with "$here/smash" build < /dev/null > "$room/one" 2>&1 &
        one=$!
        PATH=$with "$here/smash" build < /dev/null > "$room/two" 2>&1
        is "two at once, $lock: one status" $? 0
        wait "$one"
        is "two at once, $lock: the other status" $? 0
        if [ "$lock" = flock ] && command -v flock > /dev/null; then is 'two at once: one builds' "$(calls)" 2; fi
        start "$without"
        is "two at once, $lock" "$out" "$(printf 'of first low\n<check>')"
    done
    ! command -v flock > /dev/null || ln -s "$(command -v flock)" "$without/flock"
}

stopped_builds() {
    fresh
    echo 1 > "$room/kit/bin/slow"
    PATH=$with "$here/smash" build < /dev/null > "$room/out" 2> "$room/err" &
    until_called
    kill "$!"
    wait "$!"
    is 'stopped: status' $? 143
    sleep 2.5
    is 'stopped: calls of rt' "$(calls)" 1
    is 'stopped: files' "$(ls "$here/out")" lock
    fresh
    echo 1 > "$room/kit/bin/slow"
    PATH=$with "$here/smash" build < /dev/null > "$room/one" 2>&1 &
    one=$!
    until_called
    PATH=$with "$here/smash" build < /dev/null > "$room/two" 2>&1 &
    sleep 0.3
    kill "$!"
    wait "$!"
    is 'stopped while another builds: status' $? 143
    wait "$one"
    is 'stopped while another builds: the other' $? 0
    is 'stopped while another builds: calls of rt' "$(calls)" 2
}
