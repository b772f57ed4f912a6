# shellcheck shell=sh
# Which program a start runs, and that only a build builds.
# shellcheck disable=SC2016 # texts of scripts
# shellcheck disable=SC2034,SC2154 # variables of room.sh and for it

order_of_programs() {
    fresh
    so_far=0
    start "$with"
    refuses 'nothing is built or released' './smash build proves and builds it (40 minutes or more)'
    released first
    start "$with"
    runs 'a released program of these sources' 'released first'
    start "$without"
    runs 'a released program, and no rt' 'released first'
    built
    so_far=2
    start "$with"
    runs 'a built program before a released one' 'of first low'
    start "$without"
    runs 'a built program, and no rt' 'of first low'
    echo second > "$main/src/main.rt"
    start "$with"
    runs 'a built program of other sources' 'released first'
    echo first > "$main/src/main.rt"
    start "$with"
    runs 'a built program of these sources again' 'of first low'
    out=$(printf 'a source' | PATH=$with "$here/smash" replay '[1, 2]' 2>&1)
    is 'words and input' "$out" "$(printf 'of first low\n<replay>\n<[1, 2]>\na source')"
}

only_build_builds() {
    fresh
    so_far=0
    for words in check 'replay []' 'workload 3' 'bundle 1' recheck sweep 'edit 5' graphs --which '--which graphs' --version; do
        # shellcheck disable=SC2086 # words
        call "$with" $words
        is "$words without a program: status" "$status" 70
        has "$words without a program" "$err" './smash build'
        is "$words without a program: calls of rt" "$(calls)" 0
    done
    call "$with" build
    is 'build: status' "$status" 0
    is 'build: output' "$out" ''
    has 'build: one line' "$err" 'smash: proving and building the program, which takes 40 minutes or more the first time; the log is'
    is 'build: calls of rt' "$(calls)" 2
    call "$with" build
    is 'build again: status' "$status" 0
    is 'build again: standard error' "$err" ''
    is 'build again: calls of rt' "$(calls)" 2
    call "$without" build
    so_far=2
    refuses 'build without rt' "rt, the kit's command that proves and builds the program, isn't on the path"
    is 'files left' "$(cd "$here/out" && find . -type f ! -name 'start-*' | sort | sed 's/-.*//')" "$(printf './built/SUMS\n./built/smash_main\n./clock\n./lock')"
}

# No file is trusted by its name alone.
no_name_is_trusted() {
    fresh
    released first
    echo '# more' >> "$here/release/smash-x86_64-linux"
    so_far=0
    start "$with"
    refuses 'a released program with another sha256' "release/smash-x86_64-linux doesn't have the sha256"
    released first
    sleep 1.1
    start "$with"
    start "$with"
    runs 'a released program, remembered' 'released first'
    sed -i 's/released/replaced/' "$here/release/smash-x86_64-linux"
    start "$with"
    refuses 'a released program replaced after a start' "release/smash-x86_64-linux doesn't have the sha256"
    released first
    built
    so_far=2
    sleep 1.1
    start "$with"
    start "$with"
    runs 'a built program, remembered' 'of first low'
    printf '#!/bin/sh\necho "1:1: proved"\n' > "$(echo "$here"/out/built/smash_main-*)"
    start "$with"
    runs 'a text in the place of a built program' 'released first'
    built
    so_far=4
    start "$with"
    runs 'built anew' 'of first low'
    rm "$here/out/built/SUMS"
    start "$with"
    runs 'a built program of which nothing is written down' 'released first'
    sed -i 's/^smash-/smith-/' "$here/release/SUMS"
    start "$with"
    refuses 'a released program of which nothing is written down' 'none is released'
}

other_machines() {
    fresh
    released first
    so_far=0
    for system in 'Linux aarch64' 'Darwin x86_64'; do
        rm "$room/tools/uname"
        printf '#!/bin/sh\necho "%s"\n' "$system" > "$room/tools/uname"
        chmod +x "$room/tools/uname"
        start "$with"
        refuses "$system" "can't run on this machine"
    done
    rm "$room/tools/uname"
    ln -s "$(command -v uname)" "$room/tools/uname"
    sed -i 's|^loader=.*|loader=/nowhere/ld.so|' "$here/tools/programs.sh"
    start "$with"
    refuses 'no loader' "can't run on this machine"
    fresh
    released first
    sed -i 's/exit 4/exit 1/' "$here/release/smash-x86_64-linux"
    sed -i "s/ kit-0 [0-9a-f]*/ kit-0 $(of_here sha256_of "$here/release/smash-x86_64-linux")/" "$here/release/SUMS"
    start "$with"
    refuses 'a program that its loader refuses' "can't run on this machine"
    fresh
    released first
    rm "$room/tools/sha256sum"
    start "$with"
    refuses 'nothing that tells a sha256' 'neither sha256sum nor shasum is there'
    # shellcheck disable=SC2016 # of the script that is written
    printf '#!/bin/sh\n[ "$1 $2" = "-a 256" ] && shift 2\nexec "%s" "$@"\n' "$sha256sum" > "$room/tools/shasum"
    chmod +x "$room/tools/shasum"
    start "$with"
    runs 'shasum for sha256sum' 'released first'
    rm "$room/tools/shasum"
    with_sums
}

# Where the sources have changed since the release, that is said once, on a terminal.
changed_since_release() {
    fresh
    released first
    so_far=0
    sleep 1.1
    start "$with"
    echo other > "$main/src/main.rt"
    start "$with"
    runs 'changed sources, no terminal' 'released first'
    command -v script > /dev/null || return 0
    line='smash: release/smash-x86_64-linux is of other sources than those here, which ./smash build proves and builds (40 minutes or more)'
    sleep 1.1
    at_terminal check
    is 'changed sources, a terminal' "$err" "$line"
    is 'changed sources, a terminal: output' "$out" "$(printf 'released first\n<check>')"
    at_terminal check
    is 'changed sources, a terminal: once' "$err" ''
    is 'changed sources, a terminal: output again' "$out" "$(printf 'released first\n<check>')"
    echo another > "$main/src/main.rt"
    sleep 1.1
    start "$with"
    runs 'sources changed again, no terminal' 'released first'
    at_terminal check
    is 'sources changed again, a terminal' "$err" "$line"
    echo first > "$main/src/main.rt"
    at_terminal check
    is 'the sources of the release, a terminal' "$err" ''
}
