# shellcheck shell=sh
# .ci/release and .ci/run.
# shellcheck disable=SC2016 # texts of scripts
# shellcheck disable=SC2034,SC2154 # variables of room.sh and for it

# A copy with a gate, in git, whose other checks say that they ran. The file broken makes the one that it names fail.
with_gate() {
    fresh
    mkdir -p "$here/.ci"
    cp "$top/.ci/release" "$top/.ci/run" "$here/.ci"
    for check in .ci/lint .ci/promises .ci/launcher .ci/guide test; do
        # shellcheck disable=SC2016 # of the script that is written
        printf '#!/bin/sh\necho "%s $*"\n[ "$(cat broken 2> /dev/null)" != "%s" ] || { echo "6 passed, 1 failed"; exit 1; }\n' "$check" "$check" \
            > "$here/$check"
        chmod +x "$here/$check"
    done
    echo 'echo "7 passed, 0 failed"' >> "$here/test"
    printf '#!/bin/sh\n' > "$room/tools/z3"
    chmod +x "$room/tools/z3"
    (cd "$here" && printf 'out/\nbroken\n' > .gitignore && git init -q . && git add -A && git commit -qm one)
}

commit() {
    git -C "$here" add -A
    git -C "$here" commit -qm "$1"
}

# ci NAME WORD..: a script of the copy's .ci.
ci() {
    script=$1
    shift
    PATH=$with "$here/.ci/$script" "$@" < /dev/null > "$room/out" 2> "$room/err"
    status=$?
    out=$(cat "$room/out")
    err=$(cat "$room/err")
}

releases() {
    with_gate
    ci release
    is 'no program for a release: status' "$status" 1
    has 'no program for a release' "$err" 'proved and built of exactly these sources'
    ci run
    ci release
    commit=$(git -C "$here" rev-parse HEAD)
    is 'a release: status' "$status" 0
    is 'a release: SUMS' "$(cat "$here/release/SUMS")" \
        "smash-x86_64-linux $(of_here sources_sum smash_main) kit-1 $(of_here sha256_of "$main/out/smash_main") $commit"
    is 'a release: its line is printed' "$out" "$(cat "$here/release/SUMS")"
    is 'a release: bytes' "$(cmp "$main/out/smash_main" "$here/release/smash-x86_64-linux")" ''
    rm -r "$here/out"
    so_far=1
    start "$without"
    runs 'a release runs at once' 'of first low'
    commit two
    ci run
    ci release
    has 'the same release again: its commit' "$(cat "$here/release/SUMS")" " $commit"
    echo second > "$main/src/main.rt"
    ci release
    is 'a release of sources without a commit: status' "$status" 1
    has 'a release of sources without a commit' "$err" "the sources aren't those of the last commit"
    commit three
    ci release
    is 'a release of sources that are not built: status' "$status" 1
    has 'a release of sources that are not built' "$err" 'proved and built of exactly these sources'
    cp "$here/release/SUMS" "$room/before"
    built
    echo '# more' >> "$(echo "$here"/out/built/smash_main-*)"
    ci release
    is 'a release of a program that was replaced: status' "$status" 1
    is 'a release of a program that was replaced: SUMS' "$(cmp "$room/before" "$here/release/SUMS")" ''
    built
    touch "$main/src/main.rt~"
    ci release
    is 'a release of a build: status' "$status" 0
    rm -rf "$room/clone"
    git clone -q "$here" "$room/clone"
    out=$("$room/clone/.ci/release" "$here" 2>&1)
    is 'a release from another clone' "$out" "$(cat "$here/release/SUMS")"
    out=$("$room/clone/.ci/release" "$room" 2>&1)
    has 'a release from a folder without programs' "$out" 'proved and built of exactly these sources'
    with_graphs
    commit four
    ci release
    is 'a release without graphs: status' "$status" 1
    ci run
    ci release
    is 'a release of both programs' "$(cut -d ' ' -f 1 < "$here/release/SUMS" | tr '\n' ' ')" 'smash-x86_64-linux smash-graphs-x86_64-linux '
    rm -r "$here/out"
    call "$without" graphs
    is 'a release of graphs runs at once' "$out" 'of drawn low'
}

gates() {
    with_gate
    is 'a line that is plain' "$(grep -cE '^[[:space:]]*(exec )?rt ci[[:space:]]*$' "$top/.ci/run")" 1
    ci run
    is 'a gate: status' "$status" 0
    is 'a gate: what ran' "$out" "$(printf '%s\n' '4 passed, 0 failed' "release: smash_main isn't released" '.ci/lint ' '.ci/promises ' '.ci/launcher ' \
        '.ci/guide ' 'test --program crates/smash_main/out/smash_main' '7 passed, 0 failed' '7 passed, 0 failed')"
    start "$with"
    is "a gate: its program runs" "$out" "$(printf 'of first low\n<check>')"
    ci release
    commit two
    ci run
    is 'a gate with a release: status' "$status" 0
    has 'a gate with a release' "$out" 'release/smash-x86_64-linux is what was built of these sources'
    : > "$room/kit/bin/other"
    ci run
    is 'a gate that builds other bytes: status' "$status" 1
    has 'a gate that builds other bytes' "$out" "isn't release/smash-x86_64-linux"
    has 'a gate that builds other bytes: what failed' "$out" 'run: failed: release'
    echo 'kit 2' > "$room/kit/KIT-ID"
    ci run
    is 'a gate by another kit: status' "$status" 0
    has 'a gate by another kit' "$out" 'it has other bytes'
    echo 'kit 1' > "$room/kit/KIT-ID"
    rm "$room/kit/bin/other"
    echo '# more' >> "$here/release/smash-x86_64-linux"
    ci run
    is 'a gate with a damaged release: status' "$status" 1
    has 'a gate with a damaged release' "$out" "doesn't have the sha256 that release/SUMS names"
    git -C "$here" checkout -q release
    echo second > "$main/src/main.rt"
    ci run
    is 'a gate after a change: status' "$status" 0
    has 'a gate after a change' "$out" 'the sources of release/smash-x86_64-linux have changed since commit'
    for check in .ci/lint .ci/promises .ci/launcher test; do
        echo "$check" > "$here/broken"
        ci run
        is "a gate with a failing $check: status" "$status" 1
        has "a gate with a failing $check" "$out" "run: failed: ${check#.ci/}"
    done
    is 'a gate with failing tests: last line' "$(tail -n 1 "$room/out")" '6 passed, 1 failed'
    echo .ci/guide > "$here/broken"
    ci run
    is 'a gate with another guide: status' "$status" 0
    rm "$here/broken"
    : > "$room/kit/bin/fails"
    ci run
    is 'a gate with failing proofs: status' "$status" 1
    is 'a gate with failing proofs: last line' "$(tail -n 1 "$room/out")" '3 passed, 1 failed'
    is 'a gate with failing proofs: no tests of an old program' "$(grep -c '^test\|guide' "$room/out")" 0
    rm "$room/kit/bin/fails"
    : > "$room/kit/bin/edit"
    ci run
    is 'a gate with an edit meanwhile: status' "$status" 1
    has 'a gate with an edit meanwhile' "$out" 'the sources changed during the proofs'
    rm "$here/test"
    ci run
    is 'a gate without tests: last line' "$(tail -n 1 "$room/out")" '4 passed, 0 failed'
    with_graphs
    git -C "$here" checkout -q test
    ci run
    has 'a gate with graphs' "$out" 'test --program crates/smash_main/out/smash_main --graphs crates/smash_graphs/out/smash_graphs'
}

# The gate installs z3 where it is root's and apt-get is there.
gate_installs() {
    with_gate
    rm "$room/tools/z3" "$room/tools/id"
    # shellcheck disable=SC2016 # of the script that is written
    printf '#!/bin/sh\necho "$*" >> "%s/apt"\n[ "$2" != install ] || [ -e "%s/listed" ] || { echo "E: no package z3"; exit 1; }\n' "$room" "$room" \
        > "$room/tools/apt-get"
    printf '[ "$2" != install ] || cp "%s/tools/id" "%s/tools/z3"\n' "$room" "$room" >> "$room/tools/apt-get"
    printf '#!/bin/sh\necho 1000\n' > "$room/tools/id"
    chmod +x "$room/tools/apt-get" "$room/tools/id"
    ci run
    is 'no root: apt-get' "$(cat "$room/apt" 2> /dev/null)" ''
    printf '#!/bin/sh\necho 0\n' > "$room/tools/id"
    ci run
    is 'no package: apt-get' "$(tr '\n' ';' < "$room/apt")" '-q install -y z3;-q update;-q install -y z3;'
    is 'no package: status' "$status" 0
    has 'no package' "$out" "run: Debian's package z3 can't be installed: E: no package z3"
    rm "$room/apt"
    : > "$room/listed"
    ci run
    is 'a package: apt-get' "$(cat "$room/apt")" '-q install -y z3'
    rm "$room/apt"
    ci run
    is 'z3 is there: apt-get' "$(cat "$room/apt" 2> /dev/null)" ''
    rm -f "$room/tools/z3" "$room/tools/apt-get" "$room/tools/id"
    ln -s "$(command -v id)" "$room/tools/id"
}
