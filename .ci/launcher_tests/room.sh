# shellcheck shell=sh
# What the tests of the launcher share: a kit that proves nothing, copies of the launcher with crates of one line, and calls of it.
# .ci/launcher reads it, with `top` and `room`.
# shellcheck disable=SC2016 # texts of scripts
# shellcheck disable=SC2030,SC2031,SC2034,SC2154 # variables of .ci/launcher and for the tests

here=$room/here
main=$here/crates/smash_main
passed=0 failed=0

# A kit whose rt builds programs that tell their words, their standard input and the texts that they were built of. As the
# kit's own, it works for one call at a time. Beside rt, `calls` has a line for each call, and the files edit, edits, fails,
# fails-run, other and slow (seconds a crate) change what it does.
mkdir -p "$room/kit/bin" "$room/tools"
cat > "$room/kit/bin/rt" << 'RT'
#!/bin/sh
kit=$(dirname "$0")
echo "$*" >> "$kit/calls"
until mkdir "$kit/lock" 2> /dev/null; do sleep 0.1; done
trap 'rmdir "$kit/lock"' EXIT
trap 'exit 143' TERM HUP
slow=$(cat "$kit/slow" 2> /dev/null || echo 0)
if [ -e "$kit/fails" ] || { [ -e "$kit/fails-run" ] && [ "$1" = run ]; }; then
    seq 1 40 | sed 's/^/line /'
    echo 'statements std: modules loaded=0 checked=0'
    [ "$1" != ci ] || echo '3 passed, 1 failed'
    exit 1
fi

# A program of the crate in the folder given.
build() {
    text=$(cat "$1/src/main.rt" "$1/../base/src/lib.rt" | tr '\n' ' ' | sed 's/ $//')
    [ ! -e "$kit/edit" ] || { rm "$kit/edit" && echo edited > "$1/src/main.rt"; }
    [ ! -e "$kit/edits" ] || date +%s%N > "$1/src/main.rt"
    made=$1/out/${1##*/}
    mkdir -p "$1/out"
    {
        echo '#!/bin/sh'
        case $made in */smash_main) echo '[ "$#" -gt 0 ] || exit 4' ;; esac
        echo "echo \"of $text\""
        echo 'for word; do echo "<$word>"; done'
        echo 'cat'
        echo 'exit 3'
        [ ! -e "$kit/other" ] || echo '# another compiler'
    } > "$made.new"
    chmod +x "$made.new"
    mv "$made.new" "$made"
}

case $1 in
    all)
        for name in base "${PWD##*/}"; do
            mkdir -p "../$name/out/rlib"
            rm -f "../$name/out/rlib/stamp"
            sleep "$slow"
            echo x > "../$name/out/rlib/stamp"
            echo "== $name"
        done
        ;;
    run) build "$PWD" ;;
    ci)
        for name in smash_main smash_graphs; do
            ! grep -q "^$name:" crates.txt || build "$PWD/crates/$name"
        done
        echo '4 passed, 0 failed'
        ;;
    version) echo 'kit of version' ;;
esac
RT
chmod +x "$room/kit/bin/rt"
for tool in sh readlink dirname awk sed grep find sort cat mkdir rmdir tail tr wc nproc cp mv rm sleep flock seq date chmod ls script \
    cmp xargs stat uname git tar mktemp id tee env touch head cut; do
    ! command -v "$tool" > /dev/null || ln -s "$(command -v "$tool")" "$room/tools/$tool"
done
without=$room/tools
with=$room/kit/bin:$room/tools
sha256sum=$(command -v sha256sum)
export GIT_CONFIG_GLOBAL="$room/gitconfig" GIT_CONFIG_NOSYSTEM=1
git config --global user.name tests
git config --global user.email tests@localhost

# Each call of sha256sum leaves a line in the file summed.
with_sums() {
    printf '#!/bin/sh\necho >> "%s/summed"\nexec "%s" "$@"\n' "$room" "$sha256sum" > "$room/tools/sha256sum"
    chmod +x "$room/tools/sha256sum"
}
with_sums

# A fresh copy: nothing is built or released, and nothing was called.
fresh() {
    rm -rf "$here"
    (cd "$room/kit/bin" && rm -fr calls edit edits fails fails-run other slow lock)
    echo 'kit 1' > "$room/kit/KIT-ID"
    mkdir -p "$main/src" "$main/proofs" "$here/crates/base/src" "$here/crates/base/specs" "$here/crates/above/src" "$here/release"
    cp "$top/smash" "$here/smash"
    cp -r "$top/tools" "$here/tools"
    echo 1.2.3 > "$here/release/VERSION"
    echo 'Handles allowed: none.' > "$here/HANDLES"
    printf '# the crates\nsmash_main: base thiserror\nabove: base smash_main\nbase:\n' > "$here/crates.txt"
    echo first > "$main/src/main.rt"
    echo proof > "$main/proofs/Proof.antt"
    echo low > "$here/crates/base/src/lib.rt"
    echo spec > "$here/crates/base/specs/Lib.antt"
    echo test > "$here/crates/above/src/lib.rt"
}

# with_graphs: the copy has a second program.
with_graphs() {
    mkdir -p "$here/crates/smash_graphs/src"
    echo drawn > "$here/crates/smash_graphs/src/main.rt"
    echo 'smash_graphs: base' >> "$here/crates.txt"
}

# In the copy: calls of tools/programs.sh.
of_here() (
    top=$here
    # shellcheck source=tools/programs.sh
    . "$here/tools/programs.sh"
    "$@"
)

# released TEXT: a released program of the sources as they are, which tells the text.
released() {
    printf '#!/bin/sh\n[ "$#" -gt 0 ] || exit 4\necho "released %s"\nfor word; do echo "<$word>"; done\ncat\nexit 3\n' "$1" \
        > "$here/release/smash-x86_64-linux"
    chmod +x "$here/release/smash-x86_64-linux"
    echo "smash-x86_64-linux $(of_here sources_sum smash_main) kit-0 $(of_here sha256_of "$here/release/smash-x86_64-linux") c0ffee" \
        > "$here/release/SUMS"
}

# built: a program is built here.
built() {
    PATH=$with "$here/smash" build > "$room/out" 2> "$room/err" || cat "$room/err"
}

# call PATH WORD..: a start with no terminal and no input; `status`, `out` and `err` are what it gave.
call() {
    path=$1
    shift
    PATH=$path "$here/smash" "$@" < /dev/null > "$room/out" 2> "$room/err"
    status=$?
    out=$(cat "$room/out")
    err=$(cat "$room/err")
}

start() {
    call "$1" check
}

# at_terminal WORDS: a start at a terminal, whose standard error goes to `err`; what is read and printed is not the terminal's.
at_terminal() {
    err=$(PATH=$with script -qec "$here/smash $1 < /dev/null > $room/out" /dev/null < /dev/null | tr -d '\r')
    out=$(cat "$room/out")
}

# Waits until rt was called, 20 seconds at most.
until_called() {
    tries=0
    until [ -e "$room/kit/bin/calls" ] || [ "$tries" -ge 200 ]; do
        sleep 0.1
        tries=$((tries + 1))
    done
}

calls() {
    if [ -e "$room/kit/bin/calls" ]; then wc -l < "$room/kit/bin/calls"; else echo 0; fi
}

is() {
    if [ "$2" = "$3" ]; then
        passed=$((passed + 1))
    else
        failed=$((failed + 1))
        printf 'launcher: %s: got\n%s\nand not\n%s\n' "$1" "$2" "$3"
    fi
}

has() {
    case $2 in
        *"$3"*) passed=$((passed + 1)) ;;
        *)
            failed=$((failed + 1))
            printf 'launcher: %s: no "%s" in\n%s\n' "$1" "$3" "$2"
            ;;
    esac
}

# runs WHAT TEXT: the start before ran the program that tells this text, said nothing more, and rt wasn't called since `so_far`.
runs() {
    is "$1: status" "$status" 3
    is "$1: output" "$out" "$(printf '%s\n<check>' "$2")"
    is "$1: standard error" "$err" ''
    is "$1: calls of rt" "$(calls)" "$so_far"
}

# refuses WHAT WORDS: the start before ran nothing, and said these words in one line; rt wasn't called since `so_far`.
refuses() {
    is "$1: status" "$status" 70
    is "$1: output" "$out" ''
    has "$1: standard error" "$err" "$2"
    is "$1: one line" "$(printf '%s\n' "$err" | wc -l)" 1
    is "$1: calls of rt" "$(calls)" "$so_far"
}
