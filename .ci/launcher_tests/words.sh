# shellcheck shell=sh
# What the launcher answers itself, and what it says of words and of a terminal.
# shellcheck disable=SC2016 # texts of scripts
# shellcheck disable=SC2034,SC2154 # variables of room.sh and for it

help_and_version() {
    fresh
    so_far=0
    for word in help --help -h 'help check'; do
        # shellcheck disable=SC2086 # words
        call "$with" $word
        is "$word: status" "$status" 0
        has "$word" "$out" './smash check < examples/sum.c'
        is "$word: standard error" "$err" ''
    done
    asked=$out
    call "$with"
    is 'no words: status' "$status" 2
    is 'no words: output' "$out" ''
    is 'no words: standard error' "$err" "$asked"
    is 'help: calls of rt' "$(calls)" 0
    is 'help: files' "$(ls -d "$here/out" 2> /dev/null)" ''
    call "$with" --version
    refuses 'the version without a program' 'version 1.2.3, and no program runs'
    released first
    call "$with" --version
    is 'the version of a release' "$status $out$err" '0 smash 1.2.3 (commit c0ffee, kit-0)'
    echo second > "$main/src/main.rt"
    call "$with" --version
    is 'the version of a release before a change' "$status $out$err" '0 smash 1.2.3 (commit c0ffee, kit-0)'
    built
    call "$with" --version
    is 'the version of changed sources' "$status $out$err" '0 smash 1.2.3 with changes (commit -, kit-1)'
    echo first > "$main/src/main.rt"
    (cd "$here" && echo out/ > .gitignore && git init -q . && git add -A && git commit -qm one)
    touch "$main/src/main.rt~" "$main/src/.main.rt.swp"
    built
    call "$with" --version
    is 'the version of a build of the same sources' "$status $out$err" "0 smash 1.2.3 (commit $(git -C "$here" rev-parse HEAD), kit-1)"
    echo again > "$main/src/main.rt"
    built
    call "$with" --version
    is 'the version of edited sources' "$out" "smash 1.2.3 with changes (commit $(git -C "$here" rev-parse HEAD)-changed, kit-1)"
    call "$with" --which
    is 'which' "$status $out$err" "0 $(echo "$here"/out/built/smash_main-*)"
    out=$(cd "$here" && PATH=$with ./smash --which)
    is 'which, by a path from here' "$out" "$(echo "$here"/out/built/smash_main-*)"
    [ -c /dev/full ] || return 0
    for word in --help --version --which; do
        PATH=$with "$here/smash" "$word" 2> /dev/null > /dev/full
        is "$word to a full disk: status" $? 6
    done
}

# mistaken LINE WORD..: the words get this line on standard error, and then go to the program as they are.
mistaken() {
    line=$1
    shift
    call "$with" "$@"
    is "$*: standard error" "$err" "smash: $line"
    is "$*: output" "$out" "$(printf 'released first'; printf '\n<%s>' "$@")"
    is "$*: status" "$status" 3
}

mistakes() {
    fresh
    released first
    : > "$here/file.c"
    commands='write check, replay, workload, bundle, recheck, sweep, edit, graphs, build or help'
    mistaken "'chekc' is no command: $commands" chekc
    mistaken "'' is no command: $commands" ''
    mistaken "'$here/file.c' is no command: write ./smash check < $here/file.c" "$here/file.c"
    mistaken "'$here/file.c' is no word of check; the source is read from standard input: write ./smash check < $here/file.c" check "$here/file.c"
    mistaken "'x' is no word of check; the source is read from standard input: write ./smash check < FILE" check -- x
    mistaken "'x' is no word of sweep; the source is read from standard input: write ./smash sweep < FILE" sweep x
    mistaken "'x' is no word of graphs; the source is read from standard input: write ./smash graphs < FILE" graphs x
    mistaken "'x' is no word of recheck: write ./smash recheck < BUNDLE" recheck x
    mistaken "'x' is no word of build, which has none" build x
    mistaken "'x' is no word of --which, which has one at most: graphs" --which x
    mistaken "--budget takes a number from 1 to 20000, not '20001'" check --budget 20001
    mistaken "--budget takes a number from 1 to 20000, not '0'" workload --budget=0 3
    mistaken "--budget takes a number from 1 to 20000, not '05'" bundle --budget=05 3
    mistaken "--workers takes a number from 1 to 16, not '17'" check --budget 20000 --workers 17
    mistaken "--workers takes a number from 1 to 16, not ''" check --workers
    mistaken "--fuel takes a number from 1 to 1000000000, not '1000000001'" replay --fuel 1000000001 '[]'
    mistaken "--edges takes a number from 1 to 5000, not '5001'" sweep --edges=5001
    mistaken '--budget is given twice' check --budget 5 --budget=5
    mistaken 'check has no option --help; it has --budget N and --workers N' check --help
    mistaken "write ./smash replay '[5, -2]' < FILE, with a list of inputs as one word" replay
    mistaken "'[5' is no word of replay: write ./smash replay '[5, -2]' < FILE, with a list of inputs as one word" replay '[5'
    mistaken "'61' is no word of workload: write ./smash workload N, with a number of procedures from 1 to 60" workload 61
    mistaken "'65' is no word of bundle: write ./smash bundle K < FILE, with the number of an assertion from 1 to 64" bundle 65
    mistaken "'2' is one word too many: write ./smash bundle K < FILE, with the number of an assertion from 1 to 64" bundle 1 2
    mistaken "write ./smash edit N < FILES, with the old source's number of bytes from 1 to 65536" edit --budget 5
    for words in check 'check --budget 20000 --workers=16 --' 'replay []' 'replay --fuel=5 [1,-2]' 'workload 60 --budget 1' 'bundle -- 64' \
        recheck 'sweep --edges 5000' 'edit 65536 --workers 1'; do
        # shellcheck disable=SC2086 # words
        call "$with" $words
        is "$words: standard error" "$err" ''
    done
    rm "$here/release/SUMS"
    call "$with" chekc
    is 'a mistake without a program: status' "$status" 70
    has 'a mistake without a program' "$err" "'chekc' is no command"
}

# Where a program that was really built is at hand: it refuses the very words in which a mistake is found.
mistakes_of_the_program() {
    program=$(PATH=$PATH "$top/smash" --which 2> /dev/null) || return 0
    # shellcheck source=tools/words.sh
    . "$top/tools/words.sh"
    while read -r words; do
        # shellcheck disable=SC2086 # words
        find_mistake $words
        # shellcheck disable=SC2086 # words
        "$program" $words < /dev/null > /dev/null
        is "what the program says of '$words'" "$([ $? -eq 4 ] && echo refused)" "$([ -z "$mistake" ] || echo refused)"
    done << 'WORDS'
check
check --budget 20000
check --budget 20001
check --budget=0
check --workers=16 --
check --workers 17
check -- --
check --budget 5 --budget=5
check --budget --workers 2
check --budget -- 5
check --help
check -h
check x
replay []
replay --fuel 1000000000 [5,-2]
replay --fuel 1000000001 []
replay [01]
replay [-0]
replay [1,]
replay [1] [2]
replay 5
replay
workload 3 --budget 1
workload 61
workload 03
workload -3
workload
bundle 64
bundle 65
bundle 1 2
bundle 1 --workers 2
recheck
recheck --
recheck x
sweep --edges 5000
sweep --edges=5001
sweep 10
edit 65536
edit 65537
edit 12345678901
chekc
-- check
WORDS
}

graphs() {
    fresh
    with_graphs
    released first
    so_far=0
    call "$with" graphs
    refuses 'graphs, none built' './smash build'
    call "$with" build
    is 'build of both: status' "$status" 0
    is 'build of both: calls of rt' "$(calls)" 4
    so_far=4
    call "$with" check
    runs 'check beside graphs' 'of first low'
    out=$(printf 'a source' | PATH=$with "$here/smash" graphs)
    is 'graphs' "$out" "$(printf 'of drawn low\na source')"
    call "$with" --which graphs
    is 'which graphs' "$out" "$(echo "$here"/out/built/smash_graphs-*)"
    echo redrawn > "$here/crates/smash_graphs/src/main.rt"
    call "$with" check
    runs 'check after an edit of graphs' 'of first low'
    call "$with" graphs
    refuses 'graphs after an edit' './smash build'
    call "$with" build
    is 'build of graphs alone: calls of rt' "$(calls)" 6
    is 'programs kept' "$(cd "$here/out/built" && echo smash_* | sed 's/-[^ ]*//g')" 'smash_graphs smash_main'
}

# reads WORDS LINE: at a terminal the line says what is read.
reads() {
    out=$(PATH=$with script -qec "$here/smash $1" /dev/null < /dev/null | tr -d '\r' | head -n 1)
    is "$1 at a terminal" "$out" "smash: $2"
}

terminals() {
    command -v script > /dev/null || return 0
    fresh
    released first
    reads check 'the source is read from standard input: ./smash check < FILE'
    reads sweep 'the source is read from standard input: ./smash sweep < FILE'
    reads 'replay []' "the source is read from standard input: ./smash replay '[5, -2]' < FILE"
    reads 'bundle 1' 'the source is read from standard input: ./smash bundle K < FILE'
    reads 'edit 3' 'the old source and the new one are read from standard input: ./smash edit N < FILES'
    reads recheck 'the bundle is read from standard input: ./smash recheck < BUNDLE'
    out=$(PATH=$with script -qec "$here/smash workload 3" /dev/null < /dev/null | tr -d '\r' | head -n 1)
    is 'workload at a terminal' "$out" 'released first'
    start "$with"
    is 'no terminal' "$err" ''

    fresh
    echo 2.2 > "$room/kit/bin/slow"
    at_terminal build
    is 'build at a terminal: output' "$out" ''
    is 'build at a terminal: standard error' "$(echo "$err" | sed 's/ (0 min; log .*)$//')" \
        'smash: reading the sources of 2 crates; the first build takes 40 minutes or more, later ones seconds
smash: proving base, 0 of 2 crates
smash: proving smash_main, 1 of 2 crates
smash: building the program
smash: smash_main is proved and built of these sources'

    fresh
    echo 4 > "$room/kit/bin/slow"
    # (a shell that began with SIGINT ignored, as in the background, couldn't catch it)
    { until_called && sleep 0.5 && printf '\003' && sleep 1; } |
        env --default-signal=INT PATH="$with" script -qec "$here/smash build" /dev/null > "$room/out"
    is 'Ctrl-C: status' $? 130
    sleep 4.5
    is 'Ctrl-C: calls of rt' "$(calls)" 1
    is 'Ctrl-C: files' "$(ls "$here/out")" lock

    fresh
    echo 1.5 > "$room/kit/bin/slow"
    PATH=$with "$here/smash" build < /dev/null > "$room/one" 2>&1 &
    until_called
    at_terminal build
    wait "$!"
    is 'another build goes on' "$err" "$(printf 'smash: another start proves and builds the program; waiting for it\nsmash: smash_main is proved and built of these sources')"
}
