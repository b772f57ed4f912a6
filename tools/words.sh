# shellcheck shell=sh
# What is wrong with the words of a command, in one line that says what to write. The program decides what a command is, and
# answers every other one with its usage; this line only stands before that. ./smash reads it.

# find_mistake WORD..: sets `mistake`, empty where there is none.
find_mistake() {
    mistake=''
    command=$1
    shift
    case $command in
        check | replay | workload | bundle | recheck | sweep | edit) look_at_words "$@" ;;
        graphs) [ "$#" -eq 0 ] || mistake="'$1' is no word of graphs; $(where_it_reads "$1")" ;;
        build | --version) [ "$#" -eq 0 ] || mistake="'$1' is no word of $command, which has none" ;;
        --which) [ "$*" = '' ] || [ "$*" = graphs ] || mistake="'$*' is no word of --which, which has one at most: graphs" ;;
        *)
            mistake="'$command' is no command: write check, replay, workload, bundle, recheck, sweep, edit, graphs, build or help"
            [ ! -f "$command" ] || mistake="'$command' is no command: write ./smash check < $command"
            ;;
    esac
}

# The words after the command: options with numbers, and at most one other word, which is the command's number or list.
look_at_words() {
    given=' ' operands=0
    case $command in check | recheck | sweep) most=0 ;; *) most=1 ;; esac
    while [ "$#" -gt 0 ] && [ -z "$mistake" ]; do
        word=$1
        shift
        case $word in
            --) break ;;
            --*=*) look_at_option "${word%%=*}" "${word#*=}" ;;
            --*)
                look_at_option "$word" "${1-}"
                [ "$#" -eq 0 ] || shift
                ;;
            *) look_at_operand "$word" ;;
        esac
    done
    while [ "$#" -gt 0 ] && [ -z "$mistake" ]; do
        look_at_operand "$1"
        shift
    done
    [ -n "$mistake" ] || [ "$operands" -eq "$most" ] || mistake=$(what_it_takes)
}

look_at_option() {
    case $command:$1 in
        check:--budget | workload:--budget | bundle:--budget | edit:--budget) high=20000 ;;
        check:--workers | workload:--workers | edit:--workers) high=16 ;;
        replay:--fuel) high=1000000000 ;;
        sweep:--edges) high=5000 ;;
        *)
            mistake="$command has no option $1; $(options_of)"
            return
            ;;
    esac
    case $given in *" $1 "*) mistake="$1 is given twice" ;; esac
    given="$given$1 "
    is_number_to "$high" "$2" || mistake="$1 takes a number from 1 to $high, not '$2'"
}

look_at_operand() {
    operands=$((operands + 1))
    if [ "$operands" -gt "$most" ]; then
        case $command in
            check | sweep) mistake="'$1' is no word of $command; $(where_it_reads "$1")" ;;
            recheck) mistake="'$1' is no word of recheck: write ./smash recheck < BUNDLE" ;;
            *) mistake="'$1' is one word too many: $(what_it_takes)" ;;
        esac
        return
    fi
    case $command in
        replay) is_list "$1" ;;
        workload) is_number_to 60 "$1" ;;
        bundle) is_number_to 64 "$1" ;;
        edit) is_number_to 65536 "$1" ;;
    esac || mistake="'$1' is no word of $command: $(what_it_takes)"
}

where_it_reads() {
    if [ -f "$1" ]; then
        echo "the source is read from standard input: write ./smash $command < $1"
    else
        echo "the source is read from standard input: write ./smash $command < FILE"
    fi
}

what_it_takes() {
    case $command in
        replay) echo "write ./smash replay '[5, -2]' < FILE, with a list of inputs as one word" ;;
        workload) echo "write ./smash workload N, with a number of procedures from 1 to 60" ;;
        bundle) echo "write ./smash bundle K < FILE, with the number of an assertion from 1 to 64" ;;
        edit) echo "write ./smash edit N < FILES, with the old source's number of bytes from 1 to 65536" ;;
    esac
}

options_of() {
    case $command in
        check | workload | edit) echo "it has --budget N and --workers N" ;;
        bundle) echo "it has --budget N" ;;
        replay) echo "it has --fuel N" ;;
        sweep) echo "it has --edges N" ;;
        *) echo "it has none" ;;
    esac
}

# A number from 1 to the one given, in at most ten digits, without a leading 0.
is_number_to() {
    case $2 in
        '' | 0* | *[!0-9]* | ???????????*) return 1 ;;
    esac
    [ "$2" -le "$1" ]
}

# A list of inputs in one word. Whether each is in the 64-bit range is left to the program.
is_list() {
    value=' *(0|-?[1-9][0-9]*) *'
    printf '%s\n' "$1" | grep -Eq "^\\[($value(,$value)*| *)\\]\$"
}
