# Sourced by ./memplan where standard error is a terminal: runs the program, and says there what its line and status leave open.
#
# The program's own line comes first, and its status is the status; nothing goes to standard output but what the program writes. `here` is
# the repository's folder, `program` the program. Only bash and coreutils are needed; tools/explain is asked where there is a python3.

. "$here/tools/help.sh"

readonly SOON=3  # a program that took less seconds is run once more, for the line that says why it refused

say() {
    echo "memplan: $*"
}

# A signal that came to this shell goes on to the program.
pass_on() {
    came=$1 by=$1
    [ -z "$child" ] || kill -s "$1" "$child"
}

# Runs the program and sets `status`. It keeps standard input and the signals of a terminal.
run_program() {
    local child= came= by=TERM signal
    { : <&0; } 2>/dev/null || exec </dev/null
    # bash's own words on a program that a signal has ended
    exec 8>&2 2>/dev/null
    for signal in HUP INT QUIT TERM; do
        trap "pass_on $signal" "$signal"
    done
    (trap - INT QUIT && exec "$program" "$@" 2>&8 8>&-) <&0 &
    child=$!
    [ -z "$came" ] || pass_on "$came"
    # a signal that comes ends the waiting, be it before the program has ended; if both come at once bash may not know any more how that ended
    while came= && wait "$child"; status=$? && [ -n "$came" ]; do :; done
    case $status in -1 | 127 | 255) status=$((128 + $(kill -l "$by"))) ;; esac
    trap - HUP INT QUIT TERM
    exec 2>&8 8>&-
    # it ends with 0 to 10, or a signal ended it: then this shell ends by the same
    if [ "$status" -gt 128 ]; then
        ulimit -c 0
        kill -s $((status - 128)) $$
    fi
}

# ---- words

is_among() {
    local word
    for word in "${@:2}"; do
        [ "$word" != "$1" ] || return 0
    done
    return 1
}

# How many letters have to be put in, left out, put for another or exchanged with the next one to make one word of another.
distance() {
    local one=$1 other=$2 i j least
    local -A row
    for ((j = 0; j <= ${#other}; j++)); do row[0,$j]=$j; done
    for ((i = 1; i <= ${#one}; i++)); do
        row[$i,0]=$i
        for ((j = 1; j <= ${#other}; j++)); do
            least=$((row[$((i - 1)),$((j - 1))]))
            [ "${one:i-1:1}" = "${other:j-1:1}" ] || least=$((least + 1))
            ((row[$((i - 1)),$j] + 1 < least)) && least=$((row[$((i - 1)),$j] + 1))
            ((row[$i,$((j - 1))] + 1 < least)) && least=$((row[$i,$((j - 1))] + 1))
            if ((i > 1 && j > 1)) && [ "${one:i-2:2}" = "${other:j-1:1}${other:j-2:1}" ]; then
                ((row[$((i - 2)),$((j - 2))] + 1 < least)) && least=$((row[$((i - 2)),$((j - 2))] + 1))
            fi
            row[$i,$j]=$least
        done
    done
    echo "${row[${#one},${#other}]}"
}

# Of some words the nearest one to WORD, behind PREFIX, as a question at the end of a sentence; nothing where none is near.
nearest() { # PREFIX WORD WORDS..
    local word found= least=3 far
    [ ${#2} -le 20 ] || return 0
    for word in "${@:3}"; do
        far=$(distance "${2,,}" "$word")
        [ "$far" -ge $least ] || [ "$far" -ge ${#2} ] || { least=$far && found=$word; }
    done
    [ -z "$found" ] || echo "; do you mean $1$found?"
}

# `a|b|c` as `--a, --b or --c`, and `kind=grid` as `--kind grid`.
as_options() {
    local text=--${1//|/, --}
    text=${text//=/ }
    case $text in *,*) text="${text%,*} ${2:-or}${text##*,}" ;; esac
    echo "$text"
}

is_within() { # NUMBER LEAST MOST, of any length
    local number=${1#"${1%%[!0]*}"}
    number=${number:-0}
    [ "$number" != 0 ] || [ "$2" = 0 ] || return 1
    [ ${#number} -lt ${#3} ] || { [ ${#number} -eq ${#3} ] && [[ ! $number > $3 ]]; }
}

# Says what is wrong with the words, and ends the shell that looks for it.
fault() {
    say "$*"
    exit 0
}

check_command() {
    local word
    ! is_among "$1" $commands || return 0
    case $1 in
        -*)
            for word in "${@:2}"; do
                ! is_among "$word" $commands || fault "the command comes first, then its options: memplan $word $1 .."
            done
            fault "the command comes first, then its options; there is no command $1"
            ;;
    esac
    fault "there is no command $1$(nearest "" "$1" $commands)"
}

check_name() { # COMMAND NAME
    local other found=
    ! is_among "$2" ${options_of[$1]} || return 0
    for other in $commands; do
        ! is_among "$2" ${options_of[$other]} || found+=", $other"
    done
    [ -z "$found" ] || fault "--$2 is no option of $1, but of ${found#, }"
    fault "there is no option --$2 of $1$(nearest -- "$2" ${options_of[$1]})"
}

# What an option takes: most take the same whatever the command.
wanted_of() { # COMMAND NAME
    echo "${value_of[$1.$2]:-${value_of[$2]}}"
}

check_value() { # NAME VALUE WANTED
    local wanted=$3
    case $2 in
        "") fault "--$1 has an empty value; it is --$1 $wanted" ;;
        -) fault "- is no file; --$1 /dev/stdin reads standard input where that is a file, and no pipe" ;;
        --*) fault "--$1 has no value, and $2 comes next; it is --$1 $wanted" ;;
        -*) fault "--$1 $2: a value does not begin with a hyphen; it is --$1 $wanted" ;;
    esac
    case $wanted in
        FILE) ;;
        *\|*) is_among "$2" ${wanted//|/ } || fault "$2 is no value of --$1; it is --$1 $wanted" ;;
        *)
            [[ $2 =~ ^[0-9]+$ ]] || fault "--$1 $2: $2 is no whole number, written in digits alone"
            is_within "$2" ${range_of[$1]} || fault "--$1 $2: it is a number from ${range_of[$1]/ / to }"
            ;;
    esac
}

# The values of the options, into `given`; what is wrong with one of them is said.
read_options() {
    local command=$1 name value
    shift
    while [ $# -gt 0 ]; do
        case $1 in
            -- | --=*) fault "$1 names no option" ;;
            --*) ;;
            -*) fault "$1: an option begins with two hyphens, as --${1#-}" ;;
            *) fault "$1 stands where an option is expected; a file is named by one, as in --${options_of[$command]%% *} $1" ;;
        esac
        name=${1#--}
        name=${name%%=*}
        check_name "$command" "$name"
        [ -z "${given[$name]+given}" ] || fault "--$name is given twice"
        case $1 in
            *=*) value=${1#*=} ;;
            *)
                [ $# -gt 1 ] || fault "--$name has no value; it is --$name $(wanted_of "$command" "$name")"
                value=$2
                shift
                ;;
        esac
        shift
        check_value "$name" "$value" "$(wanted_of "$command" "$name")"
        given[$name]=$value
    done
}

# Whether an option is given, or `kind=grid`, an option with this value.
is_given() {
    local name=${1%%=*}
    [ -n "${given[$name]+given}" ] && { [ "$1" = "$name" ] || [ "${given[$name]}" = "${1#*=}" ]; }
}

# Sets `count`: how many options of a group, with `|` between, are given. Where there are several, that is said.
count_given() { # GROUP
    local name
    count=0
    for name in ${1//|/ }; do
        ! is_given "$name" || count=$((count + 1))
    done
    [ $count -le 1 ] || fault "of $(as_options "$1" and) one alone is given"
}

check_together() { # COMMAND
    local pair group count
    for pair in ${only_with[$1]}; do
        is_given "${pair%:*}" || continue
        count_given "${pair#*:}"
        [ $count -gt 0 ] || fault "$(as_options "${pair%:*}") goes with $(as_options "${pair#*:}"), which is not given"
    done
    for group in ${one_of[$1]}; do
        count_given "$group"
        [ $count -gt 0 ] || fault "$1 wants $(as_options "$group")"
    done
    for group in $at_most_one; do
        count_given "$group"
    done
    fault "these options do not go together"
}

find_fault() (
    declare -A given=()
    for word in "$@"; do
        ! command -v iconv >/dev/null || iconv -f UTF-8 >/dev/null 2>&1 <<<"$word" || fault "a word is not UTF-8: $(printf %q "$word")"
    done
    check_command "$@"
    read_options "$@"
    check_together "$1"
)

say_usage() {
    local word
    case ${1:-} in
        "" | help | --help | -h)
            if [ $# -lt 2 ] || is_among "$2" $commands; then
                print_help "${2:-}"
            else
                print_help ""
                say "there is no command $2$(nearest "" "$2" $commands)"
            fi
            return
            ;;
        version | --version | -V)
            sed -n 's/^#define MEMPLAN_VERSION "\(.*\)"$/memplan \1/p' "$here/c/memplan.h"
            return
            ;;
    esac
    for word in "${@:2}"; do
        if is_among "$1" $commands && is_among "$word" help --help -h; then
            print_help "$1"
            return
        fi
    done
    find_fault "$@"
    if is_among "$1" $commands; then
        say "it is used so: memplan $1 ${usage_of[$1]}"
        say "'memplan help $1' says more"
    else
        say "'memplan help' has the commands"
    fi
}

# ---- files

say_unreadable() {
    local name file
    declare -A given=()
    read_options "$@"
    for name in ${options_of[$1]}; do
        file=${given[$name]:-}
        if [ -z "$file" ] || [ "${value_of[$name]}" != FILE ]; then
            continue
        elif [ -d "$file" ]; then
            say "--$name $file is a folder"
        elif [ -p "$file" ]; then
            say "--$name $file is a pipe, which cannot be read by place: write it to a file first"
        elif [ ! -e "$file" ] && [ -e "$file.gz" ]; then
            say "there is no file $file; there is $file.gz, which is compressed: gunzip it first"
        elif [ ! -e "$file" ]; then
            say "there is no file $file"
        elif [ ! -r "$file" ]; then
            say "--$name $file is not readable for you"
        elif [ ! -f "$file" ]; then
            say "--$name $file is no file but a device"
        fi
    done
}

# What is said where the report is a refusal: the line, where it is not shown but went into a file, and what it means.
say_refusal() { # SECONDS WORDS..
    local line=
    if [ "$1" -lt $SOON ]; then
        line=$("$program" "${@:2}" 2>/dev/null | head -n 1)
        case $line in refused\ * | no\ *) ;; *) line= ;; esac
    fi
    if [ "$is_shown" = no ]; then
        say "refused, status $status; in place of a report there is the line: ${line:-its first one says why}"
    fi
    if [ -n "$line" ] && command -v python3 >/dev/null; then
        "$here/tools/explain" $line --of "$2" "${@:3}"
    else
        say "docs/REPORTS.md, 'Reports and statuses', says what the line means"
    fi
}

run_at_terminal() {
    local status start=$SECONDS is_shown=no
    [ ! -t 1 ] || is_shown=yes
    run_program "$@"
    case $status in
        2) say_usage "$@" ;;
        6) say_unreadable "$@" ;;
        1 | 3 | 4 | 5 | 9 | 10) say_refusal $((SECONDS - start)) "$@" ;;
    esac >&2
    exit "$status"
}
