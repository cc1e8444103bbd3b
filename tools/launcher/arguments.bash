# Reads a command's arguments as the program does, and finds what the program refuses.
#
# shellcheck disable=SC2034,SC2154     # shared variables

# the given options with their values
declare -A given=()

# Reads arguments. Sets:
#
# - `command`, and `given`, the options;
#
# - `certificate`, the file that the command writes;
#
# - `input`, the file that it reads besides the configuration;
#
# - `words`, the arguments with whole paths, since an unproved build may run in its own directory;
#
# - `fault`, a sentence on the first thing that the program refuses, or nothing.
read_arguments() {
    local word option='' is_closed='' unknown='' valueless='' repeated=''
    local -a positional=()
    words=() given=() command='' certificate='' input='' fault=''
    for word in "$@"; do
        if [ -n "$is_closed" ]; then
            positional+=("$word")
        elif [ -n "$option" ] && [[ $word != -?* ]]; then
            take_option "$option" "$word"
            continue
        else
            valueless=${valueless:-$option}
            option=
            take_word "$word" && continue
        fi
        words+=("$word")
    done
    valueless=${valueless:-$option}
    command=${positional[0]-}
    find_files
    find_fault
}

# Takes an argument that is not an option's value. Returns whether it is already in `words`.
take_word() {
    case $1 in
        --) is_closed=1 ;;
        --*=*)
            if is_listed option "${1%%=*}"; then
                take_option "${1%%=*}" "${1#*=}" =
                return 0
            fi
            unknown=${unknown:-$1}
            ;;
        -?*) is_listed option "$1" && option=$1 || unknown=${unknown:-$1} ;;
        *) positional+=("$1") ;;
    esac
    return 1
}

# Takes an option's value, the next argument unless `$3` is the equals sign before it.
take_option() {
    local path=$2
    [ -z "${given[$1]+given}" ] || repeated=${repeated:-$1}
    given[$1]=$2
    case $1,$path in
        --run,?* | --cert,?*) [[ $path == /* ]] || path=$PWD/$path ;;
    esac
    [ -z "${3-}" ] && words+=("$path") || words+=("$1=$path")
    option=
}

# Sets `certificate` and `input` from the command's options.
find_files() {
    local named
    get_named "$command" writes
    names_certificate=${named:+${given[$named]+named}}
    [ -z "$names_certificate" ] || certificate=${given[$named]}
    get_named "$command" reads
    names_input=${named:+${given[$named]+named}}
    [ -z "$names_input" ] || input=${given[$named]}
}

# Sets `fault` to a sentence on the first thing that the program refuses.
find_fault() {
    local value
    if [ -n "$unknown" ]; then
        find_unknown "${unknown%%=*}"
    elif [ -n "$valueless" ]; then
        get "option $valueless" value
        fault="$valueless needs ${value//|/ or }"
    elif [ -n "$repeated" ]; then
        fault="$repeated is given twice"
    elif [ -z "$command" ] && [ "${#positional[@]}" -eq 0 ]; then
        fault="no command is given: ./irv --help lists the commands"
    elif ! is_listed command "$command"; then
        fault="'$command' is not a command: ./irv --help lists the commands"
    elif [ "${#positional[@]}" -gt 1 ]; then
        find_surplus "${positional[1]}"
    else
        find_option_fault
    fi
}

find_unknown() {
    if is_listed launcher "$1"; then
        fault="$1 has to be the first argument"
    elif is_listed command "$command"; then
        fault="'$1' is not an option of $command: ./irv $command --help lists its options"
    else
        fault="'$1' is not an option: ./irv --help lists the options"
    fi
}

# Finds the likely meaning of a second positional argument: the configuration's file.
find_surplus() {
    if reads_configuration "command $command"; then
        fault="$command reads its configuration from standard input: add < before '$1'"
    else
        fault="$command takes options only, not '$1'"
    fi
}

# Finds an option that is missing, not the command's, or has a wrong value.
find_option_fault() {
    local name value
    for name in ${names[option]}; do
        if [ -n "${given[$name]+given}" ]; then
            if ! is_option_of "$name" "$command"; then
                fault="$command does not take $name: ./irv $command --help lists its options"
                return
            fi
            find_value_fault "$name" "${given[$name]}"
            [ -z "$fault" ] || return
        elif is_option_of "$name" "$command"; then
            get "option $name" default
            [ -z "$value" ] || continue
            get "option $name" value
            fault="$command needs $name $value"
            return
        fi
    done
}

# Finds a value that its option does not take.
find_value_fault() {
    local value number=${2#+}
    get "option $1" value
    case $value in
        FILE) ;;
        N)
            get "option $1" range
            [ "$1,${given[--query]-}" != --number,step ] || value="1 ${value#* }"
            number=${number#"${number%%[!0]*}"}
            number=${number:-0}
            [[ $2 =~ ^\+?[0-9]+$ ]] && [ "${#number}" -lt 9 ] && [ "$number" -ge "${value% *}" ] \
                && [ "$number" -le "${value#* }" ] \
                || fault="$1 takes a whole number from ${value% *} to ${value#* }, not '$2'"
            ;;
        *)
            [[ $2 != *'|'* && "|$value|" == *"|$2|"* ]] \
                || fault="$1 takes ${value//|/ or }, not '$2'"
            ;;
    esac
}
