# Prints help from the table alone: it calls no other program and needs no build.
#
# shellcheck disable=SC2034,SC2154     # shared variables

width=80

# Prints words in lines of at most `width` columns. The first begins with `$1`, padded to the margin
# `$2`; the others begin at that margin.
wrap() {
    local line=$1 margin=$2 word is_first=1
    local -a text
    read -r -a text <<<"$3"
    if [ "${#line}" -ge "$margin" ] && [ "$margin" -gt 0 ]; then
        printf '%s\n' "$line"
        line=
    fi
    printf -v line '%-*s' "$margin" "$line"
    for word in ${text[@]+"${text[@]}"}; do
        if [ -z "$is_first" ] && [ $((${#line} + 1 + ${#word})) -gt "$width" ]; then
            printf '%s\n' "$line"
            printf -v line '%-*s' "$margin" ''
            is_first=1
        fi
        [ -n "$is_first" ] || line+=' '
        line+=$word
        is_first=
    done
    printf '%s\n' "${line%"${line##*[! ]}"}"
}

# Sets `usage` to a command's arguments: options in the table's order, and input.
get_usage() {
    local name value part
    usage=$1
    for name in ${names[option]}; do
        is_option_of "$name" "$1" || continue
        get "option $name" value
        part="$name $value"
        get "option $name" default
        [ -z "$value" ] || part="[$part]"
        usage+=" $part"
    done
    ! reads_configuration "command $1" || usage+=" < CONFIGURATION"
}

# Prints a program option with its values, and its default or that it is needed.
help_option() {
    local value summary of=$2 text
    get "option $1" summary
    summary=$value
    get "option $1" range
    [ -z "$value" ] || summary+=" N is ${value% *} to ${value#* }."
    get "option $1" default
    text="Default: $value."
    [ -n "$value" ] || text="Needed."
    if [ "$of" = all ]; then
        get "option $1" commands
        text+=" For ${value// /, }."
    fi
    get "option $1" value
    wrap "  $1 $value" 28 "$summary $text"
}

help_options() {
    local name
    for name in ${names[option]}; do
        if [ "$1" = all ] || is_option_of "$name" "$1"; then
            help_option "$name" "$1"
        fi
    done
}

# Prints a list of entries with their summaries.
help_entries() {
    local name value
    for name in ${names[$1]}; do
        get "$1 $name" summary
        wrap "  $name" "$2" "$value"
    done
}

help_statuses() {
    local name value
    for name in ${names[status]}; do
        get "status $name" meaning
        wrap "  $name" 7 "$value"
    done
}

help_all() {
    printf '%s\n\n' "irv, a verifier for railway interlockings"
    printf '%s\n' "./irv COMMAND [OPTIONS] [< CONFIGURATION]" "./irv LAUNCHER-OPTION [ARGUMENTS]"
    printf '\n%s\n' "Commands (./irv COMMAND --help prints more):"
    help_entries command 11
    printf '\n%s\n' "Options of the commands:"
    help_options all
    printf '\n%s\n' "Options of the launcher, which come first (./irv --html --help prints more):"
    help_entries launcher 20
    printf '\n%s\n' "Exit statuses:"
    help_statuses
    printf '\n%s\n' "Examples:"
    printf '  %s\n' "${examples[@]}"
    printf '\n'
    wrap "" 0 "If the program is not built of these sources, a command first has it proved and \
built, which takes 40 minutes with four processors. ./irv --unproved answers in a minute or two, \
without proof. docs/reference/commands.md describes each answer."
}

# Prints a command's possible output, with exit statuses.
help_reports() {
    local line parts
    printf '\n%s\n' "Exit statuses and what is printed:"
    while IFS= read -r line; do
        split "$line"
        wrap "  ${parts[0]}  ${parts[1]}" 32 "${parts[2]}"
    done <<<"${fields["command $1 report"]%$'\n'}"
    wrap "  7 to 10" 32 "The arguments are wrong; reading fails; writing fails; memory ran out."
}

help_command() {
    local value usage
    get_usage "$1"
    printf '%s\n\n' "./irv $usage"
    get "command $1" summary
    wrap "" 0 "$value"
    printf '\n%s\n' "Options:"
    help_options "$1"
    help_reports "$1"
}

# Prints a tool's options, each with its default.
help_tool_options() {
    local line parts text
    [ -n "${fields["launcher $1 option"]-}" ] || return 0
    printf '\n%s\n' "Options:"
    while IFS= read -r line; do
        split "$line"
        case ${parts[2]-} in
            '') text= ;;
            needed) text="Needed." ;;
            *) text="Default: ${parts[2]}." ;;
        esac
        wrap "  ${parts[0]}" 28 "${parts[1]} $text"
    done <<<"${fields["launcher $1 option"]%$'\n'}"
}

help_tool_statuses() {
    local line parts
    [ -n "${fields["launcher $1 status"]-}" ] || return 0
    printf '\n%s\n' "Exit statuses:"
    while IFS= read -r line; do
        split "$line"
        wrap "  ${parts[0]}" 7 "${parts[1]}"
    done <<<"${fields["launcher $1 status"]%$'\n'}"
}

help_launcher() {
    local value usage
    while IFS= read -r usage; do
        printf '%s\n' "./irv $1$usage"
    done <<<"${fields["launcher $1 usage"]%$'\n'}"
    printf '\n'
    get "launcher $1" summary
    wrap "" 0 "$value"
    get "launcher $1" text
    [ -z "$value" ] || wrap "" 0 "$value"
    help_tool_options "$1"
    help_tool_statuses "$1"
}

# Prints the help of a command or launcher option, otherwise of all.
help() {
    if is_listed command "$1"; then
        help_command "$1"
    elif is_listed launcher "$1" && [ "$1" != --help ]; then
        help_launcher "$1"
    else
        help_all
    fi
}

# Sets `takes_value` to 1 if an option takes the next argument as its value, among the options of
# the program and of the launcher's option `$2`.
get_takes_value() {
    takes_value=
    ! is_listed option "$1" || takes_value=1
    [[ "${fields["launcher $2 option"]-}" != *" $1 "[[:upper:]]* ]] || takes_value=1
}

# Returns whether the arguments ask for help: `-h` or `--help` before `--`, not as an option's
# value. Sets `topic` to the command or launcher option in question.
asks_for_help() {
    local word first=${1-} takes_value='' is_value='' is_asked=''
    topic=
    for word in "$@"; do
        if [ -n "$is_value" ]; then
            is_value=
            continue
        fi
        case $word in
            --) break ;;
            -h | --help) is_asked=1 ;;
            -*)
                get_takes_value "$word" "$first"
                is_value=$takes_value
                ! is_listed launcher "$word" || [ "$word" = --unproved ] || topic=${topic:-$word}
                ;;
            *) topic=${topic:-$word} ;;
        esac
    done
    [ "$first" != --unproved ] || topic=${topic:-$first}
    [ -n "$is_asked" ]
}
