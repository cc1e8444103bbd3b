# Reads tools/launcher/commands.txt, the one table of commands, options and exit statuses.
#
# shellcheck disable=SC2034,SC2154     # shared variables

table=$top/tools/launcher/commands.txt
# a field's values by entry and key, as "command check summary"; each ends with a line feed
declare -A fields=()
# the names of a kind's entries in the table's order, with a space after each
declare -A names=()
examples=()

read_table() {
    local line entry=
    [ -r "$table" ] || no_answer "cannot read $table: restore it from the repository"
    while IFS= read -r line; do
        case $line in
            '' | '#'*) ;;
            ' '*)
                line=${line#"${line%%[! ]*}"}
                fields["$entry ${line%%:*}"]+=${line#*:}$'\n'
                ;;
            'example '*) examples+=("${line#* }") ;;
            *)
                entry=$line
                names[${line%% *}]+="${line#* } "
                ;;
        esac
    done <"$table"
}

# Sets `value` to a field's first value, or to nothing without such a field.
get() {
    value=${fields["$1 $2"]-}
    value=${value%%$'\n'*}
    value=${value# }
}

# Returns whether an entry of this kind has this name.
is_listed() {
    [ -n "$2" ] && [[ " ${names[$1]-}" == *" $2 "* ]]
}

# Returns whether a program option belongs to a command.
is_option_of() {
    local value
    get "option $1" commands
    [[ " $value " == *" $2 "* ]]
}

# Sets `named` to the option for the file that a command `reads` or `writes`.
get_named() {
    local value
    get "command $1" "$2"
    named=$value
}

# Returns whether a command or launcher option reads a configuration from standard input.
reads_configuration() {
    local value
    get "$1" input
    [ "$value" = configuration ]
}

# Sets `parts` to the parts of a value, separated by ` | `.
split() {
    local rest=${1# }
    parts=()
    while [[ $rest == *' | '* ]]; do
        parts+=("${rest%% | *}")
        rest=${rest#* | }
    done
    parts+=("$rest")
}
