# Adds a line on standard error after the program's own: the wrong argument, or the failed file or
# stream, and why, as far as the launcher can see.
#
# shellcheck disable=SC2034,SC2154     # shared variables

# Prints why a file cannot be read, if that is visible.
why_unreadable() {
    if [ ! -e "$1" ]; then
        echo "no such file"
    elif [ -d "$1" ]; then
        echo "it is a directory"
    elif [ ! -r "$1" ]; then
        echo "permission denied"
    fi
}

# Returns whether a file's or directory's disk is full.
is_full() {
    [ "$(df --output=avail -- "$1" 2>/dev/null | tail -n 1 | tr -d ' ')" = 0 ]
}

# Prints why a file cannot be written, if that is visible.
why_unwritable() {
    local directory=.
    [[ $1 != */* ]] || directory=${1%/*}
    directory=${directory:-/}
    if [ -z "$1" ]; then
        echo "the name is empty"
    elif [ -d "$1" ]; then
        echo "it is a directory"
    elif [ ! -e "$directory" ]; then
        echo "the directory $directory does not exist"
    elif [ ! -d "$directory" ]; then
        echo "$directory is not a directory"
    elif [ -e "$1" ] && [ ! -w "$1" ] || [ ! -e "$1" ] && [ ! -w "$directory" ]; then
        echo "permission denied"
    elif [ "$1" -ef /dev/full ] || is_full "$directory"; then
        echo "the disk is full"
    fi
}

# Explains `irv: usage` by the fault in the arguments, or by bytes that are not UTF-8.
explain_usage() {
    local word
    for word in ${words[@]+"${words[@]}"}; do
        [ -z "$fault" ] || break
        command -v iconv >/dev/null || break
        printf %s "$word" | iconv -f UTF-8 -t UTF-8 >/dev/null 2>&1 \
            || fault="an argument is not UTF-8: $(printf %q "${word#"$PWD/"}")"
    done
    echo "irv: ${fault:-"./irv --help lists the commands and their options"}" >&2
}

explain_read_fault() {
    local why=
    if ! is_open 0; then
        why="cannot read standard input: it is closed"
    elif [ -d "/proc/$$/fd/0" ]; then
        why="cannot read standard input: it is a directory"
    elif [ -n "$names_input" ]; then
        why=$(why_unreadable "$input")
        why=${why:+"cannot read $input: $why"}
    fi
    echo "irv: ${why:-"cannot read standard input${names_input:+ or $input}"}" >&2
}

explain_write_fault() {
    local why='' output=/proc/$$/fd/1 sinks="standard output"
    if [ -n "$names_certificate" ]; then
        why=$(why_unwritable "$certificate")
        why=${why:+"cannot write the certificate to '$certificate': $why"}
    fi
    if [ -n "$why" ]; then
        :
    elif ! is_open 1; then
        why="cannot write standard output: it is closed"
    elif [ -d "$output" ]; then
        why="cannot write standard output: it is a directory"
    elif [ "$output" -ef /dev/full ] || { [ -f "$output" ] && is_full "$output"; }; then
        why="cannot write standard output: the disk is full"
    fi
    [ -z "$names_certificate" ] || sinks="the certificate to '$certificate', or $sinks"
    echo "irv: ${why:-"cannot write $sinks"}" >&2
}

# Explains the rejection of another command's file: a scenario given to replay, or a run given to
# drive.
explain_rejection() {
    local head=
    [ -n "$names_input" ] && [ -f "$input" ] && [ -r "$input" ] || return
    IFS= read -r -n 8 head <"$input"
    case $command,$head in
        replay,'drive '*) echo "irv: $input: this is a scenario: use drive" >&2 ;;
        drive,'run '*) echo "irv: $input: this is a run: use replay" >&2 ;;
    esac
}

# Names on a terminal the option that explains faults in sentences.
hint_at_sentences() {
    [ ! -t 2 ] || echo "irv: ./irv $command --explain says in sentences what is wrong and where" >&2
}

# Adds a line after an answer with this status, if one helps.
explain() {
    case $1 in
        5) hint_at_sentences ;;
        6)
            explain_rejection
            hint_at_sentences
            ;;
        "$usage_status") explain_usage ;;
        8) explain_read_fault ;;
        9) explain_write_fault ;;
    esac
}

# Says that the configuration is expected from the terminal, if so.
announce_terminal() {
    [ -t 0 ] && reads_configuration "$1" || return 0
    echo "irv: ${1#* } reads its configuration from standard input, which is this terminal:" \
        "add < FILE, or type it and press Ctrl-D" >&2
}
