# Runs programs, passes signals on to them, and shows on a terminal that work goes on.
#
# shellcheck disable=SC2034,SC2154     # shared variables

# Passes its input on to standard error. Until the first byte, from the second second on, a line
# shows that work goes on.
show_work() {
    trap '' INT QUIT
    local first seconds=0 status
    while IFS= read -r -N 1 -t 1 first; status=$?; [ "$status" -gt 128 ] && [ -z "$first" ]; do
        seconds=$((seconds + 1))
        [ "$seconds" -lt 2 ] || printf '\r\033[Kirv: working for %d seconds' "$seconds"
    done
    [ "$seconds" -lt 2 ] || printf '\r\033[K'
    [ -z "$first" ] || { printf %s "$first" && cat; }
} >&2

# Returns whether standard error is a terminal on which a line can be removed.
is_watched() {
    [ -t 2 ] && [ "${TERM:-dumb}" != dumb ]
}

# Returns whether a stream of the caller is open.
is_open() {
    [ -e "/proc/$$/fd/$1" ]
}

# Replaces this process by a command that ends with the launcher in any case. Standard input is the
# caller's.
run_tied() {
    trap - INT QUIT
    local tie=()
    ! command -v setpriv >/dev/null || tie=(setpriv --pdeathsig KILL --)
    exec ${tie[@]+"${tie[@]}"} "$@"
}

# Notes a signal in `early`, until there is a process to pass it on to.
note_signals() {
    local signal
    early=
    for signal in HUP INT QUIT TERM; do
        # shellcheck disable=SC2064     # it is known now
        trap "early=$signal" "$signal"
    done
}

# Waits for this process, passes signals on to it, and returns its status. If a signal came before,
# the process has just begun: it may still ignore INT and QUIT, and is ended by TERM.
await() {
    local running=$1 signal status
    for signal in HUP INT QUIT TERM; do
        # shellcheck disable=SC2064     # both are known now
        trap "kill -s $signal $running 2>/dev/null" "$signal"
    done
    [ -z "$early" ] || kill -s TERM "$running" 2>/dev/null
    while wait "$running" 2>/dev/null; status=$?
        [ "$status" -gt 128 ] && kill -0 "$running" 2>/dev/null; do
        :
    done
    trap - HUP INT QUIT TERM
    [ -z "$early" ] || status=$((128 + $(kill -l "$early")))
    return "$status"
}

# Runs a command as a child of the launcher.
run_alone() {
    note_signals
    if is_open 0; then
        (run_tied "$@") <&0 &
    else
        (run_tied "$@") <&- &
    fi
    await $!
}

# Runs a command. If standard error is a terminal, a line shows that work goes on. The command's
# output to that terminal takes the same way, so that the line is removed first.
run_shown() {
    is_watched || { run_alone "$@"; return; }
    local line output=1 shown status
    exec {line}> >(show_work)
    shown=$!
    note_signals
    [ ! /dev/stdout -ef /dev/stderr ] || output=$line
    if is_open 0; then
        (run_tied "$@" >&"$output" 2>&"$line" {line}>&-) <&0 &
    else
        (run_tied "$@" >&"$output" 2>&"$line" {line}>&-) <&- &
    fi
    exec {line}>&-
    await $!
    status=$?
    wait "$shown"
    return "$status"
}

# Calls a program with these arguments, explains a fault in a line, and ends with its status.
call() {
    local status
    run_shown "$@"
    status=$?
    [ "$status" -le 128 ] || [ "$status" -eq 130 ] || ! is_watched \
        || echo "irv: signal $(kill -l "$status") ended the program" >&2
    [[ $status -ne 126 && $status -ne 127 ]] \
        || no_answer "cannot start $1: ./irv --version shows its state"
    explain "$status"
    exit "$status"
}
