# Calls the tools of tools/ with the proved program, and the tests.
#
# shellcheck disable=SC2034,SC2154     # shared variables

# Ends if a tool does not exist.
need_tool() {
    [ -x "$top/$1" ] || no_answer "$1, which $2 calls, does not exist"
}

# Ends if a certificate would overwrite an input or output file.
guard_certificate() {
    [ -f "$certificate" ] || return 0
    [ ! "$certificate" -ef /dev/stdin ] \
        || no_answer "--cert names the file that standard input is: name another file"
    [ ! "$certificate" -ef /dev/stdout ] \
        || no_answer "--cert names the file that standard output is: name another file"
}

# Ends if a tool would write its page over the configuration.
guard_output() {
    local value
    get "launcher $1" output
    [ -z "$value" ] || [ ! -f "${2-}" ] || [ ! "$2" -ef /dev/stdin ] \
        || no_answer "$1 names the file that standard input is: name another file"
}

# Returns whether an argument is an option, in full or shortened, with or without a value.
is_short_for() {
    local word=${1%%=*}
    [[ ${#word} -ge 3 && $2 == "$word"* ]]
}

# Ends if the arguments name a program: the launcher passes on only the proved one.
guard_program() {
    local word
    for word in "${@:2}"; do
        ! is_short_for "$word" --program \
            || no_answer "$1 takes no $word: it calls the program that ./irv --build proves"
    done
}

# Returns whether a tool needs the program for these arguments.
needs_program() {
    local value word option
    get "launcher $1" needs-program
    [ -n "$value" ] || return 0
    for word in "${@:2}"; do
        for option in $value; do
            ! is_short_for "$word" "$option" || return 0
        done
    done
    return 1
}

# Calls a launcher option's tool with the arguments after it.
call_tool() {
    local value tool called=$program
    get "launcher $1" tool
    tool=tools/$value
    need python3
    need_tool "$tool" "$1"
    guard_program "$@"
    read_arguments verify "${@:2}"
    guard_certificate
    guard_output "$@"
    if needs_program "$@"; then
        ensure_built
    else
        know_sums
        # no tool can reach a program that is not known to be proved
        is_built_of_sources "$program" "$program_sum" || called=$program.unbuilt
    fi
    announce_terminal "launcher $1"
    exec "$top/$tool" --program "$called" "${@:2}"
}

# Returns whether a command's arguments ask for sentences: --explain or --advise before `--`, not as
# an option's value.
asks_for_sentences() {
    local word is_value=''
    for word in "$@"; do
        if [ -n "$is_value" ] && [[ $word != -?* ]]; then
            is_value=
            continue
        fi
        is_value=
        case $word in
            --) return 1 ;;
            --explain | --advise) return 0 ;;
            -?*) ! is_listed option "$word" || is_value=1 ;;
        esac
    done
    return 1
}

# Prepares a call that explains; its own options are the tool's.
prepare_sentences() {
    local word option='' rest=()
    need python3
    need_tool tools/explain --explain
    guard_program --explain "$@"
    for word in "$@"; do
        [ "$option" != --in ] || { option= && continue; }
        case $word in
            --explain | --advise | --in=*) ;;
            --in) option=$word ;;
            *) rest+=("$word") ;;
        esac
    done
    read_arguments ${rest[@]+"${rest[@]}"}
    guard_certificate
}

# Runs a command of the proved program, with sentences on standard error.
explain_answer() {
    prepare_sentences "$@"
    ensure_built
    exec "$top/tools/explain" --program "$program" "$@"
}

# Runs a command of the unproved build, with sentences on standard error.
explain_unproved() {
    prepare_sentences "$@"
    ensure_unproved
    say_unproved
    exec "$top/tools/explain" --program "$unproved" "$@"
}

# Runs the tests over the program if it is built of these sources, otherwise over the unproved
# build. If that has to be made, the tests that need no program run meanwhile.
run_tests() {
    local status needed=yes maker='' made='' after=()
    need python3
    need_tool tests/run --test
    guard_program --test "$@"
    know_sums
    ! is_built_of_sources "$program" "$program_sum" \
        || exec "$top/tests/run" --program "$program" "$@"
    [ $# -eq 0 ] || needed=$("$top/tests/run" --needs-program --program "$unproved" "$@") || exit
    [ "$needed" = yes ] || exec "$top/tests/run" --program "$unproved" "$@"
    echo "irv: the program is not built of these sources: the tests run over the unproved build" >&2
    is_built_of_sources "$unproved" "$unproved_sum" || {
        need rt
        trap end_maker EXIT
        make_beside
        after=(--after "/dev/fd/$made")
    }
    run_alone "$top/tests/run" --program "$unproved" ${after[@]+"${after[@]}"} "$@"
    status=$?
    [ "$status" -ne "$none" ] \
        || no_answer "the unproved build is not made: its lines above have the cause"
    echo "irv: nothing is proved by this: the tests ran over the unproved build" >&2
    exit "$status"
}
