# Answers by an unproved build, and makes it for the tests.
#
# `rt try` compiles such a build quickly; it is slow, and checks each operation at run time. During
# the first answer, a faster build is made from it in the background. Only `--unproved` and `--test`
# know its cache. It is made elsewhere, since it needs a toolchain of links, and `rt ci` refuses a
# repository with a link.
#
# shellcheck disable=SC2034,SC2154     # shared variables

# the lock for making the build, and the output meanwhile
turn=$top/out/making.turn
log=$top/out/making.log

say_unproved() {
    echo "irv: this answer is by an unproved build" >&2
}

# Waits until no other call makes the build; returns whether this one may.
take_turn() {
    mkdir -p "$top/out" 2>/dev/null && { exec {turns}>"$turn"; } 2>/dev/null || return
    flock -n "$turns" && return
    echo "irv: waiting for another call, which makes the unproved build" >&2
    run_shown flock "$turns"
}

# Calls the module that makes the faster build.
make_with() {
    PYTHONPATH=$top/tools python3 -m irvtools.launcher.unproved_build "$@"
}

# Sets `making` to a new directory, and `rt` to a toolchain's `rt` that keeps the faster build's
# parts there. With `watch` it also answers, with `stop` it does not.
prepare_faster() {
    making=$(mktemp -d "${TMPDIR:-/tmp}/irv-making.XXXXXX") || return
    trap 'rm -rf "$making"' EXIT
    rt=$(make_with "$1" "$making")
}

# Makes the faster build in the directory `making`, and caches it. `${@:2}` are put before the
# command.
make_faster() {
    (
        trap 'rm -rf "$making"' EXIT
        cd "$making" && "${@:2}" env PYTHONPATH="$top/tools" \
            python3 -m irvtools.launcher.unproved_build build "$making" \
            && mkdir -p "${unproved%/*}" && cp irv "$unproved.$$" && mv "$unproved.$$" "$unproved" \
            && note_built "$unproved" "$1"
    ) </dev/null >"$log" 2>&1
}

# Makes the faster build in the background; it goes on after this call.
make_behind() {
    echo "irv: a faster unproved build is made in the background, and cached for --unproved" >&2
    trap - EXIT
    (
        trap '' HUP INT QUIT
        make_faster "$1" nice -n 10
    ) &
}

# Runs arguments by the build of `rt try`, made by this `rt`. Standard error has the program's own
# lines, or everything if the program did not end. The toolchain's interpreter runs one step only:
# more would take longer than all else.
try_watched() {
    local printed status
    printed=$(mktemp) || no_answer "cannot make a file in ${TMPDIR:-/tmp}"
    # shellcheck disable=SC2016     # the inner shell expands them
    run_shown env -C "$top/crates/irv" \
        bash -c 'exec "${@:2}" 2>"$1"' bash "$printed" "$1" try --steps 1 -- "${@:2}"
    status=$(sed -n '$s/^run=ended status=\([0-9]*\) .*/\1/p' "$printed")
    if [ -n "$status" ]; then
        grep -v -e '^interpreter: no-answer: ' -e '^checked: ended ' -e '^run=ended ' "$printed" >&2
    else
        cat "$printed" >&2
    fi
    rm -f "$printed"
    return "${status:-$none}"
}

# Runs a command of the unproved build.
answer_unproved() {
    local sources rt=rt status turns making=
    read_arguments "$@"
    guard_certificate
    know_sums
    is_built_of_sources "$unproved" "$unproved_sum" || {
        [ -z "$fault" ] || refuse_usage
        need rt python3
        ! take_turn || {
            know_sums
            is_built_of_sources "$unproved" "$unproved_sum" || prepare_faster watch 2>/dev/null \
                || rt=rt
        }
    }
    say_unproved
    announce_terminal "command $command"
    ! is_built_of_sources "$unproved" "$unproved_sum" || call "$unproved" "$@"
    sources=$sources_sum
    try_watched "$rt" ${words[@]+"${words[@]}"}
    status=$?
    explain "$status"
    [ ! -f "$making/module.bc" ] || [ "$(sum_of_sources)" != "$sources" ] || make_behind "$sources"
    exit "$status"
}

# Has `rt` compile the sources until the parts of the faster build are in `making`. If it fails, prints
# why.
compile_parts() {
    local printed status
    printed=$(mktemp) || no_answer "cannot make a file in ${TMPDIR:-/tmp}"
    # shellcheck disable=SC2016     # the inner shell expands them
    run_shown env -C "$top/crates/irv" \
        bash -c 'exec "${@:2}" >"$1" 2>&1' bash "$printed" "$rt" try --steps 1 -- make </dev/null
    status=$?
    [ -f "$making/module.bc" ] || [ "$status" -gt 128 ] || cat "$printed" >&2
    rm -f "$printed"
    [ "$status" -le 128 ] || exit "$status"
    [ -f "$making/module.bc" ]
}

# Waits for the unproved build; makes it unless it is of these sources.
ensure_unproved() {
    local sources rt turns making=
    need rt
    take_turn || no_answer "cannot write in $top/out, where the unproved build is cached"
    know_sums
    ! is_built_of_sources "$unproved" "$unproved_sum" || return 0
    echo "irv: making the unproved build: this takes a minute or two" >&2
    prepare_faster stop || no_answer "cannot make the unproved build with this toolchain"
    sources=$sources_sum
    compile_parts || no_answer "cannot compile the sources"
    make_faster "$sources" || no_answer "cannot make the unproved build: $log has the cause"
    trap - EXIT
    [ "$(sum_of_sources)" = "$sources" ] \
        || no_answer "sources were edited during the build: call again to build the new ones"
    exec {turns}>&-
}

# Makes the unproved build in the background, in a process group of its own. Sets `maker` to its
# number, and `made` to a descriptor whose text ends with the build: it is `0` if that is made.
make_beside() {
    local build_PID
    set -m
    coproc build {
        set +m
        TERM=dumb
        ensure_unproved </dev/null >&2
        echo 0
    }
    set +m
    maker=$build_PID
    # opened anew: the descriptor of a coprocess is closed for commands
    exec {made}<"/dev/fd/${build[0]}"
}

# Ends the unproved build in the background, if it is not made yet.
end_maker() {
    trap '' HUP INT QUIT TERM
    kill -- "-$maker" && wait "$maker"
} 2>/dev/null
