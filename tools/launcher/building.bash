# Proves and builds the program, and notes its sources.
#
# shellcheck disable=SC2034,SC2154     # shared variables

# Notes that the program was built of the sources with this checksum, and keeps the licences beside
# it.
note_proved() {
    keep_licences
    note_built "$program" "$1" || no_answer "cannot write $program.built"
}

build() {
    local sources
    need rt python3
    sources=$(sum_of_sources) || exit
    echo "irv: proving and building the program; from nothing this takes 40 minutes or more" >&2
    run_alone "$top/tools/prove_program.py" >&2 || no_answer "the program is not built"
    [ "$(sum_of_sources)" = "$sources" ] \
        || no_answer "sources were edited during the build: call again to build the new ones"
    note_proved "$sources"
}

# Builds the program, unless its note says that it was built of these sources.
ensure_built() {
    know_sums
    is_built_of_sources "$program" "$program_sum" || build
}
