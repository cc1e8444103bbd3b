# The checksums of the program's sources, the program and the unproved build. They are cached with
# each file's name, length, inode, rights and times. If any of these differs, all files are read
# again.
#
# shellcheck disable=SC2034,SC2154     # shared variables

# the cache: the crates, the three checksums, and a line for each file
cache=$top/out/checksums

# Prints the lines of crates.txt for `irv` and its dependencies.
lines_of_program() {
    local -A lower_of=() seen=()
    local name rest lower left=(irv)
    while IFS=: read -r name rest; do
        [[ -z $name || $name = "#"* ]] || lower_of[$name]=$rest
    done <"$top/crates.txt"
    while [ "${#left[@]}" -gt 0 ]; do
        name=${left[0]} left=("${left[@]:1}")
        [[ -n ${lower_of[$name]+listed} && -z ${seen[$name]+seen} ]] || continue
        seen[$name]=1
        read -r -a lower <<<"${lower_of[$name]}"
        left+=(${lower[@]+"${lower[@]}"})
    done
    for name in "${!seen[@]}"; do
        echo "$name:${lower_of[$name]}"
    done | LC_ALL=C sort
}

# Prints the checksum of the program's sources: of those lines and crates.
sum_of_sources() {
    (
        set -o pipefail
        cd "$top" || exit
        lines=$(lines_of_program) && [ -n "$lines" ] || exit
        directories=()
        while IFS=: read -r name _; do
            for part in src specs proofs; do
                [ ! -d "crates/$name/$part" ] || directories+=("crates/$name/$part")
            done
        done <<<"$lines"
        {
            echo "$lines"
            find "${directories[@]}" -type f -print0 | LC_ALL=C sort -z | xargs -0 sha256sum
        } | sha256sum | cut -d ' ' -f 1
    ) || no_answer "cannot read crates.txt or the program's sources in crates/"
}

# Prints the checksum of a program; nothing if it does not exist.
sum_of_program() {
    [ ! -x "$1" ] || sha256sum <"$1" | cut -d ' ' -f 1
}

# Runs `find` on each file of the checksums, if these crates are the program's.
find_files_of() {
    local name places=("$top/crates.txt" "$program" "$unproved")
    for name in $1; do
        places+=("$top/crates/$name/"{src,specs,proofs})
    done
    find "${places[@]}" -type f "${@:2}" 2>/dev/null
}

# Prints the cache for unchanged files.
expected_cache() {
    printf '%s\n' "$crates" "$sources_sum" "$program_sum" "$unproved_sum"
    find_files_of "$crates" -printf '%p %s %i %T@ %C@ %m\n'
}

# Sets `sources_sum`, `program_sum` and `unproved_sum`, from the cache if it is valid. If a file
# changed within the last second, nothing is cached: it may change again with the same times.
know_sums() {
    local crates='' seen
    sources_sum='' program_sum='' unproved_sum=''
    [ ! -f "$cache" ] || {
        {
            read -r crates && read -r sources_sum && read -r program_sum && read -r unproved_sum
        } <"$cache"
        ! expected_cache | cmp -s - "$cache" || return 0
    }
    crates=$(lines_of_program | cut -d : -f 1 | tr '\n' ' ')
    crates=${crates% }
    seen=$(find_files_of "$crates" -printf '%p %s %i %T@ %C@ %m\n')
    if [ -n "$(find_files_of "$crates" \( -newermt '1 second ago' -o -newerct '1 second ago' \) \
        -print -quit)" ]; then
        seen=
    fi
    sources_sum=$(sum_of_sources) || exit
    program_sum=$(sum_of_program "$program")
    unproved_sum=$(sum_of_program "$unproved")
    [ -z "$seen" ] || keep_sums "$seen"
}

# Caches the checksums for the next call, if possible.
keep_sums() {
    {
        mkdir -p "$top/out"
        printf '%s\n' "$crates" "$sources_sum" "$program_sum" "$unproved_sum" "$1" >"$cache.$$" \
            && mv "$cache.$$" "$cache"
        rm -f "$cache.$$"
    } 2>/dev/null
}

# Returns whether the note beside a program says that it was built of these sources and has the
# checksum `$2`. Call `know_sums` first.
is_built_of_sources() {
    local sources sum
    [[ -x $1 && -f $1.built && -n $2 ]] || return
    { read -r sources && read -r sum; } <"$1.built"
    [ "$sources" = "sources $sources_sum" ] && [ "$sum" = "program $2" ]
}

# Notes that a program was built here and now of the sources with this checksum.
note_built() {
    local sum toolchain
    sum=$(sum_of_program "$1") && [ -n "$sum" ] && toolchain=$(rt version) || return
    printf '%s\n' "sources $2" "program $sum" "toolchain $toolchain" \
        "date $(date -u '+%Y-%m-%d %H:%M UTC')" >"$1.built.$$" && mv "$1.built.$$" "$1.built"
}

# Prints a key's value in the note beside a program.
noted() {
    sed -n "s/^$2 //p" "$1.built" 2>/dev/null
}
