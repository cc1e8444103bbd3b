# Prints the version, and installs the program.
#
# shellcheck disable=SC2034,SC2154     # shared variables

# Prints the state of a program: its checksum, or why it is not called.
state_of() {
    if is_built_of_sources "$1" "$2"; then
        echo "sha256 $2"
    elif [ -e "$1" ]; then
        echo "not built of these sources"
    else
        echo "not built"
    fi
}

# Prints the commit, unless the repository only contains this directory.
commit() {
    local commit
    commit=$(git -C "$top" rev-parse HEAD 2>/dev/null) \
        && [ -z "$(git -C "$top" rev-parse --show-prefix)" ] || commit=unknown
    [ "$commit" = unknown ] || git -C "$top" diff --quiet HEAD 2>/dev/null \
        || commit+=", edited since"
    echo "$commit"
}

# Prints the versions and checksums that all machines share. Call `know_sums` first.
print_sums() {
    local toolchain
    toolchain=$(rt version 2>/dev/null) || toolchain=unknown
    ! is_built_of_sources "$program" "$program_sum" || toolchain=$(noted "$program" toolchain)
    echo "irv $(cat "$top/VERSION")"
    echo "commit $(commit)"
    echo "toolchain $toolchain"
    echo "sources sha256 $sources_sum"
    echo "program $(state_of "$program" "$program_sum")"
}

version() {
    know_sums
    print_sums || return
    ! is_built_of_sources "$program" "$program_sum" \
        || echo "built and proved here on $(noted "$program" date)" || return
    echo "unproved $(state_of "$unproved" "$unproved_sum")"
}

# Prints the toolchain's libraries in the program: those that its crates name, and their
# dependencies.
libraries() {
    local kit=$1 name low left
    local -A seen=()
    mapfile -t left < <(lines_of_program | cut -d : -f 2 | tr ' ' '\n')
    left+=(std)
    while [ "${#left[@]}" -gt 0 ]; do
        name=${left[0]} left=("${left[@]:1}")
        [[ -n $name && -d $kit/rlibs/$name.rlib && -z ${seen[$name]+seen} ]] || continue
        seen[$name]=1
        while read -r word low; do
            [ "$word" != dep ] || left+=("$low")
        done <"$kit/rlibs/$name.rlib/format"
    done
    printf '%s\n' "${!seen[@]}" | LC_ALL=C sort
}

# Prints these libraries' licences in the toolchain, and at the end libraries without one.
licences() {
    local kit name file found without=
    kit=$(dirname "$(rt doc)")
    [ -d "$kit/rlibs" ] || return
    for name in $(libraries "$kit"); do
        found=$(find "$kit/rattle/$name" -maxdepth 1 -type f \
            \( -name 'LICENSE*' -o -name 'COPYING*' -o -name 'UNLICENSE*' -o -name 'NOTICE*' \) \
            | sort)
        [ -n "$found" ] || without+=" $name"
        for file in $found; do
            printf '\n==== %s: %s\n\n' "$name" "${file##*/}"
            cat "$file"
        done
    done
    printf '\n==== libraries of the toolchain that come without a licence file:%s\n' "$without"
}

# Puts the licences beside the new program, for an installation without `rt`.
keep_licences() {
    if licences >"$program.licences.$$"; then
        mv "$program.licences.$$" "$program.licences"
    else
        rm -f "$program.licences" "$program.licences.$$"
    fi
}

# Prints the manual page or the completions.
manual() {
    PYTHONPATH=$top/tools python3 -m irvtools.launcher.manual "$1"
}

# Installs the program in a directory, with licences, manual page, bash completions, and a version
# file, since the program does not print its version.
install_files() {
    mkdir -p -- "$1" && install -m 644 -- "$program.licences" "$1/irv.licences" \
        && manual page >"$1/irv.1" && manual completions >"$1/irv.bash" \
        && print_sums >"$1/irv.version" && install -m 755 -- "$program" "$1/irv"
}

install_program() {
    need python3
    know_sums
    [ -f "$program.licences" ] || { need rt && keep_licences; }
    [ -f "$program.licences" ] \
        || no_answer "cannot find the licences of the toolchain's libraries: does rt doc name it?"
    install_files "$1" \
        || no_answer "cannot install the program in $1: name a directory that you may write"
}
