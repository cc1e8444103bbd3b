"""The script that repeats a package's answers and reports differences. It needs the package, a
program, bash, the standard Linux tools, and Python 3 for the checkers."""

from __future__ import annotations

from pathlib import Path

from irvtools.package.recorded_calls import Call

SCRIPT = r"""#!/usr/bin/env bash
# Makes each answer of this package again, and reports what differs.
#
#     ./repeat.sh [PROGRAM]     by PROGRAM, or by the one in program/
#
# It changes nothing here. Each difference is a line that begins with `differs`. What cannot be
# asked on this machine is a line that begins with `left out`. The last line counts. The status is
# 0 if all was asked and is the same, 1 if something differs, and 2 if something was left out and
# the rest is the same.
#
# Not made again are the pages, the output of a solver, and the random search. The program checks
# the refutations and the run that these gave. All files are compared with their checksums.
set -u
unset CDPATH
export LC_ALL=C PYTHONDONTWRITEBYTECODE=1
program=${1:-}
[ -z "$program" ] || program=$(realpath -- "$program")
cd -- "$(dirname -- "${BASH_SOURCE[0]}")" || exit 2
[ -n "$program" ] || program=$PWD/program/irv
room=$(mktemp -d) || exit 2
trap 'rm -rf "$room"' EXIT
same=0 differ=0 left=0

is_same() { same=$((same + 1)); }
differs() { differ=$((differ + 1)); echo "differs: $1"; }

# compares each file with its checksum, and looks for other files
check_sums() {
    local line
    while read -r line; do
        differs "$line"
    done < <(sha256sum -c --quiet SHA256SUMS 2>/dev/null)
    # the command above ignores a line that is no checksum
    sha256sum -c --strict --status SHA256SUMS 2>/dev/null || [ "$differ" -ne 0 ] \
        || differs SHA256SUMS
    while read -r line; do
        differs "the list of files: $line"
    done < <(diff <(cut -c 67- SHA256SUMS | sort) \
        <(find . ! -type d ! -path ./SHA256SUMS | cut -c 3- | sort) | grep '^[<>]')
    [ "$differ" -ne 0 ] || is_same
}

# compares the checksum of the program: SUM
check_program() {
    if [ "$(sha256sum 2>/dev/null <"$program" | cut -d ' ' -f 1)" = "$1" ]; then
        is_same
    else
        differs "the program: its sha256 is not $1"
    fi
}

# makes an answer again: NAME STATUS WORDS..
again() {
    local status
    if [ "$3" = python3 ] && ! command -v python3 >/dev/null; then
        left=$((left + 1))
        echo "left out: $1, because python3 is not on the path"
        return
    fi
    "${@:3}" <configuration.json >"$room/out" 2>"$room/err"
    status=$?
    if [ "$status" != "$2" ]; then
        differs "$1: status $status instead of $2"
    elif ! cmp -s "$room/out" "answers/$1.txt"; then
        differs "$1: its answer is now: $(head -n 1 "$room/out" | cut -c 1-200)"
    else
        is_same
    fi
}

# compares what was written again with what is here: FILE, or a directory
made() {
    if diff -r "$room/$1" "$1" >/dev/null 2>&1; then
        is_same
    else
        differs "$1: another one is written now"
    fi
}

# compares a run in an answer with the one that is here: NAME FILE FIRST_LINE
run_of() {
    if tail -n "+$3" "answers/$1.txt" | cmp -s - "$2"; then
        is_same
    else
        differs "$2: it is not the run in answers/$1.txt"
    fi
}

check_sums
check_program @SUM@
@CALLS@
echo "$same the same, $differ differ, $left left out"
[ "$differ" -eq 0 ] || exit 1
[ "$left" -eq 0 ] || exit 2
"""


def repeat_script(room: Path, calls: list[Call], version: list[str]) -> str:
    """Returns a package's script."""
    lines = []
    for call in calls:
        if call.is_repeated:
            lines.append(f"again {call.name} {call.status} {call.again}")
            lines += [f"made {name}" for name in call.made if (room / name).exists()]
    for name, file, first in (("verify", "verify.run", 2), ("search", "search.run", 1)):
        if (room / file).exists():
            lines.append(f"run_of {name} {file} {first}")
    total = next(line for line in version if line.startswith("program ")).split()[-1]
    return SCRIPT.replace("@SUM@", total).replace("@CALLS@", "\n".join(lines))
