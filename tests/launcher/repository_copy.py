"""A small copy of the repository with a fake toolchain and fake tools."""

import os
import shutil
import subprocess
import sys
import tempfile
import time
from pathlib import Path
from typing import Callable, Iterable

from irvtools.paths import TOP
from tests.support.harness import Test

RT = r"""#!/usr/bin/env bash
top=@TOP@
name=$(basename "$PWD")
case $1 in
    version) echo "rattle-kit-pretended"; exit ;;
    doc) echo "$top/kit/START-HERE.md"; exit ;;
esac
[ "$1" = ci ] && name=$(cut -d : -f 1 crates.txt | grep -v '^#' | tr '\n' ' ')
echo "$name: $1" >> "$top/calls"
case $1 in
    ci)
        [ ! -e "$top/look" ] || find . -type f | LC_ALL=C sort > "$top/seen"
        # the real one moves the directories out/ away
        rm -rf crates/*/out
        for crate in $name; do
            [ ! -e "$top/slow" ] || sleep 0.5
            printf '== %s\nits proof\n' "$crate"
            if [ -e "$top/unproved" ] && [ "$(cat "$top/unproved")" = "$crate" ]; then
                echo "rt: $crate NOT PROVED"
                # goes on until that has been printed
                for _ in $(seq 3000); do
                    [ ! -e "$top/patient" ] || [ -e "$top/shown" ] && break
                    sleep 0.1
                done
                exit 1
            fi
            echo "rt: $crate proved"
        done
        [ ! -e "$top/otherwise" ] || { echo "rt: irv wrote something else"; exit 1; }
        [ ! -e "$top/edit" ] || echo "// edited" >> "$top/crates/irv/src/main.rt"
        mkdir -p crates/irv/out
        cp "$top/program" crates/irv/out/irv ;;
    try)
        [ -e "$top/broken" ] && { echo "error: no such word" >&2; exit 1; }
        [ ! -e "$top/endless" ] || { echo $$ > "$top/building"; exec sleep 300; }
        for _ in $(seq 3000); do
            [ ! -e "$top/waits" ] || grep -q begun "$top/calls" && break
            sleep 0.1
        done
        [ ! -e "$top/edit" ] || echo "// edited" >> src/main.rt
        clang=$(cd "$(dirname "$0")/.." && pwd)/toolchain/bin/clang
        if [ -x "$clang" ]; then
            work=$(mktemp -d "$top/work.XXXXXX")
            echo "a module" > "$work/module.bc"
            (cd "$work" && "$clang" --target=here --sysroot=there -Werror -c -x ir module.bc \
                -o module.o -fPIE -O0 -fsanitize=address) || exit 1
            rm -r "$work"
        fi
        shift; echo "$@"; cat; echo "irv: read fault" >&2
        echo "interpreter: no-answer: the run did not finish within 1 step" >&2
        echo "checked: ended status=8" >&2
        printf 'run=ended status=8 runners=1 proved=no' >&2
        exit 8 ;;
esac
"""

# the fake toolchain's compiler: prints the module as text, and compiles one with or without checks
CLANG = r"""#!/usr/bin/env bash
while [ $# -gt 0 ]; do
    case $1 in
        -S) as_text=1 ;;
        -O1) is_fast=1 ;;
        -fsanitize=address) is_checked=1 ;;
        -Werror) is_strict=1 ;;
        -o) made=$2 ;;
        *.bc | *.ll) given=$1 ;;
    esac
    shift
done
if [ -n "${as_text-}" ]; then
    cat >"$made" <<'TEXT'
define i8 @"a::b"(i8 %a0) #0 {
start:
  call void @"rattle-llvm-checks::Value"(i8 %a0)
  call void @llvm.trap()
  ret i8 %a0
}
define internal void @"rattle-llvm-checks::Value"(i8 %a0) #1 {
start:
  %r0 = icmp ne i8 %a0, 0
  br i1 %r0, label %true, label %false
true:
  ret void
false:
  call void @llvm.trap()
  unreachable
}
attributes #0 = { nounwind sanitize_address "frame-pointer"="all" "target-cpu"="x86-64" }
attributes #1 = { sanitize_address "frame-pointer"="all" }
TEXT
elif [ -n "${is_checked-}" ]; then
    touch "$made"
else
    [ -n "${is_fast-}" ] && [ -z "${is_strict-}" ] && [ ! -e @TOP@/unmade ] && cp "$given" "$made"
fi
"""

UNCHECKED = r"""define i8 @"a::b"(i8 %a0) #0 {
start:
  call void @"rattle-llvm-checks::Value"(i8 %a0)
  call void @llvm.trap()
  ret i8 %a0
}
define internal void @"rattle-llvm-checks::Value"(i8 %a0) #1 {
start:
  ret void
}
attributes #0 = { nounwind nounwind "target-cpu"="x86-64-v2" }
attributes #1 = { nounwind }
"""

LINK = r"""#!/usr/bin/env bash
while [ "$1" != -o ]; do shift; done
cp "$3" @TOP@/linked
printf '%s\n' '#!/usr/bin/env bash' 'echo "unproved $*"; cat; exit 6' >"$2"
chmod +x "$2"
"""

PROGRAM = r"""#!/usr/bin/env bash
here=$(cd "$(dirname "$0")/../../.." && pwd)
if [ -e "$here/ends" ] && [ $# -gt 0 ]; then
    read -r status <"$here/ends"
    echo "irv: its own line" >&2
    exit "$status"
fi
case ${1-} in
    "") exit 7 ;;
    killed) kill -s KILL $$ ;;
    slow) touch "$0.begun"; sleep 4 ;;
    fault) sleep 4; echo "irv: read fault" >&2; exit 8 ;;
esac
echo "$@"; cat; exit 6
"""

SLOW_CAT = r"""#!/usr/bin/env bash
sleep 0.5
PATH=/bin:/usr/bin exec cat "$@"
"""

# a fake tool
TOOL = r"""#!/usr/bin/env bash
echo "$(basename "$0"): $*" >> "$(dirname "$0")/../calls"
exit 3
"""

# the fake test runner: the tests `lint` need no program, and there is no test `none`
RUN = r"""#!/usr/bin/env bash
top=$(cd "$(dirname "$0")/.." && pwd)
case " $* " in
    *" none "*) echo "tests/run: no test is called none" >&2; exit 2 ;;
    *" --needs-program "*" lint "*) echo no; exit ;;
    *" --needs-program "*) echo yes; exit ;;
esac
words=()
while [ $# -gt 0 ]; do
    [ "$1" = --after ] && { after=$2; shift 2; } || { words+=("$1"); shift; }
done
[ -e "$top/out/unproved/irv-unproved.built" ] && built=" after the build"
echo "begun${built-}" >> "$top/calls"
[ ! -e "$top/endless" ] || { echo $$ > "$top/testing"; exec sleep 300; }
[ -z "${after-}" ] || said=$(cat "$after")
echo "run: ${words[*]}" >> "$top/calls"
[ "${said-0}" = 0 ] || exit 125
exit 3
"""

# commands that the launcher and the fake toolchain may call
COMMANDS = ("basename bash cat chmod cmp cp cut date df dirname env find flock git grep head iconv"
            " install ls mkdir mktemp mv nice python3 readlink rm rt sed seq setpriv sha256sum"
            " sleep sort tail touch tr xargs").split()

CRATES = """# a crate, and its dependencies
aside: low
beside: low
high: low middle
irv: beside high serde_json
low:
middle: low
"""

# the tools by the launcher options that call them
TOOLS = {"--html": "html", "--simulate": "simulate", "--csv": "csv", "--batch": "batch",
         "--package": "package", "--verify-package": "verify_package", "--import": "import",
         "--sumo": "sumo", "--search": "search", "--release": "release", "--explain": "explain"}
# the launcher's own part of tools/, which is copied
COPIED = ("launcher", "irvtools/launcher", "irvtools/__init__.py", "irvtools/paths.py",
          "irvtools/calls/__init__.py", "irvtools/calls/interruption.py",
          "irvtools/mutants/__init__.py", "irvtools/mutants/crates.py", "progress.py",
          "prove_program.py", "crate_seconds.txt")


def lay_out(top):
    """Writes the copy."""
    for name in ("aside", "beside", "high", "irv", "low", "middle"):
        (top / "crates" / name / "src").mkdir(parents=True)
        (top / "crates" / name / "src/main.rt").write_text("")
    (top / "VERSION").write_text("1.2.3\n")
    (top / "HANDLES").write_text("Handles allowed: none.\n")
    (top / "crates.txt").write_text(CRATES)
    shutil.copy(TOP / "irv", top / "irv")
    for name in COPIED:
        copy(TOP / "tools" / name, top / "tools" / name)
    write_scripts(top, {"bin/rt": RT, "program": PROGRAM, "slow-cat": SLOW_CAT, "tests/run": RUN,
                        **{f"tools/{name}": TOOL for name in TOOLS.values()}})


def copy(source, target):
    """Copies a file or a directory."""
    target.parent.mkdir(parents=True, exist_ok=True)
    if source.is_dir():
        shutil.copytree(source, target, ignore=shutil.ignore_patterns("__pycache__"))
    else:
        shutil.copy(source, target)


def write_scripts(top, scripts):
    """Writes scripts to their places in the copy."""
    for place, text in scripts.items():
        path = top / place
        path.parent.mkdir(parents=True, exist_ok=True)
        path.write_text(text.replace("@TOP@", str(top)))
        path.chmod(0o755)


def give_kit(top):
    """Gives the fake toolchain what the faster unproved build needs."""
    write_scripts(top, {"kit/bin/rt": RT, "kit/bin/rtlib.py": "", "kit/bin/rattle-link": LINK,
                        "kit/toolchain/bin/clang": CLANG, "kit/c/libos_c.a": "",
                        "kit/c/liblibc_c.a": ""})


def environment(top):
    """Returns an environment with the fake `rt` and with temporary files in the copy."""
    return dict(os.environ, PATH=f"{top}/bin:{os.environ['PATH']}", TERM="xterm", TMPDIR=str(top))


def call(top, *words, data=b"", path=None):
    """Calls the copy's launcher. Returns standard output, standard error, the status and the calls
    of fake commands."""
    calls = top / "calls"
    calls.write_text("")
    given = environment(top) if path is None else dict(os.environ, PATH=str(path))
    done = subprocess.run([top / "irv", *words], cwd=top, env=given, input=data,
                          stdout=subprocess.PIPE, stderr=subprocess.PIPE)
    return done.stdout, done.stderr, done.returncode, calls.read_text().splitlines()


def path_without(top, *names):
    """Returns a directory with all commands that the launcher may call, except `names`."""
    directory = top / f"path-without-{'-'.join(names)}"
    directory.mkdir()
    for name in COMMANDS:
        if name not in names:
            (directory / name).symlink_to(top / "bin/rt" if name == "rt" else shutil.which(name))
    return directory


def comes_to_be(holds):
    """Waits up to five minutes until `holds` is true. Returns whether it is."""
    for _ in range(3000):
        if holds():
            return True
        time.sleep(0.1)
    return False


def copy_tests(name: str, trials: Iterable[Callable[[Path], object]]) -> type:
    """Returns a test case class with a method per function, which takes the directory of a new copy
    and returns whether its docstring holds."""
    def method(trial):
        def test(self):
            with tempfile.TemporaryDirectory(prefix="irv-launcher-") as directory:
                lay_out(Path(directory))
                self.assertTrue(trial(Path(directory)), trial.__doc__)
        test.__doc__ = trial.__doc__
        return test

    methods = {"test_" + trial.__name__: method(trial) for trial in trials}
    return type(name, (Test,), {**methods, "__module__": sys._getframe(1).f_globals["__name__"]})
