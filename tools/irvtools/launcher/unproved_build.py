"""Makes an unproved build of the program that is nearly as fast as the proved one.

    python3 -m irvtools.launcher.unproved_build watch DIRECTORY
    python3 -m irvtools.launcher.unproved_build stop DIRECTORY
    python3 -m irvtools.launcher.unproved_build build DIRECTORY

`rt try` has clang compile the whole program without proof, as one module, and keeps nothing. `watch` makes DIRECTORY/kit, a toolchain of links to the one on the
path with a script in place of clang, and prints the `rt` to call. The script keeps clang's module
and arguments, and then calls clang. `stop` makes one whose `rt try` ends when the module is kept:
it has no answer, and takes half the time. `build` removes the checks from the module, optimises it,
and links it to DIRECTORY/irv.

It removes the sanitizer and the calls of `rattle-llvm-checks`, which end the program before an
undefined operation. So the build's answers are no evidence.

The exit status is 0 if it is made, 1 if the toolchain lacks an expected part, 2 if the arguments
are wrong.
"""

import argparse
import re
import shlex
import shutil
import subprocess
import sys
from pathlib import Path
from typing import Collection, Dict, Iterable, Iterator, List

SANITIZER = "-fsanitize=address"
LIBRARIES = ("libos_c.a", "liblibc_c.a")
CLANG = """#!/bin/sh
# keeps the program's module and the arguments of clang, and calls clang with them if it shall
case " $* " in *" {sanitizer} "*)
    for word in "$@"; do
        case $word in
            *.bc) cp "$word" {directory}/module.bc && printf '%s\\n' "$@" >{directory}/words ;;
        esac
    done
    {after} ;;
esac
exec {clang} "$@"
"""
# `rt try` also asks the prover for a hint on names, which costs as much as the build
NO_PROVER = """#!/bin/sh
exit 0
"""
CHECK = re.compile(rb'define internal void @"rattle-llvm-checks::\w+"\(')
SANITIZED = re.compile(rb' sanitize_address| "frame-pointer"="all"')


class UnexpectedToolchain(Exception):
    """The toolchain lacks a part; the message says which."""


def kit_on_path() -> Path:
    """Returns the directory of the toolchain."""
    printed = subprocess.run(["rt", "doc"], stdout=subprocess.PIPE, stderr=subprocess.DEVNULL,
                             text=True)
    kit = Path(printed.stdout.strip()).parent
    needed = ["bin/rt", "bin/rattle-link", "toolchain/bin/clang", *(f"c/{it}" for it in LIBRARIES)]
    for name in needed:
        if not (kit / name).is_file():
            raise UnexpectedToolchain(f"{kit / name} does not exist")
    return kit


def link_all(source: Path, target: Path, but: Collection[str]) -> None:
    """Makes a directory of links to another one's entries, except those in `but`."""
    target.mkdir()
    for entry in source.iterdir():
        if entry.name not in but:
            (target / entry.name).symlink_to(entry)


def linked_kit(directory: Path, scripts: Dict[str, str]) -> Path:
    """Makes DIRECTORY/kit, a toolchain of links with these scripts instead; returns its `rt`."""
    kit, ours = kit_on_path(), directory / "kit"
    # rt takes the parent of its directory for the toolchain, so its scripts are copied
    copied = [entry.name for entry in (kit / "bin").iterdir() if entry.name.startswith("rt")]
    link_all(kit, ours, ("bin", "toolchain"))
    link_all(kit / "bin", ours / "bin", [*copied, *(Path(name).name for name in scripts)])
    link_all(kit / "toolchain", ours / "toolchain", ("bin",))
    link_all(kit / "toolchain/bin", ours / "toolchain/bin", [Path(name).name for name in scripts])
    for name in copied:
        shutil.copy(kit / "bin" / name, ours / "bin" / name)
    for name, text in scripts.items():
        (ours / name).write_text(text)
        (ours / name).chmod(0o755)
    return ours / "bin/rt"


def without_prover(directory: Path) -> Path:
    """Makes a toolchain whose `rt try` does not ask the prover for hints; returns its `rt`."""
    return linked_kit(directory, {"bin/rattle": NO_PROVER})


def watch(directory: Path, is_stopped: bool) -> Path:
    """Makes the toolchain that keeps the module, and stops then if asked to; returns its `rt`."""
    clang = shlex.quote(str(kit_on_path() / "toolchain/bin/clang"))
    script = CLANG.format(sanitizer=SANITIZER, directory=shlex.quote(str(directory)), clang=clang,
                          after="exit 1" if is_stopped else ":")
    return linked_kit(directory, {"toolchain/bin/clang": script,
                                  **({"bin/rattle": NO_PROVER} if is_stopped else {})})


def unchecked(lines: Iterable[bytes]) -> Iterator[bytes]:
    """Yields a module's lines without sanitizer, and with checks that all pass."""
    is_check = False
    for line in lines:
        if CHECK.match(line):
            is_check = True
            yield line + b"start:\n  ret void\n}\n"
        elif line.startswith(b"attributes #"):
            line = SANITIZED.sub(b"", line).replace(b"{ ", b"{ nounwind ", 1)
            yield line.replace(b'"target-cpu"="x86-64"', b'"target-cpu"="x86-64-v2"')
        elif not is_check:
            yield line
        is_check = is_check and line != b"}\n"


def compile_words(words: List[str], source: Path, made: Path) -> List[str]:
    """Returns clang's arguments for the optimised program, from those for the checked one.

    A program by `-O3` is no faster, and takes clang half a minute more."""
    changed = {"module.bc": str(source), "module.o": str(made), "-O0": "-O1"}
    return [changed.get(word, word) for word in words if word not in (SANITIZER, "-Werror")]


def build(directory: Path) -> None:
    """Makes the program from the kept module."""
    kit = kit_on_path()
    clang, words = kit / "toolchain/bin/clang", (directory / "words").read_text().splitlines()
    text, less = directory / "module.ll", directory / "unchecked.ll"
    target = [word for word in words if word.startswith(("--target=", "--sysroot="))]
    subprocess.run([clang, *target, "--no-default-config", "-S", "-emit-llvm", "-Xclang",
                    "-disable-llvm-passes", "-x", "ir", directory / "module.bc", "-o", text],
                   check=True)
    with open(text, "rb") as lines, open(less, "wb") as made:
        made.writelines(unchecked(lines))
    text.unlink()
    subprocess.run([clang, *compile_words(words, less, directory / "module.o")], check=True)
    subprocess.run([kit / "bin/rattle-link", "--target", target[0].partition("=")[2],
                    "--toolchain", kit / "toolchain", "-o", directory / "irv",
                    directory / "module.o", *(kit / "c" / it for it in LIBRARIES)], check=True)


def main() -> int:
    """Runs the command line; returns the exit status."""
    parser = argparse.ArgumentParser(prog="unproved_build", description=__doc__,
                                     formatter_class=argparse.RawDescriptionHelpFormatter)
    parser.add_argument("step", choices=("watch", "stop", "build"), help="which of the three is done")
    parser.add_argument("directory", type=Path, help="an existing directory for what is made")
    asked = parser.parse_args()
    directory = asked.directory.absolute()
    try:
        if asked.step == "build":
            build(directory)
        else:
            print(watch(directory, asked.step == "stop"))
    except (UnexpectedToolchain, OSError, subprocess.CalledProcessError) as fault:
        print(f"unproved_build: {fault}", file=sys.stderr)
        return 1
    return 0


if __name__ == "__main__":
    sys.exit(main())
