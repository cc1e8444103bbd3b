"""Tests of `--version` and `--install`."""

import hashlib
import re
import subprocess
import tempfile
from pathlib import Path

from tests.launcher.repository_copy import call, copy_tests, environment, lay_out, path_without


def names_what_is_missing(top):
    """Without `rt` or Python a build and a first call name it and end with status 125. A built
    program, help and version need neither."""
    calls = [("--build",), ("--unproved", "check"), ("check",), ("--html", "p.html"), ("--test",)]
    paths = {name: path_without(top, name) for name in ("rt", "python3")}
    for name, path in paths.items():
        for words in calls:
            output, errors, status, called = call(top, *words, path=path)
            line = f"irv: cannot find {name} on the path: README.md says how to install it"
            if (output, errors.decode().splitlines()[-1], status, called) != (b"", line, 125, []):
                return False
    call(top, "--build")
    bare = path_without(top, "rt", "python3")
    return (call(top, "check", data=b"in", path=bare) == (b"check\nin", b"", 6, [])
            and [call(top, word, path=bare)[2] for word in ("--help", "--version")] == [0, 0])


def prints_its_version(top):
    """`--version` prints the version, the commit, the toolchain and the sources' checksum, and the
    program's if it is built of these sources. It builds nothing."""
    def printed():
        output, errors, status, calls = call(top, "--version")
        lines = dict(line.split(" ", 1) for line in output.decode().splitlines())
        sources = lines.pop("sources")
        return (errors, status, calls), lines, re.fullmatch("sha256 [0-9a-f]{64}", sources), sources

    right = b"", 0, []
    first = printed()
    git = ["git", "-c", "user.name=n", "-c", "user.email=e", "-C", str(top)]
    for words in (["init", "-q"], ["add", "-A", "crates"], ["commit", "-q", "-m", "m"]):
        subprocess.run([*git, *words], check=True)
    commit = subprocess.run([*git, "rev-parse", "HEAD"], stdout=subprocess.PIPE, check=True).stdout
    call(top, "--build")
    second = printed()
    date = second[1].pop("built", "")
    (top / "crates/low/src/main.rt").write_text("// other")
    third = printed()
    program = hashlib.sha256((top / "crates/irv/out/irv").read_bytes()).hexdigest()
    wanted = {"irv": "1.2.3", "commit": "unknown", "toolchain": "rattle-kit-pretended",
              "program": "not built", "unproved": "not built"}
    commit = commit.decode().strip()
    return (first[:2] == (right, wanted) and first[2] and first[3] == second[3] != third[3]
            and re.fullmatch(r"and proved here on \d{4}-\d\d-\d\d \d\d:\d\d UTC", date)
            and second[:2] == (right, {**wanted, "commit": commit, "program": f"sha256 {program}"})
            and third[:2] == (right, {**wanted, "commit": f"{commit}, edited since",
                                      "program": "not built of these sources"}))


def fails_if_output_fails(top):
    """If the launcher cannot write its own output, it says so with status 125, without a build."""
    seen = []
    for words in (["--help"], ["--version"], ["check", "--help"], ["--html", "-h"]):
        (top / "calls").write_text("")
        with open("/dev/full", "wb") as full:
            done = subprocess.run([top / "irv", *words], cwd=top, env=environment(top), stdout=full,
                                  stderr=subprocess.PIPE, check=False)
        seen.append((done.returncode, b"irv: cannot write standard output" in done.stderr,
                     (top / "calls").read_text()))
    return seen == [(125, True, "")] * 4


def prints_no_other_commit(top):
    """In another repository's directory `--version` prints no commit: it is not of these sources."""
    outer = top / "outer"
    outer.mkdir()
    (outer / "file").write_text("")
    git = ["git", "-c", "user.name=n", "-c", "user.email=e", "-C", str(outer)]
    for words in (["init", "-q"], ["add", "file"], ["commit", "-q", "-m", "m"]):
        subprocess.run([*git, *words], check=True)
    inner = outer / "inner"
    inner.mkdir()
    lay_out(inner)
    return b"\ncommit unknown\n" in call(inner, "--version")[0]


def give_licences(top):
    """Gives the fake toolchain libraries, of which two in the program have a licence."""
    for name, needs in (("serde_json", "json"), ("json", "std"), ("std", ""), ("clap", "")):
        (top / f"kit/rlibs/{name}.rlib").mkdir(parents=True)
        (top / f"kit/rlibs/{name}.rlib/format").write_text(f"crate {name}\ndep {needs}\n")
        (top / f"kit/rattle/{name}").mkdir(parents=True)
        if name != "std":
            (top / f"kit/rattle/{name}/LICENSE-MIT").write_text(f"licence of {name}\n")


def installs(top):
    """`--install` copies the program, which then runs alone, with the licences of its libraries and
    their dependencies. A second call, even without `rt`, makes the same bytes."""
    give_licences(top)
    with tempfile.TemporaryDirectory(prefix="irv-installed-") as elsewhere:
        place = Path(elsewhere) / "new/bin"
        answer = call(top, "--install", place)
        files = sorted(path.name for path in place.iterdir())
        before = [(place / name).read_bytes() for name in files]
        again = call(top, "--install", place)
        licences = (place / "irv.licences").read_text()
        done = subprocess.run([place / "irv", "check"], cwd=elsewhere, input=b"in",
                              env={"PATH": "/bin:/usr/bin"}, stdout=subprocess.PIPE, check=False)
        bare = call(top, "--install", place / "bare", path=path_without(top, "rt"))
        same = all([(folder / name).read_bytes() for name in files] == before
                   for folder in (place, place / "bare"))
    return (answer[::2] == (b"", 0) and again[::2] == (b"", 0) and same
            and files == ["irv", "irv.1", "irv.bash", "irv.licences", "irv.version"]
            and re.findall("licence of (.*)", licences) == ["json", "serde_json"]
            and licences.endswith("without a licence file: std\n")
            and (done.stdout, done.returncode) == (b"check\nin", 6) and bare == (b"", b"", 0, []))


def installs_its_version(top):
    """The installed version file has the checksums of sources and program, and no date."""
    give_licences(top)
    call(top, "--install", top / "there")
    printed = call(top, "--version")[0].decode().splitlines()
    lines = (top / "there/irv.version").read_text().splitlines()
    total = hashlib.sha256((top / "there/irv").read_bytes()).hexdigest()
    return (lines == [line for line in printed if not line.startswith(("built ", "unproved "))]
            and f"program sha256 {total}" in lines and len(lines) == 5)


def names_missing_licences(top):
    """If the toolchain's libraries are missing, `--install` says so with status 125, and copies
    nothing."""
    output, errors, status, _ = call(top, "--install", top / "there")
    return ((output, status) == (b"", 125) and not (top / "there").exists()
            and b"irv: cannot find the licences of the toolchain's libraries: " in errors)


def refuses_wrong_counts(top):
    """With too few or too many arguments, `--install`, `--build` and `--version` print a usage line
    with status 125, and build nothing."""
    cases = {("--install",): "./irv --install DIRECTORY",
             ("--install", "a", "b"): "./irv --install DIRECTORY",
             ("--build", "a"): "./irv --build", ("--version", "a"): "./irv --version"}
    give_licences(top)
    barred = call(top, "--install", top / "irv/below")
    return (all(call(top, *words) == (b"", f"irv: call it so: {line}\n".encode(), 125, [])
                for words, line in cases.items())
            and (barred[0], barred[2]) == (b"", 125)
            and b"\nirv: cannot install the program in " in barred[1])


VersionInstallTests = copy_tests("VersionInstallTests", (
    names_what_is_missing, prints_its_version, fails_if_output_fails, prints_no_other_commit,
    installs, installs_its_version, names_missing_licences, refuses_wrong_counts))
