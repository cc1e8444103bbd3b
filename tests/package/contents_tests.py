"""Tests of packages: their result and parts, and the findings of repetition."""

import html
import re
import subprocess
import sys

from irvtools.calls import provenance
from tests.support import markup_check
from tests.support.harness import test_case
from tests.support.package_calls import (
    INDEX, TOP, changed, differing, example, flip, made, renew_sums, repeat, text_of_page,
)

# two trains meet in a plant of two sections without routes, with a border without a board
MEET = TOP / "examples/two-trains-meet.run"
CROSSING = TOP / "examples/station-crossing.scene"
# files in which repeat.sh finds a change even with new checksums
ANSWERS = ("configuration.json", "verify.cert", "program/irv", "answers/verify.txt", "answers/audit-outside.txt")


def faults_of_form(directory):
    """Yields missing parts of every package: checksums of all files, links with targets,
    assumptions, application conditions, and repeatable answers."""
    named = [line[66:] for line in (directory / "SHA256SUMS").read_text().splitlines()]
    here = sorted(path.relative_to(directory).as_posix() for path in directory.rglob("*")
                  if path.is_file() and path.name != "SHA256SUMS")
    if named != here:
        yield f"the checksums are of {named}, and the files are {here}"
    page = (directory / INDEX).read_text(encoding="utf-8")
    yield from (fault for fault in markup_check.faults(page)
                if not re.match(r"an element (a|br) |href=[a-z]", fault))
    yield from (f"{target} does not exist" for target in re.findall(r'href="([^"]+)"', page)
                if not (directory / target).is_file())
    wanted = [it.name for kind in ("AS", "SRAC") for it in provenance.items(kind)]
    yield from (f"{INDEX} has no {word!r}" for word in wanted if f">{word}<" not in html.unescape(page))
    report = (directory / "report.html").read_text(encoding="utf-8")
    if str(directory.parent) in page + report:
        yield "a page has the place where the package was made"
    if not re.search(r"\(status [0-9]+\)", report) or re.search(r"[0-9] s\)", report):
        yield "report.html has no answers, or says how long they took"
    lines, status = repeat(directory)
    if status or not lines[-1].endswith(" the same, 0 differ, 0 left out"):
        yield f"it is not repeated: {lines}"


def check_safe(program, _):
    """A safe table's package has the answers, the certificate and its checkers, and repeats without
    differences."""
    given = example("platforms.json")
    with made(program, given) as (directory, said):
        if said != "safe k=1":
            yield said
            return
        yield from faults_of_form(directory)
        if (directory / "configuration.json").read_bytes() != given:
            yield "the configuration is not as it was read"
        wanted = {"check-strict": "clean\n", "verify": "safe k=1\n", "audit": "accepted k=1\n"}
        for name, answer in wanted.items():
            if (directory / f"answers/{name}.txt").read_text() != answer:
                yield f"{name} is not {answer!r}"
        if not (directory / "answers/audit-outside.txt").read_text().startswith("accepted: safe 1"):
            yield "tools/audit did not accept"
        queries = {"hazard-0", "breach-0", "hazard-1", "breach-1", "step-1"}
        if {path.stem for path in (directory / "lrat").iterdir()} != queries:
            yield "lrat does not have the five queries"
        for solver in (directory / "solvers").glob("*"):
            if {path.stem for path in solver.iterdir()} != queries:
                yield f"{solver.name} does not have the five queries"
        text = text_of_page(directory)
        if "<b>SAFE</b> No run of any length ends in a hazard" not in (directory / INDEX).read_text():
            yield f"{INDEX} does not begin with the verdict"
        if "None: the table breaks no rule." not in text or "not known to be proved" not in text \
                and "proved: the launcher" not in text:
            yield f"{INDEX} does not say that no rule is broken, or whether the program is proved"


def without_conflicts(value):
    """Removes the conflicts of all routes."""
    for route in value["routes"]:
        route["conflicts"] = []


def check_deviations(program, _):
    """For a table that breaks C6 fourteen times, without effect on safety, the package shows each
    break and why the table is safe."""
    given = changed(example("station.json"), without_conflicts)
    scene = ("--run", CROSSING, "--run", CROSSING, "--solver-seconds", "0")
    with made(program, given, *scene) as (directory, said):
        if said != "with deviations, under free columns: safe k=1":
            yield said
            return
        yield from faults_of_form(directory)
        page = (directory / INDEX).read_text(encoding="utf-8")
        rows = re.findall(r"<tr><td><code>refused C6 "
                          r"[^<]*</code></td><td>[^<]+</td><td>no</td><td>[^<]+</td>"
                          r"<td>By the certificate of irv verify", page)
        if len(rows) != 14:
            yield f"{len(rows)} deviations are shown of 14"
        if "<b>SAFE WITH DEVIATIONS: proved</b>" not in page:
            yield f"{INDEX} has another verdict"
        if (directory / "runs/2.scene").read_bytes() != CROSSING.read_bytes():
            yield "the second scenario is not kept"
        if not (directory / "answers/drive-2.txt").read_text().startswith("driven steps=54\n"):
            yield "the second scenario is not driven"


def check_deviations_alone(program, _):
    """A table that breaks only C6 is safe by that alone, even if verify gives up."""
    given = changed(example("station.json"), without_conflicts)
    with made(program, given, "--conflicts", "0", "--search-seconds", "0") as (directory, said):
        if said != "with deviations, and safe with them, without a certificate: spent conflicts=0":
            yield said
            return
        text = text_of_page(directory)
        for words in ("SAFE WITH DEVIATIONS: proved", "Only rules are broken on which safety does not depend",
                      "There is no certificate"):
            if words not in text:
                yield f"{INDEX} does not say {words!r}"


def check_unsafe(program, _):
    """An unsafe table's package shows the deviation, its effect on safety, and the run."""
    with made(program, example("platforms-wrong-position.json"), "--depth", "8") as (directory, said):
        if said != "with deviations, under free columns: not safe: hazard two pl1, by verify.run":
            yield said
            return
        yield from faults_of_form(directory)
        if not re.search(r"refused C3 "
                         r"routes\[1\]</code></td><td>[^<]+minus[^<]+</td><td>yes</td>.*?It is not "
                         r"safe: "
                         r"hazard two pl1", (directory / INDEX).read_text().replace("&#x27;", "'")):
            yield "the deviation is not shown with its run"
        if '"verdict bad"><b>HAZARD FOUND</b>' not in (directory / INDEX).read_text():
            yield f"{INDEX} has another verdict"
        if len((directory / "verify.run").read_text().splitlines()) != 10:
            yield "the run does not have seven events"
        other_run = (directory / "verify.run").read_text().replace("mark in2", "mark in1", 1)
        (directory / "verify.run").write_text(other_run)
        renew_sums(directory)
        if not any(it.startswith("verify.run: ") for it in differing(directory)):
            yield "another run is not found"


def check_not_shown(program, _):
    """If verify finds neither, and no run is sought, the package says that nothing is shown."""
    words = ("--search-seconds", "0", "--depth", "1")
    with made(program, example("platforms-wrong-position.json"), *words) as (directory, said):
        wanted = "with deviations, under free columns: not shown to be safe: not inductive "
        if not said.startswith(wanted):
            yield said
            return
        yield from faults_of_form(directory)
        if "It is not shown that the table is safe" not in text_of_page(directory):
            yield f"{INDEX} does not say that nothing is shown"
        if "<b>REFUSED</b>" not in (directory / INDEX).read_text():
            yield f"{INDEX} has another verdict"


def check_run_is_kept(program, _):
    """A given run is replayed, and its hazard is attributed to it, not to the search."""
    with made(program, example("two-sections.json"), "--run", MEET, "--search-seconds", "0", "--depth", "2") \
            as (directory, said):
        answer = (directory / "answers/replay-1.txt").read_text() if directory.exists() else ""
        if answer != "hazard two b\n" or not said.endswith("not safe: hazard two b, by runs/1.run"):
            yield f"{said}; {answer!r}"


def check_no_plant(program, _):
    """The package of a configuration without a plant says so, and checks only rules."""
    def twice(value):
        value["sections"].append(value["sections"][0])
    for given, rule in ((changed(example("platforms.json"), twice), "refused N1 sections["),
                        (b"[", "refused F2 document")):
        with made(program, given) as (directory, said):
            if not said.startswith(f"not a plant: {rule}"):
                yield said
                continue
            yield from faults_of_form(directory)
            if (directory / "answers/verify.txt").exists() or "this package shows nothing" not in text_of_page(directory):
                yield f"{rule}: something else is asked"


def check_changes(program, _):
    """repeat.sh finds each changed, missing and new file by checksum. With new checksums it still
    finds a changed configuration, certificate, answer or program."""
    with made(program, example("line-with-boards.json"), "--solver-seconds", "0") as (directory, said):
        if said != "safe k=1":
            yield said
            return
        for name in ANSWERS:
            yield from hidden(directory, name)
        (directory / "report.html").rename(directory / "kept")
        if not any("report.html" in it for it in differing(directory)):
            yield "a missing file is not found"
        (directory / "kept").rename(directory / "report.html")
        (directory / "new").write_text("new")
        if differing(directory) != ["the list of files: > new"]:
            yield "a new file is not found"
        (directory / "new").unlink()
        if differing(directory, sys.executable) == []:
            yield "another program is not found"


def hidden(directory, name):
    """Yields the undetected changes in one file."""
    file = directory / name
    kept, sums = file.read_bytes(), (directory / "SHA256SUMS").read_bytes()
    flip(file)
    sums_say = subprocess.run(["sha256sum", "-c", "--quiet", "SHA256SUMS"], cwd=directory, check=False,
                              capture_output=True).stdout.decode().splitlines()
    if f"{name}: FAILED" not in sums_say:
        yield f"the checksums do not find a change of {name}"
    renew_sums(directory)
    if not differing(directory):
        yield f"a change of {name} with new checksums is not found"
    file.write_bytes(kept)
    (directory / "SHA256SUMS").write_bytes(sums)


def check_moved(program, _):
    """A copied package can be repeated with a named program, and does not change."""
    with made(program, example("line-with-boards.json"), "--solver-seconds", "0") as (directory, _):
        copy = directory.parent / "a copy with spaces"
        subprocess.run(["cp", "-r", directory, copy], check=True)
        before = sorted((path.as_posix(), path.stat().st_mtime_ns) for path in copy.rglob("*"))
        lines, status = repeat(copy, program)
        if status or sorted((path.as_posix(), path.stat().st_mtime_ns) for path in copy.rglob("*")) != before:
            yield f"{status} {lines}, or the directory is not as it was"


def check_made_again(program, _):
    """A package made again elsewhere has the same bytes."""
    for name, words in (("platforms.json", ()), ("two-sections.json", ("--run", MEET, "--search-seconds", "0"))):
        with made(program, example(name), *words) as (one, _), made(program, example(name), *words) as (other, _):
            done = subprocess.run(["diff", "-rq", one, other], capture_output=True, check=False)
            if done.returncode or not (one / "SHA256SUMS").is_file():
                yield f"{name}: {done.stdout.decode()}{done.stderr.decode()}"


def check_about(program, _):
    """The page and the report have title, project, issue and author as text."""
    words = ("--title", "Line <A>", "--project", "P & Q", "--issue", "2", "--author", "M. \"X\"")
    with made(program, example("two-sections.json"), "--search-seconds", "0", *words) as (directory, _):
        text, page = text_of_page(directory), (directory / INDEX).read_text()
        yield from (f"no {word!r}" for word in ("Line <A>", "P & Q", "M. \"X\"") if word not in text)
        yield from ["markup"] if "<A>" in page else []
        report = html.unescape((directory / "report.html").read_text())
        yield from (f"the report has no {word!r}" for word in words[1::2] if word not in report)


ContentsTests = test_case("ContentsTests", (
    check_safe, check_deviations, check_deviations_alone, check_unsafe, check_not_shown, check_run_is_kept, check_no_plant,
    check_changes, check_moved, check_made_again, check_about,
))
