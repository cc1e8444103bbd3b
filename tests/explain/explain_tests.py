"""Tests of `--explain`: each refusal gets sentences with its subject and place."""

import contextlib
import json
import os
import random
import re
import subprocess
import tempfile
from pathlib import Path

from irvtools.csvtables import writing
from irvtools.explain.json_places import Places
from irvtools.explain.sentences import command_of, file_of, sentences
from irvtools.explain.sources import CsvSource, JsonSource
from irvtools.model.disabled_events import DEMANDS
from irvtools.model.events import EVENTS
from irvtools.paths import TOP
from irvtools.rules import broken_rules, explain
from tests.cases import case_tests
from tests.explain.tool_calls import TOOL, run
from tests.support import program as programs
from tests.support.harness import test_case

TAKES_LONG = True

PLACE = re.compile(r"(sections|boards|routes)\[([0-9]+)\]")
REFUSAL = re.compile(rb"refused |rejected |not a run at ")
DOCUMENTED = re.compile(r"\b([FNRCG][1-8])\b")      # in the first two cells of a row
LONG = 1 << 20          # bytes of a file that is too slow to test in each case


def refused_cases():
    """Returns the cases of tests/cases with a refusal, a rejection or `not a run`."""
    return [case for cases in case_tests.cases_by_file().values() for case in cases
            if case.stdout is not None and REFUSAL.match(case.stdout) and case.conf is not None
            and not case.closed and case.words]


def told_of(program, case):
    """Returns the lines of a case's answer and their explanation."""
    with tempfile.TemporaryDirectory(prefix="irv-explain-") as room:
        case_tests.lay_out(program, case, Path(room))
        output = programs.call(program, case.words, case.conf, room)[0].decode()
        with contextlib.chdir(room) if hasattr(contextlib, "chdir") else inside(room):
            return output.splitlines(), sentences(program, case.words, JsonSource(case.conf), output)


@contextlib.contextmanager
def inside(room):
    """Makes a directory temporarily the current one."""
    before = os.getcwd()
    os.chdir(room)
    try:
        yield
    finally:
        os.chdir(before)


def names_in(value, place):
    """Returns the names of which sentences about a place must have one."""
    list_, number = PLACE.fullmatch(place).groups()
    if list_ == "boards":
        plant = explain.Plant(value)
        return [plant.boards[int(number)].name]
    entry = value[list_][int(number)]
    name = entry.get("name") if isinstance(entry, dict) else None
    return [name[:40] if isinstance(name, str) else f"number {number}", f"number {number}"]


def refusal_faults(lines, told, value):
    """Yields the refusals without a sentence of their own that names their places."""
    for line in lines:
        rule, places = line.split(" ")[1], PLACE.findall(line)
        own = [one for one in told if f": {rule}: " in one]
        if not own:
            yield f"{line}: no sentence"
        if any("The form is wrong at" in one or "no words" in one for one in own):
            yield f"{line}: {own}"
        wanted = [names_in(value, f"{list_}[{number}]") for list_, number in places]
        if not any(all(any(name in one for name in names) for names in wanted) for one in own):
            yield f"{line}: {own[:3]} names nothing of {wanted}"


def case_faults(program, case):
    """Yields the faults of a case's explanation."""
    lines, told = told_of(program, case)
    if not told:
        yield f"{lines[:2]}: nothing is told"
    elif lines[0].startswith("refused"):
        yield from refusal_faults(lines, told, json_or_none(case.conf))
    else:
        number = lines[0].split(" ")[-1]
        word = {"rejected line": "ine", "rejected item": "tem", "not a run": "vent"}[
            re.match("rejected (?:line|item)|not a run", lines[0])[0]]
        is_missing = f"{word} {number}" in told[0] or "empty clause does not follow" in told[0]
        if not told[0].startswith(file_of(case.words)) or not is_missing:
            yield f"{lines[0]}: {told[0]}"


def json_or_none(given):
    """Returns a configuration's value, or `None` if it is not JSON."""
    try:
        return json.loads(given)
    except (ValueError, RecursionError):
        return None


def check_cases(program, _):
    """Each refusal, rejection and `not a run` of tests/cases gets a sentence about its subject."""
    cases = refused_cases()
    for case in cases:
        yield from (f"{case.where}: {case.name}: {fault}" for fault in case_faults(program, case))
    if len(cases) < 700:
        yield f"only {len(cases)} cases"


def check_rules(_, __):
    """Each rule and event of the reference has sentences and occurs in tests/cases."""
    pages = [(TOP / f"docs/reference/{name}.md").read_text(encoding="utf-8") for name in ("model", "formats")]
    documented = {rule for page in pages for line in page.splitlines() if line.startswith("| ")
                  for rule in DOCUMENTED.findall(" ".join(line.split(" | ")[:2]))}
    tried, events = set(), set()
    for case in refused_cases():
        tried |= {line.split(" ")[1] for line in case.stdout.decode().splitlines()
                  if line.startswith("refused ")}
        if case.stdout.startswith(b"not a run") and file_of(case.words) in case.files:
            events.add(event_of(case))
    for name, rules in (("documented", documented), ("of tests/cases", tried)):
        if rules != set(explain.RULES):
            yield f"rules that are {name} or explained, and not both: {sorted(rules ^ set(explain.RULES))}"
    if set(DEMANDS) != set(EVENTS) or events != set(EVENTS):
        yield f"events without a case of `not a run`: {sorted(set(EVENTS) - events)}"
    if set(explain.MEMBERS) - set(explain.RULES):
        yield f"members of no rule: {sorted(set(explain.MEMBERS) - set(explain.RULES))}"


def event_of(case):
    """Returns the word of a case's event that is not enabled."""
    lines = case.files[file_of(case.words)].decode().split("\n")
    begin = lines.index("events") if "events" in lines else 1
    return lines[begin + int(case.stdout.split()[-1])].split(" ")[0]


def check_new_rule(_, __):
    """A rule without words is reported as one, so the test of cases fails."""
    plant = explain.plant_of((TOP / "examples/station.json").read_bytes())
    kept = broken_rules.EXPLAINED.pop("C4")
    try:
        found = list(refusal_faults(["refused C4 routes[0]"], [
            f"x: C4: {one}" for one in broken_rules.sentences(plant, "C4", [("routes", 0)])],
            json.loads((TOP / "examples/station.json").read_bytes())))
    finally:
        broken_rules.EXPLAINED["C4"] = kept
    if not found:
        yield "a rule without words is not noticed"


# -- places

def check_json_places(_, __):
    """Line and column lead to the entry in any layout."""
    for number, path in enumerate(sorted((TOP / "examples").glob("*.json"))):
        value = json.loads(path.read_bytes())
        for text in (path.read_text(encoding="utf-8"), json.dumps(value, indent=number % 4),
                     json.dumps(value, separators=(" ,\n", "\t: "))):
            lines, places = text.split("\n"), Places(text)
            for list_ in ("sections", "routes"):
                for i, entry in enumerate(value[list_]):
                    for steps, wanted in [((list_, i), entry), *(((list_, i, m), v) for m, v in entry.items())]:
                        line, column = places.line_and_column(*steps)
                        rest = "\n".join([lines[line - 1][column - 1:], *lines[line:]])
                        if json.JSONDecoder().raw_decode(rest)[0] != wanted:
                            yield f"{path.name} {steps}: {rest[:40]!r}"
    text = '{"routes": [{"name": "a", "path": [1], "path": [2]}], "sections": []}'
    if Places(text).line_and_column("routes", 0, "path") != (1, 48) \
            or Places(text).line_and_column("routes", 0, "overlap") != (1, 13):
        yield "a member that occurs twice, or one that is missing"


def check_csv_places(program, _):
    """For CSV files, file, line and column are printed, also after empty rows and other columns."""
    value = json.loads((TOP / "examples/platforms-wrong-position.json").read_bytes())
    with tempfile.TemporaryDirectory(prefix="irv-explain-") as room:
        writing.write_directory(value, Path(room, "two"))
        path = Path(room, "two/routes.csv")
        head, *rows = path.read_text(encoding="utf-8").splitlines()
        path.write_text("\n".join(["#km," + head, ",,", *(f"1.5,{row}" for row in rows)]) + "\n", encoding="utf-8")
        done = run(program, ["check", "--in", "two"], b"", room)
        wanted = (b"refused C3 routes[1]\n", 5, "irv: two/routes.csv, line 4, column G (points): C3: ")
        if (done.stdout, done.returncode) != wanted[:2] or not done.stderr.decode().startswith(wanted[2]):
            yield f"{done}"
        with inside(room):
            place = CsvSource("two").place([explain.Entry("routes", i, "conflicts") for i in (0, 1)])
        if place != "two/routes.csv, lines 3 and 4, column H (conflicts)":
            yield place


# -- calls

def check_passed_through(program, _):
    """Standard output and status are the program's, and standard error begins with its lines."""
    chance = random.Random(1)
    cases = [case for cases in case_tests.cases_by_file().values() for case in cases
             if case.conf is not None and not case.closed and not case.memory_mebibytes
             and not case.output_is_full and not case.conf_is_folder and not case.before
             and len(case.conf) < LONG and command_of(case.words) != "demo"]
    for case in chance.sample(cases, 25):
        with tempfile.TemporaryDirectory(prefix="irv-explain-") as room:
            case_tests.lay_out(program, case, Path(room))
            wanted = programs.call(program, case.words, case.conf, room)
            done = run(program, ["--explain", *case.words], case.conf, room)
        if (done.stdout, done.returncode) != (wanted[0], wanted[2]) or not done.stderr.startswith(wanted[1]):
            yield f"{case.name}: {done.stdout[:90]!r} {done.stderr[:90]!r} {done.returncode}"


def check_own_faults(program, _):
    """Unusable calls and unreadable files are reported with status 125."""
    clean = (TOP / "examples/station.json").read_bytes()
    for words, given, stderr, status in [
            (["check", "--program", "none"], clean,
             "irv: none: it cannot be called: No such file or directory\n", 125),
            (["check", "--in", "none"], b"", "irv: none/sections.csv: it can't be read: No such file or directory\n"
             "irv: none/routes.csv: it can't be read: No such file or directory\n", 125),
            ([], b"", "irv --explain: give a command of irv, as check; see irv --explain --help\n", 125),
            (["replay", "--run", "none"], clean, "irv: read fault\n", 8)]:
        done = subprocess.run([TOOL, *([] if "--program" in words else ["--program", program]), *words],
                              input=given, capture_output=True, check=False)
        if (done.stderr.decode(), done.returncode) != (stderr, status):
            yield f"{words}: {done.stderr.decode()} {done.returncode}"
    with open("/dev/full", "wb") as full:
        done = subprocess.run([TOOL, "--program", program, "check"], input=clean, stdout=full,
                              stderr=subprocess.PIPE, check=False)
    if (done.stderr, done.returncode) != (
            b"irv: standard output: it cannot be written: No space left on device\n", 125):
        yield f"full: {done}"


def check_verdicts(program, _):
    """The last line is the verdict on check's or verify's answer, and only theirs."""
    wrong = (TOP / "examples/platforms-wrong-position.json").read_bytes()
    clean = (TOP / "examples/station.json").read_bytes()
    for words, given, word in [
            (["check"], clean, "SAFE"), (["check", "--columns=free"], clean, "NOT SHOWN"),
            (["check", "--columns", "free"], wrong, "NOT SHOWN"), (["check"], wrong, "REFUSED"),
            (["check"], without_conflicts(clean), "SAFE WITH DEVIATIONS: proved"),
            (["verify", "--cert", "c"], clean, "SAFE"),
            (["verify", "--columns", "free", "--depth", "8", "--cert", "c"], wrong, "HAZARD FOUND"),
            (["table"], clean, None)]:
        with tempfile.TemporaryDirectory(prefix="irv-explain-") as room:
            last = run(program, words, given, room).stderr.decode().splitlines()[-1:]
        found = last[0].removeprefix("irv: verdict: ").partition(". ")[0] if last else None
        if found != word:
            yield f"{words}: {last}, expected {word}"


def without_conflicts(given):
    """Returns a configuration whose routes list no conflicts."""
    value = json.loads(given)
    for route in value["routes"]:
        route["conflicts"] = []
    return json.dumps(value).encode()


ExplainTests = test_case("ExplainTests", [
    check_verdicts,
    check_cases, check_rules, check_new_rule, check_json_places, check_csv_places, check_passed_through,
    check_own_faults])
