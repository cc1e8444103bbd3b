"""Tests of tables with one deviation: proved safe ones and others.

One entry of a clean table is removed or changed: in the plants of `examples/` and `tests/plants/`,
and in random tables. If `check` with strict columns then breaks C4, C5, C6 and C8 only, the clause
`strict_deviations` of `run` proves the plant safe. Then the verdict must say so, and a random
search must find no hazard. A report that breaks any other rule, or was cut, must never get that
verdict.
"""

import copy
import itertools
import json
import random
import subprocess
import tempfile

from irvtools.calls.verdict import DEVIATIONS, SAFE_WITH_DEVIATIONS, Answered, verdict
from irvtools.csvtables import filling
from irvtools.model.plant import Plant
from irvtools.paths import TOP
from irvtools.search.random_search import RandomSearch
from tests.support import random_tables
from tests.support.harness import ProgramTest

TAKES_LONG = True

RANDOM_TABLES, DRAWN, RUNS = 300, 2000, 12      # clean random tables, tables drawn for them, runs per search
CLEAN, MOST_ROUTES = 60, 14     # verified tables, and the most routes of one
PLANTS = ("station", "station-protected", "platforms", "terminus-throat", "line-with-boards")


def asked(program, document):
    """Returns check's answer about a document with strict columns."""
    done = subprocess.run([program, "check"], input=json.dumps(document).encode(), capture_output=True,
                          check=False)
    return Answered("check", "strict", done.returncode, done.stdout.decode())


def rules_of(answer):
    """Returns the rules that a report names as broken."""
    return {line.split()[1] for line in answer.output.splitlines() if line.startswith("refused ")}


def one_sided(document, chance):
    """Lists a conflict in only one of two routes."""
    route = chance.choice([one for one in document["routes"] if one["conflicts"]] or [None])
    if route:
        route["conflicts"].remove(chance.choice(route["conflicts"]))
    return route


def unlisted(document, chance):
    """Removes a conflict of two routes from both."""
    route = chance.choice([one for one in document["routes"] if one["conflicts"]] or [None])
    if route:
        name = chance.choice(route["conflicts"])
        route["conflicts"].remove(name)
        other = next(one for one in document["routes"] if one["name"] == name)
        if route["name"] in other["conflicts"]:
            other["conflicts"].remove(route["name"])
    return route


def bad_overlap(document, chance):
    """Begins an overlap at a section that is not next to the path's end."""
    route = chance.choice(document["routes"])
    last = next(one for one in document["sections"] if one["name"] == route["path"][-1])
    beside = {last.get(end) for end in ("down", "up", "stem", "plus", "minus")}
    far = [one["name"] for one in document["sections"] if one["kind"] == "linear"
           and one["name"] not in beside and one["name"] not in route["path"]]
    if far and "overlap" in route:
        route["overlap"] = [chance.choice(far)]
        return route
    return None


def turned(document, chance):
    """Turns a listed point to its other position."""
    route = chance.choice([one for one in document["routes"] if one["points"]] or [None])
    if route:
        entry = chance.choice(route["points"])
        entry["position"] = {"plus": "minus", "minus": "plus"}[entry["position"]]
    return route


def other_source(document, chance):
    """Gives a route another route's source."""
    route, other = chance.choice(document["routes"]), chance.choice(document["routes"])
    if route["source"] == other["source"]:
        return None
    route["source"] = other["source"]
    return route


def no_board(document, chance):
    """Removes a board at which no route begins or ends."""
    section = chance.choice([one for one in document["sections"] if one.get("board_up")] or [None])
    used = {one[end] for one in document["routes"] for end in ("source", "destination")}
    if section and section["board_up"] not in used:
        section["board_up"] = None
        return section
    return None


KINDS = (one_sided, unlisted, bad_overlap, turned, other_source, no_board)


def faults_of(program, name, clean, chance, seen):
    """Yields the faults of single deviations of a clean table. Counts in `seen` the rules they
    broke."""
    for kind in KINDS:
        document = copy.deepcopy(clean)
        if not kind(document, chance):
            continue
        answer = asked(program, document)
        rules, word = rules_of(answer), verdict([answer], True).word
        if answer.status != 5:
            continue
        for rule in rules:
            seen[rule] = seen.get(rule, 0) + 1
        if (word == SAFE_WITH_DEVIATIONS) != (rules <= set(DEVIATIONS)):
            yield f"{name}, {kind.__name__}: {word} of {sorted(rules)}"
        if word == SAFE_WITH_DEVIATIONS and RandomSearch(Plant(document), 1).for_hazard(600, RUNS):
            yield f"{name}, {kind.__name__}: a hazard was found in a table that is proved safe"


def tables(program):
    """Yields named clean tables: plants, and random ones with filled conflicts and points."""
    for name in PLANTS:
        yield name, json.loads((TOP / f"examples/{name}.json").read_bytes())
    for path in sorted((TOP / "tests/plants").glob("*.json")):
        yield path.stem, json.loads(path.read_bytes())
    left = RANDOM_TABLES
    for seed, value in random_tables.tables(DRAWN):
        filled = filling.filled(value, ["conflicts", "points"]).value
        if left and asked(program, filled).status == 0:
            left -= 1
            yield f"random {seed}", filled


def answers(program, document, certificate):
    """Returns the lines that check answers with strict columns, verify with free ones, and audit about the
    certificate that verify wrote."""
    given, free = json.dumps(document).encode(), ["--columns", "free", "--cert", certificate]
    done = [subprocess.run([program, *words], input=given, stdout=subprocess.PIPE, check=False)
            for words in (["check"], ["verify", *free], ["audit", *free])]
    return [each.stdout.decode() for each in done]


class DeviationTests(ProgramTest):
    """Single deviations, and cut reports."""

    def test_single_deviations(self):
        """A table is called safe with deviations exactly if it breaks C4, C5, C6 and C8 only. Then
        no hazard is found."""
        chance, seen, faults, count = random.Random(4), {}, [], 0
        for name, clean in tables(self.program):
            count += 1
            faults += faults_of(self.program, name, clean, chance, seen)
        faults += [f"no deviation broke {rule}" for rule in (*DEVIATIONS, "C1", "C3") if not seen.get(rule)]
        self.see(faults, count)

    def test_clean_tables(self):
        """If check finds a table clean, verify finds it safe without the column rules, and audit accepts its
        certificate."""
        small = ((name, clean) for name, clean in tables(self.program) if len(clean["routes"]) <= MOST_ROUTES)
        chosen, faults = list(itertools.islice(small, CLEAN)), []
        with tempfile.TemporaryDirectory(prefix="irv-clean-") as directory:
            for name, clean in chosen:
                found = answers(self.program, clean, f"{directory}/certificate")
                if found != ["clean\n", "safe k=1\n", "accepted k=1\n"]:
                    faults.append(f"{name}: {found}")
        faults += [f"only {len(chosen)} tables"] if len(chosen) < CLEAN else []
        self.see(faults, len(chosen))

    def test_cut_report(self):
        """A report that is cut after its line of C6 is not called safe. A full disk gives a write
        fault, and a broken pipe's report is incomplete."""
        document = json.loads((TOP / "examples/station-protected.json").read_bytes())
        for route in document["routes"]:
            route["conflicts"] = []
        given = json.dumps(document).encode()
        whole = asked(self.program, document)
        self.assertEqual(verdict([whole], True).word, SAFE_WITH_DEVIATIONS, whole.output[:200])
        with open("/dev/full", "wb") as full:
            cut = subprocess.run([self.program, "check"], input=given, stdout=full, stderr=subprocess.PIPE, check=False)
        self.assertEqual(cut.returncode, 9)
        for status, output, is_whole in ((9, "", True), (9, whole.line + "\n", True), (None, whole.line + "\n", False),
                                         (5, whole.line + "\n", False), (5, whole.output[:-1], True)):
            answer = Answered("check", "strict", status, output, is_whole)
            self.assertNotEqual(verdict([answer], True).word, SAFE_WITH_DEVIATIONS, answer)
