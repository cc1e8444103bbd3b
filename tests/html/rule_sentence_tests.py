"""Tests of the sentences for each broken rule."""

import json

from tests.support import case_files
from irvtools.rules import schema_rules
from tests.support import fifteen_section_line
from tests.cases import member_cases
from irvtools.rules import broken_rules
from tests.cases import well_formed
from irvtools.model.plant import Plant
from tests.html.expected_sentences import LINE_SENTENCES, NOT_RESTING, RESTING, SENTENCES, WORDLESS
from tests.support.harness import test_case

PARTLY = {"C2": broken_rules.IDLE_END, "C3": broken_rules.IDLE_OVERLAP}    # for another part of the rule


def cases():
    """Returns the cases of check, by file and name."""
    found = {}
    for name in ("form", "network", "routes", "columns"):
        for case in case_files.read_case_file(case_files.CASES / f"{name}.cases"):
            found[name, case.name] = case
    for case in member_cases.member_cases():
        found["members", case.name] = case
    return {key: case for key, case in found.items() if case.words[:1] == ["check"]}


def words_of(given, refusal):
    """Returns the sentences for a line of check, and the one about safety."""
    _, rule, place, *_ = refusal.split(" ")
    if rule[0] == "F":
        return schema_rules.faults(rule, place, given), ""
    plant = Plant(json.loads(given))
    rule, places = broken_rules.read_line(refusal)
    broken_rules.where(plant, rule, places)
    return broken_rules.sentences(plant, rule, places), broken_rules.safety(plant, rule, places)


def check_sentences(_, __):
    """Each rule's sentence names what the configuration has and what it should have."""
    found = cases()
    for file, name, refusal, words, *count in SENTENCES:
        case = found[file, name]
        if refusal not in case.stdout.decode().splitlines():
            yield f"{file}, {name}: {refusal} isn't among what check answers"
        sentences, _ = words_of(case.conf, refusal)
        yield from (f"{file}, {name}: {word!r} isn't in {sentences}" for word in words
                    if word not in " ".join(sentences))
        if len(sentences) != (count[0] if count else 1):
            yield f"{file}, {name}: {len(sentences)} sentences: {sentences}"
    for name, refusal, sentence in LINE_SENTENCES:
        sentences, _ = words_of(json.dumps(fifteen_section_line.with_fault(name)).encode(), refusal)
        if sentences != [sentence]:
            yield f"{name}: {sentences}"
    told = {entry[2].split(" ")[1] for entry in SENTENCES}
    wanted = {rule for rule in well_formed.RULES if rule[0] in "FNRC"}
    yield from (f"no sentence of {rule} is tested" for rule in sorted(wanted - told))


def check_all_refusals(_, __):
    """Every refusal in the cases of check has a sentence, and says whether safety depends on it."""
    for (file, name), case in cases().items():
        for refusal in case.stdout.decode().splitlines():
            if not refusal.startswith("refused "):
                continue
            sentences, safety = words_of(case.conf, refusal)
            if bool(sentences) == (name in WORDLESS):
                yield f"{file}, {name}: {refusal}: {sentences}"
            rule = refusal.split(" ")[1]
            rests = safety == broken_rules.RESTS
            if rule in RESTING and not rests and safety != PARTLY.get(rule) \
                    or rule in NOT_RESTING and safety != broken_rules.IDLE:
                yield f"{file}, {name}: {refusal}: {safety}"


RuleSentenceTests = test_case("RuleSentenceTests", [check_sentences, check_all_refusals])
