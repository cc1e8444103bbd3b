"""Tests of the configuration schema on every configuration of `tests/cases` and `examples/`.

The schema must accept what rules F accept, and refuse what breaks one of F3 to F6. The few
exceptions below cannot be expressed in a schema. Debian's python3-jsonschema checks it.
"""

import json
import re
from tests.support import case_files
from tests.cases import member_cases
from irvtools.paths import TOP
from tests.support.harness import Test

SCHEMA = json.loads((TOP / "docs/reference/configuration.schema.json").read_text(encoding="utf-8"))

# a schema sees 1.0 and 1 as one number
UNSAID = {"version 1.0", "version 1e0"}

# commands that read no configuration
READ_NONE = ("make", "demo")

MOST_BYTES = 20000          # the library is slow for more


def rule_of_form(case):
    """Returns the rule F that a case's configuration breaks, `right` if none, or `None` if unknown."""
    if case.words and any(command in case.words for command in READ_NONE):
        return None
    if case.verdicts or case.has_formula:
        return "right"
    if case.conf is None or case.conf_is_folder or case.status not in (0, 1, 5, 6):
        return None
    broken = re.match(r"refused (F[1-6]) (?!extra)", (case.stdout or b"").decode())
    return broken[1] if broken else "right"


def all_cases():
    """Yields every case, each example as one, and one more."""
    for path in sorted(case_files.CASES.glob("*.cases")):
        yield from case_files.read_case_file(path)
    yield from member_cases.member_cases()
    for path in sorted(case_files.EXAMPLES.glob("*.json")):
        example = case_files.Case(f"the example {path.stem}", path.name)
        example.conf, example.status = path.read_bytes(), 0
        yield example
    # version 3 with all members of version 2
    third = case_files.Case("station-protected in version 3", "tests/schema")
    protected = (case_files.EXAMPLES / "station-protected.json").read_bytes()
    third.conf = protected.replace(b'"version": 2', b'"version": 3')
    third.stdout, third.status = b"refused F4 document\n", 5
    yield third


def fault_of(case, rule, accepts):
    """Returns the fault of the schema's answer to a case, or `None`."""
    wanted = rule == "right" or case.name in UNSAID
    if accepts(json.loads(case.conf)) != wanted:
        return f"{case.where}: {case.name}: the schema {'refuses' if wanted else 'accepts'} it, the rules say {rule}"
    return None


class SchemaTests(Test):
    """The schema compared with the rules F."""

    def test_cases(self):
        """The schema answers each case as the rules do."""
        try:
            import jsonschema
        except ImportError:
            self.skipTest("the library jsonschema is not installed (python3-jsonschema)")
        jsonschema.Draft7Validator.check_schema(SCHEMA)
        accepts, told, faults = jsonschema.Draft7Validator(SCHEMA).is_valid, {}, []
        for case in all_cases():
            rule = rule_of_form(case)
            if rule not in (None, "F1", "F2") and len(case.conf) <= MOST_BYTES:
                told[rule] = told.get(rule, 0) + 1
                faults.append(fault_of(case, rule, accepts))
        faults += [f"hardly a case is {rule}" for rule in ("right", "F3", "F4", "F5", "F6")
                   if told.get(rule, 0) < 5]
        self.see(filter(None, faults), sum(told.values()))
