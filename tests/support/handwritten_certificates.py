"""Hand-written certificates, and the checker's expected words about each."""

from irvtools.checkers import certificate
from irvtools.checkers import dimacs

# each assignment of two or three variables violates a clause; each satisfies the last formula
TWO_VARIABLES = (2, [(1, 2), (1, -2), (-1, 2), (-1, -2)])
THREE_VARIABLES = (3, [(1, 2, 3), (1, 2, -3), (1, -2, 3), (1, -2, -3),
             (-1, 2, 3), (-1, 2, -3), (-1, -2, 3), (-1, -2, -3)])
NO_CLAUSE = (2, [])

STEPS_FOR_TWO = "step 1 0 1 2 0|step 0 5 3 4 0"
STEPS_FOR_THREE = "step 1 2 0 1 2 0|step 1 0 9 3 4 0|step -1 2 0 5 6 0|step 0 10 11 7 8 0"
SAFE = (f"safe 1|query hazard 0|{STEPS_FOR_TWO}|query breach 0|{STEPS_FOR_TWO}|query hazard 1|{STEPS_FOR_TWO}"
        f"|query breach 1|{STEPS_FOR_TWO}|query step 1|{STEPS_FOR_TWO}")


def first_step(step):
    """Returns the safe certificate with another first step."""
    return SAFE.replace("step 1 0 1 2 0", step, 1)


# every query's formula, the lines between first and last, and a part of the fault
CERTIFICATES = [
    (TWO_VARIABLES, SAFE, ""),
    (TWO_VARIABLES, SAFE.replace("safe 1", "safe 2"), "not the queries"),
    (TWO_VARIABLES, SAFE.replace("safe 1", "safe 0"), "line 2"),
    (TWO_VARIABLES, SAFE.replace("safe 1", "safe 01"), "line 2"),
    (TWO_VARIABLES, SAFE.replace("safe 1", "safe 17"), "line 2"),
    (TWO_VARIABLES, first_step("step 01 0 1 2 0"), "line 4"),
    (TWO_VARIABLES, first_step("step 1 0 1 2"), "line 4"),
    (TWO_VARIABLES, first_step("step  1 0 1 2 0"), "line 4"),
    (TWO_VARIABLES, first_step("step -0 0 1 2 0"), "line 4"),
    (TWO_VARIABLES, first_step("step 1 0 1 2 0 "), "line 4"),
    (TWO_VARIABLES, first_step("step 1 0 1 3 0"), "doesn't follow"),
    (TWO_VARIABLES, first_step("step 1 0 1 9 0"), "doesn't follow"),
    (TWO_VARIABLES, first_step("step 1 0 1 0"), "doesn't follow"),
    (TWO_VARIABLES, first_step("step 1 0 0"), "doesn't follow"),
    (TWO_VARIABLES, first_step("step 1 1 0 1 2 0"), "stands twice"),
    (TWO_VARIABLES, first_step("step 3 0 1 2 0"), "no such variable"),
    (TWO_VARIABLES, SAFE.replace("step 0 5 3 4 0", "step 0 3 4 0", 1), "doesn't follow"),
    (TWO_VARIABLES, SAFE.removesuffix("|step 0 5 3 4 0"), "isn't refuted"),
    (TWO_VARIABLES, SAFE.removesuffix(f"|query step 1|{STEPS_FOR_TWO}"), "not the queries"),
    (TWO_VARIABLES, SAFE + "|step 0 5 3 4 0", "isn't the last"),
    (TWO_VARIABLES, SAFE + f"|query hazard 2|{STEPS_FOR_TWO}", "not the queries"),
    (TWO_VARIABLES, SAFE.replace("query breach 1", "query step 1"), "not the queries"),
    (THREE_VARIABLES, "spent 0|query hazard 0", ""),
    (THREE_VARIABLES, "spent 1|query hazard 0|step 1 2 0 1 2 0", ""),
    (THREE_VARIABLES, f"spent 6|query hazard 0|{STEPS_FOR_THREE}|query breach 0|query hazard 1|{STEPS_FOR_THREE}"
            "|query hazard 2", ""),
    (THREE_VARIABLES, f"spent 6|query hazard 0|{STEPS_FOR_THREE}|query breach 0|query hazard 1|{STEPS_FOR_THREE}"
            "|query breach 1", "not the next query"),
    (THREE_VARIABLES, f"spent 6|query hazard 0|{STEPS_FOR_THREE}|query breach 0|{STEPS_FOR_THREE}|query hazard 1", ""),
    (THREE_VARIABLES, "spent 1|query hazard 0", "are told"),
    (THREE_VARIABLES, "spent 0|query breach 0", "not the next query"),
    (THREE_VARIABLES, "spent 0", "fewer than four lines"),
    (THREE_VARIABLES, f"spent 3|query hazard 0|{STEPS_FOR_THREE}", "given up"),
    (THREE_VARIABLES, "spent 1|query hazard 0|step 1 2 0 1 2 0|query breach 0", "isn't refuted"),
    (THREE_VARIABLES, "spent 2|query hazard 0|step 1 2 0 1 2 0|step 1 2 0 9 0", "isn't fresh"),
    (TWO_VARIABLES, "spent 1|query hazard 0|step 1 0 1 2 0", "propagation refutes"),
]


# a whole text, over TWO_VARIABLES for each query, and an audit's answer
WHOLE = f"irv certificate 3|{SAFE}|end|"
AUDITED = [
    (WHOLE, "accepted k=1"),
    (WHOLE.removesuffix("end|"), "rejected line 18"),
    (WHOLE.removesuffix("|"), "rejected line 18"),
    (WHOLE + "|", "rejected line 19"),
    (WHOLE + "e", "rejected line 19"),
    ("", "rejected line 1"),
    ("irv certificate 3|safe 0|", "rejected line 2"),
    ("irv certificate 3", "rejected line 1"),
    (WHOLE.replace("|", "\r|", 1), "rejected line 1"),
    (WHOLE.replace("certificate 3", "certificate 2"), "rejected line 1"),
    (WHOLE.replace("safe 1", "safe 17"), "rejected line 2"),
    (WHOLE.replace("safe 1", "spent 1"), "rejected line 2"),
    (WHOLE.replace("safe 1", "safe 2"), "rejected line 15"),
    (WHOLE.replace("query hazard 0|", "query hazard 0|query hazard 0|"), "rejected line 4"),
    (WHOLE.replace("|query breach 0", "|step 0 5 3 4 0|query breach 0"), "rejected line 6"),
    (WHOLE.replace("step 0 5 3 4 0|query breach 0", "query breach 0", 1), "rejected line 5"),
    (WHOLE.replace("step 1 0 1 2 0", "step 0 0", 1), "rejected line 4"),
    (WHOLE.replace("step 1 0 1 2 0", "step 1 0 1 18446744073709551616 0", 1), "rejected line 4"),
    (WHOLE.replace("step 1 0 1 2 0", "step 1 0 3 0", 1), "rejected line 4"),
    (WHOLE.replace("step 1 0 1 2 0", "step 1 0 9 0", 1), "rejected line 4"),
    (WHOLE.replace("step 1 0 1 2 0", "step 7 0 1 0", 1), "rejected line 4"),
    (WHOLE.replace("step 1 0 1 2 0", "step 1 0 1 2 4 0", 1), "rejected line 4"),
    (WHOLE.replace("step 1 0 1 2 0", "step 1 0 1 2 0\xff", 1), "rejected line 4"),
]


def said_of(text, formula):
    """Returns the checker's fault in a text over one formula, or an empty text."""
    try:
        certificate.check(text, lambda kind, number: formula)
        return ""
    except certificate.CertificateError as fault:
        return str(fault)


def check_all():
    """Checks all texts, and the counting of assignments. Returns how many texts."""
    for formula, lines, expected in CERTIFICATES:
        said = said_of(f"irv certificate 3|{lines}|end|".replace("|", "\n").encode(), formula)
        if (expected not in said) if expected else said:
            raise certificate.CertificateError(f"{lines}: expected {expected!r}, found {said!r}")
    for lines, expected in AUDITED:
        said = certificate.audited(lines.replace("|", "\n").encode("latin-1"),
                                   lambda kind, number: TWO_VARIABLES)
        if said != expected:
            raise certificate.CertificateError(f"{lines}: expected {expected!r}, found {said!r}")
    counted = [dimacs.count_assignments(formula, 9) for formula in (TWO_VARIABLES, THREE_VARIABLES, NO_CLAUSE)]
    if counted != [0, 0, 4]:
        raise certificate.CertificateError(f"the formulas have {counted} assignments")
    return len(CERTIFICATES) + len(AUDITED)
