"""Does the jobs that show safety by another solver's refutations; job_kinds.py does the others."""

from __future__ import annotations

from typing import Any

from irvtools.batch.job_kinds import answered, ask, file_of, without_call
from irvtools.batch.measuring import Called, last_line
from irvtools.checkers.verify_with import HAS_ASSIGNMENT, leave_out_what_adds_nothing, name_of
from irvtools.batch.program_answers import NoAnswer


def do_export(store, job, room):
    """Writes a query's formula."""
    done = ask(store, job, room, "export", *job["words"])
    if done.status != 0:
        return answered(done, False)
    formula = done.output.rename(room / "formula.cnf")
    answer = answered(done, True, formula=formula)
    del answer["files"]["report"]
    return answer


def version_of(program, room):
    """Returns the version that a solver prints."""
    try:
        done = Called([program, "--version"], None, room, 10)
    except NoAnswer:
        return "unknown"
    return done.line or "unknown"


def do_solve(store, job, room):
    """Asks another solver to refute a formula. The line says so if there is no refutation, and why."""
    cnf, formula = file_of(store, job, "export formula")
    if cnf is None:
        return without_call(formula["line"], False)
    proof = room / "refutation.proof"
    words = [
        word.replace("{cnf}", str(cnf)).replace("{proof}", str(proof)) for word in job["solver"]
    ]
    done = Called(words, None, room, job["seconds"])
    version = version_of(words[0], room)
    if done.status is None:
        line = f"no refutation within {job['seconds']:g} seconds"
    elif done.status == HAS_ASSIGNMENT:
        line = "an assignment, which means a run that the query asks for"
    elif not proof.is_file() or done.status < 0 or done.status > 128:
        with open(done.output, "rb") as out:
            said = done.complaint or last_line(out.read(4000))
        raise NoAnswer(f"{words[0]} wrote no refutation: status {done.status} {said}".strip())
    else:
        leave_out_what_adds_nothing(proof)
        line = "a refutation"
    files = {"refutation": proof} if line == "a refutation" else {}
    return {"line": line, "status": done.status, "is_good": bool(files), **done.measures(),
            "files": files, "solver": version}


def do_rup(store, job, room):
    """Checks with the program whether the solver's text refutes the query."""
    proof, solved = file_of(store, job, "solve refutation")
    if proof is None:
        return without_call(solved["line"], False)
    done = ask(store, job, room, "rup", *job["words"], f"--cert={proof}")
    return answered(done, done.status == 0 and done.line == f"refuted {name_of(job['query'])}")


def safe_by_line(job: dict[str, Any],
                 rups: dict[str, tuple[dict[str, Any], dict[str, Any]]]) -> tuple[str, bool]:
    """Returns the line of verify_with, and whether it says safe. `rups` has rup jobs and answers,
    by the queries on which safety at k depends. Each must be for its query, this program,
    configuration and columns."""
    left, refused = [], None
    for query in job["queries"]:
        other, answer = rups[name_of(query)]
        is_same = all(other[part] == job[part] for part in ("program", "configuration", "columns"))
        is_refuted = answer["is_good"] and answer["line"] == f"refuted {name_of(query)}"
        if not (is_same and other["kind"] == "rup" and other["query"] == query and is_refuted):
            left.append(name_of(query))
            refused = refused or (answer["line"] if answer["line"].startswith("refused ") else None)
    if left:
        return refused or f"not shown at k={job['k']}: {', '.join(left)}", False
    return f"safe k={job['k']}", True


def do_verify_with(store, job, _room):
    """Answers safe if each query on which safety at k depends was refuted."""
    rups = {}
    for name, key in job["needs"].items():
        other = store.job(key)
        rups[name] = other, store.answer(other)
        if rups[name][1] is None:
            raise NoAnswer(f"the answer to {name} does not exist any more")
    return without_call(*safe_by_line(job, rups))


DOES = {"export": do_export, "solve": do_solve, "rup": do_rup, "verify_with": do_verify_with}
