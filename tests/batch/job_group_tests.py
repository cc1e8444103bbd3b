"""Tests of job groups: they change no answer or key, and a killed worker loses only its current
job."""

import itertools

from irvtools.batch.job_groups import SHORT_QUERIES
from tests.batch.workspace import EXAMPLES, batch_case, differs, done_line

QUESTIONS = ("--ask", "check", "--ask", "verify", "--ask", "audit")
# six groups for one job at a time, each a third of the rest: 3, 2, 1, 1, 1 and 1
SAME_LENGTH = ["".join(ending) for ending in itertools.product(" \n", repeat=4)][:9]


def rules_in(room):
    """Returns how many jobs of each rule Snakemake started in the last call."""
    log = (room.out / "snakemake.log").read_text(encoding="utf-8")
    begun = [
        line.split()[1].rstrip(":") for line in log.splitlines()
        if line.startswith(("rule ", "localrule "))
    ]
    return {rule: begun.count(rule) for rule in begun if rule != "all"}


def keys_in(room):
    """Returns the keys of a report."""
    return set(room.report()["jobs"])


def check_groups(room):
    """Jobs of small configurations are grouped, with unchanged answers and keys. Without grouping,
    Snakemake runs each job by itself. A second call knows all answers."""
    for name in ("platforms.json", "platforms-wrong-position.json", "three-sections.json"):
        room.add(name)
    first = room.call(*QUESTIONS)
    found, keys = room.answers(), keys_in(room)
    yield from differs("in groups", rules_in(room), {"several": 3})
    yield from differs("verified", room.verify()[0], 0)
    again = room.call(*QUESTIONS, "--batch-bytes", "0")
    yield from differs("again", again.stdout,
                       first.stdout.replace("9 jobs were done, 0", "0 jobs were done, 9"))
    room.out = room.room / "apart"
    room.call(*QUESTIONS, "--batch-bytes", "0")
    yield from differs("apart", rules_in(room), {"check": 3, "verify": 3, "audit": 3})
    yield from differs("the answers", (room.answers(), keys_in(room)), (found, keys))


def check_large_apart(room):
    """A configuration that fills a group has single jobs, which can run in parallel. So have the
    queries of one that is not short, beside a group of its other jobs."""
    room.add("platforms.json")
    room.add("station.json")
    room.call(*QUESTIONS, "--batch-bytes", str((EXAMPLES / "station.json").stat().st_size))
    yield from differs("rules", rules_in(room), {"several": 1, "check": 1, "verify": 1, "audit": 1})
    path = room.directory / "station.json"
    path.write_bytes(path.read_bytes() + b" " * SHORT_QUERIES)
    words = ("--ask", "check", "--ask",
             "verify_with --solver 'sh -c \": >{proof}; exit 20\" {cnf}'")
    room.call(*words)
    # the check of platforms is known, and its queries are short
    yield from differs("queries", rules_in(room),
                       {"several": 2, "export": 5, "solve": 5, "rup": 5, "verify_with": 1})


def check_group_killed(room):
    """If a group's worker is killed, its answers stay. Its current job ended without a message, and
    the rest was not begun. The next call runs that job alone, and the rest in groups."""
    platforms = (EXAMPLES / "platforms.json").read_bytes()
    for number, ending in enumerate(SAME_LENGTH):
        (room.directory / f"{number}.json").write_bytes(platforms + ending.encode())
    room.fake("worker")
    words = (*QUESTIONS, "--cores", "1")
    done = room.call(*words)
    states = {
        "clean": "answered", "safe k=1": "answered",
        "no answer: the job was not begun": "not begun",
        "no answer: the job ended without a message, which happens if it is killed": "under way"
    }
    count = {}
    for (_, question), (_, line) in room.answers().items():
        state = question, states.get(line, line)
        count[state] = count.get(state, 0) + 1
    yield from differs("killed", (done.returncode, count), (3, {
        ("check", "answered"): 6, ("check", "not begun"): 3,
        ("verify", "answered"): 6, ("verify", "not begun"): 3,
        ("audit", "under way"): 6, ("audit", "not begun"): 3}))
    yield from differs("half of a result", list(room.out.glob("results/audit/*/*")), [])
    room.wish.write_text("go", encoding="ascii")
    yield from differs("afterwards",
                       room.call(*words).stdout, done_line(9, "9 SAFE", 9, (15, 12), room))
    yield from differs("rules", rules_in(room), {"several": 3, "audit": 6})
    yield from differs("verified", room.verify()[0], 0)


def check_one_option(room):
    """A single option for Snakemake may begin with a dash. If nothing runs, the report says so."""
    room.add("platforms.json")
    done = room.call("--ask", "check", "--snakemake", "--dry-run")
    yield from differs("not begun", (done.returncode, room.answers()), (3, {
        ("platforms.json", "check"): ("no answer", "no answer: the job was not begun")}))


JobGroupTests = batch_case("JobGroupTests",
                           (check_groups, check_large_apart, check_group_killed, check_one_option))
