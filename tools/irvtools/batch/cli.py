"""The command line of `irv --batch`: verifies a directory of configurations in parallel."""

import os
import re
import shlex
import sys
from pathlib import Path

from irvtools.arguments import Parser
from irvtools.batch import batch_report
from irvtools.batch import job_groups
from irvtools.batch import questions
from irvtools.batch import run_group
from irvtools.batch import snakemake_run
from irvtools.batch.directory import is_inside, read_directory
from irvtools.batch.file_names import shown
from irvtools.batch.planning import Planner, read_scenarios
from irvtools.batch.progress import Progress
from irvtools.batch.report_verification import texts_of, verify
from irvtools.batch.store import MARK, PROVED_NOTE, Store, text_of
from irvtools.calls.interruption import Interrupted, interruptible
from irvtools.calls.proved_program import is_proved
from irvtools.calls.refusal import Refused, reason

GOOD, NOT_GOOD, NOTHING_DONE, UNANSWERED = range(4)
PASSED_ON = ("cores", "jobs", "profile", "cluster")
MOST_BYTES = 1 << 40            # of configurations in one group
# Snakemake's other options that limit how much it does at once.
SAYS_HOW_MUCH = re.compile(r"-[cj]\d*|--(cores|jobs|profile|cluster\S*|drmaa\S*|kubernetes)(=.*)?")


def joined(words):
    """Returns the arguments with Snakemake's options joined to `--snakemake`. A separate value with
    a leading dash would be an option."""
    place = words.index("--snakemake") if "--snakemake" in words[:-1] else len(words)
    after = place + 2
    return words[:place] + ["=".join(words[place:after])] * (place < len(words)) + words[after:]


def parser():
    line = Parser(
        "irv --batch",
        "Verifies every .json file below DIRECTORY in parallel, on this machine or on a cluster, "
        "and keeps the\nanswers in OUT with index.html, report.xml, report.csv and report.json. "
        "Questions that OUT has answers to\nare not asked again.\n\n"
        "The exit status is 0 if every answer is good; 1 if one is not (a hazard, a refusal, no "
        "verdict); 2 if nothing\nwas done; 3 if an answer is missing: the next call asks again.",
        NOTHING_DONE,
        "irv --batch DIRECTORY OUT [OPTIONS] | --verify-report OUT")
    line.add_argument("directory", type=Path, nargs="?", metavar="DIRECTORY",
                      help="the configurations")
    line.add_argument("out", type=Path, nargs="?", metavar="OUT", help="the results")
    line.add_argument("--verify-report", type=Path, metavar="OUT",
                      help="check a finished OUT again on this machine, and print what differs")
    line.add_argument("--questions", type=Path, metavar="FILE",
                      help="a CSV file with the questions about each (DIRECTORY/questions.csv)")
    line.add_argument(
        "--ask", action="append", metavar="QUESTION",
        help="a question about every configuration; may be repeated (check, verify, audit)")
    line.program()
    for name in PASSED_ON:
        line.add_argument(f"--{name}", metavar="VALUE", help=f"Snakemake's option --{name}")
    line.add_argument("--snakemake", default="", metavar="OPTIONS",
                      help="further options of Snakemake")
    line.add_argument(
        "--batch-bytes", type=questions.number(0, MOST_BYTES), default=job_groups.BYTES,
        metavar="N", help="small configurations of N bytes in total are one job of "
        f"Snakemake; 0: no grouping ({job_groups.BYTES})")
    return line


def arguments_of(words):
    """Returns the options in the arguments."""
    line = parser()
    given = line.parse_args(joined(words))
    if (given.verify_report is None) == (given.out is None):
        line.error("give DIRECTORY and OUT, or --verify-report OUT")
    if given.questions and given.ask:
        line.error("--questions and --ask exclude each other")
    return given


def passed_on(given):
    """Returns the options for Snakemake. Without a limit among them it uses all processors."""
    words = [word for name in PASSED_ON if (value := getattr(given, name)) is not None
             for word in (f"--{name}", value)]
    try:
        more = shlex.split(given.snakemake)
    except ValueError as fault:
        raise Refused(f"--snakemake: {fault}") from fault
    if not words and not any(SAYS_HOW_MUCH.fullmatch(word) for word in more):
        words = ["--cores", str(os.cpu_count() or 1)]
    return words + more


def at_once(given):
    """Returns how many jobs may run at once, if Snakemake's options say so."""
    number = given.jobs or given.cores or ""
    return int(
        number) if number.isascii() and number.isdigit() and int(number) else os.cpu_count() or 1


def open_store(directory, out):
    """Opens a results directory: new, empty, or from an earlier call."""
    if is_inside(directory, out):
        raise Refused(
            f"{shown(str(out))}: the results cannot be inside the directory of the configurations")
    store = Store(out.resolve())
    if store.top.exists() and not (store.top / MARK).is_file() and (
            not store.top.is_dir() or any(store.top.iterdir())):
        raise Refused(f"{shown(str(out))}: exists already, and is not a directory of results")
    store.prepare()
    store.put(store.top / MARK, b"")
    return store


def read_program(path):
    """Returns the program's bytes, and the note of its proof, or `None` if not known to be proved."""
    try:
        data = path.read_bytes()
        note = path.with_name(path.name + PROVED_NOTE).read_bytes() if is_proved(path) else None
    except OSError as fault:
        raise Refused(f"{shown(str(path))}: the program cannot be read: {reason(fault)}; "
                      "./irv --build builds it") from fault
    return data, note


def read_questions(given, names):
    """Returns the questions about each configuration."""
    listed = given.questions or given.directory / questions.LISTED
    if given.ask or not (given.questions or os.path.lexists(listed)):
        same = questions.from_words(given.ask or questions.USUAL)
        return {name: same for name in names}
    return questions.read_list(listed, names)


def plan(store, read, asked, scenarios, program):
    """Makes the jobs and keeps their inputs. Returns the jobs, each configuration's questions with
    job keys, and its checksum and bytes. `program` is the checksum and whether it is known to be
    proved."""
    planner = Planner(store, *program, {name: store.give(data) for name, data in scenarios.items()})
    checksums = {name: store.give(data) for name, data in read.items()}
    keys = {name: list(planner.asked(name, checksums[name], asked[name])) for name in read}
    for key, job in planner.jobs.items():
        if not store.job_file(key).is_file() or store.job_file(key).read_bytes() != text_of(job):
            store.put(store.job_file(key), text_of(job), is_settled=False)
    return planner.jobs, keys, {name: (checksums[name], data) for name, data in read.items()}


def write_report(store, value):
    """Writes the report, its value last."""
    for file, text in texts_of(value).items():
        store.put(store.top / file, text)
    store.put(store.top / batch_report.FILE, text_of(value))


def run_batch(given, progress):
    """Asks all questions about a directory. Returns the exit status."""
    snakemake_run.need_engine()
    words = passed_on(given)
    progress.step(f"reading {shown(str(given.directory))}")
    read = read_directory(given.directory)
    asked, (program, note) = read_questions(given, list(read)), read_program(given.program)
    scenarios = read_scenarios(given.directory, asked)
    store = open_store(given.directory, given.out)
    with snakemake_run.alone(store) as lock:
        progress.step(f"planning the jobs of {len(read)} configurations")
        checksum = store.give_program(program, note)
        jobs, keys, configurations = plan(store, read, asked, scenarios,
                                          (checksum, note is not None))
        missing, tried = snakemake_run.sweep(store, jobs)
        snakemake_run.put_targets(
            store, *job_groups.grouped(store, missing, tried, given.batch_bytes, at_once(given)))
        progress.step(
            f"{len(jobs) - len(missing)} jobs known, {len(missing)} to do: Snakemake starts")
        status = snakemake_run.do_all(store, missing, words, lock, progress) if missing else 0
        progress.step("writing the report")
        about = {
            "directory": shown(str(given.directory)), "program": checksum, "is_proved": note
            is not None, "engine": snakemake_run.version_in(store)
        }
        value = batch_report.make(store, about, configurations, keys, jobs)
        write_report(store, value)
        done = sum(store.answer(job) is not None for job in missing)
    progress.end()
    return print_end(store, value, (done, len(jobs) - len(missing)), status)


def print_end(store, value, jobs, status):
    """Prints how the call ended. Returns the exit status. `jobs` counts those done and those
    already known."""
    rows = batch_report.rows_of(value)
    missing = [(row, result) for row in rows for result in row.missing]
    for row, result in missing:
        print(f"irv --batch: {row.name}: {result.question}: {result.line}", file=sys.stderr)
    if missing:
        log = store.top / "snakemake.log"
        print(f"irv --batch: Snakemake ended with status {status}; its log is {log}",
              file=sys.stderr)
    good = sum(row.is_good for row in rows)
    print(f"{len(rows)} configurations ({batch_report.verdict_counts(rows)}), {good} good; "
          f"{jobs[0]} jobs were done, {jobs[1]} were known; {store.top / 'index.html'}")
    if missing:
        return UNANSWERED
    return GOOD if good == len(rows) else NOT_GOOD


def verify_report(given, progress):
    """Checks finished results. Returns the exit status."""
    store = Store(given.verify_report.resolve())
    if not (store.top / batch_report.FILE).is_file():
        raise Refused(f"{shown(str(given.verify_report))}: it has no {batch_report.FILE}")
    read_program(given.program)
    faults, answers, unchecked = verify(store, given.program.resolve(), progress)
    progress.end()
    for fault in faults:
        print(fault)
    print(f"{answers} answers, {unchecked} of them only by their checksums; {len(faults)} faults")
    return NOT_GOOD if faults else GOOD


def main(words):
    """Runs the command. Returns the exit status."""
    sys.stdout.reconfigure(errors="backslashreplace")
    sys.stderr.reconfigure(errors="backslashreplace")
    if len(words) == 2 and words[0] in ("--run-job", "--run-group"):
        return run_group.run(*words)
    given, progress = arguments_of(words), Progress()
    try:
        with interruptible():
            call = verify_report if given.verify_report else run_batch
            return call(given, progress)
    except Refused as fault:
        progress.end()
        for line in fault.lines():
            print(f"irv --batch: {line}", file=sys.stderr)
        return NOTHING_DONE
    except OSError as fault:
        progress.end()
        name = shown(str(fault.filename or "the directory of the results"))
        print(f"irv --batch: {name}: {reason(fault)}; call again to go on", file=sys.stderr)
        return UNANSWERED
    except Interrupted:
        progress.end()
        print("irv --batch: stopped; call again to go on", file=sys.stderr)
        return UNANSWERED
