"""Measures verify over generated stations and other lines, beside other solvers on the same
formulas.

First it prints the machine, the program and the solvers. Then it prints each plant's size; the
verdict, seconds and peak memory of verify, audit and rup; and for each query its size, and the
seconds and conflicts of each installed solver.

Items that only delete are left out if that text is longer than rup reads. The least seconds of
three rounds of audit and rup count; a round of a minute or more is the last. Peaks below some 16
MiB are this script's own.
"""

import json
import os
import re
import shutil
import subprocess
import sys
import tempfile
import time
from pathlib import Path


from irvtools.arguments import Parser
from irvtools.generators import double_track
from irvtools.checkers import refutations
from irvtools.paths import TOP

PLANTS = ["1", "2", "4", "8", "16", str(TOP / "examples/terminus-throat.json")]
SOLVERS = {"cadical": ["cadical", "-n"], "minisat": ["minisat", "-verb=1"], "picosat": ["picosat", "-v", "-n"]}
CONFLICTS = re.compile(r"conflicts\s*:\s*([0-9]+)|^c ([0-9]+) conflicts$", re.M)
SECONDS = 600           # CPU seconds before another solver is ended
ROUNDS, LONG = 3, 60   # rounds of audit and rup; seconds of a round that is the last


def of_processor():
    """Returns the machine's account of processors and memory."""
    with open("/proc/cpuinfo", encoding="utf-8") as told:
        names = re.findall(r"^model name\s*: (.*)$", told.read(), re.M)
    with open("/proc/meminfo", encoding="utf-8") as told:
        kibibytes = int(re.search(r"^MemTotal:\s*([0-9]+)", told.read(), re.M)[1])
    return f"{(names or ['unknown'])[0]}, {os.cpu_count()} processors, {kibibytes / 1048576:.0f} GiB of memory"


def version_of(name):
    """Returns a solver package's version, if known."""
    if shutil.which(name) is None:
        return f"{name} isn't there"
    if shutil.which("dpkg-query") is None:
        return name
    done = subprocess.run(["dpkg-query", "-W", "-f", "${Version}", name], stdout=subprocess.PIPE,
                          stderr=subprocess.DEVNULL)
    return f"{name} {done.stdout.decode()}".rstrip()


def head(program, options):
    """Yields the lines before the plants: machine, program and solvers."""
    path, sums = Path(program), subprocess.run(["sha256sum", program], stdout=subprocess.PIPE, check=True)
    name = path.relative_to(TOP) if path.is_relative_to(TOP) else path.name
    yield f"machine: {of_processor()}"
    yield f"day: {time.strftime('%Y-%m-%d', time.gmtime())}"
    yield f"program: {name}, sha256 {sums.stdout.decode().partition(' ')[0]}"
    yield f"solvers: {', '.join(map(version_of, SOLVERS))}; ended after {options.get('seconds', SECONDS)} seconds"
    if "conflicts" in options:
        yield f"conflicts: {options['conflicts']}"
    yield load()


def load():
    """Returns the mean number of active processes in the last minute."""
    return f"load: {os.getloadavg()[0]:.1f}"


def started(command, given, output):
    """Starts a command."""
    return subprocess.Popen(command, stdin=given, stdout=output, stderr=subprocess.DEVNULL)


def ended(child):
    """Waits for a command; returns exit status, user seconds and peak mebibytes."""
    _, state, used = os.wait4(child.pid, 0)
    child.returncode = os.waitstatus_to_exitcode(state)
    return child.returncode, used.ru_utime, used.ru_maxrss / 1024


def measured(command, given, output):
    """Runs a command; returns exit status, user seconds, peak mebibytes and wall-clock seconds."""
    begin = time.monotonic()
    return *ended(started(command, given, output)), time.monotonic() - begin


def beside(ours, yardstick, directory):
    """Returns the figures of a command, and of any yardstick at the same time."""
    commands = [ours, *([yardstick] if yardstick else [])]
    figures, answers = [[] for _ in commands], [directory / f"answer{i}" for i in range(len(commands))]
    for _ in range(ROUNDS):
        children = []
        for command, path in zip(commands, answers):
            with open(directory / "plant.json", "rb") as given, open(path, "wb") as out:
                children.append(started(command, given, out))
        for child, found in zip(children, figures):
            found.append(ended(child)[1:])
        if max(user for found in figures for user, _ in found) >= LONG:
            break
    told = [f"{answer.read_text().partition(chr(10))[0]}, {min(user for user, _ in found):.2f} s "
            f"{max(peak for _, peak in found):.0f} MiB" for answer, found in zip(answers, figures)]
    return "; the yardstick: ".join(told)


def plant_of(program, word):
    """Returns a plant's name and configuration: N generated stations, a line, or a file."""
    if double_track.LINE.fullmatch(word):
        return f"line {word}", double_track.configuration(word)
    if not word.isdigit():
        return Path(word).stem, Path(word).read_bytes()
    made = subprocess.run([program, "make", "--stations", word], stdout=subprocess.PIPE)
    if made.returncode != 0:
        sys.exit(f"no {word} stations are made: make takes 1 to 16")
    return f"stations {word}", made.stdout


def size_of(configuration):
    """Returns the number of sections, points and routes."""
    document = json.loads(configuration)
    points = sum(section["kind"] == "point" for section in document["sections"])
    return f"{len(document['sections'])} sections, {points} points, {len(document['routes'])} routes"


def conflicts_of(certificate):
    """Returns a certificate's queries, each with its number of steps that have a literal."""
    queries = []
    with open(certificate, encoding="ascii") as lines:
        for line in lines:
            if line.startswith("query "):
                queries.append([*line.split()[1:], 0])
            elif line.startswith("step ") and not line.startswith("step 0 "):
                queries[-1][2] += 1
    return queries


def solver_figures(name, path, seconds):
    """Returns another solver's answer, seconds and conflicts, or a dash if it is missing. An ended
    solver answers `over`."""
    if shutil.which(name) is None:
        return f"{name} -"
    output = path.with_suffix(".out")
    limited = ["sh", "-c", f'ulimit -t {seconds} && exec "$0" "$@"', *SOLVERS[name], str(path)]
    with open(output, "wb") as out:
        status, user, _, _ = measured(limited, subprocess.DEVNULL, out)
    found = CONFLICTS.findall(output.read_text(errors="replace"))
    answer = {10: "sat", 20: "unsat"}.get(status, "over" if user > seconds - 1 else f"status {status}")
    return f"{name} {answer} {user:.2f} s {''.join(found[-1]) if found else '-'} conflicts"


def measure_query(program, directory, kind, number, conflicts, seconds):
    """Prints the figures of a query."""
    path = directory / f"{kind}{number}.cnf"
    with open(directory / "plant.json", "rb") as given, open(path, "wb") as out:
        command = [program, "export", "--columns", "free", "--query", kind, "--number", number]
        _, user, peak, _ = measured(command, given, out)
    with open(path, encoding="ascii") as formula:
        _, _, variables, clauses = formula.readline().split()
    others = "; ".join(solver_figures(name, path, seconds) for name in SOLVERS)
    print(f"    {kind} {number}: {variables} variables, {clauses} clauses, {conflicts} conflicts; "
          f"export {user:.2f} s {peak:.0f} MiB; {others}", flush=True)


def shortened(text):
    """Writes a refutation without deletions, line by line: this script's memory adds to each later
    peak."""
    shorter = text.with_suffix(".shorter")
    with open(text, "rb") as lines, open(shorter, "wb") as out:
        out.writelines(refutations.only_additions(lines))
    return shorter


def measure_checks(program, directory, queries, yardsticks):
    """Prints the figures of audit, and of rup on the last query."""
    formulas = [str(directory / f"{kind}{number}.cnf") for kind, number, _ in queries]
    files = [str(directory / "cert"), *formulas]
    yardstick = yardsticks.get("audit")
    print("    audit:", beside([program, "audit", "--columns", "free", "--cert", str(directory / "cert")],
                               yardstick and [yardstick, *files], directory), flush=True)
    if shutil.which("cadical"):
        kind, number, _ = queries[-1]
        text = directory / "text"
        measured(["cadical", "-q", "-n", "--no-binary", formulas[-1], str(text)],
                 subprocess.DEVNULL, subprocess.DEVNULL)
        if text.stat().st_size > refutations.LONGEST:
            text = shortened(text)
        yardstick = yardsticks.get("rup")
        print(f"    rup, a text of {text.stat().st_size} bytes:",
              beside([program, "rup", "--columns", "free", "--query", kind, "--number", number,
                      "--cert", str(text)],
                     yardstick and [yardstick, formulas[-1], str(text)], directory), flush=True)


def measure(program, word, directory, options):
    """Prints the figures of a plant."""
    name, configuration = plant_of(program, word)
    (directory / "plant.json").write_bytes(configuration)
    with open(directory / "plant.json", "rb") as given, open(directory / "report", "wb") as out:
        budget = ["--conflicts", options["conflicts"]] if "conflicts" in options else []
        command = [program, "verify", "--columns", "free", *budget, "--cert", str(directory / "cert")]
        status, user, peak, clock = measured(command, given, out)
    verdict = (directory / "report").read_text().partition("\n")[0]
    print(f"{name}, {size_of(configuration)}: {verdict or f'status {status}'}; {user:.2f} s user, "
          f"{clock:.2f} s, {peak:.0f} MiB", flush=True)
    if (directory / "cert").exists():
        queries = conflicts_of(directory / "cert")
        size = (directory / "cert").stat().st_size
        print(f"    certificate of {size} bytes, {sum(query[2] for query in queries)} conflicts")
        for query in queries:
            measure_query(program, directory, *query, int(options.get("seconds", SECONDS)))
        measure_checks(program, directory, queries, options)


def parser():
    line = Parser("tools/benchmark", "Measures verify and audit beside cadical, minisat and picosat on the same "
                  "formulas, all in one run.\n\nA WORD is a number of generated stations, a double-track line "
                  "such as bs or 11L, a file, or a setting:\nseconds=N ends another solver after N CPU seconds "
                  "(600); conflicts=N is verify's budget; audit=FILE and\nrup=FILE name a yardstick that runs "
                  "beside ours.", 2, "tools/benchmark PROGRAM [WORD ..]")
    line.add_argument("program", metavar="PROGRAM", help="the program that is measured")
    line.add_argument("words", nargs="*", metavar="WORD",
                      help="plants and settings (1 2 4 8 16 and the terminus throat)")
    return line


def main(words):
    """Measures each plant; returns the exit status."""
    given = parser().parse_args(words)
    program, options = str(Path(given.program).resolve()), {}
    for word in [word for word in given.words if "=" in word]:
        name, _, value = word.partition("=")
        options[name] = value if name in ("seconds", "conflicts") else str(Path(value).resolve())
    print("\n".join(head(program, options)))
    for word in [word for word in given.words if "=" not in word] or PLANTS:
        with tempfile.TemporaryDirectory(prefix="irv-benchmark-") as directory:
            measure(program, word, Path(directory), options)
    print(load())
    return 0
