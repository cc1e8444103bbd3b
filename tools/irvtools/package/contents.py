"""The contents of a package: the configuration as read, the answers to it in dependency order, and
what they depend on."""

from __future__ import annotations

import hashlib
import shutil
from pathlib import Path

from irvtools.batch.file_names import shown
from irvtools.calls import provenance
from irvtools.package import redraw
from irvtools.package.documents import checker_names, document_names
from irvtools.package.findings import Findings
from irvtools.package.options import Options, Refused
from irvtools.package.program_version import version_lines, version_of
from irvtools.package.recorded_calls import CONFIGURATION, PROGRAM, Call, Calls, tell, write_record
from irvtools.package.source_archive import archive_of, files_here
from irvtools.package.package_parts import ARCHIVE
from irvtools.paths import TOP

CERTIFICATE, FOUND_RUN, SEARCH_RUN = "verify.cert", "verify.run", "search.run"
VERSION = "version.txt"
# Solvers that write refutations, with their arguments for tools/verify_with.
SOLVERS = {"cadical": [], "picosat.trace": ["--solver", "picosat.trace -n -R {proof} {cnf}"]}
# Time limit of the report for verify, which has answered the same before.
REPORT_SECONDS = "86400"


class Package:
    """A package in the making, in its own directory."""

    def __init__(self, options: Options, given: bytes, room: Path):
        self.options, self.given, self.room = options, given, room
        self.runs = []              # file, name and kind of each given run
        self.solvers = []           # version and call name of each solver
        self.calls = self.findings = None
        self.said = self.sum_of_sums = ""       # result in one line, and checksum to sign

    def make(self) -> None:
        """Makes the whole package."""
        self.take()
        self.calls = Calls(self.room)
        self.findings = Findings(self.room, self.calls.all)
        self.ask_rules()
        if self.findings.is_plant:
            self.ask_runs()
            self.ask_verdict()
        self.draw()
        self.said = self.findings.said
        self.sum_up()

    # -- reading

    def take(self) -> None:
        """Copies the configuration, the runs, the program, and what its answers depend on."""
        (self.room / CONFIGURATION).write_bytes(self.given)
        (self.room / "program").mkdir()
        shutil.copyfile(self.options.program, self.room / PROGRAM)
        (self.room / PROGRAM).chmod(0o755)
        licences = self.options.program.with_name(self.options.program.name + ".licences")
        if licences.is_file():
            shutil.copyfile(licences, self.room / "program/irv.licences")
        self.take_sources()
        for number, run in enumerate(self.options.runs, 1):
            name = f"runs/{number}.{'run' if run.kind == 'run' else 'scene'}"
            (self.room / "runs").mkdir(exist_ok=True)
            (self.room / name).write_bytes(run.data)
            self.runs.append((name, shown(run.name), run.kind))

    def take_sources(self) -> None:
        """Writes the source archive, and copies its checkers and documents."""
        tell("sources and documents")
        files = files_here()
        archive = self.room / ARCHIVE
        archive.write_bytes(archive_of(files, provenance.version() or "unknown"))
        copies = [(name, name.replace("tools/", "checkers/", 1)) for name in checker_names(files)]
        copies += [(name, f"documents/{name}") for name in document_names(files)]
        for name, place in copies:
            mode, data = files[name] if name in files else (0o755, (TOP / name).read_bytes())
            (self.room / place).parent.mkdir(parents=True, exist_ok=True)
            (self.room / place).write_bytes(data)
            (self.room / place).chmod(mode)
        lines = version_lines(self.options.program, self.room / PROGRAM, files, archive)
        (self.room / VERSION).write_text("\n".join(lines) + "\n", encoding="utf-8")

    # -- questions

    def ask_rules(self) -> None:
        """Asks for the broken rules."""
        check = self.calls.program("check-strict", "check", "strict")
        if check.fault:
            raise Refused(f"nothing is known of the configuration: {check.fault}")
        if self.findings.is_plant and not self.findings.is_clean:
            self.calls.program("check-free", "check", "free")

    def ask_runs(self) -> None:
        """Asks about the given runs and scenarios."""
        for number, (file, _, kind) in enumerate(self.runs, 1):
            command = "replay" if kind == "run" else "drive"
            self.ask_run(file, f"{command}-{number}", command)

    def ask_run(self, file: str, name: str, command: str) -> Call:
        """Asks about a run or scenario in the package."""
        return self.calls.program(name, command, self.findings.columns, "--run", file)

    def ask_verdict(self) -> None:
        """Asks for the verdict, and everything that checks it."""
        verdict = self.calls.program("verify", "verify", self.findings.columns,
                                     *self.options.of_verify, "--cert", CERTIFICATE,
                                     made=[CERTIFICATE])
        if self.findings.is_safe:
            self.judge(verdict.line.removeprefix("safe k="))
            return
        if self.findings.has_run:
            self.replay(FOUND_RUN, "replay-verify", verdict.output.partition("\n")[2])
        if self.findings.hazard is None and self.options.search_seconds:
            self.search()

    def judge(self, k: str) -> None:
        """Checks the certificate, and refutes the queries with other tools."""
        columns = self.findings.columns
        self.calls.program("audit", "audit", columns, "--cert", CERTIFICATE)
        of_tool = ["--columns", columns, "--program", PROGRAM, CONFIGURATION, CERTIFICATE]
        self.calls.ask("audit-outside", ["python3", "checkers/audit", *of_tool])
        (self.room / "lrat").mkdir()
        self.calls.ask("lrat", ["python3", "checkers/lrat", *of_tool, "lrat"], made=["lrat"])
        for name, words in SOLVERS.items():
            if self.options.solver_seconds and shutil.which(name):
                self.ask_solver(name, words, k)

    def ask_solver(self, name: str, words: list[str], k: str) -> None:
        """Refutes every query with a solver. The refutations are kept, and `irv rup` checks each
        again."""
        directory, columns = Path("solvers", name), self.findings.columns
        (self.room / directory).mkdir(parents=True)
        asked = self.calls.ask(f"verify_with-{name}", [
            "python3", str(TOP / "tools/verify_with"), "--k", k, "--columns", columns,
            "--program", PROGRAM, "--seconds", str(self.options.solver_seconds),
            "--keep", str(directory), *words, CONFIGURATION], is_repeated=False)
        asked.words[1] = "tools/verify_with"
        self.solvers.append((version_of(name), asked.name))
        refuted = [line.split()[1:] for line in asked.output.splitlines()
                   if line.startswith("refuted ")]
        kept = {f"{kind}-{number}.proof" for kind, number in refuted}
        for file in (self.room / directory).iterdir():
            if file.name not in kept:
                file.unlink()
        for kind, number in refuted:
            file = str(directory / f"{kind}-{number}.proof")
            self.calls.program(f"rup-{name}-{kind}-{number}", "rup", columns, "--query", kind,
                               "--number", number, "--cert", file)

    def replay(self, file: str, name: str, run: str) -> None:
        """Keeps and replays the text of a run."""
        (self.room / file).write_text(run, encoding="ascii")
        self.ask_run(file, name, "replay")

    def search(self) -> None:
        """Searches for a run to a hazard. It counts only by replay's answer."""
        seconds = str(self.options.search_seconds)
        searched = self.calls.ask("search", ["python3", str(TOP / "tools/search"), "--seconds",
                                             seconds, "--program", PROGRAM], is_repeated=False)
        searched.words[1] = "tools/search"
        if not searched.status:
            self.replay(SEARCH_RUN, "replay-search", searched.output)

    # -- pages

    def draw(self) -> None:
        """Makes the report, the page and the script; `redraw` can make them again. The report shows
        a run to a hazard that the search found, otherwise the first given run. It asks verify
        again, which writes the same certificate. It has no times, so a repeated package is the
        same."""
        given = [file for file, _, _ in self.runs[:1]]
        shown = [SEARCH_RUN] if self.findings.call("replay-search") else given
        words = ["python3", redraw.HTML, redraw.REPORT, "--program", PROGRAM,
                 "--search-seconds", "0", "--verify-seconds", REPORT_SECONDS, "--without-times",
                 "--cert", redraw.REPORT_CERTIFICATE, *self.options.of_verify,
                 *(word for file in shown for word in ("--run", file)), *self.options.of_report]
        tell("report")
        status, output, errors = redraw.draw_report(self.room, words)
        call = Call("report", words, status, output.decode(errors="replace"),
                    errors.decode(errors="replace"), (), False)
        (self.room / "answers/report.txt").write_bytes(output)
        if errors:
            (self.room / "answers/report.err").write_bytes(errors)
        self.calls.all.append(call)
        write_record(self.room, self.calls.all, {
            "configuration": self.options.name, "about": self.options.about,
            "options": self.options.of_verify, "runs": self.runs, "solvers": self.solvers})
        redraw.draw_pages(self.room, self.room)

    def sum_up(self) -> None:
        """Writes all files' checksums."""
        names = sorted(path.relative_to(self.room).as_posix() for path in self.room.rglob("*")
                       if path.is_file())
        lines = "".join(f"{hashlib.sha256((self.room / name).read_bytes()).hexdigest()}  {name}\n"
                        for name in names)
        (self.room / "SHA256SUMS").write_text(lines, encoding="ascii")
        self.sum_of_sums = hashlib.sha256(lines.encode()).hexdigest()
