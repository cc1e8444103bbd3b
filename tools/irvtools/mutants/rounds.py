"""Tests a crate's mutants in rounds."""

import shutil
import subprocess
import time

from irvtools.mutants.edits import edited, rounds_of
from irvtools.mutants.crates import PARTS
from irvtools.mutants.prover_output import Said, Verdict

REFUSED = "refused"


class Trial:
    """A directory for tests of one crate's mutants."""

    def __init__(self, crates, name, toolchain, room):
        self.crates, self.name, self.sources = crates, name, crates.sources(name)
        self.words = crates.words(name, toolchain, room)
        self.folder = room / "tried" / name
        self.seconds = 0
        self.rounds = 0
        for part in PARTS:
            if (crates.folder(name) / part).is_dir():
                shutil.copytree(crates.folder(name) / part, self.folder / part)
        (self.folder / "kept").mkdir()

    def check(self, edits):
        """Checks the functions that these edits change, or the whole crate if an edit changes none."""
        changes = [it for edit in edits for it in edit.changes]
        for path, text in {**self.sources, **edited(self.sources, changes)}.items():
            (self.folder / path).write_text(text)
        paths = sorted({it.path for edit in edits for it in edit.functions})
        is_whole = any(not edit.functions for edit in edits)
        only = [] if is_whole else [word for path in paths for word in ("--only", path)]
        begin = time.time()
        said = self.run([*only, "--incremental", "kept"])
        if said.status == 2 and only:
            # a name that the prover has another way: all functions of its module
            only = [word for path in sorted({it.module for edit in edits for it in edit.functions})
                    for word in ("--only", path)]
            said = self.run([*only, "--incremental", "kept"])
        self.seconds += time.time() - begin
        self.rounds += 1
        return said

    def run(self, flags):
        """Returns the prover's output on the directory's crate; runs it once more if killed."""
        for _ in range(2):
            done = subprocess.run([*self.words, *flags], cwd=self.folder, stdin=subprocess.DEVNULL,
                                  stdout=subprocess.PIPE, stderr=subprocess.STDOUT,
                                  errors="replace")
            if done.returncode >= 0:
                break
        return Said(done.stdout, done.returncode)

    def try_alone(self, edit):
        """Returns an edit's result by itself."""
        said = self.check([edit])
        unread = said.why_unread()
        if unread:
            return f"BAD EDIT: the prover can't read it: {unread}"
        found = [said.verdict(it) for it in edit.functions] or [
            said.of_line(name) for name in said.lines]
        refused = next((why for verdict, why in found if verdict is Verdict.REFUSED), None)
        if refused:
            return REFUSED, refused
        if all(verdict is Verdict.PROVED for verdict, _ in found):
            return "LET THROUGH: its function is still proved"
        worst = next(it for it in found if it[0] is not Verdict.PROVED)
        return f"NOT SHOWN: {worst[0].value}: {worst[1][:160]}"

    def try_round(self, edits):
        """Returns a round's results, and the edits that need their own test."""
        if len(edits) == 1:
            return {edits[0]: self.try_alone(edits[0])}, []
        said = self.check(edits)
        if said.why_unread():
            return {}, edits
        done, left = {}, []
        for edit in edits:
            found = [said.verdict(it) for it in edit.functions]
            refused = next((why for verdict, why in found if verdict is Verdict.REFUSED), None)
            if refused:
                done[edit] = REFUSED, refused
            else:
                left.append(edit)
        return done, left

    def try_all(self, edits, is_alone):
        """Returns each edit's result: refused, with the reason, or a fault."""
        done = {}
        for edits_together in [[it] for it in edits] if is_alone else rounds_of(edits, self.sources):
            found, left = self.try_round(edits_together)
            done.update(found)
            for edit in left:
                done[edit] = self.try_alone(edit)
        shutil.rmtree(self.folder)
        return done
