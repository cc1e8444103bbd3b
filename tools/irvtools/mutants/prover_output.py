"""The prover's output about changed functions."""

import re
from enum import Enum

LINE = re.compile(r"^fn (\S+): (.*)$", re.M)
# beginnings of reasons in a function's line
CALLS = re.compile(r"it calls .*which (?:is|are) not proved")
OPEN_GOAL = re.compile(r"`search` did not prove|`grind` did not prove|`\w[\w-]*` is not answered")
STANDS_ON = re.compile(r"it stands on `[\w.+-]*?\.(\w+)\.([\w+'-]+)`")
ERROR = re.compile(r"^(?:\./)?(\S+?):\d+:\d+: error: (?:`([^`]*)`: )?(.*)", re.M)
# errors that only say that a name is gone
GONE = re.compile(r"has no field|is not in scope|has no `|was not admitted|is no name")
UNREAD = re.compile(r"is not in scope|has no field|is no name|operand is missing|expected the end|"
                    r"cannot continue")
LAST = re.compile(r"^(?:only=\d+ )?holes=\d+\n\Z", re.M)


class Verdict(Enum):
    """The verdict of a check on a changed function."""

    REFUSED = "refused"
    PROVED = "still proved"
    CALLS = "its own goals are proved, and it calls what isn't"
    GONE = "a proof file names what it took away, so nothing is said of the contract"
    UNKNOWN = "the prover gave no verdict"


class Said:
    """The output of one check."""

    def __init__(self, text, status):
        self.text, self.status = text, status
        self.lines = dict(LINE.findall(text))
        self.errors = [(path, name, what) for path, name, what in ERROR.findall(text)]

    def why_unread(self):
        """Returns why the prover could not read the sources, if so."""
        if self.status == 1 and LAST.search(self.text):
            unread = (f"{path}: {re.sub('`[^`]*`', '..', what)}" for path, name, what in self.errors
                      if path.startswith(("src/", "specs/"))
                      and (not name or UNREAD.search(re.sub("`[^`]*`", "", what))))
            return next(unread, None)
        if LAST.search(self.text):
            return None
        told = [line for line in self.text.split("\n") if "error" in line] or self.text.split("\n")
        return told[0][:160] or f"status {self.status}"

    def names_of(self, function):
        """Returns the names of a function's lines: its own, and its closures'."""
        end, inside = f"::{function.path}", f"::fn::{function.path}::"
        if not function.owner:
            inside = f"::{function.module}::fn::{function.name}::".replace("::::", "::")
        return [name for name in self.lines
                if name.endswith(end) or inside in name and "+Fn" not in name]

    def verdict(self, function):
        """Returns the verdict on a function, and the reason."""
        found = [self.of_line(name) for name in self.names_of(function)]
        order = (Verdict.REFUSED, Verdict.UNKNOWN, Verdict.GONE, Verdict.CALLS, Verdict.PROVED)
        return min(found, key=lambda it: order.index(it[0]),
                   default=(Verdict.UNKNOWN, "no line of the check speaks of it"))

    def of_line(self, name):
        """Returns the verdict of one line of the check."""
        said = self.lines[name]
        if said == "no holes":
            return Verdict.PROVED, said
        if not said.startswith(("not proved", "no proof")):
            return Verdict.UNKNOWN, said
        if OPEN_GOAL.search(said):
            return Verdict.REFUSED, said
        if STANDS_ON.search(said) or not CALLS.search(said):
            return self.of_answers(name, said)
        return Verdict.CALLS, said

    def of_answers(self, name, said):
        """Returns the verdict if a proof file's answers are refused: by the answers that the line
        names, or the whole file's if it names none."""
        *modules, function = name.split("::")[1:]
        # a recursive function's directory has a + before its name
        folders = tuple("/".join(["proofs", *modules, sign + function, ""]) for sign in ("", "+"))
        named = [answer for _, answer in STANDS_ON.findall(said)]
        own = [what for path, answer, what in self.errors if path.startswith(folders)
               and (not named or not answer or answer.split(".")[0] in named)]
        if any(not GONE.search(what) for what in own):
            return Verdict.REFUSED, said
        return (Verdict.GONE if own else Verdict.UNKNOWN), said
