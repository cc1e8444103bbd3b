"""Reads a document's sessions and runs them: the output must be what the document prints.

A session is a block between lines of three backquotes with a line that begins with `$ `. Such a
line is a command. The lines up to the next command are its output, with errors. A command line that
ends with a backslash continues on the next line. One shell runs a document's sessions in order, so
later ones have earlier ones' files.
"""

import re
import shutil
import subprocess
from dataclasses import dataclass

TIMEOUT_SECONDS = 300
BLOCK = re.compile(r"^```\w*\n(.*?)^```$", re.S | re.M)
# the program that a tool also calls
CALLS = {"tools/verify_with": "cadical", "./irv --batch": "snakemake"}
# what a call prints only if it takes over ten seconds
PROGRESS = re.compile(r"irv --batch: \d+ of \d+ jobs")


@dataclass
class Command:
    """A document's command, the lines that it prints, and its line number."""
    text: str
    prints: list
    line: int


def sessions_of(text):
    """Returns the command lists of a document's sessions."""
    found = []
    for block in BLOCK.finditer(text):
        commands, goes_on = [], False
        first = text.count("\n", 0, block.start(1)) + 1
        for number, line in enumerate(block[1].splitlines(), first):
            if goes_on:
                commands[-1].text += "\n" + line
            elif line.startswith("$ "):
                commands.append(Command(line[2:], [], number))
            elif commands:
                commands[-1].prints.append(line)
            goes_on = (goes_on or line.startswith("$ ")) and line.endswith("\\")
        if commands:
            found.append(commands)
    return found


def absent_program(commands):
    """Returns the first program that these commands call and that is missing, or `None`."""
    for command in commands:
        words = re.findall(r"(?:^|\||;|&&)\s*([\w./-]+)", command.text)
        for name in words + [name for call, name in CALLS.items() if call in command.text]:
            is_own = "/" in name or subprocess.run(["bash", "-c", f"type {name}"], check=False,
                                                   stdout=subprocess.DEVNULL,
                                                   stderr=subprocess.DEVNULL).returncode == 0
            if not is_own and not shutil.which(name):
                return name
    return None


def printed(commands, directory):
    """Returns the output lines of each command but for progress; one shell runs all in order."""
    mark = "== a command of the document =="
    script = "exec 2>&1\n" + "".join(f"echo {mark!r}\n{command.text}\n" for command in commands)
    done = subprocess.run(["bash", "-c", script], cwd=directory, stdin=subprocess.DEVNULL,
                          stdout=subprocess.PIPE, timeout=TIMEOUT_SECONDS, check=False)
    parts = done.stdout.decode(errors="replace").split(mark + "\n")[1:]
    return [[line for line in part.splitlines() if not PROGRESS.fullmatch(line)] for part in parts]


def run(text, directory):
    """Runs a document's sessions. Returns how many commands printed what they should, the others'
    faults, and which sessions were left out and why."""
    passed, faults, left_out, commands = 0, [], [], []
    for session in sessions_of(text):
        absent = absent_program(session)
        if absent:
            left_out.append(f"line {session[0].line}: {absent} isn't there")
        else:
            commands += session
    came = printed(commands, directory)
    for command, lines in zip(commands, came + [None] * len(commands)):
        if lines == command.prints:
            passed += 1
        else:
            faults.append(f"line {command.line}: $ {command.text}\n"
                          + shown("wanted", command.prints) + shown("came", lines))
    return passed, faults, left_out


def shown(what, lines):
    """Returns the wanted or actual lines for a reader."""
    told = ["nothing, since the shell ended before"] if lines is None else lines or ["nothing"]
    return "".join(f"  {what}: {line}\n" for line in told)
