"""Tests of the manual page, the completions, and the check of the commands page."""

import os
import re
import shutil
import subprocess
import unittest

from irvtools.launcher import command_table

from tests.launcher.repository_copy import TOP, copy_tests


def described(part):
    """Returns the manual page or the completions."""
    return subprocess.run(["python3", "-m", "irvtools.launcher.manual", part],
                          env=dict(os.environ, PYTHONPATH=str(TOP / "tools")), check=True,
                          stdout=subprocess.PIPE).stdout.decode()


def has_a_manual(_):
    """The manual page has each command's call and output, and each option and exit status of the
    program, but nothing of the launcher."""
    page = described("page").replace("\\-", "-")
    statuses = [status for status in command_table.of_kind("status") if status.name != "125"]
    commands, options = command_table.of_kind("command"), command_table.of_kind("option")
    return (all(f"\n{command_table.usage(it)}\n" in page for it in commands) and len(commands) == 10
            and all(f"\\fB{report}\\fR\nstatus {number}: {meaning}\n" in page
                    for it in commands for number, report, meaning in it.parts("report"))
            and all(f"\\fB{it.name}\\fR {it.value('value')}\n{it.value('summary')}" in page
                    for it in options)
            and all(f".TP\n{it.name}\n{it.value('name')}. " in page for it in statuses)
            and len(statuses) == 11 and not re.search(r"`|\./irv|--unproved", page))


def is_right_troff(_):
    """`groff` reads the manual page without a warning."""
    if shutil.which("groff") is None:
        raise unittest.SkipTest("there is no groff")
    done = subprocess.run(["groff", "-man", "-Tascii", "-ww", "-z"], check=False,
                          input=described("page").encode(), stdout=subprocess.PIPE,
                          stderr=subprocess.PIPE)
    return (done.returncode, done.stderr) == (0, b"")


def completes(top):
    """The completions know the commands, their options and the values."""
    (top / "irv.bash").write_text(described("completions"))
    (top / "a.cert").write_text("")

    def offered(*words):
        script = ('. ./irv.bash; COMP_WORDS=("$@"); COMP_CWORD=$(($# - 1)); _irv 2>/dev/null; '
                  'printf "%s\\n" "${COMPREPLY[@]}"')
        done = subprocess.run(["bash", "-c", script, "bash", "irv", *words], cwd=top,
                              stdout=subprocess.PIPE, check=True)
        return done.stdout.decode().split()

    commands = [entry.name for entry in command_table.of_kind("command")]
    return (offered("ver") == ["verify"] and offered("re") == ["replay"]
            and offered("") == commands and offered("make", "--") == ["--stations"]
            and offered("export", "--q") == ["--query"]
            and offered("check", "--depth", "4", "--q") == []
            and offered("rup", "--query", "") == ["hazard", "breach", "step"]
            and offered("verify", "--cert", "a.") == ["a.cert"]
            and offered("make", "--stations", "") == [])


def page_of_table():
    """Returns a commands page with everything that the table requires."""
    calls = [f"./{command_table.usage(command)}" for command in command_table.of_kind("command")]
    launcher = [f"| `{entry.name} ARGUMENTS` | text |"
                for entry in command_table.of_kind("launcher")]
    statuses = [f"| {entry.name} | {entry.value('name')} | text |"
                for entry in command_table.of_kind("status") if entry.name != "125"]
    options = command_table.table().replace("0 to 16 |", "0 to 16; 1 to 16 for a step query |")
    return "\n".join([*calls, *options.splitlines(), *launcher, *statuses])


def finds_each_fault_of_a_page(_):
    """The check accepts a page made from the table. It names each missing line, wrong default or
    range, and unknown option."""
    page = page_of_table()
    if command_table.page_faults(page):
        return False
    for line in page.splitlines():
        if not line.startswith(("| ---", "| option")) \
                and len(command_table.page_faults(page.replace(line, "other", 1))) != 1:
            return False
    edits = (("| `4` |", "| `5` |"), ("1 to 16 | `4`", "1 to 17 | `4`"),
             ("`strict`, `free` |", "`strict` |"), ("verify, demo |", "verify |"),
             ("| 5 | Refused", "| 5 | Denied"))
    return (all(command_table.page_faults(page.replace(old, new, 1)) for old, new in edits)
            and command_table.page_faults(page + "\n| `--nosuch` | text |")
            == ["a row is about --nosuch, which is not in the table"])


def is_the_table_of_the_commands_page(_):
    """docs/reference/commands.md has the table's calls, options, statuses and launcher options."""
    page = TOP / "docs/reference/commands.md"
    faults = command_table.page_faults(page.read_text(encoding="utf-8"))
    assert not faults, faults
    return True


def is_the_same_for_bash(top):
    """Bash and Python read the same entries, fields and values from the table."""
    script = ('top=$1; no_answer() { exit 1; }; . "$1/tools/launcher/table.bash"; read_table; '
              'for entry in "${!fields[@]}"; do printf "%s:%s" "$entry" "${fields[$entry]}"; done')
    done = subprocess.run(["bash", "-c", script, "bash", str(top)], stdout=subprocess.PIPE,
                          check=True)
    read = "".join(f"{entry.kind} {entry.name} {key}:" + "".join(f" {value}\n" if value else "\n"
                                                                 for value in values)
                   for entry in command_table.read() for key, values in entry.fields.items())
    return sorted(done.stdout.decode().splitlines()) == sorted(read.splitlines()) != []


ManualTests = copy_tests("ManualTests", (
    has_a_manual, is_right_troff, completes, finds_each_fault_of_a_page,
    is_the_table_of_the_commands_page, is_the_same_for_bash))
