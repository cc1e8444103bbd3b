"""Tests of help: each form is printed at once and complete."""

import re

from irvtools.launcher import command_table

from tests.launcher.repository_copy import TOOLS, call, copy_tests, write_scripts

COMMANDS = [entry.name for entry in command_table.of_kind("command")]
LAUNCHER = [entry.name for entry in command_table.of_kind("launcher")]
# replaces a command that must not be called
CALLED = '#!/bin/sh\necho "called: $0 $*" >>@TOP@/calls\nexit 1\n'


def forms():
    """Returns the arguments of each form of help, with its first line."""
    first = "irv, a verifier for railway interlockings"
    found = [(["--help"], first), (["-h"], first), (["chekc", "--help"], first)]
    for name in COMMANDS:
        found += [([name, word], f"./irv {name} ") for word in ("--help", "-h")]
        found += [(words, f"./irv {name} ")
                  for words in (["--help", name], ["--unproved", name, "-h"])]
    for name in LAUNCHER[:-1]:
        found += [([name, "--help"], f"./irv {name}")]
    found += [(["--html", "p.html", "--depth", "4", "-h"], "./irv --html "),
              (["--csv", "--in", "d", "--named", "--help"], "./irv --csv "),
              (["verify", "--depth", "4", "--help"], "./irv verify "),
              (["check", "nosuch", "--help", "--", "x"], "./irv check ")]
    return found


def helps_with_nothing_there(top):
    """Each form of help is printed with status 0, even without a build and with only bash on the
    path."""
    path = top / "only-bash"
    path.mkdir()
    (path / "bash").symlink_to("/bin/bash")
    for words, begin in forms():
        output, errors, status, calls = call(top, *words, path=path)
        if (errors, status, calls) != (b"", 0, []) or not output.decode().startswith(begin):
            return False
    return not (top / "crates/irv/out").exists()


def calls_nothing_for_help(top):
    """No form of help calls `rt`, Python, a tool or the file at the program's place, though each
    exists."""
    places = ["bin/rt", "bin/python3", "crates/irv/out/irv", "tests/run",
              *(f"tools/{name}" for name in TOOLS.values())]
    write_scripts(top, dict.fromkeys(places, CALLED))
    answers = [call(top, *words) for words, _ in [*forms(), ([], "")]]
    return all(calls == [] for *_, calls in answers)


def prints_usage_for_no_arguments(top):
    """Without arguments the launcher prints `irv: usage` and the help to standard error, with
    status 7, and builds nothing, also after `--unproved`."""
    text = call(top, "--help")[0]
    wanted = b"", b"irv: usage\n" + text, 7, []
    return call(top) == wanted and call(top, "--unproved") == wanted


def asks_for_help_only_before_the_end(top):
    """After `--`, and as an option's value, `--help` and `-h` are passed on."""
    call(top, "--build")
    passed = (["check", "--", "--help"], ["check", "--", "-h"], ["replay", "--run", "--help"],
              ["replay", "--run=--help"], ["verify", "--cert", "-h"])
    tools = (["--batch", "d", "o", "--snakemake", "--help"], ["--html", "p.html", "--run", "-h"],
             ["--html", "--", "--help"])
    return ([call(top, *words)[0].decode() for words in passed]
            == [" ".join(words) + "\n" for words in passed]
            and [call(top, *words)[3][0].split(" ", 3)[3] for words in tools]
            == [" ".join(words[1:]) for words in tools])


def lists_everything(top):
    """`--help` has a sentence for each command and each launcher option, with its default, each
    exit status, and two examples."""
    text = call(top, "--help")[0].decode()
    words = " ".join(text.split())
    options, statuses = command_table.of_kind("option"), command_table.of_kind("status")
    for entry in [*command_table.of_kind("command"), *command_table.of_kind("launcher")]:
        if not re.search(rf"^  {entry.name} ", text, re.M) or entry.value("summary") not in words:
            return False
    for option in options:
        default = option.value("default")
        if f"{option.name} {option.value('value')} {option.value('summary')}" not in words \
                or default is not None and f"Default: {default}." not in words:
            return False
    return (all(re.search(rf"^  {status.name} ", text, re.M) for status in statuses)
            and len(statuses) == 12 and text.count("\n  ./irv ") >= 2
            and max(map(len, text.splitlines())) <= 80)


def lists_what_a_command_takes(top):
    """A command's help has its usage, exactly its options, and each answer with its status."""
    for command in command_table.of_kind("command"):
        text = call(top, command.name, "--help")[0].decode()
        options = re.findall(r"^  (--[a-z]+) ", text, re.M)
        listed = [option.name for option in command_table.options_of(command.name)]
        answers = re.findall(r"^  (\d+)  (.*?)(?:  |$)", text, re.M)
        wanted = [(status, report) for status, report, _ in command.parts("report")]
        if text.splitlines()[0] != f"./{command_table.usage(command)}" or options != listed \
                or answers != wanted or command.value("summary") not in " ".join(text.split()):
            return False
    return True


def lists_what_a_tool_takes(top):
    """The help of a launcher option has its usage and exactly its tool's options."""
    for entry in command_table.of_kind("launcher")[:-1]:
        text = call(top, entry.name, "--help")[0].decode()
        calls = [f"./irv {entry.name} {usage}".strip() for usage in entry.fields["usage"]]
        options = re.findall(r"^  (--[a-z-]+)", text, re.M)
        listed = [parts[0].split()[0] for parts in entry.parts("option")]
        if [line for line in text.splitlines() if line.startswith("./irv ")] != calls \
                or options != listed:
            return False
    return True


def names_no_old_option(_):
    """The table has no name of earlier versions."""
    text = command_table.TABLE.read_text()
    return not re.search(r"--(try|page|play|sheet|case|adopt|sources|hunt|wait|want|wanted|lot"
                         r"|battery|check)\b", text)


HelpTests = copy_tests("HelpTests", (
    helps_with_nothing_there, calls_nothing_for_help, prints_usage_for_no_arguments,
    asks_for_help_only_before_the_end, lists_everything, lists_what_a_command_takes,
    lists_what_a_tool_takes, names_no_old_option))
