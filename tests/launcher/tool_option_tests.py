"""Tests of the launcher options that call a tool."""

import re
import subprocess

from irvtools.launcher import command_table
from irvtools.paths import TOP

from tests.launcher.build_tests import has_built
from tests.launcher.repository_copy import TOOLS, call, copy_tests


def calls_each_tool(top):
    """Each option builds the program and passes it and the arguments to its tool, whose status is
    the answer."""
    program = top.resolve() / "crates/irv/out/irv"
    is_first = True
    for option, tool in TOOLS.items():
        words = ["--with-network", "a b", "--columns=free", "-x", "--", "y"]
        output, _, status, calls = call(top, option, *words)
        if calls[-1] != f"{tool}: --program {program} {' '.join(words)}" \
                or (output, status) != (b"", 3) or has_built(calls) != is_first:
            return False
        is_first = False
    return True


def names_a_missing_tool(top):
    """A missing tool is named with status 125, and nothing is built."""
    for option, tool in TOOLS.items():
        (top / "tools" / tool).unlink()
        line = f"irv: tools/{tool}, which {option} calls, does not exist\n"
        if call(top, option, "x") != (b"", line.encode(), 125, []):
            return False
    (top / "tests/run").unlink()
    line = b"irv: tests/run, which --test calls, does not exist\n"
    return call(top, "--test") == (b"", line, 125, [])


def builds_for_csv_if_asked(top):
    """`--csv` builds only for `--with-network`, also if shortened. Otherwise the tool gets the
    built program or a file name that does not exist."""
    program = top.resolve() / "crates/irv/out/irv"
    plain = call(top, "--csv", "--in", "a b")
    words = ("--with-network", "--w")
    network = [call(top, "--csv", "--compare", word, "x")[3] for word in words]
    built = call(top, "--csv", "--in", "a b")
    return (plain == (b"", b"", 3, [f"csv: --program {program}.unbuilt --in a b"])
            and [calls[-1] for calls in network]
            == [f"csv: --program {program} --compare {word} x" for word in words]
            and has_built(network[0]) and built[3] == [f"csv: --program {program} --in a b"])


def takes_no_other_program(top):
    """An argument that names another program is refused, and no tool is called."""
    for option in (*TOOLS, "--test"):
        for words, named in ((["--program", "x"], "--program"), (["a", "--prog", "x"], "--prog"),
                             (["a", "--program=x"], "--program=x")):
            output, errors, status, calls = call(top, option, *words)
            line = f"irv: {option} takes no {named}: it calls "
            if (output, status, calls) != (b"", 125, []) or not errors.decode().startswith(line):
                return False
    return True


def passes_similar_options_on(top):
    """An option that only starts like `--program` is passed on."""
    call(top, "--build")
    calls = [call(top, "--html", "p.html", *words)[3] for words in (["--progress"], ["--p-x=y"])]
    return [line[0].split(" p.html ")[1] for line in calls] == ["--progress", "--p-x=y"]


def options_of_tool(tool):
    """Returns the options of a tool's own help, with values and defaults or `None`."""
    text = subprocess.run(["python3", TOP / "tools" / tool, "--help"], stdin=subprocess.DEVNULL,
                          stdout=subprocess.PIPE, check=True).stdout.decode()
    listed = re.split(r"\n  (?=-)", text.partition("\noption")[2])[1:]
    found = {}
    for item in listed:
        line = " ".join(item.split("\n\n")[0].split())
        name, value, default = re.fullmatch(
            r"(?:-h, )?(--[a-z-]+)(?: ([A-Z]\S*|\{\S+\}))?(?: .*?)?(?:\(([^()]*)\))?",
            line).groups()
        if name not in ("--help", "--program"):
            value = value and value.strip("{}").replace(",", "|" if "{" in value else ",")
            found[name] = value, default and re.sub(r"^\d+ here$", "the processors here", default)
    return found


def options_of_table(entry):
    """Returns the same of an entry of the table."""
    found = {}
    for words, _, *default in entry.parts("option"):
        name, _, value = words.partition(" ")
        is_stated = default and default[0] != "needed"
        found[name] = value or None, default[0] if is_stated else None
    return found


def lists_the_options_of_each_tool(_):
    """The table has each tool's options, with the values and defaults of the tool's help."""
    tools = [entry for entry in command_table.of_kind("launcher") if entry.value("tool")]
    faults = []
    for entry in tools:
        if not (TOP / "tools" / entry.value("tool")).is_file():
            continue
        told, listed = options_of_tool(entry.value("tool")), options_of_table(entry)
        faults += [f"{entry.name} {name}: {told.get(name)}, and in the table {listed.get(name)}"
                   for name in sorted({*told, *listed}) if told.get(name) != listed.get(name)]
    assert not faults, faults
    return len(tools) == len(TOOLS)


ToolOptionTests = copy_tests("ToolOptionTests", (
    lists_the_options_of_each_tool, calls_each_tool, names_a_missing_tool,
    builds_for_csv_if_asked, takes_no_other_program, passes_similar_options_on))
