"""Prints the manual page `irv.1`, or completions for bash, of an installed program.

Both come from tools/launcher/commands.txt, without the options of the launcher, which is not
installed.

    python3 -m irvtools.launcher.manual page
    python3 -m irvtools.launcher.manual completions
"""

import argparse
import re
import sys
from typing import Iterator, List

from irvtools.launcher.command_table import Entry, of_kind, options_of, usage

HEAD = """.TH IRV 1 "" "" ""
.SH NAME
irv \\- a verifier for railway interlockings
.SH SYNOPSIS
.nf
"""
DESCRIPTION = """irv verifies an interlocking for ETCS Level 2 without lineside signals. Its
configuration is a track layout with an interlocking table, as JSON. Each command but make and demo
reads the configuration from standard input. It prints its answer to standard output, and its exit
status shows the kind of the answer. A status without its answer says nothing: a caller checks both.
With `--columns free`, `clean` is not evidence of safety."""
SPELLING = """Options stand before or after the command, in any order, each at most once. A value is
the next argument, or follows an equals sign. A value that begins with a hyphen needs the equals
sign. A whole number is decimal digits; zeros or one plus sign may come first."""
CERTIFICATE = """With `safe` and `spent`, verify and demo write a certificate to the file of
`--cert`, before the report. With other answers the file stays as it was. The name /dev/null
discards the certificate."""
COMPLETIONS = """# Completions of irv for bash: call `. irv.bash`, or copy the file as `irv`
# into the directory of bash-completion.
_irv() {
    local word=${COMP_WORDS[COMP_CWORD]} before=${COMP_WORDS[COMP_CWORD-1]} options='' given
    for given in "${COMP_WORDS[@]:1:COMP_CWORD-1}"; do
        case $given in
%(commands)s
        esac
    done
    case $before in
%(values)s
        *) mapfile -t COMPREPLY < <(compgen -W "${options:-%(names)s}" -- "$word") ;;
    esac
}
complete -F _irv irv
"""


def escaped(text: str) -> str:
    """Returns a line escaped for troff."""
    text = text.replace("\\", "\\e").replace("-", "\\-")
    return "\\&" + text if text[:1] in (".", "'") else text


def bold(text: str) -> str:
    """Returns a troff sentence, with bold text for backquotes."""
    return re.sub(r"`(.+?)`", r"\\fB\1\\fR", escaped(text.replace("\n", " ")))


def paragraph(tag: str, *lines: str) -> str:
    """Returns an indented paragraph with a tag."""
    return "\n".join([f".TP\n{tag}", *(escaped(line) for line in lines)])


def option_lines(option: Entry) -> Iterator[str]:
    """Yields the paragraph of an option."""
    numbers, default = option.value("range"), option.value("default")
    lines = [option.value("summary")]
    lines += [f"N is {numbers.replace(' ', ' to ')}."] if numbers else []
    lines += [f"Default: {default}." if default else "Needed."]
    lines += [f"Commands: {option.value('commands').replace(' ', ', ')}."]
    yield paragraph(f"\\fB{escaped(option.name)}\\fR {escaped(option.value('value'))}",
                    " ".join(lines))


def command_lines(command: Entry) -> Iterator[str]:
    """Yields a command's section: its purpose, output and statuses."""
    yield f".SS {command.name}\n{escaped(command.value('summary'))}"
    for status, text, meaning in command.parts("report"):
        yield paragraph(f"\\fB{escaped(text)}\\fR", f"status {status}: {meaning}")


def page() -> Iterator[str]:
    """Yields the parts of the manual page."""
    commands = of_kind("command")
    yield HEAD + "\n".join(escaped(usage(command)) for command in commands) + "\n.fi"
    yield f".SH DESCRIPTION\n{bold(DESCRIPTION)}\n.SH COMMANDS"
    for command in commands:
        yield from command_lines(command)
    yield f".SH OPTIONS\n{bold(SPELLING)}"
    for option in of_kind("option"):
        yield from option_lines(option)
    yield f".SH FILES\n{bold(CERTIFICATE)}\n.SH EXIT STATUS"
    for status in of_kind("status"):
        if status.name != "125":
            yield paragraph(status.name, f"{status.value('name')}. {status.value('meaning')}")
    yield ".SH EXAMPLES\n.nf"
    yield from (escaped(example.name.removeprefix("./")) for example in of_kind("example"))
    yield ".fi"


def completions() -> str:
    """Returns the completions."""
    reply = 'mapfile -t COMPREPLY < <(compgen {} -- "$word") ;;'
    arms: List[str] = []
    for command in of_kind("command"):
        options = " ".join(option.name for option in options_of(command.name))
        arms.append(f"            {command.name}) options=\"{options}\" ;;")
    by_value = {"FILE": "compopt -o filenames; " + reply.format("-f"), "N": "COMPREPLY=() ;;"}
    sets = []
    for option in of_kind("option"):
        value = option.value("value")
        words = f"-W \"{value.replace('|', ' ')}\""
        sets.append(f"        {option.name}) " + (by_value.get(value) or reply.format(words)))
    return COMPLETIONS % {"commands": "\n".join(arms), "values": "\n".join(sets),
                          "names": " ".join(command.name for command in of_kind("command"))}


def main() -> int:
    """Prints the page or the completions; returns the exit status."""
    parser = argparse.ArgumentParser(
        prog="manual", description=__doc__, formatter_class=argparse.RawDescriptionHelpFormatter)
    parser.add_argument("part", choices=("page", "completions"), help="what is printed")
    part = parser.parse_args().part
    print("\n".join(page()) if part == "page" else completions(), end="\n" * (part == "page"))
    return 0


if __name__ == "__main__":
    sys.exit(main())
