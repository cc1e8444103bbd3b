"""Tests of calls of the built program: arguments, streams, signals and progress."""

import os
import pty
import re
import signal
import subprocess
import time

from tests.launcher.repository_copy import call, comes_to_be, copy_tests, environment


def keeps_what_is_read(top):
    """A certificate that would overwrite the file of standard input or output, by any name, is
    refused before a build. A device, another file or another command is not."""
    conf, told = top / "conf", top / "told"
    conf.write_text("in")
    (top / "link").symlink_to(conf)

    def ends(*words, source=conf, sink=told):
        with open(source, "rb") as given, open(sink, "ab") as taken:
            done = subprocess.run([top / "irv", *words], cwd=top, env=environment(top), stdin=given,
                                  stdout=taken, stderr=subprocess.PIPE)
        return done.returncode, done.stderr.count(b"\n")

    refused = [ends("verify", "--cert", "conf"), ends("--cert=link", "verify"),
               ends("verify", "--depth", "2", "--cert", "./conf"), ends("demo", "--cert", conf),
               ends("--cert", "conf", "--", "verify"), ends("verify", "--cert", "told"),
               ends("verify", "--cert=/dev/stdout"),
               ends("--unproved", "verify", "--cert", "conf"),
               ends("--html", "p.html", "--cert", "conf"), ends("--html", "conf"),
               ends("--simulate", "./link")]
    unbuilt = not (top / "crates/irv/out").exists()
    call(top, "--build")
    passed = [ends("verify", "--cert", "new"),
              ends("verify", "--cert", "/dev/null", source="/dev/null"),
              ends("replay", "--run", "conf"), ends("check", "--cert", "conf"),
              ends("check", "--columns", "verify", "--cert", "conf"), ends("verify", "--cert")]
    return (refused == [(125, 1)] * 11 and unbuilt and passed == [(6, 0)] * 6
            and conf.read_text() == "in")


def hint(command):
    """Returns a terminal's line after a rejection."""
    return f"irv: ./irv {command} --explain says in sentences what is wrong and where\r\n"


def on_a_terminal(top, *words, output=None, script="irv", reads_it=False):
    """Calls a script of the copy, by default the launcher, on a terminal. Returns the terminal's
    text and the status. Standard output is the terminal unless `output` is a file. Standard input
    is the terminal, at its end, if `reads_it`."""
    ours, theirs = pty.openpty()
    os.set_blocking(ours, False)
    if reads_it:
        os.write(ours, b"\x04")
    with subprocess.Popen([top / script, *words], cwd=top, env=environment(top),
                          stdin=theirs if reads_it else subprocess.DEVNULL,
                          stdout=output or theirs, stderr=theirs) as called:
        status = called.wait()
    shown = b""
    try:
        while piece := os.read(ours, 4096):
            shown += piece
    except OSError:
        pass  # end of the terminal's output
    os.close(theirs)
    os.close(ours)
    return shown.decode(), status


def left_on_screen(shown):
    """Returns the lines on a terminal's screen at the end."""
    lines, column = [""], 0
    for part in re.findall(r"\r|\n|\x1b\[K|[^\r\n\x1b]+", shown):
        if part == "\r":
            column = 0
        elif part == "\n":
            lines.append("")
            column = 0
        elif part == "\x1b[K":
            lines[-1] = lines[-1][:column]
        else:
            lines[-1] = lines[-1][:column] + part + lines[-1][column + len(part):]
            column += len(part)
    return lines


def shows_that_it_works(top):
    """On a terminal a call of over two seconds shows progress, but at its end only the answer. A
    file gets only the answer. A short call shows no progress."""
    call(top, "--build")
    short = on_a_terminal(top, "check")
    slow = on_a_terminal(top, "slow")
    with open(top / "told", "wb") as told:
        beside = on_a_terminal(top, "slow", output=told)
    # late output also comes before the end
    (top / "slow-cat").rename(top / "bin/cat")
    fault = on_a_terminal(top, "fault")
    ends = [(re.findall("working for ([0-9]+)", shown)[:1], left_on_screen(shown), status)
            for shown, status in (slow, beside, fault)]
    begin = ["2"]
    lines = ["irv: read fault", "irv: cannot read standard input", ""]
    hinted = hint("slow").strip()
    return (ends == [(begin, ["slow", hinted, ""], 6), (begin, [hinted, ""], 6), (begin, lines, 8)]
            and (top / "told").read_text() == "slow\n"
            and short == ("check\r\n" + hint("check"), 6))


def ends_with_the_launcher(top):
    """If the launcher is killed, the program ends too, and readers of its output continue."""
    call(top, "--build")
    with subprocess.Popen([top / "irv", "slow"], cwd=top, env=environment(top),
                          stdin=subprocess.DEVNULL, stdout=subprocess.PIPE) as called:
        comes_to_be((top / "crates/irv/out/irv.begun").exists)
        called.kill()
        output = called.stdout.read()
    return output == b""


def reports_a_signal(top):
    """The status shows a signal that ended the program, as in a shell. A signal to the launcher
    ends the program."""
    call(top, "--build")
    shell = subprocess.run(["bash", "-c", f"{top}/irv killed; exit $?"], stdin=subprocess.DEVNULL,
                           stderr=subprocess.DEVNULL)
    printed = on_a_terminal(top, "killed")
    ours, theirs = pty.openpty()
    with subprocess.Popen([top / "irv", "slow"], cwd=top, env=environment(top),
                          stdin=subprocess.DEVNULL, stdout=theirs, stderr=theirs) as called:
        os.close(theirs)
        comes_to_be((top / "crates/irv/out/irv.begun").exists)
        time.sleep(0.5)
        called.send_signal(signal.SIGTERM)
        ended = called.wait()
    os.close(ours)
    line = "irv: signal KILL ended the program\r\n"
    return (shell.returncode, printed, ended) == (137, (line, 137), 143)


def keeps_an_early_signal(top):
    """A signal to the launcher just before the program starts ends the program, too."""
    script = ". tools/launcher/running.bash; note_signals; kill -s $0 $$; run_tied sleep 60 & await $!"
    names = "HUP", "INT", "QUIT", "TERM"

    def heed_signals():
        for name in names:              # a call in the background ignores some of them
            signal.signal(signal.Signals[f"SIG{name}"], signal.SIG_DFL)

    ended = [subprocess.run(["bash", "-c", script, name], cwd=top, env=environment(top),
                            preexec_fn=heed_signals).returncode for name in names]
    return ended == [129, 130, 131, 143]


def announces_a_terminal(top):
    """The launcher announces that it expects a configuration from a terminal, if the command reads
    one."""
    call(top, "--build")
    line = ("irv: check reads its configuration from standard input, which is this terminal: add < "
            "FILE, or type it and press Ctrl-D\r\n")
    asked = on_a_terminal(top, "check", reads_it=True)
    page = on_a_terminal(top, "--html", "p.html", reads_it=True)
    made = on_a_terminal(top, "make", "--stations", "1", reads_it=True)
    return (asked == (line + "check\r\n" + hint("check"), 6)
            and page == (line.replace("check", "--html"), 3)
            and made == ("make --stations 1\r\n" + hint("make"), 6))


CallTests = copy_tests("CallTests", (
    keeps_what_is_read, shows_that_it_works, reports_a_signal, keeps_an_early_signal,
    ends_with_the_launcher, announces_a_terminal))
