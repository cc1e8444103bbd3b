"""Calls the built program."""

import os
import subprocess

TIMEOUT_SECONDS = 60


class NoAnswer(Exception):
    """A call that did not start or end; the message says which."""


def call(program, words, conf, directory, memory_mebibytes=None, output_is_full=False, closed=()):
    """Calls the program in a directory. Returns its output, standard error and status. If `conf` is
    `None`, standard input is a directory. The standard streams `closed` are closed."""
    command = [str(program), *words]
    if closed:
        command = ["sh", "-c", 'exec "$0" "$@"' + "".join(f" {n}>&-" for n in closed), *command]
    if memory_mebibytes is not None:
        limited = f'ulimit -v {memory_mebibytes * 1024} && exec "$0" "$@"'
        command = ["sh", "-c", limited, *command]
    options = {"cwd": directory, "stderr": subprocess.PIPE, "timeout": TIMEOUT_SECONDS}
    output = open("/dev/full", "wb") if output_is_full else subprocess.PIPE
    source = os.open(directory, os.O_RDONLY) if conf is None else None
    given = {"input": conf} if source is None else {"stdin": source}
    try:
        done = subprocess.run(command, stdout=output, **given, **options)
    except subprocess.TimeoutExpired as fault:
        raise NoAnswer(f"no answer within {TIMEOUT_SECONDS} seconds") from fault
    except OSError as fault:
        raise NoAnswer(f"the program doesn't start: {fault}") from fault
    finally:
        if source is not None:
            os.close(source)
        if output_is_full:
            output.close()
    return done.stdout or b"", done.stderr, done.returncode


def option(words, name, default=None):
    """Returns the last value of an option in the arguments."""
    value = default
    for before, word in zip(["", *words], words):
        if before == name:
            value = word
        elif word.startswith(f"{name}="):
            value = word.partition("=")[2]
    return value
