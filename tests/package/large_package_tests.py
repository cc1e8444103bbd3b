"""A test of a large package, which takes many minutes."""

import subprocess
import time

from tests.package.contents_tests import faults_of_form
from tests.support.package_calls import TOP, flip, made
from tests.support.harness import LongTest, test_case

PLANT = TOP / "tests/plants/bs.json"
CHANGED = ("configuration.json", "verify.cert", "answers/verify.txt", "program/irv")
# rup takes minutes over another solver's proof of step 1
WORDS = ("--solver-seconds", "0")


def first_difference(directory):
    """Returns the first difference that a package's script prints, and ends the script, which would
    take minutes."""
    repeating = subprocess.Popen([directory / "repeat.sh"], stdout=subprocess.PIPE, stderr=subprocess.DEVNULL,
                                 text=True, cwd="/", start_new_session=True)
    try:
        return next((line for line in repeating.stdout if line.startswith("differs: ")), "")
    finally:
        repeating.terminate()
        repeating.wait()


def check_large(program, _):
    """The package of a line of two stations with crossovers, with a 90 MB certificate, repeats
    without a difference. Each changed byte is found."""
    begin = time.monotonic()
    with made(program, PLANT.read_bytes(), *WORDS) as (directory, said):
        print(f"    {said}, after {time.monotonic() - begin:.0f} s", flush=True)
        if said != "safe k=1":
            yield said
            return
        begin = time.monotonic()
        yield from faults_of_form(directory)
        print(f"    repeated after {time.monotonic() - begin:.0f} s", flush=True)
        size = sum(path.stat().st_size for path in directory.rglob("*") if path.is_file())
        print(f"    {size} bytes", flush=True)
        for name in CHANGED:
            file = directory / name
            kept = file.read_bytes()
            flip(file)
            found = first_difference(directory)
            file.write_bytes(kept)
            if name not in found:
                yield f"a change of {name} is not found first: {found!r}"
            print(f"    {name}, changed: {found.strip()}", flush=True)


LargePackageTests = test_case("LargePackageTests", (check_large,), LongTest)
