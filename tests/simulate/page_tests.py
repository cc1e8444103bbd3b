"""Tests of the simulator's text and of `--compare`, without a browser."""

import json
import subprocess
import tempfile
from pathlib import Path

from tests.simulate import model_checks
from irvtools.generators import configurations
from irvtools.simulate import script_engine
from tests.support import fake_program
from tests.support import largest_configuration
from tests.support import fifteen_section_line
from tests.support import markup_check
from irvtools.paths import TOP
from tests.support.harness import test_case

MOST_BYTES = 2000000
NAME = '<img src=x onerror=alert(1)>&"'

markup_check.EMPTY |= {"input"}
markup_check.ALLOWED |= {"header", "main", "section", "footer", "noscript", "button", "output", "input", "label",
                         "fieldset", "legend", "form", "ol", "a", "textarea", "script", "title"}


def call(program, given, *words, room=None):
    """Calls tools/simulate. Returns its status and output."""
    done = subprocess.run([TOP / "tools/simulate", *words, "--program", program], input=given, cwd=room,
                          capture_output=True, check=False)
    return done.returncode, done.stdout.decode() + done.stderr.decode()


def page(program, given):
    """Returns the page of a configuration, and the output."""
    with tempfile.TemporaryDirectory(prefix="irv-play-") as room:
        status, said = call(program, given, "page.html", room=room)
        out = Path(room, "page.html")
        return (out.read_text(encoding="utf-8") if out.exists() else ""), f"{status}: {said}"


def largest():
    """Returns named configurations of 256 sections and 256 routes: one line, and stations with a
    siding."""
    return {"one line": configurations.made("largest"), "stations": configurations.document(*largest_configuration.stations())}


def check_pages(program, _):
    """Pages are well-formed, open nothing from elsewhere, and are small, even the largest."""
    for name, given in {**model_checks.plants(), **largest()}.items():
        text, said = page(program, given)
        yield from (f"{name}: {fault}" for fault in markup_check.faults(text))
        if not said.startswith("0: ") or "irv replay" not in text:
            yield f"{name}: {said}"
        if len(text.encode()) > MOST_BYTES:
            yield f"{name}: {len(text.encode())} bytes"


def check_no_plants(program, _):
    """A page about an invalid plant says why. Names are text."""
    wrong, unknown, two = fifteen_section_line.right(), fifteen_section_line.right(), fifteen_section_line.right()
    wrong["sections"][0]["name"] = NAME
    unknown["routes"][0]["path"] = ["nowhere"]
    two["sections"][1]["name"] = "U1"
    for given, words in ((b"", "refused F2"), (b'{"version": 1,\n "sections": '
                                               b'[}', "Line 2, column 15"),
                         (b"</script><script>alert(1)</script>", "Line 1, column 1"),
                         (json.dumps(wrong).encode(), "&lt;img src=x"),
                         (json.dumps(unknown).encode(), "refused R3 routes[0]"),
                         (json.dumps(two).encode(), "refused N1 sections[1]")):
        text, said = page(program, given)
        yield from (f"{given[:40]}: {fault}" for fault in markup_check.faults(text))
        if words not in text or "nothing to simulate" not in text or "<script" in text:
            yield f"{given[:40]}: {words!r} isn't on the page; {said}"


def check_no_answer(_, __):
    """Without the program's answer the page does not call the configuration invalid."""
    with tempfile.TemporaryDirectory(prefix="irv-fake-") as room:
        text, said = page(fake_program.program(room, {"check": {"status": 139}}), model_checks.plants()["station"])
        yield from markup_check.faults(text)
        if "gave no answer" not in text or "is not a plant" in text:
            yield f"no answer is taken for a refusal; {said}"


def check_names(program, _):
    """The file's name is text too. A table that breaks column rules is reported as such."""
    given = json.dumps(fifteen_section_line.with_fault("facing-point-wrong")).encode()
    with tempfile.TemporaryDirectory(prefix="irv-play-") as room:
        file = Path(room, "</title><script>alert(1)<!--PLANT-->.json".replace("/", "_"))
        file.write_bytes(given)
        with open(file, "rb") as source:
            subprocess.run([TOP / "tools/simulate", "p.html", "--program", program], stdin=source, cwd=room,
                           capture_output=True, check=False)
        text = Path(room, "p.html").read_text(encoding="utf-8")
        yield from markup_check.faults(text)
        if text.count("<script") != 2 or "&lt;script&gt;" not in text or "refused C3" not in text:
            yield "the name of the file or the broken rule isn't told"


def check_words(program, _):
    """Wrong arguments, a page over its own configuration, or a missing program end with status 125
    and no output."""
    given = model_checks.plants()["station"]
    with tempfile.TemporaryDirectory(prefix="irv-play-") as room:
        conf_ = Path(room, "conf.json")
        conf_.write_bytes(given)
        for words in ((), ("a.html", "b.html"), ("--compare",), ("a.html", "--compare", "conf.json"), ("-x",),
                      ("--verify-seconds", "3", "a.html"), ("no/folder.html",)):
            if call(program, given, *words, room=room)[0] != 125:
                yield f"{words}: another status than 125"
        with open(conf_, "rb") as source:
            done = subprocess.run([TOP / "tools/simulate", "conf.json", "--program", program], stdin=source,
                                  cwd=room, capture_output=True, check=False)
        if done.returncode != 125 or conf_.read_bytes() != given or len(list(Path(room).iterdir())) != 1:
            yield "a page is written over the configuration, or another file is there"
        if call(Path(room, "nothing"), given, "a.html", room=room)[0] != 125:
            yield "without a program: another status than 125"


def played(given, says, refused, run, columns="free"):
    """Returns a file as saved by the page."""
    head = f"played 1\nconfiguration {figures_sum(given)}\ncolumns {columns}\nsays {says}\n"
    return head + "".join(f"refused {line_}\n" for line_ in refused) + run


def figures_sum(given):
    """Returns a configuration's SHA-256, computed by another program."""
    done = subprocess.run(["sha256sum"], input=given, capture_output=True, check=True)
    return done.stdout.decode().split(" ")[0]


RUN = "run 1\nstart\nenter a\nenter b\nhead a\nend\n"
SCENE = "drive 1\nenter b1\nmark r1\nend\n"


def check_check(program, _):
    """--compare asks replay and drive, and reports disagreement of the simulator."""
    two, station = model_checks.plants()["two-sections"], model_checks.plants()["station"]
    answers = [(two, played(two, "hazard two b", ["1 enter a", "0 leave b"], RUN), 0,
                "hazard two b; the simulator says the same"),
               (two, played(two, "hazard two a", [], RUN), 1, "the simulator says hazard two a"),
               (two, played(two, "hazard two "
                                 "b", ["1 enter b"], RUN), 1, "with enter b as event 2: no hazard"),
               (two, played(station, "hazard two b", [], RUN), 125, "another configuration"),
               (two, played(two, "hazard two "
                                 "b", ["7 enter b"], RUN), 125, "a place that the run does not "
                                                                "have"),
               (two, played(two, "hazard two "
                                 "b", [], RUN).replace("says", "say"), 125, "as the simulator "
                                                                            "saves it"),
               (two, "run 1\nstärt\n", 125, "bytes that no name has"),
               (b"{}", RUN, 125, "is not a plant"),
               (two, RUN, 0, "irv replay: hazard two b; the simulator"),
               (two, "run 1\nstart\nhead a\nend\n", 0, "irv replay: not a run at 1; the simulator"),
               (two, "run 1\nstart\n", 0, "irv replay: rejected line 3; the simulator"),
               (station, SCENE, 0, "irv drive: stuck at 3 steps=12; the simulator")]
    with tempfile.TemporaryDirectory(prefix="irv-play-") as room:
        for given, text, wanted, words in answers:
            Path(room, "file").write_text(text, encoding="utf-8")
            status, said = call(program, given, "--compare", "file", room=room)
            if (status, words in said) != (wanted, True):
                yield f"{text!r}: {status}, {said!r}; expected were {wanted} and {words!r}"
            if wanted == 0 and script_engine.find() and "is not compared" in said:
                yield f"{text!r}: the simulator is not compared: {said!r}"
        if call(program, two, "--compare", "nothing", room=room)[0] != 125:
            yield "a file that isn't there: another status than 125"


def check_no_engine(program, _):
    """Without a script engine --compare answers, and says that the simulator is not compared."""
    with tempfile.TemporaryDirectory(prefix="irv-play-") as room:
        Path(room, "file").write_text(RUN, encoding="utf-8")
        python = Path(room, "python3")
        python.symlink_to(subprocess.run(["which", "python3"], capture_output=True, check=True)
                          .stdout.decode().strip())
        done = subprocess.run([TOP / "tools/simulate", "--compare", "file", "--program", program], cwd=room,
                              env={"PATH": f"{room}:/bin-that-is-not"}, capture_output=True, check=False,
                              input=model_checks.plants()["two-sections"], executable=None)
    said = done.stdout.decode() + done.stderr.decode()
    if done.returncode != 0 or "hazard two b; the simulator is not compared" not in said:
        yield f"{done.returncode}: {said!r}"


PageTests = test_case("PageTests", [check_pages, check_no_plants, check_no_answer, check_names, check_words, check_check, check_no_engine])
