"""Verify's answer, the run that shows it, and a search beside it."""

from __future__ import annotations

import tempfile
from pathlib import Path
from typing import TYPE_CHECKING

from irvtools.model.events import apply, hazard
from irvtools.model.events import replayed as states_of
from irvtools.model.invariant import broken
from irvtools.html.search_section import add_finding, search_part
from irvtools.html.markup import code, tag, text
from irvtools.trackplan.marks import Marks
from irvtools.html.run_frames import NOTE, RunView, trouble
from irvtools.search.verify_and_search import search
from irvtools.search.state_shrinking import shrunk
from irvtools.model.state import read_run
from irvtools.model.descriptions import FAMILIES, counted, verdict_words

if TYPE_CHECKING:
    from irvtools.html.report import Report

NOT_KEPT = "FILE"       # name of an unkept certificate in a call


def verdict_part(page: Report, columns: str, is_forced: bool) -> None:
    """Adds verify's answer and the run that shows it, or the search's run."""
    page.head("Verification", "verify")
    if is_forced and page.options.columns == "strict":
        page.add(tag("p", text("With strict columns verify refuses this table, because of the "
                               "rules above. "
                               "It is asked with free columns, so that you see what the table "
                               "does.")))
    found = ask_verify(page, columns)
    answer = found.answer
    page.show(answer)
    page.count(answer, columns)
    view = RunView(page, columns, "verify")
    is_found = add_finding(page, RunView(page, columns, "search"), found)
    sum_up_verify(page, columns, answer)
    page.add(tag("p", text("verify had not answered when the search found a run. That run is below."
                           if answer.status is None and found.run
                           else verdict_words(answer, is_found))))
    if answer.status in (0, 4):
        page.add(tag("p", cert_words(page)))
    run = answer.output.partition("\n")[2]
    if answer.status in (1, 2, 3) and run.startswith("run 1"):
        state, events = read_run(page.plant, run)
        if answer.status == 2:
            if not is_found:
                not_inductive_part(page, view, state, events)
        else:
            run_part(page, view, events, answer)
    if answer.status != 0:
        search_part(page, RunView(page, columns, "search"), found)


def sum_up_verify(page, columns, answer):
    """Adds the line about verify below the verdict. Without an answer it says that the verdict
    stays."""
    under = f"{columns} columns: "
    stays = " This does not change the verdict." if answer.status is None else ""
    page.sum_up("verify", f"{under}{answer.said}{'.' if stays else ''}{stays}")


def cert_words(page):
    """Returns the certificate's file as markup."""
    if not page.options.is_cert_kept:
        return text("The certificate was not kept (--no-cert).")
    size = Path(page.options.cert).stat().st_size if Path(page.options.cert).is_file() else 0
    return f"The certificate is in {code(page.options.cert)} ({size} bytes)."


def ask_verify(page, columns):
    """Asks verify with the given options and a certificate file. A search runs beside it if a rule
    on which safety depends is broken."""
    with tempfile.TemporaryDirectory(prefix="irv-cert-") as directory:
        is_kept = page.options.is_cert_kept
        cert = Path(page.options.cert) if is_kept else Path(directory, "cert")
        was_there = cert.exists()
        words = ["verify", "--columns", columns, *page.options.words, "--cert", str(cert)]
        page.progress.say(f"irv {' '.join(words)}, for up to {page.options.verify_seconds} seconds")
        try:
            found = search(page, words)
        except BaseException:
            if not was_there:
                cert.unlink(missing_ok=True)
            raise
        if found.answer.status is None and not was_there:
            cert.unlink(missing_ok=True)        # any partial certificate
    found.answer.words = [*words[:-1], str(cert) if is_kept else NOT_KEPT]
    page.calls.append(found.answer)
    return found


def run_part(page, view, events, answer):
    """Adds the run that verify found."""
    page.add(tag("h3", text("The run that verify found"), id="verify-run"),
             tag("p", text(NOTE), class_="small lead"))
    states = states_of(page.plant, events)
    marks, after = None, ""
    if answer.status == 3 and states:
        marks, after = broken_marks(page, states[-1], answer.line.partition("family=")[2])
    page.add(view.frames(events, None, marks, after))


def broken_marks(page, state, family=None):
    """Returns marks and words for violated parts of the invariant. If `irv` named the least family,
    the page's own reading has to agree."""
    what = broken(page.plant, state)
    least = what[0][0] if what else "none"
    if not what or family not in (None, least):
        return None, trouble(f"The page's own reading does not agree: the least family that is "
                             f"violated "
                             f"here is {least}.")
    marks = Marks(what[0][2], what[0][3])
    words = "".join(tag("p", tag("b", f"{family} is violated: {text(sentence)}.")
                        + text(f" It says that {FAMILIES[family]}."), class_="own")
                    for family, sentence, _, _ in what[:4])
    return marks, words


def not_inductive_part(page, view, first, events):
    """Adds the event that leads out of the invariant, from a state with only what the event needs."""
    page.add(tag("h3", text("The event that leads out of the invariant"), id="verify-run"))
    states = states_of(page.plant, events, first)
    state = shrunk(page.plant, states[-2], events[-1]) if states else None
    if state is None:
        page.add(trouble("The page's own reading of the invariant does not agree with this answer, "
                         "so no "
                         "state is shown."))
        return
    used = sum(mode != "free" for mode in states[-2].mode)
    left = sum(mode != "free" for mode in state.mode)
    page.own(f"It is not known whether a run from the initial state reaches this state. The page "
             f"shows the "
             f"last event of verify's run, from a state without everything that the event does not "
             f"need: "
             f"{counted(len(state.trains), 'train')} of {len(states[-2].trains)} and "
             f"{counted(left, 'route')} in use of {used} are left. irv replay answered that the "
             f"event leads "
             "from the first state to the second. The page itself found that the first state meets "
             "the "
             "invariant, and which family the second one violates.")
    after = state.copy()
    apply(page.plant, after, events[-1])
    marks, words = (None, "") if hazard(page.plant, after) else broken_marks(page, after)
    page.add(tag("p", text(NOTE), class_="small lead"))
    page.add(view.frames(events[-1:], state, marks, words))
