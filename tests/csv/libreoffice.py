"""Opens and saves sheets with LibreOffice, if installed."""

import shutil
import subprocess
import tempfile
from pathlib import Path

SECONDS = 300
# text format for saving: commas (44) or semicolons (59), in UTF-8 (76). For opening: a language, in
# which each cell may be a date, a truth value and so on, as in Excel.
COMMAS = "csv:Text - txt - csv (StarCalc):44,34,76,1"
SEMICOLONS = "csv:Text - txt - csv (StarCalc):59,34,76,1"
OPENED = "Text - txt - csv (StarCalc):44,34,76,1,,{},false,true"
AMERICAN, BRITISH, GERMAN, FRENCH = 1033, 2057, 1031, 1036
POLISH, DUTCH, SPANISH, ITALIAN = 1045, 1043, 3082, 1040
# each way: the language, the intermediate format or None, and the text format
WAYS = {"text": (AMERICAN, None, SEMICOLONS), "LibreOffice": (BRITISH, "ods", COMMAS),
        "Excel": (GERMAN, "xlsx", SEMICOLONS)}
LONG_WAYS = {**WAYS, **{str(language): (language, None, COMMAS)
                        for language in (BRITISH, GERMAN, FRENCH, POLISH, DUTCH, SPANISH, ITALIAN)}}


def find():
    """Returns the program, or `None`."""
    return shutil.which("soffice")


def convert(office, room, files, form, opened=None):
    """Converts files into another format in a directory of the room, and returns it."""
    out = Path(tempfile.mkdtemp(dir=room))
    how = [] if opened is None else [f"--infilter={OPENED.format(opened)}"]
    subprocess.run([office, f"-env:UserInstallation=file://{room}/profile", "--headless", *how,
                    "--convert-to", form, "--outdir", out, *files],
                   stdin=subprocess.DEVNULL, stdout=subprocess.DEVNULL, stderr=subprocess.DEVNULL,
                   timeout=SECONDS, check=False)
    return out


def saved(office, texts, way):
    """Returns the names and bytes of sheets after LibreOffice has opened and saved them."""
    language, between, last = LONG_WAYS[way]
    with tempfile.TemporaryDirectory(prefix="irv-office-") as room:
        given = Path(room, "given")
        given.mkdir()
        for name, text in texts.items():
            (given / f"{name}.csv").write_bytes(text)
        folder = convert(office, room, sorted(given.iterdir()), between or last, language)
        if between:
            folder = convert(office, room, sorted(folder.iterdir()), last)
        return {name: (folder / f"{name}.csv").read_bytes()
                for name in texts if (folder / f"{name}.csv").exists()}
