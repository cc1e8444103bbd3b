"""Round trips from configurations to sheets: the configurations, and the differences."""

import json
import subprocess
import tempfile
from pathlib import Path

from irvtools.generators import configurations as generated
from irvtools.csvtables import configurations
from tests.csv import libreoffice
from tests.csv import random_configurations
from irvtools.csvtables import reading
from irvtools.csvtables import writing
from tests.csv.tool_calls import call
from irvtools.paths import TOP

RANDOM = 500


def plants():
    """Returns the repository's configurations and generated stations, by name, as bytes."""
    files = [*(TOP / "examples").glob("*.json"), *(TOP / "tests/plants").glob("*.json")]
    found = {path.stem: path.read_bytes() for path in sorted(files)}
    found.update({f"stations {n}": generated.made("stations", str(n)) for n in range(1, 17)})
    found["largest"] = generated.made("largest")
    return found


def randoms():
    """Returns the random configurations, by name."""
    return {f"random {seed}": random_configurations.configuration(seed) for seed in range(RANDOM)}


def trip_faults(value):
    """Yields the differences after a trip to sheets, back, and to sheets again."""
    texts = writing.csv_texts(value)
    sections, told = reading.read_sections(texts["sections.csv"])
    version, routes, more = reading.read_routes(texts["routes.csv"])
    back = {"version": version, "sections": sections, "routes": routes}
    yield from told + more
    if back != value:
        yield "another configuration"
    elif writing.csv_texts(back) != texts:
        yield "other sheets"
    if json.loads(configurations.written(value)) != value:
        yield "another configuration as JSON"


def call_faults(program, name, given):
    """Yields one configuration's differences."""
    with tempfile.TemporaryDirectory(prefix="irv-sheet-") as room:
        out = call(program, ["--out", "new"], given, room)
        back = call(program, ["--in=new"], b"", room)
        said = [subprocess.run([program, "check"], input=one, capture_output=True, check=False)
                for one in (given, back.stdout)]
        names = sorted(path.name for path in Path(room, "new").iterdir())
    if (out.returncode, out.stdout, out.stderr, back.returncode, back.stderr) != (0, b"", b"", 0, b""):
        yield f"{name}: {out.stderr + back.stderr!r}"
    elif json.loads(back.stdout) != json.loads(given) or names != ["routes.csv", "sections.csv"]:
        yield f"{name}: another configuration, or files {names}"
    if (said[0].stdout, said[0].returncode) != (said[1].stdout, said[1].returncode):
        yield f"{name}: check says {said[0].stdout!r}, and then {said[1].stdout!r}"


def joined(values, version):
    """Returns one configuration with all sections and routes of a version."""
    chosen = [value for value in values if value["version"] == version]
    return {"version": version, "sections": [one for value in chosen for one in value["sections"]],
            "routes": [one for value in chosen for one in value["routes"]]}


def office_faults(program, values, way):
    """Yields the configurations that come back changed."""
    texts = {f"{name}-{file.removesuffix('.csv')}": text.encode()
             for name, value in values.items() for file, text in writing.csv_texts(value).items()}
    came = libreoffice.saved(program, texts, way)
    for name, value in values.items():
        missing = [one for one in (f"{name}-sections", f"{name}-routes") if one not in came]
        if missing:
            yield f"{name}: LibreOffice gave no {missing}"
            continue
        sections, told = reading.read_sections(came[f"{name}-sections"].decode())
        version, routes, more = reading.read_routes(came[f"{name}-routes"].decode())
        yield from (f"{name}: {fault}" for fault in (told + more)[:3])
        for list_, back in (("sections", sections), ("routes", routes)):
            if back != value[list_]:
                pairs = [pair for pair in zip(back, value[list_]) if pair[0] != pair[1]]
                yield f"{name}: {list_} {pairs[:1]}"
        if version != value["version"]:
            yield f"{name}: version {version}"
