"""Small maps and layouts, and calls of the import."""

import json
import subprocess
import sys
from pathlib import Path

from irvtools.paths import TOOLS

SECONDS = 60

# a passing loop between two single tracks: switches 2 and 3, ends 1 and 4; 0.001 degrees are about
# 111 m here
LOOP_NODES = {"1": (0.0, 0.000), "2": (0.0, 0.004), "3": (0.0, 0.012), "4": (0.0, 0.016),
              "5": (0.0003, 0.006), "6": (0.0003, 0.010)}
LOOP_WAYS = {"10": ["1", "2"], "11": ["2", "3"], "12": ["2", "5", "6", "3"], "13": ["3", "4"]}
SWITCHES = {"2": {"railway": "switch"}, "3": {"railway": "switch"}}


def osm(nodes=None, ways=None, tags=None, way_tags=None, before="", after=""):
    """Returns a map's text from places of nodes, nodes of ways, and tags of both."""
    nodes, ways = nodes or LOOP_NODES, ways or LOOP_WAYS
    tags, way_tags = SWITCHES if tags is None else tags, way_tags or {}
    lines = ["<?xml version='1.0' encoding='UTF-8'?>", before + "<osm version='0.6'>"]
    for key, (lat, lon) in nodes.items():
        inner = "".join(f"<tag k='{k}' v='{v}'/>" for k, v in tags.get(key, {}).items())
        lines.append(f"<node id='{key}' lat='{lat}' lon='{lon}'>{inner}</node>")
    for key, refs in ways.items():
        found = {"railway": "rail", **way_tags.get(key, {})}
        inner = "".join(f"<nd ref='{one}'/>" for one in refs) + "".join(
            f"<tag k='{k}' v='{v}'/>" for k, v in found.items())
        lines.append(f"<way id='{key}'>{inner}</way>")
    return "\n".join(lines + [after + "</osm>", ""])


def call(program, room, name, *words):
    """Imports a file of a directory. Returns the exit status, standard output and error."""
    done = subprocess.run([sys.executable, str(TOOLS / "import"), "--program", str(program), name,
                           "--out", "out.json", *words], cwd=room, capture_output=True, text=True,
                          errors="replace", timeout=SECONDS, check=False)
    return done.returncode, done.stdout, done.stderr


def imported(program, room, data, *words, name="map.osm"):
    """Imports data. Returns the configuration and the notes, or `None` and the message."""
    for path in Path(room).iterdir():
        path.unlink()
    Path(room, name).write_bytes(data if isinstance(data, bytes) else data.encode())
    status, _, errors = call(program, room, name, *words)
    if status == 0:
        return (json.loads(Path(room, "out.json").read_text(encoding="utf-8")),
                json.loads(Path(room, "out.notes.json").read_text(encoding="utf-8")))
    written = sorted(path.name for path in Path(room).iterdir() if path.name != name)
    if written or status != 125:
        return None, f"status {status}, wrote {written}: {errors}"
    return None, errors.strip()


def section(configuration, name):
    """Returns a section by its name."""
    return next((one for one in configuration["sections"] if one["name"] == name), None)


def boards(configuration):
    """Returns the boards, each with its section and direction."""
    return {one[f"board_{side}"]: (one["name"], side) for one in configuration["sections"]
            for side in ("down", "up") if one.get(f"board_{side}")}


def routes_of(program, configuration):
    """Returns the routes that `irv table` finds, or its other answer."""
    done = subprocess.run([str(program), "table"], input=json.dumps(configuration).encode(),
                          capture_output=True, timeout=SECONDS, check=False)
    return json.loads(done.stdout)["routes"] if done.returncode == 0 else done.stdout.decode()
