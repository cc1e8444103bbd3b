"""Fetches maps from Debian's source packages josm and osm2pgsql with apt-get."""

import shutil
import subprocess
import sys
import tarfile
import tempfile
from pathlib import Path

from irvtools.arguments import Parser
from tests.real.corpus import MAPS

PACKAGES = ("josm", "osm2pgsql")
SECONDS = 1200
# the ends of the archives' file names, and the names here
WANTED = {"nodist/data/neubrandenburg.osm.bz2": "neubrandenburg.osm.bz2",
          "nodist/data/overpass-download.osm.bz2": "overpass-download.osm.bz2",
          "test/data/regress/18863/data.osm.bz2": "josm-18863.osm.bz2",
          "tests/data/liechtenstein-2013-08-03.osm.bz2": "liechtenstein.osm.bz2"}


def fetched(room):
    """Downloads the source packages into a directory, with its own source list."""
    room = Path(room)
    (room / "lists/partial").mkdir(parents=True)
    suite = subprocess.run(["sh", "-c", ". /etc/os-release; echo $VERSION_CODENAME"],
                           capture_output=True, text=True, check=True).stdout.strip() or "stable"
    key = "/usr/share/keyrings/debian-archive-keyring.gpg"
    (room / "sources.list").write_text(
        f"deb-src [signed-by={key}] http://deb.debian.org/debian {suite} main\n", encoding="ascii")
    options = [f"-oDir::Etc::sourcelist={room}/sources.list", "-oDir::Etc::sourceparts=-",
               f"-oDir::State::Lists={room}/lists", "-oAPT::Sandbox::User=root"]
    for words in (["update"], ["source", "--download-only", *PACKAGES]):
        subprocess.run(["apt-get", *options, *words], cwd=room, timeout=SECONDS, check=True,
                       stdout=subprocess.DEVNULL)


def unpacked(room, directory):
    """Copies the maps from the archives. Returns their names."""
    found = []
    for archive in sorted(Path(room).glob("*.orig.tar.*")):
        with tarfile.open(archive) as members:
            for member in members:
                name = next((WANTED[end] for end in WANTED if member.name.endswith("/" + end)),
                            None)
                if name and member.isfile():
                    with members.extractfile(member) as source, \
                            open(directory / name, "wb") as copy:
                        shutil.copyfileobj(source, copy)
                    found.append(name)
    return found


def main(words):
    """Fetches the maps. Returns the exit status."""
    line = Parser("tests/fetch_maps", "Fetches the maps of tests/real out of Debian's source "
                  f"packages {' and '.join(PACKAGES)} (59 MB), by apt-get.\nThe maps are data of "
                  "OpenStreetMap: © OpenStreetMap contributors, ODbL 1.0.", 2,
                  "tests/fetch_maps [DIRECTORY]")
    line.add_argument("directory", nargs="?", type=Path, default=MAPS, metavar="DIRECTORY",
                      help="where the maps are put (IRV_MAPS, otherwise out/maps)")
    given = line.parse_args(words)
    try:
        given.directory.mkdir(parents=True, exist_ok=True)
        with tempfile.TemporaryDirectory(prefix="irv-maps-") as room:
            fetched(room)
            found = unpacked(room, given.directory)
    except (OSError, subprocess.SubprocessError, tarfile.TarError) as fault:
        print(f"tests/fetch_maps: {fault}", file=sys.stderr)
        return 1
    print(f"{given.directory}: {', '.join(sorted(found))}")
    return 0 if len(found) == len(WANTED) else 1
