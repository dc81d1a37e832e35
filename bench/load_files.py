"""How long `xqs load` takes for the XML files of a folder, and BaseX for the same, if it is there.

    tools/run load_files [--server WORDS] [FOLDER]     ./serve and /usr/share where none are named

The files are loaded by `--names flat`, in memory and on a file, and then BaseX makes a database of
them, one after the other in one run. What was refused is counted, not listed. The client's own time
stands beside: it reads the files and makes their requests, and sends them nowhere.
"""

import argparse
import os
import pathlib
import shlex
import shutil
import subprocess
import sys
import tempfile
import time

from tools.common.repository import TOP
from xqs.incoming import incoming
from xqs.load import XML_FILES, Search
from xqs.temporary import Temporary
from xqs.xml_in import XmlChoices, XmlFault
from xqs.xml_names import Names


def read(search: Search) -> tuple[int, int]:
    """Makes the requests of all files; how many files are taken, and how many nodes they have."""
    taken = nodes = 0
    for file in search.found:
        try:
            with open(file.place, "rb") as data:
                document = incoming(data, file.path, Temporary(), XmlChoices(Names.FLAT))
                list(document.parts())
        except XmlFault:
            continue
        taken, nodes = taken + 1, nodes + document.nodes
    return taken, nodes


def load(folder: pathlib.Path, server: str, room: str) -> str:
    """Loads the folder; what the command says at its end, which has the time."""
    words = [sys.executable, str(TOP / "xqs"), "load", str(folder), "--names", "flat",
             "--server", server]
    environment = {**os.environ, "XDG_STATE_HOME": room}
    done = subprocess.run(words, env=environment, capture_output=True, text=True, check=False)
    return done.stderr.strip().splitlines()[-1]


def import_by_basex(folder: pathlib.Path, room: str) -> str:
    """Has BaseX make a database of the folder, with what it can't read left out; the seconds."""
    if shutil.which("basex") is None:
        return "not installed"
    pathlib.Path(room, ".basexhome").touch()
    words = ["basex", "-c", "SET SKIPCORRUPT true", "-c", f"SET CREATEFILTER {XML_FILES}",
             "-c", f"CREATE DB load {folder}", "-c", "INFO DB"]
    begin = time.monotonic()
    done = subprocess.run(words, cwd=room, capture_output=True, text=True, check=False)
    seconds = time.monotonic() - begin
    said = [it.strip() for it in done.stdout.splitlines() if "DOCUMENTS" in it or "NODES" in it]
    return f"{seconds:.1f} s; {', '.join(said)}"


def main() -> None:
    """Prints the times of the client alone, of both loads, and of BaseX."""
    words = argparse.ArgumentParser(description=__doc__.splitlines()[0])
    words.add_argument("--server", default=str(TOP / "serve"))
    words.add_argument("folder", nargs="?", type=pathlib.Path, default="/usr/share")
    given = words.parse_args()
    search = Search(given.folder, [XML_FILES])
    print(f"{len(search.found)} files, {search.size / 1e6:.1f} MB; the load of the machine is "
          f"{os.getloadavg()[0]:.1f}")
    begin = time.process_time()
    taken, nodes = read(search)
    print(f"client alone  {time.process_time() - begin:.1f} s of processor; {taken} files with "
          f"{nodes:,} nodes", flush=True)
    with tempfile.TemporaryDirectory() as room:
        print("in memory    ", load(given.folder, given.server, room), flush=True)
        on_file = f"{given.server} --file {shlex.quote(room)}/x.db"
        print("on a file    ", load(given.folder, on_file, room), flush=True)
        print("BaseX        ", import_by_basex(given.folder, room))


if __name__ == "__main__":
    main()
