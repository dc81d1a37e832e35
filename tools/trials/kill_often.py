"""Kills a server on a file at random moments, and looks at what the file holds.

    tools/run kill_often [TIMES [SEED]]      200 times where none is named

A round starts the server on the file, reads all its documents, and sends stores and drops until the
server is killed, between two frames or inside one; each tenth server is killed sooner, while it
opens the file or tells its documents. The next server must find the documents as they were before
the frame under way or after it. The script prints how often the file opened, and what it held; its
status is 0 where every server found the one or the other.
"""
import pathlib
import random
import sys
import tempfile
import threading
import time
from typing import TypeAlias

from tools.common import command_line
from tools.common.harness import LIBRARY, Server, built, store

# By address, the text of each document.
Documents: TypeAlias = dict[bytes, bytes]
ADDRESSES = [b"a", b"b", b"c/d"]
LATEST_KILL = 0.2


def document(chance: random.Random) -> bytes:
    """A document of up to some thousand rows, as it is printed."""
    count = chance.choice([0, 1, 20, 500, 3000])
    if count == 0:
        return LIBRARY
    row = b'element row {attribute number {"%d"}, text {"%d"}}'
    rows = b", ".join(row % (number, chance.randrange(1000)) for number in range(count))
    return b"document {element rows {" + rows + b"}}"


def held(server: Server) -> Documents | None:
    """All documents by address, or None where the server ends before it has told them."""
    found = {}
    for address in ADDRESSES:
        reply = server.ask(b"Q", b'doc("' + address + b'")')
        if reply is None:
            return None
        if reply[0] == 0:
            found[address] = reply[1]
    return found


def request(chance: random.Random,
            documents: Documents) -> tuple[tuple[bytes, bytes], Documents]:
    """A random request, and the documents after it."""
    address = chance.choice(ADDRESSES)
    if chance.random() < 0.25:
        return (b"D", address), {name: text for name, text in documents.items() if name != address}
    text = document(chance)
    return (b"S", store(address, text)), {**documents, address: text}


def send_until_killed(server: Server, chance: random.Random,
                      documents: Documents) -> tuple[Documents, Documents]:
    """Sends requests, each after the reply to the one before, and gives the documents before and
    after the one under way."""
    while True:
        (kind, body), after = request(chance, documents)
        reply = server.ask(kind, body)
        if reply is None:
            return documents, after
        if reply[0] == 0:
            documents = after


def judge(found: Documents, before: Documents, after: Documents) -> str:
    """What the documents found are."""
    if found == before:
        return "before"
    return "after" if found == after else "neither"


def kill(command: list[object], times: int, chance: random.Random) -> dict[str, int]:
    """Kills servers so many times; how often each thing was found."""
    counts = dict.fromkeys(
        ("opens", "before", "after", "neither", "refused", "killed before the first frame"), 0)
    before: Documents = {}
    after: Documents = {}
    rounds = 0
    while rounds <= times:
        server = Server(command)
        timer = threading.Timer(chance.random() * LATEST_KILL, server.kill)
        if chance.random() < 0.1:
            timer.start()
        found = held(server)
        if found is None:
            status, _line = server.end()
            counts["killed before the first frame" if status < 0 else "refused"] += 1
            continue
        counts["opens"] += 1
        counts[judge(found, before, after)] += 1
        rounds += 1
        if rounds <= times:
            if not timer.is_alive() and not timer.finished.is_set():
                timer.start()
            before, after = send_until_killed(server, chance, found)
        else:
            timer.cancel()
        server.end()
    return counts


def main() -> int:
    """Kills servers of the built program, and prints what was found."""
    words = command_line.parser(__doc__)
    words.add_argument("times", nargs="?", type=int, default=200)
    words.add_argument("seed", nargs="?", type=int, default=time.time_ns())
    given = words.parse_args()
    program = built()
    with tempfile.TemporaryDirectory() as folder:
        command = [program, "--file", pathlib.Path(folder) / "x.db"]
        counts = kill(command, given.times, random.Random(given.seed))
    for name, count in counts.items():
        print(f"{name:<32} {count}")
    return 1 if counts["neither"] or counts["refused"] else 0


if __name__ == "__main__":
    sys.exit(main())
