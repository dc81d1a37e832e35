"""Serves random frames for a long time, in memory and on a file, and compares each reply.

    tools/run soak [--seconds N] [--seed N] [--program PATH]      an hour where no length is named

The requests are drawn by the seed: stores, copies, drops, queries and refusals, some sent ahead.
A model (soak_model.py) gives the expected reply of each. A server in memory runs up to its limit of
frames. One on a file is killed again and again, at any moment, or ends in order; the next one must
find the documents as they were before a frame under way or after it. A line a minute has the counts
and the resident memory. The status is 1 if a reply or a document is wrong, or if memory grew: if a
server's peak in the second half of the time exceeds that of the first by over a quarter and 32 MB.
"""

import argparse
import pathlib
import random
import sys
import tempfile
import threading
import time
from dataclasses import dataclass, field

from tools.common.harness import Server, built, frame
from tools.trials.soak_model import Documents, Generator, Request, printed

MOST_FRAMES = 990_000
MOST_AHEAD = 16
SECONDS = 3600.0
TURN = 2.0
LATEST_KILL = 1.5
ENDS_IN_ORDER, KILLED_EARLY = 0.2, 0.1
BETWEEN_LINES = 60.0
MOST_GROWTH, SLACK = 1.25, 32 << 10


class Wrong(Exception):
    """A reply, an end or a document that is another than the model has."""


@dataclass
class Tally:
    """What was done, and the most memory of each server in each half of the time, in kB."""

    begun: float
    seconds: float
    frames: int = 0
    kills: int = 0
    ends: int = 0
    before: int = 0
    after: int = 0
    told: float = 0.0
    most: dict[tuple[str, int], int] = field(default_factory=dict)

    def spent(self) -> float:
        """Seconds since the start."""
        return time.monotonic() - self.begun

    def note(self, name: str, server: Server) -> None:
        """Takes a look at a server's memory, and prints a line where it is time for one."""
        half = int(self.spent() > self.seconds / 2)
        self.most[name, half] = max(resident(server), self.most.get((name, half), 0))
        if self.spent() - self.told > BETWEEN_LINES:
            self.told = self.spent()
            print(f"{self.told:6.0f} s: {self}", flush=True)

    def grew(self, name: str) -> bool:
        """Whether a server held more in the second half than in the first."""
        first, second = (self.most.get((name, half), 0) for half in (0, 1))
        return second > MOST_GROWTH * first and second > first + SLACK

    def __str__(self) -> str:
        halves = ("first half", "second half")
        memory = ", ".join(f"{name} {kilobytes / 1024:.0f} ({halves[half]})"
                           for (name, half), kilobytes in sorted(self.most.items()))
        return (f"{self.frames:,} frames, {self.kills} kills, {self.ends} ends in order, found as "
                f"before {self.before}, as after {self.after}; MB at most: {memory}")


def resident(server: Server) -> int:
    """The memory of a running server, in kB; 0 where it has ended."""
    try:
        text = pathlib.Path(f"/proc/{server.process.pid}/status").read_text(encoding="ascii")
    except OSError:
        return 0
    return next((int(it.split()[1]) for it in text.splitlines() if it.startswith("VmRSS")), 0)


def batch(generator: Generator, documents: Documents) -> list[Request]:
    """Requests that are sent ahead, each over the documents that those before it leave."""
    requests: list[Request] = []
    for _ in range(generator.chance.choice((1, 1, 1, 4, MOST_AHEAD))):
        requests.append(generator.request(requests[-1].after if requests else documents))
    return requests


def exchange(server: Server, requests: list[Request]) -> int:
    """Sends the requests; gives how many had their reply before the server ended."""
    data = b"".join(frame(it.kind, it.body) for it in requests)
    sender = threading.Thread(target=server.send, args=[data])
    sender.start()
    count = 0
    for request in requests:
        reply = server.reply()
        if reply is None:
            break
        status, text = request.reply
        if reply != (status, text.encode()):
            raise Wrong(f"{request.kind!r} {request.body[:200]!r}: {reply[0]} {reply[1][:200]!r} "
                        f"in place of {status} {text[:200]!r}")
        count += 1
    sender.join()
    return count


def ended(server: Server, status: int = 0) -> None:
    """Ends a server in order. Raises Wrong where it ends otherwise."""
    found = server.end()
    if found != (status, ""):
        raise Wrong(f"a server ended with {found}")


def told(server: Server) -> dict[str, bytes] | None:
    """All documents as they are printed, or None where the server ends before it has told them."""
    reply = server.ask(b"L")
    if reply is None:
        return None
    names = [] if reply[1] == b"()" else [it.strip('"') for it in reply[1].decode().split(", ")]
    documents = {}
    for name in names:
        reply = server.ask(b"Q", f'doc("{name}")'.encode())
        if reply is None:
            return None
        documents[name] = reply[1]
    return documents


def as_told(documents: Documents) -> dict[str, bytes]:
    """What a server tells of these documents."""
    return {name: printed(rows).encode() for name, rows in documents.items()}


class InMemory:
    """A server in memory, which runs on from turn to turn."""

    def __init__(self, program: pathlib.Path, generator: Generator, tally: Tally) -> None:
        self.program = program
        self.generator = generator
        self.tally = tally
        self.begin()

    def begin(self) -> None:
        """Starts a server, which has no documents."""
        self.server = Server([self.program])
        self.documents: Documents = {}
        self.frames = 0

    def turn(self) -> None:
        """Serves for some seconds."""
        until = time.monotonic() + TURN
        while time.monotonic() < until:
            requests = batch(self.generator, self.documents)
            if exchange(self.server, requests) < len(requests):
                raise Wrong(f"the server in memory ended: {self.server.end()}")
            self.documents = requests[-1].after
            self.frames += len(requests)
            self.tally.frames += len(requests)
            if self.frames > MOST_FRAMES:
                ended(self.server)
                self.tally.ends += 1
                self.begin()
        self.tally.note("in memory", self.server)


class OnFile:
    """Servers on one file, one after another. Most of them are killed."""

    def __init__(
        self, program: pathlib.Path, path: pathlib.Path, generator: Generator, tally: Tally
    ) -> None:
        self.command = [program, "--file", path]
        self.generator = generator
        self.tally = tally
        self.may_be: list[Documents] = [{}]

    def turn(self) -> None:
        """Starts a server, looks at what it found, and serves until it is killed or ends."""
        chance = self.generator.chance
        server = Server(self.command)
        timer = threading.Timer(chance.random() * LATEST_KILL, server.kill)
        is_killed = chance.random() >= ENDS_IN_ORDER
        if is_killed and chance.random() < KILLED_EARLY:
            timer.start()
        documents = self.found(server)
        if documents is None:
            self.killed(server, timer)
            return
        self.may_be = [documents]
        if is_killed and timer.ident is None:
            timer.start()
        if self.served(server, is_killed):
            ended(server)
            self.tally.ends += 1
        else:
            self.killed(server, timer)

    def found(self, server: Server) -> Documents | None:
        """The documents that the server found, or None where it was killed before it told them."""
        found = told(server)
        if found is None:
            return None
        for place, documents in enumerate(self.may_be):
            if found == as_told(documents):
                if len(self.may_be) > 1:
                    self.tally.before += place == 0
                    self.tally.after += place > 0
                return documents
        allowed = [sorted(it) for it in self.may_be]
        raise Wrong(f"the file has {sorted(found)}, and may have {allowed}")

    def served(self, server: Server, is_killed: bool) -> bool:
        """Serves until the server is killed, or for a turn; whether it is there still."""
        until = time.monotonic() + TURN
        while is_killed or time.monotonic() < until:
            requests = batch(self.generator, self.may_be[0])
            count = exchange(server, requests)
            self.tally.frames += count
            self.tally.note("on a file", server)
            states = [self.may_be[0], *(it.after for it in requests)]
            if count < len(requests):
                self.may_be = states[count:]
                return False
            self.may_be = states[-1:]
        return True

    def killed(self, server: Server, timer: threading.Timer) -> None:
        """Waits for the end of a server that was killed. Raises Wrong where it ended by itself."""
        timer.join()
        status, line = server.end()
        if status >= 0:
            raise Wrong(f"a server on the file ended by itself: {status} {line!r}")
        self.tally.kills += 1


def soak(program: pathlib.Path, seed: int, seconds: float) -> Tally:
    """Serves for so many seconds. Raises Wrong."""
    tally = Tally(time.monotonic(), seconds)
    generator = Generator(random.Random(seed))
    with tempfile.TemporaryDirectory() as folder:
        in_memory = InMemory(program, generator, tally)
        on_file = OnFile(program, pathlib.Path(folder) / "x.db", generator, tally)
        while tally.spent() < seconds:
            in_memory.turn()
            on_file.turn()
        ended(in_memory.server)
    return tally


def main() -> int:
    """Runs for the time; gives the exit status."""
    words = argparse.ArgumentParser(description=(__doc__ or "").split("\n")[0])
    words.add_argument("--seconds", type=float, default=SECONDS)
    words.add_argument("--seed", type=int, default=random.randrange(1 << 32))
    words.add_argument("--program", type=pathlib.Path)
    asked = words.parse_args()
    print(f"seed {asked.seed}", flush=True)
    try:
        tally = soak((asked.program or built()).resolve(), asked.seed, asked.seconds)
    except Wrong as fault:
        print(f"seed {asked.seed}: {fault}")
        return 1
    print(tally)
    grown = [name for name in ("in memory", "on a file") if tally.grew(name)]
    print("memory grew: " + (", ".join(grown) or "nowhere"))
    return int(bool(grown))


if __name__ == "__main__":
    sys.exit(main())
