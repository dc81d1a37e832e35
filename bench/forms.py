"""Forms of one question, which should cost about the same however it is written.

    tools/run forms [--server WORDS] [--elements N] [--only QUESTION ..]
    tools/run forms [..] --engines [--base WORDS]     beside Saxon-HE, BaseX and an older program
    tools/run forms [..] --growth                     joins over ten times as many elements
    tools/run forms [..] --memory                     the memory that joins take beside the document

bench/forms.toml has the questions, each in several forms that give the same result. Without an
option each form is asked over a document of 20,000 elements. The script shows its least
milliseconds of the processor, and the ratio to the fastest form of the same question. A form that
takes more than 3 times as long, and more than a millisecond, is a cliff.

With --engines, over 100,000 elements or --elements, each form is timed in turn with the engines
that are installed (bench/engines.py). The bound: at most the time of the fastest engine on nine of
ten forms, and for the fastest form of each question.

With --growth each form of a join is asked over a tenth of the elements and over all of them; it may
take at most 13 times as long. With --memory the script shows by how much the peak of a server's
memory grows while it answers a form of a join; this may be twice the growth of the question's most
sparing form, or 4 MB.

The status is 1 if there is a cliff, if a bound is missed, or if forms give different results.
"""

from __future__ import annotations

import argparse
import os
import pathlib
import shlex
import sys
import tempfile
import time
import tomllib
from collections.abc import Iterator, Mapping, Sequence
from dataclasses import dataclass

from bench.bounds import Bound, Times, figure, lesser, said
from bench.engines import NODES, SAXON, Command, Engine, Program, Spent, differing, driven
from bench.queries import document
from tools.common.harness import Server, built, store

TABLE = pathlib.Path(__file__).with_suffix(".toml")
CLIFF, NOTICED = 3.0, 1.0
"""A form is a cliff if it takes more times as long as the fastest one, and more milliseconds."""
FEW, MANY = 20_000, 100_000
"""Elements of the document: by itself, and beside engines or where growth is measured."""
GROWTH = 13.0
AHEAD = 0.9
"""The share of forms that are to take at most the lesser engine's time."""
ROOM = 4.0
"""MB: a growth of the memory that is not worth a bound."""
SECONDS, RUNS = 1.0, 5
"""A form is asked again for so long, and at most so many times a turn."""
OURS, BASE = "xqs", "base"


@dataclass(frozen=True)
class Question:
    """What is asked, in forms that give the same result, unless they are loose."""

    name: str
    forms: tuple[str, ...]
    is_join: bool = False
    is_loose: bool = False


def written_out(form: str, parts: Mapping[str, str]) -> str:
    """A form with the parts in the place of their names."""
    for name, part in parts.items():
        form = form.replace("{%s}" % name, part)
    return form


def questions(only: Sequence[str] = (), table: pathlib.Path = TABLE) -> list[Question]:
    """The questions of the table, or those of these names."""
    found = tomllib.loads(table.read_text())
    known = [Question(
        it["name"], tuple(written_out(form, found["parts"]) for form in it["forms"]),
        it.get("is_join", False), it.get("is_loose", False)) for it in found["question"]]
    if unknown := sorted(set(only) - {it.name for it in known}):
        sys.exit(f"no question has this name: {', '.join(unknown)}")
    return [it for it in known if not only or it.name in only]


def runs(engine: Engine, form: str) -> list[Spent]:
    """A form asked again and again, up to a number of times and a number of seconds."""
    found: list[Spent] = []
    begin = time.perf_counter()
    while len(found) < RUNS and (not found or time.perf_counter() - begin < SECONDS):
        found += engine.run(form, 1)
    return found


@dataclass
class Answers:
    """Of one question: by engine the times of each form, and what differs."""

    question: Question
    times: dict[str, list[Times]]
    faults: list[str]

    def fastest(self, engine: str) -> Times:
        """The fastest form by an engine."""
        return lesser(self.times[engine])

    def cliffs(self) -> list[int]:
        """The places of the forms that are cliffs."""
        least = self.fastest(OURS).least
        return [place for place, it in enumerate(self.times[OURS])
                if it.least > CLIFF * least and it.least > NOTICED]

    def lines(self) -> Iterator[str]:
        """What is shown: each form with its times, and how far it is from the fastest."""
        least, cliffs = self.fastest(OURS).least, self.cliffs()
        yield f"\n{self.question.name}: {' '.join(['ms', *self.times])}, times the fastest"
        for place, form in enumerate(self.question.forms):
            cells = "".join(f"{figure(of[place].least):>10}" for of in self.times.values())
            far = self.times[OURS][place].least / least
            yield f"{cells} {far:7.1f} {'CLIFF ' if place in cliffs else ''}{form}"
        yield from self.faults


def asked(question: Question, engines: Sequence[Engine], turns: int) -> Answers:
    """Asks each form of all engines, which take turns."""
    times: dict[str, list[Times]] = {engine.name: [] for engine in engines}
    faults, first = [], ""
    for form in question.forms:
        spent: dict[str, list[Spent]] = {engine.name: [] for engine in engines}
        for _ in range(turns):
            for engine in engines:
                spent[engine.name] += runs(engine, form)
        texts = {engine.name: engine.text() for engine in engines}
        first = first or texts[engines[0].name]
        others = differing(texts if question.is_loose else {"the first form": first, **texts})
        if others:
            faults.append(f"ANOTHER RESULT of {', '.join(others)}: {form}")
        for name, of in spent.items():
            times[name].append(Times.of([it.processor for it in of]))
    return Answers(question, times, faults)


def beside(found: Sequence[Answers]) -> Iterator[Bound]:
    """The bounds beside the engines that are there."""
    peers = [name for name in (SAXON.name, NODES.name) if name in found[0].times]
    if not peers:
        return
    slower = sum(
        ours.median > min(of.times[name][place].median for name in peers)
        for of in found for place, ours in enumerate(of.times[OURS]))
    count = sum(len(of.question.forms) for of in found)
    yield Bound(f"share of {count} forms slower than the lesser engine", slower / count, None,
                1 - AHEAD)
    for of in found:
        other = lesser(of.fastest(name) for name in peers)
        yield Bound(f"{of.question.name}, its fastest form beside {', '.join(peers)}",
                    of.fastest(OURS).median / other.median, None, 1.0)


def compare(servers: Mapping[str, Command], elements: int, wanted: Sequence[Question],
            are_engines_wanted: bool) -> bool:
    """Shows all forms, with engines beside or not; whether there is no cliff, and bounds hold."""
    peers = (SAXON, NODES) if are_engines_wanted else ()
    print(f"{elements:,} elements; the load of the machine is {os.getloadavg()[0]:.1f}")
    found = []
    with tempfile.TemporaryDirectory() as room, \
            driven(peers, document(elements), pathlib.Path(room)) as others:
        programs = [Program(name, command) for name, command in servers.items()]
        for program in programs:
            program.put(document(elements))
            program.run('count(doc("lib")//node())', 1)
        for question in wanted:
            found.append(asked(question, [*programs, *others], 3 if peers else 1))
            print(*found[-1].lines(), sep="\n", flush=True)
        for program in programs:
            program.end()
    cliffs = sum(len(it.cliffs()) for it in found)
    faults = sum(len(it.faults) for it in found)
    count = sum(len(it.question.forms) for it in found)
    print(f"\n{cliffs} cliffs and {faults} other results, of {count} forms of "
          f"{len(found)} questions")
    return said(beside(found)) and not cliffs and not faults


def least_times(command: Command, elements: int, wanted: Sequence[Question]
                ) -> Iterator[tuple[str, float]]:
    """The least time of each form over so many elements."""
    program = Program(OURS, command)
    program.put(document(elements))
    for question in wanted:
        for form in question.forms:
            yield form, Times.of([it.processor for it in runs(program, form)]).least
    program.end()


def show_growth(command: Command, elements: int, wanted: Sequence[Question]) -> bool:
    """Shows how joins grow with the elements; whether each keeps the bound."""
    few = least_times(command, elements // 10, wanted)
    many = least_times(command, elements, wanted)
    return said(Bound(f"{figure(small)} and {figure(large)} ms: {form}", large / small, None,
                      GROWTH)
                for (form, small), (_, large) in zip(few, many, strict=True))


def most_memory(server: Server) -> int:
    """The most KB that were resident of a server."""
    status = pathlib.Path(f"/proc/{server.process.pid}/status").read_text()
    return int(next(line for line in status.splitlines() if line.startswith("VmHWM")).split()[1])


def taken(command: Command, elements: int, form: str) -> float:
    """By how many MB the most memory of a new server grows by a form."""
    server = Server(command)
    server.ask(b"S", store(b"lib", document(elements).encode()))
    server.ask(b"Q", b'count(doc("lib")//node()[@room][author])')
    pathlib.Path(f"/proc/{server.process.pid}/clear_refs").write_text("5")
    before = most_memory(server)
    status, reply = server.ask(b"Q", form.encode()) or (2, b"the server ended")
    if status:
        sys.exit(f"{reply.decode()}: {form}")
    after = most_memory(server)
    server.end()
    return (after - before) / 1024


def show_memory(command: Command, elements: int, wanted: Sequence[Question]) -> bool:
    """Shows what joins take; whether each form takes no more than it may."""
    bounds = []
    for question in wanted:
        grown = [taken(command, elements, form) for form in question.forms]
        least = max(min(grown), ROOM / 2)
        bounds += [Bound(f"{figure(of)} MB: {form}", of / least, None, 2.0)
                   for of, form in zip(grown, question.forms, strict=True)]
    return said(bounds)


def given() -> argparse.Namespace:
    """The words of the command line."""
    words = argparse.ArgumentParser(
        description=__doc__, formatter_class=argparse.RawTextHelpFormatter)
    words.add_argument(
        "--server", help="the server's command; the built program where none is named")
    words.add_argument("--elements", type=int, help="how many the document has")
    words.add_argument("--only", action="append", default=[], help="a question, by its name")
    words.add_argument("--base", default="", help="the command of an older server, beside")
    kinds = words.add_mutually_exclusive_group()
    kinds.add_argument("--engines", action="store_true", help="times of other engines beside")
    kinds.add_argument("--growth", action="store_true", help="how joins grow")
    kinds.add_argument("--memory", action="store_true", help="what joins take")
    return words.parse_args()


def main() -> int:
    """Shows what the command line asks for; gives the status."""
    words = given()
    command = shlex.split(words.server) if words.server else [str(built())]
    wanted = questions(words.only)
    joins = [it for it in wanted if it.is_join]
    if words.growth:
        return 0 if show_growth(command, words.elements or MANY, joins) else 1
    if words.memory:
        return 0 if show_memory(command, words.elements or FEW, joins) else 1
    base: dict[str, Command] = {BASE: shlex.split(words.base)} if words.base else {}
    elements = words.elements or (MANY if words.engines else FEW)
    return 0 if compare({OURS: command, **base}, elements, wanted, words.engines) else 1


if __name__ == "__main__":
    sys.exit(main())
