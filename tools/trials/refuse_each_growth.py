"""Refuses each growth of the program's memory in turn, over the worked rows, and judges each reply.

    tools/run refuse_each_growth [--program PATH] [--file] [--first N] [--last N] [--every N]
        [--table NAME ..]

One server gets the worked rows in order, a frame that is no request, three requests that tell the
documents, and a length over the limit. With --table a server gets instead each run of the table's
groups, each query twice, so that what was refused is asked again at once. In each run one of its
allocations is refused. In memory the process forks at each allocation, and the child's is refused
(refuse.c). With --file each allocation has a run over a new file, or over a copy of the file that
the table names. Such a run may end by saying, after whole replies, that there was no room.
Otherwise the frame that met the refusal must have status 2, each one before it its own reply, and
each one after it the reply of a server that never got that frame, or `store` if the database has
shut. A file is then opened again. It must hold the documents of those replies; if the database has
shut, those before the refused frame or after it.

Needs a C compiler, for the allocator that refuses. The status is 1 if there is a fault.
"""

import argparse
import collections
import concurrent.futures
import functools
import itertools
import os
import pathlib
import shutil
import subprocess
import sys
import tempfile
import time
from collections.abc import Iterator, Sequence
from dataclasses import dataclass

from tools.common.harness import built
from tools.common.repository import TOP
from tools.rows.runs import Reply, request
from tools.rows.runs import whole_replies as replies
from tools.rows.tables import Row, runs, worked
from xqs.protocol import MAX_REQUEST, framed

TOLD = (Row(b"L", b"", 0, b""), Row(b"Q", b'doc("a")', 0, b""), Row(b"Q", b'doc("b")', 0, b""))
NO_REQUEST, TOO_LONG = b"\xaa\xbb", (MAX_REQUEST + 1).to_bytes(4, "big")
WANTS = (b"memory", b"store")
NO_ROOM = (b"xq_server: memory", b"xq_server: cannot open the store")
SHOWN = 40


@dataclass(frozen=True)
class Ended:
    """What a run wrote, and how it ended."""

    output: bytes
    line: bytes
    status: int


def telling(tag: int) -> list[bytes]:
    """Frames by which a server tells its documents, with tags from this one on."""
    return [request(tag + place, row) for place, row in enumerate(TOLD)]


def frames_of(rows: Sequence[Row]) -> tuple[bytes, ...]:
    """The frames of a run, but for the length over the limit."""
    asked = [request(tag, row) for tag, row in enumerate(rows)]
    return (*asked, framed(NO_REQUEST), *telling(len(asked)))


def own_of(rows: Sequence[Row]) -> tuple[Reply, ...]:
    """The replies of the rows."""
    asked = [Reply(tag, row.status, row.text) for tag, row in enumerate(rows)]
    return (*asked, Reply(0, 1, b"prof:FRAME"))


def twice(rows: Sequence[Row]) -> list[Row]:
    """The rows, each query twice, one right after the other."""
    return [row for row in rows for _time in range(2 if row.kind == b"Q" else 1)]


@dataclass(frozen=True)
class Input:
    """Rows that a run has, and the file that it begins with a copy of, if there is one."""

    name: str
    rows: Sequence[Row]
    base: pathlib.Path | None = None


class Program:
    """The program, run over the frames of rows."""

    def __init__(
        self, path: pathlib.Path, folder: pathlib.Path, allocator: pathlib.Path, given: Input
    ) -> None:
        self.path = path
        self.folder = folder
        self.allocator = allocator
        self.base = given.base
        self.sent = frames_of(given.rows)
        self.own = own_of(given.rows)

    def words(self, name: str) -> list[str]:
        """The words for a new file of that name."""
        path = self.folder / f"{name}.db"
        if self.base:
            shutil.copy(self.base, path)
        return ["--file", str(path)]

    def told(self, frames: Sequence[bytes]) -> list[Reply]:
        """The replies of a server over new documents to these frames."""
        words = self.words(f"told{next(self.numbers)}") if self.base else []
        return replies(self.run(b"".join(frames), words).output)[0]

    @functools.cached_property
    def numbers(self) -> Iterator[int]:
        """Numbers for names of files."""
        return itertools.count()

    def run(self, data: bytes, words: Sequence[str] = (), **environment: str) -> Ended:
        """A run over these bytes; with an environment, under the allocator that refuses."""
        under = {"LD_PRELOAD": str(self.allocator), **environment} if environment else None
        with tempfile.TemporaryFile(dir=self.folder) as given, \
                tempfile.TemporaryFile(dir=self.folder) as taken:
            given.write(data)
            given.seek(0)
            done = subprocess.run(
                [self.path, *words], stdin=given, stdout=taken, stderr=subprocess.PIPE, env=under)
            taken.seek(0)
            return Ended(taken.read(), done.stderr.strip(), done.returncode)

    @functools.cache  # noqa: B019 (there are two programs, both to the end)
    def without(self, place: int) -> tuple[Reply, ...]:
        """The replies of a server that never gets the frame at this place."""
        frames = self.sent
        return tuple(self.told([*frames[:place], *frames[place + 1:], TOO_LONG]))

    @functools.cache  # noqa: B019 (there are two programs, both to the end)
    def documents_after(self, count: int, left_out: int = -1) -> tuple[Reply, ...]:
        """What a server tells of its documents after so many frames, but for one."""
        frames = [it for place, it in enumerate(self.sent[:count]) if place != left_out]
        return tuple(self.told(frames + telling(0))[-len(TOLD):])

    def documents_in(self, path: str) -> tuple[Reply, ...]:
        """What a server tells of the documents in a file."""
        ended = self.run(b"".join(telling(0)), ["--file", path])
        return tuple(replies(ended.output)[0])


@dataclass(frozen=True)
class Judgement:
    """What came of a refusal, what is wrong with it, and after which frames the documents are.

    `kept` has pairs of a number of frames and one that is left out, or -1.
    """

    kind: str
    fault: str = ""
    kept: tuple[tuple[int, int], ...] = ()


def judge_end(
    program: Program, ended: Ended, got: Sequence[Reply], whole: Sequence[Reply]
) -> Judgement:
    """Judges a run in which no reply has status 2."""
    if list(got) == list(whole) and ended.line == b"xq_server: frame too long":
        return Judgement("not noticed", kept=((len(program.sent), -1),))
    if list(got) == list(whole[:len(got)]) and ended.line in NO_ROOM:
        return Judgement(f"ended: {ended.line.decode()}", kept=((len(got), -1),))
    return Judgement("another end", f"{len(got)} replies, status {ended.status}, {ended.line!r}")


def judge_later(
    program: Program, place: int, got: Sequence[Reply], whole: Sequence[Reply]
) -> Judgement:
    """Judges the replies after the one at this place, which has status 2."""
    wanted = program.without(place)
    later = got[place + 1:]
    if list(later) == list(wanted[place:]):
        return Judgement(f"reply: {got[place].text.decode()}", kept=((len(program.sent), place),))
    shut = [it.status == 2 and it.text == b"store" for it in later]
    for is_shut, reply, other in zip(shut, later, wanted[place:], strict=False):
        if not is_shut and reply != other:
            return Judgement("later reply", f"{reply} and not {other} after frame {place}")
    if len(later) != len(whole) - place - 1:
        return Judgement("fewer replies", f"{len(got)} after frame {place}")
    return Judgement("the database has shut", kept=((place, -1), (place + 1, -1)))


def judge(program: Program, ended: Ended, whole: Sequence[Reply]) -> Judgement:
    """Judges a run in which one allocation was refused."""
    got, rest = replies(ended.output)
    if rest:
        return Judgement("part of a reply", f"{rest[:40]!r} after {len(got)} replies")
    place = next((at for at, reply in enumerate(got) if reply.status == 2), None)
    if place is None:
        return judge_end(program, ended, got, whole)
    refused = got[place]
    if list(got[:place]) != list(whole[:place]):
        return Judgement("earlier reply", f"one before frame {place} differs")
    if refused.tag != whole[place].tag or refused.text not in WANTS:
        return Judgement("another refusal", f"{refused} to frame {place}")
    if whole[place].text in (b"prof:FRAME", b"prof:ADDRESS", b"prof:UTF8"):
        return Judgement("a fault told as a want", f"{refused} and not {whole[place]}")
    return judge_later(program, place, got, whole)


def forked(program: Program, whole: Ended, numbers: range) -> dict[int, Ended]:
    """The runs of these refusals in memory, by the numbers of their allocations."""
    folder = program.folder / "forks"
    folder.mkdir()
    data = b"".join(program.sent) + TOO_LONG
    steps = {"FIRST": str(numbers.start), "EVERY": str(numbers.step)}
    if program.run(data, FORKS=str(folder), **steps) != whole:
        sys.exit("refuse_each_growth: the process that forked has other replies")
    runs = {}
    for end in folder.glob("*.end"):
        text = {it: end.with_suffix(f".{it}").read_bytes() for it in ("at", "out", "err", "end")}
        output = whole.output[:int(text["at"])] + text["out"]
        runs[int(end.stem)] = Ended(output, text["err"].strip(), int(text["end"]))
    return dict(sorted(runs.items()))


def judged_in_memory(
    program: Program, whole: Ended, numbers: range
) -> dict[int, Judgement]:
    """Judges the refusal of each of these allocations in memory."""
    runs = forked(program, whole, numbers)
    wanted = replies(whole.output)[0]
    return {number: judge(program, runs[number], wanted) for number in numbers}


def judged_on_file(program: Program, whole: Ended, numbers: range) -> dict[int, Judgement]:
    """Judges the refusal of each of these allocations over a file, each in a run of its own."""
    data = b"".join(program.sent) + TOO_LONG
    wanted = replies(whole.output)[0]

    def judged(number: int) -> Judgement:
        words = program.words(str(number))
        ended = program.run(data, words, REFUSE=str(number))
        found = judge(program, ended, wanted)
        kept = {program.documents_after(*frames) for frames in found.kept}
        held = program.documents_in(words[-1])
        for left in program.folder.glob(f"{number}.db*"):
            left.unlink()
        if found.kept and held not in kept:
            return Judgement(found.kind, f"the file holds {held}")
        return found

    with concurrent.futures.ThreadPoolExecutor(os.cpu_count()) as pool:
        return dict(zip(numbers, pool.map(judged, numbers), strict=True))


def checked(program: Program, words: Sequence[str]) -> tuple[Ended, int]:
    """A run with ample memory, which has to have the rows' own replies, and its allocations."""
    report = program.folder / "count"
    ended = program.run(b"".join(program.sent) + TOO_LONG, words, REPORT=str(report))
    got, rest = replies(ended.output)
    if tuple(got[:len(program.own)]) != program.own or rest or len(got) != len(program.sent) + 1:
        pairs = enumerate(zip(got, program.own, strict=False))
        place = next((at for at, pair in pairs if pair[0] != pair[1]), None)
        sys.exit(f"refuse_each_growth: with ample memory reply {place} is not the row's own")
    return ended, int(report.read_text())


def compiled(folder: pathlib.Path) -> pathlib.Path:
    """The allocator that refuses."""
    library = folder / "refuse.so"
    source = TOP / "tools" / "trials" / "refuse.c"
    words = ["cc", "-shared", "-fPIC", "-O1", "-o", str(library), str(source), "-ldl"]
    subprocess.run(words, check=True)
    return library


def inputs(table: str) -> list[Input]:
    """The inputs of a table: one for each server that its groups have."""
    return [Input(f"{table} {run[0].name}", twice([row for group in run for row in group.rows]),
                  run[0].base)
            for run in runs(table)]


def opening(program: Program) -> int:
    """How many allocations a run in memory makes before its first frame, and at its end."""
    report = program.folder / "opening"
    program.run(b"", REPORT=str(report))
    return int(report.read_text())


def faults_of(
    given: Input, allocator: pathlib.Path, asked: argparse.Namespace, is_first: bool
) -> int:
    """Judges all refusals in the runs of an input; gives how many are faults.

    Those of an opening in memory are tried with the first input alone.
    """
    with tempfile.TemporaryDirectory() as name:
        program = Program((asked.program or built()).resolve(), pathlib.Path(name), allocator,
                          given)
        whole, total = checked(program, program.words("whole") if asked.file else [])
        begin = time.monotonic()
        first = asked.first if is_first or asked.file else max(asked.first, opening(program))
        numbers = range(first, (asked.last or total) + 1, asked.every)
        judged = (judged_on_file if asked.file else judged_in_memory)(program, whole, numbers)
        took = time.monotonic() - begin
    faults = {number: it for number, it in judged.items() if it.fault}
    for number, it in list(faults.items())[:SHOWN]:
        print(f"allocation {number}: {it.kind}: {it.fault}")
    for kind, count in collections.Counter(it.kind for it in judged.values()).most_common():
        print(f"{count:6}  {kind}")
    print(f"{given.name}: {total} allocations in {len(program.sent) + 1} frames; refused "
          f"{len(judged)} of them, one at a time, in {took:.0f} s; {len(faults)} faults",
          flush=True)
    return len(faults)


def main() -> int:
    """Judges all refusals; gives the exit status."""
    words = argparse.ArgumentParser(description=(__doc__ or "").split("\n")[0])
    words.add_argument("--program", type=pathlib.Path)
    words.add_argument("--file", action="store_true")
    words.add_argument("--first", type=int, default=1)
    words.add_argument("--last", type=int)
    words.add_argument("--every", type=int, default=1)
    words.add_argument("--table", action="append", default=[], metavar="NAME")
    asked = words.parse_args()
    given = [it for table in asked.table for it in inputs(table)]
    with tempfile.TemporaryDirectory() as folder:
        allocator = compiled(pathlib.Path(folder))
        faults = [faults_of(it, allocator, asked, place == 0)
                  for place, it in enumerate(given or [Input("rows", worked())])]
    return 1 if any(faults) else 0


if __name__ == "__main__":
    sys.exit(main())
