"""Tries wrong bodies, those of must-fail/ and more-edits/: the prover must refuse each.

    tools/run try_edits CRATE ..      those of these crates
    tools/run try_edits --all         those of all crates, which takes some hours

The edits are tried in a clone of the work tree's last commit; what `rt check` keeps in out/ is
taken along. Prints a line for each edit. Status 0 where each was refused, 1 where one was not, or
was not tried, or cannot be applied.

out/edits.tsv has what each edit came to, beside a sum of all that this stands on: the edit, its
crate and the crates below. So a run that was interrupted goes on where it was, and a later one over
the same sources tries nothing again. `--anew` tries all.
"""

from __future__ import annotations

import argparse
import dataclasses
import enum
import hashlib
import pathlib
import re
import shutil
import subprocess
import sys
import tempfile
from collections.abc import Iterable, Iterator, Mapping, Sequence

from tools.common import repository

KEPT = repository.TOP / "out" / "edits.tsv"
FOLDERS = ("must-fail", "more-edits")
SOURCES = ("src", "specs", "proofs")
# So many are tried at a time: what an interruption loses.
BATCH = 8
LINE = re.compile(r"(?:rt: )?must-fail (?P<crate>\w+)/(?P<edit>[\w.-]+)\.edit: (?P<told>.*)")
BY_A_NAME = "only because a proof file names"


class Outcome(enum.Enum):
    """What an edit came to."""

    REFUSED = "refused"
    BY_A_NAME = "refused, but only since a proof names what it takes away"
    PROVED = "NOT REFUSED"
    BAD = "BAD EDIT"
    NOT_TRIED = "NOT TRIED"

    @property
    def is_refused(self) -> bool:
        """Whether the prover refused the body."""
        return self in (Outcome.REFUSED, Outcome.BY_A_NAME)


@dataclasses.dataclass(frozen=True)
class Edit:
    """An edit of a crate, with the sum of all that its outcome stands on."""

    crate: str
    path: pathlib.Path
    stands_on: str

    @property
    def name(self) -> str:
        """The crate and the name of the edit."""
        return f"{self.crate}/{self.path.stem}"


def sum_of(paths: Iterable[pathlib.Path], start: bytes = b"") -> str:
    """A sum of the names and bytes of these files."""
    found = hashlib.sha256(start)
    for path in sorted(paths):
        found.update(path.name.encode() + b"\0" + path.read_bytes() + b"\0")
    return found.hexdigest()[:16]


def sources(folder: pathlib.Path) -> list[pathlib.Path]:
    """The files that a crate's proof reads."""
    return [it for kind in SOURCES for it in (folder / kind).rglob("*") if it.is_file()]


def edits_of(top: pathlib.Path, names: Sequence[str]) -> list[Edit]:
    """The edits of these crates."""
    crates = repository.libraries(top / "crates.txt")
    sums = {name: sum_of(sources(top / "crates" / name)) for name in crates}
    found: list[Edit] = []
    for name in names:
        below = "".join(sums[it] for it in repository.all_below([name], crates))
        paths = [path for kind in FOLDERS
                 for path in sorted((top / "crates" / name / kind).glob("*.edit"))]
        found += [Edit(name, path, sum_of([path], below.encode())) for path in paths]
    return found


def outcome(told: str) -> Outcome:
    """What rt's line of an edit tells."""
    if told.startswith("refused"):
        return Outcome.BY_A_NAME if BY_A_NAME in told else Outcome.REFUSED
    for it in (Outcome.PROVED, Outcome.BAD):
        if told.startswith(it.value):
            return it
    return Outcome.NOT_TRIED


def outcomes(lines: Iterable[str]) -> dict[str, tuple[Outcome, str]]:
    """By the names of edits, what they came to and what rt said of them."""
    found = (LINE.fullmatch(line.strip()) for line in lines)
    return {f"{it['crate']}/{it['edit']}": (outcome(it["told"]), it["told"]) for it in found if it}


class Record:
    """What edits came to, in a file with a line for each."""

    def __init__(self, path: pathlib.Path) -> None:
        self.path = path
        self.known: dict[tuple[str, str], Outcome] = {}
        if path.exists():
            for line in path.read_text(encoding="utf-8").splitlines():
                name, stands_on, told = line.split("\t")
                self.known[name, stands_on] = Outcome[told]

    def get(self, edit: Edit) -> Outcome | None:
        """What the edit came to, over the same sources, or None."""
        return self.known.get((edit.name, edit.stands_on))

    def add(self, edit: Edit, came_to: Outcome) -> None:
        """Keeps what an edit came to, where it was tried."""
        if came_to is Outcome.NOT_TRIED:
            return
        self.known[edit.name, edit.stands_on] = came_to
        self.path.parent.mkdir(parents=True, exist_ok=True)
        with open(self.path, "a", encoding="utf-8") as file:
            file.write(f"{edit.name}\t{edit.stands_on}\t{came_to.name}\n")


def clone(top: pathlib.Path, room: pathlib.Path) -> pathlib.Path:
    """A clone of the last commit, with what checks kept and without any edit."""
    made = room / "clone"
    subprocess.run(["git", "clone", "-q", top, made], check=True)
    for folder in (made / "crates").glob("*/must-fail"):
        shutil.rmtree(folder)
    for kept in (top / "crates").glob("*/out"):
        subprocess.run(["cp", "-a", kept, made / "crates" / kept.parent.name], check=True)
    return made


def try_batch(made: pathlib.Path, crate: str,
              batch: Sequence[Edit]) -> Mapping[str, tuple[Outcome, str]]:
    """Tries some edits of one crate in the clone."""
    folder = made / "crates" / crate / "must-fail"
    folder.mkdir()
    for edit in batch:
        shutil.copy(edit.path, folder)
    ran = subprocess.run(["rt", "must-fail", crate], cwd=made, text=True, errors="replace",
                         stdin=subprocess.DEVNULL, stdout=subprocess.PIPE,
                         stderr=subprocess.STDOUT, check=False)
    shutil.rmtree(folder)
    found = outcomes(ran.stdout.splitlines())
    if not found:
        print(*ran.stdout.splitlines()[-5:], sep="\n", file=sys.stderr)
    return found


def batches(edits: Sequence[Edit]) -> Iterator[list[Edit]]:
    """The edits of each crate, some at a time."""
    for crate in dict.fromkeys(edit.crate for edit in edits):
        own = [edit for edit in edits if edit.crate == crate]
        for at in range(0, len(own), BATCH):
            yield own[at:at + BATCH]


def try_all(top: pathlib.Path, edits: Sequence[Edit], record: Record) -> None:
    """Tries edits and prints a line for each."""
    with tempfile.TemporaryDirectory(prefix="try-edits-") as room:
        made = clone(top, pathlib.Path(room))
        for batch in batches(edits):
            found = try_batch(made, batch[0].crate, batch)
            for edit in batch:
                came_to, told = found.get(edit.name, (Outcome.NOT_TRIED, "no line of rt names it"))
                record.add(edit, came_to)
                print(f"{edit.name}: {came_to.value}: {told}", flush=True)


def main(words: Sequence[str]) -> int:
    """0 where each edit is refused, else 1."""
    parser = argparse.ArgumentParser(description="Tries wrong bodies, which must be refused.")
    parser.add_argument("--all", action="store_true")
    parser.add_argument("--anew", action="store_true")
    parser.add_argument("crates", nargs="*", metavar="CRATE")
    given = parser.parse_args(words)
    known = repository.libraries(repository.TOP / "crates.txt")
    unknown = [it for it in given.crates if it not in known]
    if unknown or given.all == bool(given.crates):
        parser.error(f"no crate: {unknown[0]}" if unknown else "name crates, or give --all")
    edits = edits_of(repository.TOP, given.crates or list(known))
    if given.anew:
        KEPT.unlink(missing_ok=True)
    record = Record(KEPT)
    left = [edit for edit in edits if record.get(edit) is None]
    print(f"edits: {len(edits)}, of these tried before over the same sources:"
          f" {len(edits) - len(left)}", flush=True)
    if left:
        try_all(repository.TOP, left, record)
    faults = [edit for edit in edits if not (record.get(edit) or Outcome.NOT_TRIED).is_refused]
    print(*(f"not refused: {edit.name}" for edit in faults), sep="\n", end="\n" if faults else "")
    print(f"{len(edits) - len(faults)} refused, {len(faults)} not")
    return 1 if faults else 0


if __name__ == "__main__":
    sys.exit(main(sys.argv[1:]))
