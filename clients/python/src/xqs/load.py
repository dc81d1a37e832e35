"""`xqs load`: stores the XML files of a folder, resumes after a kill, and lists refused files."""

import argparse
import json
import os
import stat
import sys
from collections.abc import Iterable, Sequence
from dataclasses import dataclass, field
from fnmatch import fnmatch
from pathlib import Path

from xqs import switches
from xqs.cli import connected, connection_options, server_of, warn_of_memory
from xqs.client import Client
from xqs.errors import Closed, Wanting, XqError
from xqs.incoming import incoming
from xqs.journal import Journal, default_place
from xqs.paths import address_of
from xqs.progress import Progress, progress_of
from xqs.protocol import address_bytes
from xqs.stores import Sender
from xqs.temporary import Temporary, is_temporary
from xqs.window import Window
from xqs.xml_in import ChoiceFault, XmlChoices
from xqs.xml_names import Names

STORED = "stored"
XML_FILES = "*.xml"


@dataclass(frozen=True)
class Found:
    """A file below the folder: its path there with `/` between names, and its size and time."""

    path: str
    place: Path
    stat: os.stat_result


@dataclass
class Outcome:
    """The outcome of a load: how many files are stored, those that are refused with the reasons,
    and those that failed because memory ran out or the store failed, which a later run tries
    again."""

    stored: int = 0
    refused: dict[str, str] = field(default_factory=dict)
    failed: dict[str, str] = field(default_factory=dict)
    by_choice: list[Path] = field(default_factory=list)
    """The refused files that other options may take."""

    def wrong(self) -> dict[str, str]:
        """The files that are not stored, with the reason for each."""
        return {**self.refused, **self.failed}


class Search:
    """The files below a folder whose names match a pattern, sorted by path: `found`, and in
    `refused` those that can't be read or are no regular files, with the reason for each."""

    def __init__(self, folder: Path, patterns: Sequence[str]) -> None:
        """Raises NotADirectoryError if there is no such folder."""
        if not folder.is_dir():
            raise NotADirectoryError(f"no folder: {folder}")
        self._folder, self._patterns = folder, patterns
        self.found: list[Found] = []
        self.refused: dict[str, str] = {}
        for place, folders, names in os.walk(folder, onerror=self._refuse):
            folders.sort()
            self._add(Path(place), sorted(names))

    @property
    def size(self) -> int:
        """The size of all files, in bytes."""
        return sum(it.stat.st_size for it in self.found)

    def _add(self, place: Path, names: list[str]) -> None:
        for name in names:
            if any(fnmatch(name, one) for one in self._patterns):
                self._judge(place / name)

    def _judge(self, file: Path) -> None:
        path = file.relative_to(self._folder).as_posix()
        try:
            found = file.stat()
        except OSError as error:
            self._refuse(error)
            return
        if stat.S_ISREG(found.st_mode):
            self.found.append(Found(path, file, found))
        else:
            self.refused[path] = "not a regular file"

    def _refuse(self, error: OSError) -> None:
        path = os.path.relpath(os.fsdecode(error.filename), self._folder)
        self.refused[path] = error.strerror or str(error)


class Loader:
    """Stores files through one client."""

    def __init__(
        self,
        client: Client,
        journal: Journal | None,
        progress: Progress,
        prefix: str,
        choices: XmlChoices,
    ) -> None:
        self._window = Window()
        self._sender = Sender(client, self._window)
        self._journal, self._progress = journal, progress
        self._prefix, self._choices = prefix, choices
        self._there = set(client.list())
        self._closed: Closed | None = None
        self.outcome = Outcome()

    def load(self, files: Iterable[Found]) -> Outcome:
        """Stores the files that the journal doesn't have yet. Raises Closed if the server ends."""
        try:
            for file in files:
                if not self._is_done(file):
                    self._store(file)
                self._window.poll()
        finally:
            self._window.drain()
        if self._closed:
            raise self._closed
        return self.outcome

    def _is_done(self, file: Found) -> bool:
        result = self._journal.result(file.path, file.stat) if self._journal else None
        if result is None:
            return False
        if result != STORED:
            self.outcome.refused[file.path] = result
            self.outcome.by_choice.append(file.place)
        elif address_of(file.path, self._prefix) not in self._there:
            return False
        self._progress.skip(file.stat.st_size)
        return True

    def _store(self, file: Found) -> None:
        def done(answer: str | BaseException) -> None:
            if isinstance(answer, Closed):
                self._closed = answer
            else:
                self._note(file, answer)

        temporary = Temporary(self._journal.add_temporary) if self._journal else Temporary()
        try:
            address = address_of(file.path, self._prefix)
            with open(file.place, "rb") as data:
                document = incoming(data, file.path, temporary, self._choices, by_name=True)
                self._sender.send(address, document, temporary, done, self._progress)
        except Closed:
            raise
        except (XqError, ValueError, OSError) as error:
            self._note(file, error)

    def _note(self, file: Found, answer: str | BaseException) -> None:
        is_refused = isinstance(answer, BaseException)
        if isinstance(answer, Wanting):
            self.outcome.failed[file.path] = str(answer)
        elif isinstance(answer, BaseException):
            self.outcome.refused[file.path] = _reason(file, answer)
            if isinstance(answer, ChoiceFault):
                self.outcome.by_choice.append(file.place)
        else:
            self.outcome.stored += 1
        if self._journal and not isinstance(answer, Wanting):
            result = self.outcome.refused.get(file.path, STORED)
            self._journal.add(file.path, file.stat, result)
        self._progress.step(file.stat.st_size, is_refused)


def _reason(file: Found, error: BaseException) -> str:
    """Why a file is refused, after the place of the fault if there is one."""
    if isinstance(error, OSError):
        return error.strerror or str(error)
    return str(error).removeprefix(file.path)


def load_folder(client: Client, folder: Path, prefix: str, choices: XmlChoices) -> Outcome:
    """Stores the XML files of a folder at once, without a journal. Raises Closed and
    NotADirectoryError."""
    search = Search(folder, [XML_FILES])
    with progress_of(len(search.found), search.size) as progress:
        loader = Loader(client, None, progress, whole_prefix(prefix), choices)
        outcome = loader.load(search.found)
    outcome.refused.update(search.refused)
    return outcome


def whole_prefix(prefix: str) -> str:
    """The prefix of the addresses, with a slash at its end. Raises ValueError if it is no prefix of
    an address, or is kept for temporary documents."""
    if not prefix:
        return prefix
    whole = prefix if prefix.endswith("/") else prefix + "/"
    address_bytes(whole)
    if is_temporary(whole):
        raise ValueError(f"{whole} is kept for temporary documents")
    return whole


def parser() -> argparse.ArgumentParser:
    """The words of the command."""
    words = argparse.ArgumentParser(
        prog="xqs load",
        parents=[connection_options()],
        description="Stores the XML files below a folder, each under the prefix and its path. "
        "After an interruption the same command resumes where it stopped.",
        epilog="Status 0: all are stored; 1: some are refused, and listed with reason and place.",
    )
    words.add_argument("folder", type=Path)
    words.add_argument("--as", dest="prefix", default="", help="the prefix of the addresses")
    words.add_argument(
        "--match", action="append", metavar="PATTERN", help=f"names of files (default {XML_FILES})"
    )
    xml_options(words)
    words.add_argument("--journal", type=Path, help="the file of the journal, until all is done")
    words.add_argument("--anew", action="store_true", help="begin anew, even if there is a journal")
    return words


def xml_options(words: argparse.ArgumentParser) -> None:
    """Adds the options for reading XML."""
    words.add_argument(
        "--names",
        choices=[it.value for it in Names],
        default=Names.REFUSE.value,
        help="names with a colon: refuse the file (default), flat (p:a as p__a, which '--names "
        "flat' reverses on the way out), or local (only a)",
    )
    words.add_argument("--strip", action="store_true", help="drop texts that are only white space")
    words.add_argument("--entities", action="store_true",
                       help="expand entities that the file declares")


def xml_choices(given: argparse.Namespace) -> XmlChoices:
    """The choices in the options."""
    return XmlChoices(Names(given.names), given.strip, given.entities)


def _head(given: argparse.Namespace, where: str) -> dict[str, str]:
    """The first line of the journal: what is loaded, where to, and how."""
    choices = f"names {given.names}, strip {given.strip}, entities {given.entities}"
    return {
        "load": str(given.folder.resolve()),
        "as": given.prefix,
        "to": where,
        "match": " ".join(given.match),
        "choices": choices,
    }


def main(words: Sequence[str]) -> int:
    """Runs the command."""
    given = parser().parse_args(words)
    given.match = given.match or [XML_FILES]
    given.prefix = whole_prefix(given.prefix)
    search = Search(given.folder, given.match)
    place = server_of(given)
    warn_of_memory(place, "load")
    head = _head(given, str(place))
    journal = Journal(given.journal or default_place(json.dumps(head)), head, given.anew)
    try:
        bar = progress_of(len(search.found), search.size)
        with bar as progress, connected(given, place) as client:
            _drop_left(client, journal.temporary)
            loader = Loader(client, journal, progress, given.prefix, xml_choices(given))
            outcome = loader.load(search.found)
    except (Closed, KeyboardInterrupt) as error:
        journal.close()
        why = "interrupted" if isinstance(error, KeyboardInterrupt) else str(error)
        print(f"xqs load: {why}; the same command resumes from here, by {journal.path}",
              file=sys.stderr)
        return 1
    outcome.refused.update(search.refused)
    if outcome.failed:
        journal.close()
    else:
        journal.finish()
    return _report(outcome, progress, xml_choices(given))


def _drop_left(client: Client, starts: list[str]) -> None:
    """Drops the temporary documents of an interrupted run."""
    if not starts:
        return
    for address in client.list():
        if address.startswith(tuple(starts)):
            client.drop(address)


def _report(outcome: Outcome, progress: Progress, choices: XmlChoices) -> int:
    wrong = outcome.wrong()
    for path, why in sorted(wrong.items()):
        print(f"{path}{why}" if why.startswith(":") else f"{path}: {why}")
    more = switches.shown(outcome.by_choice, choices)
    if more:
        print(more, file=sys.stderr)
    before = f", {progress.skipped} were done before" if progress.skipped else ""
    print(
        f"{outcome.stored} stored, {len(outcome.refused)} refused, {len(outcome.failed)} failed"
        f"{before}; {progress.bytes / 1e6:.1f} MB in {progress.seconds:.1f} s",
        file=sys.stderr,
    )
    return 1 if wrong else 0
