"""`xqs export`: writes documents to a folder, each as a file of XML or of constructors."""

import argparse
import os
import sys
from collections.abc import Callable, Iterator, Sequence
from contextlib import contextmanager
from pathlib import Path
from typing import TextIO

from xqs.cli import checkout_server, connected, connection_options
from xqs.client import Client
from xqs.constructors import write_constructors
from xqs.errors import ReplyError
from xqs.fetch import document_events
from xqs.paths import NoPath, path_of
from xqs.prefixed import prefixed_events
from xqs.progress import Progress, progress_of, silent
from xqs.temporary import is_temporary
from xqs.values import Event
from xqs.xml_out import FLAT, KEEP, NotXml, write_document

BUILT = "out"
"""The names of the checkout's folders that programs are built in."""
SUFFIX = {"xml": ".xml", "constructors": ".xq"}


@contextmanager
def written(path: Path) -> Iterator[TextIO]:
    """A file that gets its name only once it is whole, and is removed if the writing fails."""
    path.parent.mkdir(parents=True, exist_ok=True)
    whole = path.with_name(f".{path.name[:200]}.{os.getpid()}.part")
    try:
        with open(whole, "w", encoding="utf-8", newline="") as file:
            yield file
        os.replace(whole, path)
    finally:
        whole.unlink(missing_ok=True)


class Exporter:
    """Writes documents below a folder."""

    def __init__(
        self,
        client: Client,
        folder: Path,
        form: str,
        names: str,
        force: bool,
        progress: Progress | None = None,
    ) -> None:
        """`form` is `xml` or `constructors`. Existing files are replaced only with `force`."""
        self._client, self._folder = client, folder
        self._progress = progress or silent()
        self._form, self._names, self._force = form, names, force
        self._taken: set[Path] = set()
        self._written = 0

    @property
    def count(self) -> int:
        """How many documents were written."""
        return len(self._taken)

    def export_all(self, prefix: str = "") -> dict[str, str]:
        """Writes the documents whose addresses have a prefix, except temporary ones. Returns those
        that can't be written, with the reason for each."""
        refused: dict[str, str] = {}
        known = self._client.list()
        wanted = [it for it in known if it.startswith(prefix) and not is_temporary(it)]
        self._progress.begin(len(wanted), 0)
        for address in wanted:
            self._written = 0
            try:
                self.export(address, prefix)
            except (NoPath, NotXml, OSError, ReplyError) as error:
                refused[address] = str(error)
            self._progress.step(self._written, address in refused)
        return refused

    def file_of(self, address: str, prefix: str) -> Path:
        """The file of a document. Raises NoPath if there can't be one."""
        path = Path(path_of(address.removeprefix(prefix)))
        if not path.suffix:
            path = path.with_name(path.name + SUFFIX[self._form])
        file = self._folder / path
        if file in self._taken:
            raise NoPath(f"another document has the file {path}")
        if os.path.lexists(file) and not self._force:
            raise NoPath(f"the file {path} exists already; --force replaces it")
        return file

    def export(self, address: str, prefix: str = "") -> Path:
        """Writes a document and returns its file. Raises NoPath, NotXml, OSError, ReplyError."""
        file = self.file_of(address, prefix)
        with written(file) as out:
            write = self._counted(out.write) if self._progress.draws else out.write
            self._write(document_events(self._client, address, self._progress), write)
        self._taken.add(file)
        return file

    def _counted(self, write: Callable[[str], object]) -> Callable[[str], object]:
        def counted(text: str) -> None:
            write(text)
            self._written += len(text)
            self._progress.reach(self._written)

        return counted

    def _write(self, events: Iterator[Event], write: Callable[[str], object]) -> None:
        if self._form == "xml":
            write_document(events, write, self._names)
        else:
            write_constructors(prefixed_events(events, self._names), write)
            write("\n")


def main(words: Sequence[str]) -> int:
    """Runs the command."""
    given = _parser().parse_args(words)
    _check_folder(given.folder)
    with connected(given) as client:
        with progress_of() as progress:
            options = (given.form, given.names, given.force, progress)
            exporter = Exporter(client, given.folder, *options)
            refused = exporter.export_all(given.prefix)
    for address, why in refused.items():
        print(f"{address}: {why}")
    print(f"{exporter.count} written, {len(refused)} refused", file=sys.stderr)
    return 1 if refused else 0


def _check_folder(folder: Path) -> None:
    """Raises ValueError for a folder of this checkout's builds, where documents don't belong."""
    serve = checkout_server()
    if serve is None or not folder.resolve().is_relative_to(serve.parent):
        return
    names = folder.resolve().relative_to(serve.parent).parts
    if names and (names[0] == BUILT or names[0] == "crates" and BUILT in names):
        raise ValueError(f"{folder} is a folder of this checkout's build; name another one")


def _parser() -> argparse.ArgumentParser:
    words = argparse.ArgumentParser(
        prog="xqs export",
        parents=[connection_options()],
        description="Writes documents below a folder, each by its address. Each is a consistent "
        "snapshot; all of them together are one only if nobody stores or drops meanwhile.",
        epilog="Status 0: all are written; 1: some are refused, and listed with the reason.",
    )
    words.add_argument("folder", type=Path)
    words.add_argument("--prefix", default="", help="only documents with this prefix, which the "
                       "names of files leave out")
    words.add_argument("--form", choices=list(SUFFIX), default="xml")
    words.add_argument("--names", choices=[KEEP, FLAT], default=KEEP,
                       help="flat turns p__a back into p:a, as 'load --names flat' made it")
    words.add_argument("--force", action="store_true", help="replace existing files")
    return words
