"""`xqs shell`: queries by hand. `session` has what works without a terminal; this module has the
lines, history and completion, by prompt_toolkit if it is installed, else by the standard
library."""

import argparse
import importlib.util
import os
import pydoc
import shutil
import sys
from collections.abc import Callable, Iterator, Sequence
from pathlib import Path

from xqs.cli import connected, connection_options, is_lasting, server_of
from xqs.session import Session, completions
from xqs.shell_texts import Lines

PROMPT, MORE = "xqs> ", "...> "
_WORD = "_-.:$/@"
"""The characters of a word to complete, besides letters and digits."""


def history_path() -> Path:
    """The file of earlier input, in the user's state folder."""
    state = os.environ.get("XDG_STATE_HOME") or Path.home() / ".local" / "state"
    path = Path(state) / "xqs" / "history"
    path.parent.mkdir(parents=True, exist_ok=True)
    return path


def word_before(text: str) -> str:
    """The word at the end of a text to complete; in a string, the string so far."""
    at = len(text)
    while at and (text[at - 1].isalnum() or text[at - 1] in _WORD):
        at -= 1
    return text[at:]


def main(words: Sequence[str]) -> int:
    """Runs the command."""
    given = _parser().parse_args(words)
    place = server_of(given)
    with connected(given, place) as client:
        session = Session(client, _printer(given.pager), xml=given.xml, names=given.names)
        if given.command is not None:
            return 0 if session.run(given.command) else 1
        if not sys.stdin.isatty():
            return _run_lines(session, sys.stdin)
        print(f"{client.place}; .help says more" + (
            "" if is_lasting(place) else "; the documents are lost at the end"))
        for text in _typed(session, given.plain):
            _run_typed(session, text)
            if session.is_ended:
                break
    return 0


def _run_typed(session: Session, text: str) -> None:
    try:
        session.run(text)
    except KeyboardInterrupt:
        _end_query(session)


def _end_query(session: Session) -> None:
    """Ends the query that was interrupted. If that would lose documents in memory, only a second
    interrupt, or the query's bound, ends it."""
    warning = session.interrupt()
    if not warning:
        print("interrupted: what ran is ended", file=sys.stderr)
        return
    print(f"interrupted; {warning}; Ctrl+C again ends it all the same", file=sys.stderr)
    try:
        session.wait()
        print("the query has come to its end", file=sys.stderr)
    except KeyboardInterrupt:
        print(session.begin_anew(), file=sys.stderr)


def _parser() -> argparse.ArgumentParser:
    words = argparse.ArgumentParser(
        prog="xqs shell",
        parents=[connection_options()],
        description="A shell for queries. Enter runs a query if it is whole, else it continues in "
        "the next line; an empty line or ; ends it. .help lists the commands.",
    )
    words.add_argument("-c", "--command", help="run this query or command, and end")
    words.add_argument("--xml", action="store_true", help="show nodes as XML from the start")
    words.add_argument("--names", choices=["keep", "flat"], default="keep",
                       help="flat shows p__a as p:a in XML")
    words.add_argument("--plain", action="store_true", help="don't use prompt_toolkit")
    words.add_argument("--pager", action=argparse.BooleanOptionalAction, default=True,
                       help="show long replies by $PAGER, on a terminal")
    return words


def _printer(pages: bool) -> Callable[[str], None]:
    """What shows an answer: a pager if it is longer than the terminal."""

    def show(text: str) -> None:
        columns, lines = shutil.get_terminal_size()
        height = sum(len(line) // columns + 1 for line in text.split("\n"))
        if pages and sys.stdout.isatty() and height >= lines:
            pydoc.pager(text)
        else:
            print(text)

    return show


def _run_lines(session: Session, lines: Iterator[str]) -> int:
    """Runs the texts of a file or a pipe; status 1 if something was refused."""
    read, status = Lines(is_typed=False), 0
    for line in lines:
        for text in read.take(line):
            status |= not session.run(text)
            if session.is_ended:
                return status
    return status | (not session.run(read.rest()))


def _typed(session: Session, plain: bool) -> Iterator[str]:
    """The user's input, text by text, to the end."""
    if plain or importlib.util.find_spec("prompt_toolkit") is None:
        return _by_readline(session)
    from xqs.toolkit import typed

    return typed(session, history_path(), word_before, (PROMPT, MORE))


def _by_readline(session: Session) -> Iterator[str]:
    try:
        import readline
    except ImportError:
        yield from _by_input(lambda: None)
        return
    path = history_path()
    if path.exists():
        readline.read_history_file(path)

    def complete(word: str, number: int) -> str | None:
        before = readline.get_line_buffer()[: readline.get_endidx()]
        found = completions(session, word_before(before), before)
        start = len(word_before(before)) - len(word)
        return found[number][start:] if number < len(found) else None

    readline.set_completer(complete)
    readline.set_completer_delims(" \t\n()[]{},\"'=<>|+*")
    readline.parse_and_bind("tab: complete")
    try:
        yield from _by_input(lambda: readline.write_history_file(path))
    finally:
        readline.set_completer(None)


def _by_input(keep: Callable[[], None]) -> Iterator[str]:
    read = Lines(is_typed=True)
    while True:
        try:
            texts = read.take(input(MORE if read.pending else PROMPT))
            if texts:
                keep()
        except KeyboardInterrupt:
            read.rest()
            print()
            continue
        except EOFError:
            print()
            return
        yield from texts
