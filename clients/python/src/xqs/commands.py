"""The small commands: query, store, get, drop, list."""

import argparse
import os
import sys
from collections.abc import Sequence
from contextlib import nullcontext
from pathlib import Path
from typing import BinaryIO

from xqs import stores
from xqs.asking import question, shown, strings_of
from xqs.cli import connected, connection_options, server_of, warn_of_memory
from xqs.client import Client
from xqs.constructors import write_constructors
from xqs.drops import agreed, chosen, drop_all
from xqs.errors import Refused
from xqs.fetch import document_events
from xqs.folders import named_by
from xqs.load import xml_choices, xml_options
from xqs.prefixed import prefixed_events
from xqs.progress import progress_of
from xqs.xml_in import XmlChoices
from xqs.xml_out import FLAT, KEEP, write_document


def _words(name: str, description: str) -> argparse.ArgumentParser:
    return argparse.ArgumentParser(
        prog=f"xqs {name}", parents=[connection_options()], description=description
    )


def out_options(words: argparse.ArgumentParser) -> None:
    """Adds the options for the printing of nodes."""
    words.add_argument("--xml", action="store_true", help="nodes as XML, one item per line")
    words.add_argument("--names", choices=[KEEP, FLAT], default=KEEP,
                       help="flat shows p__a as p:a; a query may then have such names too")


def query(words: Sequence[str]) -> int:
    """Asks a query. If its text is refused, shows the place of the fault if it can be found."""
    parser = _words("query", "Asks a query, and prints its value as an expression that gives it.")
    parser.add_argument("query", help="the text, or - to read it from standard input")
    parser.add_argument("--set", action="append", default=[], metavar="NAME=TEXT",
                        help="a string for the variable of that name")
    parser.add_argument("--in", dest="folder", metavar="FOLDER",
                        help="collection() has the documents of this folder alone")
    out_options(parser)
    given = parser.parse_args(words)
    text = sys.stdin.read() if given.query == "-" else given.query
    with connected(given) as client:
        asked = question(client, text, given.names, given.folder)
        if asked.is_empty:
            print(f"xqs query: no document is below {given.folder}", file=sys.stderr)
        try:
            answer = client.query_text(asked.bound(**strings_of(given.set)))
        except Refused as error:
            print(f"xqs query: {error}", file=sys.stderr)
            print(asked.place(error.code), end="", file=sys.stderr)
            return 1
    print(shown(answer, given.xml, given.names))
    return 0


def store(words: Sequence[str]) -> int:
    """Stores a file."""
    parser = _words("store", "Stores a file: XML, or a query that gives the document.")
    parser.add_argument("address")
    parser.add_argument("path", type=Path, help="the file, or - for standard input")
    xml_options(parser)
    given = parser.parse_args(words)
    place = server_of(given)
    warn_of_memory(place, "store")
    with connected(given, place) as client:
        if str(given.path) == "-":
            answer = store_file(client, given.address, sys.stdin.buffer, "-", xml_choices(given))
        else:
            with open(given.path, "rb") as file:
                name = os.fspath(given.path)
                answer = store_file(client, given.address, file, name, xml_choices(given))
    print(answer)
    return 0


def store_file(
    client: Client, address: str, file: BinaryIO, source: str, choices: XmlChoices
) -> str:
    """Stores a file, as `stores.store_file` does. Returns `stored` or `replaced`."""
    size = os.fstat(file.fileno()).st_size
    with progress_of(size=size) as progress:
        stored = stores.store_file(client, address, file, source, choices, progress=progress)
    return "replaced" if stored.replaced else "stored"


def get(words: Sequence[str]) -> int:
    """Prints a document."""
    parser = _words("get", "Prints a document, of any length.")
    parser.add_argument("address")
    out_options(parser)
    given = parser.parse_args(words)
    with connected(given) as client:
        _print_document(client, given.address, given.xml, given.names)
    return 0


def _print_document(client: Client, address: str, as_xml: bool, names: str) -> None:
    # On a terminal the progress line would stand between the parts of the document.
    with nullcontext(None) if sys.stdout.isatty() else progress_of() as progress:
        steps = document_events(client, address, progress)
        if as_xml:
            write_document(steps, sys.stdout.write, names)
        else:
            write_constructors(prefixed_events(steps, names), sys.stdout.write)
            print()


def drop(words: Sequence[str]) -> int:
    """Drops documents."""
    parser = _words("drop", "Drops documents, each by its address, or all that match a pattern.")
    parser.add_argument("address", nargs="+", help="an address, or a pattern such as 'books/*': * "
                        "stands for any characters, slashes too, ? for one, [ab] for one of these")
    parser.add_argument("--yes", action="store_true",
                        help="don't ask before dropping what matches a pattern")
    given = parser.parse_args(words)
    with connected(given) as client:
        found = chosen(client, given.address)
        is_asked = found.is_by_pattern and found.addresses and not given.yes
        if is_asked and not agreed(found.addresses):
            print("xqs drop: nothing is dropped", file=sys.stderr)
            return 1
        for word in found.unmatched:
            _say_drop(f"{word}: no document has such an address")
        dropped = drop_all(client, found.addresses, _say_drop)
    return 0 if dropped == len(found.addresses) and not found.unmatched else 1


def _say_drop(text: str) -> None:
    print(f"xqs drop: {text}", file=sys.stderr)


def list_addresses(words: Sequence[str]) -> int:
    """Prints the addresses."""
    parser = _words("list", "Prints the addresses, one per line.")
    parser.add_argument("prefix", nargs="?", default="",
                        help="only those with this prefix, or that match a pattern such as "
                        "'books/*.xml'")
    given = parser.parse_args(words)
    with connected(given) as client:
        wanted = named_by(client.list(), given.prefix)
    sys.stdout.write("".join(f"{it}\n" for it in wanted))
    return 0
