"""Sends replies back as queries: each short reply has to give itself, over no documents.

Each row of a corpus with an answer is asked over the documents of its set. The text of a reply that
fits a frame is then asked of a server that keeps nothing, and its reply has to be the same text.
"""

import argparse
import collections
import os
import shlex
import sys
from collections.abc import Iterable, Iterator

from tools.common import harness
from tools.trials.corpora.lines import lines_of

LONGEST = 1048576


def sets_of(paths: Iterable[str]) -> list[tuple[dict[str, str], list[str]]]:
    """By set, its documents and the queries that have an answer."""
    documents: dict[str, dict[str, str]] = {}
    queries: dict[str, list[str]] = collections.defaultdict(list)
    for path in paths:
        beside = os.path.join(os.path.dirname(path), "docs.jsonl")
        documents.update((row["s"], row["docs"]) for row in lines_of(beside))
        for row in lines_of(path):
            if "a" in row:
                queries[row["s"]].append(row["q"])
    return [(documents[name], queries[name]) for name in sorted(queries)]


def answers(server: harness.Server, documents: dict[str, str],
            queries: Iterable[str]) -> Iterator[tuple[str, bytes]]:
    """The texts that the server answers to the queries, over these documents alone."""
    for address, text in documents.items():
        server.ask(b"S", harness.store(address.encode(), text.encode()))
    for query in queries:
        status, answer = server.answer(b"Q", query.encode())
        if status != 0:
            sys.exit(f"refused as {answer.decode()}: {query}")
        yield query, answer
    for address in documents:
        server.ask(b"D", address.encode())


def add_options(parser: argparse.ArgumentParser) -> None:
    """Adds the words of the command: the paths of corpora, and the command of a server."""
    parser.add_argument("corpus", nargs="+", metavar="CORPUS")
    parser.add_argument("--server", metavar="COMMAND", help="in place of this repository's program")


def run(given: argparse.Namespace) -> int:
    """Prints how many replies give themselves, and how many are longer than a frame; gives 0.

    Ends the script with status 1 where a query is refused, or a reply doesn't give itself.
    """
    command = shlex.split(given.server) if given.server else [str(harness.built())]
    server, empty = harness.Server(command), harness.Server(command)
    count = long = 0
    for documents, queries in sets_of(given.corpus):
        for query, text in answers(server, documents, queries):
            if len(text) > LONGEST:
                long += 1
                continue
            count += 1
            again = empty.ask(b"Q", text)
            if again != (0, text):
                sys.exit("%s\nanswers %r\nwhich reads back as %s" % (query, text[:400], again))
    print(f"{count} replies give themselves; {long} are longer than a frame")
    return 0
