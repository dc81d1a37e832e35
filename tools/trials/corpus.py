"""What a corpus of queries with agreed answers says of this repository.

    tools/run corpus check CORPUS                      the static checks
    tools/run corpus compute FOLDER SET [--most N]     the definitions, computed by the prover
    tools/run corpus read-back CORPUS .. [--server COMMAND]     replies, sent back as queries

A corpus has lines of JSON with the set of documents as s, a query as q, and its answer as a or its
code as e; docs.jsonl beside it has each set's documents by address as docs. `run_corpus.py`, which
lies beside the corpus, asks a server its queries. Status 1 where something differs.
"""

import argparse
import sys

from tools.trials.corpora import check, compute, read_back


def main() -> int:
    """Carries out the command; gives its status."""
    parser = argparse.ArgumentParser(description=__doc__.partition("\n")[0])
    commands = parser.add_subparsers(required=True, metavar="COMMAND")
    for name, module in (("check", check), ("compute", compute), ("read-back", read_back)):
        summary, _, text = (module.__doc__ or "").partition("\n")
        command = commands.add_parser(name, help=summary, description=summary, epilog=text)
        module.add_options(command)
        command.set_defaults(run=module.run)
    given = parser.parse_args()
    status: int = given.run(given)
    return status


if __name__ == "__main__":
    sys.exit(main())
