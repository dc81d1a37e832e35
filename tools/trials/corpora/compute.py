"""Has the prover compute the answers of a set of a corpus, from the definitions of xq_meaning.

Each query of the set, or of its first N, becomes a row of a crate in a workspace of its own, over
copies of this repository's crates and what they have built. Queries that are refused before
evaluation are left out: the definitions say nothing of them.

Prints the queries whose row is refused and those that pass the checker's limit of steps, each by
its line in public.jsonl, and last 'agree N of M'.
"""

import argparse
import json
import os
import re
import subprocess
import sys
import tempfile
from collections.abc import Iterator, Mapping, Sequence

from tools.common.workspace import begin
from tools.language import documents
from tools.language.files import Row, file_of
from tools.language.terms import meaning
from tools.language.tokens import Refused
from tools.trials.corpora.lines import Line, lines_of

CRATES = ("xq_atoms", "xq_expressions", "xq_trees", "xq_meaning")
CRATE = "xq_corpus"
ROWS_A_FILE = 10
BEFORE_EVALUATION = ("XPST0003", "XPST0008", "XPST0017", "XQST0089", "XQST0090", "XQST0094")
# An error with its other lines, which are indented; and what one says of two values.
FAULT = re.compile(r"(?m)^\S*proofs/\w+\.antt:\d+:\d+: error: `(line_\d+)`: (.*(?:\n  .*)*)")
COMPUTED = re.compile(r"computed as far as they go, the two types (.*)")
PAST_LIMIT = "stopped at the step limit"


def documents_of(folder: str, wanted: str) -> dict[str, str]:
    """The documents of a set, by address."""
    for line in lines_of(os.path.join(folder, "docs.jsonl")):
        if line["s"] == wanted:
            documents_by_address: dict[str, str] = line["docs"]
            return documents_by_address
    sys.exit(f"no set {wanted} in {folder}")


def is_evaluated(line: Line) -> bool:
    """Whether the definitions give the query of a line a meaning: it is not refused before."""
    code = line.get("e")
    try:
        meaning(line["q"])
    except Refused as refused:
        if str(refused) != code:
            raise
        return False
    return code not in BEFORE_EVALUATION


def rows_of(folder: str, wanted: str) -> Iterator[Row]:
    """The rows of a set, each named by its line."""
    for count, line in enumerate(lines_of(os.path.join(folder, "public.jsonl")), 1):
        if line["s"] == wanted and is_evaluated(line):
            answer = line["a"] if "a" in line else line["e"]
            yield Row(f"line_{count}", line["q"], answer, "a" not in line)


def write(path: str, text: str) -> None:
    """Writes a text to a file, and makes the folder of the file where there is none.

    Raises OSError where that can't be done.
    """
    os.makedirs(os.path.dirname(path), exist_ok=True)
    with open(path, "w") as file:
        file.write(text)


def write_crate(folder: str, documents_by_address: dict[str, str]) -> str:
    """A crate over the others, with the documents and no rows yet; gives its folder."""
    begin(folder, CRATES, leave_out=("must-fail",))
    with open(os.path.join(folder, "crates.txt"), "a") as lines:
        lines.write(f"{CRATE}: {' '.join(CRATES)} sqlite_items\n")
    crate = os.path.join(folder, "crates", CRATE)
    write(f"{crate}/src/lib.rt", "//! Rows of a corpus.\n#![tactic(auto)]\n")
    write(f"{crate}/specs/Lib.antt", "")
    write(f"{crate}/proofs/Documents.antt", documents.file_of(documents_by_address))
    return crate


def write_rows(crate: str, files: Mapping[str, Sequence[Row]]) -> None:
    """The files of rows, by their modules; one that has none left is left out."""
    modules = ["pub mod Documents"]
    for name, rows in files.items():
        if rows:
            modules.append(f"mod {name}")
            answers = f"Rattle.{CRATE}.proofs.Documents"
            text = file_of("Rows of a corpus.", rows, answers, encodes=True)
            write(f"{crate}/proofs/{name}.antt", text)
    write(f"{crate}/proofs/Lib.antt", "\n".join(modules) + "\n")


def faults_of(crate: str) -> dict[str, str]:
    """What the checker has against rows, by their names."""
    done = subprocess.run(["rt", "check"], cwd=crate, capture_output=True, text=True)
    faults = dict(FAULT.findall(done.stdout + done.stderr))
    if done.returncode and not faults:
        sys.exit(done.stdout + done.stderr)
    return faults


def all_faults(crate: str, rows: Sequence[Row]) -> dict[str, str]:
    """The faults of all rows; one can hide others, so rows are taken out until none has one."""
    files = {f"Rows{at}": rows[at:at + ROWS_A_FILE] for at in range(0, len(rows), ROWS_A_FILE)}
    found: dict[str, str] = {}
    while True:
        write_rows(crate, files)
        faults = faults_of(crate)
        if not faults:
            return found
        found.update(faults)
        files = {name: [row for row in part if row.name not in faults]
                 for name, part in files.items()}


def told(fault: str) -> str:
    """In which way a row is refused."""
    if PAST_LIMIT in fault:
        return "past the limit of steps"
    computed = COMPUTED.search(fault)
    return f"differs ({computed.group(1)})" if computed else "differs"


def add_options(parser: argparse.ArgumentParser) -> None:
    """Adds the words of the command: the folder of the corpus, the set, and the most queries."""
    parser.add_argument("corpus", metavar="FOLDER", help="has docs.jsonl and public.jsonl")
    parser.add_argument("set", metavar="SET")
    parser.add_argument("--most", type=int, metavar="N")


def run(given: argparse.Namespace) -> int:
    """Prints the rows that are refused, and how many agree; gives 0 where all do, else 1.

    Ends the script with status 1 where the corpus has no such set, or where the checker fails and
    names no row. Raises Refused where a query is refused by another code than that of its line.
    """
    documents_by_address = documents_of(given.corpus, given.set)
    rows = list(rows_of(given.corpus, given.set))[:given.most]
    with tempfile.TemporaryDirectory() as folder:
        faults = all_faults(write_crate(folder, documents_by_address), rows)
    for row in rows:
        if row.name in faults:
            query = json.dumps(row.query, ensure_ascii=False)
            print(f"{row.name}: {told(faults[row.name])}: {query}")
    print(f"agree {len(rows) - len(faults)} of {len(rows)}")
    return 1 if faults else 0
