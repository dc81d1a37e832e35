"""Checks the queries of a corpus: each passes, or is refused with its code.

The last lines are 'passed N of M', and 'CODE N of M' for each code that tokens, the grammar or the
static checks refuse by. Any other code is of evaluation: such a query has to pass.
"""

import argparse
import shutil
import subprocess
import tempfile
from collections import Counter
from collections.abc import Iterable

from tools.common.workspace import built
from tools.trials.corpora.lines import Line, lines_of

CRATES = ("xq_atoms", "xq_lexer", "xq_expressions", "xq_parser", "xq_statics")
CODES = ("XPST0003", "XQST0090", "XPST0008", "XPST0017", "XQST0089", "XQST0094", "prof:PREFIX",
         "prof:TYPE")
PROGRAM = """\
//! Checks the texts of standard input, each ended by a byte of 0, and prints for each how that
//! ends.
#![tactic(auto)]

use std::alloc::Global;
use std::io::{self, BufRead};
use xq_atoms::Fault;
use xq_lexer::lex;
use xq_parser::parse;
use xq_statics::check;

fn checked(alloc: Global, text: &str) -> Result<(), Fault> {
    let tokens = lex(alloc, text)?;
    check(alloc, &parse(alloc, &tokens)?)
}

fn report<R: Print + AllocGlobal>(rt: &R, text: &str) -> io::Result<()> {
    match checked(rt.alloc(), text) {
        Ok(()) => println!(rt; "passed"),
        Err(Fault::Code(code)) => println!(rt; "{}", code.text()),
        Err(Fault::Want(want)) => println!(rt; "{}", want.text()),
    }
}

fn main(rt: HostRuntime) -> io::Result<()> {
    for part in rt.reader().split(rt.alloc(), 0) {
        let bytes = part?;
        match std::str::from_utf8(&bytes) {
            Ok(text) => report(&rt, text)?,
            Err(_) => println!(rt; "prof:UTF8")?,
        }
    }
    Ok(())
}
"""


def add_options(parser: argparse.ArgumentParser) -> None:
    """Adds the word of the command: the path of the corpus."""
    parser.add_argument("corpus", metavar="CORPUS")


def outcomes_of(rows: Iterable[Line]) -> list[str]:
    """How the check of each row's text ends. Line ends are read as line feeds, as the server
    does."""
    texts = (row["q"].replace("\r\n", "\n").replace("\r", "\n") for row in rows)
    given = b"".join(text.encode() + b"\0" for text in texts)
    folder = tempfile.mkdtemp()
    try:
        path = built(folder, CRATES, CRATES + ("sqlite_items",), PROGRAM)
        done = subprocess.run([path], input=given, stdout=subprocess.PIPE, check=True)
        return done.stdout.decode().split()
    finally:
        shutil.rmtree(folder)


def wanted_of(row: Line) -> str:
    """What the check has to say of a row."""
    return str(row["e"]) if row.get("e") in CODES else "passed"


def run(given: argparse.Namespace) -> int:
    """Prints the queries that end otherwise, and the counts; gives 0 where none does, else 1."""
    rows = lines_of(given.corpus)
    right: Counter[str] = Counter()
    total: Counter[str] = Counter()
    for row, outcome in zip(rows, outcomes_of(rows), strict=True):
        wanted = wanted_of(row)
        total[wanted] += 1
        if outcome == wanted:
            right[wanted] += 1
        else:
            print(f"{outcome}: {row['q']}")
    for kind in ("passed",) + CODES:
        print(f"{kind} {right[kind]} of {total[kind]}")
    return 0 if right == total else 1
