"""Tries to write to a store while a view has it: the compiler refuses that, before any proof.

    tools/run try_view

A program over copies of the crates puts a document, reads the addresses of a view, and puts the
document again once the view has given the store back: that compiles and runs. With a `put`, a
`drop_doc` or an `addresses` of the store while the view lives, or with the view used after it gave
the store back, it doesn't. Each line says what was tried and `ok`, or what the compiler said in
place of it. The status is 0 where all is well. It takes some five minutes and proves nothing.
"""
import os
import subprocess
import sys
import tempfile

from tools.common import command_line
from tools.common.workspace import begin, crates_below

USES = ("xq_atoms", "xq_trees", "xq_store")
PROGRAM = """\
//! What a program may do with a store and its view.
#![tactic(auto)]

use std::alloc::Global;
use std::io;
use std::marker::Brand;
use xq_atoms::Want;
use xq_trees::{RowTree, Kind, NodeRow};
use xq_store::Store;

/// A document without children.
fn document(alloc: Global) -> Result<RowTree, Want> {
    let mut rows = Vec::new(alloc);
    rows.push(NodeRow {
        pre: 0,
        size: 0,
        level: 0,
        kind: Kind::Document,
        name: String::new(alloc),
        value: String::new(alloc),
    })?;
    RowTree::from_rows(rows).map_err(|_| Want::Store)
}

/// How many addresses a view has.
fn counted(alloc: Global) -> Result<usize, Want> {
    let document = document(alloc)?;
    let mut store = Store::new_in_memory(alloc)?;
    let _first = store.put("a", &document)?;
    let view = match store.view::<Brand>() {
        Ok(view) => view,
        Err((want, _store)) => return Err(want),
    };
    %s
    let count = view.addresses().len();
    let mut held = view.into_store();
    let _last = held.put("a", &document)?;
    %s
    Ok(count)
}

fn main(rt: HostRuntime) -> io::Result<()> {
    match counted(rt.alloc()) {
        Ok(count) => println!(rt; "{}", count),
        Err(want) => println!(rt; "{}", want.text()),
    }
}
"""
# What is tried: a line while the view lives, a line after it, and the value that was moved.
TRIED = (
    ("a put once the store is given back", "", "", None),
    ("a put while the view lives", 'let _put = store.put("a", &document)?;', "", "store"),
    ("a drop while the view lives", 'let _dropped = store.drop_doc("a")?;', "", "store"),
    ("a list while the view lives", "let _listed = store.addresses()?;", "", "store"),
    ("the view once the store is given back", "", "let _count = view.addresses().len();", "view"),
)


def said(folder: str, text: str) -> tuple[int, str, str]:
    """What the compiler says of the program, and what the program writes."""
    with open(os.path.join(folder, "src", "main.rt"), "w") as source:
        source.write(text)
    done = subprocess.run(["rt", "try"], cwd=folder, stdin=subprocess.DEVNULL,
                          capture_output=True)
    return done.returncode, done.stdout.decode(), done.stderr.decode()


def is_right(program: str, moved: str | None, answer: tuple[int, str, str]) -> bool:
    """Whether it compiles and counts one address, or its one error names the moved value there."""
    status, written, messages = answer
    if moved is None:
        return status == 0 and written == "1\n"
    usual = PROGRAM.splitlines()
    lines = enumerate(program.splitlines(), 1)
    added = [at for at, line in lines if line.strip() and line not in usual]
    errors = [line for line in (messages + written).splitlines() if "error[" in line]
    return (status == 1 and len(added) == 1 == len(errors)
            and errors[0].startswith(f"src/main.rt:{added[0]}:")
            and f"borrow of moved value: `{moved}`" in errors[0])


def main() -> int:
    """Tries each program; status 1 where one is judged otherwise."""
    command_line.parser(__doc__).parse_args()
    wrong = 0
    with tempfile.TemporaryDirectory() as scratch:
        begin(scratch, crates_below(USES), ("out", "must-fail", "more-edits"))
        with open(os.path.join(scratch, "crates.txt"), "a") as lines:
            lines.write(f"program: {' '.join(USES)}\n")
        folder = os.path.join(scratch, "crates", "program")
        os.makedirs(os.path.join(folder, "src"))
        for what, within, after, moved in TRIED:
            program = PROGRAM % (within, after)
            answer = said(folder, program)
            right = is_right(program, moved, answer)
            wrong += not right
            print(f"{what:<40} {'ok' if right else answer}", flush=True)
    return 1 if wrong else 0


if __name__ == "__main__":
    sys.exit(main())
