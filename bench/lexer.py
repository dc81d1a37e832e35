"""Lexes a megabyte of names, of digits, of nested comments, of one string, of symbols; prints times
and MB/s.

    tools/run lexer

A time is the least of five runs, without the program's start and its input.
"""

import subprocess
import sys
import tempfile
from collections.abc import Callable

from tools.common import command_line
from tools.common.workspace import built

CRATES = ("xq_atoms", "xq_lexer")
SIZES = (262_144, 524_288, 1_048_576)
PROGRAM = """\
//! Lexes the text of standard input, and prints how many tokens it has and the microseconds it
//! took.
#![tactic(auto)]

use std::io;
use std::time::Instant;
use xq_lexer::lex;

fn main(rt: HostRuntime) -> io::Result<()> {
    let text = io::read_to_string(rt.alloc(), rt.stdin())?;
    let start = Instant::now(&rt)?;
    let tokens = lex(rt.alloc(), text.as_str());
    let time = start.elapsed(&rt)?;
    match tokens {
        Ok(tokens) => println!(rt; "{} {}", tokens.len(), time.as_micros()),
        Err(_) => println!(rt; "refused"),
    }
}
"""


def repeated(piece: str, size: int) -> str:
    """The piece, repeated as often as it fits whole into so many characters."""
    return piece * (size // len(piece))


def nested(size: int) -> str:
    """Comments, 100,000 in one another where there is room for so many."""
    if size > 500_000:
        return repeated("(: " * 100_000 + "x" + ":)" * 100_000, size)
    return "(: " * (size // 5) + ":)" * (size // 5)


KINDS: tuple[tuple[str, Callable[[int], str]], ...] = (
    ("names", lambda size: repeated("element-name ", size)),
    ("one name", lambda size: "a" * size),
    ("integers", lambda size: repeated("123456789 ", size)),
    ("digits of one number", lambda size: "0" * size),
    ("nested comments", lambda size: nested(size)),
    ("one string", lambda size: '"%s"' % repeated('a"" &amp;', size - 2)),
    ("symbols", lambda size: repeated(":=<=>>..||", size)),
)


def timed(program: str, text: str) -> tuple[int, int]:
    """How many tokens the text has, and the least microseconds of five runs, at least 1.

    Ends the script where the text is refused. Raises CalledProcessError where the program fails.
    """
    best: int | None = None
    for _ in range(5):
        done = subprocess.run([program], input=text.encode(), stdout=subprocess.PIPE, check=True)
        words = done.stdout.decode().split()
        if words[0] == "refused":
            sys.exit("a text was refused")
        tokens, time = int(words[0]), max(1, int(words[1]))
        best = time if best is None else min(best, time)
    assert best is not None
    return tokens, best


def main() -> None:
    """Builds and measures."""
    command_line.parser(__doc__).parse_args()
    with tempfile.TemporaryDirectory() as folder:
        program = built(folder, CRATES, CRATES, PROGRAM)
        print(f"{'text':<22} {'bytes':>10} {'tokens':>8} {'ms':>10} {'MB/s':>8} {'ratio':>8}")
        for name, make in KINDS:
            before: int | None = None
            for size in SIZES:
                text = make(size)
                tokens, time = timed(program, text)
                ratio = f"{time / before:8.2f}" if before else ""
                print(f"{name:<22} {len(text):10d} {tokens:8d} {time / 1000:10.2f} "
                      f"{len(text) / time:8.1f} {ratio:>8}", flush=True)
                before = time


if __name__ == "__main__":
    main()
