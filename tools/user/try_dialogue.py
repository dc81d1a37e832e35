#!/usr/bin/env python3
"""Sends the requests of docs/PROTOCOL.md's dialogue to the server, each after the reply to the one
before, and compares each reply with the document.

    tools/run try_dialogue [PROGRAM [WORDS]]     the program is ./serve where none is named
"""
import argparse
import pathlib
import re
import subprocess
import sys
from collections.abc import Iterator

TOP = pathlib.Path(__file__).resolve().parents[2]
HEX = re.compile(r"^    ([<>]) ((?:[0-9a-f]{2,} ?)+)(?:\s|$)")


def dialogue() -> Iterator[tuple[str, bytes]]:
    """The lines of the dialogue in order, each '>' or '<' with its bytes."""
    text = (TOP / "docs" / "PROTOCOL.md").read_text()
    for line in text[text.index("## A dialogue"):].splitlines():
        found = HEX.match(line)
        if found:
            yield found.group(1), bytes.fromhex(found.group(2))


def main() -> int:
    """Sends the requests; status 1 where a reply is another one."""
    words = argparse.ArgumentParser(
        description=__doc__, formatter_class=argparse.RawDescriptionHelpFormatter)
    words.add_argument("program", nargs=argparse.REMAINDER, help="with its words (./serve)")
    command = words.parse_args().program or [str(TOP / "serve")]
    server = subprocess.Popen(command, stdin=subprocess.PIPE, stdout=subprocess.PIPE)
    assert server.stdin and server.stdout
    wrong = 0
    for side, data in dialogue():
        if side == ">":
            server.stdin.write(data)
            server.stdin.flush()
            continue
        got = server.stdout.read(len(data))
        print("ok   " if got == data else "WRONG", data.hex(" ", 4))
        wrong += got != data
    server.stdin.close()
    rest = server.stdout.read()
    print(f"wrong: {wrong}, bytes left over: {len(rest)}, status: {server.wait()}")
    return 1 if wrong or rest else 0


if __name__ == "__main__":
    sys.exit(main())
