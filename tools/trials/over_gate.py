"""Runs a command in which `rt run`, `rt test` and `rt check` go over libraries that a gate proved.

    tools/run over_gate CLONE COMMAND ..       tools/run over_gate ../gate tools/run statics

CLONE is a clone in which `rt ci` ran or runs: it leaves each library that it proved in
crates/NAME/out/rlib. The command's own program, or its tests, are proved and built over these, so
that the scripts of bench/ and tools/ run in minutes beside a gate or after it, where `rt` itself
would prove each library anew. The clone's crates have to be those of the work tree. It is no
verdict: nothing compares what CLONE holds with what `rt ci` said of it.
"""

import argparse
import os
import pathlib
import shlex
import shutil
import subprocess
import sys
import tempfile
from typing import NoReturn

from tools.common import command_line
from tools.common.repository import TOP, all_below, libraries

# The word by which this script is called in the place of `rt`.
AS_RT = "--as-rt"
KIT = os.environ.get("OVER_GATE_KIT") or os.path.dirname(
    os.path.dirname(os.path.realpath(shutil.which("rt") or "")))


def check_words(verb: str, name: str, clone: str) -> list[str]:
    """What rattle is called with to prove the crate of the current folder, or to build it."""
    crates = libraries(os.path.join(clone, "crates.txt"))
    uses = libraries(os.path.join("..", "..", "crates.txt"))[name]
    source = "src/main.rt" if os.path.exists("src/main.rt") else "src/lib.rt"
    words = [KIT + "/bin/rattle", verb, "--crate-name", name, source,
             "--extern", f"std={KIT}/rlibs/std.rlib", "-L", f"dependency={KIT}/rlibs"]
    for used in uses:
        folder = f"{clone}/crates/{used}/out/rlib" if used in crates else KIT + "/rlibs"
        words += ["--extern", f"{used}={folder}/{used}.rlib"]
    for below in all_below(uses, crates):
        words += ["-L", f"dependency={clone}/crates/{below}/out/rlib"]
    return words + ["--antt-project", KIT + "/rattle/logic/antt-project.json",
                    "--logic-built", KIT + "/logic_built", "--links", name + "=", "--jobs", "2"]


def build(clone: str, is_test: bool) -> str:
    """Builds the program or the tests of the current folder's crate; gives their path."""
    name = os.path.basename(os.getcwd())
    program = "out/" + name + "_tests" * is_test
    build_words = check_words("build", name, clone) + ["--test"] * is_test
    build_words += ["--toolchain", KIT + "/toolchain", "--backend", "llvm", "-o", program + ".o"]
    os.makedirs("out", exist_ok=True)
    link = [KIT + "/bin/rattle-link", "--target", "x86_64-unknown-linux-gnu",
            "--toolchain", KIT + "/toolchain", "-o", program, program + ".o",
            KIT + "/c/libos_c.a", KIT + "/c/liblibc_c.a"]
    for words in (build_words, link):
        done = subprocess.run(words, stdin=subprocess.DEVNULL, capture_output=True, text=True)
        if done.returncode:
            sys.exit(done.stdout[-4000:] + done.stderr[-4000:])
    return program


def stand_in(clone: str, words: list[str]) -> NoReturn:
    """What `rt` is while the command runs."""
    if words == ["check"]:
        check = check_words("check", os.path.basename(os.getcwd()), clone)
        os.execv(check[0], check)
    if words[:1] not in (["run"], ["test"]):
        os.execv(KIT + "/bin/rt", ["rt"] + words)
    program = build(clone, words[0] == "test")
    given = words[words.index("--") + 1:] if "--" in words else []
    if words[0] == "test":
        os.execv(KIT + "/bin/rattle-test", ["rattle-test", "--seconds", "60", program])
    os.execv(program, [program] + given)


def put_stand_in(path: pathlib.Path) -> None:
    """Puts there a command that calls this script in the place of `rt`."""
    python = shlex.join([f"PYTHONPATH={TOP}", sys.executable, "-P", "-m", "tools.trials.over_gate"])
    path.write_text(f'#!/bin/sh\nexec env {python} {AS_RT} "$@"\n', encoding="utf-8")
    path.chmod(0o755)


def main() -> int:
    """Runs the command; gives its status. Or stands in for `rt`."""
    clone = os.environ.get("OVER_GATE")
    if clone and sys.argv[1:2] == [AS_RT]:
        stand_in(clone, sys.argv[2:])
    parser = command_line.parser(__doc__)
    parser.add_argument("clone")
    parser.add_argument("command", nargs=argparse.REMAINDER)
    given = parser.parse_args()
    if not given.command or not os.path.isfile(os.path.join(given.clone, "crates.txt")):
        parser.error("it wants a clone, and a command to run")
    with tempfile.TemporaryDirectory() as room:
        put_stand_in(pathlib.Path(room, "rt"))
        os.environ["OVER_GATE"] = os.path.abspath(given.clone)
        os.environ["OVER_GATE_KIT"] = KIT
        os.environ["PATH"] = room + ":" + os.environ["PATH"]
        return subprocess.run(given.command).returncode


if __name__ == "__main__":
    sys.exit(main())
