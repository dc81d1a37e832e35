"""Installs a Debian package of the server in a bare Debian, and uses it there.

    tools/run try_deb PACKAGE [--mirror URL]
    tools/run try_deb --program PROGRAM      of a program as it was built: makes the package first

Wants debootstrap, root and a mirror of Debian; lintian where it is there. The bare system lies in a
folder for temporary files, and is gone at the end. Status 1 where something is wrong, which is
printed.
"""

from __future__ import annotations

import argparse
import pathlib
import shlex
import shutil
import subprocess
import sys
import tempfile
from collections.abc import Sequence

from tools.common.repository import TOP
from tools.release import package_deb

MIRROR = "http://deb.debian.org/debian"
SUITE = "bookworm"
INCLUDED = "python3,adduser,man-db,bash-completion"
STORED_RUN = TOP / "crates" / "xq_serve"
BOOK = '<books><book id="1"><title>Ink</title></book></books>'
STEPS = (
    ("xqs --version", "xqs "),
    (f"echo '{BOOK}' >/tmp/a.xml && xqs store books /tmp/a.xml --file /tmp/x.db", "stored"),
    ("""xqs query 'doc("books")//title' --file /tmp/x.db""", 'element title {text {"Ink"}}'),
    ("xqs backup /tmp/x.backup --file /tmp/x.db 2>&1", "1 documents"),
    ("xqs list --file /tmp/absent/x.db 2>&1 || true", "cannot open the store"),
    ("man -P cat xqs-query | head -n 4", "xqs-query"),
    ("man -P cat xq_server | head -n 4", "xq_server"),
    ("bash -c '. /usr/share/bash-completion/completions/xqs; COMP_WORDS=(xqs que); COMP_CWORD=1; "
     "_xqs; echo ${COMPREPLY[@]}'", "query"),
    ("id xqs", "xqs"),
    ("python3 -c 'import xqs; print(xqs.connect)'", "function connect"),
    ("ls /lib/systemd/system/xqs-*", "xqs-"),
    ("dpkg --remove xq-server >/dev/null && ls /usr/bin/xqs /usr/lib/xq-server 2>&1 || true",
     "No such file"),
)
"""Commands in the bare system, and what they print among other things."""


class Wrong(Exception):
    """What went wrong."""


def run(words: Sequence[str], data: bytes | None = None) -> bytes:
    """What a command prints; Wrong where it fails."""
    ended = subprocess.run(words, input=data, capture_output=True)
    if ended.returncode:
        said = (ended.stdout + ended.stderr).decode(errors="replace").strip()[-2000:]
        raise Wrong(f"{shlex.join(words)}: {said}")
    return ended.stdout


def within(root: pathlib.Path, command: str, data: bytes | None = None) -> bytes:
    """What a command prints in the bare system."""
    return run(["chroot", str(root), "/usr/bin/env", "-i", "HOME=/root", "LANG=C.UTF-8",
                "PATH=/usr/sbin:/usr/bin:/sbin:/bin", "sh", "-c", command], data)


def install(root: pathlib.Path, package: pathlib.Path, mirror: str) -> None:
    """Makes the bare system and installs the package there. Raises Wrong if lintian complains."""
    if shutil.which("lintian"):
        said = run(["lintian", "--allow-root", str(package)]).decode()
        if said.strip():
            raise Wrong(said)
    run(["debootstrap", "--variant=minbase", f"--include={INCLUDED}", SUITE, str(root), mirror])
    shutil.copy(package, root / "tmp" / "it.deb")
    run(["mount", "-t", "proc", "proc", str(root / "proc")])
    within(root, "DEBIAN_FRONTEND=noninteractive apt-get install -qq --no-install-recommends "
           "/tmp/it.deb")


def check(root: pathlib.Path) -> list[str]:
    """What is wrong with the package that is installed there."""
    found = []
    for command, expected in STEPS:
        try:
            printed = within(root, command).decode(errors="replace")
        except Wrong as error:
            printed = str(error)
        if expected not in printed:
            found.append(f"{command}\n  prints {printed!r}\n  without {expected!r}")
        if command.startswith("xqs backup"):
            replies = within(root, "xq_server", (STORED_RUN / "stdin").read_bytes())
            if replies != (STORED_RUN / "stdout").read_bytes():
                found.append("xq_server does not answer the stored run")
    return found


def main(words: Sequence[str] | None = None) -> int:
    """Carries out the command."""
    parser = argparse.ArgumentParser(description=__doc__.partition("\n")[0])
    parser.add_argument("package", type=pathlib.Path, nargs="?")
    parser.add_argument("--program", type=pathlib.Path)
    parser.add_argument("--mirror", default=MIRROR)
    given = parser.parse_args(words)
    if (given.package is None) == (given.program is None):
        parser.error("it wants a package, or a program")
    room = pathlib.Path(tempfile.mkdtemp(prefix="xq-deb-"))
    root = room / "root"
    try:
        made = given.package or package_deb.package(given.program.resolve(), room, False)
        install(root, made, given.mirror)
        wrong = check(root)
    except (Wrong, package_deb.NotPackaged) as error:
        wrong = [str(error)]
    finally:
        subprocess.run(["umount", str(root / "proc")], capture_output=True)
        shutil.rmtree(room, ignore_errors=True)
    print("\n".join([*wrong, f"wrong: {len(wrong)}"]))
    return 1 if wrong else 0


if __name__ == "__main__":
    sys.exit(main())
