"""Makes a Debian package of a program of the server and of the client.

    tools/run package_deb PROGRAM FOLDER [--unproved]

PROGRAM is the server as it was built; the package goes to FOLDER, and its path is printed. It has
/usr/bin/xq_server and /usr/bin/xqs with a manual page of each and of each command of xqs, made from
their `--help`, completion for bash, units of systemd for a file that several servers share and for
a node, and all pages. It wants `dpkg-deb`, `help2man`, a clean work tree, and the packages that
commands of xqs import before they show their help: python3-aiohttp for `xqs web`.
"""

from __future__ import annotations

import argparse
import gzip
import os
import pathlib
import re
import shlex
import shutil
import subprocess
import sys
import tempfile
from collections.abc import Iterator, Mapping, Sequence

from tools.common.repository import CLIENT, TOP
from xqs.cli import COMMANDS

NAME = "xq-server"
PROGRAM = pathlib.PurePosixPath("usr/lib/xq-server/xq_server")
PACKAGES = pathlib.PurePosixPath("usr/lib/python3/dist-packages")
DOCS = pathlib.PurePosixPath("usr/share/doc") / NAME
UNITS = pathlib.PurePosixPath("lib/systemd/system")
IN_UNITS = {"/opt/xq_server/xqs": "/usr/bin/xqs", "/opt/xq_server/serve": "/usr/bin/xq_server",
            "/opt/xq_server/docs": f"/{DOCS}/docs"}
"""What stands in the units for a release in /opt, and what the package has in its place."""
DEPENDS = "libc6 (>= 2.34), python3 (>= 3.11), adduser"
RECOMMENDS = "python3-aiohttp, python3-prompt-toolkit"
SUGGESTS = "python3-aio-pika, libjs-codemirror, rabbitmq-server"
OPTION = re.compile(r"(?<![\w-])--?[a-z][a-z-]*")

PREPARED = """#!/bin/sh
set -e
if [ "$1" = configure ]; then
    adduser --quiet --system --group --home /var/lib/xqs --no-create-home xqs
    py3compile -p xq-server
    if [ -d /run/systemd/system ]; then systemctl daemon-reload >/dev/null || true; fi
fi
"""
REMOVED = """#!/bin/sh
set -e
py3clean -p xq-server
"""
OVERRIDES = f"""# The program is as the proving toolchain links it: it is not stripped.
{NAME}: unstripped-binary-or-object *
# Nobody has filed a bug for a package that no archive has.
{NAME}: initial-upload-closes-no-bugs *
# The units are started by hand: one wants a file, one a log. Only their list is read anew.
{NAME}: maintainer-script-calls-systemctl *
"""


class NotPackaged(Exception):
    """Why there is no package."""


def run(words: Sequence[str], environment: Mapping[str, str] | None = None) -> str:
    """What a command prints; NotPackaged where it fails."""
    if shutil.which(words[0]) is None:
        raise NotPackaged(f"{words[0]} is not installed")
    ended = subprocess.run(words, capture_output=True, text=True, env=environment, cwd=TOP)
    if ended.returncode:
        raise NotPackaged(f"{shlex.join(words)}: {ended.stderr.strip()}")
    return ended.stdout


def commit_of() -> tuple[str, str, str]:
    """The last commit, its day, and its author; NotPackaged where the work tree differs from it."""
    if run(["git", "status", "--porcelain"]):
        raise NotPackaged("the work tree differs from the last commit")
    commit, day, author = run(["git", "log", "-1", "--format=%H%n%cd%n%an <%ae>",
                               "--date=format:%a, %d %b %Y %H:%M:%S %z"]).splitlines()
    return commit, day, author


def version_of(commit: str) -> str:
    """The package's version: the client's, the day of the commit, and its beginning."""
    found = re.search('__version__ = "(.+)"', (CLIENT / "src" / "xqs" / "version.py").read_text())
    assert found is not None
    day = run(["git", "log", "-1", "--format=%cd", "--date=format:%Y%m%d%H%M"]).strip()
    return f"{found[1]}+git{day}.{commit[:8]}"


class Root:
    """The folder with what the package installs."""

    def __init__(self, folder: pathlib.Path) -> None:
        self.folder = folder

    def write(self, place: pathlib.PurePosixPath | str, text: str, mode: int = 0o644) -> None:
        """A file of text."""
        path = self.folder / place
        path.parent.mkdir(parents=True, exist_ok=True)
        path.write_text(text, encoding="utf-8")
        path.chmod(mode)

    def compressed(self, place: pathlib.PurePosixPath | str, text: str) -> None:
        """A file of text that is compressed, the same each time."""
        path = self.folder / place
        path.parent.mkdir(parents=True, exist_ok=True)
        path.write_bytes(gzip.compress(text.encode(), 9, mtime=0))
        path.chmod(0o644)

    def copy(self, source: pathlib.Path, place: pathlib.PurePosixPath | str, mode: int) -> None:
        """A file as it is."""
        path = self.folder / place
        path.parent.mkdir(parents=True, exist_ok=True)
        shutil.copyfile(source, path)
        path.chmod(mode)

    def files(self) -> Iterator[pathlib.Path]:
        """All of its files."""
        return (it for it in sorted(self.folder.rglob("*")) if it.is_file())


def server_script(is_unproved: bool) -> str:
    """The command xq_server: the program with the allocator's settings of ./serve."""
    text = (TOP / "serve").read_text()
    found = re.search(r"^set_allocator\(\) \{\n.*?^\}\n", text, re.DOTALL | re.MULTILINE)
    if not found:
        raise NotPackaged("./serve has no set_allocator")
    warning = ('echo "xq_server: this program is not proved; it checks itself as it runs" >&2\n'
               if is_unproved else "")
    return ("#!/usr/bin/env bash\n# Request frames on standard input, replies on standard output: "
            f'see xq_server(1).\nset -eu\n{found[0]}{warning}set_allocator\nexec /{PROGRAM} "$@"\n')


def fill(root: Root, program: pathlib.Path, is_unproved: bool) -> None:
    """Fills the folder with programs, units and pages."""
    root.copy(program, PROGRAM, 0o755)
    root.write("usr/bin/xq_server", server_script(is_unproved), 0o755)
    root.write("usr/bin/xqs", "#!/usr/bin/python3\nimport sys\n\nfrom xqs.cli import main\n\n"
               "sys.exit(main())\n", 0o755)
    for file in tracked("clients/python/src/xqs"):
        root.copy(TOP / file, PACKAGES / file.removeprefix("clients/python/src/"), 0o644)
    for file in tracked("clients/python/systemd"):
        text = (TOP / file).read_text()
        for there, here in IN_UNITS.items():
            text = text.replace(there, here)
        root.write(UNITS / pathlib.PurePosixPath(file).name, text)
    for file in [*tracked("docs"), "README.md", "CHANGELOG.md", "CONTRIBUTING.md"]:
        root.copy(TOP / file, DOCS / file, 0o644)


def tracked(folder: str) -> list[str]:
    """The files below a folder that git has, links aside."""
    found = run(["git", "ls-files", "-z", "--", folder]).split("\0")
    return [it for it in found if it and not (TOP / it).is_symlink()]


def commands() -> dict[str, str]:
    """The commands of xqs with what they do."""
    return {name: entry.summary for name, entry in COMMANDS.items()}


def client_environment() -> dict[str, str]:
    """The environment in which the client of the work tree tells its options."""
    return {**os.environ, "PYTHONPATH": str(CLIENT / "src"), "COLUMNS": "80",
            "PYTHONDONTWRITEBYTECODE": "1"}


def help_of(command: str) -> str:
    """What `xqs COMMAND --help` prints."""
    return run(["/usr/bin/python3", "-m", "xqs", command, "--help"], client_environment())


def write_pages(root: Root, program: pathlib.Path, version: str) -> None:
    """Writes a manual page for each program, and for each command of xqs."""
    client = "/usr/bin/python3 -m xqs"
    pages = [("xq_server", "a document server whose answers are proved", str(program)),
             ("xqs", "the client of xq_server", client)]
    pages += [(f"xqs-{name}", summary, f"{client} {name}") for name, summary in commands().items()]
    for name, summary, command in pages:
        page = manual_page(name, summary, command, version)
        root.compressed(f"usr/share/man/man1/{name}.1.gz", page)


def manual_page(name: str, summary: str, command: str, version: str) -> str:
    """The manual page of a command, from its `--help`."""
    with tempfile.TemporaryDirectory(prefix="xq-deb-") as folder:
        # (help2man calls the page as the file that it runs)
        script = pathlib.Path(folder) / name
        script.write_text(f'#!/bin/sh\nexec {command} "$@"\n')
        script.chmod(0o755)
        return run(["help2man", "--no-info", f"--name={summary}", f"--version-string={version}",
                    "--no-discard-stderr", str(script)], client_environment())


def completion() -> str:
    """The completion for bash: commands, their options, and files elsewhere."""
    cases = "".join(
        f"        {name}) words='{' '.join(sorted(set(OPTION.findall(help_of(name)))))}' ;;\n"
        for name in commands())
    return (
        "# bash completion for xqs(1)\n_xqs() {\n"
        '    local current=${COMP_WORDS[COMP_CWORD]} words=\n'
        "    if [ \"$COMP_CWORD\" = 1 ]; then\n"
        f"        words='{' '.join(commands())} --help --version'\n"
        "    else\n        case ${COMP_WORDS[1]} in\n"
        f"{cases}        esac\n"
        "        [[ $current = -* ]] || words=\n    fi\n"
        '    mapfile -t COMPREPLY < <(compgen -W "$words" -- "$current")\n}\n'
        "complete -o default -F _xqs xqs\n")


def control(version: str, author: str, kilobytes: int, is_unproved: bool) -> str:
    """The description of the package."""
    note = (" This program is not proved: it checks itself as it runs.\n" if is_unproved
            else " The server's replies are proved to be the meaning of their requests.\n")
    return (
        f"Package: {NAME}\nVersion: {version}\nArchitecture: amd64\nSection: database\n"
        f"Priority: optional\nMaintainer: {author}\nInstalled-Size: {kilobytes}\n"
        f"Depends: {DEPENDS}\nRecommends: {RECOMMENDS}\nSuggests: {SUGGESTS}\n"
        "Description: document server that answers XQuery, and its client\n"
        " It keeps documents as trees of nodes in a SQL database, in memory or in a\n"
        " file, and answers XQuery 3.1 in a stated profile. The client xqs reads and\n"
        " writes XML, folders and backups, and has a shell, HTTP and a page.\n"
        f" .\n{note}")


def write_control(root: Root, version: str, day: str, author: str, is_unproved: bool) -> None:
    """Writes what dpkg reads, the changelog, and the copyright."""
    commit = run(["git", "rev-parse", "HEAD"]).strip()
    root.compressed(DOCS / "changelog.gz", (
        f"{NAME} ({version}) unstable; urgency=medium\n\n  * Commit {commit}.\n\n"
        f" -- {author}  {day}\n"))
    root.write(DOCS / "copyright", (
        f"xq_server, commit {commit}.\n\nCopyright {day.split()[3]} the authors of xq_server, "
        "whom its history names.\nNo licence is granted beyond what the repository says.\n"))
    root.write(f"usr/share/lintian/overrides/{NAME}", OVERRIDES)
    kilobytes = sum(it.stat().st_size for it in root.files()) // 1024 + 1
    root.write("DEBIAN/control", control(version, author, kilobytes, is_unproved))
    root.write("DEBIAN/postinst", PREPARED, 0o755)
    root.write("DEBIAN/prerm", REMOVED, 0o755)


def package(program: pathlib.Path, folder: pathlib.Path, is_unproved: bool) -> pathlib.Path:
    """Makes the package, and gives its path."""
    commit, day, author = commit_of()
    version = version_of(commit)
    with tempfile.TemporaryDirectory(prefix="xq-deb-") as room:
        root = Root(pathlib.Path(room) / "root")
        fill(root, program, is_unproved)
        write_pages(root, program, version)
        root.write("usr/share/bash-completion/completions/xqs", completion())
        write_control(root, version, day, author, is_unproved)
        for path in [root.folder, *root.folder.rglob("*")]:
            if path.is_dir():
                path.chmod(0o755)
        folder.mkdir(parents=True, exist_ok=True)
        unproved = "-unproved" if is_unproved else ""
        made = folder / f"{NAME}{unproved}_{version}_amd64.deb"
        run(["dpkg-deb", "--root-owner-group", "--build", str(root.folder), str(made)])
    return made


def main(words: Sequence[str] | None = None) -> int:
    """Carries out the command."""
    parser = argparse.ArgumentParser(description=__doc__.partition("\n")[0])
    parser.add_argument("program", type=pathlib.Path)
    parser.add_argument("folder", type=pathlib.Path)
    parser.add_argument("--unproved", action="store_true")
    given = parser.parse_args(words)
    try:
        print(package(given.program.resolve(), given.folder, given.unproved))
    except NotPackaged as error:
        print(f"package_deb: {error}", file=sys.stderr)
        return 1
    return 0


if __name__ == "__main__":
    sys.exit(main())
