"""Runs what is only tested and needs more than the gate: Debian packages, a corpus, sqlite3, time.

    tools/run after_gate [--server COMMAND] [--gate CLONE] [--corpus FOLDER] [--long] [NAME ..]

Without names all trials are run; `--list` prints them. COMMAND starts a server with documents in
memory; without it that is the program which ./serve built, if it is of the sources as they are.
With CLONE, in which `rt ci` ran, the trials that build programs of their own build them over what
that gate proved (tools/trials/over_gate.py). FOLDER is the corpus, which lies beside this
repository. With --long the soak lasts an hour, and the trial of several servers that are killed ten
minutes; a minute each otherwise. XQS_TRIAL_SECONDS is how long the second one lasts in any case.

Nothing is installed. A trial whose needs are not there is left out, and the last lines say which
and why. What a trial prints is shown where it fails. The status is 1 where one failed.
"""

import argparse
import os
import pathlib
import shlex
import shutil
import subprocess
import sys
import tempfile
import time
from collections.abc import Callable, Iterator
from dataclasses import dataclass, field

from tools.common.repository import BUILT, CLIENT, TOP, environment

PYTHONS = (sys.executable, "/usr/bin/python3")
PACKAGES = {
    "test_cluster": ("aio_pika",), "test_cluster_amqp": ("aio_pika",),
    "test_cluster_restarts": ("aio_pika",), "test_cluster_torture": ("aio_pika",),
    "test_page": ("aiohttp",), "test_page_tools": ("aiohttp",), "test_page_values": ("aiohttp",),
    "test_toolkit": ("prompt_toolkit",),
    "test_web": ("aiohttp",), "test_web_http": ("aiohttp",), "test_web_slow": ("aiohttp",)
}
"""The Python packages that the client's long tests want, by their files."""
PROGRAMS = {
    "test_cluster": ("/usr/lib/rabbitmq/bin/rabbitmq-server", "epmd"),
    "test_cluster_restarts": ("/usr/lib/rabbitmq/bin/rabbitmq-server", "epmd"),
    "test_cluster_torture": ("/usr/lib/rabbitmq/bin/rabbitmq-server", "epmd", "ip", "nsenter"),
    "test_page": ("chromium",), "test_page_tools": ("chromium",), "test_page_values": ("chromium",),
    "test_xml_files": ("xmllint",),
}
GROWTHS: dict[str, list[str]] = {
    "growths": [], "growths_file": ["--file"],
    "growths_atoms": ["--table", "atoms.toml"], "growths_grammar": ["--table", "grammar.toml"],
    "growths_joins": ["--table", "joins.toml"], "growths_queries": ["--table", "queries.toml"],
    "growths_tuples": ["--table", "tuples.toml"],
    "growths_kept": ["--file", "--table", "kept.toml"],
}
"""The rows over which each allocation of the program is refused in turn."""
LAST_LINES = 60
TRIAL_SECONDS = "XQS_TRIAL_SECONDS"


def script(module: str, *words: str) -> list[str]:
    """The words that run a module of this repository, or of Python."""
    return ["python3", "-P", "-m", module, *words]


@dataclass(frozen=True)
class Given:
    """What the command line gives: the server's words, a gate's clone, the corpus, a length."""

    server: list[str]
    gate: str | None
    corpus: pathlib.Path
    is_built: bool
    is_long: bool


@dataclass(frozen=True)
class Trial:
    """A command, what it needs, and where it runs.

    `packages` are of Python, `programs` are looked for on the path. `wants` is for what else has to
    be there: it gives what is missing, or an empty text.
    """

    name: str
    words: list[str]
    packages: tuple[str, ...] = ()
    programs: tuple[str, ...] = ()
    wants: Callable[[Given], str] = lambda given: ""
    folder: pathlib.Path = TOP
    environment: dict[str, str] = field(default_factory=dict)


def built(given: Given) -> str:
    """What is missing where the program itself is run."""
    return "" if given.is_built else "the program is not built of these sources (./serve builds it)"


def served(given: Given) -> str:
    """What is missing where any server will do."""
    return "" if given.server else "no server: give --server COMMAND, or build ./serve"


def queried(given: Given) -> str:
    """What is missing where a server is asked the queries of the corpus."""
    path = given.corpus / "public.jsonl"
    return served(given) or ("" if path.exists() else f"there is no corpus at {given.corpus}")


def proved(given: Given) -> str:
    """What is missing where a program is built over libraries that a gate has proved."""
    return "" if given.gate else "it stands on proved libraries: give --gate CLONE"


def client_trials(given: Given) -> Iterator[Trial]:
    """The client's tests that take long, and those that want packages of Debian's."""
    server = {"XQS_SERVER": shlex.join(given.server)}
    tests = script("unittest")
    long = server | {"XQS_LONG": "1"}
    yield Trial("client_long", tests, wants=served, folder=CLIENT, environment=long)
    seconds = os.environ.get(TRIAL_SECONDS, "600" if given.is_long else "60")
    yield Trial("servers", [*tests, "tests.test_mux_servers.TrialTest"], wants=served,
                folder=CLIENT, environment=server | {TRIAL_SECONDS: seconds})
    yield Trial("servers_bounds", script("bench.mux", "--", *given.server), wants=served)
    for path in sorted((CLIENT / "with_packages").glob("test_*.py")):
        words = [*tests, "discover", "-s", "with_packages", "-p", path.name]
        yield Trial(
            f"client_{path.stem.removeprefix('test_')}", words, PACKAGES.get(path.stem, ()),
            PROGRAMS.get(path.stem, ()), served, CLIENT, server)


def as_root(given: Given) -> str:
    """What is missing where machines, or a bare system, are made."""
    return served(given) or ("" if os.geteuid() == 0 else "systems of its own want root")


def program_trials(given: Given) -> Iterator[Trial]:
    """The scripts that run the program, or any server."""
    server = shlex.join(given.server)
    corpus = str(given.corpus / "public.jsonl")
    yield Trial("cluster_page", script("run_cluster_page", "--server", server), ("aio_pika",),
                ("/usr/lib/rabbitmq/bin/rabbitmq-server", "ip", "nsenter"), as_root)
    yield Trial("dialogue", script("tools.user.try_dialogue", *given.server), wants=served)
    yield Trial("file", script("tools.trials.try_file"), (), ("sqlite3",), built)
    yield Trial("kills", script("tools.trials.kill_often"), wants=built)
    for name, words in GROWTHS.items():
        growths = script("tools.trials.refuse_each_growth", *words)
        yield Trial(name, growths, (), ("cc",), built)
    found = ("discover", "-t", str(TOP), "-s", str(TOP / "tools" / "tests"), "-p", "test_rows*.py")
    rows = script("unittest", *found)
    yield Trial("rows", rows, wants=served, environment={"XQS_SERVER": server})
    seconds = "3600" if given.is_long else "60"
    yield Trial("soak", script("tools.trials.soak", "--seconds", seconds), wants=built)
    yield Trial("limits", script("bench.limits"), wants=built)
    yield Trial("language", script("tools.gate.check_language"))
    ask = ["python3", str(given.corpus / "run_corpus.py"), "--server", server]
    yield Trial("corpus", ask, wants=queried)
    second = [str(given.corpus / name) for name in ("edition2.jsonl", "edition2docs.jsonl")]
    yield Trial("corpus_arrows", [*ask, "--corpus", second[0], "--docs", second[1]], wants=queried)
    read_back = script("tools.trials.corpus", "read-back", corpus, "--server", server)
    yield Trial("read_back", read_back, wants=queried)
    yield Trial("read_back_rows", script("tools.trials.read_rows_back", "--server", server),
                wants=queried)


def release_trials(given: Given) -> Iterator[Trial]:
    """The package for Debian, installed in a bare system."""
    words = script("tools.release.try_deb", "--program", *given.server[:1])
    yield Trial("debian_package", words, (), ("debootstrap", "help2man", "dpkg-deb"), as_root_built)


def as_root_built(given: Given) -> str:
    """What is missing where the program is packed, and a bare system made."""
    return built(given) or as_root(given)


def library_trials(given: Given) -> Iterator[Trial]:
    """The scripts that build a program of their own over proved libraries."""
    over = script("tools.trials.over_gate", given.gate or "")
    yield Trial("stock_reader", [*over, "tools/trials/read_file.sh"], (), ("rt", "sqlite3"), proved)
    yield Trial("allocations", [*over, "tools/trials/each_allocation.sh"], (), ("rt", "cc"), proved)
    yield Trial("views", [*over, *script("tools.trials.try_view")], (), ("rt",), proved)


def python_with(packages: tuple[str, ...]) -> str | None:
    """A Python that has the packages, or None."""
    script = f"import {', '.join(packages)}" if packages else ""
    for python in PYTHONS:
        found = shutil.which(python)
        if found and not subprocess.run([found, "-c", script], capture_output=True).returncode:
            return found
    return None


def missing(trial: Trial, given: Given) -> str:
    """What a trial needs that is not there; an empty text where nothing is missing."""
    programs = [name for name in trial.programs if not shutil.which(name)]
    if programs:
        return f"not installed: {', '.join(programs)}"
    if not python_with(trial.packages):
        return f"no Python here has {', '.join(trial.packages)}"
    return trial.wants(given)


def run(trial: Trial) -> bool:
    """Runs a trial, and prints how it ended; whether it passed."""
    python = python_with(trial.packages) or "python3"
    words = [python if word == "python3" else word for word in trial.words]
    begin = time.monotonic()
    with tempfile.TemporaryFile("w+", errors="replace") as output:
        status = subprocess.run(
            words, cwd=trial.folder, stdin=subprocess.DEVNULL, stdout=output,
            stderr=subprocess.STDOUT, env=environment() | trial.environment).returncode
        output.seek(0)
        lines = output.read().splitlines()
    took = time.monotonic() - begin
    print(f"{'ok    ' if status == 0 else 'FAILED'} {trial.name}: {took:.0f} s", flush=True)
    if status:
        print("\n".join(f"    {line}" for line in [shlex.join(words), *lines[-LAST_LINES:]]))
    return status == 0


def is_current() -> bool:
    """Whether the program is there, and of the sources as they are."""
    script = 'top=$1; . "$top/tools/common/program.sh"; is_current'
    return not subprocess.run(["bash", "-c", script, "bash", str(TOP)]).returncode


def given_by(words: argparse.Namespace) -> Given:
    """What the command line gives."""
    server = shlex.split(words.server or "")
    current = is_current()
    if not server and current:
        server = [str(BUILT)]
    corpus = pathlib.Path(words.corpus).resolve()
    gate = words.gate and os.path.abspath(words.gate)
    return Given(server, gate, corpus, current, words.long)


def chosen(trials: list[Trial], names: list[str]) -> list[Trial]:
    """The trials of these names; all, where there are none. Ends the script for another name."""
    unknown = set(names) - {trial.name for trial in trials}
    if unknown:
        sys.exit(f"after_gate: there is no trial {', '.join(sorted(unknown))}; see --list")
    return [trial for trial in trials if not names or trial.name in names]


def main() -> int:
    """Runs the trials; gives the exit status."""
    parser = argparse.ArgumentParser(description=(__doc__ or "").split("\n")[0])
    parser.add_argument("--server", metavar="COMMAND", default=os.environ.get("XQS_SERVER"))
    parser.add_argument("--gate", metavar="CLONE")
    parser.add_argument("--corpus", metavar="FOLDER", default=TOP.parent / "shared" / "corpus")
    parser.add_argument("--long", action="store_true")
    parser.add_argument("--list", action="store_true")
    parser.add_argument("names", nargs="*", metavar="NAME")
    words = parser.parse_args()
    given = given_by(words)
    trials = [*client_trials(given), *program_trials(given), *release_trials(given),
              *library_trials(given)]
    left_out = {trial.name: why for trial in trials if (why := missing(trial, given))}
    wanted = chosen(trials, words.names)
    if words.list:
        lines = [f"{it.name:22}{left_out.get(it.name, shlex.join(it.words))}" for it in wanted]
        print("\n".join(lines))
        return 0
    results = [run(trial) for trial in wanted if trial.name not in left_out]
    for trial in wanted:
        if trial.name in left_out:
            print(f"left out {trial.name}: {left_out[trial.name]}")
    print(f"passed {sum(results)}, failed {len(results) - sum(results)}, "
          f"left out {len(wanted) - len(results)}")
    return 0 if all(results) else 1


if __name__ == "__main__":
    sys.exit(main())
