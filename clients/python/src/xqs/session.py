"""What a shell does with each text: a query, or a command that begins with a dot."""

import shlex
import sys
import time
from collections.abc import Callable
from pathlib import Path

from xqs import places
from xqs.asking import question, shown
from xqs.bounds import lost
from xqs.client import Client
from xqs.commands import store_file
from xqs.constructors import write_constructors
from xqs.drops import agreed, chosen, drop_all
from xqs.errors import Closed, Refused, XqError
from xqs.export import Exporter
from xqs.fetch import document_events
from xqs.folders import named_by
from xqs.load import load_folder
from xqs.prefixed import prefixed_events
from xqs.shell_texts import COMMANDS, is_command, parted, texts_of
from xqs.xml_in import XmlChoices
from xqs.xml_names import Names
from xqs.xml_out import FLAT, KEEP, XmlWriter

_ADDRESS_CALLS = ('doc("', "doc('", 'doc-available("', "doc-available('")
_ADDRESS_COMMANDS = (".drop ", ".store ", ".get ")
_YES = "--yes"
"""The word by which a drop leaves its question out."""


_HELP = (
    "QUERY                     its value; Enter runs it if it is whole, else it continues in the",
    "                          next line; an empty line or ; ends it in any case",
    "Ctrl+C                    ends the query that runs",
)


class Misused(XqError, ValueError):
    """A command with wrong words."""


def completions(session: "Session", word: str, before: str) -> list[str]:
    """The completions of the word at the end of a text: addresses after `doc("` and the like, else
    the names of commands, functions and keywords."""
    rest = before[: len(before) - len(word)]
    if rest.endswith(_ADDRESS_CALLS) or rest.startswith(_ADDRESS_COMMANDS):
        known = session.addresses()
    elif word.startswith(".") and not rest.strip():
        known = list(COMMANDS)
    elif not word:
        return []
    else:
        known = [*places.FUNCTIONS, *(f"xs:{it}" for it in places.TYPES), *places.KEYWORDS]
    return sorted({it for it in known if it.startswith(word)})


class Session:
    """Runs texts with one client."""

    def __init__(
        self,
        client: Client,
        show: Callable[[str], None] = print,
        xml: bool = False,
        names: str = "keep",
        say: Callable[[str], None] | None = None,
    ) -> None:
        """`show` takes answers; `say` takes messages, by default on standard error."""
        self._client, self._show = client, show
        self._say = say or (lambda text: print(text, file=sys.stderr))
        self._xml, self._timing = xml, False
        self._names = Names.FLAT if names == FLAT else Names.REFUSE
        self._reading: list[Path] = []
        self.is_ended = False

    def addresses(self) -> list[str]:
        """The current addresses; none if the server has ended."""
        try:
            return self._client.list()
        except XqError:
            return []

    def interrupt(self) -> str:
        """Ends the requests under way, which nobody waits for any more. If that would lose
        documents in memory, they go on, and a message says so."""
        if not (self._client.is_busy and self._client.is_losing):
            return ""
        return "the query goes on, since ending it would lose documents in the server's memory"

    def wait(self) -> None:
        """Waits for the end of the requests under way."""
        try:
            self._client.query_text("()")
        except XqError as error:
            self._say(str(error))

    def begin_anew(self) -> str:
        """Ends the server with its current request, and starts another one; reports what was
        lost."""
        missing = self._client.restart()
        return "the query is ended" + (f"; {lost(missing)}" if missing else "")

    def run(self, text: str) -> bool:
        """Runs queries or a command. Returns whether that succeeded; errors are reported."""
        done = True
        for part in parted(text):
            done = self._run_one(part) and done
            if self.is_ended:
                break
        return done

    def _run_one(self, text: str) -> bool:
        begin = time.perf_counter()
        try:
            done = self._command(text) if is_command(text) else self._query(text)
        except Closed as error:
            self._say(str(error))
            self.is_ended = self._client.is_ended
            return False
        except (XqError, ValueError, OSError) as error:
            self._say(str(error))
            return False
        if self._timing:
            self._say(f"{time.perf_counter() - begin:.3f} s")
        return done

    def _query(self, text: str) -> bool:
        asked = question(self._client, text, self._shown_names)
        try:
            answer = self._client.query_text(asked.bound())
        except Refused as error:
            self._say(f"{error}\n{asked.place(error.code)}".rstrip("\n"))
            return False
        self._show(shown(answer, self._xml, self._shown_names))
        return True

    @property
    def _shown_names(self) -> str:
        """What happens to names on the way out."""
        return FLAT if self._names is Names.FLAT else KEEP

    def _command(self, text: str) -> bool:
        name, *words = shlex.split(text)
        command = COMMANDS[name]
        if not command.least <= len(words) <= command.most:
            raise Misused(f"{name} {command.words}: {command.summary}")
        method: Callable[..., bool | None] = getattr(self, f"_do_{name[1:]}")
        return method(*words) is not False

    def _do_list(self, wanted: str = "") -> None:
        self._show("\n".join(named_by(self._client.list(), wanted)))

    def _do_get(self, address: str) -> None:
        pieces: list[str] = []
        if self._xml:
            writer = XmlWriter(pieces.append, self._shown_names)
            for event in document_events(self._client, address):
                writer.event(event)
        else:
            steps = document_events(self._client, address)
            write_constructors(prefixed_events(steps, self._shown_names), pieces.append)
        self._show("".join(pieces))

    def _do_store(self, address: str, path: str) -> None:
        with open(path, "rb") as file:
            choices = XmlChoices(self._names)
            self._show(store_file(self._client, address, file, path, choices))

    def _do_drop(self, *words: str) -> bool:
        found = chosen(self._client, [it for it in words if it != _YES])
        is_asked = found.is_by_pattern and found.addresses and _YES not in words
        if is_asked and not agreed(found.addresses):
            self._say("nothing is dropped")
            return False
        for word in found.unmatched:
            self._say(f"{word}: no document has such an address")
        dropped = drop_all(self._client, found.addresses, self._say)
        if dropped:
            self._show(f"{dropped:,} dropped" if found.is_by_pattern else "dropped")
        return dropped == len(found.addresses) and not found.unmatched

    def _do_load(self, folder: str, prefix: str = "") -> bool:
        outcome = load_folder(self._client, Path(folder), prefix, XmlChoices(self._names))
        for path, why in sorted(outcome.wrong().items()):
            self._say(f"{path}{'' if why.startswith(':') else ': '}{why}")
        self._show(f"{outcome.stored} stored, {len(outcome.wrong())} refused")
        return not outcome.wrong()

    def _do_export(self, folder: str, prefix: str = "") -> bool:
        exporter = Exporter(self._client, Path(folder), "xml", self._shown_names, force=False)
        refused = exporter.export_all(prefix)
        for address, why in refused.items():
            self._say(f"{address}: {why}")
        self._show(f"{exporter.count} written, {len(refused)} refused")
        return not refused

    def _do_names(self, choice: str) -> None:
        self._names = Names(choice)

    def _do_xml(self, choice: str) -> None:
        self._xml = _is_on(choice)

    def _do_timing(self, choice: str) -> None:
        self._timing = _is_on(choice)

    def _do_read(self, name: str) -> bool:
        path = Path(name).resolve()
        if path in self._reading:
            raise Misused(f"{name} reads itself")
        self._reading.append(path)
        try:
            return all(self.run(it) for it in texts_of(path.read_text(encoding="utf-8")))
        finally:
            self._reading.pop()

    def _do_help(self) -> None:
        lines = [f"{f'{name} {it.words}':26}{it.summary}" for name, it in COMMANDS.items()]
        self._show("\n".join([*_HELP, *lines]))

    def _do_quit(self) -> bool:
        self.is_ended = True
        return False


def _is_on(choice: str) -> bool:
    if choice not in ("on", "off"):
        raise Misused(f"on or off, not {choice}")
    return choice == "on"
