"""Queries as people write them: sent in the server's form, shown in the user's.

`xqs query`, the shell and HTTP share this: names with a prefix, folders of documents, the form of
the value, and the place of a fault in the text that the user wrote.
"""

from collections.abc import Callable, Mapping
from dataclasses import dataclass, replace

from xqs import places
from xqs.client import Client
from xqs.folders import FolderFault, below, with_folders
from xqs.prefixed import flattened, told
from xqs.queries import q
from xqs.rewriting import Rewritten
from xqs.values import values
from xqs.xml_out import KEEP, is_flat, xml


@dataclass(frozen=True)
class Question:
    """A query: the text that the user wrote, the text with flat names, and the text to send.

    `is_empty` means that it asks a folder without documents.
    """

    text: str
    flat: Rewritten
    asked: Rewritten
    is_empty: bool = False

    def bound(self, **strings: str) -> str:
        """The text to send, with each of these variables bound to a string."""
        return q(self.asked.text, **strings)

    def found(self, code: str) -> places.Place | None:
        """The place in the user's text that explains a refusal."""
        place = places.find(self.asked.text, code)
        if place is None:
            return None
        return replace(place, at=self.flat.place(self.asked.place(place.at)))

    def place(self, code: str) -> str:
        """The place that explains a refusal, with its line; empty if there is none."""
        place = self.found(code)
        return "" if place is None else places.marked(self.text, place)


def question(client: Client, text: str, names: str = KEEP, folder: str | None = None) -> Question:
    """The query. `flat` maps names with a prefix to flat names, and `folder` is the folder of
    `collection()`. Raises PrefixFault and FolderFault, with their place in the text."""
    return question_over(client.list, text, names, folder)


def question_over(
    addresses: Callable[[], list[str]], text: str, names: str = KEEP, folder: str | None = None
) -> Question:
    """Like `question`; `addresses` is called at most once, when the query asks for a folder."""
    flat = flattened(text) if is_flat(names) else Rewritten(text)
    known: list[str] = []

    def noted() -> list[str]:
        known.extend(addresses())
        return known

    try:
        asked = with_folders(flat.text, folder, noted)
    except FolderFault as error:
        raise FolderFault(text, flat.place(error.at), error.why) from None
    return Question(text, flat, asked, folder is not None and not below(known, folder))


def shown(answer: str, as_xml: bool, names: str = KEEP) -> str:
    """A printed value in the form to show: nodes as XML with one item per line, or as the server
    prints it."""
    if as_xml:
        return "\n".join(xml(it, names) for it in values(answer))
    return told(answer, names)


def strings_of(settings: list[str]) -> Mapping[str, str]:
    """The variables and their strings, from words `NAME=TEXT`. Raises ValueError for other
    words."""
    pairs = [it.partition("=") for it in settings]
    wrong = next((text for text, pair in zip(settings, pairs, strict=True) if not pair[1]), None)
    if wrong is not None:
        raise ValueError(f"--set needs NAME=TEXT, not {wrong!r}")
    return {name: value for name, _, value in pairs}
