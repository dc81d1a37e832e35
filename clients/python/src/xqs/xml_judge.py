"""Checks whether XML can be stored, before any part of it is: refuses all that `xml_in` refuses,
without making the text."""

from collections.abc import Callable, Iterable

from xqs.parts import NodeCount
from xqs.temporary import Temporary
from xqs.xml_in import FAULTS, SPACE, XmlChoices, XmlReader


def judge_xml(
    source: str,
    chunks: Iterable[bytes],
    choices: XmlChoices = XmlChoices(),  # noqa: B008 (it is frozen)
    charset: str | None = None,
) -> int:
    """The number of the document's nodes. Raises XmlFault as XmlReader does."""
    judge = _Judge(source, choices, charset)
    for chunk in chunks:
        judge.feed(chunk)
    judge.close()
    return judge.nodes


class _Judge(XmlReader):
    """Reads as XmlReader does, but only counts."""

    def __init__(self, source: str, choices: XmlChoices, charset: str | None) -> None:
        super().__init__(source, Temporary(), choices, charset)
        self._count = NodeCount()

    @property
    def nodes(self) -> int:
        """The number of nodes so far."""
        return self._count.nodes

    def _start(self, name: str, pairs: list[str]) -> None:
        if self._strip:
            self._preserved.append(self._is_preserved(pairs))
        try:
            self._count.open()
            self._names[name]
            if pairs:
                self._attributes(self._stored(pairs))
        except FAULTS as error:
            self._refuse(error)

    def _attributes(self, pairs: list[str]) -> None:
        if pairs:
            self._count.add(len(pairs) // 2)

    def _end(self, _: str) -> None:
        self._count.close()
        if self._strip:
            self._preserved.pop()

    def _characters(self, text: str) -> None:
        if not self._strip or self._preserved[-1] or text.strip(SPACE):
            self._counted(self._count.text)

    def _comment(self, text: str) -> None:
        if not self._doctype.is_inside:
            self._counted(self._count.add)

    def _instruction(self, name: str, text: str) -> None:
        if not self._doctype.is_inside:
            self._counted(self._count.add)
            self._counted(lambda: self._names[name])

    def _counted(self, step: Callable[[], object]) -> None:
        try:
            step()
        except FAULTS as error:
            self._refuse(error)
