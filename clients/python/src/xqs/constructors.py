"""Events as the constructors that the server prints, byte for byte."""

from collections.abc import Callable, Iterable
from dataclasses import dataclass
from decimal import Decimal

from xqs.queries import literal
from xqs.values import Atom, Close, Event, Leaf, NodeKind, Open, leaf, opening, quoted


def printed_atom(value: int | Decimal | str) -> str:
    """An atomic value as the server prints it."""
    text = literal(value)
    return text[1:-1] if text.startswith("(") else text


@dataclass
class ConstructorWriter:
    """Writes the text of items as their events come.

    Adjacent texts below a node are written as one, because they become one when the node is made.
    So the text of a document is what the server prints of it.
    """

    write: Callable[[str], object]
    _depth: int = 0
    _is_first: bool = True
    _in_text: bool = False

    def event(self, event: Event) -> None:
        """Writes the next event."""
        if isinstance(event, Leaf) and event.kind is NodeKind.TEXT and self._depth:
            self._text(event.value)
            return
        self._end_text()
        if isinstance(event, Close):
            self.write("}")
            self._depth -= 1
            self._is_first = False
            return
        self._comma()
        if isinstance(event, Open):
            self.write(opening(event.kind, event.name))
            self._depth += 1
            self._is_first = True
        elif isinstance(event, Leaf):
            self.write(leaf(event.kind, event.name, event.value))
        elif isinstance(event, Atom):
            self.write(printed_atom(event.value))

    def printed(self, text: str) -> None:
        """Writes items as the server printed them, at least one. No text among the nodes may
        continue a text that was written before."""
        self._end_text()
        self._comma()
        self.write(text)

    def _text(self, value: str) -> None:
        if not self._in_text:
            self._comma()
            self.write('text {"')
            self._in_text = True
        self.write(quoted(value)[1:-1])

    def _end_text(self) -> None:
        if self._in_text:
            self.write('"}')
            self._in_text = False

    def _comma(self) -> None:
        if not self._is_first:
            self.write(", ")
        self._is_first = False


def write_constructors(events: Iterable[Event], write: Callable[[str], object]) -> None:
    """Ends the text of a whole value."""
    writer = ConstructorWriter(write)
    for event in events:
        writer.event(event)
