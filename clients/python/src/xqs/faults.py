"""Refusals of a text that is read, with their place in it."""

from xqs.errors import XqError


class PlacedFault(XqError, ValueError):
    """A refused text: its name in messages, and the place of the fault, counted from 1."""

    def __init__(self, source: str, line: int, column: int, why: str) -> None:
        super().__init__(f"{source}:{line}:{column}: {why}")
        self.source, self.line, self.column, self.why = source, line, column, why


def line_and_column(text: str, at: int) -> tuple[int, int]:
    """The line and column of a place in a text, from 1."""
    return text.count("\n", 0, at) + 1, at - text.rfind("\n", 0, at)
