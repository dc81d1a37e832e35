"""Texts with replacements, and the way back to places in the original text."""

from collections.abc import Iterable
from dataclasses import dataclass


@dataclass(frozen=True)
class Rewritten:
    """A text after replacements: the end of each in this text, and how much longer it made the
    text."""

    text: str
    grown: tuple[tuple[int, int], ...] = ()

    def place(self, at: int) -> int:
        """The place in the original text of a place in this one."""
        longer = 0
        for end, by in self.grown:
            if end > at:
                return min(at - longer, end - longer - by)
            longer += by
        return at - longer


def rewrite(text: str, replacements: Iterable[tuple[int, int, str]]) -> Rewritten:
    """The text with other text between two places; replacements come in the order of their places
    and don't overlap."""
    pieces: list[str] = []
    grown: list[tuple[int, int]] = []
    at = length = 0
    for start, end, new in replacements:
        pieces += [text[at:start], new]
        length += start - at + len(new)
        grown.append((length, len(new) - (end - start)))
        at = end
    return Rewritten("".join([*pieces, text[at:]]), tuple(grown))
