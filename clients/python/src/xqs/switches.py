"""Which options of `load` would take the files that it refused."""

import time
from collections import Counter
from collections.abc import Iterator, Sequence
from dataclasses import replace
from pathlib import Path

from xqs.faults import PlacedFault
from xqs.incoming import chunks_of
from xqs.xml_in import XmlChoices
from xqs.xml_judge import judge_xml
from xqs.xml_names import Names

PATIENCE = 15.0
"""How many seconds are spent on it, at most."""


def shown(files: Sequence[Path], choices: XmlChoices) -> str:
    """A line that says how many of the files other options would load; empty if none.

    `choices` are those by which they were refused.
    """
    counts: Counter[str] = Counter()
    end = time.monotonic() + PATIENCE
    tried = 0
    for file in files:
        if time.monotonic() > end:
            break
        tried += 1
        counts.update(taking(file, choices))
    told = ", ".join(f"{count:,} by {options}" for options, count in _telling(counts))
    of = "" if tried == len(files) else f" (of the first {tried:,} of {len(files):,})"
    return f"more would load by other options: {told}{of}" if told else ""


def taking(file: Path, choices: XmlChoices) -> Iterator[str]:
    """The options that would load the file."""
    for names in dict.fromkeys((choices.names, Names.FLAT, Names.LOCAL)):
        for entities in (False, True):
            wanted = replace(choices, names=names, entities=entities or choices.entities)
            if wanted != choices and _takes(file, wanted):
                yield _options(wanted, choices)


def _options(wanted: XmlChoices, given: XmlChoices) -> str:
    names = f"--names {wanted.names}" if wanted.names is not given.names else ""
    entities = "--entities" if wanted.entities and not given.entities else ""
    return " ".join(it for it in (names, entities) if it)


def _takes(file: Path, choices: XmlChoices) -> bool:
    try:
        with open(file, "rb") as data:
            judge_xml(file.name, chunks_of(data), choices)
    except (PlacedFault, OSError):
        return False
    return True


def _telling(counts: Counter[str]) -> list[tuple[str, int]]:
    """The options with their counts, except those that load no more than some of them alone."""
    ranked = sorted(counts.items(), key=lambda it: (it[0].count("--"), -it[1], it[0]))
    return [
        (options, count) for options, count in ranked
        if not any(other != options and other in options and counts[other] == count
                   for other, _ in ranked)
    ]
