"""Times a program over texts that double twice, and judges how the times grow.

The three texts of a kind are given to the program in turn, since the machine's speed changes from
one second to the next; a time is the least of so many runs.
"""

import subprocess
import sys
from collections.abc import Callable, Iterable, Sequence

# The most that a time may grow where the length doubles.
MOST = 2.3
# Microseconds too few for a ratio.
SHORT = 100


def of_length(length: int, begin: str, part: Callable[[int], str], end: str) -> str:
    """A query of about that many bytes: its begin, parts by their numbers, and its end."""
    parts, size, number = [begin], len(begin) + len(end), 0
    while size < length:
        parts.append(part(number))
        size += len(parts[-1])
        number += 1
    return "".join(parts) + end


def once(program: str, text: str, wanted: str) -> int:
    """The microseconds of one run, whose first word has to be the wanted one."""
    ran = subprocess.run([program], input=text.encode(), stdout=subprocess.PIPE, check=True)
    words = ran.stdout.decode().split()
    if words[0] != wanted:
        sys.exit(f"{words[0]}, not {wanted}")
    return max(1, int(words[1]))


def times(program: str, texts: Sequence[str], wanted: str, runs: int) -> list[int]:
    """The least microseconds for each text."""
    rounds = [[once(program, text, wanted) for text in texts] for _ in range(runs)]
    return [min(column) for column in zip(*rounds, strict=True)]


def measure(program: str, queries: Iterable[tuple[str, int, Callable[[int], str]]], wanted: str,
            runs: int) -> int:
    """Prints the times of queries, each a name, its greatest length and what makes a text of a
    length; gives 0 where each doubling is within the bound, and 1 elsewhere."""
    within = True
    print(f"{'query':<20} {'bytes':>10} {'ms':>10} {'ratio':>8}")
    for name, most, make in queries:
        texts = [make(size) for size in (most // 4, most // 2, most)]
        before: int | None = None
        for text, time in zip(texts, times(program, texts, wanted, runs), strict=True):
            ratio = time / before if before and before > SHORT else None
            within = within and (ratio is None or ratio <= MOST)
            shown = "" if ratio is None else f"{ratio:.2f}"
            print(f"{name:<20} {len(text):10d} {time / 1000:10.2f} {shown:>8}", flush=True)
            before = time
    print(f"each doubling at most {MOST:.1f} times: {'yes' if within else 'no'}")
    return 0 if within else 1
