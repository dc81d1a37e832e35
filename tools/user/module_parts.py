"""Splits a program's module into parts that are compiled side by side and linked together.

A function goes to the part of its crate. One that names no crate of its own, as the methods of a
list, goes to that of the function which calls it first. Small functions are copied into each part
that calls them, so that they are inlined there. What no function from `main` on reaches is left
out, and what only one part calls stays private to it.
"""

from __future__ import annotations

import collections
import dataclasses
import re
from collections.abc import Iterable, Iterator

# The function where the program starts, which the linker looks for.
START = "main"
# So many lines of a module's text, before anything is optimized, are a small function. With 60 a
# program took up to twice the time of one that is compiled as one module; with 400 as much, and a
# fifth more for constructors. Where a function's calls counted as its lines, clang took two thirds
# of the time, and several queries of the bench 1.2 to 1.7 times as long.
SMALL = 400
NAME = re.compile(r'@("[^"]+"|[\w.$-]+)')
# The crate at the head of a function's name, as in `"xq_eval::paths::step"`.
CRATE = re.compile(r'"?<?&?(?:mut )?(\w+)::')
# Libraries whose functions belong to whoever calls them.
OF_CALLERS = frozenset((
    "core", "indexmap", "io", "libc", "os", "smallvec", "sqlite_items", "std", "std_alloc",
    "std_collections", "std_heap", "std_io"))


@dataclasses.dataclass
class Module:
    """A module's text, by its items. Names stand as in the text, with their quotes."""

    head: list[str] = dataclasses.field(default_factory=list)
    constants: dict[str, str] = dataclasses.field(default_factory=dict)
    declared: dict[str, str] = dataclasses.field(default_factory=dict)
    functions: dict[str, list[str]] = dataclasses.field(default_factory=dict)
    tail: list[str] = dataclasses.field(default_factory=list)

    @classmethod
    def read(cls, lines: Iterable[str]) -> Module:
        """The items of a module's text."""
        module, body = cls(), None
        for line in lines:
            if body is not None:
                body.append(line)
                body = None if line == "}\n" else body
            elif line.startswith("define"):
                body = module.functions[named(line)] = [line]
            elif line.startswith("@"):
                module.constants[named(line)] = line
            elif line.startswith("declare"):
                module.declared[named(line)] = line
            elif line.startswith(("attributes", "!")):
                module.tail.append(line)
            elif line.startswith(("source_filename", "target")):
                module.head.append(line)
        return module

    def uses(self) -> dict[str, list[str]]:
        """By the name of each function and constant, the items that it names, each once."""
        items = self.functions.keys() | self.constants.keys() | self.declared.keys()
        texts = {name: "".join(body[1:]) for name, body in self.functions.items()}
        texts |= {name: line.partition("=")[2] for name, line in self.constants.items()}
        return {name: [it for it in dict.fromkeys(NAME.findall(text)) if it in items]
                for name, text in texts.items()}


def named(line: str) -> str:
    """The name of the item that a line begins."""
    found = NAME.search(line)
    if found is None:
        raise ValueError(f"an item without a name: {line[:80]}")
    return found[1]


def reached(start: Iterable[str], uses: dict[str, list[str]]) -> list[str]:
    """What these items use, and what that uses, with themselves, the nearest first."""
    found = dict.fromkeys(start)
    left = collections.deque(found)
    while left:
        new = [it for it in uses.get(left.popleft(), ()) if it not in found]
        found.update(dict.fromkeys(new))
        left.extend(new)
    return list(found)


def homes(module: Module, uses: dict[str, list[str]]) -> dict[str, str]:
    """By the name of each item that the program reaches, the crate that it belongs to."""
    found: dict[str, str] = {}
    left: collections.deque[str] = collections.deque()
    for name in reached([START], uses):
        crate = CRATE.match(name)
        if name == START or crate and crate[1] not in OF_CALLERS and name in module.functions:
            found[name] = crate[1] if crate else name
            left.append(name)
    while left:
        caller = left.popleft()
        for name in uses.get(caller, ()):
            if name not in found:
                found[name] = found[caller]
                left.append(name)
    return found


def shares(module: Module, owned: Iterable[set[str]], count: int) -> list[set[str]]:
    """The functions of each of so many parts: those of each crate with their copies, the longest
    crate first, go to the part that is the shortest with them."""
    def length(functions: Iterable[str]) -> int:
        return sum(len(module.functions[it]) for it in functions)

    parts: list[set[str]] = [set() for _ in range(count)]
    totals = [0] * count
    for functions in sorted(owned, key=length, reverse=True):
        longer = [total + length(functions - part) for total, part in zip(totals, parts)]
        shortest = longer.index(min(longer))
        parts[shortest] |= functions
        totals[shortest] = longer[shortest]
    return [it for it in parts if it]


@dataclasses.dataclass
class Parts:
    """The functions of each part, and those that another part calls."""

    module: Module
    uses: dict[str, list[str]]
    functions: list[set[str]]
    shared: set[str]

    @classmethod
    def of(cls, module: Module, count: int) -> Parts:
        """The module in so many parts, or fewer where it has fewer crates."""
        uses = module.uses()
        home = homes(module, uses)
        small = {it for it in home if it in module.functions and it != START
                 and len(module.functions[it]) <= SMALL}
        of_constants = {it: uses[it] for it in module.constants}
        uses = {it: reached(uses[it], of_constants) for it in home if it in module.functions}
        copied = {name: [it for it in named if it in small] for name, named in uses.items()}
        owned: dict[str, list[str]] = {}
        for name in (it for it in uses if it not in small):
            owned.setdefault(home[name], []).append(name)
        functions = shares(module, [set(reached(it, copied)) for it in owned.values()], count)
        shared = {it for part in functions for name in part for it in uses[name]
                  if it in module.functions and it not in part}
        return cls(module, uses, functions, shared)

    def texts(self) -> Iterator[Iterator[str]]:
        """The lines of each part's text."""
        return (self.lines(part) for part in self.functions)

    def lines(self, part: set[str]) -> Iterator[str]:
        """The lines of a part with these functions."""
        module = self.module
        used = dict.fromkeys(it for name in part for it in self.uses[name])
        yield from module.head
        yield from (module.constants[it] for it in used if it in module.constants)
        yield from (module.declared[it] for it in used if it in module.declared)
        yield from (declaration(module.functions[it][0]) for it in used
                    if it in module.functions and it not in part)
        for name, body in module.functions.items():
            if name in part:
                yield body[0].replace("internal", "hidden", 1) if name in self.shared else body[0]
                yield from body[1:]
        yield from module.tail


def declaration(line: str) -> str:
    """The line that declares a function of another part, from the one that begins it."""
    head = line.replace("define internal", "declare hidden", 1).rstrip()
    return f"{head.removesuffix('{').rstrip()}\n"
