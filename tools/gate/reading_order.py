"""Lists what a reader must believe: the definitions that public contracts reach.

    tools/run reading_order [--unreached] [CRATE ..]
    tools/run reading_order --write     writes the lines of docs/PROOFS.md anew, with their numbers

Begins at the clauses of the public functions of the crates named (of all, if none is), and follows
each name through the specs/ of the repository. Prints a line for each file, lowest crate first:
its lines, those of the definitions that are reached, and their names; the last line has the sums.
What lies in specs/private/ is left out: the invariants of types with private fields reach some of
it, which no caller has to know.
With --unreached it lists the public definitions of specs/ (without specs/private/) that are not.

It reads words, not the logic: a definition is reached where its name stands in a clause or in the
definition of one that is reached, and the file brings that name in.
"""

import os
import re
import sys
import textwrap
from collections.abc import Collection, Iterable, Iterator, Mapping
from typing import TypeAlias

from tools.common import command_line, repository
from tools.common.repository import TOP

USE = re.compile(r"(?m)^\s*(?:ghost )?use (Rattle\.[\w.+«»:-]+?)"
                 r"(?:\.\{([^}]*)\})?(?: as ([\w']+))?;?$")
HEAD = re.compile(r" *(?:(?:abbrev|unfoldable|pub) )*(?:(?:record|data) )"
                  r"([^\s:(){}]+)|"
                  r" *(?:(?:abbrev|unfoldable|pub) )*([^\s:(){}]+) :")
CLAUSE = re.compile(r"(?s)(?:requires|ensures|ghost)\b[^{;]*\{(.*?)\}\s*(?=\n)")
BEGIN = re.compile(r"^( *)((?:abbrev|unfoldable|pub|record|data|infix\w*) )*([^\s:(){}]+)")
WORD = re.compile(r"[^\s(){}\[\];,.λ×]+(?:\.[^\s(){}\[\];,λ×]+)*")


# What a name stands for: its module, and its name there.
Definition: TypeAlias = tuple[str, str]
Uses: TypeAlias = dict[str, Definition]


def read(path: str) -> str:
    """The text of a file. Raises OSError where it can't be read."""
    with open(path) as file:
        return file.read()


class File:
    """A file of specs/: what it brings in, and its definitions with their lines."""

    def __init__(self, path: str, module: str) -> None:
        self.path, self.module, self.text = path, module, read(path)
        self.uses, self.aliases = uses_of(self.text)
        self.definitions = definitions_of(self.text)
        self.lines = self.text.count("\n")


def uses_of(text: str) -> tuple[Uses, dict[str, str]]:
    """Names by what they stand for, and short words for modules."""
    names: Uses = {}
    aliases: dict[str, str] = {}
    for module, brought, alias in USE.findall(text):
        if alias:
            aliases[alias] = module
        elif not brought:
            aliases[module.split(".")[-1]] = module
        part: str
        for part in filter(None, map(str.strip, brought.split(","))):
            name, _, other = part.partition(" as ")
            names[other or name] = (module, name)
    return names, aliases


def definitions_of(text: str) -> dict[str, list[str]]:
    """Each definition's lines, the comment above it among them."""
    found: dict[str, list[str]] = {}
    name: str | None = None
    comment: list[str] = []
    for line in text.split("\n"):
        if line.strip().startswith("--"):
            comment.append(line)
            continue
        if line.strip().startswith("use ") or not line.strip():
            if not line.strip():
                comment = []
            continue
        if line.startswith("module "):
            name = None
        head = BEGIN.match(line)
        declared = HEAD.match(line)
        words = re.match(r" *(abbrev|unfoldable|pub|record|data|abstract)\b", line)
        is_head = head and words and len(head.group(1)) <= 2
        if declared and is_head and not in_record(found, name, line):
            name = declared.group(1) or declared.group(2)
            found.setdefault(name, []).extend(comment)
        if name:
            found[name].append(line)
        comment = []
    return found


def in_record(found: Mapping[str, list[str]], name: str | None, line: str) -> bool:
    """Whether the line is a field of the record or variant of the data at hand."""
    if name is None:
        return False
    heads = [it for it in found[name] if not it.strip().startswith("--")]
    is_block = bool(re.match(r" *(?:(?:abbrev|unfoldable|pub) )*(?:record|data) ", heads[0]))
    depth = len(heads[0]) - len(heads[0].lstrip())
    return is_block and len(line) - len(line.lstrip()) > depth


def files_of_specs() -> dict[str, File]:
    """The files of the specs/ of all crates by their modules, without each Lib.antt."""
    files: dict[str, File] = {}
    for crate in sorted(os.listdir(f"{TOP}/crates")):
        base = f"{TOP}/crates/{crate}/specs"
        for folder, _, names in os.walk(base):
            for name in names:
                if name.endswith(".antt") and name != "Lib.antt":
                    part = os.path.relpath(os.path.join(folder, name), base)[:-5].replace("/", ".")
                    files[f"Rattle.{crate}.specs.{part}"] = File(os.path.join(folder, name), part)
    return files


def order_of_crates() -> list[str]:
    """The crates, each after those that it stands on."""
    crates = repository.libraries(os.path.join(TOP, "crates.txt"))
    return repository.all_below(list(crates), crates)


def exported(crate: str) -> tuple[set[str], set[str]]:
    """The names that a crate's root has or hands out, and its public modules."""
    path = f"{TOP}/crates/{crate}/src/lib.rt"
    root = read(path) if os.path.exists(path) else ""
    names: set[str] = set()
    for group in re.findall(r"(?s)pub use [\w:]+?::(\{.*?\}|\w+);", root):
        names.update(re.findall(r"\w+", group))
    names.update(re.findall(r"(?m)^pub (?:struct|enum|trait) (\w+)", root))
    return names, set(re.findall(r"(?m)^pub mod (\w+);", root))


def clauses_of(crate: str) -> Iterator[tuple[str, Uses, dict[str, str]]]:
    """The clauses of a crate's public functions and models, with what their files bring in."""
    names, modules = exported(crate)
    for folder, _, files in os.walk(f"{TOP}/crates/{crate}/src"):
        for file in filter(lambda it: it.endswith(".rt"), files):
            text = read(os.path.join(folder, file))
            uses, aliases = uses_of(text)
            for piece in public_pieces(text, names, file[:-3] in {*modules, "lib"}):
                yield " ".join(CLAUSE.findall(piece)), {**uses, **uses_of(piece)[0]}, aliases


def public_pieces(text: str, names: Collection[str], is_open: bool) -> Iterator[str]:
    """The public functions, methods, traits and models of a file."""
    of_type = of_trait = False
    begins = r"(?m)^ *(?=pub (?:const )?fn |fn |pub\(crate\) |pub trait |impl\b)"
    for piece in re.split(begins, text):
        if piece.startswith(("impl", "pub trait")):
            of_trait = piece.startswith("pub trait") and trait_name(piece) in names
            of_type = piece.startswith("impl") and (is_open or implemented(piece) in names)
            if of_trait or of_type and " Model for " in piece:
                yield piece
        name = re.match(r"pub (?:const )?fn (\w+)", piece)
        if name and (is_open or name.group(1) in names or of_type):
            yield piece
        elif of_trait and piece.startswith("fn "):
            yield piece


def implemented(piece: str) -> str:
    """The type of an impl."""
    head = r"(?s)impl\b.*?\b(\w+)(?:<[^{]*>)?\s*(?:where[^{]*)?\{"
    found = re.match(head, piece)
    return found.group(1) if found else ""


def trait_name(piece: str) -> str:
    """The name of a public trait; "" where the piece begins with none."""
    found = re.match(r"pub trait (\w+)", piece)
    return found.group(1) if found else ""


def references(text: str, uses: Uses, aliases: Mapping[str, str], own: Collection[str],
               module: str) -> Iterator[Definition]:
    """The definitions that a text names: those that its file brings in, and the file's own.

    `own` has the names of the file's own definitions, and `module` is its module.
    """
    for word in set(WORD.findall(text)):
        first, _, rest = word.partition(".")
        if first in uses:
            yield uses[first]
        elif first in aliases and rest:
            yield aliases[first], rest.split(".")[0]
        elif first in own:
            yield module, first


def reached(files: Mapping[str, File], crates: Iterable[str]) -> set[Definition]:
    """The definitions that the public clauses of the crates reach, straight or through others."""
    todo = [it for crate in crates for text, uses, aliases in clauses_of(crate)
            for it in references(text, uses, aliases, (), "")]
    done: set[Definition] = set()
    while todo:
        module, name = todo.pop()
        file = files.get(module)
        if file is None or (module, name) in done or name not in file.definitions:
            continue
        done.add((module, name))
        text = "\n".join(it for it in file.definitions[name] if not it.strip().startswith("--"))
        todo.extend(references(text, file.uses, file.aliases, file.definitions, module))
    return done


def show(files: Mapping[str, File], done: Collection[Definition]) -> None:
    """Prints a line for each file with definitions that are reached, and the sums.

    It begins with the lowest crate, and leaves out what lies in specs/private/.
    """
    sums = [0, 0]
    rank = {crate: at for at, crate in enumerate(order_of_crates())}
    crate_of = {module: module.split(".")[1] for module in files}
    for module in sorted(files, key=lambda it: (rank.get(crate_of[it], 99), it)):
        file = files[module]
        names = [it for it in file.definitions if (module, it) in done]
        if names and ".specs.private." not in module:
            lines = sum(len(file.definitions[it]) for it in names)
            sums = [sums[0] + file.lines, sums[1] + lines]
            path = os.path.relpath(file.path, TOP)
            print(f"{file.lines:5} {lines:5}  {path}: {', '.join(names)}")
    print(f"{sums[0]:5} {sums[1]:5}  lines of these files; lines of these definitions")


def lines_by_crate(files: Mapping[str, File],
                   done: Collection[Definition]) -> dict[str, list[tuple[str, int]]]:
    """By crate, its files with the lines of the definitions that are reached."""
    found: dict[str, list[tuple[str, int]]] = {crate: [] for crate in order_of_crates()}
    for module in sorted(files):
        lines = sum(len(files[module].definitions[it]) for it in files[module].definitions
                    if (module, it) in done)
        if lines and ".specs.private." not in module:
            name = module.split(".specs.")[1].replace(".", "/")
            found[module.split(".")[1]].append((name, lines))
    return {crate: parts for crate, parts in found.items() if parts}


def write(found: Mapping[str, list[tuple[str, int]]]) -> None:
    """Writes the list of docs/PROOFS.md anew: what it says of each crate stays."""
    path = os.path.join(TOP, "docs", "PROOFS.md")
    text = read(path)
    said: dict[str, str] = {}
    for crate, words in re.findall(r"(?ms)^- \*\*(\w+)\*\*, \d+ lines: (.*?)(?=^- \*\*)", text):
        # (the sentence after the last full stop is the list of files)
        meant = " ".join(words.split()).rsplit(". ", 1)[0]
        said[crate] = f"{said[crate]}; {meant}" if crate in said else meant
    lacking = [crate for crate in found if crate not in said]
    if lacking:
        sys.exit(f"reading_order: {path} says nothing of {', '.join(lacking)}")
    lines = []
    for crate, parts in found.items():
        told = ", ".join(f"{name} {count}" for name, count in parts)
        line = f"- **{crate}**, {sum(it for _, it in parts)} lines: {said[crate]}. {told}."
        lines += textwrap.wrap(line, 100, subsequent_indent="  ", break_on_hyphens=False)
    whole = sum(count for parts in found.values() for _, count in parts)
    begin, end = text.index("- **xq_atoms**,"), text.index("- **all**:")
    rest = text[text.index("\n", end):]
    with open(path, "w") as file:
        file.write(text[:begin] + "\n".join(lines) + f"\n- **all**: {whole:,} lines." + rest)


def show_unreached(files: Mapping[str, File], done: Collection[Definition]) -> None:
    """Prints by file the definitions that are not reached, without those of specs/private/."""
    for module, file in sorted(files.items()):
        names = [it for it in file.definitions if (module, it) not in done]
        if names and ".specs.private." not in module:
            print(f"{os.path.relpath(file.path, TOP)}: {', '.join(names)}")


def main() -> None:
    """Shows the definitions that are reached, or writes their lines."""
    words = command_line.parser(__doc__)
    words.add_argument("--unreached", action="store_true")
    words.add_argument("--write", action="store_true")
    words.add_argument("crates", nargs="*", metavar="CRATE")
    given = words.parse_args()
    files = files_of_specs()
    done = reached(files, given.crates or order_of_crates())
    if given.unreached:
        show_unreached(files, done)
    elif given.write:
        write(lines_by_crate(files, done))
    else:
        show(files, done)


if __name__ == "__main__":
    main()
