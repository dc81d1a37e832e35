"""Compares docs/LANGUAGE.md with the rows that the checker computes.

    tools/run check_language             prints what doesn't agree
    tools/run check_language --write     writes the two files of rows anew first

Each example of the page has to stand as a row in crates/xq_meaning/proofs/LanguageRows or
MoreLanguageRows, with the same query and the same answer; and each definition that the page cites
has to exist in the file that it names. Nothing is proved here: `rt check` in crates/xq_meaning
computes the rows.
"""

import os
import re
import sys
from collections.abc import Iterable, Iterator

from tools.common import command_line
from tools.common.repository import TOP
from tools.language.files import Row, file_of, text_of

PAGE = os.path.join(TOP, "docs/LANGUAGE.md")
PROOFS = os.path.join(TOP, "crates/xq_meaning/proofs")
TITLE = "The examples of docs/LANGUAGE.md, by its headings"
# The heading with which the second file begins.
SECOND = "FLWOR and quantified expressions"
HEADING = re.compile(r"(?m)^#+ (.*)$")
EXAMPLE = re.compile(r"`([^`]+)`\s+(gives|is\s+refused\s+as)\s+`([^`]+)`")
# A row of the page's table of folders, and a citation of definitions by their files.
FOLDER = re.compile(r"(?m)^\| (crates/\w+/specs) \| (.*) \|$")
CITATION = re.compile(r"\[([^\]]+)\](?!\()")


def read(path: str) -> str:
    """The text of a file. Raises OSError where it can't be read."""
    with open(path) as file:
        return file.read()


def unbroken(text: str) -> str:
    """The text with each line joined to those after it that go on with an indent."""
    return re.sub(r"\s*\n\s+(?=\S)", " ", text)


def sections_of(page: str) -> Iterable[tuple[str, str]]:
    """Each heading with the text below it, down to the next heading."""
    _, *parts = HEADING.split(page)
    return zip(parts[::2], parts[1::2], strict=False)


def named(heading: str, count: int) -> str:
    """The name of the row of an example, which is that many under its heading."""
    return f"{re.sub('[^a-z]+', '_', heading.lower()).strip('_')}_{count}"


def rows_of(page: str) -> list[list[Row]]:
    """The rows of the page's examples, as two files have them; each example stands once."""
    files: list[list[Row]] = [[]]
    seen: set[tuple[str, str, str]] = set()
    for heading, text in sections_of(page):
        if heading == SECOND:
            files.append([])
        found = [it for it in dict.fromkeys(EXAMPLE.findall(unbroken(text))) if it not in seen]
        seen.update(found)
        for count, (query, verb, answer) in enumerate(found, 1):
            files[-1].append(Row(named(heading, count), query, answer, verb != "gives"))
    return files


def file_texts(page: str) -> tuple[tuple[str, str, list[Row]], ...]:
    """The two files of rows by their paths, with the rows of each."""
    first, second = rows_of(page)
    return ((os.path.join(PROOFS, "LanguageRows.antt"), TITLE + ".", first),
            (os.path.join(PROOFS, "MoreLanguageRows.antt"), TITLE + ", from FLWOR on.", second))


def write(page: str) -> None:
    """Writes the two files anew."""
    for path, title, rows in file_texts(page):
        with open(path, "w") as file:
            file.write(file_of(title, rows, "Rattle.xq_meaning.proofs.Library"))


def missing_rows(page: str) -> Iterator[str]:
    """The examples that don't stand as a row, and the rows that are no example."""
    for path, _, rows in file_texts(page):
        _, *standing = read(path).rstrip("\n").split("\n\n")
        wanted = {text_of(row): row.query for row in rows}
        yield from (f"no row: {query}" for text, query in wanted.items() if text not in standing)
        yield from (f"no example: {text}" for text in standing if text not in wanted)


def files_cited(page: str) -> dict[str, str]:
    """The paths of the files of definitions, by the names that the page's table gives them."""
    paths: dict[str, str] = {}
    for folder, cell in FOLDER.findall(page):
        for name in re.findall(r"[\w/]+", re.sub(r"\([^)]*\)", "", cell)):
            paths[name] = os.path.join(TOP, folder, os.path.basename(name) + ".antt")
    return paths


def citations_of(page: str) -> Iterator[tuple[str, str]]:
    """Each file with a definition that the page cites outside of code, or none, as ""."""
    prose = re.sub("`[^`]*`", "", unbroken(page))
    for citation in CITATION.findall(prose):
        for part in re.split(r";\s+", citation):
            file, _, names = part.partition(":")
            for name in names.split(","):
                yield file, name.strip()


def is_defined(name: str, text: str) -> bool:
    """Whether the text of a file of definitions has a public one of that name."""
    return re.search(rf"(?m)^ *(?:(?:abbrev|unfoldable) )*pub (?:(?:data|record) )?"
                     rf"{re.escape(name)}(?=\s)", text) is not None


def missing_definitions(page: str) -> Iterator[str]:
    """The citations of a file or a definition that is not there."""
    paths = files_cited(page)
    for file, name in citations_of(page):
        if file not in paths or not os.path.exists(paths[file]):
            yield f"no file: {file}"
        elif name and not is_defined(name, read(paths[file])):
            yield f"no definition: {file}: {name}"


def main() -> int:
    """Compares the page with its rows, which are written first where that is asked for."""
    words = command_line.parser(__doc__)
    words.add_argument("--write", action="store_true")
    is_written = words.parse_args().write
    # (the table of the grammar has brackets of its own)
    page = re.sub(r"(?s)<!-- grammar.*<!-- /grammar -->", "", read(PAGE))
    if is_written:
        write(page)
    faults = [*missing_rows(page), *missing_definitions(page)]
    print("\n".join([*faults, f"{sum(map(len, rows_of(page)))} examples, "
                     f"{len(list(citations_of(page)))} definitions cited, {len(faults)} faults"]))
    return 1 if faults else 0


if __name__ == "__main__":
    sys.exit(main())
