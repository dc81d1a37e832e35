"""XML files of this machine, in and out through a server, and very large documents."""

import os
import random
import re
from collections.abc import Iterator
from pathlib import Path
from xml.etree import ElementTree

from tests.support import FolderTest, ServerTest, long_test
from tests.test_xml import BOMB, FLAT, constructor
from xqs import XqError
from xqs.fetch import document_events
from xqs.stores import chunks_of, store_xml
from xqs.xml_in import XmlChoices, XmlFault
from xqs.xml_out import write_document

FILES = Path(os.environ.get("XQS_XML_FILES", "/usr/share"))
"""The folder with the XML files to try."""
SAMPLE = 60
"""How many files are tried unless all are."""
COMMENT_IN_DOCTYPE = re.compile(rb"<!DOCTYPE[^>\[]*\[[^\]]*(<!--|<\?)")
"""Python's canonicalizer takes these comments and instructions for nodes, which they aren't;
with_packages/test_xml_files.py compares such files with libxml2."""
SMALL = 60_000
"""The most bytes of a file in the sample."""


def files() -> list[Path]:
    """The XML files below the folder."""
    found = (it for it in FILES.rglob("*.xml") if it.is_file() and os.access(it, os.R_OK))
    return sorted(it for it in found if not COMMENT_IN_DOCTYPE.search(it.read_bytes()))


class RoundTrips(ServerTest):
    def round_trip(self, file: Path) -> bool:
        """Whether the file is accepted; then it must come back with the same canonical form."""
        try:
            with open(file, "rb") as data:
                store_xml(self.server, "x", chunks_of(data), file.name, FLAT)
            before = ElementTree.canonicalize(from_file=os.fspath(file), with_comments=True)
        except (XmlFault, ElementTree.ParseError):
            return False
        back = self.folder / "back.xml"
        with open(back, "w", encoding="utf-8", newline="") as out:
            write_document(document_events(self.server, "x"), out.write, "flat")
        after = ElementTree.canonicalize(from_file=os.fspath(back), with_comments=True)
        self.assertEqual(before == after, True, file)
        return True

    def test_sample_of_the_files_at_hand(self) -> None:
        small = [it for it in files() if it.stat().st_size < SMALL]
        if not small:
            self.skipTest(f"there are no XML files below {FILES}")
        sample = random.Random(7).sample(small, min(SAMPLE, len(small)))
        taken = sum(self.round_trip(it) for it in sample)
        self.assertGreater(taken, len(sample) // 2)

    @long_test
    def test_all_files_at_hand(self) -> None:
        found = files()
        taken = sum(self.round_trip(it) for it in found)
        print(f"{taken} of {len(found)} files below {FILES} went in and out the same")
        self.assertGreater(taken, len(found) // 2)


def large(count: int, text: bytes) -> Iterator[bytes]:
    """A document with this number of long texts, in pieces."""
    yield b"<log>"
    for number in range(count):
        yield b"<entry n='%d'>%s</entry>" % (number, text)
    yield b"</log>"


class Large(ServerTest):
    @long_test
    def test_hundred_megabytes_of_long_texts(self) -> None:
        text = b"&lt;" + "long é ".encode() * 1_250
        stored = store_xml(self.server, "x", large(10_000, text))
        self.assertGreater(stored.parts, 100)
        self.assertEqual(self.server.list(), ["x"])
        self.assertEqual(self.server.query('count(doc("x")/log/entry)'), [10_000])
        back = self.folder / "back.xml"
        with open(back, "w", encoding="utf-8", newline="") as out:
            write_document(document_events(self.server, "x"), out.write)
        self.assertGreater(back.stat().st_size, 100_000_000)
        first = self.folder / "first.xml"
        first.write_bytes(b"".join(large(10_000, text)))
        self.assertEqual(*(same_nodes(it) for it in (first, back)))

    @long_test
    def test_document_of_too_many_nodes_is_refused_with_its_place(self) -> None:
        with self.assertRaises(XmlFault) as caught:
            store_xml(self.server, "x", large(400_000, b"x"), "large.xml")
        self.assertEqual(caught.exception.line, 1)
        self.assertIn("more than 1,000,000 nodes", str(caught.exception))
        self.assertEqual(self.server.list(), [])


def same_nodes(path: Path) -> list[tuple[str | None, int]]:
    """What tells two large files apart: the attribute of each element, and the hash of its text."""
    found: list[tuple[str | None, int]] = []
    for _, element in ElementTree.iterparse(path):
        found.append((element.get("n"), hash(element.text)))
        element.clear()
    return found


class Bombs(ServerTest):
    def test_entity_bomb_stores_nothing(self) -> None:
        for choices in (FLAT, XmlChoices(entities=True)):
            with self.assertRaises(XqError):
                store_xml(self.server, "x", [BOMB], "bomb.xml", choices)
            self.assertEqual(self.server.list(), [])


class NoFile(FolderTest):
    def test_external_entity_is_not_read(self) -> None:
        secret = self.folder / "secret"
        secret.write_text("secret")
        os.mkfifo(self.folder / "pipe")
        for place in (secret.as_uri(), "pipe", "http://127.0.0.1:1/"):
            text = f'<!DOCTYPE a [<!ENTITY e SYSTEM "{place}">]><a>&e;</a>'
            with self.assertRaises(XmlFault):
                constructor(text, XmlChoices(entities=True))
            text = f'<!DOCTYPE a SYSTEM "{place}"><a/>'
            self.assertEqual(constructor(text), "document {element a {}}")
