"""The edges of the program: whole inputs and how they end, pieces, faults of its streams, words."""

import os
import pathlib
import shutil
import subprocess
import tempfile
import unittest
from collections.abc import Callable, Mapping
from typing import IO, Any

from tools.rows import runs, tables
from tools.rows.runs import Reply, request
from tools.rows.tables import Row
from tools.tests.test_rows import command

SECONDS = 120
GIVEN = tables.read("edges.toml")
LIST = Row(b"L", b"", 0, b"()")
PUT = tables.row_of({"put": "library", "reply": "stored"})
SERVED = ("first", "path", "node", "dropping", "last")
FRAME_LIMIT = 1_000_000
PIECES = (1, 2, 3, 7)


def ended(
    words: list[str], data: bytes = b"", folder: pathlib.Path | None = None
) -> runs.Ended:
    """What the program with these words writes, and how it ends."""
    done = subprocess.run(
        [*command(), *words], input=data, capture_output=True, timeout=SECONDS, cwd=folder)
    return runs.Ended(done.stdout, done.returncode, done.stderr.decode().strip())


def framed(row: Row, tag: int = 1) -> bytes:
    """The frame of a row."""
    return request(tag, row)


def write_in_pieces(to: IO[bytes], data: bytes, piece: int) -> None:
    """Writes the bytes, so many at once, and closes the stream."""
    for at in range(0, len(data), piece):
        to.write(data[at:at + piece])
        to.flush()
    to.close()


def answers_in_pieces(data: bytes, piece: int) -> bytes:
    """What the program answers to bytes that come in pieces."""
    with subprocess.Popen(command(), stdin=subprocess.PIPE, stdout=subprocess.PIPE) as process:
        assert process.stdin and process.stdout
        write_in_pieces(process.stdin, data, piece)
        return process.stdout.read()


@unittest.skipUnless(command(), "there is no program: set XQS_SERVER")
class EdgeTest(unittest.TestCase):
    """Tests with a folder of their own."""

    def setUp(self) -> None:
        self.folder = pathlib.Path(tempfile.mkdtemp(prefix="xq-edges-"))
        self.addCleanup(shutil.rmtree, self.folder)

    def over_file(self) -> list[str]:
        """The words for a file."""
        return ["--file", str(self.folder / "x.db")]

    def listed(self) -> list[Reply]:
        """What the next server over the file tells of its addresses."""
        return runs.replies(ended(self.over_file(), framed(LIST)).output)

    def check_input(self, given: Mapping[str, Any]) -> None:
        """Checks the replies to an input, and how it ends."""
        found = ended([], bytes.fromhex(given["sent"]))
        wanted = runs.Ended(bytes.fromhex(given["replies"]), given["status"], given["line"])
        self.assertEqual(found, wanted)

    def test_inputs_end_as_they_do(self) -> None:
        for given in GIVEN["input"]:
            with self.subTest(given["name"]):
                self.check_input(given)

    def test_bytes_in_pieces_are_served_as_whole(self) -> None:
        rows = [row for group in tables.groups("worked.toml") if group.name in SERVED
                for row in group.rows]
        data = b"".join(framed(row, tag) for tag, row in enumerate(rows))
        whole = ended([], data).output
        for piece in PIECES:
            with self.subTest(piece=piece):
                self.assertEqual(answers_in_pieces(data, piece), whole)

    def test_a_store_that_is_cut_anywhere_leaves_nothing(self) -> None:
        whole = framed(PUT, 2)
        self.assertEqual(len(whole), 128)
        for length in range(1, len(whole)):
            with self.subTest(length=length):
                cut = ended(self.over_file(), whole[:length])
                self.assertEqual(cut, runs.Ended(b"", 1, "xq_server: cut frame"))
                self.assertEqual(self.listed(), [Reply(1, 0, b"()")])

    def test_an_input_that_cannot_be_read_is_a_read_fault(self) -> None:
        folder = os.open(self.folder, os.O_RDONLY)
        try:
            done = subprocess.run(command(), stdin=folder, capture_output=True, timeout=SECONDS)
        finally:
            os.close(folder)
        self.assertEqual((done.returncode, done.stdout, done.stderr),
                         (1, b"", b"xq_server: read fault\n"))

    def check_write_fault(self, words: list[str], data: bytes) -> None:
        """Checks how the program ends where no reply can be written."""
        with open("/dev/full", "wb") as full:
            done = subprocess.run([*command(), *words], input=data, stdout=full,
                                  stderr=subprocess.PIPE, timeout=SECONDS)
        self.assertEqual((done.returncode, done.stderr), (1, b"xq_server: write fault\n"))

    def test_what_it_cannot_tell_was_carried_out_and_nothing_after_it(self) -> None:
        stores = [tables.row_of({"store": address, "query": "document {}", "reply": "stored"})
                  for address in "ac"]
        self.check_write_fault(self.over_file(), b"".join(map(framed, stores)))
        self.assertEqual(self.listed(), [Reply(1, 0, b'"a"')])

    def test_a_length_over_the_limit_that_cannot_be_told(self) -> None:
        self.check_write_fault([], bytes.fromhex("00100101"))

    def test_a_million_frames_are_answered_and_no_more(self) -> None:
        frame = framed(LIST)
        found = ended([], frame * (FRAME_LIMIT + 1))
        reply = runs.replies(ended([], frame).output)
        self.assertEqual((found.status, found.line), (1, "xq_server: frame limit"))
        self.assertEqual(len(found.output), FRAME_LIMIT * 11)
        self.assertEqual(runs.replies(found.output[-11:]), reply)

    def each(self, name: str, check: Callable[[runs.Ended], None]) -> None:
        """Checks how the program ends with each of these lists of words, and no input."""
        for words in GIVEN["words"][name]:
            with self.subTest(words=words):
                check(ended(words, folder=self.folder))

    def test_words_that_are_none_of_its_own(self) -> None:
        bad = runs.Ended(b"", 2, "xq_server: bad command line")
        self.each("bad", lambda found: self.assertEqual(found, bad))
        self.assertEqual(list(self.folder.iterdir()), [])

    def test_words_that_ask_for_help(self) -> None:
        self.each("help", lambda found: self.assertIn(b"Usage: xq_server", found.output))
        self.each("help", lambda found: self.assertEqual((found.status, found.line), (0, "")))

    def test_words_that_name_a_file(self) -> None:
        self.each("file", lambda found: self.assertEqual(found, runs.Ended(b"", 0, "")))
        self.assertTrue((self.folder / "x").exists())


if __name__ == "__main__":
    unittest.main()
