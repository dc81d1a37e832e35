"""Tables of rows as they are read, and a run that tells what a server answers wrongly."""

import sys
import unittest

from tools.rows import runs, tables
from tools.rows.tables import Group, Misread, Row

# A server that answers nothing, and one that answers one list of no documents, whatever is asked.
SILENT = [sys.executable, "-c", "import sys; sys.stdin.buffer.read()"]
LISTING = [sys.executable, "-c", (
    "import sys; sys.stdin.buffer.read(); "
    "sys.stdout.buffer.write(bytes.fromhex('0000000700000001002829'))")]
LIST = Row(b"L", b"", 0, b"()")


class TableTest(unittest.TestCase):
    """How rows are read."""

    def test_a_query_and_its_reply(self) -> None:
        self.assertEqual(tables.row_of(["1", "1"]), Row(b"Q", b"1", 0, b"1"))

    def test_a_reply_that_reads_as_a_code_is_a_refusal(self) -> None:
        for code in ("XPST0003", "prof:UTF8", "prof:REPLY"):
            self.assertEqual(tables.row_of(["1", code]).status, 1)
        for value in ('"XPST0003"', "XPST0003 ", "1.0", "()"):
            self.assertEqual(tables.row_of(["1", value]).status, 0)

    def test_other_requests(self) -> None:
        self.assertEqual(tables.row_of({"store": "a", "query": "1", "reply": "prof:NOTDOC"}),
                         Row(b"S", b"\x01a1", 1, b"prof:NOTDOC"))
        self.assertEqual(tables.row_of({"drop": "a", "wants": "store"}),
                         Row(b"D", b"a", 2, b"store"))
        self.assertEqual(tables.row_of({"kind": "X", "body": "ff", "reply": "prof:FRAME"}),
                         Row(b"X", b"\xff", 1, b"prof:FRAME"))

    def test_long_texts(self) -> None:
        inner = {"times": 2, "before": "(", "middle": "1", "after": ")"}
        self.assertEqual(tables.text_of(inner), b"((1))")
        self.assertEqual(tables.text_of(["a", {"times": 2, "before": inner}]), b"a((1))((1))")

    def test_what_is_no_row(self) -> None:
        for given in ("1", ["1"], ["1", "2", "3"], 7):
            with self.assertRaises(Misread):
                tables.row_of(given)

    def test_each_table_has_rows(self) -> None:
        for name in tables.tables():
            for group in tables.groups(name):
                self.assertTrue(group.rows, f"{name} {group.name}")


class RunTest(unittest.TestCase):
    """What is told of a server."""

    def test_no_reply_is_told(self) -> None:
        found = [*runs.wrong(SILENT, [Group("lists", (LIST,))])]
        self.assertEqual(found, ["lists: L b'': no reply, wanted 0 b'()'"])

    def test_another_reply_is_told(self) -> None:
        query = Row(b"Q", b"1", 0, b"1")
        self.assertEqual([*runs.wrong(LISTING, [Group("lists", (LIST,))])], [])
        found = [*runs.wrong(LISTING, [Group("queries", (query,))])]
        self.assertEqual(found, ["queries: Q b'1': 0 b'()', wanted 0 b'1'"])

    def test_a_refused_row_is_asked_twice(self) -> None:
        refused = Row(b"Q", b"(", 1, b"XPST0003")
        self.assertEqual(len(runs.asked([Group("a", (LIST, refused))])), 3)
        self.assertEqual(len(runs.asked([Group("a", (LIST, refused), once=True)])), 2)


if __name__ == "__main__":
    unittest.main()
