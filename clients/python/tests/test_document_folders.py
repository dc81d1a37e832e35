"""Documents by folder and by pattern: lists, drops, and queries over a folder."""

import io
import unittest
from unittest import mock

from tests.support import CommandTest, ServerTest, file_server, store_part
from xqs import connect
from xqs.folders import (
    FolderFault,
    below,
    collection,
    in_folders,
    is_pattern,
    matching,
    with_folders,
)

KNOWN = ["a", "p", "p/1.xml", "p/b/2.xml", "p/b/3.xml", "p2/4.xml", "xqs.temporary/1-a/1"]


class Addresses(unittest.TestCase):
    def test_patterns(self) -> None:
        self.assertEqual([it for it in ("a*", "a?b", "[ab]", "a.b_c-d/e") if is_pattern(it)],
                         ["a*", "a?b", "[ab]"])
        for pattern, found in (("p/*", KNOWN[2:5]), ("*.xml", KNOWN[2:6]),
                               ("p/[12].xml", ["p/1.xml"]), ("?", ["a", "p"]),
                               ("*", KNOWN[:-1]), ("P/*", []), ("xqs.temporary/*", KNOWN[-1:])):
            self.assertEqual(matching(KNOWN, pattern), found, pattern)

    def test_folders(self) -> None:
        for folder, found in (("p", KNOWN[1:5]), ("p/", KNOWN[2:5]), ("p/b", KNOWN[3:5]),
                              ("a", ["a"]), ("", KNOWN[:-1]), ("none", [])):
            self.assertEqual(below(KNOWN, folder), found, folder)

    def test_queries_are_rewritten_by_their_tokens(self) -> None:
        def rewritten(text: str, folder: str | None = None) -> str:
            return with_folders(text, folder, lambda: KNOWN).text

        for text in ("collection()//a", '"collection()"', '(: collection("p") :) 1', "$collection",
                     "child::collection", "element collection {1}", "collection/a", ""):
            self.assertEqual(rewritten(text), text)
        head = f"let $xqs-folder-1 := {collection(KNOWN[3:5])} return ("
        for text in ('collection("p/b")/a', "fn:collection ( (: c :) 'p/b' )/a"):
            self.assertEqual(rewritten(text), head + "$xqs-folder-1/a\n)")
        self.assertEqual(rewritten('collection()/a, "collection()"', "p/b"),
                         head + '$xqs-folder-1/a, "collection()"\n)')
        twice = rewritten('collection("p/b"), collection("a"), collection("p/b"), $xqs-folder-2')
        self.assertTrue(twice.endswith(
            "return ($xqs-folder-1, $xqs-folder-2-, $xqs-folder-1, $xqs-folder-2\n)"), twice)

    def test_places_are_those_of_the_text_as_it_was_written(self) -> None:
        text = 'collection("p"), bb, collection("p"), zz'
        asked = with_folders(text, None, lambda: KNOWN)
        for word in ("bb", "zz"):
            self.assertEqual(asked.place(asked.text.index(word)), text.index(word))

    def test_what_can_not_be_asked_is_refused_with_its_place(self) -> None:
        many = [f"p/{'x' * 100}{it}" for it in range(20_000)]
        for text, folder, known, why in (
            ("1,\n collection($x)", None, KNOWN, "2:2: collection takes the name"),
            ('collection("a", "b")', None, KNOWN, "1:1: collection takes the name"),
            ("count(//a)", "p", KNOWN, "1:1: nothing in the query asks for the folder"),
            ('1, collection("p")', None, many, "1:4: the 20,000 addresses of the folder don't fit"),
        ):
            with self.subTest(text), self.assertRaises(FolderFault) as caught:
                with_folders(text, folder, lambda known=known: known)  # type: ignore[misc]
            self.assertTrue(str(caught.exception).startswith(why), caught.exception)


class Asked(ServerTest):
    def test_queries_over_folders(self) -> None:
        for address in KNOWN[:-1]:
            self.server.store(address, f'document {{element d {{"{address}"}}}}')
        store_part(self.server)

        def texts(text: str, folder: str | None = None) -> list[object]:
            return list(self.server.query(in_folders(self.server, text, folder)))

        self.assertEqual(texts('collection("p")//d/string()'), KNOWN[1:5])
        self.assertEqual(texts("collection()/d/string()", "p/b"), KNOWN[3:5])
        self.assertEqual(texts('count(collection("none")), count(collection("")//d)'), [0, 6])
        self.assertEqual(texts('collection("p2")/d is doc("p2/4.xml")/d'), [True])
        gone = in_folders(self.server, 'collection("p")/d/string()')
        self.server.drop("p/b/2.xml")
        self.assertEqual(self.server.query(gone), ["p", "p/1.xml", "p/b/3.xml"])

    def test_a_folder_of_many_documents(self) -> None:
        addresses = (f"books/of-some-length/{it}.xml" for it in range(2_000))
        for future in [self.server.store_later(it, "document {element d {}}") for it in addresses]:
            future.result()
        text = in_folders(self.server, "count(collection('books')/d)")
        self.assertEqual(self.server.query(text), [2_000])


class ByCommand(CommandTest):
    def setUp(self) -> None:
        super().setUp()
        with connect(file_server(self.folder / "x.db")) as client:
            for address in KNOWN[:-1]:
                client.store(address, f'document {{element d {{"{address}"}}}}')

    def answered(self, answer: str, *words: str) -> tuple[int, str, str]:
        """The outcome of a command on a terminal where this text is typed."""
        typed = io.StringIO(answer)
        with mock.patch("sys.stdin", typed), mock.patch.object(typed, "isatty", lambda: True):
            return self.run_command(*words)

    def test_list_and_query(self) -> None:
        self.assertEqual(self.run_command("list", "p/b")[1], "p/b/2.xml\np/b/3.xml\n")
        self.assertEqual(self.run_command("list", "*/?.xml")[1].split(), KNOWN[2:6])
        self.assertEqual(self.run_command("query", 'collection("p/b")/d/string()')[1],
                         '"p/b/2.xml", "p/b/3.xml"\n')
        ask = ("query", "--in", "p2")
        self.assertEqual(self.run_command(*ask, "count(collection()/d)")[1], "1\n")
        status, _, said = self.run_command(*ask, "collection()/d, conut(1)")
        self.assertEqual(status, 1)
        self.assertIn("1:17: there is no function conut", said)
        status, _, said = self.run_command(*ask, "count(1)")
        self.assertEqual(status, 1)
        self.assertIn("nothing in the query asks for the folder", said)
        status, out, said = self.run_command("query", "--in", "none", "count(collection())")
        self.assertEqual((status, out), (0, "0\n"))
        self.assertIn("no document is below none", said)

    def test_drop_asks_before_a_patterns_documents_go(self) -> None:
        status, _, said = self.run_command("drop", "p/*")
        self.assertEqual(status, 1)
        self.assertIn("3 documents would be dropped (p/1.xml, p/b/2.xml, p/b/3.xml)", said)
        for answer in ("", "n\n", "\n", "yesno\n"):
            status, _, said = self.answered(answer, "drop", "p/*")
            self.assertEqual(status, 1)
            self.assertIn("drop 3 documents? [y/N]", said)
            self.assertIn("nothing is dropped", said)
        self.assertEqual(self.run_command("list")[1].split(), KNOWN[:-1])
        self.assertEqual(self.answered("y\n", "drop", "p/b/*", "a")[0], 0)
        self.assertEqual(self.run_command("list")[1].split(), ["p", "p/1.xml", "p2/4.xml"])
        status, _, said = self.run_command("drop", "--yes", "p/*", "q/*", "p")
        self.assertEqual(status, 1)
        self.assertIn("q/*: no document has such an address", said)
        self.assertEqual(self.run_command("list")[1].split(), ["p2/4.xml"])
        status, _, said = self.run_command("drop", "z*")
        self.assertEqual((status, "no document has such" in said), (1, True))


if __name__ == "__main__":
    unittest.main()
