"""What long commands show while they run, and what they refuse before they begin."""

import io
import unittest
from unittest import mock

from tests.support import CommandTest, ServerTest
from tests.test_constructors_in import large
from xqs import ranges, switches
from xqs.progress import Progress
from xqs.stores import store_file
from xqs.xml_in import XmlChoices, XmlFault
from xqs.xml_judge import judge_xml
from xqs.xml_names import Names


class Terminal(io.StringIO):
    """A stream that claims to be a terminal."""

    def isatty(self) -> bool:
        return True


class Lines(unittest.TestCase):
    def test_files_with_sizes(self) -> None:
        progress = Progress(4, 4_000_000, io.StringIO())
        progress.step(1_000_000)
        progress.step(1_000_000, True)
        self.assertRegex(progress.line(),
                         r"\A2/4 \[#{10}\.{10}\] [0-9.]+ MB/s, \d+:\d\d left; 1 refused\Z")

    def test_files_alone_a_size_alone_and_nothing_that_is_known(self) -> None:
        progress = Progress(4, 0, io.StringIO())
        progress.step(10)
        self.assertRegex(progress.line(), r"\A1/4 \[#{5}\.{15}\] [0-9.]+ MB/s, \d+:\d\d left\Z")
        progress.reach_nodes(1, 2)
        self.assertRegex(progress.line(), r"\A1/4 \[#{7}\.{13}\] ")
        progress.begin(0, 0)
        progress.reach_nodes(1_000, 2_000)
        self.assertRegex(progress.line(), r"\A\[#{10}\.{10}\] [0-9,]+ nodes/s, \d+:\d\d left\Z")
        progress.begin(0, 1_000, passes=2)
        progress.reach(1_000)
        self.assertRegex(progress.line(), r"\A\[#{10}\.{10}\] [0-9.]+ MB/s, \d+:\d\d left\Z")
        progress.begin(0, 0)
        progress.reach(1_000)
        self.assertRegex(progress.line(), r"\A\[\.{20}\] [0-9.]+ MB/s, time left unknown\Z")


IN_PIECES = mock.patch.multiple(ranges, PIECE=200_000, FEW_NODES=10, WHOLE=1_000)
"""A context in which documents are read in pieces although they fit a reply."""


class Bars(CommandTest):
    def drawn(self, *words: str) -> str:
        """What a command draws on a terminal."""
        seen = Terminal()
        with mock.patch("xqs.progress._BETWEEN", -1), mock.patch("sys.stderr", seen), \
                mock.patch("tests.support.redirect_stderr", lambda _: mock.MagicMock()):
            self.assertEqual(self.run_command(*words)[0], 0, seen.getvalue())
        return seen.getvalue()

    def test_each_long_command_has_a_bar(self) -> None:
        books = "".join(f"<b n='{it}'>{'t' * 900}</b>" for it in range(2_000))
        file = self.write("a.xml", f"<a>{books}</a>")
        query = self.write("b.xq", large(4_000))
        bar, left = r"\[#+\.*\] [0-9.]+ MB/s, ", r"\d+:\d\d left"
        drawn = self.drawn("store", "a", str(file))
        self.assertRegex(drawn, rf"(?s){bar}{left}.*joining \d+ parts")
        self.assertRegex(self.drawn("store", "b", str(query)), bar + left)
        self.assertRegex(self.drawn("load", str(self.folder / "in"), "--as", "l"), "1/1 " + bar)
        with IN_PIECES:
            self.assertRegex(self.drawn("get", "a"), r"\[#+\.*\] [0-9,]+ nodes/s, \d+:\d\d left")
        self.assertRegex(self.drawn("export", str(self.folder / "x")), "3/3 " + bar)
        backup = str(self.folder / "x.backup")
        self.assertRegex(self.drawn("backup", backup), rf"(?s)3/3 {bar}{left}.*3/3 {bar}{left}")
        self.words[-1] = str(self.folder / "y.db")
        self.assertRegex(self.drawn("restore", backup), f"3/3 {bar}{left}")

    def test_a_bar_goes_on_within_one_document(self) -> None:
        books = "".join(f"<b n='{it}'>{'t' * 900}</b>" for it in range(5_000))
        self.write("a.xml", f"<a>{books}</a>")
        within = r"0/1 \[#+\.+\] [0-9.]+ MB/s, \d+:\d\d left"
        drawn = self.drawn("load", str(self.folder / "in"))
        self.assertRegex(drawn, rf"(?s){within}.*joining \d+ parts.*1/1 \[#{{20}}\]")
        with IN_PIECES:
            self.assertRegex(self.drawn("export", str(self.folder / "x")), within)
            backup = str(self.folder / "x.backup")
            self.assertRegex(self.drawn("backup", backup), rf"(?s){within}.*1/1.*{within}.*1/1")
            self.words[-1] = str(self.folder / "y.db")
            self.assertRegex(self.drawn("restore", backup), rf"(?s){within}.*joining.*{within}")


class Judged(ServerTest):
    """What is refused before anything is sent."""

    def refused(self, text: str, line: int, column: int, why: str) -> None:
        """Checks that a text is refused at a place, and that nothing of it was stored."""
        with mock.patch.object(self.server, "request_later") as sent, \
                self.assertRaises(XmlFault) as caught:
            store_file(self.server, "x", io.BytesIO(text.encode()), "x.xml")
        sent.assert_not_called()
        self.assertEqual((caught.exception.line, caught.exception.column), (line, column))
        self.assertIn(why, caught.exception.why)

    def test_a_file_is_judged_before_its_first_part_is_sent(self) -> None:
        text = "<a>\n" + f"<b>{'t' * 900}</b>" * 3_000
        self.refused(text + "</c>", 2, 3_000 * 907 + 3, "mismatched tag")
        self.refused(text + "<p:c/></a>", 2, 3_000 * 907 + 1, "needs namespaces")
        self.refused(text + "<c>" * 100, 2, 3_000 * 907 + 99 * 3 + 1, "deeper than 100 levels")
        self.refused(text + "&u;</a>", 2, 3_000 * 907 + 1, "undefined entity")
        with mock.patch("xqs.parts.MAX_NODES", 5_000):
            self.refused(text + "</a>", 2, 2_498 * 907 + 904, "more than 5,000 nodes")

    def test_nodes_are_counted_as_they_are_stored(self) -> None:
        for text in (
            "<a x='1' y='2'><!--c--> <?p q?>t<![CDATA[u]]>&amp;<b/> \n</a><!--d-->",
            "<a>" + "t<![CDATA[ ]]>" * 3 + "<!DOCTYPE>"[:0] + "<b xml:space='preserve'> </b></a>",
            "<!DOCTYPE a [<!--c--><?p q?><!ATTLIST b x CDATA '1'>]><a><b/> <b x='2'/></a>",
            "<a xmlns='u' xmlns:p='v' p:x='1'><p:b/></a>",
        ):
            for choices in (XmlChoices(Names.FLAT), XmlChoices(Names.LOCAL, strip=True)):
                stored = store_file(self.server, "x", io.BytesIO(text.encode()), "x", choices)
                self.assertEqual(judge_xml("x", [text.encode()], choices), stored.nodes, text)
                self.assertEqual(self.server.query(
                    'count((doc("x")/descendant-or-self::node(), doc("x")//@*))'), [stored.nodes])


class Switches(CommandTest):
    def test_load_says_which_options_would_take_what_it_refused(self) -> None:
        entity = '<!DOCTYPE a [<!ENTITY e "x">]>'
        for path, text in {
            "good.xml": "<a/>", "cut.xml": "<a>", "1.xml": "<p:a/>", "2.xml": "<a xmlns='u'/>",
            "3.xml": "<p:a__b/>", "4.xml": f"{entity}<a>&e;</a>",
            "5.xml": f"{entity}<p:a>&e;</p:a>", "6.xml": "<a p:x='1' x='2'/>",
        }.items():
            self.write(path, text)
        told = self.run_command("load", self.folder / "in")[2]
        self.assertIn("more would load by other options: 3 by --names flat, "
                      "3 by --names local, 1 by --entities, 5 by --names flat --entities, "
                      "5 by --names local --entities\n", told)
        self.assertIn("1 stored, 7 refused, 0 failed", told.splitlines()[-1])
        told = self.run_command("load", self.folder / "in", "--names", "flat")[2]
        self.assertIn("more would load by other options: 2 by --entities, 1 by --names local, "
                      "3 by --names local --entities", told)
        self.write("3.xml", "<a/>")
        told = self.run_command("load", self.folder / "in", "--names", "flat", "--entities")[2]
        self.assertNotIn("would load", told)

    def test_files_that_take_long_to_try_are_left_out(self) -> None:
        for name in ("a.xml", "b.xml"):
            self.write(name, "<p:a/>")
        with mock.patch("xqs.switches.PATIENCE", 0.0), mock.patch(
                "xqs.switches.time.monotonic", side_effect=[0.0, 0.0, 1.0]):
            told = switches.shown([self.folder / "in" / it for it in ("a.xml", "b.xml")],
                                  XmlChoices())
        self.assertEqual(told, "more would load by other options: 1 by --names flat, "
                         "1 by --names local (of the first 1 of 2)")

    def test_an_interrupted_load_says_so(self) -> None:
        self.write("a.xml", "<a/>")
        with mock.patch("xqs.load.Loader.load", side_effect=KeyboardInterrupt):
            status, _, said = self.run_command("load", self.folder / "in")
        self.assertEqual(status, 1)
        self.assertIn("xqs load: interrupted; the same command resumes from here", said)


if __name__ == "__main__":
    unittest.main()
