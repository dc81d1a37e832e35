"""The shell: its commands, texts over several lines, completion, and a terminal."""

import fcntl
import io
import os
import pty
import select
import signal
import subprocess
import sys
import termios
import time
from contextlib import redirect_stderr, redirect_stdout
from unittest import mock

from tests.support import LIBRARY, TOP, FolderTest, ServerTest, file_server, server_command
from xqs import connect
from xqs.cli import main
from xqs.session import Session, completions
from xqs.shell import word_before
from xqs.shell_texts import is_whole

INTERRUPT = "\x03"
END = b"\x04"
ENDLESS = "every $x in 1 to 1000000, $y in 1 to 1000000 satisfies $x > 0\r"


class Sessions(ServerTest):
    def setUp(self) -> None:
        super().setUp()
        self.shown: list[str] = []
        self.said: list[str] = []
        self.session = Session(self.server, self.shown.append, say=self.said.append)
        self.server.store("b", LIBRARY)

    def asked(self, text: str) -> str:
        """The answer to a text, or else the message."""
        self.shown.clear()
        self.said.clear()
        self.session.run(text)
        return "\n".join(self.shown + self.said)

    def test_queries(self) -> None:
        self.assertEqual(self.asked('doc("b")//book[1]\n'),
                         'element book {attribute id {"1"}, text {"A"}}')
        self.assertEqual(self.asked("  "), "")
        self.assertEqual(self.asked(".xml on"), "")
        self.assertEqual(self.asked('doc("b")//book, 2'),
                         '<book id="1">A</book>\n<book id="2">B</book>\n2')
        self.assertIn("FODC0002: there is no document", self.asked('doc("zz")'))
        self.assertIn("1:1: there is no function conut; the nearest is count",
                      self.asked("conut(1)"))

    def test_names_with_prefixes_and_folders(self) -> None:
        self.server.store("p/1", "document {element dc__t {attribute xml__lang {'en'}, 'x'}}")
        self.asked(".names flat")
        node = 'element dc:t {attribute xml:lang {"en"}, text {"x"}}'
        self.assertEqual(self.asked('collection("p")//dc:t[@xml:lang]'), node)
        self.assertEqual(self.asked(".get p/1"), f"document {{{node}}}")
        self.assertIn("1:14: there is no function conut", self.asked('//dc:t, "a", conut(1)'))
        self.assertIn("1:3: the language has no dc:*", self.asked("//dc:*"))
        self.assertIn("1:9: collection takes the name", self.asked("//dc:t, collection($x)"))
        self.asked(".names refuse")
        self.assertEqual(self.asked('collection("p")//dc__t/@*/name()'), '"xml__lang"')

    def test_documents(self) -> None:
        file = self.folder / "a b.xml"
        file.write_text("<p:a xmlns:p='u'/>")
        self.assertIn("needs namespaces", self.asked(f'.store x "{file}"'))
        self.assertEqual(self.asked(".names flat"), "")
        self.assertEqual(self.asked(f'.store x "{file}"'), "stored")
        self.assertEqual(self.asked(".list"), "b\nx")
        self.assertEqual(self.asked(".list x"), "x")
        self.assertEqual(self.asked(".get x"),
                         'document {element p:a {attribute xmlns:p {"u"}}}')
        self.asked(".xml on")
        self.assertEqual(self.asked(".get x"), '<p:a xmlns:p="u"/>')
        self.assertEqual(self.asked(f'.load "{self.folder}" in'), "1 stored, 0 refused")
        self.assertEqual(self.asked(".list in"), "in/a_x0020_b.xml")
        target = self.folder / "out"
        self.assertEqual(self.asked(f".export {target}"), "3 written, 0 refused")
        self.assertTrue((target / "in" / "a b.xml").exists())
        self.assertEqual(self.asked(".drop x b"), "dropped")
        self.assertIn("prof:ABSENT", self.asked(".drop x"))

    def test_drop_by_pattern(self) -> None:
        def stored() -> None:
            for address in ("p/1", "p/2", "q"):
                self.server.store(address, "document {}")

        stored()
        self.assertEqual(self.asked(".list p/?"), "p/1\np/2")
        self.assertIn("nobody can be asked", self.asked(".drop 'p/*'"))
        self.assertEqual(self.asked(".list p"), "p/1\np/2")
        self.assertEqual(self.asked(".drop --yes 'p/*' q"), "3 dropped")
        self.assertIn("no document has such", self.asked(".drop --yes 'p/*'"))
        stored()
        for answer, left in (("n\n", "p/1\np/2"), ("y\n", "")):
            typed = io.StringIO(answer)
            with mock.patch("sys.stdin", typed), mock.patch.object(typed, "isatty", lambda: True):
                self.asked(".drop p/*")
            self.assertEqual(self.asked(".list p"), left)

    def test_read(self) -> None:
        file = self.folder / "script"
        file.write_text(f'.names flat\n\n1,\n2\n\n.read {file}\n\n(3,\n\n4)\n.timing on\n5\n')
        self.assertEqual(self.asked(f".read {file}").splitlines()[:1], ["1, 2"])
        self.assertIn("reads itself", self.said[0])
        file.write_text("(3,\n\n4)\n.timing on\n5\n")
        self.assertEqual(self.asked(f".read {file}").splitlines()[:2], ["3, 4", "5"])
        self.assertRegex(self.said[0], r"\A\d\.\d{3} s\Z")

    def test_misuse(self) -> None:
        self.assertIn(".drop [--yes] ADDRESS ..", self.asked(".drop"))
        self.assertIn("on or off", self.asked(".xml maybe"))
        self.assertIn("No such file", self.asked(".read /nothing/there"))
        self.assertIn("no folder", self.asked(".load /nothing/there"))
        self.assertIn(".quit", self.asked(".help"))
        self.assertFalse(self.session.run(".quit"))
        self.assertTrue(self.session.is_ended)

    def test_completion(self) -> None:
        def completed(text: str) -> list[str]:
            return completions(self.session, word_before(text), text)

        self.server.store("books/one", "document {}")
        self.assertEqual(completed('count(doc("b'), ["b", "books/one"])
        self.assertEqual(completed(".drop bo"), ["books/one"])
        self.assertEqual(completed("1 + substring-"), ["substring-after", "substring-before"])
        self.assertEqual(completed(".l"), [".list", ".load"])
        self.assertEqual(completed("xs:i"), ["xs:integer"])
        self.assertEqual(completed("1 + "), [])

    def test_what_goes_on_in_the_next_line(self) -> None:
        for text in ("(1,", 'doc("b', "(: ", "element a {"):
            self.assertFalse(is_whole(text), text)
        for text in ("1", "(1, 2)", ".store x it's", ".", ""):
            self.assertTrue(is_whole(text), text)
        for text in ("let $a := 1", "for $x in 1 to 3\nlet $y := $x", "1 +", "if (1) then 2"):
            self.assertFalse(is_whole(text), text)
            self.assertTrue(is_whole(f"{text}\n\n") and is_whole(f"{text};"), text)
        self.assertFalse(is_whole('"a\n\n') or is_whole("(: a;"))
        self.assertFalse(is_whole("(1,\n\n", is_typed=False))

    def test_several_texts(self) -> None:
        self.assertEqual(self.asked('1; "a;b" (: ; :); 3;'), '1\n"a;b"\n3')
        self.assertEqual(self.asked("1 +; 2").splitlines()[0], "2")
        self.assertIn("1:4: the text ends here, where an operand is expected", self.asked("1 +;"))
        self.assertEqual(self.asked(";"), "")


def take_terminal() -> None:
    """Makes standard input the terminal of this process, and lets its interrupts through, even if
    the tests run in the background of a script, which ignores them."""
    signal.signal(signal.SIGINT, signal.SIG_DFL)
    fcntl.ioctl(0, termios.TIOCSCTTY, 0)


class TerminalTest(FolderTest):
    """Runs the shell on a terminal of its own."""

    def typed(self, lines: list[str], *words: str, marks: dict[int, str] | None = None) -> str:
        """The terminal's text after these lines were typed, each once the prompt is there, or what
        `marks` has in place of the prompt."""
        command = [sys.executable, "-m", "xqs", "shell", "--server", " ".join(server_command())]
        environment = {**os.environ, "PYTHONPATH": str(TOP / "clients" / "python" / "src"),
                       "XDG_STATE_HOME": str(self.folder), "TERM": "xterm", "PROMPT_TOOLKIT_NO_CPR":
                       "1"}
        outer, inner = pty.openpty()
        termios.tcsetwinsize(inner, (24, 80))
        process = subprocess.Popen([*command, *words], stdin=inner, stdout=inner, stderr=inner,
                                   env=environment, start_new_session=True,
                                   preexec_fn=take_terminal)
        os.close(inner)
        screen = Screen(outer)
        before = ""
        for number, line in enumerate(lines):
            # (an interrupt just before the shell begins to wait is seen only with the next key)
            again = before if before == INTERRUPT else ""
            screen.wait_for((marks or {}).get(number, ">").encode(), again.encode())
            time.sleep(0.5 if line == INTERRUPT else 0)
            os.write(outer, line.encode())
            before = line
        # (a Ctrl+D that comes before the prompt doesn't end a line that is edited)
        screen.wait_for(None, END if before.endswith(END.decode()) else b"")
        process.wait(30)
        os.close(outer)
        return screen.seen.decode(errors="replace")


class Terminal(TerminalTest):
    def test_plain(self) -> None:
        lines = ["(1 +\r", "2)\r", "distinct-v\t((4, 4))\r", ".quit\r"]
        seen = self.typed(lines, "--plain")
        self.assertIn("3\r\n", seen)
        self.assertIn("...> ", seen)
        self.assertIn("distinct-values((4, 4))", seen)
        self.assertIn("9\r\n", self.typed(["sum((4, 5))\r", ".quit\r"], "--plain"))
        self.assertIn("sum((4, 5))", (self.folder / "xqs" / "history").read_text())

    def test_a_flwor_of_several_lines(self) -> None:
        lines = ["for $x in 1 to 2\r", "let $y := $x\r", "return $y * 10\r", "let $z := 1\r",
                 "\r", "1; 2;\r", ".quit\r"]
        seen = self.typed(lines, "--plain", marks={4: "...> ", 5: "^", 6: "2\r\n"})
        self.assertIn("10, 20\r\n", seen)
        self.assertIn("1:12: the text ends here, where 'return'", seen)

    def test_an_interrupt_ends_the_query(self) -> None:
        lines = [ENDLESS, INTERRUPT, "3 + 4\r", ".quit\r"]
        marks = {1: "$x > 0\r\n", 2: "is ended", 3: "7\r\n"}
        begin = time.monotonic()
        for words in ((), ("--file", str(self.folder / "x.db"))):
            self.assertIn("7\r\n", self.typed(lines, "--plain", *words, marks=marks))
        self.assertLess(time.monotonic() - begin, 50)

    def test_documents_in_memory_are_lost_by_a_second_interrupt_alone(self) -> None:
        file = self.folder / "a.xml"
        file.write_text("<a/>")
        lines = [f".store a {file}\r", ENDLESS, INTERRUPT, INTERRUPT, "3 + 4\r", ".list\r",
                 ".quit\r"]
        marks = {1: "stored\r\n", 2: "$x > 0\r\n", 3: "Ctrl+C again", 4: "lost: 1 of them: a",
                 5: "7\r\n", 6: ".list\r\n"}
        self.typed(lines, "--plain", marks=marks)

    def test_its_end_is_the_end_of_the_server(self) -> None:
        for last in (INTERRUPT + "\x04", "\x04"):
            begin = time.monotonic()
            self.typed([ENDLESS, INTERRUPT, last], "--plain", "--file", str(self.folder / "x.db"),
                       marks={1: "$x > 0\r\n", 2: "is ended"})
            self.assertLess(time.monotonic() - begin, 50)
            with connect(file_server(self.folder / "x.db")) as client:
                self.assertEqual(client.list(), [])  # (no process holds the file any more)

    def test_interrupts_leave_the_server(self) -> None:
        # (many times the half second before the interrupt, on a fast machine too)
        slow = "every $x in 1 to 3000, $y in 1 to 3000 satisfies $x * $y > 0\r"
        lines = ["(1", INTERRUPT, "2 + 3\r", slow, INTERRUPT, "3 + 4\r", ".quit\r"]
        marks = {1: "(1", 4: "$y > 0\r\n", 5: "interrupted", 6: "7\r\n"}
        seen = self.typed(lines, "--plain", marks=marks)
        self.assertIn("5\r\n", seen)
        self.assertIn("7\r\n", seen)


class Screen:
    """What came from a terminal so far."""

    def __init__(self, terminal: int) -> None:
        self._terminal, self._at = terminal, 0
        self.seen = b""

    def wait_for(self, mark: bytes | None, again: bytes = b"") -> None:
        """Reads up to the next such mark, or to the end; types `again` every ten seconds."""
        end = time.monotonic() + 120
        typed = time.monotonic()
        while time.monotonic() < end:
            found = -1 if mark is None else self.seen.find(mark, self._at)
            if mark is not None and found >= 0:
                self._at = found + len(mark)
                return
            if select.select([self._terminal], [], [], 1)[0] and not self._read():
                return
            if again and time.monotonic() > typed + 10:
                os.write(self._terminal, again)
                typed = time.monotonic()
        raise TimeoutError(f"{mark!r} does not come: {self.seen!r}")

    def _read(self) -> bool:
        """Whether something came, rather than the end."""
        try:
            piece = os.read(self._terminal, 1 << 16)
        except OSError:
            return False
        self.seen += piece
        return bool(piece)


class TerminalText(io.StringIO):
    """An output that claims to be a terminal."""

    def isatty(self) -> bool:
        return True


class Lines(FolderTest):
    def run_with(self, text: str, *words: str) -> tuple[int, str, str]:
        """The status, output and messages of the shell over these lines."""
        out, said = io.StringIO(), io.StringIO()
        with mock.patch("sys.stdin", io.StringIO(text)), redirect_stdout(out):
            with redirect_stderr(said):
                status = main(["shell", "--server", " ".join(server_command()), *words])
        return status, out.getvalue(), said.getvalue()

    def test_lines_of_a_pipe(self) -> None:
        self.assertEqual(self.run_with("1 + 1\n(2,\n3)\n.quit\n4\n")[1], "2\n2, 3\n")
        self.assertEqual(self.run_with("1 + 1")[:2], (0, "2\n"))
        status, _, said = self.run_with("(1\n")
        self.assertEqual(status, 1)
        self.assertIn("this ( is not closed", said)

    def test_long_answer_goes_to_the_pager(self) -> None:
        with mock.patch("sys.stdout", new=TerminalText()), mock.patch("pydoc.pager") as pager:
            main(["shell", "--server", " ".join(server_command()), "-c", "1 to 2000"])
            main(["shell", "--server", " ".join(server_command()), "-c", "1 to 3"])
            main(["shell", "--server", " ".join(server_command()), "-c", "1 to 2000", "--no-pager"])
        self.assertEqual(pager.call_count, 1)

    def test_one_command(self) -> None:
        self.assertEqual(self.run_with("", "-c", "element a {}", "--xml")[:2], (0, "<a/>\n"))
        self.assertEqual(self.run_with("", "-c", "a b")[0], 1)
