"""The shell's lines by prompt_toolkit, on a terminal."""

from tests.test_shell import ENDLESS, INTERRUPT, TerminalTest


class Toolkit(TerminalTest):
    def test_lines_and_history(self) -> None:
        lines = ["(1 +\r", "2)\r", "distinct-v\t", "((4, 4))\r", ".quit\r"]
        seen = self.typed(lines, marks={3: "alues"})
        self.assertIn("3\r\n", seen)
        self.assertIn("(1 +", (self.folder / "xqs" / "history").read_text())
        self.assertIn("distinct-values((4, 4))", (self.folder / "xqs" / "history").read_text())

    def test_texts_over_several_lines(self) -> None:
        lines = ["let $a := 1\r", "return $a + 10\r", "let $b := 1\r", "\r", ".quit\r"]
        seen = self.typed(lines, marks={1: "...>", 2: "11\r\n", 3: "...>", 4: "^"})
        self.assertIn("the text ends here, where 'return'", seen)

    def test_an_interrupt_ends_the_query(self) -> None:
        lines = [ENDLESS, INTERRUPT, "3 + 4\r", ".quit\r"]
        self.typed(lines, marks={1: "$x > 0", 2: "is ended", 3: "7\r\n"})


del TerminalTest
