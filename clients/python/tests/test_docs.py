"""Checks what docs/CLIENTS.md says about the library and the commands."""

import ast
import re

from tests.support import TOP, FolderTest, server_command
from xqs.cli import COMMANDS
from xqs.shell_texts import COMMANDS as DOTS

PAGE = (TOP / "docs" / "CLIENTS.md").read_text()


def library_session() -> list[str]:
    """The lines of the page's session of the library."""
    text = PAGE.partition("## The library\n\n")[2].partition("\n- ")[0]
    return [line[4:] for line in text.splitlines() if line.startswith("    ")]


class Page(FolderTest):
    def test_library_session_gives_what_it_says(self) -> None:
        lines = library_session()
        self.assertGreater(len(lines), 8)
        seen: list[tuple[object, object]] = []
        code = [self.judged(line) for line in lines]
        text = "\n".join(code).replace('"./serve --file x.db"', "command")
        exec(text, {"command": server_command(), "judge": lambda *it: seen.append(it)})
        self.assertEqual(len(seen), 6)
        for found, expected in seen:
            self.assertEqual(repr(found), expected)

    def judged(self, line: str) -> str:
        """The line; if it has a comment, its value is compared with that."""
        found = re.fullmatch(r"( *)(\S.*?) +# (.+)", line)
        if not found:
            return line
        indent, expression, value = found.groups()
        ast.parse(expression, mode="eval")
        return f"{indent}judge(({expression}), {value!r})"

    def test_commands_are_named(self) -> None:
        for name in COMMANDS:
            self.assertRegex(PAGE, rf"[`. ]{name}\b", name)
        for name in DOTS:
            self.assertIn(name, PAGE)
