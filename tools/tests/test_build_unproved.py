"""Tests of build_unproved.py.

Those that build a program need the kit, and take a minute or two.
"""

import pathlib
import signal
import subprocess
import tempfile
import unittest

from tools.common import repository
from tools.user import build_unproved
from tools.user.build_unproved import NotBuilt, Program

AS_WATCHED = ["-O0", "-fsanitize=address"]
KIT = ["-mllvm", "-no-x86-call-frame-opt", "-c", "-x", "ir", "module.bc", "-o", "module.o"]
# A program that does, by the number of its lines and of their letters, what a check has to see.
CHECKED = """#![tactic(auto)]

use std::io;

fn main(rt: HostRuntime) -> io::Result<()> {
    let mut lines: usize = 0;
    let mut letters: usize = 0;
    for line in rt.lines(rt.alloc()) {
        lines = lines + 1;
        letters = letters + line?.len();
    }
    let table: [usize; 4] = [1, 2, 3, 4];
    let some: Option<usize> = if letters > 5 { None } else { Some(7) };
    let found: usize = match lines {
        1 => table[letters],
        2 => letters as u8 as usize,
        3 => 100 / (letters - 3),
        4 => letters - 5,
        _ => some.unwrap(),
    };
    println!(rt; "{found}")?;
    Ok(())
}
"""
# What is done, the lines where it goes well, with the answer, and the lines where it does not.
FAULTS = (
    ("index", "a", 2, "aaaa"),
    ("cast", "a\nb", 2, "a\n" + "b" * 255),
    ("division", "aa\nb\nc", 100, "a\nb\nc"),
    ("difference", "aa\nb\nc\nd", 0, "a\nb\nc\nd"),
    ("unwrap", "a\nb\nc\nd\ne", 7, "aa\nb\nc\nd\ne"),
)


def ran(program: pathlib.Path, lines: str) -> tuple[int, str]:
    """The status of a program that is given these lines, and what it prints."""
    done = subprocess.run([program], input=f"{lines}\n", stdout=subprocess.PIPE, text=True)
    return done.returncode, done.stdout


class Words(unittest.TestCase):
    def test_all_but_the_level_is_kept(self) -> None:
        words = build_unproved.at_speed([*KIT, *AS_WATCHED], "kept.bc", "app.o")
        kept = ["-mllvm", "-no-x86-call-frame-opt", "-c", "-x", "ir", "kept.bc", "-o", "app.o"]
        self.assertEqual(words, [*kept, *build_unproved.AT_SPEED])

    def test_words_of_another_form_are_refused(self) -> None:
        for words in (KIT, [*KIT, "-O0"], [*KIT, *AS_WATCHED, "-fsanitize=thread"],
                      [*KIT, *AS_WATCHED, "-O0"], AS_WATCHED):
            with self.subTest(words), self.assertRaises(NotBuilt):
                build_unproved.at_speed(words, "kept.bc", "app.o")


class Place(unittest.TestCase):
    def setUp(self) -> None:
        folder = tempfile.TemporaryDirectory()
        self.addCleanup(folder.cleanup)
        self.top = pathlib.Path(folder.name)
        self.source = self.top / "crates" / "app" / "src" / "main.rt"
        self.source.parent.mkdir(parents=True)
        self.source.write_text(CHECKED)
        (self.top / "crates.txt").write_text("app:\n")
        self.program = Program.of_crate(self.top, "app")

    def test_a_changed_source_has_another_place(self) -> None:
        before = self.program.place()
        self.assertEqual(before, self.program.place())
        self.source.write_text(CHECKED.replace("100", "101"))
        self.assertNotEqual(before, self.program.place())

    def test_a_program_takes_the_place_of_older_ones(self) -> None:
        to = self.program.place()
        (to.parent.parent / "older").mkdir(parents=True)
        (to.parent.parent / "new").mkdir()
        build_unproved.put(self.source, to)
        self.assertEqual(to.read_text(), CHECKED)
        self.assertEqual(list(to.parent.parent.iterdir()), [to.parent])

    def test_a_quick_program_has_a_place_of_its_own(self) -> None:
        quick = self.program.quick()
        for program in (self.program, quick):
            program.kept.mkdir(parents=True)
            build_unproved.put(self.source, program.place())
        self.assertEqual(self.program.place().read_text(), CHECKED)
        self.assertEqual(quick.place().read_text(), CHECKED)
        self.assertNotIn(self.program.kept, quick.place().parents)
        words = build_unproved.at_speed([*KIT, *AS_WATCHED], "kept.bc", "app.o", quick.level)
        self.assertEqual([it for it in words if it.startswith("-O")], ["-O0"])

    @unittest.skipUnless(repository.kit(), "needs the kit")
    def test_the_program_answers_and_stops_where_a_check_fails(self) -> None:
        (self.top / "crates" / "app" / "stdin").write_text("a\n")
        (self.top / "crates" / "app" / "stdout").write_text("2\n")
        for place in (self.program, self.program.quick()):
            program = build_unproved.build(place)
            for name, good, answer, bad in FAULTS:
                with self.subTest(name, level=place.level[0]):
                    self.assertEqual(ran(program, good), (0, f"{answer}\n"))
                    self.assertEqual(ran(program, bad), (-signal.SIGILL, ""))

    @unittest.skipUnless(repository.kit(), "needs the kit")
    def test_a_program_that_fails_its_stored_run_is_not_put(self) -> None:
        (self.top / "crates" / "app" / "stdin").write_text("a\n")
        (self.top / "crates" / "app" / "stdout").write_text("3\n")
        with self.assertRaises(NotBuilt):
            build_unproved.build(self.program)
        self.assertFalse(self.program.place().exists())


if __name__ == "__main__":
    unittest.main()
