"""Tests of prove_program.py.

Those that prove a program need the kit, and take half a minute.
"""

import os
import pathlib
import tempfile
import time
import unittest

from tools.common import repository
from tools.user.prove_program import NotProved, begins, checks_at_once, free_memory, prove_and_build

GIGABYTE = 1_000_000_000
LIBRARY = """#![tactic(auto)]

pub fn half(number: u32) -> u32 {
    number / 2
}
"""
PROGRAM = """#![tactic(auto)]

use std::io;

fn main(rt: HostRuntime) -> io::Result<()> {
    let found = low::half(14);
    println!(rt; "{found}")?;
    Ok(())
}
"""


class ChecksAtOnce(unittest.TestCase):
    def test_each_has_a_processor_and_its_room(self) -> None:
        self.assertEqual(checks_at_once(4, 20 * GIGABYTE), 4)
        self.assertEqual(checks_at_once(2, 20 * GIGABYTE), 2)
        self.assertEqual(checks_at_once(4, 7 * GIGABYTE), 2)
        self.assertEqual(checks_at_once(4, 6 * GIGABYTE), 1)

    def test_there_is_always_one(self) -> None:
        self.assertEqual(checks_at_once(4, 0), 1)
        self.assertEqual(checks_at_once(1, 20 * GIGABYTE), 1)


class Begins(unittest.TestCase):
    def test_what_all_took_is_said_where_it_is_known(self) -> None:
        self.assertTrue(begins(6, 2, None).startswith("crates to prove: 6, 2 at a time; "))
        self.assertIn("; all took 27 by the clock there", begins(6, 2, 27.4))
        self.assertTrue(begins(6, 2, None).endswith(" of docs/MEASURES.md"))


class FreeMemory(unittest.TestCase):
    def test_kilobytes_of_the_line(self) -> None:
        text = "MemTotal:       24571372 kB\nMemAvailable:   14000000 kB\nSwapTotal: 0 kB\n"
        self.assertEqual(free_memory(text), 14_336_000_000)

    def test_a_system_that_does_not_tell(self) -> None:
        self.assertEqual(free_memory("MemTotal: 1 kB\n"), 0)


@unittest.skipUnless(repository.kit(), "needs the kit")
class ProveAndBuild(unittest.TestCase):
    def setUp(self) -> None:
        folder = tempfile.TemporaryDirectory()
        self.addCleanup(folder.cleanup)
        self.top = pathlib.Path(folder.name)
        (self.top / "out").mkdir()
        (self.top / "crates.txt").write_text("low:\napp: low\n")
        self.write("low", "src/lib.rt", LIBRARY)
        self.write("app", "src/main.rt", PROGRAM)
        self.write("app", "stdin", "")

    def write(self, crate: str, name: str, text: str) -> None:
        path = self.top / "crates" / crate / name
        path.parent.mkdir(parents=True, exist_ok=True)
        path.write_text(text)

    def test_the_program_is_as_old_as_the_start_of_its_proof(self) -> None:
        self.write("app", "stdout", "7\n")
        begun = time.time()
        prove_and_build(self.top, "app")
        program = self.top / "crates" / "app" / "out" / "app"
        self.assertTrue(os.access(program, os.X_OK))
        self.assertLess(program.stat().st_mtime - begun, 1)
        log = (self.top / "out" / "serve.log").read_text()
        self.assertIn("== low\n", log)
        self.assertIn("== app\n", log)

    def test_another_answer_is_refused(self) -> None:
        self.write("app", "stdout", "8\n")
        with self.assertRaisesRegex(NotProved, "stored run"):
            prove_and_build(self.top, "app")

    def test_what_is_not_proved_is_not_built(self) -> None:
        self.write("app", "stdout", "7\n")
        self.write("low", "src/lib.rt", LIBRARY.replace("/ 2", "* 2"))
        with self.assertRaisesRegex(NotProved, "a crate was not proved"):
            prove_and_build(self.top, "app")
        self.assertFalse((self.top / "crates" / "app" / "out" / "app").exists())


if __name__ == "__main__":
    unittest.main()
