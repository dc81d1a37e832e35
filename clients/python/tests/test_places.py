"""The places of faults: each reported one is right, and nothing else is reported."""

import os
import random
import re
import subprocess
import time
import unittest

from tests.support import TOP, ServerTest
from xqs import Refused, places
from xqs.tokens import tokens

FAULTS = (
    # text, place, words; the server's code is asked
    ('doc("b', 4, "is not closed"),
    ("doc('it''s", 4, "is not closed"),
    ("1 (: a (: b :)", 2, "this comment is not closed"),
    ("count((1, 2)", 5, "this ( is not closed"),
    ("(1, 2]", 5, "this ] doesn't close the open ("),
    ("1 }", 2, "this } closes nothing"),
    ('"a & b"', 3, "&amp;"),
    ("1 # 2", 2, "no token begins with '#'"),
    ("conut(1)", 0, "the nearest is count"),
    ("fn:conut(1)", 0, "the nearest is count"),
    ("count(1, 2)", 0, "count takes 1 argument, not 2"),
    ("concat((1, 2))", 0, "concat takes 2 or more arguments, not 1"),
    ("substring()", 0, "substring takes 2 or 3 arguments, not 0"),
    ("1 => abs(2)", 5, "abs takes 1 argument, not 2"),
    ("let $book := 1 return $bok", 22, "nothing binds $bok; the nearest is $book"),
    ("(:) :) $x", 7, "nothing binds $x"),
    ("1, xs:date(1)", 3, "there is no type xs:date"),
    ("doc('b')/p:a", 9, "has a prefix"),
    ("1+", 2, "an operand is expected"),
    ("1 +  ", 3, "an operand is expected"),
    ("(1 +", 4, "an operand is expected"),
    ("if (1) then 2", 13, "'else' or an operator is expected"),
    ("for $x in 1", 11, "'return'"),
    ("let $a := 1", 11, "'return'"),
    ("let $a = 1 return 2", 7, "':='"),
    ("for x in 1", 4, "'$'"),
    ("some $x in 1", 12, "'satisfies'"),
    ("1 2", 2, "2 is not expected here, but"),
    ("1 = 2 = 3", 6, "= is not expected here"),
    ("a b", 2, "b is not expected here"),
    ("element a", 9, "'{' is expected"),
    ("doc('b')//", 10, "is expected"),
    ("", 0, "an expression is expected"),
    ("  (: c :) ", 10, "an expression is expected"),
    ("<a/>", 0, "an expression"),
    ("1div 2", 1, "follows a number directly"),
    ("1..2", 2, "follows a number directly"),
    ("1.5e3", 0, "no exponent"),
    ("1.1234567", 0, "more than six digits"),
    ('"a&#0;"', 2, "&#0; names no character"),
    ("'a\x01'", 2, "no such character"),
)


class Places(ServerTest):
    def code_of(self, text: str) -> str:
        with self.assertRaises(Refused) as caught:
            self.server.query(text)
        return caught.exception.code

    def test_faults_are_found_where_they_are(self) -> None:
        for text, at, words in FAULTS:
            with self.subTest(text):
                place = places.find(text, self.code_of(text))
                assert place is not None
                self.assertEqual(place.at, at)
                self.assertIn(words, place.why)

    def test_nothing_is_claimed_where_the_server_reads_the_text(self) -> None:
        for text in ("1 div 0", "a", "(1)/a", "/", "/ *", "()", "1 to 3 ! /"):
            self.assertIsNone(places.find(text, "XPST0003"), text)

    def test_each_refusal_of_the_grammar_has_a_place_and_nothing_else(self) -> None:
        page = (TOP / "docs" / "LANGUAGE.md").read_text()
        examples = re.findall(r"`([^`]+)`\s+(?:gives|is\s+refused)", page)
        chosen = random.Random(83)
        futures = []
        for _ in range(5_000 if os.environ.get("XQS_LONG") else 400):
            text = mutated(chosen, chosen.choice(examples))
            asked = f"if (1 = 2) then ({text}\n) else ()"
            futures.append((text, asked, self.server.query_text_later(asked)))
        refused = 0
        for text, asked, future in futures:
            error = future.exception()
            code = error.code if isinstance(error, Refused) else ""
            if code in ("XQST0090", "prof:DOUBLE", "prof:DIGITS", "FOAR0002", "prof:DEPTH"):
                continue  # (reported before the grammar is read)
            place = places.find(asked, "XPST0003")
            with self.subTest(text):
                self.assertEqual(place is not None, code == "XPST0003", code)
                refused += place is not None
        self.assertGreater(refused, 100)

    def test_a_text_that_is_read_has_no_bracket_open(self) -> None:
        page = (TOP / "docs" / "LANGUAGE.md").read_text()
        texts = re.findall(r"`([^`]+)`\s+gives", page)
        for text in texts:
            with self.subTest(text):
                self.assertFalse(places.is_open(text))
                self.assertIsNone(places.find(text, "XPST0003"))
                self.assertIsNone(places.find(text, "XPST0017"))
                self.assertIsNone(places.find(text, "XPST0008"))

    def test_functions_are_those_of_the_language(self) -> None:
        def refused(call: str) -> bool:
            try:
                self.server.query(f"for $x in () return {call}")
            except Refused as error:
                return error.code == "XPST0017"
            return False

        for name, (least, most) in places.FUNCTIONS.items():
            for count in range(5):
                call = f"{name}({', '.join(['1'] * count)})"
                takes = least <= count and (most is None or count <= most)
                self.assertEqual(refused(call), not takes, call)
        self.assertTrue(all(not refused(f"xs:{it}(1)") for it in places.TYPES))

    def test_each_function_of_the_page_is_known(self) -> None:
        page = (TOP / "docs" / "LANGUAGE.md").read_text()
        section = page.partition("\n## Functions\n")[2].partition("\n## ")[0]
        names = set(re.findall(r"\*\*([a-z][a-z-]+)", section))
        types = set(re.findall(r"\*\*xs:(\w+)", section))
        self.assertEqual(names - {"xs"}, places.FUNCTIONS.keys())
        self.assertEqual(types, set(places.TYPES))


def mutated(chosen: random.Random, text: str) -> str:
    """The text with a token removed, doubled, moved or replaced."""
    pieces = [it.text for it in tokens(text)]
    other = ["for", "return", "(", ")", "$", "x", "/", "//", ",", "1", "if", "eq", "{", "}", "*",
             "text", "element", "@", "..", "::", ":=", "in", "'s'", "div", "[", "]", "child", "!"]
    for _ in range(chosen.randint(1, 2)):
        at = chosen.randrange(len(pieces))
        match chosen.randrange(4):
            case 0 if len(pieces) > 1:
                del pieces[at]
            case 1:
                pieces.insert(at, chosen.choice(pieces))
            case 2:
                pieces[at] = chosen.choice(other)
            case _:
                pieces.insert(at, chosen.choice(other))
    return " ".join(pieces)


class Tables(unittest.TestCase):
    @unittest.skipUnless((TOP / "crates").exists(), "a release has no definitions of the server")
    def test_the_client_has_the_tables_of_the_server(self) -> None:
        words = [str(TOP / "tools" / "run"), "client_tables", "--check"]
        found = subprocess.run(words, capture_output=True, text=True)
        self.assertEqual(found.returncode, 0, found.stderr)

    def test_texts_that_go_on(self) -> None:
        for text in ("let $a := 1", "for $x in 1 to 3", "1 +", "(1,", "if (1) then 2", "doc('a')/",
                     "'it", "(: c", "element a", "for $x in 1\nlet $y := $x", "some $x in 1"):
            self.assertTrue(places.may_go_on(text), text)
        for text in ("1", "1 2", "let $a = 1", ")", "", "a b (", "let $a := 1 return $a", "/"):
            self.assertFalse(places.may_go_on(text), text)

    def test_a_long_text_is_read_in_bounds(self) -> None:
        begin = time.thread_time()
        self.assertIsNotNone(places.find("(" + "1 + " * 50_000, "XPST0003"))
        self.assertTrue(places.may_go_on("1, " * 1_000))
        self.assertLess(time.thread_time() - begin, 20)


class Shown(unittest.TestCase):
    def test_line_and_mark(self) -> None:
        self.assertEqual(places.shown("1,\n conut(2)", "XPST0017"), (
            "2:2: there is no function conut; the nearest is count\n"
            "     conut(2)\n"
            "     ^\n"))
        self.assertEqual(places.shown("1+", "XPST0003"), (
            "1:3: the text ends here, where an operand is expected\n    1+\n      ^\n"))
        self.assertEqual(places.shown("$x", "FODC0002"), "")

    def test_what_is_open(self) -> None:
        for text in ("(", '"a', "(: ", "a[1", "element a {", "'it''s"):
            self.assertTrue(places.is_open(text), text)
        for text in ("()", '"("', "(: ( :)", "'", ")", "a[']']"):
            self.assertEqual(places.is_open(text), text == "'", text)
