"""Entity tags and conditions, pages of lists, parameters, character sets: the parts without
HTTP."""

import asyncio
import unittest

from xqs.web_charset import decoded, known_charset
from xqs.web_lists import listing_of
from xqs.web_locks import Locks
from xqs.web_query import Parameters
from xqs.web_status import HttpRefusal
from xqs.web_tags import Conditions, NotModified, conditions_of, state_of, tag


class Given:
    """Headers of a request."""

    def __init__(self, **headers: list[str]) -> None:
        self._headers = {name.replace("_", "-"): lines for name, lines in headers.items()}

    def getall(self, key: str, default: list[str], /) -> list[str]:
        """All values of a name."""
        return self._headers.get(key, default)


class TagsTest(unittest.TestCase):
    """Tags, and the conditions of requests on them."""

    def test_tags_differ_by_state_and_form(self) -> None:
        forms = ("application/xml", "text/plain")
        tags: set[str] = {
            tag(state_of(text), form, names)
            for text in ("1", "2") for form in forms for names in ("", "flat")}
        self.assertEqual(len(tags), 8)
        for it in tags:
            self.assertRegex(it, r'^"[\w-]{20}-[\w.-]+"$')

    def test_headers_are_read(self) -> None:
        cases: list[tuple[list[str], set[str] | None]] = [
            (["*"], {"*"}), (['"a"'], {'"a"'}), (['"a", W/"b"'], {'"a"', 'W/"b"'}),
            (['"a"', '"b,c"'], {'"a"', '"b,c"'}), (['""'], {'""'}),
            ([' "a" ,, "b" ,'], None), (["a"], None), (['"a'], None), ([""], set()),
            (['"a" "b"'], None), (['w/"a"'], None), (["*, *"], None)]
        for lines, tags in cases:
            with self.subTest(lines=lines):
                given = Given(If_Match=lines)
                if tags is None:
                    with self.assertRaises(HttpRefusal) as caught:
                        conditions_of(given)
                    self.assertEqual(caught.exception.status, 400)
                else:
                    self.assertEqual(conditions_of(given), Conditions(frozenset(tags)))
        self.assertFalse(conditions_of(Given()).is_given)

    def test_answers(self) -> None:
        seen = tag(state_of("1"), "application/xml")
        Conditions().check(seen)
        Conditions(match=frozenset((seen,))).check(seen)
        Conditions(none_match=frozenset(('"x"',))).check(seen)
        for match in ('"x"', f"W/{seen}"):
            with self.assertRaises(HttpRefusal) as caught:
                Conditions(match=frozenset((match,))).check(seen)
            self.assertEqual(caught.exception.status, 412)
        for known in (seen, f"W/{seen}", "*"):
            with self.assertRaises(NotModified):
                Conditions(none_match=frozenset((known,))).check(seen)

    def test_changes(self) -> None:
        state = state_of("1")
        one, other = tag(state, "application/xml"), tag(state, "text/plain")
        changed = tag(state_of("2"), "application/xml")
        for conditions, present, absent in (
                (Conditions(frozenset((one,))), True, False),
                (Conditions(frozenset((other, changed))), True, False),
                (Conditions(frozenset((changed,))), False, False),
                (Conditions(frozenset((f"W/{one}",))), False, False),
                (Conditions(frozenset(("*",))), True, False),
                (Conditions(frozenset()), False, False),
                (Conditions(None, frozenset(("*",))), False, True),
                (Conditions(None, frozenset((f"W/{other}",))), False, True),
                (Conditions(None, frozenset((changed,))), True, True)):
            for now, holds in ((state, present), (None, absent)):
                with self.subTest(conditions=conditions, now=now):
                    if holds:
                        conditions.check_state(now)
                    else:
                        with self.assertRaises(HttpRefusal):
                            conditions.check_state(now)


class ListsTest(unittest.TestCase):
    """Pages of addresses."""

    def pages(self, addresses: list[str], **words: str) -> list[list[str]]:
        """All pages from that of a request on."""
        pages: list[list[str]] = []
        while True:
            page, headers = listing_of(Parameters(words.items())).page(addresses)
            pages.append(page)
            if "Link" not in headers:
                return pages
            words["after"] = page[-1]

    def test_pages(self) -> None:
        addresses = sorted(["a", "p/1", "p/2", "p/3", "p/4", "p/5", "q"])
        self.assertEqual(self.pages(addresses), [addresses])
        self.assertEqual(self.pages(addresses, prefix="p/", limit="2"),
                         [["p/1", "p/2"], ["p/3", "p/4"], ["p/5"]])
        self.assertEqual(self.pages(addresses, prefix="p/", after="p/3"), [["p/4", "p/5"]])
        self.assertEqual(self.pages(addresses, prefix="x", limit="1"), [[]])
        _, headers = listing_of(Parameters([("limit", "3")])).page(addresses)
        self.assertEqual(headers, {"Xqs-Total": "7",
                                   "Link": '</rest?limit=3&after=p/2>; rel="next"'})

    def test_what_is_refused(self) -> None:
        for pairs in ([("limit", "0")], [("limit", "-1")], [("limit", "x")], [("limit", "")],
                      [("query", "1")], [("limit", "1"), ("limit", "2")], [("Prefix", "a")]):
            with self.subTest(pairs=pairs), self.assertRaises(HttpRefusal) as caught:
                listing_of(Parameters(pairs))
            self.assertEqual(caught.exception.status, 400)


class CharsetTest(unittest.TestCase):
    """Character sets of bodies."""

    def test_texts(self) -> None:
        self.assertEqual(decoded("é".encode("latin-1"), "latin-1"), "é")
        self.assertEqual(decoded(b"\xef\xbb\xbf1", None), "1")
        with self.assertRaises(HttpRefusal):
            decoded(b"\xff", None)

    def test_names(self) -> None:
        for name in ("utf-8", "UTF8", "Shift_JIS", "iso-8859-1"):
            self.assertEqual(known_charset(name), name)
        for name in ("x", "", "hex", "punycode", "unicode_escape", "rot13", "\0"):
            with self.subTest(name=name), self.assertRaises(HttpRefusal) as caught:
                known_charset(name)
            self.assertEqual(caught.exception.status, 415)


class LocksTest(unittest.IsolatedAsyncioTestCase):
    """Changes of one document come one after another."""

    async def test_one_after_another(self) -> None:
        locks, order = Locks(), list[str]()

        async def change(address: str, name: str) -> None:
            async with locks.held(address):
                order.append(f"begin {name}")
                await asyncio.sleep(0.01)
                order.append(f"end {name}")

        await asyncio.gather(change("a", "1"), change("a", "2"), change("b", "3"))
        self.assertEqual(order[:2], ["begin 1", "begin 3"])
        self.assertEqual([it for it in order if not it.endswith("3")],
                         ["begin 1", "end 1", "begin 2", "end 2"])
        self.assertEqual((locks._locks, locks._users), ({}, {}))


if __name__ == "__main__":
    unittest.main()
