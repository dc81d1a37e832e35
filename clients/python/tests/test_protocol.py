"""Frames: those of docs/PROTOCOL.md's dialogue, and streams in pieces."""

import re
import subprocess
import unittest

from tests.support import TOP, server_command
from xqs import protocol
from xqs.protocol import FrameFault, Kind, Splitter, Status

DIALOGUE = (TOP / "docs" / "PROTOCOL.md").read_text().partition("## A dialogue")[2]
LINE = re.compile(r"(?m)^    ([<>]) ((?:[0-9a-f]+ ?)+)")
STORE_A = protocol.store_body("a", "document {}")


def dialogue(side: str) -> bytes:
    """The bytes in the page's dialogue that the client (`>`) or the server (`<`) writes."""
    return b"".join(bytes.fromhex(it[1]) for it in LINE.findall(DIALOGUE) if it[0] == side)


class Dialogue(unittest.TestCase):
    def test_frames_are_those_of_the_page(self) -> None:
        frames = (
            protocol.frame(1, Kind.LIST)
            + protocol.frame(2, Kind.STORE, STORE_A)
            + protocol.frame(3, Kind.STORE, STORE_A)
            + protocol.frame(4, Kind.QUERY, b'doc("a")')
            + protocol.frame(5, Kind.DROP, b"a")
            + protocol.frame(6, Kind.DROP, b"a")
            + protocol.frame(0x0B000001, Kind.LIST)
            + protocol.frame(0x0A000001, Kind.STORE, protocol.store_body("c", "document {}"))
        )
        self.assertEqual(dialogue(">")[: len(frames)], frames)
        self.assertEqual(dialogue(">")[len(frames) :].hex(), "00000002aabb" + "00100101")

    def test_replies_are_those_of_the_page(self) -> None:
        splitter = Splitter(protocol.MAX_REPLY)
        messages = splitter.feed(dialogue("<"))
        replies = [(protocol.tag_of(it), Status(it[4]), it[5:]) for it in messages]
        self.assertEqual(len(replies), 10)
        self.assertEqual(replies[0], (1, Status.DONE, b"()"))
        self.assertEqual(replies[-1], (0, Status.REFUSED, b"prof:LONG"))
        self.assertEqual(b"".join(protocol.reply(*it) for it in replies), dialogue("<"))

    def test_server_answers_as_the_page_says(self) -> None:
        done = subprocess.run(
            server_command(), input=dialogue(">"), stdout=subprocess.PIPE, stderr=subprocess.PIPE
        )
        self.assertEqual(done.stdout, dialogue("<"))
        self.assertEqual((done.returncode, done.stderr), (1, b"xq_server: frame too long\n"))


class Frames(unittest.TestCase):
    def test_stream_in_any_pieces_gives_the_same_messages(self) -> None:
        data = dialogue("<")
        whole = list(Splitter(protocol.MAX_REPLY).feed(data))
        for size in (1, 2, 3, 7, 64):
            splitter = Splitter(protocol.MAX_REPLY)
            pieces = [data[at : at + size] for at in range(0, len(data), size)]
            self.assertEqual([it for piece in pieces for it in splitter.feed(piece)], whole)
            self.assertFalse(splitter.is_inside)

    def test_frame_that_has_begun_is_told(self) -> None:
        splitter = Splitter(9)
        self.assertEqual(list(splitter.feed(b"\0\0\0\5a")), [])
        self.assertTrue(splitter.is_inside)

    def test_length_over_the_limit_is_refused(self) -> None:
        with self.assertRaises(FrameFault):
            list(Splitter(4).feed(b"\0\0\0\5"))

    def test_longest_request_is_made_and_a_longer_one_refused(self) -> None:
        body = b" " * (protocol.MAX_REQUEST - 5)
        self.assertEqual(len(protocol.frame(1, Kind.QUERY, body)), protocol.MAX_REQUEST + 4)
        with self.assertRaises(FrameFault):
            protocol.frame(1, Kind.QUERY, body + b" ")

    def test_message_keeps_its_body_under_another_tag(self) -> None:
        message = protocol.frame(1, Kind.DROP, b"a")[4:]
        self.assertEqual(protocol.framed(protocol.with_tag(message, 9)),
                         protocol.frame(9, Kind.DROP, b"a"))
        with self.assertRaises(FrameFault):
            protocol.tag_of(b"\0\0\0\1")

    def test_addresses(self) -> None:
        for good in ("a", "A-z_0.9/x", "a" * 200, "..", "/"):
            self.assertEqual(protocol.address_bytes(good), good.encode())
        for bad in ("", "a" * 201, "a b", "é", "a\n"):
            with self.assertRaises(ValueError):
                protocol.address_bytes(bad)
