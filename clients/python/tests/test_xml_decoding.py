"""XML in any encoding, given by the transport or the text."""

import unittest

from tests.test_xml import constructor
from xqs.xml_decoding import codec_of, encoding_of
from xqs.xml_in import XmlFault

SIZES = (1, 3, 1 << 16)
"""Texts are read in pieces of these numbers of bytes."""
WORDS = {
    "Shift_JIS": "日本語ー", "EUC-JP": "日本語ー", "ISO-2022-JP": "日本語", "EUC-KR": "한국어",
    "GB2312": "中文", "GBK": "中文镕", "GB18030": "中文\U0001f600", "Big5": "中文",
    "windows-31j": "①", "x-sjis": "ｱ", "KOI8-R": "Ж", "windows-1252": "é€", "ISO-8859-15": "é€",
    "macintosh": "é", "TIS-620": "ก", "IBM037": "é", "ks_c_5601-1987": "한",
}


def declared(name: str, text: str) -> str:
    """A text of XML that declares its encoding."""
    return f"<?xml version='1.0' encoding='{name}'?>\n<a>{text}</a>"


class Encodings(unittest.TestCase):
    def read(self, data: bytes, text: str, charset: str | None = None) -> None:
        for size in SIZES:
            with self.subTest(data[:60], size=size, charset=charset):
                self.assertEqual(constructor(data, size=size, charset=charset),
                                 f'document {{element a {{text {{"{text}"}}}}}}')

    def refused(self, data: bytes, place: tuple[int, int], why: str,
                charset: str | None = None) -> None:
        for size in SIZES:
            with self.subTest(data[:60], size=size), self.assertRaises(XmlFault) as caught:
                constructor(data, size=size, charset=charset)
            fault = caught.exception
            self.assertEqual((fault.source, fault.line, fault.column), ("x.xml", *place))
            self.assertIn(why, fault.why)

    def test_declared_encodings(self) -> None:
        for name, text in WORDS.items():
            self.read(declared(name, text).encode(codec_of(name)), text)

    def test_utf_16_and_utf_32_with_and_without_a_mark(self) -> None:
        for name in ("utf-16", "utf-16-le", "utf-16-be", "utf-32", "utf-32-le", "utf-32-be"):
            for text in (declared(name[:6], "é日"), declared(name, "é日"), "<a>é日</a>"):
                self.read(text.encode(name), "é日")

    def test_charset_of_the_transport_goes_before_the_declaration(self) -> None:
        data = declared("ISO-8859-1", "é").encode()
        self.read(data, "Ã©")
        self.read(data, "é", "utf-8")
        self.read(data, "é", '"UTF-8"')
        self.read("<a>é</a>".encode("latin-1"), "é", "iso-8859-1")
        self.read("<a>é</a>".encode("utf-16-be"), "é", "utf-16")
        self.read("<a>é</a>".encode("utf-16-le"), "é", "utf-16")

    def test_mark_goes_before_all(self) -> None:
        for charset in (None, "iso-8859-1", "utf-16"):
            self.read(b"\xef\xbb\xbf" + declared("ISO-8859-1", "é").encode(), "é", charset)
            self.read(declared("utf-8", "é").encode("utf-16"), "é", charset)

    def test_unknown_encodings_are_refused_with_their_place(self) -> None:
        self.refused(declared("x-none", "a").encode(), (1, 31), "the encoding x-none is not known")
        self.refused(b"<?xml version='1.0'\n encoding='base64'?><a/>", (2, 12), "base64")
        self.refused(b"<a/>", (1, 1), "the charset 'x-none' of the transport", "x-none")
        self.refused(b"<a/>", (1, 1), "the charset '' of the transport", "")
        for name in ("base64", "rot13", "utf-7", "idna", "undefined", "unicode_escape", "../x"):
            self.assertEqual(codec_of(name), "")

    def test_declarations_that_can_not_be_true(self) -> None:
        self.refused(declared("UTF-16", "a").encode(), (1, 31), "the bytes contradict it")
        self.refused(declared("UTF-8", "a").encode("utf-16-le"), (1, 31), "the bytes contradict it")
        self.refused(b"<?xml version='1.0'" + b" " * 70_000 + b"encoding='latin1'?><a/>", (1, 1),
                     "more than 65536 bytes")

    def test_bytes_that_are_no_text_are_refused_with_their_place(self) -> None:
        self.refused(declared("Shift_JIS", "日\nab").encode("shift_jis")[:-4] + b"\x81</a>",
                     (3, 3), "no shift_jis")
        self.refused(b"<a>\n ab\xff</a>", (2, 4), "no utf-8")
        self.refused(b"<a x='\xe9'/>", (1, 7), "no utf-8")
        self.refused(declared("US-ASCII", "é").encode(), (2, 4), "no ascii")
        self.refused(b"<a>\n ab\0</a>", (2, 4), "invalid token")
        self.refused(declared("GB2312", "镕").encode("gbk"), (2, 4), "no gb2312")
        self.refused("<a>".encode("utf-16") + b"\x00\xd8", (1, 4), "no utf-16")

    def test_no_bytes_and_few(self) -> None:
        for data in (b"", b"\xef\xbb\xbf", b"\xff\xfe", b"<", b"<a", b"\0<\0a"):
            with self.assertRaises(XmlFault):
                constructor(data)
        self.assertEqual(encoding_of(b"<?xml-model?><a/>"), ("utf-8", 0))


if __name__ == "__main__":
    unittest.main()
