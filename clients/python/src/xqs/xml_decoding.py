"""The bytes of XML in any encoding, converted to UTF-8 piece by piece.

The encoding is that of a byte order mark, else the charset of the transport (RFC 7303), else the
one that the first bytes or the declaration show, else UTF-8. Python's codecs decode.
"""

import codecs
import re
from xml.parsers import expat

from xqs.errors import XqError

MARK = "\uffff"
"""Replaces bytes that are invalid in their encoding. XML doesn't have this character, so the parser
refuses it at its place."""
_MARKS = {
    b"\xff\xfe\0\0": "utf-32-le", b"\0\0\xfe\xff": "utf-32-be", codecs.BOM_UTF8: "utf-8",
    codecs.BOM_UTF16_LE: "utf-16-le", codecs.BOM_UTF16_BE: "utf-16-be",
}
"""Byte order marks, the longer ones first."""
_BEGINNINGS = {
    b"\0\0\0<": "utf-32-be", b"<\0\0\0": "utf-32-le", b"\0<": "utf-16-be", b"<\0": "utf-16-le",
    b"\x4c\x6f\xa7\x94": "cp037",
}
"""How a text without a mark begins in an encoding without ASCII; the last one is EBCDIC."""
_ASCII = "iso8859-1"
"""Reads a declaration in an encoding with ASCII."""
_KNOWN = re.compile(
    r"ascii|utf-(?:8|16|16-le|16-be|32|32-le|32-be)|cp\d+|iso8859-\d+|koi8-[rtu]|mac-\w+|big5\w*|"
    r"gb2312|gbk|gb18030|hz|euc_\w+|shift_jis\w*|johab|iso2022_\w+|tis-620|hp-roman8|kz1048|ptcp154"
)
"""The codecs of Python that are encodings of texts; others, as base64, are no charsets."""
_OTHER_NAMES = {
    "iso-10646-ucs-2": "utf-16", "iso-10646-ucs-4": "utf-32", "ucs-2": "utf-16",
    "ucs-4": "utf-32", "x-sjis": "shift_jis", "x-euc-jp": "euc_jp", "x-euc-kr": "euc_kr",
    "x-gbk": "gbk", "x-big5": "big5", "windows-874": "cp874", "iso-8859-8-i": "iso8859-8",
    "x-mac-roman": "mac-roman", "x-mac-cyrillic": "mac-cyrillic", "windows-31j": "cp932",
    "gb_2312-80": "gb2312",
}
_READ_AS = {"big5": "cp950", "tis-620": "cp874"}
"""Codecs to use in place of others, as browsers and glibc do: Python's own have an older table of
Big5's signs, and control characters where Thai texts have quotation marks."""
_HEAD = 1 << 16
"""The most bytes of a declaration."""
_LEAST = len("<?xml ".encode("utf-32-be"))
"""How many bytes show whether there is a declaration, in any encoding."""


class EncodingFault(XqError, ValueError):
    """An encoding that is unknown, or in which the bytes are invalid; with the place, from 1."""

    def __init__(self, why: str, line: int = 1, column: int = 1) -> None:
        super().__init__(why)
        self.why, self.line, self.column = why, line, column


class Utf8:
    """Gives bytes of XML as UTF-8, without a byte order mark."""

    def __init__(self, charset: str | None = None) -> None:
        """`charset` is that of the transport, as of an HTTP header, if there is one."""
        self._charset = charset
        self._head = b""
        self._decoder: codecs.IncrementalDecoder | None = None
        self.encoding = ""
        """Python's name of the encoding, once it is known."""
        self._last = b""
        self._before = 0
        self._has_mark = False

    def feed(self, data: bytes, final: bool) -> bytes:
        """Takes the next bytes, and returns what they add. Raises EncodingFault.

        It returns nothing until the encoding is known. `MARK` replaces bytes that are invalid in an
        encoding other than UTF-8; bytes that should be UTF-8 are unchanged.
        """
        if not self.encoding:
            self._head += data
            if not final and not _is_enough(self._head):
                return b""
            self.encoding, mark = encoding_of(self._head, self._charset)
            data, self._head = self._head[mark:], b""
            if self.encoding != "utf-8":
                self._decoder = codecs.getincrementaldecoder(self.encoding)(_MARKED)
        self._before += len(self._last)
        self._last = data
        if self._decoder is not None:
            text = self._decoder.decode(data, final)
            self._has_mark = self._has_mark or MARK in text
            self._last = text.encode("utf-8", "surrogatepass")
        return self._last

    def fault(self, index: int) -> str:
        """What is wrong with the bytes of the last piece that were returned from that place on;
        empty if they are valid."""
        at = index - self._before
        if at < 0:
            return f"these bytes are no {self.encoding}" if self._has_mark else ""
        given = self._last[at : at + 4]
        if given.startswith(MARK.encode()):
            return f"these bytes are no {self.encoding}"
        try:
            given.decode()
        except UnicodeDecodeError as error:
            return "" if error.start else f"these bytes are no {self.encoding}"
        return ""


def encoding_of(head: bytes, charset: str | None = None) -> tuple[str, int]:
    """Python's name of the encoding of XML with this beginning, and the length of its byte order
    mark. Raises EncodingFault if it is unknown, or if the declaration can't be true."""
    for mark, encoding in _MARKS.items():
        if head.startswith(mark):
            return encoding, len(mark)
    begins = _beginning(head)
    if charset is not None:
        found = codec_of(charset.strip(" \t\"'"))
        if not found:
            raise EncodingFault(f"the charset {charset!r} of the transport is unknown")
        return _with_order(found, begins), 0
    return _declared(head, begins), 0


def codec_of(name: str) -> str:
    """Python's name of an encoding; empty if it is unknown."""
    if not re.fullmatch(r"[A-Za-z][A-Za-z0-9._:-]*", name):
        return ""
    try:
        found = codecs.lookup(_OTHER_NAMES.get(name.lower(), name)).name
    except LookupError:
        return ""
    return _READ_AS.get(found, found) if _KNOWN.fullmatch(found) else ""


def _declared(head: bytes, begins: str) -> str:
    """The encoding in the declaration of a text that begins as those in `begins` do."""
    name = _declared_name(head, begins)
    if not name and len(head) > _HEAD and _has_declaration(head, begins):
        raise EncodingFault(f"the declaration has more than {_HEAD} bytes")
    if not name:
        return "utf-8" if begins == _ASCII else begins
    found = codec_of(name)
    if not found:
        raise _at_name(f"the encoding {name} is not known", head, begins, name)
    found = _with_order(found, begins)
    if "<?xml".encode(found) != "<?xml".encode(begins):
        why = f"the declaration says {name}, but the bytes contradict it"
        raise _at_name(why, head, begins, name)
    return found


def _with_order(found: str, begins: str) -> str:
    """UTF-16 and UTF-32 with their byte order, if the beginning shows it."""
    if found not in ("utf-16", "utf-32"):
        return found
    return begins if begins.startswith(found) else f"{found}-be"


def _declared_name(head: bytes, begins: str) -> str:
    """The name of the encoding in the declaration; empty if there is none."""
    names: list[str | None] = []
    parser = expat.ParserCreate("utf-8")
    parser.XmlDeclHandler = lambda _, encoding, __: names.append(encoding)
    try:
        parser.Parse(_first_tag(head, begins).encode())
    except expat.ExpatError:
        pass
    return (names and names[0]) or ""


def _first_tag(head: bytes, begins: str) -> str:
    text = head[:_HEAD].decode(begins, "replace")
    return text[: text.find("?>") + 2]


def _at_name(why: str, head: bytes, begins: str, name: str) -> EncodingFault:
    text = _first_tag(head, begins)
    before = text[: text.find(name, max(text.find("encoding"), 0))]
    return EncodingFault(why, before.count("\n") + 1, len(before) - before.rfind("\n"))


def _is_enough(head: bytes) -> bool:
    """Whether the first bytes are enough to tell the encoding."""
    if len(head) < _LEAST:
        return False
    begins = _beginning(head)
    is_open = _has_declaration(head, begins) and "?>".encode(begins) not in head[:_HEAD]
    return not is_open or len(head) > _HEAD


def _has_declaration(head: bytes, begins: str) -> bool:
    return head.startswith(tuple(f"<?xml{space}".encode(begins) for space in " \t\r\n"))


def _beginning(head: bytes) -> str:
    """The encoding at the beginning of a text without a mark, as far as its first bytes show it."""
    return next((it for start, it in _BEGINNINGS.items() if head.startswith(start)), _ASCII)


def _mark(error: UnicodeError) -> tuple[str, int]:
    if not isinstance(error, UnicodeDecodeError):
        raise error
    return MARK, error.end


_MARKED = "xqs.marked"
codecs.register_error(_MARKED, _mark)
