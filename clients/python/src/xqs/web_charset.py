"""Texts of bodies, by the character set in their Content-Type."""

from xqs.web_status import HttpRefusal
from xqs.xml_decoding import codec_of

MARK = "\ufeff"


def known_charset(name: str) -> str:
    """Python's name of a character set. Raises HttpRefusal 415 if it is unknown."""
    if not codec_of(name):
        raise HttpRefusal(415, "xqs:CHARSET", f"there is no character set {name}")
    return name


def decoded(body: bytes, charset: str | None) -> str:
    """The text of a body, in UTF-8 if no character set is named. Raises HttpRefusal if it is
    invalid."""
    try:
        return body.decode(codec_of(charset or "utf-8") or "utf-8").removeprefix(MARK)
    except UnicodeError as error:
        raise HttpRefusal(400, "prof:UTF8", str(error)) from error
