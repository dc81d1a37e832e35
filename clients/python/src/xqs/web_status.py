"""The HTTP answer to a request that failed."""

from collections.abc import Mapping
from dataclasses import dataclass, field, replace

from xqs import places
from xqs.asking import Question
from xqs.errors import Closed, Refused, ReplyError, TimedOut, XqError
from xqs.folders import FolderFault
from xqs.prefixed import PrefixFault
from xqs.protocol import FrameFault
from xqs.temporary import KeptAddress

STATUSES = {
    "FODC0002": 404,
    "prof:ABSENT": 404,
    "prof:LONG": 413,
    "prof:NODES": 413,
    "prof:REPLY": 413,
    "xqs:READONLY": 403,
    "xqs:MEMORY": 413,
    "xqs:SECONDS": 504,
}
"""The status of each code of the server, if it is not BAD."""
BAD, WANTING, UNKNOWN = 400, 503, 502
RETRY = {"Retry-After": "1"}
SEARCHED = 1 << 14
"""The place of a fault is found only in queries up to this number of characters, so that other
requests need not wait."""
CODE, PLACE = "Xqs-Code", "Xqs-Place"
"""The headers with the code of a refusal, and with the line and column of the fault in a query, as
far as its tokens show it."""


@dataclass
class HttpRefusal(XqError):
    """The answer to a request: a status, a code and a sentence."""

    status: int
    code: str
    sentence: str
    headers: Mapping[str, str] = field(default_factory=dict)

    def __str__(self) -> str:
        return f"{self.code}: {self.sentence}"


def refusal_of(error: Exception, changes: bool) -> HttpRefusal | None:
    """The refusal for an error of the client; None for any other error.

    `changes` says whether the request was a store or a drop: if its connection ended without a
    reply, it may have been carried out.
    """
    match error:
        case HttpRefusal():
            return error
        case Refused():
            return _told(error, STATUSES.get(error.code, BAD))
        case ReplyError():
            return _told(error, WANTING, RETRY)
        case TimedOut():
            return _late(error, changes)
        case Closed():
            return _closed(error, changes)
        case FrameFault():
            return HttpRefusal(413, "prof:LONG", str(error))
        case KeptAddress():
            return HttpRefusal(403, "xqs:TEMPORARY", str(error))
        case FolderFault():
            refusal = HttpRefusal(BAD, "xqs:FOLDER", "the documents of a folder can't be put in")
            return _at(refusal, error.text, error.at, error.why)
        case PrefixFault():
            refusal = HttpRefusal(BAD, "xqs:NAMES", "a name has no flat name")
            return _at(refusal, error.text, error.at, error.why)
        case OSError():
            return HttpRefusal(WANTING, "xqs:SERVER", f"no server answers ({error})", RETRY)
        case ValueError():
            return HttpRefusal(BAD, "xqs:REQUEST", str(error))
    return None


def placed(error: Refused, question: Question | None) -> HttpRefusal:
    """The refusal of a query, with the place of its fault if its text shows it."""
    refusal = _told(error, STATUSES.get(error.code, BAD))
    if question is None or len(question.text) > SEARCHED:
        return refusal
    place = question.found(error.code)
    return refusal if place is None else _at(refusal, question.text, place.at, place.why)


def _at(refusal: HttpRefusal, query: str, at: int, why: str) -> HttpRefusal:
    """The refusal with a place in the query."""
    line, column = places.line_and_column(query, at)
    sentence = f"{refusal.sentence}\nline {line}, column {column}: {why}"
    return replace(refusal, sentence=sentence, headers={PLACE: f"{line}:{column}"})


def _told(error: ReplyError, status: int, headers: Mapping[str, str] = {}) -> HttpRefusal:
    sentence = str(error).removeprefix(f"{error.code}: ")
    return HttpRefusal(status, error.code, sentence, headers)


def _late(error: TimedOut, changes: bool) -> HttpRefusal:
    sentence = f"{error}; it may still be carried out" if changes else str(error)
    return HttpRefusal(STATUSES["xqs:SECONDS"], "xqs:SECONDS", sentence)


def _closed(error: Closed, changes: bool) -> HttpRefusal:
    if changes:
        sentence = f"{error}; it may have been carried out, so look before you send it again"
        return HttpRefusal(UNKNOWN, "xqs:CLOSED", sentence)
    return HttpRefusal(WANTING, "xqs:CLOSED", f"{error}; it may be sent again", RETRY)
