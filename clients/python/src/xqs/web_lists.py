"""Lists of addresses, those with a prefix and page by page."""

import bisect
import urllib.parse
from collections.abc import Mapping, Sequence
from dataclasses import dataclass

from xqs.web_query import Parameters, whole_number

TOTAL = "Xqs-Total"
"""The header with the number of addresses on all pages."""
LIST_PARAMETERS = ("prefix", "limit", "after")


@dataclass(frozen=True)
class Listing:
    """The addresses in a request: those that begin with `prefix` and come after `after`, at most
    `limit` of them unless that is None."""

    prefix: str = ""
    after: str = ""
    limit: int | None = None

    def page(self, addresses: Sequence[str]) -> tuple[list[str], dict[str, str]]:
        """The requested ones of all addresses, which are in order; and headers with the number that
        have the prefix, and the URL of the next page."""
        found = [it for it in addresses if it.startswith(self.prefix)]
        begin = bisect.bisect_right(found, self.after)
        end = len(found) if self.limit is None else begin + self.limit
        headers = {TOTAL: str(len(found))}
        if end < len(found):
            words = {"prefix": self.prefix, "limit": str(self.limit), "after": found[end - 1]}
            headers["Link"] = f'</rest?{_encoded(words)}>; rel="next"'
        return found[begin:end], headers


def _encoded(words: Mapping[str, str]) -> str:
    return urllib.parse.urlencode({name: value for name, value in words.items() if value}, safe="/")


def listing_of(given: Parameters) -> Listing:
    """The list in a URL. Raises HttpRefusal for an unknown parameter."""
    words = given.only(LIST_PARAMETERS)
    limit = words.get("limit")
    return Listing(
        words.get("prefix", ""), words.get("after", ""),
        None if limit is None else whole_number("limit", limit),
    )
