"""Names with a colon, which the server doesn't have, on the way in and out."""

from collections.abc import Callable
from enum import StrEnum

from xqs.errors import XqError

NAMESPACE = "xmlns"
FLAT_COLON = "__"
"""What replaces the colon in flat names: `p:a` is `p__a`, and `xmlns` is `xmlns__`."""


class Names(StrEnum):
    """What happens to names with a colon, and to declarations of namespaces, on the way in."""

    REFUSE = "refuse"
    """The text is refused."""
    FLAT = "flat"
    """`p:a` is stored as `p__a`, and `xmlns` as `xmlns__`; this can be reversed on the way out."""
    LOCAL = "local"
    """`p:a` is stored as `a`, and declarations are dropped; this can't be reversed."""


class NoChoice(XqError, ValueError):
    """A word that is no choice for names."""


class NameFault(XqError, ValueError):
    """A name that can't be stored with this choice."""


def is_declaration(name: str) -> bool:
    """Whether an attribute of that name declares a namespace."""
    return name == NAMESPACE or name.startswith(NAMESPACE + ":")


def incoming(choice: Names) -> Callable[[str], str]:
    """The function from a name in XML to the stored name; it raises NameFault."""
    return {Names.REFUSE: _refused, Names.FLAT: _flat, Names.LOCAL: _local}[choice]


def _refused(name: str) -> str:
    if ":" in name or name == NAMESPACE:
        raise NameFault(
            f"the name {name} needs namespaces, which the server doesn't have; "
            "the choices 'flat' and 'local' take it"
        )
    return name


def _flat(name: str) -> str:
    if FLAT_COLON in name:
        raise NameFault(f"the name {name} has {FLAT_COLON}, which flat names keep for the colon")
    if name == NAMESPACE:
        return NAMESPACE + FLAT_COLON
    if ":" not in name:
        return name
    prefix, local = _halves(name)
    if prefix.endswith("_"):
        raise NameFault(f"the prefix of {name} ends in _, so its flat names would be ambiguous")
    return prefix + FLAT_COLON + local


def _local(name: str) -> str:
    return _halves(name)[1] if ":" in name else name


def _halves(name: str) -> tuple[str, str]:
    prefix, _, local = name.partition(":")
    if not prefix or not local or ":" in local:
        raise NameFault(f"the name {name} is not a prefix, a colon and a name")
    return prefix, local


def outgoing(name: str) -> str:
    """The name in XML of a flat name; any other name is unchanged."""
    prefix, mark, local = name.partition(FLAT_COLON)
    if not mark or not prefix:
        return name
    if local:
        return f"{prefix}:{local}"
    return prefix if prefix == NAMESPACE else name
