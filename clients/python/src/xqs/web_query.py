"""A query by HTTP: from the URL, or in a body as in BaseX's REST."""

import re
import xml.etree.ElementTree as ElementTree
from collections.abc import Callable, Iterable, Iterator
from dataclasses import dataclass, field

from xqs.asking import Question, question_over
from xqs.folders import may_ask_for_folders
from xqs.queries import q
from xqs.values import quoted
from xqs.web_charset import decoded
from xqs.web_forms import NAMESPACE
from xqs.web_status import HttpRefusal
from xqs.xml_out import FLAT, KEEP

YES, NO = ("yes", "true", "1"), ("no", "false", "0")
VARIABLE = re.compile(r"\$?([A-Za-z_]\w*)")


class Parameters:
    """The parameters of a URL, each given once."""

    def __init__(self, pairs: Iterable[tuple[str, str]]) -> None:
        """Raises HttpRefusal if one is given twice."""
        self._values: dict[str, str] = {}
        for name, value in pairs:
            if name in self._values:
                raise HttpRefusal(400, "xqs:REQUEST", f"the parameter {name} is given twice")
            self._values[name] = value

    def __contains__(self, name: str) -> bool:
        return name in self._values

    def __iter__(self) -> Iterator[str]:
        return iter(self._values)

    def items(self) -> Iterable[tuple[str, str]]:
        """Names and values, in order."""
        return self._values.items()

    def only(self, names: Iterable[str]) -> dict[str, str]:
        """The values by name. Raises HttpRefusal for a name that is not allowed."""
        for name in self._values:
            if name not in names:
                raise unknown_parameter(name)
        return self._values


def unknown_parameter(name: str) -> HttpRefusal:
    """The refusal of an unknown parameter, which is not ignored."""
    return HttpRefusal(400, "xqs:REQUEST", f"there is no parameter {name} here")


def whole_number(name: str, value: str) -> int:
    """A whole number from 1. Raises HttpRefusal for any other text."""
    if not re.fullmatch("[0-9]{1,9}", value) or int(value) < 1:
        raise HttpRefusal(400, "xqs:REQUEST", f"{name} is a whole number from 1, not {value!r}")
    return int(value)


@dataclass
class Asked:
    """A query, the values of its variables, and the wanted form of its result. `folder` is the
    folder of its `collection()`, None for all documents."""

    text: str | None = None
    folder: str | None = None
    variables: dict[str, str] = field(default_factory=dict)
    names: str = KEEP
    is_wrapped: bool = False

    def take(self, name: str, value: str) -> None:
        """Takes a parameter of a URL. Raises HttpRefusal for an unknown one."""
        match name:
            case "query":
                self.text = value
            case "in":
                self.folder = value
            case "wrap":
                self.is_wrapped = truth(name, value)
            case "names":
                self.names = choice(name, value, (KEEP, FLAT))
            case _ if name.startswith("$"):
                self.bind(name, value)
            case _:
                raise unknown_parameter(name)

    def bind(self, name: str, value: str) -> None:
        """Binds a variable to a string."""
        found = VARIABLE.fullmatch(name)
        if not found:
            raise HttpRefusal(400, "xqs:REQUEST", f"{name} is not the name of a variable")
        self.variables[found[1]] = value

    def is_whole(self) -> bool:
        """Whether it asks for a whole document, and not for a query about it."""
        return self.text is None and not self.is_wrapped

    def may_ask_for_folders(self) -> bool:
        """Whether the query may need addresses."""
        return may_ask_for_folders(self.text or "", self.folder)

    def question(self, addresses: Callable[[], list[str]] = list) -> Question | None:
        """The query with flat names, if that is the choice, and with the documents of its folders;
        None if there is no query. `addresses` is called only if folders are asked for.

        Raises PrefixFault for a name that has no flat name; FolderFault.
        """
        if self.text is None:
            if self.folder is not None:
                raise HttpRefusal(400, "xqs:REQUEST", "in= belongs to a query")
            return None
        return question_over(addresses, self.text, self.names, self.folder)

    def query(self, question: Question | None, address: str = "") -> str:
        """The text to send; about the document at an address, if one is given.

        Values are quoted, so none is read as a query. Raises ValueError for characters that XML
        doesn't have.
        """
        text = None if question is None else question.asked.text
        if address:
            document = f"doc({quoted(address)})"
            text = document if text is None else f"{document}/({text}\n)"
        if text is None:
            raise HttpRefusal(400, "xqs:REQUEST", "there is no query")
        return q(text, **self.variables)


def truth(name: str, value: str) -> bool:
    """The meaning of yes and no. Raises HttpRefusal for another word."""
    return choice(name, value.lower(), YES + NO) in YES


def choice(name: str, value: str, choices: Iterable[str]) -> str:
    """The value, if it is one of the choices. Raises HttpRefusal if not."""
    if value not in choices:
        raise HttpRefusal(400, "xqs:REQUEST", f"{name} is one of: {', '.join(choices)}")
    return value


class _Builder(ElementTree.TreeBuilder):
    """Refuses a text with a DOCTYPE, which could declare entities."""

    def doctype(self, name: str, public: str | None, system: str | None) -> None:
        """The parser calls this at a DOCTYPE."""
        raise HttpRefusal(400, "xqs:XML", "a query has no DOCTYPE")


def take_body(asked: Asked, body: bytes, charset: str | None = None) -> None:
    """Reads the query from a body of XML, `<query><text>..</text><variable ../></query>`, in the
    character set of the transport if that is known.

    Raises HttpRefusal if it is invalid.
    """
    if charset:
        body, charset = decoded(body, charset).encode(), "utf-8"
    parser = ElementTree.XMLParser(target=_Builder(), encoding=charset)
    try:
        parser.feed(body)
        root: ElementTree.Element = parser.close()
    except ElementTree.ParseError as error:
        raise HttpRefusal(400, "xqs:XML", str(error)) from error
    if _local(root.tag) != "query":
        raise HttpRefusal(400, "xqs:REQUEST", f"the body is a <query>, not a <{_local(root.tag)}>")
    for child in root:
        _take_child(asked, child)


def _take_child(asked: Asked, child: ElementTree.Element) -> None:
    match _local(child.tag):
        case "text":
            asked.take("query", "".join(child.itertext()))
        case "variable":
            asked.bind(child.get("name", ""), child.get("value", ""))
        case "parameter" if child.get("name") != "query":
            asked.take(child.get("name", ""), child.get("value", ""))
        case other:
            raise HttpRefusal(400, "xqs:REQUEST", f"a query here has no <{other}>")


def _local(tag: str) -> str:
    return tag.removeprefix(f"{{{NAMESPACE}}}")
