"""What a document type does to the text after it: entities, and default values of attributes.

If definitions are not read, the parser silently leaves out an unknown entity in the value of an
attribute. So this module looks for entities in the source of each such value.
"""

import re
from collections.abc import Callable
from typing import NoReturn
from xml.parsers import expat

from xqs.errors import XqError

_TAG = re.compile(rb"""(?:[^"'>]|"[^"]*"|'[^']*')*+>""")
_VALUE = re.compile(rb""""[^"]*"|'[^']*'""")
_REFERENCE = re.compile(rb"&([^#;][^;]*);")
_PREDEFINED = ("lt", "gt", "amp", "quot", "apos")


class EntityFault(XqError, ValueError):
    """A declared entity, if entities may not be expanded."""


class Doctype:
    """Watches a parser: whether it is inside a document type, and which entities that declares.

    `refuse` is called with a reason, and does not return.
    """

    def __init__(
        self,
        parser: expat.XMLParserType,
        entities: bool,
        refuse: Callable[[str | Exception], NoReturn],
    ) -> None:
        """Refuses entities that the text declares, unless `entities` may be expanded."""
        self._parser = parser
        self._refuse = refuse
        self._entities: dict[str, list[str]] = dict.fromkeys(_PREDEFINED, [])
        self.is_inside = self.has_begun = False
        parser.StartDoctypeDeclHandler = self._start
        parser.EndDoctypeDeclHandler = self._end
        parser.SkippedEntityHandler = self._skipped_entity
        parser.ExternalEntityRefHandler = self._external_entity
        parser.AttlistDeclHandler = self._attribute
        parser.EntityDeclHandler = self._noted_entity if entities else self._declared_entity
        parser.SetParamEntityParsing(expat.XML_PARAM_ENTITY_PARSING_ALWAYS)

    def check_tag(self) -> None:
        """Refuses the tag that begins here if an entity in its values is unknown."""
        self._check_source(_TAG)

    def _check_source(self, form: re.Pattern[bytes]) -> None:
        source = self._parser.GetInputContext() or b""
        # For a tag in an entity's own text the source is the reference to the entity.
        found = _REFERENCE.match(source) or form.match(source)
        for name in _REFERENCE.findall(found[0]) if found else ():
            self._check_entity(name.decode(), set())

    def _check_entity(self, name: str, seen: set[str]) -> None:
        """Refuses an entity that is unknown, or whose text has an unknown one."""
        if name not in self._entities:
            self._skipped_entity(name, False)
        seen.add(name)
        for other in self._entities[name]:
            if other not in seen:
                self._check_entity(other, seen)

    def _start(self, *_: object) -> None:
        self.is_inside = self.has_begun = True

    def _end(self) -> None:
        self.is_inside = False

    def _attribute(self, _: str, __: str, ___: str, default: str | None, ____: int) -> None:
        if default is not None:
            self._check_source(_VALUE)

    def _declared_entity(self, name: str, is_parameter: bool, *_: object) -> None:
        if not is_parameter:
            why = f"the entity {name} is declared here; only --entities expands it"
            self._refuse(EntityFault(why))

    def _noted_entity(self, name: str, is_parameter: bool, text: str | None, *_: object) -> None:
        if not is_parameter:
            references = _REFERENCE.findall((text or "").encode())
            self._entities.setdefault(name, [it.decode() for it in references])

    def _skipped_entity(self, name: str, _: bool) -> None:
        self._refuse(f"the entity {name} is declared outside this text, which is not read")

    def _external_entity(
        self, context: str | None, _: str | None, place: str | None, __: str | None
    ) -> int:
        if context is None:
            # An external part of the document type, as one with a public name: it isn't read.
            return 1
        self._refuse(f"the entity is outside this text, at {place}, which is not read")
