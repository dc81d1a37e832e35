"""Random documents, in and out: as XML, as constructors, in parts."""

import random
from xml.sax.saxutils import escape, quoteattr

from tests.support import ServerTest, store_part
from tests.test_xml import FLAT, canonical, document_text
from xqs import Node, NodeKind, literal, q, values
from xqs.incoming import constructor_parts
from xqs.parts import DocumentText
from xqs.stores import store_constructors, store_xml
from xqs.temporary import Temporary
from xqs.values import events

CHARACTERS = "ab \t\n\r\"'&<>{}[]()|$,;:-?!é\x85\u2028日\ufffd\U0001f600\U0010ffff"
NAMES = ("a", "b-c", "d.e", "_f", "é", "text", "element", "p:a", "p:_b", "q:a")


class Documents:
    """Random documents from one seed."""

    def __init__(self, seed: int) -> None:
        self._random = random.Random(seed)

    def text(self) -> str:
        """A text of hostile characters."""
        return "".join(self._random.choices(CHARACTERS, k=self._random.randrange(12)))

    def comment(self) -> str:
        """A text that a comment or an instruction may hold."""
        text = self.text().replace("-", "").replace("?", "").replace("\r", "")
        return text.strip()

    def node(self, depth: int) -> Node:
        """A node, with elements down to this depth."""
        kind = self._random.choice((NodeKind.ELEMENT, NodeKind.ELEMENT, NodeKind.TEXT,
                                    NodeKind.COMMENT, NodeKind.INSTRUCTION))
        if kind is NodeKind.TEXT:
            return Node(kind, value=self.text())
        if kind is NodeKind.COMMENT:
            return Node(kind, value=self.comment())
        if kind is NodeKind.INSTRUCTION:
            return Node(kind, self._random.choice(NAMES[:5]), self.comment())
        return self.element(depth)

    def element(self, depth: int) -> Node:
        """An element with attributes and children."""
        names = self._random.sample(NAMES, self._random.randrange(4))
        children = [self.node(depth - 1) for _ in range(self._random.randrange(6) if depth else 0)]
        return Node(NodeKind.ELEMENT, self._random.choice(NAMES),
                    attributes={it: self.text() for it in names}, children=children)


def written(node: Node) -> str:
    """A node as XML, made by other means than the package's."""
    match node.kind:
        case NodeKind.TEXT:
            return escape(node.value, {"\r": "&#13;"})
        case NodeKind.COMMENT:
            return f"<!--{node.value}-->"
        case NodeKind.INSTRUCTION:
            return f"<?{node.name} {node.value}?>"
    escapes = {"\r": "&#13;", "\n": "&#10;", "\t": "&#9;"}
    pairs = "".join(f" {name}={quoteattr(it, escapes)}" for name, it in node.attributes.items())
    return f"<{node.name}{pairs}>{''.join(map(written, node.children))}</{node.name}>"


def whole(node: Node) -> str:
    """An element as a text of XML that declares its prefixes."""
    return f'<root xmlns:p="u:p" xmlns:q="u:q">{written(node)}</root>'


class Random(ServerTest):
    def test_xml_comes_out_with_its_canonical_form(self) -> None:
        for seed in range(150):
            text = whole(Documents(seed).element(4))
            store_xml(self.server, "x", [text.encode()], "x", FLAT)
            [document] = self.server.query('doc("x")')
            assert isinstance(document, Node)
            with self.subTest(seed=seed):
                self.assertEqual(canonical(document_text(document, "flat")), canonical(text))

    def test_documents_in_small_parts_are_the_same(self) -> None:
        for seed in range(60):
            text = whole(Documents(seed).element(4))
            store_xml(self.server, "x", [text.encode()], "x", FLAT)
            printed = self.server.query_text('doc("x")')
            temporary = Temporary()
            document = DocumentText(temporary, 150)
            parts = list(constructor_parts(document, events(printed)))
            for part in parts:
                store_part(self.server, part.address, part.text)
            self.server.store("y", document.whole())
            with self.subTest(seed=seed, parts=len(parts)):
                self.assertEqual(self.server.query_text('doc("y")'), printed)
            for part in parts:
                self.server.drop(part.address)

    def test_nodes_go_into_queries_and_come_back(self) -> None:
        for seed in range(100):
            node = Documents(seed).element(3)
            sent = q("$n", n=plain(node))
            with self.subTest(seed=seed):
                answer = self.server.query_text(sent)
                self.assertEqual(literal(values(answer)), f"({answer})")
                self.assertEqual(self.server.query_text(answer), answer)

    def test_printed_documents_are_stored_as_they_are(self) -> None:
        for seed in range(40):
            self.server.store("x", f"document {{{plain(Documents(seed).element(4))}}}")
            printed = self.server.query_text('doc("x")')
            store_constructors(self.server, "y", printed)
            self.assertEqual(self.server.query_text('doc("y")'), printed)


def plain(node: Node) -> Node:
    """The node without colons in its names."""
    return Node(node.kind, node.name.replace(":", "."), node.value,
                {name.replace(":", "."): it for name, it in node.attributes.items()},
                [plain(it) for it in node.children])
