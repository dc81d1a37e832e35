"""Writes documents, given by their constructors, as trees for worked rows."""

from collections.abc import Mapping

from tools.language import forms as form
from tools.language.queries import tree
from tools.language.terms import Term, is_plain, quoted, written
from tools.language.tokens import Name

NODES = {"attribute": "att", "processing-instruction": "ins", "text": "tex", "comment": "note"}
# Beside the words of Library, those for nodes whose values have characters beyond ASCII.
HEAD = """\
-- The documents of a set, and what a query is answered over them.
use Prim.Native.String.{String}
use Rattle.std.specs.Prelude.{[], ◌∷◌, codes}
use Rattle.xq_trees.specs.declared.Kind.TheVariants as kind
use Rattle.xq_atoms.specs.Judged.{Judged}
use Rattle.xq_atoms.specs.Text.{Text}
use Rattle.xq_trees.specs.Forest.{end, node}
use Rattle.xq_trees.specs.Tree.{Tree}
use Rattle.xq_meaning.specs.Content.{label}
use Rattle.xq_meaning.specs.Meaning.{Meaning, first_frame}
use Rattle.xq_meaning.proofs.Writing.{utf8}
use Rattle.xq_meaning.proofs.Library.{Nodes, answered, el, att, tex, note, ins, tree}

abbrev pub att8 : String → String → Nodes
att8 s value = node (label kind.Attribute (codes s) (utf8 value)) end end

abbrev pub tex8 : String → Nodes
tex8 value = node (label kind.Text [] (utf8 value)) end end

abbrev pub note8 : String → Nodes
note8 value = node (label kind.Comment [] (utf8 value)) end end

abbrev pub ins8 : String → String → Nodes
ins8 s value = node (label kind.ProcessingInstruction (codes s) (utf8 value)) end end
"""


def parts_of(content: form.Form) -> list[form.Form]:
    """The parts of what stands in braces."""
    return content.parts if isinstance(content, form.Sequence) else [content]


def value_of(content: form.Form) -> str:
    """The value of a node whose content is one string, or nothing."""
    if content == form.Sequence([]):
        return ""
    assert isinstance(content, form.String), content
    return content.text


def local_of(constructor: form.Named) -> str:
    """The local part of the name of a node, which is written out."""
    assert isinstance(constructor.name, Name), constructor
    return constructor.name.local


def node_of(constructor: form.Form) -> Term:
    """The term of a node."""
    assert isinstance(constructor, (form.Named, form.Unnamed)), constructor
    if isinstance(constructor, form.Named) and constructor.kind == "element":
        parts = list(map(node_of, parts_of(constructor.content)))
        return ("el", quoted(local_of(constructor)), parts)
    value = value_of(constructor.content)
    word = NODES[constructor.kind] + ("" if is_plain(value) else "8")
    if isinstance(constructor, form.Named):
        return (word, quoted(local_of(constructor)), quoted(value))
    return (word, quoted(value))


def tree_of(text: str) -> Term:
    """The term of the document that a constructor's text gives."""
    document = tree(text)
    assert isinstance(document, form.Unnamed), document
    return ("tree", list(map(node_of, parts_of(document.content))))


def file_of(documents: Mapping[str, str]) -> str:
    """A file that defines the documents, by the bytes of their addresses, and `answer`."""
    addresses = sorted(documents, key=str.encode)
    names: list[Term] = [f"document{at}" for at in range(len(addresses))]
    parts = [HEAD]
    for name, address in zip(names, addresses, strict=True):
        tree = written(tree_of(documents[address]))
        parts.append(f"abbrev pub {name} : Tree\n{name} = {tree}\n")
    stored = written([("codes", quoted(address)) for address in addresses])
    parts.append("abbrev pub answer : Meaning → Judged Text\n"
                 f"answer m = answered (m (first_frame {stored}) {written(names)})\n")
    return "\n".join(parts)
