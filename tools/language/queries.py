"""Reads the text of a query into a tree, by the grammar of XQuery 3.1 (A.1) in this profile.

The forms are those of crates/xq_expressions. Static checks are not made: a variable that is not
bound, or a call of no function, is read as any other.
"""

from __future__ import annotations

from collections.abc import Callable, Mapping
from typing import TypeVar

from tools.language.forms import (
    And,
    Arrow,
    AttributeStep,
    AxisStep,
    Binding,
    Call,
    Comparison,
    Concat,
    ContextItem,
    Count,
    Decimal,
    Each,
    Flwor,
    For,
    Form,
    Group,
    If,
    Integer,
    Key,
    KindTest,
    Let,
    Map,
    Named,
    NamedKindTest,
    NameTest,
    Or,
    Order,
    ParentStep,
    Path,
    PrimaryStep,
    Product,
    Quantified,
    Range,
    Root,
    Sequence,
    SetOperation,
    ShortStep,
    String,
    Sum,
    Unary,
    Union,
    Unnamed,
    Variable,
    Where,
)
from tools.language.tokens import Name, Refused, Token, tokens

Part = TypeVar("Part")


def symbol(text: str) -> Token:
    """The token of a symbol."""
    return Token("symbol", text)


def word(text: str) -> Token:
    """The token of a word: of a name without a prefix."""
    return Token("name", text)


COMMA = symbol(",")
DOLLAR = symbol("$")
SIGNS = {symbol("+"): "Plus", symbol("-"): "Minus"}
PRODUCTS = {symbol("*"): "Times", word("div"): "Div", word("idiv"): "Idiv", word("mod"): "Mod"}
SETS = {word("intersect"): "Intersect", word("except"): "Except"}
SEPARATORS = {symbol("/"): "Slash", symbol("//"): "DoubleSlash"}
COMPARISONS = {
    word("eq"): ("Value", "Equal"), word("ne"): ("Value", "NotEqual"),
    word("lt"): ("Value", "Less"), word("le"): ("Value", "LessEqual"),
    word("gt"): ("Value", "Greater"), word("ge"): ("Value", "GreaterEqual"),
    symbol("="): ("General", "Equal"), symbol("!="): ("General", "NotEqual"),
    symbol("<"): ("General", "Less"), symbol("<="): ("General", "LessEqual"),
    symbol(">"): ("General", "Greater"), symbol(">="): ("General", "GreaterEqual"),
    word("is"): ("Node", "Is"), symbol("<<"): ("Node", "Precedes"),
    symbol(">>"): ("Node", "Follows")}
AXES = {
    "child": "Child", "descendant": "Descendant", "descendant-or-self": "DescendantOrSelf",
    "self": "SelfNode", "attribute": "Attribute", "parent": "Parent", "ancestor": "Ancestor",
    "ancestor-or-self": "AncestorOrSelf", "following": "Following",
    "following-sibling": "FollowingSibling", "preceding": "Preceding",
    "preceding-sibling": "PrecedingSibling"}
KINDS = {"node": "Node", "text": "Text", "comment": "Comment", "document-node": "Document"}
NAMED_KINDS = {"processing-instruction": "ProcessingInstruction", "element": "Element",
               "attribute": "Attribute"}
UNNAMED_NODES = ("document", "text", "comment")
# Names that no function has.
RESERVED = frozenset((
    "array", "attribute", "comment", "document-node", "element", "empty-sequence", "function",
    "if", "item", "map", "namespace-node", "node", "processing-instruction", "schema-attribute",
    "schema-element", "switch", "text", "typeswitch"))


def tree(text: str) -> Form:
    """The tree of a query's text; Refused where it is none."""
    reader = Reader(tokens(text))
    form = reader.expression()
    reader.expect(Token("end", None))
    return form


class Reader:
    """Reads forms from tokens; each method takes the tokens of what it gives.

    A method that gives a form or a name raises Refused where the next tokens break its grammar.
    """

    def __init__(self, given: list[Token]) -> None:
        self.tokens, self.at = given, 0

    def peek(self, ahead: int = 0) -> Token:
        """The next token, or one after it."""
        return self.tokens[min(self.at + ahead, len(self.tokens) - 1)]

    def stands(self, *wanted: Token) -> bool:
        """Whether these tokens come next."""
        return all(self.peek(ahead) == token for ahead, token in enumerate(wanted))

    def take(self) -> Token:
        """Takes the next token, and gives it."""
        token = self.peek()
        self.at += 1
        return token

    def takes(self, *wanted: Token) -> bool:
        """Takes these tokens if they come next, and says whether they did."""
        is_next = self.stands(*wanted)
        if is_next:
            self.at += len(wanted)
        return is_next

    def expect(self, *wanted: Token) -> None:
        """Takes these tokens, which have to come next."""
        if not self.takes(*wanted):
            raise Refused("XPST0003")

    def parts(self, part: Callable[[], Part], *separators: Token) -> list[Part]:
        """One or more parts, with one of the separators between two."""
        found = [part()]
        while self.peek() in separators:
            self.take()
            found.append(part())
        return found

    def joined(self, form: Callable[[list[Form]], Form], part: Callable[[], Form],
               *separators: Token) -> Form:
        """Parts as the form; one alone is itself."""
        found = self.parts(part, *separators)
        return form(found) if len(found) > 1 else found[0]

    def chain(self, form: Callable[[Form, list[tuple[str, Form]]], Form],
              part: Callable[[], Form], operators: Mapping[Token, str]) -> Form:
        """A first part, and each operator with its right operand."""
        first = part()
        rest: list[tuple[str, Form]] = []
        while self.peek() in operators:
            rest.append((operators[self.take()], part()))
        return form(first, rest) if rest else first

    def name(self) -> Name:
        """A name, with its prefix or none. Raises Refused where none comes next."""
        token = self.take()
        if isinstance(token.value, Name):
            return token.value
        if token.kind == "name":
            return Name(None, token.text)
        raise Refused("XPST0003")

    def variable(self) -> Name:
        """The name of a variable, after its `$`."""
        self.expect(DOLLAR)
        return self.name()

    def expression(self) -> Form:
        """One or more single expressions, with commas between them."""
        return self.joined(Sequence, self.single, COMMA)

    def single(self) -> Form:
        """A FLWOR, quantified or conditional expression, operands of `or`, or one alone."""
        for first in ("for", "let"):
            if self.stands(word(first), DOLLAR):
                return self.flwor()
        for quantifier in ("some", "every"):
            if self.stands(word(quantifier), DOLLAR):
                return self.quantified()
        if self.stands(word("if"), symbol("(")):
            return self.conditional()
        return self.joined(Or, self.conjunction, word("or"))

    # FLWOR, quantified and conditional expressions

    def flwor(self) -> Form:
        """Clauses up to `return`, and the result."""
        clauses: list[Form] = []
        while not self.takes(word("return")):
            clauses.append(self.clause())
        return Flwor(clauses, self.single())

    def clause(self) -> Form:
        """A clause of any kind. The word `stable` before `order by` has no effect."""
        if self.stands(word("for"), DOLLAR):
            self.take()
            return For(self.parts(self.each, COMMA))
        if self.stands(word("let"), DOLLAR):
            self.take()
            return Let(self.parts(self.assigned, COMMA))
        if self.takes(word("where")):
            return Where(self.single())
        if self.takes(word("group"), word("by")):
            return Group(self.parts(self.grouping, COMMA))
        if self.stands(word("count"), DOLLAR):
            self.take()
            return Count(self.variable())
        if self.stands(word("stable"), word("order")):
            self.take()
        self.expect(word("order"), word("by"))
        return Order(self.parts(self.key, COMMA))

    def each(self) -> Each:
        """A variable of `for`, with that of its position."""
        name = self.variable()
        allows_empty = self.takes(word("allowing"), word("empty"))
        position = self.variable() if self.takes(word("at")) else None
        self.expect(word("in"))
        return Each(name, allows_empty, position, self.single())

    def assigned(self) -> Binding:
        """A variable of `let`."""
        name = self.variable()
        self.expect(symbol(":="))
        return Binding(name, self.single())

    def grouping(self) -> Binding:
        """A variable of `group by`, with the value that it is bound to, or none."""
        name = self.variable()
        return Binding(name, self.single() if self.takes(symbol(":=")) else None)

    def key(self) -> Key:
        """A key of an order, with its modifiers."""
        part = self.single()
        descends = self.takes(word("descending"))
        if not descends:
            self.takes(word("ascending"))
        is_empty_greatest = self.takes(word("empty"), word("greatest"))
        if not is_empty_greatest:
            self.takes(word("empty"), word("least"))
        return Key(part, descends, is_empty_greatest)

    def ranged(self) -> Binding:
        """A variable of a quantified expression."""
        name = self.variable()
        self.expect(word("in"))
        return Binding(name, self.single())

    def quantified(self) -> Form:
        """A quantifier, its variables and its condition."""
        quantifier = self.take().text
        bindings = self.parts(self.ranged, COMMA)
        self.expect(word("satisfies"))
        return Quantified(quantifier, bindings, self.single())

    def conditional(self) -> Form:
        """An `if` with its condition and both of its branches."""
        self.expect(word("if"), symbol("("))
        condition = self.expression()
        self.expect(symbol(")"), word("then"))
        yes = self.single()
        self.expect(word("else"))
        return If(condition, yes, self.single())

    # Operators, from loose to tight

    def conjunction(self) -> Form:
        """Operands of `and`, or one alone."""
        return self.joined(And, self.comparison, word("and"))

    def comparison(self) -> Form:
        """Two operands of a comparison with its kind and relation, or one alone."""
        left = self.concatenation()
        if self.peek() not in COMPARISONS:
            return left
        kind, relation = COMPARISONS[self.take()]
        return Comparison(left, kind, relation, self.concatenation())

    def concatenation(self) -> Form:
        """Operands of `||`, or one alone."""
        return self.joined(Concat, self.range, symbol("||"))

    def range(self) -> Form:
        """The two ends of a range, or one operand alone."""
        first = self.sum()
        return Range(first, self.sum()) if self.takes(word("to")) else first

    def sum(self) -> Form:
        """Operands of `+` and `-`, or one alone."""
        return self.chain(Sum, self.product, SIGNS)

    def product(self) -> Form:
        """Operands of `*`, `div`, `idiv` and `mod`, or one alone."""
        return self.chain(Product, self.union, PRODUCTS)

    def union(self) -> Form:
        """Operands of `|` and `union`, or one alone."""
        return self.joined(Union, self.set_operation, symbol("|"), word("union"))

    def set_operation(self) -> Form:
        """Operands of `intersect` and `except`, or one alone."""
        return self.chain(SetOperation, self.arrow, SETS)

    def arrow(self) -> Form:
        """An operand with the calls after each `=>`, or the operand alone."""
        first = self.unary()
        calls: list[tuple[Name, list[Form]]] = []
        while self.takes(symbol("=>")):
            calls.append(self.called())
        return Arrow(first, calls) if calls else first

    def unary(self) -> Form:
        """Signs before paths that `!` joins, or the paths without a sign."""
        signs: list[str] = []
        while self.peek() in SIGNS:
            signs.append(SIGNS[self.take()])
        part = self.joined(Map, self.path, symbol("!"))
        return Unary(signs, part) if signs else part

    # Paths

    def path(self) -> Form:
        """A path from the root, from below it, or relative; `/` alone is the root."""
        if self.takes(symbol("//")):
            return self.path_from("RootAndBelow")
        if self.takes(symbol("/")):
            return self.path_from("Root") if self.begins_step() else Root()
        return self.path_from("Relative")

    def begins_step(self) -> bool:
        """Whether the next token can begin a step."""
        kind, value = self.peek()
        if kind == "symbol":
            return value in ("$", "(", ".", "..", "@", "*")
        return kind != "end"

    def path_from(self, start: str) -> Form:
        """Steps; a primary expression alone is itself."""
        first = self.step()
        rest: list[tuple[str, Form]] = []
        while self.peek() in SEPARATORS:
            rest.append((SEPARATORS[self.take()], self.step()))
        is_alone = start == "Relative" and not rest
        if is_alone and isinstance(first, PrimaryStep) and not first.predicates:
            return first.part
        return Path(start, first, rest)

    def predicates(self) -> list[Form]:
        """None, one or more."""
        found = []
        while self.takes(symbol("[")):
            found.append(self.expression())
            self.expect(symbol("]"))
        return found

    def step(self) -> Form:
        """A step with its predicates: along an axis, or a primary expression."""
        if self.takes(symbol("..")):
            return ParentStep(self.predicates())
        if self.takes(symbol("@")):
            return AttributeStep(self.test(), self.predicates())
        kind, value = self.peek().kind, self.peek().text
        if kind == "name" and value in AXES and self.peek(1) == symbol("::"):
            self.expect(word(value), symbol("::"))
            return AxisStep(AXES[value], self.test(), self.predicates())
        part = self.primary()
        if part is None:
            return ShortStep(self.test(), self.predicates())
        return PrimaryStep(part, self.predicates())

    def test(self) -> Form:
        """A node test: `*`, a kind, or a name."""
        if self.takes(symbol("*")):
            return KindTest("AnyName")
        kind, value = self.peek().kind, self.peek().text
        if kind == "name" and self.peek(1) == symbol("("):
            if value in KINDS:
                self.expect(word(value), symbol("("), symbol(")"))
                return KindTest(KINDS[value])
            if value in NAMED_KINDS:
                self.expect(word(value), symbol("("))
                return NamedKindTest(NAMED_KINDS[value], self.name_of_kind(value))
        return NameTest(self.name())

    def name_of_kind(self, kind: str) -> Name | None:
        """The name in a kind test, or none, and the parenthesis after it."""
        if self.takes(symbol(")")):
            return None
        is_any = kind != "processing-instruction" and self.takes(symbol("*"))
        name = None if is_any else self.name()
        self.expect(symbol(")"))
        return name

    # Primary expressions; none where a step along an axis begins

    def primary(self) -> Form | None:
        """A primary expression, or none where a step along an axis begins."""
        kind, value = self.peek()
        match kind:
            case "integer" | "decimal" if isinstance(value, int):
                self.take()
                return Integer(value) if kind == "integer" else Decimal(value)
            case "string" if isinstance(value, str):
                self.take()
                return String(value)
            case "symbol":
                return self.primary_of_symbol()
            case "name" | "prefixed":
                return self.constructor() or self.call()
        return None

    def primary_of_symbol(self) -> Form | None:
        """A variable, the context item or what stands in parentheses, or none."""
        if self.stands(DOLLAR):
            return Variable(self.variable())
        if self.takes(symbol(".")):
            return ContextItem()
        return self.enclosed("(", ")") if self.stands(symbol("(")) else None

    def enclosed(self, left: str, right: str) -> Form:
        """An expression, or nothing, between two symbols."""
        self.expect(symbol(left))
        if self.takes(symbol(right)):
            return Sequence([])
        part = self.expression()
        self.expect(symbol(right))
        return part

    def constructor(self) -> Form | None:
        """A node constructor, or none where no such begins."""
        value, brace = self.peek().text, symbol("{")
        if value in UNNAMED_NODES and self.peek(1) == brace:
            self.take()
            return Unnamed(value, self.enclosed("{", "}"))
        is_named = self.peek(1).kind in ("name", "prefixed") and self.peek(2) == brace
        if value not in NAMED_KINDS or not (is_named or self.peek(1) == brace):
            return None
        self.take()
        name = self.name() if is_named else self.computed_name()
        return Named(value, name, self.enclosed("{", "}"))

    def computed_name(self) -> Form:
        """The expression in braces that computes the name of a node."""
        self.expect(symbol("{"))
        name = self.expression()
        self.expect(symbol("}"))
        return name

    def call(self) -> Form | None:
        """A function call, or none where no such begins."""
        kind, value = self.peek()
        is_reserved = kind == "name" and value in RESERVED
        if is_reserved or self.peek(1) != symbol("("):
            return None
        return Call(*self.called())

    def called(self) -> tuple[Name, list[Form]]:
        """The name of a function and its arguments."""
        if self.peek().kind == "name" and self.peek().value in RESERVED:
            raise Refused("XPST0003")
        name = self.name()
        self.expect(symbol("("))
        if self.takes(symbol(")")):
            return name, []
        arguments = self.parts(self.single, COMMA)
        self.expect(symbol(")"))
        return name, arguments
