"""What the client knows of the language: `tools/run client_tables --write` makes it
from the server's own tables, and a test compares them. Change nothing here by hand.
"""

FUNCTIONS: dict[str, tuple[int, int | None]] = {
    "doc": (1, 1),
    "doc-available": (1, 1),
    "collection": (0, 0),
    "root": (0, 1),
    "name": (0, 1),
    "local-name": (0, 1),
    "string": (0, 1),
    "data": (0, 1),
    "string-length": (0, 1),
    "normalize-space": (0, 1),
    "concat": (2, None),
    "string-join": (1, 2),
    "contains": (2, 2),
    "starts-with": (2, 2),
    "ends-with": (2, 2),
    "substring": (2, 3),
    "substring-before": (2, 2),
    "substring-after": (2, 2),
    "count": (1, 1),
    "empty": (1, 1),
    "exists": (1, 1),
    "head": (1, 1),
    "tail": (1, 1),
    "reverse": (1, 1),
    "distinct-values": (1, 1),
    "zero-or-one": (1, 1),
    "one-or-more": (1, 1),
    "exactly-one": (1, 1),
    "not": (1, 1),
    "boolean": (1, 1),
    "true": (0, 0),
    "false": (0, 0),
    "position": (0, 0),
    "last": (0, 0),
    "sum": (1, 1),
    "min": (1, 1),
    "max": (1, 1),
    "abs": (1, 1),
    "floor": (1, 1),
    "ceiling": (1, 1),
    "round": (1, 1),
}
"""The functions: the least and the greatest number of arguments of each; None: any."""
TYPES = ("integer", "decimal", "string", "boolean", "untypedAtomic")
"""The functions that are called after `xs:`."""
NO_CALLS = frozenset((
    "array",
    "attribute",
    "comment",
    "document-node",
    "element",
    "empty-sequence",
    "function",
    "if",
    "item",
    "map",
    "namespace-node",
    "node",
    "processing-instruction",
    "schema-attribute",
    "schema-element",
    "switch",
    "text",
    "typeswitch",
))
"""The names that no call has without a prefix."""
GRAMMAR = r"""
Expr ::= ExprSingle ("," ExprSingle)*
Name ::= NAME | PREFIXED
CallName ::= CALLED | PREFIXED
Variable ::= "$" Name
Body ::= "{" Expr? "}"
Computed ::= "{" Expr "}"
NameOfNode ::= Name | Computed
NameOfInstruction ::= NAME | Computed
Constructor ::= (("element" | "attribute") NameOfNode Body) | "processing-instruction"
        NameOfInstruction Body | (("document" | "text" | "comment") Body)
Arguments ::= "(" (ExprSingle ("," ExprSingle)*)? ")"
Called ::= CallName Arguments
Call ::= Called
Parenthesised ::= "(" Expr? ")"
Primary ::= INTEGER | DECIMAL | STRING | Variable | Parenthesised | "." | Call | Constructor
NameOrAny ::= (Name | "*")?
KindTest ::= (("node" | "text" | "comment" | "document-node") "(" ")") |
        "processing-instruction" "(" NAME? ")" | "element" "(" NameOrAny ")" | "attribute"
        "(" NameOrAny ")"
Test ::= Name | "*" | KindTest
AxisStep ::= (("child" | "descendant" | "descendant-or-self" | "self" | "attribute" |
        "parent" | "ancestor" | "ancestor-or-self" | "following" | "following-sibling" |
        "preceding" | "preceding-sibling") "::" Test) | "@" Test | ".." | Test
Predicate ::= "[" Expr "]"
Step ::= AxisStep Predicate* | Primary Predicate*
Relative ::= Step (("/" | "//") Step)*
Path ::= SLASH | "/" Relative | "//" Relative | Relative
Map ::= Path ("!" Path)*
Unary ::= ("+" | "-")* Map
Arrow ::= Unary ("=>" Called)*
Intersection ::= Arrow (("intersect" | "except") Arrow)*
Union ::= Intersection ("union" Intersection | "|" Intersection)*
Product ::= Union (("*" | "div" | "idiv" | "mod") Union)*
Sum ::= Product (("+" | "-") Product)*
Range ::= Sum ("to" Sum)?
Concat ::= Range ("||" Range)*
Comparison ::= Concat (("eq" | "ne" | "lt" | "le" | "gt" | "ge" | "=" | "!=" | "<" | "<=" |
        ">" | ">=" | "is" | "<<" | ">>") Concat)?
And ::= Comparison ("and" Comparison)*
Or ::= And ("or" And)*
Tested ::= "(" Expr ")"
If ::= "if" Tested "then" ExprSingle "else" ExprSingle
QuantifiedBinding ::= Variable "in" ExprSingle
Quantified ::= ("some" | "every") QuantifiedBinding ("," QuantifiedBinding)* "satisfies"
        ExprSingle
EmptyWords ::= ("empty" ("greatest" | "least"))?
DirectionWord ::= ("ascending" | "descending")?
OrderSpec ::= ExprSingle DirectionWord EmptyWords
OrderBy ::= "order" "by" OrderSpec ("," OrderSpec)*
Order ::= "stable" OrderBy | OrderBy
GroupSpec ::= Variable (":=" ExprSingle)?
Group ::= "group" "by" GroupSpec ("," GroupSpec)*
Filter ::= "where" ExprSingle
LetBinding ::= Variable ":=" ExprSingle
Let ::= "let" LetBinding ("," LetBinding)*
AllowingWords ::= ("allowing" "empty")?
ForBinding ::= Variable AllowingWords ("at" Variable)? "in" ExprSingle
For ::= "for" ForBinding ("," ForBinding)*
Count ::= "count" Variable
Clause ::= For | Let | Filter | Group | Count | Order
Flwor ::= (For | Let) Clause* "return" ExprSingle
ExprSingle ::= Flwor | Quantified | If | Or
"""
"""The grammar, one production a line, which may go on with an indent; docs/LANGUAGE.md says what
its tokens are."""
