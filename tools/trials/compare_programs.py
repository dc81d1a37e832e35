"""Asks two programs of the server the same random requests, and compares their replies.

    tools/run compare_programs OLD NEW [--seed N] [--documents N] [--requests N]

Documents have up to 1,500 nodes and few names, so that steps by a name find much. The requests are
paths with predicates, from documents, from nodes and in loops, orders, groups, copies, constructors
within one another, and now and then a store that changes the document. The status is 1 where a
reply differs, which is printed.
"""

import argparse
import random
import sys
from collections.abc import Iterator

from tools.common import harness

NAMES = ("a", "b", "c", "book", "t")
SIZES = (20, 150, 400, 1500)
AXES = ("//", "//", "/", "/descendant::", "/descendant-or-self::", "/ancestor::", "/following::",
        "/preceding::", "/child::")
PREDICATES = ("", "", "[1]", "[2]", "[last()]", "[position() <= 2]", "[position() > 3]",
              "[position() = last()]", "[position() != 2]", "[position() >= 2]", '[@id = "1"]',
              "[last()][{0}]", "[last()][2]", "[{0}]", '[{0} = "x"]', "[.//{0}]",
              "[count(.//{0}) > 1]", "[position() eq 2]", "[3 > position()]", "[2 le position()]",
              "[position() = 2 and {0}]", "[{0} and position() != 1]", '[@id = "1" and {0}]',
              "[position() >= 2 and position() <= 4]", '[@id = "2"][{0} = "x"]', '["3" != @id]',
              '[. = "x"]', '[@id < "3" and 2 < position()]', "[@id = 1]", '[@id = "1"][2]',
              '[@id eq "1"]', '["2" eq @id]', "[@id eq 1]", '[{0}][@id = "1"]', "[last() - 1]",
              '[{0} eq "x"]', "[position() < last()]", "[position() = last() - 1]",
              '[{0} and @id = "2" and . != "x"]', "[last() idiv 2]", "[position() > last() - 3]",
              "[position() = 2 to 4]", "[2 to last() = position()]", "[position() = 3 to 2]")
QUERIES = (
    "{path}", "{path}", "{path}", "count({path})", "({path})[{number}]//{name}",
    "for $x in {path} return count($x//{name})",
    'for $x in doc("d")//{other} order by string($x/{name}[1]) return string($x)',
    '(for $x in doc("d")//{other} order by count($x//{name}), $x/@id descending'
    " return string($x))[position() <= {number}]",
    "let $k := document {{element q {{{path}}}}} return ($k//{name}, count($k//{name}))",
    'for $x in doc("d")//{other} group by $g := count($x//{name}) return ($g, count($x))',
    "some $x in {path} satisfies $x//{name}",
    'doc("d")//{name}[@id = "{number}"]',
    'doc("d")//{name}[{other}][@id eq "{number}"]',
    "for $x at $i in {path} where $i <= {number} return (string($x), $i)",
    "for $x at $i in {path} where {number} gt $i and $x/@id return string($x)",
    'for $x in {path} where $x/@id != "x" and xs:integer($x/@id) > {number} return string($x)',
    "let $l := {path} return for $i in 0 to 4 return string($l[$i])",
    "let $l := {path}, $n := {number} return count($l[position() >= $n])",
    'let $l := doc("d")//{name} return count($l[{other}][@id eq "{number}"])',
    'for $k in ({path})[position() <= 9] return count(doc("d")//{name}[@id = $k/@id])',
    'let $k := {path} return count(doc("d")//{other}[$k/{name} = {name}])',
    'string-join({path}/string(), "|")',
    "distinct-values({path}/{name}/data())",
    'distinct-values(({path}/string(), doc("d")//@id/data(), "1", "x"))',
    'distinct-values(({path}/string(), {number}, doc("d")//@id/data(), true(), "1"))',
    'string-join((doc("d")//@id, {number}, {path}/string(), true(), "x"), "-")',
    'for $x in {path} return element q {{string($x)}}',
    'element q {{string-join({path}/@id)}}',
    "({path}/string(.), {path} ! string-length(.))",
    'count(doc("d")/r/{name}/{other}/{name})',
    'doc("d")/r/{name}/{other}/@id/..',
    'count(doc("d")//{name}//{other}/{name})',
    "let $k := {path} return some $x in {path} satisfies $x/@id = $k/@id",
    'let $k := {path} return every $x in doc("d")//{name} satisfies $x/{other} = $k/{other}',
    'some $y in {path}, $x in doc("d")//{other} satisfies $y/@id = $x/@id',
    "for $x in {path}, $y in {path} let $z := $y/{name} where $y/@id = $x/@id return count($z)",
    "for $x in {path}, $y in {path} where $y/{name} where $x/@id = $y/@id return string($y)",
    'for $x in {path}, $y in {path} let $z := $x/@k + 1 where $y/@id = $x/@id return $z',
    "for $x in {path}, $y in {path} let $r := $y/@id where $r = $x/@id return string($y)",
    "for $x in {path}, $y in {path} let $r := $y/{name} let $q := $x where $q/@id = $r/@id"
    " return count($r)",
    "for $x in {path}, $y in {path} return if ($y/@id = $x/@id) then $y else ()",
    "for $x in {path} return if ($x/{name} = $x/{other}) then string($x/@id) else ()",
    "for $x in {path}, $y in {path} where some $r in $y/@id satisfies $r = $x/@id return $y/@id",
    'for $x in {path} where some $r in $x/{name} satisfies $r < "x" return count($x/{other})',
    "for $x in {path} return for $y in {path} where $y/@id = $x/@id return string($y)",
    "for $x in {path} return for $y in $x/{name}, $z at $n in {path} where $z/@id = $y return $n",
    "for $x in {path} order by string($x) return for $y in {path} let $r := $y/@id"
    " where $r = $x/@id return if ($y/{name}) then concat($r, $x/@id) else ()",
    "for $x in {path} return for $y in {path}[{number}] return for $z in $y/{name} return $x/@id",
    "for $x in {path} let $y := {path} where $x/@id = $y/@id and $x/{name} return count($y)",
    'for $x in {path} let $k := $x/@id return count({path}/{other}[@id = $k])',
    "for $x in {path} let $m := for $y in {path} where $y/{name} = $x/{other} return $y"
    " return string-join($m/@id, '-')",
    "for $x in {path} return count(for $y in {path} where $y/{name} = $x/{name} return $y)",
    "for $x in {path} return count(({path})[{name} = $x/{other}])",
    'let $t := doc("d")//{other} return for $x in {path} return exists($t[$x/@id = {name}/text()])',
    'for $x in {path} let $m := doc("d")/r/*/{other}[{name} eq $x/@id] where $x/{name}'
    " return ($m/@id, count($m))",
    "for $x in {path} return for $y in reverse({path}) where $x/{name} = $y/{other} return $y",
    'for $v in distinct-values(doc("d")//@id) return doc("d")/r/{other}/{name}[. = $v]',
    "for $x in ({number}, {path}) return empty(({path})[./{name} = $x])",
    'for $v in distinct-values({path}/{name}) return count(doc("d")//{other}[{name} = $v])',
    'for $k in 1 to {number} return count(doc("d")//{name}[@id = string($k)])',
    'for $k in ({number}, {path}) return count(doc("d")/r/{other}[string($k) = {name}])',
    'for $x in {path} let $s := string($x/@id) return count(doc("d")//{other}[{name} = $s])',
    "for $x in ({path})[{number}] return count({path}/{name}[. = $x/{other}])",
    'for $x in {path} return count(doc("d")//{name}[{other} = $x/{other}])',
    'for $x allowing empty in {path} return exists(doc("d")//{other}[{name} = string($x)])',
    'let $x := {path} return for $y in {path} return count(doc("d")//{other}[@id = string($x)])',
    "for $x in {path}, $v in (1 to {number}) ! string(.) where $x/@id = $v return $v",
    'some $v in data({path}) satisfies count(doc("d")//{other}[{name} = $v]) = {number}',
    'for $x in {path} return doc("d")/r/*[{name} and @id = string($x/@id)]/{other}',
    "for $x in {path}, $y in {path} let $s := string-join($y/{name}) where $x/{name} = $s"
    " return $s",
    "for $x in {path}, $y in {path}[{name} = $x/{other}] return concat($x/@id, $y/@id)",
    'for $x in {path}, $y in doc("d")//{name}[{other} = $x/{other}] return string($y)',
    'for $x in {path}, $y in doc("d")/r/{name}[@id = $x/@id] where $y/{other} return $y/@id',
    "for $x in {path} for $y allowing empty in {path}[{name} = $x/{name}] return count($y)",
    "for $x in {path}, $y at $n in {path}[@id = $x/@id][{number}] return $n",
    "for $x in {path}, $y in ({path}, {number})[{name} = $x/{name}] return string($y)",
    "for $x in {path}, $y in {path}/{name}[. eq $x/@id] return string($y)",
    'let $k := ({path}/@id/string(), "1", "2", "3", "x") return count(doc("d")//{name}[@id = $k])',
    'let $k := ({path}/string(), "x", {number}) return count({path}[{name} = $k])',
    'for $k in 1 to {number} return count(doc("d")//{name}[@id eq string($k) and {other}])',
    'for $k in (0 to {number}, "x") return doc("d")//{name}[@id eq string($k)]/{other}/string(@id)',
    "for $k in {path}/@id return count(({path}, {path})//{name}[string($k) eq @id])",
    'let $l := {path} for $k in 1 to {number} return $l[@id eq string($k)][{name}]/string(@id)',
    'count({path}[{name} = string-join({path}/{other}, ",")])',
    'count(({path})[@id = {path}[{number}]/@id][{name}])',
    '{path}[@id = string(xs:integer({path}[1]/@id) + {number})]/string(@id)',
    '{path}/{name}[string({number} - 1) = @id][{other}]/string(@id)',
    'count(doc("d")//{name}[{other} = doc("nowhere")//{name}])',
    'count(doc("d")//{name}[doc("nowhere")/{other} = @id])',
    'count(({path})[{name} = xs:integer({path}[1])])',
    'let $l := {path} return $l[. = $l/{name}][{other} = ("x", $l/string(@id))]/string(@id)',
    'let $d := doc("d") return count($d//{name}[{other} = $d//{name}[@id = "1"]/{other}])',
    'for $a in {path} return count({path}[{name} = concat($a/{name}, "")])',
    'count({path}/ancestor::*[@id = {path}/string(@id)][{number}])',
    'count({path}/preceding::{name}[@id = {path}/string(@id)][1])',
    'count({path}[@id eq string(count({path}))])',
    'for $x in {path} where $x/{name} = doc("d")//{other}/{name} return string($x)',
    "for $x in {path} where xs:integer($x/@id) <= count({path}) return string($x/@id)",
    "for $x in {path} where count({path}) >= xs:integer($x/@id) return $x/{name}",
    "for $x in {path} where string($x/{name}) = string({number} - 1) return count($x)",
    'for $x in {path} where $x/{name}[1]/@id eq string(count({path})) return $x/@id/string()',
    'for $x in doc("d")//{name} where $x/@id eq "{number}" return string($x/{other}[1])',
    'for $x in {path} where "{number}" eq $x/{name} return string($x)',
    'for $x in {path} where string($x/{name}) = "x" for $y in $x/* return string($y)',
    "for $x in ({path}, {number}) where string($x) = string(count({path})) return $x",
    "count({path}[xs:integer(@id) < count({path}) - {number}])",
    'count(({path})[string({name}) = string(count(doc("d")//{other}))])',
    "count(({path})[{name} + {number} = max({path}/xs:integer(@id))])",
    "count({path}/preceding::{name}[xs:integer(@id) = count({path})])",
    "count({path}/ancestor::*[count({name}) = count({path})])",
    "count({path}/{other}[xs:integer(.) = {path}/{name}/xs:integer(.)])",
    'count({path}[last() - {number} < count(doc("d")//{name})])',
    'count(({path})[position() * 1 = count({path}/{name})])',
    'count(doc("d")//{name}[string(@id) = "{number}"])',
    'doc("d")/r/*["{number}" = string(@id)]/{name}/string()',
    'count({path}[string({other}) = "x"])', 'count({path}[string({name}) = ""])',
    'count({path}["" = string(@id)])', "count(({path})[data(@id) = {number}])",
    'count({path}[data({other}) = "x"])', 'count({path}[./{other} = "x"])',
    "count(({path})[./@id = ./{name}])", '{path}[./{name}/{other} != "x"][{number}]/string(.)',
    'count({path}[string(.) = "x" and string(@id) = "{number}"])',
    "count({path}[data(.) = data({name})])", 'count({path}[./{name} eq "x"])',
    'count(doc("d")//{name}[data(@id) eq "{number}"])',
    "for $x in {path}, $y in {path} let $z := $y/{name} where $y/{other} = $x/{name} return $y/@id",
    "for $x in {path} let $y := $x/{name} let $z := $y return $x/@id",
    "count(for $x in {path}, $y in {path} let $r := $y/@id let $q := $x/@id where $q = $r"
    " return $x)",
    "for $x in {path} return if (xs:integer($x/@id) = count({path})) then $x else ()",
    "for $x in {path}, $y in $x/{name} return if (string($y) = $x/{other}) then $y else ()",
    "for $x in {path}, $y in $x/{name}, $z in $y/{other} where $y/@id = $x/@id return string($z)",
    "for $x in {path}, $y in {path}, $z in $y/* where $y/{name} = $x/{name} where $z/@id = $x/@id"
    " return $z/@id",
    "for $x in {path}, $y at $n in $x/{name} where $x/@id = '{number}' return $n",
    'let $l := ({path}, {number}) return for $i in (3, 1, {number}) return string($l[$i][{name}])',
    "let $l := {path} return $l[{name}][position() = 1 to {number}][last()]/string(@id)",
    'doc("d")/*/*[@id eq "{number}"]/{name}[@id eq "1"]/string(@id)',
    '({path}, {path})/{name}["{number}" eq @id]/{other}/string(.)',
    'let $t := ({path}, {path}) return for $x in doc("d")//{name} return count($t[node() = $x])',
    'let $t := {path} return for $x in {path} return count($t[.. = $x])',
    'let $t := {path} return for $x in {path} return count($t[ancestor::{name}/@id = $x/@id])',
    '({path})[position() ge 2 and position() lt {number}]/{name}[. = "x" and @id]',
    "for $x in {path} return (count($x/{name}) * 2 + 1) div {number} || concat($x/@id, 1, 'z')",
    "element {{concat('q', {number})}} {{attribute {{'a'}} {{{number}, 'x'}}, {path}/string()}}",
    "for $x in 1 to {number}, $y in 2 return ($x * $y - 3 idiv $x + 1.5, {path}[$y])",
    "for $x in 1 to {number} return {path}[$x - 1]",
    "for $x in (0, {number}, 1.5) return concat('a', -7 + $x, {number} mod 2, 3 * $x)",
    "let $z := 0, $x := ({number}, 2) return ({number} idiv $z, 1 + $x)",
    "for $x in ({number}, 2.5, -7), $y in (3, 0.5) return ($x - $y) * ($x + 2) - $x mod $y idiv 2",
    "for $x in (9223372036854775807, 4611686018427387904, 0 - {number}) return $x * 2 - $x",
    "for $x in ({number}, 0 - 9223372036854775807) return ($x - 1) idiv -1 - ($x - 1) mod -1",
    'for $n in (1, 2.0, 0.5, {number}) return doc("d")//{name}/{other}[$n]',
    "element {name} {{{number} + 1}}, element {other} {{concat('', {number})}}, element e {{''}}",
    'doc("d")//{other}/{name}[2]/string()',
)
ATOMS = ('"x"', '""', '" "', "{0}", "{0}.5", "$k", "$k * 2 - 3", "concat('t', $k, {0})", "true()",
         "('a', 'b', 'c', 'd')[{0}]", "('a', 2, 1.5)[$k mod 4]", "(1, 2)", "()")
NODE_NAMES = ("a", "b", "id", "id", "k", '{" a "}', '{"xmlns"}', '{concat("n", $k)}')
CONSTRUCTED = (
    "let $k := {0} return ({1})",
    "let $k := {0} return count(({1})//node())",
    "for $k in 1 to {0} return element q {{{1}}}",
    "for $k in 1 to {0} return string(element q {{{1}}})",
    "for $k in ({0}, 2) let $x := element q {{{1}}} return ($x/@*, $x/node(), $x//*/..)",
    "let $k := {0}, $x := ({1}) return (element a {{$x}}, document {{$x, $x}}/node())",
    "let $k := {0} return document {{{1}}}",
)
"""Queries of a number and constructors."""
GROWN = 'document {{element r {{doc("d")/r/*[position() <= 30], element {name} {{"new"}}}}}}'
MOST_SHOWN = 5


class Requests:
    """Random documents and requests, by a seed."""

    def __init__(self, seed: int) -> None:
        self.random = random.Random(seed)
        self.room = 0

    def name(self) -> str:
        """A name, or one that no element has."""
        return self.random.choice((*NAMES, "nosuch"))

    def leaf(self) -> str:
        """A text, or a comment."""
        value = self.random.choice(("x", "y", "zz", "1", "2", "10"))
        text = f'text {{"{value}"}}'
        return self.random.choice((text, text, text, 'comment {"c"}'))

    def element(self, level: int) -> str:
        """The constructor of an element, as far as there is room for more nodes."""
        parts = []
        if self.random.random() < 0.5:
            name = self.random.choice(("id", "a", "k"))
            value = self.random.randint(0, 5)
            parts.append(f'attribute {name} {{"{value}"}}')
        while self.room > 0 and len(parts) < 40 and self.random.random() < 0.75:
            self.room -= 1
            is_inner = level < 8 and self.random.random() < 0.72
            parts.append(self.element(level + 1) if is_inner else self.leaf())
        name = self.random.choice(NAMES[:self.random.randint(1, len(NAMES))])
        return f"element {name} {{{', '.join(parts)}}}"

    def document(self) -> str:
        """The constructor of a document."""
        self.room = self.random.choice(SIZES)
        parts = [self.element(1) for _ in range(self.random.randint(1, 6))]
        return f"document {{element r {{{', '.join(parts)}}}}}"

    def path(self) -> str:
        """A path from the document, of one to three steps."""
        steps = []
        for _ in range(self.random.randint(1, 3)):
            predicate = self.random.choice(PREDICATES).format(self.name())
            steps.append(self.random.choice(AXES) + self.name() + predicate)
        return 'doc("d")' + "".join(steps)

    def constructor(self, level: int) -> str:
        """A constructor, an atom, or nodes of the document."""
        atom = self.random.choice(ATOMS).format(self.random.randint(0, 5))
        name = self.random.choice(NODE_NAMES)
        content = self.content(level + 1)
        return self.random.choice((
            f"attribute {name} {{{atom}}}", f"element {name} {{{content}}}",
            f"element {name} {{{content}}}", f"element {name} {{{atom}}}", f"text {{{atom}}}", atom,
            f"comment {{{atom}}}", f"processing-instruction p {{{atom}}}",
            f"document {{{content}}}",
            f"(for $k in 1 to 3 return {self.constructor(level + 1)})" if level < 4 else "$k",
            self.path()))

    def content(self, level: int) -> str:
        """Some constructors one after another, attributes mostly first."""
        if level > 4:
            return self.random.choice(("", "$k", '"x"'))
        parts = [self.constructor(level) for _ in range(self.random.choice((0, 1, 1, 2, 3, 4)))]
        if self.random.random() < 0.8:
            parts.sort(key=lambda part: not part.startswith("attribute"))
        return ", ".join(parts)

    def query(self) -> str:
        """A query over the document."""
        if self.random.random() < 0.25:
            return self.random.choice(CONSTRUCTED).format(
                self.random.randint(0, 5), self.content(0) or "()")
        return self.random.choice(QUERIES).format(
            path=self.path(), name=self.name(), other=self.name(),
            number=self.random.randint(0, 9))

    def request(self) -> tuple[bytes, bytes]:
        """A kind and a body: mostly a query, sometimes a store."""
        choice = self.random.random()
        if choice < 0.06:
            return b"S", harness.store(b"d", GROWN.format(name=self.name()).encode())
        if choice < 0.1:
            return b"S", harness.store(b"e", self.path().encode())
        return b"Q", self.query().encode()

    def all(self, documents: int, requests: int) -> Iterator[tuple[bytes, bytes]]:
        """So many requests over each of so many documents."""
        for _ in range(documents):
            yield b"S", harness.store(b"d", self.document().encode())
            for _ in range(requests):
                yield self.request()


def main() -> int:
    """Compares the programs that the command line names."""
    parser = argparse.ArgumentParser(description=__doc__.splitlines()[0])
    parser.add_argument("old")
    parser.add_argument("new")
    parser.add_argument("--seed", type=int, default=1)
    parser.add_argument("--documents", type=int, default=40)
    parser.add_argument("--requests", type=int, default=100)
    given = parser.parse_args()
    old, new = harness.Server([given.old]), harness.Server([given.new])
    asked = refused = differ = 0
    for kind, body in Requests(given.seed).all(given.documents, given.requests):
        replies = old.ask(kind, body), new.ask(kind, body)
        asked += 1
        refused += replies[0] is not None and replies[0][0] != 0
        if replies[0] != replies[1]:
            differ += 1
            if differ <= MOST_SHOWN:
                print(kind, body, *replies, sep="\n  ")
    print(f"{asked} requests, {refused} of them refused; {differ} replies differ")
    return 1 if differ else 0


if __name__ == "__main__":
    sys.exit(main())
