"""Makes templates of the whole language, each from a seed.

    templates.py SEED

prints the template of that seed, and, on standard error, the options that the program has to be given with it.
Most of them are accepted by the parser. Some are not, as where a word is taken for the argument of a test.
"""

import argparse
import sys
from random import Random
from typing import NamedTuple

import literals
import values

ANY, NUMBER, HOLDER = "any", "number", "holder"

NAMES = ["a", "b", "c", "x", "y", "item", "user"]
ODD_NAMES = ["loop", "self", "super", "caller", "é", "_p", "名前", "ignore", "x1", "endfor", "with"]
ODD_NAMES += ["e\u0301", "x·1", "ª", "℘", "x０"]
TARGETS = ["a", "b", "c", "x", "y", "item", "é", "caller", "super"]
FILTERS = ["f", "upper", "default", "a.b", "é", "a . b", "a. b"]
TESTS = ["t", "defined", "odd", "a.b", "a .b"]
DATA = [
    "a", "x ", " y", "\n", "  \n  ", "hello\n", "<b>", "</b>\n", "é", "日本", "😀", "\t", "\r\n", "\r",
    'say "x"', "back\\slash", "{ }", "%", "}} ", "%} ", "\x0b", "\u2028", "-", "1",
]  # fmt: skip
TEXTS = ["", "a", "b", "x", "abc", "k", "é", "😀", "a\nb", 'q"q', "it's", "\\", "\t", "\r", "a]", "fault", "{{ x }}"]
TEXTS += ["\ufb01", "a/b\b\f", "a b", "#}"]
SMALL_NUMBERS = list(range(11))
LARGE_NUMBERS = [2**63, 2**64 - 1, 2**64, 2**127 - 1, 2**127, 2**128 - 2, 2**128 - 1, 10**30, 100, 127, 128, 129]
# Parts of lists and maps that are compared. A list of constants alone would be compared before the code runs.
ITEMS = ["0", "1", "2", '"a"', '"é"', "none", "true", "false", "[1]", "[]", "(1,)", "[2, 1]", "x", "y", "(a if false)"]
ITEMS += ['"\ufb01"', '"\U0001f600"']
ITEMS += ['{"a": 1}', '{"a": x, "b": [1]}', '{"b": [1], "a": x}', "[none]"]
# Equal maps that are printed differently.
TWINS = ['{"a": [], "b": [1]}', '{"b": [1], "a": []}', '{"b": 0, "a": [], "b": [1]}']
# What may stand in a comment or a raw block.
COMMENTS = ("", "{{ x }}", "a\n  b\n", " {% raw %}", "\n", "-", "a -", "#")
# Arguments of a call of `loop` that is no recursion, or is one in the upstream crate alone.
OTHER_ARGUMENTS = ["*x", "**x", "a=x", "a=1", "", "a, b", "a, *b", "*a, b=1"]
ORDERS = ["==", "!=", "<", "<=", ">", ">="]


class Place(NamedTuple):
    """What is round a statement."""

    in_loop: bool = False
    in_macro: bool = False


class Markers(NamedTuple):
    """The marks that begin and end tags."""

    block: tuple = ("{%", "%}")
    variable: tuple = ("{{", "}}")
    comment: tuple = ("{#", "#}")

    def options(self) -> list:
        """The options that set those that are not the default."""
        found = []
        for name, pair, default in zip(self._fields, self, Markers()):
            if pair != default:
                found += [f"--{name}", *pair]
        return found


OTHER_MARKERS = [
    Markers(block=("<%", "%>")),
    Markers(variable=("${", "}")),
    Markers(("<%", "%>"), ("<<", ">>"), ("<#", "#>")),
    Markers(("[%", "]"), ("[[", "]]"), ("[*", "*]")),
    Markers(("«", "»"), ("‹", "›"), ("{#", "#}")),
]


class Template(NamedTuple):
    """A template's text, and the options that it is meant for."""

    source: str
    options: list


def make(seed: int) -> Template:
    """The template of a seed."""
    random = Random(f"template {seed}")
    markers = Markers() if random.random() < 0.9 else random.choice(OTHER_MARKERS)
    flags = [it for it in ("--trim-blocks", "--lstrip-blocks", "--keep-newline") if random.random() < 0.06]
    return Template(Maker(random, markers).template(), flags + markers.options())


class Maker:
    """Makes the parts of a template. `depth` says how deep a part may still nest."""

    def __init__(self, random: Random, markers: Markers):
        self.random = random
        self.markers = markers
        self.blocks = 0

    # Chances

    def chance(self, share: float) -> bool:
        """True in this share of cases."""
        return self.random.random() < share

    def one(self, several):
        """One of several."""
        return several[int(self.random.random() * len(several))]

    def weighted(self, ways: dict):
        """One of the keys, by weight."""
        left = self.random.random() * sum(ways.values())
        for way, weight in ways.items():
            left -= weight
            if left < 0:
                return way
        return way

    def some(self, least: int, most: int, make) -> list:
        """From `least` to `most` parts, rather few than many."""
        count = least
        while count < most and self.chance(0.45):
            count += 1
        return [make() for _ in range(count)]

    def listed(self, least: int, most: int, make, last_comma: float = 0.05) -> str:
        """Parts with commas between, and now and then one behind them."""
        parts = self.some(least, most, make)
        comma = "," if parts and self.chance(last_comma) else ""
        return self.one((", ", ", ", ",")).join(parts) + comma

    def name(self) -> str:
        """The name of a variable."""
        return self.one(ODD_NAMES) if self.chance(0.05) else self.one(NAMES)

    def filter_name(self) -> str:
        """The name of a filter."""
        return self.one(FILTERS)

    def test_name(self) -> str:
        """The name of a test."""
        return self.one(TESTS)

    # Constants

    def number(self) -> str:
        """An integer, seldom a large one."""
        return literals.write_number(self.one(LARGE_NUMBERS if self.chance(0.06) else SMALL_NUMBERS), self.random)

    def string(self) -> str:
        """A string."""
        return literals.write_text(self.one(TEXTS), self.random)

    def word(self) -> str:
        """A truth value or none."""
        return self.one(list(literals.CONSTANTS))

    # Expressions, level by level

    def expression(self, depth: int, mood: str = ANY) -> str:
        """An expression."""
        found = self.either(depth, mood)
        if depth > 0 and self.chance(0.07):
            found += f" if {self.either(depth - 1)}"
            if self.chance(0.7):
                found += f" else {self.expression(depth - 1, mood)}"
        return found

    def chain(self, operators, share: float, part) -> str:
        """A part, and now and then operators with further parts."""
        found = part()
        while self.chance(share):
            found += f"{self.one(operators)}{part()}"
            share /= 2
        return found

    def either(self, depth: int, mood: str = ANY) -> str:
        """An expression of level `or`."""
        return self.chain([" or "], 0.09 if mood == ANY else 0, lambda: self.both(depth, mood))

    def both(self, depth: int, mood: str = ANY) -> str:
        """An expression of level `and`."""
        return self.chain([" and "], 0.09 if mood == ANY else 0, lambda: self.negated(depth, mood))

    def negated(self, depth: int, mood: str = ANY) -> str:
        """An expression of level `not`."""
        if mood == ANY and self.chance(0.06):
            return f"not {self.negated(depth)}"
        return self.comparison(depth, mood)

    def comparison(self, depth: int, mood: str = ANY) -> str:
        """An expression of the level of comparisons."""
        if mood != ANY or self.chance(0.8):
            return self.sum(depth, mood)
        if self.chance(0.3):
            return self.alike()
        side = self.one((NUMBER, NUMBER, ANY))
        found = self.sum(depth, side)
        for operator in self.some(1, 3, lambda: self.one(ORDERS + ["in", "in", "not in"])):
            found += f" {operator} {self.sum(depth, HOLDER if operator.endswith('in') else side)}"
        return found

    def alike(self) -> str:
        """A comparison of two lists, tuples or maps that are much alike, or of two parts of such."""
        if self.chance(0.2):
            return f"{self.one(ITEMS)} {self.one(ORDERS)} {self.one(ITEMS)}"
        items = self.some(1, 4, lambda: self.one(ITEMS + TWINS))
        way = self.weighted({"list": 4, "tuple": 3, "map": 4})
        other_way = way if self.chance(0.85) else self.one(("list", "tuple", "map"))
        operator = self.one(ORDERS if way != "map" else ["==", "==", "!="])
        if self.chance(0.2):
            return f"{self.one(ITEMS)} {self.one(('in', 'not in'))} {self.holding(way, items)}"
        return f"{self.holding(way, items)} {operator} {self.holding(other_way, self.changed(items))}"

    def changed(self, items: list) -> list:
        """Items like these, in another order, with another one, or one more or less."""
        way = self.weighted({"same": 4, "mixed": 4, "other": 3, "more": 1, "fewer": 1})
        at = self.random.randrange(len(items))
        return {
            "same": items,
            "mixed": self.random.sample(items, len(items)),
            "other": [*items[:at], self.one(ITEMS), *items[at + 1 :]],
            "more": [*items, self.one(ITEMS)],
            "fewer": items[:-1],
        }[way]

    def holding(self, way: str, items: list) -> str:
        """A list, a tuple or a map of items. A map has each item as a key, mostly with itself as the value."""
        if way == "list":
            return f"[{', '.join(items)}]"
        if way == "tuple":
            return f"({', '.join(items)}{',' if len(items) == 1 else ''})"
        share = self.one((1, 1, 0.7))
        return f"{{{', '.join(f'{it}: {it if self.chance(share) else 1}' for it in items)}}}"

    def sum(self, depth: int, mood: str) -> str:
        """An expression of level `+`."""
        if mood != HOLDER and self.chance(0.15):
            return self.chain([" + ", " - ", "+", "-"], 1, lambda: self.joined(depth, NUMBER))
        return self.joined(depth, mood)

    def joined(self, depth: int, mood: str) -> str:
        """An expression of level `~`."""
        return self.chain([" ~ ", "~"], 0.08 if mood == ANY else 0.01, lambda: self.product(depth, mood))

    def product(self, depth: int, mood: str) -> str:
        """An expression of level `*`."""
        if mood != HOLDER and self.chance(0.13):
            return self.chain([" * ", " // ", " % ", " / ", "*"], 1, lambda: self.power(depth, NUMBER))
        return self.power(depth, mood)

    def power(self, depth: int, mood: str) -> str:
        """An expression of level `**`."""
        if mood != HOLDER and self.chance(0.06):
            return self.powers(depth)
        return self.filtered(depth, mood)

    def powers(self, depth: int) -> str:
        """Two or more operands of `**`."""
        parts = [self.filtered(depth, NUMBER) for _ in self.some(2, 4, int)]
        parts = [f"({it})" if " is " in it else it for it in parts]
        found = parts.pop()
        while parts:
            found = f"{parts.pop()}{self.one((' ** ', '**'))}{found}"
        return found

    def filtered(self, depth: int, mood: str) -> str:
        """An operand with filters and tests."""
        found = self.operand(depth, mood)
        while self.chance(0.13):
            found += f"{self.one((' | ', '|'))}{self.filter(depth)}"
        if self.chance(0.05):
            found = self.tested(found, depth)
        return found

    def filter(self, depth: int) -> str:
        """A filter's name with its arguments."""
        return self.filter_name() + (self.arguments(depth - 1) if self.chance(0.5) else "")

    def tested(self, found: str, depth: int) -> str:
        """A test of an operand. One with neither arguments nor brackets may take the next word for its argument."""
        found += f" is {self.one(('', '', 'not '))}{self.test_name()}"
        way = self.weighted({"none": 5, "bare": 3, "arguments": 4})
        if way == "arguments":
            return found + self.arguments(depth - 1)
        if way == "bare":
            return f"{found} {self.one((self.number, self.string, self.name, lambda: self.list(0)))()}"
        return f"({found})" if self.chance(0.8) else found

    def operand(self, depth: int, mood: str) -> str:
        """A primary with what follows it, or a negative."""
        if mood != HOLDER and self.chance(0.05):
            return f"-{self.operand(depth, NUMBER)}"
        return self.primary(depth, mood)

    def primary(self, depth: int, mood: str) -> str:
        """A constant, a variable, a list and so on, with what may follow it."""
        flat = {"variable": 40, "number": 12, "string": 10, "word": 6, "undefined": 2}
        deep = {"brackets": 6, "tuple": 4, "list": 7, "map": 6, "twins": 0.7}
        deep |= {"call": 12, "attribute": 9, "item": 5, "slice": 4}
        if mood == NUMBER:
            flat = {"variable": 50, "number": 30, "word": 0.3}
            deep = {"brackets": 9, "list": 0.3, "call": 8, "attribute": 8, "item": 4}
        if mood == HOLDER:
            flat = {"variable": 5, "string": 12, "list": 30, "map": 12, "tuple": 14}
            deep = {"call": 1.5, "attribute": 1}
        way = self.weighted(flat if depth <= 0 else {**flat, **deep})
        return self.of_way(way, depth - 1, mood)

    def of_way(self, way: str, depth: int, mood: str) -> str:
        """A primary of a given kind, the parts of which nest `depth` deep."""
        if way == "variable":
            return self.name()
        if way in ("number", "string", "word"):
            return getattr(self, way)()
        if way == "brackets":
            return f"({self.sum(depth, NUMBER) if mood == NUMBER else self.expression(depth)})"
        if way == "undefined":
            return f"({self.name()} if {self.one(('false', self.name()))})"
        return getattr(self, way)(depth)

    def tuple(self, depth: int) -> str:
        """A tuple."""
        parts = self.some(0, 3, lambda: self.expression(depth))
        return f"({', '.join(parts)}{',' if len(parts) == 1 else ''})"

    def list(self, depth: int) -> str:
        """A list."""
        return f"[{self.listed(0, 4, lambda: self.expression(depth))}]"

    def map(self, depth: int) -> str:
        """A map."""
        return f"{{{self.listed(0, 3, lambda: f'{self.key(depth)}: {self.expression(depth)}')}}}"

    def twins(self, _depth: int) -> str:
        """A map of which some keys may be equal."""
        keys = self.some(2, 4, lambda: self.one(TWINS))
        return f"{{{', '.join(f'{it}: {self.one(ITEMS)}' for it in keys)}}}"

    def key(self, depth: int) -> str:
        """The key of a map."""
        return self.string() if self.chance(0.6) else self.sum(depth, ANY)

    def base(self, depth: int) -> str:
        """What an attribute, an item or a call is taken of."""
        if depth <= 0 or self.chance(0.6):
            return self.name()
        ways = {"attribute": 5, "item": 4, "slice": 2, "call": 5, "brackets": 3, "list": 2, "map": 1, "string": 1}
        return self.of_way(self.weighted(ways), depth - 1, ANY)

    def attribute(self, depth: int) -> str:
        """An attribute, or an item whose key is a number behind a dot."""
        if self.chance(0.15):
            return f"{self.name()}.{self.one(('0', '1', '2.0', '12'))}"
        found = f"{self.base(depth)}.{self.one(['b', 'c', 'k', 'for', 'é'])}"
        return f"{found}.{self.one(['b', 'd', 'in'])}" if self.chance(0.1) else found

    def item(self, depth: int) -> str:
        """An item."""
        return f"{self.base(depth)}[{self.expression(depth)}]"

    def slice(self, depth: int) -> str:
        """A slice, of whose parts each may be absent."""
        start, stop, step = ("" if self.chance(0.4) else self.sum(depth, NUMBER) for _ in range(3))
        return f"{self.base(depth)}[{start}:{stop}{f':{step}' if self.chance(0.4) else ''}]"

    def call(self, depth: int) -> str:
        """A call of a function, a method, a block or another value."""
        way = self.weighted({"function": 8, "method": 5, "value": 3, "block": 2, "super": 0.5, "loop": 1})
        if way == "super":
            return "super()"
        callee = {
            "function": lambda: self.one(NAMES + ["f", "f", "g", "caller", "super"]),
            "method": lambda: f"{self.base(depth)}.{self.one(['m', 'get', 'b'])}",
            "value": lambda: f"{self.base(depth)}[{self.expression(depth)}]",
            "block": lambda: f"self.{self.one(['b1', 'b2', 'm'])}",
            "loop": lambda: "loop",
        }[way]()
        return callee + self.arguments(depth - 1)

    def arguments(self, depth: int) -> str:
        """Arguments in brackets: plain ones first, then keyword ones, and starred ones among them."""
        plain = {"plain": 6, "*": 1}
        first = [self.argument(self.weighted(plain), depth) for _ in self.some(0, 3, int)]
        last = []
        if self.chance(0.35):
            named = {"constant": 3, "keyword": 3, "**": 1, "*": 0.5}
            last = [self.argument(self.weighted(named), depth) for _ in self.some(1, 3, int)]
        return f"({', '.join(first + last)}{',' if first + last and self.chance(0.04) else ''})"

    def argument(self, way: str, depth: int) -> str:
        """An argument of a given kind."""
        if way == "plain":
            return self.expression(depth)
        if way == "constant":
            return f"{self.one(['k', 'n', 'a'])}={self.one((self.number, self.string, self.word))()}"
        if way == "keyword":
            return f"{self.one(['k', 'n', 'b', '(a)'])}{self.one(('=', ' = '))}{self.expression(depth)}"
        return f"{way}{self.expression(depth)}"

    # Tags

    def control(self) -> str:
        """The control byte of a tag."""
        return self.one("-+") if self.chance(0.06) else ""

    def tag(self, pair: tuple, inner: str) -> str:
        """A tag between two marks."""
        return f"{pair[0]}{self.control()} {inner} {self.control()}{pair[1]}"

    def block_tag(self, inner: str) -> str:
        """A block tag."""
        return self.tag(self.markers.block, inner)

    def enclosed(self, head: str, inner: str, end: str) -> str:
        """A statement with a body."""
        return self.block_tag(head) + inner + self.block_tag(end)

    # Statements

    def template(self) -> str:
        """A whole template."""
        depth = self.one((1, 2, 2, 3, 3))
        return "".join(self.node(depth, Place()) for _ in range(self.random.randint(1, 9)))

    def body(self, depth: int, place: Place) -> str:
        """The body of a statement."""
        return "".join(self.node(depth, place) for _ in range(self.one((0, 1, 1, 2, 2, 3))))

    def node(self, depth: int, place: Place) -> str:
        """Data, an output or a statement."""
        ways = {"data": 4, "output": 7, "comment": 0.3, "raw": 0.3, "set": 3, "do": 1.5}
        ways |= {"include": 1, "import_": 1, "from_": 1, "extends": 0.4}
        if place.in_loop:
            ways |= {"leave": 2.5}
        if depth > 0:
            ways |= {"for_": 6, "if_": 4, "with_": 2, "set_block": 1.5, "filter_block": 1.5, "autoescape": 1.2}
            ways |= {"macro": 1.7, "call_block": 1.7}
        if depth > 0 and not place.in_macro:
            ways |= {"block": 1.2}
        return getattr(self, self.weighted(ways))(depth - 1, place)

    def value(self) -> str:
        """An expression that stands in a tag."""
        return self.expression(self.one((0, 1, 1, 2, 2, 3)))

    def data(self, _depth: int, _place: Place) -> str:
        """Text of a template."""
        return "".join(self.some(1, 3, lambda: self.one(DATA)))

    def comment(self, _depth: int, _place: Place) -> str:
        """A comment."""
        return self.tag(self.markers.comment, self.one(("a comment",) * 4 + COMMENTS))

    def raw(self, _depth: int, _place: Place) -> str:
        """A raw block."""
        return self.enclosed("raw", self.one((" {{ x }} ", "{% if %}", "", "\n  a\n", *COMMENTS)), "endraw")

    def output(self, _depth: int, _place: Place) -> str:
        """An output tag. Three forms of it have code of their own."""
        way = self.weighted({"value": 20, "super": 1, "loop": 1, "block": 1})
        inner = {
            "value": self.value,
            "super": lambda: "super()" if self.chance(0.8) else "super(a)",
            "loop": lambda: f"loop({self.expression(1) if self.chance(0.6) else self.one(OTHER_ARGUMENTS)})",
            "block": lambda: f"self.{self.one(['b1', 'b2'])}()",
        }[way]()
        return self.tag(self.markers.variable, inner)

    def target(self, depth: int, dots: bool) -> str:
        """A target: a name, an attribute where `dots` says so, or targets in brackets."""
        if depth > 0 and self.chance(0.12):
            return f"({self.targets(depth - 1, dots)})"
        if dots and self.chance(0.2):
            return f"{self.one(NAMES)}{self.one(('.', ' . '))}{self.one(('b', 'c.d', 'k'))}"
        return self.one(TARGETS)

    def targets(self, depth: int, dots: bool) -> str:
        """One target or several."""
        if self.chance(0.75):
            return self.target(depth, dots)
        return self.listed(0 if self.chance(0.1) else 2, 3, lambda: self.target(depth, dots), last_comma=0.1)

    def set(self, _depth: int, _place: Place) -> str:
        """A set tag."""
        given = self.value() if self.chance(0.85) else self.listed(1, 3, self.value, last_comma=0.4)
        return self.block_tag(f"set {self.targets(2, True)} = {given}")

    def filters(self) -> str:
        """Filters one behind the other."""
        return self.one((" | ", "|")).join(self.some(1, 3, lambda: self.filter(1)))

    def set_block(self, depth: int, place: Place) -> str:
        """A set block."""
        filters = f" | {self.filters()}" if self.chance(0.4) else ""
        return self.enclosed(f"set {self.targets(1, True)}{filters}", self.body(depth, place), "endset")

    def filter_block(self, depth: int, place: Place) -> str:
        """A filter block."""
        return self.enclosed(f"filter {self.filters()}", self.body(depth, place), "endfilter")

    def autoescape(self, depth: int, place: Place) -> str:
        """An autoescape block."""
        flag = self.one(("true", "false", "'html'")) if self.chance(0.5) else self.value()
        return self.enclosed(f"autoescape {flag}", self.body(depth, place), "endautoescape")

    def do(self, _depth: int, _place: Place) -> str:
        """A call for its effect."""
        return self.block_tag(f"do {self.call(2)}")

    def for_(self, depth: int, place: Place) -> str:
        """A loop."""
        head = f"for {self.targets(1, False)} in {self.either(self.one((0, 1, 1, 2)))}"
        if self.chance(0.3):
            head += f" if {self.expression(1)}"
        if self.chance(0.15):
            head += " recursive"
        inner = self.body(depth, place._replace(in_loop=True))
        if self.chance(0.35):
            inner += self.block_tag("else") + self.body(depth, place)
        return self.enclosed(head, inner, "endfor")

    def leave(self, _depth: int, _place: Place) -> str:
        """A break or a continue, mostly under a condition, and now and then within what has to be closed."""
        found = self.block_tag(self.one(("break", "continue")))
        while self.chance(0.3):
            head = self.one(("with", "with x = a", "autoescape a", "filter f", "set x"))
            found = self.enclosed(head, found, f"end{head.split()[0]}")
        return found if self.chance(0.4) else self.enclosed(f"if {self.name()}", found, "endif")

    def if_(self, depth: int, place: Place) -> str:
        """A condition with its branches."""
        found = self.block_tag(f"if {self.either(2)}") + self.body(depth, place)
        while self.chance(0.25):
            found += self.block_tag(f"elif {self.either(1)}") + self.body(depth, place)
        if self.chance(0.5):
            found += self.block_tag("else") + self.body(depth, place)
        return found + self.block_tag("endif")

    def with_(self, depth: int, place: Place) -> str:
        """A scope with assignments."""
        pairs = self.listed(0, 3, lambda: f"{self.with_target()} = {self.expression(1)}", last_comma=0)
        return self.enclosed(f"with {pairs}".strip(), self.body(depth, place), "endwith")

    def with_target(self) -> str:
        """The target of an assignment in a `with`."""
        return f"({self.targets(1, False)})" if self.chance(0.25) else self.one(TARGETS)

    def parameters(self) -> str:
        """The parameters of a macro, those with defaults last."""
        names = self.random.sample(["a", "b", "x", "p", "q"], self.one((0, 1, 1, 2, 3)))
        plain = self.random.randint(0, len(names))
        parts = names[:plain] + [f"{it}={self.expression(1)}" for it in names[plain:]]
        return f"({', '.join(parts)})"

    def macro(self, depth: int, _place: Place) -> str:
        """A macro."""
        inner = self.body(depth, Place(in_macro=True))
        if self.chance(0.2):
            inner += self.tag(self.markers.variable, "caller()")
        return self.enclosed(f"macro {self.one(['m', 'n', 'a'])}{self.parameters()}", inner, "endmacro")

    def call_block(self, depth: int, _place: Place) -> str:
        """A call block."""
        head = f"call{self.parameters() if self.chance(0.4) else ''} {self.call(1)}"
        return self.enclosed(head, self.body(depth, Place(in_macro=True)), "endcall")

    def block(self, depth: int, _place: Place) -> str:
        """A block, the name of which no other has."""
        self.blocks += 1
        name = f"{self.one(('b', 'b', 'a', 'é'))}{self.blocks}"
        head = f"block {name}{' scoped' if self.chance(0.1) else ''}"
        end = f"endblock{f' {name}' if self.chance(0.3) else ''}"
        if self.chance(0.08):
            blank = (" \n", "", " \u3000", self.tag(self.markers.comment, "c"), self.enclosed("raw", " ", "endraw"))
            return self.enclosed(f"{head} required", self.one(blank), end)
        return self.enclosed(head, self.body(depth, Place()), end)

    def file(self) -> str:
        """The name of another template."""
        if self.chance(0.7):
            return self.one(("'p'", "'q.txt'", "['p', 'q']"))
        return self.primary(1, ANY) if self.chance(0.7) else self.expression(1)

    def context(self) -> str:
        """Words that say whether another template gets the context."""
        return f" {self.one(('with', 'without'))} context" if self.chance(0.2) else ""

    def extends(self, _depth: int, _place: Place) -> str:
        """An extends tag."""
        return self.block_tag(f"extends {self.file()}")

    def include(self, _depth: int, _place: Place) -> str:
        """An include tag."""
        missing = " ignore missing" if self.chance(0.4) else ""
        return self.block_tag(f"include {self.file()}{missing}{self.context()}")

    def import_(self, _depth: int, _place: Place) -> str:
        """An import tag."""
        target = self.one(TARGETS) if self.chance(0.8) else f"{self.one(NAMES)}.b"
        return self.block_tag(f"import {self.file()} as {target}{self.context()}")

    def from_(self, _depth: int, _place: Place) -> str:
        """A from tag."""
        names = self.listed(0 if self.chance(0.1) else 1, 3, self.imported, last_comma=0.1)
        return self.block_tag(f"from {self.file()} import {names}{self.context()}")

    def imported(self) -> str:
        """A name that is imported, and perhaps another name for it."""
        return self.one(TARGETS) + (f" as {self.one(TARGETS + ['_p'])}" if self.chance(0.3) else "")


def main():
    """Prints the template of a seed."""
    parser = argparse.ArgumentParser(description="prints the template of a seed, and its options on standard error")
    parser.add_argument("seed", type=int)
    template = make(parser.parse_args().seed)
    sys.stdout.buffer.write(template.source.encode())
    print(" ".join(template.options), file=sys.stderr)


if __name__ == "__main__":
    main()
