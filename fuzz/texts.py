"""Makes texts in one of the syntaxes: templates, and broken texts, each from a seed.

    texts.py SEED

prints the file of that seed, and, on standard error, its syntax with its options.
"""

import argparse
import sys
from random import Random
from typing import NamedTuple

from syntaxes import FLAGS, SYNTAXES, Syntax, odd
from templates import Maker, Markers, Place

WORDS = """
if else elif endif for in endfor recursive with endwith set endset filter endfilter autoescape endautoescape block
endblock scoped required extends include ignore missing without context import as from macro endmacro call endcall do
break continue raw endraw not and or is true false none loop self super caller x y a
""".split()
MARKS = """
+ - * / % . , : ~ | = > < ( ) [ ] { } // ** == != >= <= ' " \\ $ ? ! & ^ ` @ ; 'a' "b" 'a\\n' "\\u00e9" '\\q'
"\\ud83d\\ude00" '\\ud800' '\\u12' "a 0 1 12 1_0 1_ 0x1f 0X 0b101 0b2 0o17 0o8 1.5 1e5 1. 1.e 1..2 x.1 x.1.2
18446744073709551615 18446744073709551616 340282366920938463463374607431768211455
340282366920938463463374607431768211456 é 日本 😀 ª · ℘ ０
""".split()
SPACES = [" ", "\0", "\n", "\t", "\r", "\r\n", "\x0b", "\x0c", "\x1c", "\x85", "\xa0", "\u2028", "\u3000", ""]

# What may be cut where it stands before or after a tag.
SPACE_ROUND_TAGS = (" ", "\n", "  ", "\n  ", "  \n", "\n\n", "\t", " a\n  ", "\n a ", "x ", "\u3000\n ", "\x0c\n")
SPACE_ROUND_TAGS += ("\x85\n ", "\n\xa0", "\x1c\n", "\n\x1c", "\u2028", "\r\n", "\r", "\n\x0b ")
# What the tokenizer refuses where it stands behind a string.
BEHIND_STRINGS = ("$", "'\\q'", "?", "'", "1_", "1.5", "\x0b", "! a", '"\\u12"')
# What may stand behind the prefix of a comment that is a line.
LINE_COMMENTS = (" a comment", " a comment", "", "-", "- x", " {{ x }}", "+", " {#", "\t")
# What may stand between the parts of a tag.
SPACES_IN_TAGS = ("\n", "\t", "  ", "\x0c", "\r\n", "\n  ", "\r")
# What a text may end in, which may be stripped.
ENDS = ("\n", "\n\n", "\r\n", "\r", "\n\r", "\r\r\n", " \n")
# What nests by standing many times before and after an expression, and how often it may.
NESTS = (
    ("(", ")", 149),
    ("[", "]", 149),
    ("{1:", "}", 149),
    ("x[", "]", 298),
    ("f(", ")", 298),
    ("x|f(", ")", 298),
    ("-", "", 298),
    ("not ", "", 298),
    ("x**", "", 298),
    ("x if x else ", "", 298),
)
# The same for tags of the default syntax, with what stands before and behind all of them.
TAG_NESTS = (
    ("", "{% if x %}", "{% endif %}", "", 299),
    ("", "{% for x in y %}", "{% endfor %}", "", 299),
    ("", "{% with %}", "{% endwith %}", "", 299),
    ("{% if x %}", "{% elif x %}", "", "{% endif %}", 298),
    ("{% set ", "(", ")", " = y %}", 299),
    ("{% for ", "(", ")", " in y %}{% endfor %}", 299),
)
# Statements of the default syntax that are well written but mostly not allowed.
ROUND_MISTAKES = (("", ""), ("x ", ""), ("", "\n"), ("{% if a %}", "{% endif %}"), ("{{ a }}", "{{ b }}"))
MISTAKES = """
{% break %}
{% if a %}{% continue %}{% endif %}
{% for a in b %}{% else %}{% break %}{% endfor %}
{% for a in b %}{% else %}{% with %}{% continue %}{% endwith %}{% endfor %}
{% for a in b %}{% for x in y %}{% else %}{% break %}{% endfor %}{% endfor %}
{% for a in b %}{% macro m() %}{% break %}{% endmacro %}{% endfor %}
{% for a in b %}{% call f() %}{% continue %}{% endcall %}{% endfor %}
{% for a in b %}{% block z %}{% continue %}{% endblock %}{% endfor %}
{% block z %}{% endblock %}{% block z %}{% endblock %}
{% block z %}{% endblock y %}
{% block z %}x{% endblock z %}
{% block z required %}x{% endblock %}
{% block z required %}{{ x }}{% endblock %}
{% block z required %}{% block y %}{% endblock %}{% endblock %}
{% block z required scoped %}{% endblock %}
{% block z scoped required %} {% endblock z %}
{% block z required %}x{{ '\\q' }}{% endblock %}
{% macro m() %}{% block z %}{% endblock %}{% endmacro %}
{% call f() %}{% if a %}{% block z %}{% endblock %}{% endif %}{% endcall %}
{% do x %}
{% do x.y %}
{% do f()|g %}
{% call x %}{% endcall %}
{% call f() if x else g() %}{% endcall %}
{% set loop = x %}
{% set self.a = x %}
{% set (a, None) %}{% endset %}
{% for true in x %}{% endfor %}
{% for loop in x %}{% endfor %}
{% with loop = 1 %}{% endwith %}
{% macro m(loop) %}{% endmacro %}
{% call(self) f() %}{% endcall %}
{% from 'p' import loop %}
{% from 'p' import a as self %}
{% from 'p' import _p %}
{% from 'p' import _p as a %}
{% from 'p' import a as _p %}
{% macro loop() %}{% endmacro %}
{% macro m(a=1, b) %}{% endmacro %}
{% macro m(a, b=1,) %}{% endmacro %}
{% import 'p' as 1 %}
{% import 'p' as a() %}
{% import 'p' as (a, b) %}
{% import 'p' as [a, b.c] %}
{% import 'p' as f().c with context %}
{{ f(a=1, b) }}
{{ f(**a, b) }}
{{ f(a=1, *b) }}
{{ f(a.b=1) }}
{% for a.b in c %}{% endfor %}
{% with a.b = 1 %}{% endwith %}
{% with a = 1, %}{% endwith %}
{% set a, = 1 %}
{% set a, %}x{% endset %}
{% include 'p' with context ignore missing with context %}
{% include 'p' ignore missing without context %}
{% from 'p' import a, with context %}
{% from 'p' import a with context, b %}
{{ a is t if b }}
{{ a is t + b }}
{{ a is not in b }}
{{ a not b }}
{{ 'a' '\\q' }}
{{ a '\\q' }}
{{ a + '\\ud800' }}
{% do x '\\q' %}
{% if a %}{% else %}{% else %}{% endif %}
{% if a %}{% else %}{% elif b %}{% endif %}
{% for a in b %}{% elif c %}{% endfor %}
{% endif %}
{% macro m(a, a) %}{{ a }}{% endmacro %}
{% macro m(caller, x=caller) %}{{ caller() }}{% endmacro %}
{% macro m() %}{{ self.b() }}{{ m }}{{ loop }}{% endmacro %}{{ m }}
{% macro m() %}{% endmacro %}{% macro m() %}{% endmacro %}
{% block endblock %}{% endblock endblock %}
{% set if = 1 %}{{ if }}
{% for not in in %}{% endfor %}
{% for in in in %}{% endfor %}
{% set (in) = x %}
{% set not, or = x %}
{{ not in not }}
{{ x is not not }}
{{ x is in in x }}
{{ x if if else else }}
{{ {}[()] }}
{{ a. 1.5 }}
{{ a.1.5 }}
""".strip().split("\n")


class File(NamedTuple):
    """What a seed makes: a syntax with its options, templates, broken texts and expressions by themselves in it, and
    further texts, each with the options of a syntax of odd parts.
    """

    seed: int
    syntax: Syntax
    options: list
    templates: list
    broken: list
    expressions: list
    odd: list


def make(seed: int, count: int, broken: int, expressions: int, odd_syntaxes: int = 0) -> File:
    """The file of a seed, with these numbers of templates, broken texts, expressions by themselves and odd syntaxes."""
    random = Random(f"file {seed}")
    syntax = SYNTAXES[seed % len(SYNTAXES)].with_flags(it for it in FLAGS if random.random() < 0.08)
    maker = TextMaker(random, syntax)
    made = [maker.template() for _ in range(count)]
    breaker = Breaker(random, syntax, made)
    # Each third one is a mistake, and from file to file all of them have their turn.
    in_turn = seed * -(-broken // 3)
    broken_texts = [breaker.text() if at % 3 else breaker.mistake(in_turn + at // 3) for at in range(broken)]
    by_themselves = [breaker.expression(maker) for _ in range(expressions)]
    texts = [in_odd_syntax(random) for _ in range(odd_syntaxes)]
    return File(seed, syntax, syntax.spelled(random), made, broken_texts, by_themselves, texts)


def in_odd_syntax(random: Random) -> tuple:
    """The options of a syntax of odd parts, and a text in it."""
    syntax = odd(random)
    made = TextMaker(random, syntax).template()
    breaker = Breaker(random, syntax, [made])
    way = random.random()
    text = made if way < 0.6 else breaker.row() if way < 0.8 else breaker.changed(made)
    return syntax.spelled(random), text.replace("\x1e", " ")


class TextMaker(Maker):
    """Makes templates in a syntax, which may have statements and comments that are lines."""

    def __init__(self, random: Random, syntax: Syntax):
        super().__init__(random, syntax.markers)
        self.syntax = syntax

    def template(self) -> str:
        """A template, rather a small one."""
        depth = self.one((0, 1, 1, 1, 2, 2, 3))
        found = "".join(self.node(depth, Place()) for _ in range(self.one((1, 1, 1, 2, 2, 3, 4))))
        found = found + self.one(ENDS) if self.chance(0.1) else found
        return f"\ufeff{found}" if self.chance(0.01) else found

    def node(self, depth: int, place: Place) -> str:
        """Data, an output or a statement, mostly behind data, since what space is cut depends on it."""
        space = self.one(SPACE_ROUND_TAGS) if self.chance(0.4) else ""
        return space + (self.data(0, place) if self.chance(0.15) else "") + super().node(depth, place)

    def value(self) -> str:
        """An expression that stands in a tag, rather a small one."""
        return self.expression(self.one((0, 0, 1, 1, 1, 2, 3)))

    def filter_name(self) -> str:
        """The name of a filter, of which a file has more than are kept in a table."""
        return f"f{self.random.randrange(70)}" if self.chance(0.4) else super().filter_name()

    def test_name(self) -> str:
        """The name of a test, of which a file has more than are kept in a table."""
        return f"t{self.random.randrange(70)}" if self.chance(0.6) else super().test_name()

    def data(self, depth: int, place: Place) -> str:
        """Text of a template, half of which has no line ends but newlines."""
        found = super().data(depth, place)
        return found if self.chance(0.5) else found.replace("\r\n", "\n").replace("\r", " ")

    def control(self) -> str:
        """The control byte of a tag."""
        return self.one("-+") if self.chance(0.1) else ""

    def tag(self, pair: tuple, inner: str) -> str:
        """A tag between two marks, now and then with other space between its parts."""
        if self.chance(0.05):
            inner = "".join(self.one(SPACES_IN_TAGS) if it == " " and self.chance(0.4) else it for it in inner)
        return super().tag(pair, inner)

    def block_tag(self, inner: str) -> str:
        """A block tag, or a line that is a statement."""
        prefix = self.syntax.line_statement
        if prefix is None or inner in ("raw", "endraw") or self.chance(0.5):
            return super().block_tag(inner)
        end = f" {self.syntax.line_comment} a comment" if self.syntax.line_comment and self.chance(0.02) else ""
        control = self.one("-+") if self.chance(0.03) else ""
        return f"{self.line_end()}{self.one(('', '', '  ', chr(9)))}{prefix}{control} {inner}{end}{self.line_end()}"

    def line_end(self) -> str:
        """A line end, mostly a newline."""
        return "\n" if self.chance(0.8) else self.one(("\r\n", "\r\n", "\r", "\n\r", "\u3000\n", " \t\r\n"))

    def comment(self, depth: int, place: Place) -> str:
        """A comment."""
        prefix = self.syntax.line_comment
        if prefix is not None and self.chance(0.5):
            return f"{self.one(('', ' ', chr(10)))}{prefix}{self.one(LINE_COMMENTS)}{self.line_end()}"
        if self.chance(0.1):
            return self.markers.comment[0] + self.control() + self.markers.comment[1]
        return super().comment(depth, place)

    def raw(self, depth: int, place: Place) -> str:
        """A raw block, which may have a false end."""
        if self.chance(0.7):
            return super().raw(depth, place)
        start, end = self.markers.block
        inner = self.one((f" {start} endraw x {end}", f"{start}raw{end}", f"\n {start}", "  \r\n"))
        head, foot = (f"{start}{self.control()}{it}{self.control()}{end}" for it in ("raw ", " endraw"))
        return head + inner + foot


class Breaker:
    """Makes texts that are mostly refused: templates with changes, rows of words and marks, and texts that nest."""

    def __init__(self, random: Random, syntax: Syntax, made: list):
        self.random = random
        self.syntax = syntax
        self.made = made
        self.parts = [*syntax.markers.block, *syntax.markers.variable] * 3 + [*syntax.markers.comment]
        self.parts += [it for it in (syntax.line_statement, syntax.line_comment) if it] * 2

    def text(self) -> str:
        """A broken text."""
        way = self.random.random()
        if way < 0.06:
            found = self.nesting()
        elif way < 0.09:
            found = self.arguments()
        elif way < 0.12:
            found = self.far()
        elif way < 0.45:
            found = self.row()
        else:
            found = self.changed(self.random.choice(self.made))
        return found.replace("\x1e", " ")

    def in_syntax(self, text: str) -> str:
        """A text of the default syntax in this one."""
        pairs = (*Markers().block, *Markers().variable), (*self.syntax.markers.block, *self.syntax.markers.variable)
        for old, new in zip(*pairs):
            text = text.replace(old, new)
        return text

    def mistake(self, number: int) -> str:
        """A statement that is well written but mostly not allowed, with something before and behind it."""
        before, after = self.random.choice(ROUND_MISTAKES)
        return self.in_syntax(before + MISTAKES[number % len(MISTAKES)] + after)

    def far(self) -> str:
        """A template in a line, or behind a column, where counting stops."""
        return self.random.choice("\nxé") * self.random.randint(65_520, 65_540) + self.random.choice(self.made)

    def expression(self, maker: TextMaker) -> str:
        """An expression by itself, which may be broken."""
        way = self.random.random()
        if way < 0.03:
            return self.nested_expression()
        found = maker.expression(self.random.choice((0, 1, 2, 3)))
        if way < 0.1:
            found = self.random.choice(("'a'", "'a' ", f"{found} ~ 'b' ", f"{found} 'a' "))
            found += self.random.choice(BEHIND_STRINGS)
        elif way < 0.3:
            found = self.changed(found)
        elif way < 0.4:
            found = " ".join(self.part() for _ in range(4))
        return found.replace("\x1e", " ")

    def part(self) -> str:
        """A word, a mark, a marker or space."""
        return self.random.choice(self.random.choice((WORDS, WORDS, MARKS, SPACES, self.parts)))

    def row(self) -> str:
        """Words and marks in a row, mostly within a tag."""
        inner = [self.part() for _ in range(self.random.randint(1, 9))]
        between = self.random.choice(("", " ", " "))
        if self.random.random() < 0.3:
            return between.join(inner)
        pair = self.random.choice((self.syntax.markers.block, self.syntax.markers.variable))
        control = self.random.choice(("", "", "", "-", "+"))
        return f"{self.part()}{pair[0]}{control} {between.join(inner)} {control}{pair[1]}{self.part()}"

    def changed(self, text: str) -> str:
        """A text with one change or several."""
        for _ in range(self.random.choice((1, 1, 1, 2, 3))):
            at = self.random.randint(0, len(text))
            end = min(len(text), at + self.random.choice((1, 1, 1, 2, 3, 8, 40)))
            way = self.random.randrange(6)
            if way == 0:
                text = text[:at] + text[end:]
            elif way == 1:
                text = text[:at] + self.part() + text[at:]
            elif way == 2:
                text = text[:at] + self.part() + text[end:]
            elif way == 3:
                text = text[:end] + text[at:end] + text[end:]
            elif way == 4:
                text = text[:at]
            else:
                other = self.random.randint(0, len(text))
                text = text[:at] + text[other : other + end - at] + text[at:]
        return text

    def arguments(self) -> str:
        """A call with about as many arguments as are allowed."""
        inner = ",".join(["a"] * self.random.choice((1999, 2000, 2000, 2001, 2001)))
        call = self.random.choice(("f({})", "x|f({})", "x is f({})", "x.f({})", "self.f({})", "f(*a,{})", "f({},a=1)"))
        return self.in_syntax(f"{{{{ {call.format(inner)} }}}}")

    def nesting(self) -> str:
        """A text that nests about as deep as one of the programs allows."""
        if self.random.random() < 0.6:
            return self.in_syntax(f"{{{{ {self.nested_expression()} }}}}")
        before, head, foot, behind, most = self.random.choice(TAG_NESTS)
        count = self.depth(most)
        return self.in_syntax(f"{before}{head * count}x{foot * count}{behind}")

    def nested_expression(self) -> str:
        """An expression that nests about as deep as one of the programs allows."""
        before, after, most = self.random.choice(NESTS)
        count = self.depth(most)
        return before * count + "x" + after * count

    def depth(self, most: int) -> int:
        """How often something stands that may stand so often. The other program allows half of that."""
        way = self.random.random()
        if way < 0.6:
            return most + self.random.choice((-1, 0, 0, 1, 1, 2))
        return most // 2 + self.random.choice((-1, 0, 1, 2)) if way < 0.9 else self.random.randint(10, most)


def main():
    """Prints the file of a seed."""
    parser = argparse.ArgumentParser(description="prints the file of a seed, and its options on standard error")
    parser.add_argument("seed", type=int)
    parser.add_argument("--templates", type=int, default=5)
    parser.add_argument("--broken", type=int, default=5)
    words = parser.parse_args()
    file = make(words.seed, words.templates, words.broken, 0)
    print(file.syntax.name, *file.options, file=sys.stderr)
    for text in file.templates + file.broken:
        sys.stdout.buffer.write(text.encode("utf-8", "surrogatepass") + b"\n\x1e\n")


if __name__ == "__main__":
    main()
