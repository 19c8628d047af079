"""The syntaxes that texts are made in: twenty, and others that are put together of odd parts."""

from random import Random
from typing import NamedTuple, Optional

from templates import Markers


class Syntax(NamedTuple):
    """A syntax: what it is called, its markers, its prefixes of lines, and its flags."""

    name: str
    markers: Markers = Markers()
    line_statement: Optional[str] = None
    line_comment: Optional[str] = None
    flags: tuple = ()

    def options(self) -> list:
        """The options that set this syntax, in the order of the program's usage."""
        found = self.markers.options()
        if self.line_statement is not None:
            found += ["--line-statement", self.line_statement]
        if self.line_comment is not None:
            found += ["--line-comment", self.line_comment]
        return found + list(self.flags)

    def spelled(self, random: Random) -> list:
        """The options that set this syntax, now and then in another order, and some with another value before."""
        found = self.options()
        if random.random() < 0.8:
            return found
        groups, at = [], 0
        while at < len(found):
            count = WORDS_OF_OPTIONS.get(found[at], 1)
            groups.append(found[at : at + count])
            at += count
        random.shuffle(groups)
        before = [[it[0], *OTHER_VALUES[: len(it) - 1]] for it in groups if random.random() < 0.3]
        return [word for it in before + groups for word in it]

    def with_flags(self, flags) -> "Syntax":
        """This syntax with further flags."""
        return self._replace(flags=self.flags + tuple(it for it in flags if it not in self.flags))


# How many words an option is, where it is more than one, and words that mean nothing where the option comes again.
WORDS_OF_OPTIONS = {"--block": 3, "--variable": 3, "--comment": 3, "--line-statement": 2, "--line-comment": 2}
OTHER_VALUES = ["<~", "~>"]
TRIM, LSTRIP, KEEP = "--trim-blocks", "--lstrip-blocks", "--keep-newline"
FLAGS = (TRIM, LSTRIP, KEEP)

SYNTAXES = [
    Syntax("default"),
    Syntax("trim", flags=(TRIM,)),
    Syntax("lstrip", flags=(LSTRIP,)),
    Syntax("trim and lstrip", flags=(TRIM, LSTRIP)),
    Syntax("all flags", flags=FLAGS),
    Syntax("one end for all", Markers(("<%", "%>"), ("<%=", "%>"), ("<%#", "%>"))),
    Syntax("one character", Markers(("@", "@"), ("$", "$"), ("#", "#"))),
    Syntax("three characters", Markers(("{%%", "%%}"), ("{{{", "}}}"), ("{##", "##}"))),
    Syntax("brackets", Markers(("[%", "]"), ("[[", "]]"), ("[*", "*]"))),
    Syntax("quotation marks", Markers(("«", "»"), ("‹", "›"), ("«#", "#»"))),
    Syntax("four bytes", Markers(("😀", "😁"), ("😀😀", "😁😁"), ("😂", "😁"))),
    Syntax("lines", line_statement="#", line_comment="##"),
    Syntax("lines, trimmed", line_statement="%", line_comment="%%", flags=(TRIM, LSTRIP)),
    Syntax("lines, not ASCII", Markers(("⟦%", "%⟧"), ("⟦", "⟧"), ("⟦#", "#⟧")), "§", "§§"),
    Syntax("white space", Markers((" {%", "%} "), ("\t{{", "}}\n"), ("{# ", " #}"))),
    Syntax("commands", Markers(("\\BLOCK{", "}"), ("\\VAR{", "}"), ("\\#{", "}"))),
    Syntax("control in an end", Markers(comment=("{#", "-}"))),
    Syntax("prefixes of each other", Markers(("{", "}"), ("{{", "}}"), ("{{{", "}}}"))),
    Syntax("question marks", Markers(("<?", "?>"), ("<?=", "?>"), ("<?#", "?>")), ":", "//", (LSTRIP,)),
    Syntax("letters", Markers(("B(", ")"), ("V(", ")"), ("C(", ")")), "do ", "rem "),
]

# Parts of odd syntaxes.
STARTS = "{ {{ {% {# {{{ < << <% <%= <!-- % # ## - -- + $ $$ a ab in é 😀 \\ ( [ ' \" . 1 _ | : : // \u3000".split(" ")
ENDS = "} }} %} #} }}} > >> %> --> -} +} - ) ] b in é 😀 ' \" . 1 _ | : % // \u3000}".split(" ") + [" }", "\n", "\t%}"]


def odd(random: Random) -> Syntax:
    """A syntax of odd parts, which may be refused: two starts may be the same, or a delimiter empty."""
    starts = random.sample(STARTS, 5)
    ends = [random.choice(ENDS) for _ in range(3)]
    if random.random() < 0.15:
        starts[random.randrange(5)] = random.choice(starts)
    if random.random() < 0.12:
        random.choice((starts, ends))[random.randrange(3)] = ""
    prefixes = [it if random.random() < 0.3 else None for it in starts[3:]]
    flags = tuple(it for it in FLAGS if random.random() < 0.3)
    return Syntax("odd parts", Markers(*zip(starts, ends)), *prefixes, flags)
