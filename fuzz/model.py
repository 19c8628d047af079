"""A model of both programs: what each has to print for a text, computed from the rules of the language alone.

Where they differ on purpose, `Rules` chooses. Nothing here is taken from the code of either program.

    model.py [--upstream] tokens|code|names|lint [OPTION..] FILE
    model.py [--upstream] expr TEXT
"""

import sys
from functools import cached_property
from typing import Dict, FrozenSet, Iterable, NamedTuple, Optional, Set

import config
import layout
import lexing
import names
import rules
from grammar import ExpressionReader, Refused
from lexing import KNOWN_LETTERS, Lexer, Refusal, Unicode
from programs import Answer
from statements import TemplateReader

DONE, REFUSED, FOUND = 0, 1, 3
# The status of a program that stops by a fault of its own.
STOPPED = 3
EXPRESSION = config.of_options([])


class Wanted(NamedTuple):
    """What a program has to answer: its status, what it prints, and, where it refuses, the lines that it may tell.

    A line without a place leaves the place open.
    """

    status: int
    out: str
    refusals: FrozenSet[str] = frozenset()

    def is_met(self, found: Answer) -> bool:
        """Whether a program has answered this."""
        if (found.status, found.out) != (self.status, self.out):
            return False
        if self == STOP:
            return True
        return found.refusal in (self.refusals or {""}) or f"{found.refusal.rpartition(' ')[0]} " in self.refusals

    def is_like(self, other: "Wanted") -> bool:
        """Whether another answer is the same but for the places of refusals."""
        return (self.status, self.out, self.kinds()) == (other.status, other.out, other.kinds())

    def kinds(self) -> Set[str]:
        """The kinds of refusals that may be told."""
        return {it.split(" ")[1] for it in self.refusals}

    def show(self) -> dict:
        """What is wanted as data that can be printed."""
        return {"status": self.status, "out": self.out, "refusal": " or ".join(sorted(self.refusals))}


# What a program answers that stops by a fault of its own. It may say anything of that.
STOP = Wanted(STOPPED, "")
INVALID = Wanted(REFUSED, "", frozenset({"mjc: InvalidDelimiter at 0:0"}))


class Reading:
    """The tokens and the tree of a template's text. Where it needed no rule, both programs read the text so."""

    def __init__(self, source: str, syntax: config.Config, choice: rules.Rules, unicode: Unicode):
        self.lexer = Lexer(source, syntax, choice, unicode).template()
        reader = TemplateReader(self.lexer, choice)
        # The tree, or else the refusals that may be told.
        self.tree, self.refusals = None, ()
        try:
            self.tree = reader.template()
        except Refused as why:
            self.refusals = why.refusals
        self.stops = reader.stops
        self.needed_no_rule = not choice.used

    @cached_property
    def tokens(self) -> str:
        """The tokens as they are printed."""
        return lexing.show(self.lexer)

    @cached_property
    def walk(self) -> names.Walk:
        """A walk through the tree by the rules of the port."""
        return names.Walk().template(self.tree)


class Text:
    """A template's text as one of the programs has to take it. Each part is made once.

    `other` is what the other program has to take the same text as, if that is known.
    """

    def __init__(
        self,
        source: str,
        syntax: config.Config,
        ours: bool = True,
        unicode: Unicode = KNOWN_LETTERS,
        other: Optional["Text"] = None,
    ):
        self.choice = rules.Rules(ours)
        self.answers: Dict[str, Wanted] = {}
        # The tree of the template, or else what each command that needs it answers.
        self.tree = self.refused = self.reading = None
        # What each command answers where the syntax cannot be built.
        self.not_begun = None if syntax.can_be_built else INVALID
        if self.not_begun:
            self.refused = self.not_begun
            return
        if other and other.reading.needed_no_rule:
            self.reading = other.reading
        else:
            self.reading = Reading(source, syntax, self.choice, unicode)
        self.lexer = self.reading.lexer
        if self.reading.refusals:
            self.refused = Wanted(REFUSED, "", lines_of_parse(self.lexer, self.reading.refusals, ours))
        elif self.reading.stops:
            self.refused = STOP
        else:
            self.tree = self.reading.tree

    @property
    def walk(self) -> names.Walk:
        """A walk through the tree by the rules of the port."""
        return self.reading.walk

    def tokens(self) -> Wanted:
        """What `tokens` has to print."""
        if self.not_begun:
            return self.not_begun
        out, refusal = self.reading.tokens, self.lexer.refusal
        if not refusal:
            return Wanted(DONE, out)
        return Wanted(REFUSED, out, lines(self.lexer, [refusal], self.choice.is_ours))

    def code(self) -> Wanted:
        """What `code` has to print."""
        if self.refused:
            return self.refused
        return Wanted(DONE, layout.Template(self.choice).whole(self.tree, self.walk).show())

    def names(self) -> Wanted:
        """What `names` has to print."""
        if self.refused:
            return self.refused
        walk = self.walk if self.choice.is_ours else names.TheirWalk().template(self.tree)
        return Wanted(DONE, names.show(walk))

    def lint(self) -> Wanted:
        """What `lint` has to print."""
        if self.refused:
            return self.refused
        found = names.findings(self.walk)
        printed = [words.format(name, lexing.show_place(self.lexer, at)) for words, name, at in found]
        return Wanted(FOUND if found else DONE, "".join(f"{it}\n" for it in printed))

    def answer(self, command: str) -> Wanted:
        """What a command has to print."""
        if command not in self.answers:
            make = {"tokens": self.tokens, "code": self.code, "names": self.names, "lint": self.lint}[command]
            self.answers[command] = make()
        return self.answers[command]


def lines(lexer: Lexer, refusals: Iterable[Refusal], has_place: bool) -> FrozenSet[str]:
    """The lines that tell refusals. The place of the other program's may be another one."""
    shown = [(it.kind, lexing.show_place(lexer, it.at) if has_place else "") for it in refusals]
    return frozenset(f"mjc: {kind} at {place}" for kind, place in shown)


def lines_of_parse(lexer: Lexer, refusals: Iterable[Refusal], ours: bool) -> FrozenSet[str]:
    """The lines that tell refusals of a whole text. The other program looks for floats last: a bad escape may come first."""
    shown = lines(lexer, refusals, ours)
    if not ours and any(it.is_float and "\\" in lexer.text[it.at :] for it in refusals):
        return shown | {f"mjc: {lexing.BAD_ESCAPE} at "}
    return shown


def expression(source: str, ours: bool = True, unicode: Unicode = KNOWN_LETTERS):
    """What `expr` has to print for an expression by itself, and the rules that were asked for."""
    choice = rules.Rules(ours)
    lexer = Lexer(source, EXPRESSION, choice, unicode).expression()
    try:
        tree = ExpressionReader(lexer, choice).standalone()
    except Refused as why:
        return Wanted(REFUSED, "", lines_of_parse(lexer, why.refusals, ours)), choice
    return Wanted(DONE, layout.show_expression(tree, choice)), choice


def main() -> int:
    """Prints what a program has to print."""
    sys.setrecursionlimit(20_000)
    words = sys.argv[1:]
    ours = words[:1] != ["--upstream"]
    command, *options, last = words[not ours :]
    if command == "expr":
        wanted = expression(last, ours)[0]
    else:
        with open(last, encoding="utf-8", newline="") as file:
            wanted = Text(file.read(), config.of_options(options), ours).answer(command)
    sys.stdout.buffer.write(wanted.out.encode())
    if wanted.status == REFUSED:
        print(wanted.show()["refusal"], file=sys.stderr)
    return wanted.status


if __name__ == "__main__":
    sys.exit(main())
