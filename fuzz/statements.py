"""A model of the grammar of templates: data, outputs and statements."""

from typing import List, Optional, Tuple

import rules
import trees
from config import SPACES
from grammar import END, ExpressionReader
from lexing import BLOCK_END, BLOCK_START, DATA, IDENT, VARIABLE_END, VARIABLE_START, Lexer
from trees import Body, Expression, Statement

RESERVED = {"true", "True", "false", "False", "none", "None", "loop", "self"}
# What a list of targets may end before.
ENDS_OF_TARGETS = ("ParenClose", BLOCK_END)
NO_LOOP, IN_BODY, IN_OUTER_ELSE = "no loop", "body", "else of an outermost loop"


class TemplateReader(ExpressionReader):
    """Reads a template from the tokens of a text."""

    def __init__(self, lexer: Lexer, choice: rules.Rules):
        super().__init__(lexer, choice)
        self.loop = NO_LOOP
        self.is_in_macro = False
        self.blocks = set()
        # Whether the other program stops by a fault of its own once the whole text has been read.
        self.stops = False

    def template(self) -> Body:
        """A whole template."""
        found = self.body()
        if self.kind != END:
            self.refuse()
        return found

    def body(self, *ends: str) -> Body:
        """A body up to one of the words that end it, which is left, or the end of the text."""
        found = []
        while self.kind != END:
            if self.kind == DATA:
                found.append(trees.Data(self.lexer.tokens[self.at].value))
                self.advance()
            elif self.meets(VARIABLE_START):
                found.append(trees.Output(self.expression()))
                self.want(VARIABLE_END)
            else:
                self.want(BLOCK_START)
                if self.word and self.word in ends:
                    break
                found.append(self.statement())
                self.want(BLOCK_END)
        return found

    def statement(self) -> Statement:
        """A statement, without the end of its tag."""
        read = STATEMENTS.get(self.word)
        if read is None:
            self.refuse()
        self.enter()
        start = self.lexer.tokens[self.at].start
        self.advance()
        found = read(self, start)
        self.leave()
        return found

    def inner(self, *ends: str) -> Body:
        """The body behind the end of a tag, of which the word that ends it is left."""
        self.want(BLOCK_END)
        found = self.body(*ends)
        if self.kind == END:
            self.refuse()
        return found

    def whole(self, end: str) -> Body:
        """The body behind the end of a tag, with the word that ends it."""
        found = self.inner(end)
        self.want_word(end)
        return found

    # Targets

    def target_name(self) -> str:
        """A name that may be stored."""
        name = self.want_name()
        if name in RESERVED:
            self.refuse_meaning()
        return name

    def targets(self, dots: bool) -> Expression:
        """One target, or a list of targets."""
        found, has_comma = [], False
        while self.kind not in ENDS_OF_TARGETS and self.word != "in":
            found.append(self.target(dots))
            has_comma = self.meets("Comma")
            if not has_comma:
                break
        return found[0] if len(found) == 1 and not has_comma else trees.targets(found)

    def bracketed_targets(self, dots: bool) -> Expression:
        """Targets behind an opening bracket, with the closing one."""
        self.enter(False)
        found = self.targets(dots)
        self.leave(False)
        self.want("ParenClose")
        return found

    def target(self, dots: bool) -> Expression:
        """A variable, an attribute where `dots` says so, or targets in brackets."""
        if self.meets("ParenOpen"):
            return self.bracketed_targets(dots)
        start = self.lexer.tokens[self.at].start if self.kind == IDENT else 0
        found: Expression = trees.Variable(self.target_name(), start)
        while dots and self.meets("Dot"):
            found = trees.Attribute(found, self.want_name())
        return found

    # Statements

    def of_for(self, _start: int) -> trees.For:
        """A loop."""
        target = self.targets(False)
        self.want_word("in")
        iterable = self.either()
        condition = self.expression() if self.meets_word("if") else None
        is_recursive = self.meets_word("recursive")
        outer, self.loop = self.loop, IN_BODY
        body = self.inner("endfor", "else")
        self.loop = IN_OUTER_ELSE if outer == NO_LOOP else outer
        otherwise = self.whole("endfor") if self.want_word("endfor", "else") == "else" else []
        self.loop = outer
        return trees.For(target, iterable, condition, is_recursive, body, otherwise)

    def of_if(self, start: int) -> trees.If:
        """A condition with its branches."""
        test = self.either()
        body = self.inner("endif", "else", "elif")
        end = self.want_word("endif", "else", "elif")
        otherwise: Body = []
        if end == "elif":
            self.enter(False)
            otherwise = [self.of_if(start)]
            self.leave(False)
        elif end == "else":
            otherwise = self.whole("endif")
        return trees.If(test, body, otherwise)

    def of_with(self, _start: int) -> trees.With:
        """A scope with assignments."""
        pairs = []
        while self.kind != BLOCK_END:
            if pairs:
                self.want("Comma")
            pairs.append(self.assigned())
        return trees.With(pairs, self.whole("endwith"))

    def assigned(self) -> Tuple[Expression, Expression]:
        """A target with its value."""
        if self.meets("ParenOpen"):
            target = self.bracketed_targets(False)
        else:
            target = trees.Variable(self.target_name(), 0)
        self.want("Assign")
        return target, self.expression()

    def of_set(self, _start: int) -> Statement:
        """An assignment, of a value or of a body."""
        target = self.targets(True)
        if self.meets("Assign"):
            return trees.Set(target, self.assigned_value())
        filters = self.filters() if self.meets("Pipe") else None
        return trees.SetBlock(target, filters, self.whole("endset"))

    def assigned_value(self) -> Expression:
        """A value, or several with commas between, which are a tuple."""
        found = [self.expression()]
        if self.kind != "Comma":
            return found[0]
        while self.meets("Comma") and self.kind != BLOCK_END:
            found.append(self.expression())
        return trees.sequence("tuple", found)

    def filters(self) -> trees.Applied:
        """Filters, the innermost first, which has no operand."""
        found = self.filter(None)
        while self.meets("Pipe"):
            found = self.filter(found)
        return found

    def of_filter(self, _start: int) -> trees.FilterBlock:
        """A filter block."""
        filters = self.filters()
        return trees.FilterBlock(filters, self.whole("endfilter"))

    def of_autoescape(self, _start: int) -> trees.Autoescape:
        """An autoescape block."""
        flag = self.expression()
        return trees.Autoescape(flag, self.whole("endautoescape"))

    def of_block(self, _start: int) -> trees.Block:
        """A block."""
        if self.is_in_macro:
            self.refuse_meaning()
        name = self.want_name()
        if name in self.blocks:
            self.refuse_meaning()
        self.blocks.add(name)
        self.meets_word("scoped")
        is_required = self.meets_word("required")
        outer, self.loop = self.loop, NO_LOOP
        body = self.required_body() if is_required else self.inner("endblock")
        self.loop = outer
        self.want_word("endblock")
        if self.kind == IDENT and self.word != name:
            self.refuse()
        self.meets(IDENT)
        return trees.Block(name, body)

    def required_body(self) -> Body:
        """The body of a required block, which has to be blank. The other program asks for this at its end."""
        self.want(BLOCK_END)
        body: Body = []
        while self.kind == DATA and not self.lexer.tokens[self.at].value.strip(SPACES):
            body.append(trees.Data(self.lexer.tokens[self.at].value))
            self.advance()
        if self.kind == BLOCK_START and self.words[self.at + 1] == "endblock":
            self.advance()
            return body
        if self.choice.ours(rules.REQUIRED):
            self.meets(BLOCK_START)
            self.refuse()
        self.body("endblock")
        if self.kind == END:
            self.refuse()
        self.refuse_meaning()

    def of_extends(self, _start: int) -> trees.Extends:
        """An extends tag."""
        return trees.Extends(self.expression())

    def of_include(self, _start: int) -> trees.Include:
        """An include tag."""
        file = self.expression()
        has_context = self.context()
        ignores_missing = self.meets_word("ignore")
        if ignores_missing:
            self.want_word("missing")
            if not has_context:
                self.context()
        return trees.Include(file, ignores_missing)

    def context(self) -> bool:
        """Takes the words that say whether another template gets the context."""
        if not self.meets_word("with", "without"):
            return False
        self.want_word("context")
        return True

    def of_import(self, _start: int) -> trees.Import:
        """An import tag."""
        file = self.expression()
        self.want_word("as")
        target = self.expression()
        if not is_target(target):
            if self.choice.ours(rules.IMPORT_TARGET):
                self.refuse_meaning()
            self.stops = True
        self.context()
        return trees.Import(file, target)

    def of_from(self, _start: int) -> trees.From:
        """A from tag."""
        file = self.expression()
        self.want_word("import")
        names: List[Tuple[str, str]] = []
        while self.kind != BLOCK_END and not self.context():
            if names:
                self.want("Comma")
                if self.kind == BLOCK_END or self.context():
                    break
            names.append(self.imported())
        return trees.From(file, names)

    def imported(self) -> Tuple[str, str]:
        """A name that is imported, and the one that it gets."""
        name = self.target_name()
        if name.startswith("_"):
            self.refuse_meaning()
        return name, self.target_name() if self.meets_word("as") else name

    def of_macro(self, start: int) -> trees.Macro:
        """A macro."""
        name = self.want_name()
        return self.macro(name, self.parameters(), "endmacro", start)

    def macro(self, name: str, parameters: list, end: str, start: int) -> trees.Macro:
        """A macro, of which all but its body has been read."""
        outer = self.loop, self.is_in_macro
        self.loop, self.is_in_macro = NO_LOOP, True
        body = self.whole(end)
        self.loop, self.is_in_macro = outer
        return trees.Macro(name, parameters, body, start)

    def parameters(self) -> List[Tuple[str, Optional[Expression]]]:
        """Parameters in brackets. Behind one with a default all have one."""
        self.want("ParenOpen")
        found: List[Tuple[str, Optional[Expression]]] = []
        while not self.meets("ParenClose"):
            if found:
                self.want("Comma")
                if self.meets("ParenClose"):
                    break
            name = self.target_name()
            if self.meets("Assign"):
                found.append((name, self.expression()))
            elif found and found[-1][1] is not None:
                self.refuse()
            else:
                found.append((name, None))
        return found

    def of_call(self, start: int) -> trees.CallBlock:
        """A call with the macro that it hands over."""
        parameters = self.parameters() if self.kind == "ParenOpen" else []
        call = self.expression()
        if type(call) is not trees.Call:
            self.refuse_meaning()
        return trees.CallBlock(call, self.macro("caller", parameters, "endcall", start))

    def of_do(self, _start: int) -> trees.Do:
        """A call for its effect."""
        call = self.expression()
        if type(call) is not trees.Call:
            self.refuse_meaning()
        return trees.Do(call)

    def of_leave(self, _start: int) -> trees.Leave:
        """`break` or `continue`, behind its word."""
        word = self.words[self.at - 1]
        if self.loop == NO_LOOP or (self.loop == IN_OUTER_ELSE and self.choice.ours(rules.LEAVING_AN_ELSE)):
            self.refuse_meaning()
        return trees.Leave(word, self.loop == IN_BODY)


STATEMENTS = {
    "for": TemplateReader.of_for,
    "if": TemplateReader.of_if,
    "with": TemplateReader.of_with,
    "set": TemplateReader.of_set,
    "filter": TemplateReader.of_filter,
    "autoescape": TemplateReader.of_autoescape,
    "block": TemplateReader.of_block,
    "extends": TemplateReader.of_extends,
    "include": TemplateReader.of_include,
    "import": TemplateReader.of_import,
    "from": TemplateReader.of_from,
    "macro": TemplateReader.of_macro,
    "call": TemplateReader.of_call,
    "do": TemplateReader.of_do,
    "break": TemplateReader.of_leave,
    "continue": TemplateReader.of_leave,
}


def is_target(expression: Expression) -> bool:
    """Whether an expression is a variable, an attribute, or a list of such."""
    if type(expression) is trees.Sequence and expression.kind == "list":
        return all(is_target(it) for it in expression.items)
    return type(expression) in (trees.Variable, trees.Attribute)
