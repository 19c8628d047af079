"""A model of the grammar of expressions: tokens are read from left to right, with one token of foresight."""

from typing import List, Optional

import rules
import trees
import values
from lexing import IDENT, INT, INT128, STR, STRING, SYNTAX_ERROR, Lexer, Refusal
from trees import Expression

CONSTANTS = {
    **dict.fromkeys(("true", "True"), values.TRUE),
    **dict.fromkeys(("false", "False"), values.FALSE),
    **dict.fromkeys(("none", "None"), values.NONE),
}
# The operators of each level between comparisons and powers, with the names of their instructions.
LEVELS = [
    {"Plus": "Add", "Minus": "Sub"},
    {"Tilde": "StringConcat"},
    {"Mul": "Mul", "Div": "Div", "FloorDiv": "IntDiv", "Mod": "Rem"},
]
LEVEL_OF = {kind: level for level, kinds in enumerate(LEVELS) for kind in kinds}
COMPARISONS = {"Eq", "Ne", "Lt", "Lte", "Gt", "Gte"}
STRINGS = (STR, STRING)
INTEGERS = (INT, INT128)
BARE_ARGUMENTS = {STR, STRING, INT, INT128, "Plus", "Minus", "BracketOpen", "BraceOpen"}
NO_ARGUMENT = {"and", "or", "else", "is"}
END, LEXER_REFUSAL = "End", "refused by the tokenizer"
DEPTH, THEIR_DEPTH = 300, 150
MOST_ARGUMENTS = 2000


class Refused(Exception):
    """The text is refused. `refusals` has those that may be told, which is one mostly."""

    def __init__(self, *refusals: Refusal):
        super().__init__(*refusals)
        self.refusals = refusals


class ExpressionReader:
    """Reads expressions from the tokens of a text."""

    def __init__(self, lexer: Lexer, choice: rules.Rules):
        self.lexer = lexer
        self.choice = choice
        end = LEXER_REFUSAL if lexer.refusal else END
        self.kinds = [it.kind for it in lexer.tokens] + [end]
        self.words = [it.value if it.kind == IDENT else "" for it in lexer.tokens] + [""]
        self.at = 0
        # The kind of the next token, and its text if it is an identifier.
        self.kind = self.kinds[0]
        self.word = self.words[0]
        # How deep parts nest, counted by the port and by the other program.
        self.depth = 0
        self.their_depth = 0

    # Tokens

    def refusal_at(self, index: int) -> Refusal:
        """The refusal of a token, or of the last one."""
        index = min(index, len(self.lexer.tokens) - 1)
        return Refusal(SYNTAX_ERROR, self.lexer.tokens[index].start if index >= 0 else None)

    def refuse(self):
        """Refuses the next token."""
        raise Refused(self.lexer.refusal if self.kind == LEXER_REFUSAL else self.refusal_at(self.at))

    def refuse_meaning(self):
        """Refuses what was read up to the last token, which is well written but not allowed.

        Where the tokenizer refuses what comes next, either refusal may be told.
        """
        refusal = self.refusal_at(self.at - 1)
        raise Refused(refusal, self.lexer.refusal) if self.kind == LEXER_REFUSAL else Refused(refusal)

    def advance(self):
        """Goes on behind the next token."""
        self.at += 1
        self.kind = self.kinds[self.at]
        self.word = self.words[self.at]

    def meets(self, kind: str) -> bool:
        """Takes the next token if it is of this kind."""
        if self.kind != kind:
            return False
        self.advance()
        return True

    def meets_word(self, *words: str) -> bool:
        """Takes the next token if it is one of these words."""
        if self.word not in words:
            return False
        self.advance()
        return True

    def want(self, kind: str):
        """Takes the next token, which has to be of this kind."""
        if self.kind != kind:
            self.refuse()
        self.advance()

    def want_word(self, *words: str) -> str:
        """Takes the next token, which has to be one of these words."""
        found = self.word
        if found not in words:
            self.refuse()
        self.advance()
        return found

    def want_name(self) -> str:
        """Takes an identifier."""
        found = self.word
        if self.kind != IDENT:
            self.refuse()
        self.advance()
        return found

    # Depth

    def enter(self, counts_upstream: bool = True):
        """Begins a part that nests. Some parts are counted by the port alone, which allows more."""
        self.depth += 1
        self.their_depth += counts_upstream
        is_deep, is_deep_upstream = self.depth > DEPTH, self.their_depth > THEIR_DEPTH
        if is_deep and not is_deep_upstream and self.choice.ours(rules.NESTING):
            self.refuse_meaning()
        if is_deep_upstream and (is_deep or not self.choice.ours(rules.DEPTH)):
            self.refuse_meaning()

    def leave(self, counts_upstream: bool = True, count: int = 1):
        """Ends parts that nest."""
        self.depth -= count
        self.their_depth -= count * counts_upstream

    # Levels

    def standalone(self) -> Expression:
        """An expression that is the whole text."""
        found = self.expression()
        if self.kind != END:
            self.refuse()
        return found

    def expression(self) -> Expression:
        """A whole expression."""
        self.enter()
        found = self.conditional()
        self.leave()
        return found

    def conditional(self) -> Expression:
        """An expression of the lowest level."""
        found = self.either()
        while self.word == "if":
            self.advance()
            test = self.either()
            other = None
            if self.meets_word("else"):
                self.enter(False)
                other = self.conditional()
                self.leave(False)
            found = trees.Conditional(test, found, other)
        return found

    def either(self) -> Expression:
        """An expression of level `or`."""
        found = self.both()
        while self.word == "or":
            self.advance()
            found = trees.binary("or", found, self.both())
        return found

    def both(self) -> Expression:
        """An expression of level `and`."""
        found = self.negated()
        while self.word == "and":
            self.advance()
            found = trees.binary("and", found, self.negated())
        return found

    def negated(self) -> Expression:
        """An expression of level `not`."""
        if self.word != "not":
            return self.comparison()
        self.advance()
        self.enter(False)
        found = trees.unary("Not", self.negated())
        self.leave(False)
        return found

    def comparison(self) -> Expression:
        """An expression of the level of comparisons."""
        first, rest = self.operation(0), []
        while True:
            name = self.comparison_operator()
            if not name:
                return trees.comparison(first, rest) if rest else first
            rest.append((name, self.operation(0)))

    def comparison_operator(self) -> str:
        """Takes a comparison operator, and answers its name, or nothing."""
        found = self.kind
        if found in COMPARISONS:
            self.advance()
            return found
        if self.meets_word("in"):
            return "In"
        if self.meets_word("not"):
            self.want_word("in")
            return "NotIn"
        return ""

    def operation(self, level: int) -> Expression:
        """An expression of this level of binary operators, of which those of higher levels are operands."""
        found = self.power()
        while self.kind in LEVEL_OF and LEVEL_OF[self.kind] >= level:
            of_kind = LEVEL_OF[self.kind]
            name = LEVELS[of_kind][self.kind]
            self.advance()
            found = trees.binary(name, found, self.operation(of_kind + 1))
        return found

    def power(self) -> Expression:
        """An expression of level `**`."""
        first = self.applied()
        if self.kind != "Pow":
            return first
        operands = [first]
        while self.meets("Pow"):
            self.enter(False)
            operands.append(self.applied())
        self.leave(False, len(operands) - 1)
        if len(operands) == 2 or self.choice.ours(rules.POWERS):
            found = operands.pop()
            while operands:
                found = trees.binary("Pow", operands.pop(), found)
            return found
        found = operands[0]
        for operand in operands[1:]:
            found = trees.binary("Pow", found, operand)
        return found

    def applied(self) -> Expression:
        """An operand with filters and tests."""
        found = self.operand()
        while True:
            if self.meets("Pipe"):
                found = self.filter(found)
            elif self.meets_word("is"):
                found = self.test(found)
            else:
                return found

    def filter(self, operand: Optional[Expression]) -> trees.Applied:
        """A filter's name with its arguments."""
        name = self.dotted()
        return trees.Applied("ApplyFilter", operand, name, self.arguments() if self.kind == "ParenOpen" else [])

    def test(self, operand: Expression) -> Expression:
        """A test's name with its arguments, of which one may stand without brackets, perhaps behind `not`."""
        is_negated = self.meets_word("not")
        name, arguments = self.dotted(), []
        if self.kind == "ParenOpen":
            arguments = self.arguments()
        elif self.kind in BARE_ARGUMENTS or (self.kind == IDENT and self.word not in NO_ARGUMENT):
            arguments = [trees.Argument(trees.PLAIN, "", self.operand())]
        found = trees.Applied("PerformTest", operand, name, arguments)
        return trees.unary("Not", found) if is_negated else found

    def dotted(self) -> str:
        """A name with dots, as it stands in the text."""
        first = self.at
        self.want_name()
        while self.meets("Dot"):
            self.want_name()
        tokens = self.lexer.tokens
        return self.lexer.text[tokens[first].start : tokens[self.at - 1].end]

    # Operands

    def operand(self) -> Expression:
        """A primary with what follows it, or a negative."""
        if self.meets("Minus"):
            self.enter(False)
            found = trees.unary("Neg", self.operand())
            self.leave(False)
            return found
        found = self.primary()
        while True:
            if self.meets("Dot"):
                found = self.behind_dot(found)
            elif self.meets("BracketOpen"):
                found = self.subscript(found)
            elif self.kind == "ParenOpen":
                found = trees.Call(found, self.arguments())
            else:
                return found

    def behind_dot(self, base: Expression) -> Expression:
        """An attribute, or an item whose key is a number."""
        if self.kind in INTEGERS:
            return trees.Item(base, self.integer())
        return trees.Attribute(base, self.want_name())

    def integer(self) -> trees.Constant:
        """Takes an integer."""
        found = values.Value("int", self.lexer.tokens[self.at].value)
        self.advance()
        return trees.Constant(found)

    def subscript(self, base: Expression) -> Expression:
        """An item or a slice, behind its bracket."""
        start = None if self.kind == "Colon" else self.expression()
        if start is not None and self.meets("BracketClose"):
            return trees.Item(base, start)
        self.want("Colon")
        stop = None if self.kind in ("Colon", "BracketClose") else self.expression()
        step = None
        if self.meets("Colon") and self.kind != "BracketClose":
            step = self.expression()
        self.want("BracketClose")
        return trees.Slice(base, [start, stop, step])

    def arguments(self) -> List[trees.Argument]:
        """The arguments of a call."""
        self.want("ParenOpen")
        found, has_named = [], False
        while not self.meets("ParenClose"):
            if found:
                self.want("Comma")
                if self.meets("ParenClose"):
                    break
            argument = self.argument()
            if argument.kind == trees.PLAIN and has_named:
                self.refuse_meaning()
            has_named = has_named or argument.kind in (trees.KEYWORD, trees.MERGED)
            found.append(argument)
            if len(found) > MOST_ARGUMENTS:
                self.refuse_meaning()
        return found

    def argument(self) -> trees.Argument:
        """An argument."""
        if self.meets("Mul"):
            return trees.Argument(trees.SPREAD, "", self.expression())
        if self.meets("Pow"):
            return trees.Argument(trees.MERGED, "", self.expression())
        value = self.expression()
        if self.kind != "Assign":
            return trees.Argument(trees.PLAIN, "", value)
        self.advance()
        if type(value) is not trees.Variable:
            self.refuse_meaning()
        return trees.Argument(trees.KEYWORD, value.name, self.expression())

    def primary(self) -> Expression:
        """A constant, a variable, or what stands in brackets."""
        self.enter()
        found = self.of_primary()
        self.leave()
        return found

    def of_primary(self) -> Expression:
        """A primary, once it has been counted."""
        if self.kind == IDENT:
            start, name = self.lexer.tokens[self.at].start, self.word
            self.advance()
            return trees.Constant(CONSTANTS[name]) if name in CONSTANTS else trees.Variable(name, start)
        if self.kind in STRINGS:
            return self.string()
        if self.kind in INTEGERS:
            return self.integer()
        if self.meets("ParenOpen"):
            return self.brackets()
        if self.meets("BracketOpen"):
            return trees.sequence("list", self.several("BracketClose", self.expression))
        self.want("BraceOpen")
        return trees.mapping(self.several("BraceClose", self.pair))

    def string(self) -> trees.Constant:
        """Strings that stand side by side."""
        if self.kind == STR and self.loses_refusal():
            self.kinds[-1] = END
        found = ""
        while self.kind in STRINGS:
            found += self.lexer.tokens[self.at].value
            self.advance()
        return trees.Constant(values.text(found))

    def loses_refusal(self) -> bool:
        """Whether a refusal right behind this string is lost, as the other program does. It refuses no floats."""
        if self.kinds[self.at + 1] != LEXER_REFUSAL or self.lexer.refusal.is_float:
            return False
        return not self.choice.ours(rules.LOST_REFUSAL)

    def brackets(self) -> Expression:
        """What stands in round brackets: a tuple, or an expression that is not changed by them."""
        if self.meets("ParenClose"):
            return trees.sequence("tuple", [])
        first = self.expression()
        if self.meets("ParenClose"):
            return first
        self.want("Comma")
        return trees.sequence("tuple", [first, *self.several("ParenClose", self.expression)])

    def several(self, end: str, read) -> list:
        """What `read` reads, with commas between and perhaps one behind, up to a closing bracket."""
        found = []
        while not self.meets(end):
            found.append(read())
            if self.kind != end:
                self.want("Comma")
        return found

    def pair(self) -> tuple:
        """A key and a value."""
        key = self.expression()
        self.want("Colon")
        return key, self.expression()

