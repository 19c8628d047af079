"""The intended differences between the two programs. A rule chooses, and nothing else.

Where the port differs on purpose, the model knows what both programs give, and asks for the rule. What was chosen is
counted, so that a text's difference has the names of its rules.
"""

from collections import Counter

ENDS_OF_LINES = "line ends with a carriage return"
EMPTY_COMMENT = "an empty comment has no tail control"
LETTERS = "letters by another version of Unicode"
POWERS = "powers group to the right"
DEPTH = "expressions and statements nest 300 deep"
NESTING = "what nests is counted"
LEAVING_AN_ELSE = "`break` and `continue` in the else body of an outermost loop"
IMPORT_TARGET = "the target of an `import` is refused"
LOST_REFUSAL = "a refusal behind a string is not lost"
REQUIRED = "a required block is refused at its first part that is not blank"
VALUE_OF_DO = "the value of a `do` is dropped"
CAPTURED = "what an import captured is dropped"
LEAVING = "what a loop's turn has open is closed"
RECURSION = "a loop recurses with one value"
CLOSURE = "what a macro encloses"


class Rules:
    """Chooses for one of the two programs, and counts the rules that were asked for."""

    def __init__(self, ours: bool):
        self.is_ours = ours
        self.used = Counter()

    def ours(self, rule: str) -> bool:
        """Whether what the port gives is wanted, where the two programs differ by this rule."""
        self.used[rule] += 1
        return self.is_ours
