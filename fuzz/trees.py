"""Trees of templates: what the parts of a text are, and which constants they have.

An expression's `constant` is the value that stands for it in code, or None.
"""

from typing import List, NamedTuple, Optional, Tuple, Union

import values
from values import Value

# Kinds of arguments.
PLAIN, SPREAD, KEYWORD, MERGED = "plain", "*", "keyword", "**"


# Expressions


class Constant(NamedTuple):
    """A literal."""

    constant: Value


class Variable(NamedTuple):
    """A name, and where it begins in the text."""

    name: str
    start: int
    constant: None = None


class Unary(NamedTuple):
    """`Not` or `Neg` of an operand."""

    name: str
    operand: "Expression"
    constant: Optional[Value]


class Binary(NamedTuple):
    """Two operands with an operator, which has the name of its instruction, or is `and` or `or`."""

    name: str
    left: "Expression"
    right: "Expression"
    constant: Optional[Value]


class Chain(NamedTuple):
    """A comparison of three operands or more: the first, and pairs of an operator and an operand."""

    first: "Expression"
    rest: List[Tuple[str, "Expression"]]
    constant: Optional[Value]


class Conditional(NamedTuple):
    """`yes if test else no`, perhaps without `no`."""

    test: "Expression"
    yes: "Expression"
    no: Optional["Expression"]
    constant: None = None


class Argument(NamedTuple):
    """An argument of a call, with its name if it is a keyword one."""

    kind: str
    name: str
    value: "Expression"


class Applied(NamedTuple):
    """A filter or a test of an operand. The innermost filter of a block has no operand."""

    instruction: str
    operand: Optional["Expression"]
    name: str
    arguments: List[Argument]
    constant: None = None


class Attribute(NamedTuple):
    """An attribute of a base."""

    base: "Expression"
    name: str
    constant: None = None


class Item(NamedTuple):
    """An item of a base."""

    base: "Expression"
    key: "Expression"
    constant: None = None


class Slice(NamedTuple):
    """A slice of a base, of whose parts each may be absent."""

    base: "Expression"
    parts: List[Optional["Expression"]]
    constant: None = None


class Call(NamedTuple):
    """A call."""

    callee: "Expression"
    arguments: List[Argument]
    constant: None = None


class Sequence(NamedTuple):
    """A list or a tuple, by its kind of value. As a target, a list of targets."""

    kind: str
    items: List["Expression"]
    constant: Optional[Value]


class Mapping(NamedTuple):
    """A map: pairs of a key and a value."""

    pairs: List[Tuple["Expression", "Expression"]]
    constant: Optional[Value]


Expression = Union[
    Constant, Variable, Unary, Binary, Chain, Conditional, Applied, Attribute, Item, Slice, Call, Sequence, Mapping
]
Body = List["Statement"]


# Statements


class Data(NamedTuple):
    """Text of a template."""

    text: str


class Output(NamedTuple):
    """A variable tag."""

    value: Expression


class For(NamedTuple):
    """A loop."""

    target: Expression
    iterable: Expression
    condition: Optional[Expression]
    is_recursive: bool
    body: Body
    otherwise: Body


class If(NamedTuple):
    """A condition. An `elif` is an `If` in `otherwise`."""

    test: Expression
    body: Body
    otherwise: Body


class With(NamedTuple):
    """A scope with pairs of a target and a value."""

    pairs: List[Tuple[Expression, Expression]]
    body: Body


class Set(NamedTuple):
    """An assignment of a value."""

    target: Expression
    value: Expression


class SetBlock(NamedTuple):
    """An assignment of what a body writes, perhaps with filters."""

    target: Expression
    filters: Optional[Applied]
    body: Body


class FilterBlock(NamedTuple):
    """Filters of what a body writes."""

    filters: Applied
    body: Body


class Autoescape(NamedTuple):
    """A body with another flag."""

    flag: Expression
    body: Body


class Block(NamedTuple):
    """A block."""

    name: str
    body: Body


class Extends(NamedTuple):
    """An extends tag."""

    file: Expression


class Include(NamedTuple):
    """An include tag."""

    file: Expression
    ignores_missing: bool


class Import(NamedTuple):
    """An import tag."""

    file: Expression
    target: Expression


class From(NamedTuple):
    """A from tag: pairs of a name and the name that it gets."""

    file: Expression
    names: List[Tuple[str, str]]


class Macro(NamedTuple):
    """A macro: its name, its parameters with their defaults, and the place of its word in the text."""

    name: str
    parameters: List[Tuple[str, Optional[Expression]]]
    body: Body
    start: int


class CallBlock(NamedTuple):
    """A call with the macro that it hands over."""

    call: Call
    macro: Macro


class Do(NamedTuple):
    """A call for its effect."""

    call: Call


class Leave(NamedTuple):
    """`break` or `continue`. `is_in_loop` is false in the else body of an outermost loop."""

    word: str
    is_in_loop: bool


Statement = Union[
    Data, Output, For, If, With, Set, SetBlock, FilterBlock, Autoescape, Block, Extends, Include, Import, From, Macro,
    CallBlock, Do, Leave,
]  # fmt: skip


# Making expressions with their constants


def unary(name: str, operand: Expression) -> Unary:
    """`Not` or `Neg` of an operand."""
    value = operand.constant
    if value is not None:
        value = values.boolean(not values.is_true(value)) if name == "Not" else folded(values.negate, value)
    return Unary(name, operand, value)


def binary(name: str, left: Expression, right: Expression) -> Binary:
    """Two operands with an operator. A quotient is never a constant."""
    value = None
    if left.constant is not None and right.constant is not None:
        value = folded(operate, name, left.constant, right.constant)
    return Binary(name, left, right, value)


def folded(operation, *operands) -> Optional[Value]:
    """The result of an operation, or None where it faults."""
    try:
        return operation(*operands)
    except values.OperatorFault:
        return None


def operate(name: str, left: Value, right: Value) -> Optional[Value]:
    """What an operator gives for two constants."""
    if name == "Div":
        return None
    if name == "and":
        return right if values.is_true(left) else left
    if name == "or":
        return left if values.is_true(left) else right
    if name == "StringConcat":
        return values.concat(left, right)
    if name in ("Add", "Sub", "Mul", "IntDiv", "Rem", "Pow"):
        return values.arithmetic(name, left, right)
    return values.boolean(values.compare(name, left, right))


def comparison(first: Expression, rest: list) -> Expression:
    """A comparison of two operands, or of more."""
    if len(rest) > 1:
        return Chain(first, rest, folded(compare_all, first.constant, rest))
    name, right = rest[0]
    if name == "NotIn":
        return unary("Not", binary("In", first, right))
    return binary(name, first, right)


def compare_all(left: Optional[Value], rest: list) -> Optional[Value]:
    """What a chain gives. It stops at its first false, and what stands behind need be no constant."""
    for name, operand in rest:
        right = operand.constant
        if left is None or right is None:
            return None
        if not values.compare(name, left, right):
            return values.FALSE
        left = right
    return values.TRUE


def sequence(kind: str, items: list) -> Sequence:
    """A list or a tuple. It is a constant if its items are literals."""
    if all(type(it) is Constant for it in items):
        return Sequence(kind, items, values.sequence(kind, [it.constant for it in items]))
    return Sequence(kind, items, None)


def mapping(pairs: list) -> Mapping:
    """A map. It is a constant if its keys and values are literals."""
    if all(type(key) is Constant and type(value) is Constant for key, value in pairs):
        return Mapping(pairs, values.mapping("map", [(key.constant, value.constant) for key, value in pairs]))
    return Mapping(pairs, None)


def targets(several: list) -> Sequence:
    """A list of targets."""
    return Sequence("list", several, None)
