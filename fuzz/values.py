"""Values of templates: what operators give for them, how they are printed, and how a printed value is read.

A value is a kind with its content:

    undefined, silent, none    None (`silent` is the undefined value that an if expression without else has)
    bool, int, text            a Python bool, int or str
    list, tuple                a Python tuple of values
    map, kwargs                a Python tuple of pairs (key, value), no two keys of which are equal
"""

from typing import Any, NamedTuple, Optional

LEAST_INTEGER = -(2**127)
GREATEST_INTEGER = 2**128 - 1
GREATEST_COUNT = 2**64 - 1
UNDEFINED_KINDS = ("undefined", "silent")
MAP_KINDS = ("map", "kwargs")
SEQUENCE_KINDS = ("list", "tuple")


class Value(NamedTuple):
    """A kind, and the content that goes with it."""

    kind: str
    content: Any = None


class OperatorFault(Exception):
    """An operator has no result for its operands."""


UNDEFINED = Value("undefined")
SILENT = Value("silent")
NONE = Value("none")
TRUE = Value("bool", True)
FALSE = Value("bool", False)


def boolean(content: bool) -> Value:
    """A truth value."""
    return TRUE if content else FALSE


def integer(content: int) -> Value:
    """An integer, or a fault where it is out of range."""
    if not LEAST_INTEGER <= content <= GREATEST_INTEGER:
        raise OperatorFault("overflow")
    return Value("int", content)


def text(content: str) -> Value:
    """A text."""
    return Value("text", content)


def sequence(kind: str, items) -> Value:
    """A list or a tuple of these items."""
    return Value(kind, tuple(items))


def mapping(kind: str, pairs) -> Value:
    """A map or a keyword map. An equal key keeps its place and takes the new value."""
    kept = []
    for key, value in pairs:
        places = [at for at, (old, _) in enumerate(kept) if equals(old, key)]
        if places:
            kept[places[0]] = (kept[places[0]][0], value)
        else:
            kept.append((key, value))
    return Value(kind, tuple(kept))


# Questions


def is_true(value: Value) -> bool:
    """False are both undefined values, none, false, 0 and what is empty."""
    if value.kind in UNDEFINED_KINDS or value.kind == "none":
        return False
    return bool(value.content)


def is_undefined(value: Value) -> bool:
    """Whether it is one of the two undefined values."""
    return value.kind in UNDEFINED_KINDS


def as_count(value: Value) -> Optional[int]:
    """The number that an integer of 0 to 2^64 - 1 is."""
    if value.kind == "int" and 0 <= value.content <= GREATEST_COUNT:
        return value.content
    return None


def equals(left: Value, right: Value) -> bool:
    """Same kind and equal contents. Maps are compared without regard to order, and both undefined values are equal."""
    if is_undefined(left) and is_undefined(right):
        return True
    if left.kind != right.kind:
        return False
    if left.kind in SEQUENCE_KINDS:
        same_length = len(left.content) == len(right.content)
        return same_length and all(map(equals, left.content, right.content))
    if left.kind in MAP_KINDS:
        return _equal_pairs(left.content, right.content)
    return left.content == right.content


def _equal_pairs(left, right) -> bool:
    """Whether two maps of the same kind have the same pairs."""
    if len(left) != len(right):
        return False
    for key, value in left:
        others = [other for other_key, other in right if equals(key, other_key)]
        if not others or not equals(value, others[0]):
            return False
    return True


def order(left: Value, right: Value) -> Optional[int]:
    """-1, 0 or 1 where the two have an order, else None.

    Integers, truth values (false first), texts by their bytes, and two lists or two tuples item by item have one.
    """
    if left.kind != right.kind:
        return None
    if left.kind in ("int", "bool"):
        return _compare(left.content, right.content)
    if left.kind == "text":
        return _compare(left.content.encode(), right.content.encode())
    if left.kind in SEQUENCE_KINDS:
        for mine, other in zip(left.content, right.content):
            found = order(mine, other)
            if found != 0:
                return found
        return _compare(len(left.content), len(right.content))
    return None


def _compare(left, right) -> int:
    return (left > right) - (left < right)


def compare(name: str, left: Value, right: Value) -> bool:
    """What a comparison answers. `In` asks whether the right side contains the left one."""
    if name == "Eq":
        return equals(left, right)
    if name == "Ne":
        return not equals(left, right)
    if name == "In":
        return contains(right, left)
    if name == "NotIn":
        return not contains(right, left)
    found = order(left, right)
    return found in {"Lt": (-1,), "Lte": (-1, 0), "Gt": (1,), "Gte": (0, 1)}[name]


def contains(holder: Value, item: Value) -> bool:
    """A text in a text, an equal item in a list or tuple, an equal key in a map or keyword map."""
    if holder.kind == "text" and item.kind == "text":
        return item.content in holder.content
    if holder.kind in SEQUENCE_KINDS:
        return any(equals(item, it) for it in holder.content)
    if holder.kind in MAP_KINDS:
        return any(equals(item, key) for key, _ in holder.content)
    raise OperatorFault("wrong type")


# Operators


def _number(value: Value) -> int:
    if value.kind != "int":
        raise OperatorFault("wrong type")
    return value.content


def negate(value: Value) -> Value:
    """The negative of an integer."""
    return integer(-_number(value))


def arithmetic(name: str, left: Value, right: Value) -> Value:
    """Add, Sub, Mul, IntDiv, Rem or Pow of two integers."""
    a, b = _number(left), _number(right)
    if name == "Add":
        return integer(a + b)
    if name == "Sub":
        return integer(a - b)
    if name == "Mul":
        return integer(a * b)
    if name == "Pow":
        return integer(_power(a, b))
    if b == 0:
        raise OperatorFault("division by zero")
    quotient, rest = euclidean(a, b)
    return integer(quotient if name == "IntDiv" else rest)


def euclidean(a: int, b: int):
    """The quotient and the rest for which `a = b * quotient + rest` and `0 <= rest < |b|`."""
    rest = a % abs(b)
    return (a - rest) // b, rest


def _power(base: int, exponent: int) -> int:
    """`base ** exponent`, with `0 ** 0 = 1`, in few steps also where the exponent is large."""
    if exponent < 0:
        raise OperatorFault("wrong type")
    if base in (0, 1):
        return 1 if exponent == 0 else base
    if base == -1:
        return 1 if exponent % 2 == 0 else -1
    if exponent > 128:
        raise OperatorFault("overflow")
    return base**exponent


def concat(left: Value, right: Value) -> Value:
    """The two joined as a text."""
    return text(_joined(left) + _joined(right))


def _joined(value: Value) -> str:
    """A text as it is, nothing for both undefined values, and another value as printed."""
    if value.kind == "text":
        return value.content
    return "" if is_undefined(value) else show(value)


# Printing

ESCAPES = {'"': '\\"', "\\": "\\\\", "\n": "\\n", "\r": "\\r", "\t": "\\t"}
UNESCAPES = {shown: letter for letter, shown in ESCAPES.items()}
QUOTED = str.maketrans(ESCAPES)


def quote(content: str) -> str:
    """A text in double quotes, with five characters escaped and all else as it is."""
    # A name has none of them.
    return f'"{content if content.isidentifier() else content.translate(QUOTED)}"'


def show(value: Value) -> str:
    """The printed form of a value."""
    kind, content = value
    if kind in UNDEFINED_KINDS or kind == "none":
        return kind
    if kind == "bool":
        return "true" if content else "false"
    if kind == "int":
        return str(content)
    if kind == "text":
        return quote(content)
    if kind == "list":
        return f"[{show_all(content)}]"
    if kind == "tuple":
        return f"({show_all(content)}{',' if len(content) == 1 else ''})"
    pairs = ", ".join(f"{show(key)}: {show(it)}" for key, it in content)
    return f"{'kwargs' if kind == 'kwargs' else ''}{{{pairs}}}"


def show_all(several) -> str:
    """Several values with commas between."""
    return ", ".join(map(show, several))


# Reading what is printed


class Word(str):
    """A bare word of a printed instruction that is no value, such as `Capture`."""


class Reader:
    """Reads printed values, and the parts of printed instructions, from a text."""

    WORDS = {"undefined": UNDEFINED, "silent": SILENT, "none": NONE, "true": TRUE, "false": FALSE}

    def __init__(self, source: str):
        self.source = source
        self.at = 0

    def over(self) -> bool:
        """Whether all has been read."""
        return self.at == len(self.source)

    def meets(self, start: str) -> bool:
        """Takes `start` where it stands here."""
        if not self.source.startswith(start, self.at):
            return False
        self.at += len(start)
        return True

    def want(self, start: str):
        """Takes `start`, which has to stand here."""
        if not self.meets(start):
            raise ValueError(f"{start!r} wanted at {self.at} of {self.source!r}")

    def part(self):
        """A value or a bare word."""
        letter = self.source[self.at : self.at + 1]
        if letter == '"':
            return text(self.quoted())
        if letter.isdigit() or letter == "-":
            return Value("int", int(self.run(lambda it: it.isdigit() or it == "-")))
        if self.meets("["):
            return sequence("list", self.several("]", self.part))
        if self.meets("("):
            return sequence("tuple", self.several(")", self.part))
        if self.meets("kwargs{"):
            return Value("kwargs", tuple(self.several("}", self.pair)))
        if self.meets("{"):
            return Value("map", tuple(self.several("}", self.pair)))
        word = self.run(str.isalpha)
        if not word:
            raise ValueError(f"nothing to read at {self.at} of {self.source!r}")
        return self.WORDS.get(word, Word(word))

    def run(self, wanted) -> str:
        """The characters from here on that are wanted."""
        start = self.at
        while not self.over() and wanted(self.source[self.at]):
            self.at += 1
        return self.source[start : self.at]

    def quoted(self) -> str:
        """A text in double quotes."""
        self.want('"')
        letters = []
        while not self.meets('"'):
            length = 2 if self.source[self.at] == "\\" else 1
            shown = self.source[self.at : self.at + length]
            letters.append(UNESCAPES[shown] if length == 2 else shown)
            self.at += length
        return "".join(letters)

    def pair(self):
        """A key and its value."""
        key = self.part()
        self.want(": ")
        return key, self.part()

    def several(self, end: str, read) -> list:
        """What `read` reads, with commas between, up to `end`. A tuple of one item has a comma behind it."""
        found = []
        while not self.meets(end):
            if found:
                self.want(",")
                if self.meets(end):
                    break
                self.want(" ")
            found.append(read())
        return found
