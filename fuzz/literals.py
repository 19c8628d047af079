"""Constants as templates spell them, and files of answers, which are made of them."""

import re

import values
from values import Value

FAULT = "fault"

CONSTANTS = {
    **dict.fromkeys(("none", "None"), values.NONE),
    **dict.fromkeys(("true", "True"), values.TRUE),
    **dict.fromkeys(("false", "False"), values.FALSE),
}
LETTERS = {"b": "\b", "f": "\f", "n": "\n", "r": "\r", "t": "\t", "\\": "\\", "/": "/", '"': '"', "'": "'"}
SPELLED = {letter: f"\\{name}" for name, letter in LETTERS.items()}
RADIXES = {"0x": 16, "0o": 8, "0b": 2}
SPACE = re.compile(r"[ \t\r\f]*")
NUMBER = re.compile(r"0[xX][0-9a-fA-F_]+|0[oO][0-7_]+|0[bB][01_]+|[0-9][0-9_]*")
NAME = re.compile(r"[A-Za-z]+")
STRING = re.compile(r"\"(?:[^\"\\]|\\.)*\"|'(?:[^'\\]|\\.)*'", re.S)
ESCAPE = re.compile(r"\\u[dD][89abAB][0-9a-fA-F]{2}\\u[dD][c-fC-F][0-9a-fA-F]{2}|\\u[0-9a-fA-F]{4}|\\.", re.S)


class BadAnswer(ValueError):
    """A line of a file of answers is no answer."""


# Reading


def read_answers(content: str) -> list:
    """The answers of a file, one a line."""
    *lines, last = content.split("\n")
    lines = [it.removesuffix("\r") for it in lines] + ([last] if last else [])
    return [read_answer(it) for it in lines]


def read_answer(line: str):
    """An answer: `fault`, or a list of constants, as a tuple of values."""
    if line == FAULT:
        return FAULT
    reader = LiteralReader(line)
    reader.want("[")
    found = []
    while not reader.meets("]"):
        if found:
            reader.want(",")
            if reader.meets("]"):
                break
        found.append(reader.constant())
    if not reader.over():
        raise BadAnswer(line)
    return tuple(found)


class LiteralReader:
    """Reads constants from a text."""

    def __init__(self, source: str):
        self.source = source
        self.at = 0
        self.skip()

    def skip(self):
        """Goes on behind space."""
        self.at = SPACE.match(self.source, self.at).end()

    def over(self) -> bool:
        """Whether all has been read."""
        return self.at == len(self.source)

    def meets(self, mark: str) -> bool:
        """Takes `mark` where it stands here."""
        if not self.source.startswith(mark, self.at):
            return False
        self.at += len(mark)
        self.skip()
        return True

    def want(self, mark: str):
        """Takes `mark`, which has to stand here."""
        if not self.meets(mark):
            raise BadAnswer(self.source)

    def next(self, pattern):
        """What the pattern finds here, or None."""
        found = pattern.match(self.source, self.at)
        if not found:
            return None
        self.at = found.end()
        self.skip()
        return found.group()

    def constant(self) -> Value:
        """A constant."""
        spelled = self.next(STRING)
        if spelled:
            content = read_string(spelled)
            while spelled := self.next(STRING):
                content += read_string(spelled)
            return values.text(content)
        spelled = self.next(NUMBER)
        if spelled:
            return Value("int", read_number(spelled))
        spelled = self.next(NAME)
        if spelled not in CONSTANTS:
            raise BadAnswer(self.source)
        return CONSTANTS[spelled]


def read_number(spelled: str) -> int:
    """The number that decimal or other digits mean."""
    digits = spelled.replace("_", "")
    radix = RADIXES.get(digits[:2].lower())
    number = int(digits[2:], radix) if radix else int(digits)
    if number > values.GREATEST_INTEGER or spelled.endswith("_"):
        raise BadAnswer(spelled)
    return number


def read_string(spelled: str) -> str:
    """What a string in quotes means."""
    return ESCAPE.sub(lambda it: read_escape(it.group()), spelled[1:-1])


def read_escape(spelled: str) -> str:
    """What an escape means."""
    if spelled[1] != "u":
        if spelled[1] not in LETTERS:
            raise BadAnswer(spelled)
        return LETTERS[spelled[1]]
    units = b"".join(int(it, 16).to_bytes(2, "little") for it in spelled.split("\\u")[1:])
    return units.decode("utf-16-le")


# Writing, in ways that a random number generator chooses


def write_answer(answer, random) -> str:
    """An answer as a line, without its end."""
    if answer == FAULT:
        return FAULT
    comma = random.choice((", ", ", ", ",", " , "))
    edge = random.choice(("", "", "", " "))
    last = "," if answer and random.random() < 0.05 else ""
    return f"[{edge}{comma.join(write_constant(it, random) for it in answer)}{last}{edge}]"


def write_answers(lines: list, random) -> str:
    """Lines of answers as a file. The last line may lack its end."""
    end = random.choice(("\n", "\n", "\n", "\r\n"))
    content = "".join(line + end for line in lines)
    return content[: -len(end)] if lines and lines[-1] and random.random() < 0.2 else content


def write_constant(value: Value, random) -> str:
    """A constant as a template may spell it."""
    if value.kind == "int":
        return write_number(value.content, random)
    if value.kind == "text":
        return write_text(value.content, random)
    return random.choice([spelled for spelled, it in CONSTANTS.items() if it == value])


def write_number(number: int, random) -> str:
    """An integer of at least 0."""
    way = random.random()
    if way < 0.9:
        return str(number)
    if way < 0.95:
        digits = str(number)
        at = random.randrange(len(digits))
        return f"{digits[:at]}_{digits[at:]}" if at else digits
    found = random.choice((hex, oct, bin))(number)
    return found.upper() if random.random() < 0.3 else found


def write_text(content: str, random) -> str:
    """A text as one string, or as two that stand side by side."""
    if len(content) > 1 and random.random() < 0.04:
        middle = len(content) // 2
        return f"{write_string(content[:middle], random)} {write_string(content[middle:], random)}"
    return write_string(content, random)


def write_string(content: str, random) -> str:
    """A text as one string."""
    mark = random.choice("\"\"\"'")
    return mark + "".join(write_letter(it, mark, random) for it in content) + mark


def write_letter(letter: str, mark: str, random) -> str:
    """A letter of a string in this kind of quotes. No line ends in it."""
    if letter in ("\n", "\r", "\\", mark):
        return SPELLED[letter]
    if letter in SPELLED and random.random() < 0.3:
        return SPELLED[letter]
    if random.random() < 0.03:
        units = letter.encode("utf-16-le")
        digits = random.choice(("04x", "04X"))
        return "".join(f"\\u{int.from_bytes(units[at : at + 2], 'little'):{digits}}" for at in range(0, len(units), 2))
    return letter
