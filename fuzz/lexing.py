"""A model of the tokenizer: a text is cut into data, tags, comments and raw blocks, and a tag into tokens.

It is written from the rules of the language, and knows nothing of a program's code. What it asks of `rules` is what
the two programs do differently on purpose.
"""

import re
import unicodedata
from typing import NamedTuple, Optional

import config
import rules
from config import ASCII_SPACE, BLOCK, COMMENT, LINE_COMMENT, LINE_STATEMENT, SPACES, SPACES_IN_LINE, VARIABLE
from values import quote

SYNTAX_ERROR, BAD_ESCAPE = "SyntaxError", "BadEscape"
DATA, BLOCK_START, BLOCK_END = "TemplateData", "BlockStart", "BlockEnd"
VARIABLE_START, VARIABLE_END = "VariableStart", "VariableEnd"
IDENT, STR, STRING, INT, INT128 = "Ident", "Str", "String", "Int", "Int128"
TWO = {"//": "FloorDiv", "**": "Pow", "==": "Eq", "!=": "Ne", ">=": "Gte", "<=": "Lte"}
ONE = {
    "+": "Plus", "-": "Minus", "*": "Mul", "/": "Div", "%": "Mod", ".": "Dot", ",": "Comma", ":": "Colon",
    "~": "Tilde", "|": "Pipe", "=": "Assign", ">": "Gt", "<": "Lt", "(": "ParenOpen", ")": "ParenClose",
    "[": "BracketOpen", "]": "BracketClose", "{": "BraceOpen", "}": "BraceClose",
}  # fmt: skip
OPENING, CLOSING = set("([{"), set(")]}")
TEXT_KINDS = {DATA, IDENT, STR, STRING}
NUMBER_KINDS = {INT, INT128}
ASCII_NAME = re.compile(r"[A-Za-z0-9_]*")
SPACE = re.compile(f"[{SPACES}]*")
SPACE_IN_LINE = re.compile(f"[{SPACES_IN_LINE}]*")
TO_LINE_END = re.compile(r"[^\r\n]*")
LINE_END = re.compile(r"\r\n|\n|\r|")
THEIR_LINE_END = re.compile(r"\n?\r?")
TRIMMED_END = re.compile(r"\r?\n?")
# A string up to its end. A backslash takes the next character along.
STRINGS = {mark: re.compile(rf"{mark}((?:[^{mark}\\]|\\.)*){mark}", re.S) for mark in "'\""}
ESCAPE = re.compile(r"\\(?:u([0-9a-fA-F]{4})|(.))|[^\\]+", re.S)
LETTERS = {"b": "\b", "f": "\f", "n": "\n", "r": "\r", "t": "\t", "\\": "\\", "/": "/", '"': '"', "'": "'"}
RADIXES = {"b": 2, "o": 8, "x": 16}
DIGITS = re.compile(r"[0-9_]*")
HEX_DIGITS = re.compile(r"[0-9a-fA-F_]*")
# Behind the point of a number, what makes it a float although a letter follows.
EXPONENT = re.compile(r"[eE][-+0-9]")
GREATEST_COLUMN = 65535


class Token(NamedTuple):
    """A token: its kind, its text or number, and where it begins and ends in the text, in characters."""

    kind: str
    value: object
    start: int
    end: int


class Refusal(NamedTuple):
    """A refusal: of which kind, and where, if it is anywhere. A float is refused as such."""

    kind: str
    at: Optional[int]
    is_float: bool = False


class Stopped(Exception):
    """The tokenizer refuses the rest of the text."""

    def __init__(self, kind: str, at: int, is_float: bool = False):
        super().__init__(kind, at)
        self.refusal = Refusal(kind, at, is_float)


class Unicode(NamedTuple):
    """What characters are taken for that Python's version does not know: letters, parts of names, or neither."""

    starts: bool = False
    continues: bool = False

    def begins_name(self, letter: str) -> bool:
        """Whether a character begins an identifier."""
        if letter.isidentifier():
            return True
        return self.starts and unicodedata.category(letter) == "Cn"

    def continues_name(self, letter: str) -> bool:
        """Whether a character stands in an identifier behind its first."""
        if f"a{letter}".isidentifier():
            return True
        return self.continues and unicodedata.category(letter) == "Cn"


KNOWN_LETTERS = Unicode()


class Lexer:
    """Cuts a text. `tokens` are those up to the end or the refusal."""

    def __init__(self, source: str, syntax: config.Config, choice: rules.Rules, unicode: Unicode = KNOWN_LETTERS):
        self.text = source if syntax.keep else without_last_end(source)
        self.syntax = syntax
        self.choice = choice
        self.unicode = unicode
        self.at = 0
        self.tokens = []
        self.refusal: Optional[Refusal] = None

    def template(self) -> "Lexer":
        """Cuts the text as a template."""
        try:
            while self.at < len(self.text):
                self.segment()
        except Stopped as why:
            self.refusal = why.refusal
        return self

    def expression(self) -> "Lexer":
        """Cuts the text as the inner part of one variable tag."""
        try:
            self.tag(VARIABLE)
            if self.at < len(self.text):
                raise Stopped(SYNTAX_ERROR, self.at)
        except Stopped as why:
            self.refusal = why.refusal
        return self

    def add(self, kind: str, value, start: int, end: int):
        """Adds a token."""
        self.tokens.append(Token(kind, value, start, end))

    # Data and what it stands before

    def segment(self):
        """Goes on behind data and the tag, comment or raw block that follows it."""
        start = self.at
        place, marker = self.find_marker()
        kind = self.syntax.starts.get(marker)
        self.at = place + len(marker)
        control = self.control() if kind and kind != LINE_STATEMENT else ""
        end = self.kept_end(start, place, kind, control) if kind else place
        if end > start:
            self.add(DATA, self.text[start:end], start, end)
        if kind == COMMENT:
            self.comment()
        elif kind == LINE_COMMENT:
            self.at = self.line_end(TO_LINE_END.match(self.text, self.at).end())
        elif kind == VARIABLE:
            self.add(VARIABLE_START, None, place, self.at)
            self.tag(VARIABLE)
        elif kind and not (kind == BLOCK and self.raw()):
            self.add(BLOCK_START, None, place, self.at)
            self.tag(kind)

    def find_marker(self) -> tuple:
        """The place and the text of the next start marker, or the end and nothing."""
        at = self.at
        while found := self.syntax.start.search(self.text, at):
            place = found.start()
            for marker in self.syntax.longest:
                if self.text.startswith(marker, place) and self.is_eligible(marker, place):
                    return place, marker
            at = place + 1
        return len(self.text), ""

    def is_eligible(self, marker: str, place: int) -> bool:
        """Whether a marker counts at a place. A line statement begins its line."""
        if self.syntax.starts[marker] != LINE_STATEMENT:
            return True
        while place and self.text[place - 1] in " \t":
            place -= 1
        return place == 0 or self.text[place - 1] in "\r\n"

    def control(self) -> str:
        """Takes a control where one stands here."""
        found = self.text[self.at : self.at + 1]
        if found not in ("-", "+"):
            return ""
        self.at += 1
        return found

    def kept_end(self, start: int, place: int, kind: str, control: str) -> int:
        """Where the data before a marker ends, of which the marker may take space away."""
        if control == "-":
            return start + len(self.text[start:place].rstrip(SPACES))
        if control == "+":
            return place
        if self.syntax.lstrip:
            is_cut = kind != VARIABLE and self.begins_line(place)
        else:
            is_cut = kind in (LINE_STATEMENT, LINE_COMMENT)
        return self.without_indent(start, place) if is_cut else place

    def begins_line(self, place: int) -> bool:
        """Whether only space stands between a place and the line end before it."""
        line = max(self.text.rfind("\n", 0, place), self.text.rfind("\r", 0, place)) + 1
        return not self.text[line:place].strip(SPACES_IN_LINE)

    def without_indent(self, start: int, end: int) -> int:
        """Where data ends once space behind its last line end is taken off, if that leaves whole lines."""
        kept = self.text[start:end].rstrip(SPACES_IN_LINE)
        return start + len(kept) if not kept or kept.endswith("\n") else end

    def skip_behind(self, control: str, trims: bool):
        """Skips what the end of a tag takes away behind it."""
        if control == "-":
            self.at = SPACE.match(self.text, self.at).end()
        elif not control and trims and self.syntax.trim:
            self.at = TRIMMED_END.match(self.text, self.at).end()

    def line_end(self, at: int) -> int:
        """Where the line end that stands here is over."""
        ours = LINE_END.match(self.text, at).end()
        theirs = THEIR_LINE_END.match(self.text, at).end()
        if ours == theirs:
            return ours
        return ours if self.choice.ours(rules.ENDS_OF_LINES) else theirs

    def comment(self):
        """Goes on behind a comment."""
        mark = self.syntax.ends[COMMENT]
        end = self.text.find(mark, self.at)
        if end < 0:
            raise Stopped(SYNTAX_ERROR, len(self.text))
        tail = self.text[end - 1] if end > self.at else ""
        if end == self.at and mark[0] in "-+" and not self.choice.ours(rules.EMPTY_COMMENT):
            tail = mark[0]
        self.at = end + len(mark)
        self.skip_behind(tail if tail in ("-", "+") else "", True)

    def raw(self) -> bool:
        """Goes on behind a raw block, if one begins here."""
        head = self.syntax.raw.match(self.text, self.at)
        if not head:
            return False
        start, end, foot = head.end(), *self.endraw(head.end())
        self.at = start
        self.skip_behind(head.group(1) or "", True)
        first, last = min(self.at, end), end
        if foot.group(1) == "-":
            last = first + len(self.text[first:end].rstrip(SPACES))
        elif not foot.group(1) and self.syntax.lstrip:
            last = self.without_indent(first, end)
        self.add(DATA, self.text[first:last], start, end)
        self.at = foot.end()
        self.skip_behind(foot.group(2) or "", True)
        return True

    def endraw(self, at: int) -> tuple:
        """Where the text of a raw block ends, and the tag that ends it."""
        mark = next(start for start, kind in self.syntax.starts.items() if kind == BLOCK)
        while (at := self.text.find(mark, at)) >= 0:
            foot = self.syntax.endraw.match(self.text, at + len(mark))
            if foot:
                return at, foot
            at += len(mark)
        raise Stopped(SYNTAX_ERROR, len(self.text))

    # Tags

    def tag(self, kind: str):
        """Cuts a tag behind its start."""
        end, balance = self.syntax.ends.get(kind), 0
        while True:
            if end is None and balance == 0 and self.ends_line():
                return
            self.at = ASCII_SPACE.match(self.text, self.at).end()
            if self.at == len(self.text):
                if end is None:
                    self.add(BLOCK_END, None, self.at, self.at)
                return
            if end is not None and balance == 0 and self.ends_tag(kind, end):
                return
            letter = self.text[self.at]
            self.token(letter)
            balance += (letter in OPENING) - (letter in CLOSING)

    def ends_line(self) -> bool:
        """Whether a line statement ends here."""
        at = SPACE_IN_LINE.match(self.text, self.at).end()
        if at < len(self.text) and self.text[at] not in "\r\n":
            return False
        end = self.line_end(at)
        self.add(BLOCK_END, None, self.at, end)
        self.at = end
        return True

    def ends_tag(self, kind: str, end: str) -> bool:
        """Whether a tag ends here, perhaps with a control before its end."""
        control = self.text[self.at] if self.text[self.at] in "-+" else ""
        if not (control and self.text.startswith(end, self.at + 1)):
            control = ""
            if not self.text.startswith(end, self.at):
                return False
        start, self.at = self.at, self.at + len(control) + len(end)
        self.add(VARIABLE_END if kind == VARIABLE else BLOCK_END, None, start, self.at)
        self.skip_behind(control, kind == BLOCK)
        return True

    def token(self, letter: str):
        """Takes the token that begins here with this letter."""
        start = self.at
        two = self.text[start : start + 2]
        if two in TWO:
            self.at += 2
            self.add(TWO[two], None, start, self.at)
        elif letter in ONE:
            self.at += 1
            self.add(ONE[letter], None, start, self.at)
        elif letter in STRINGS:
            self.string(letter)
        elif "0" <= letter <= "9":
            self.number()
        elif letter == "_" or self.unicode.begins_name(letter):
            self.at = self.name_end()
            self.add(IDENT, self.text[start : self.at], start, self.at)
        else:
            raise Stopped(SYNTAX_ERROR, start)

    def name_end(self) -> int:
        """Where the identifier ends that begins here."""
        at = self.at + 1
        while True:
            at = ASCII_NAME.match(self.text, at).end()
            if at == len(self.text) or self.text[at] < "\x80" or not self.unicode.continues_name(self.text[at]):
                return at
            at += 1

    def string(self, mark: str):
        """Takes a string."""
        found = STRINGS[mark].match(self.text, self.at)
        if not found:
            raise Stopped(SYNTAX_ERROR, len(self.text))
        spelled = found.group(1)
        value = unescape(spelled) if "\\" in spelled else spelled
        if value is None:
            raise Stopped(BAD_ESCAPE, self.at)
        self.add(STRING if "\\" in spelled else STR, value, self.at, found.end())
        self.at = found.end()

    def number(self):
        """Takes an integer."""
        start = self.at
        radix = RADIXES.get(self.text[start + 1 : start + 2].lower()) if self.text[start] == "0" else None
        first = start + 2 if radix else start
        self.at = (HEX_DIGITS if radix == 16 else DIGITS).match(self.text, first).end()
        if not radix and self.is_float(start):
            raise Stopped(SYNTAX_ERROR, self.at, True)
        number = read_digits(self.text[first : self.at], radix or 10)
        if number is None:
            raise Stopped(SYNTAX_ERROR, self.at)
        self.add(INT if number < 2**64 else INT128, number, start, self.at)

    def is_float(self, start: int) -> bool:
        """Whether the digits from `start` to here are the first of a float."""
        if self.text[self.at : self.at + 1] in ("e", "E"):
            return True
        if self.text[start - 1 : start] == "." or self.text[self.at : self.at + 1] != ".":
            return False
        behind = self.text[self.at + 1 : self.at + 2]
        if not behind or not (behind == "_" or self.unicode.begins_name(behind)):
            return True
        return EXPONENT.match(self.text, self.at + 1) is not None


def without_last_end(source: str) -> str:
    """The text without one newline at its end, and then without one carriage return."""
    source = source[:-1] if source.endswith("\n") else source
    return source[:-1] if source.endswith("\r") else source


def read_digits(spelled: str, radix: int) -> Optional[int]:
    """The number that digits and underscores mean, or None."""
    digits = spelled.replace("_", "")
    if not digits or spelled.endswith("_"):
        return None
    try:
        number = int(digits, radix)
    except ValueError:
        return None
    return number if number < 2**128 else None


def unescape(spelled: str) -> Optional[str]:
    """What the inner part of a string means, or None where an escape is bad."""
    units, high = [], False
    for found in ESCAPE.finditer(spelled):
        code, letter = found.groups()
        unit = int(code, 16) if code else None
        is_low = unit is not None and 0xDC00 <= unit < 0xE000
        if high != is_low or (letter and letter not in LETTERS):
            return None
        high = unit is not None and 0xD800 <= unit < 0xDC00
        units.append(chr(unit) if code else LETTERS[letter] if letter else found.group())
    return None if high else "".join(units).encode("utf-16", "surrogatepass").decode("utf-16")


# Printing


class Places:
    """Lines and columns of places that are asked for in order."""

    def __init__(self, text: str):
        self.text = text
        self.line = 1
        self.line_start = 0
        self.at = 0

    def show(self, at: int) -> str:
        """A place as `LINE:COLUMN`."""
        count = self.text.count("\n", self.at, at)
        if count:
            self.line += count
            self.line_start = self.text.rfind("\n", self.at, at) + 1
        self.at = at
        line, column = self.line, at - self.line_start
        if line > GREATEST_COLUMN or column > GREATEST_COLUMN:
            line, column = min(line, GREATEST_COLUMN), min(column, GREATEST_COLUMN)
        return f"{line}:{column}"


def show(lexer: Lexer) -> str:
    """What is printed for the tokens."""
    places = Places(lexer.text)
    lines = []
    for kind, value, start, end in lexer.tokens:
        shown = kind
        if kind in TEXT_KINDS:
            shown = f"{kind}({quote(value)})"
        elif kind in NUMBER_KINDS:
            shown = f"{kind}({value})"
        lines.append(f"{places.show(start)}-{places.show(end)} {shown}\n")
    return "".join(lines)


def show_place(lexer: Lexer, at: Optional[int]) -> str:
    """A place of the text as it is printed, or zeros for none."""
    return "0:0" if at is None else Places(lexer.text).show(at)
