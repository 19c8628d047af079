"""The syntax that options set, as the model needs it."""

import re
from typing import NamedTuple

# What a marker begins.
VARIABLE, BLOCK, COMMENT = "variable", "block", "comment"
LINE_STATEMENT, LINE_COMMENT = "line statement", "line comment"
# What `char::is_whitespace` says, and `u8::is_ascii_whitespace`.
SPACES = "\t\n\x0b\x0c\r \x85\xa0\u1680\u2000\u2001\u2002\u2003\u2004\u2005\u2006\u2007\u2008\u2009\u200a"
SPACES += "\u2028\u2029\u202f\u205f\u3000"
SPACES_IN_LINE = SPACES.replace("\n", "").replace("\r", "")
ASCII_SPACE = re.compile(r"[ \t\n\x0c\r]*")
PAIRS = ("--block", "--variable", "--comment")
PREFIXES = ("--line-statement", "--line-comment")
FLAGS = ("--trim-blocks", "--lstrip-blocks", "--keep-newline")
DEFAULTS = {"--block": ("{%", "%}"), "--variable": ("{{", "}}"), "--comment": ("{#", "#}")}


class Config(NamedTuple):
    """Delimiters and prefixes with what each start begins, flags, and the patterns that are made of them.

    It can be built unless a delimiter is empty, or two starts or prefixes are the same.
    """

    can_be_built: bool
    starts: dict
    ends: dict
    trim: bool
    lstrip: bool
    keep: bool
    # Where a start begins, and the starts with the longest first.
    start: "re.Pattern[str]"
    longest: list
    # Behind the start of a block and its control: the tag of a raw block, and the one that ends it.
    raw: "re.Pattern[str]"
    endraw: "re.Pattern[str]"


def of_options(options: list) -> Config:
    """The configuration that these options of the program set."""
    pairs, prefixes, flags = dict(DEFAULTS), dict.fromkeys(PREFIXES, ""), set()
    words = iter(options)
    for word in words:
        if word in PAIRS:
            pairs[word] = (next(words), next(words))
        elif word in PREFIXES:
            prefixes[word] = next(words)
        else:
            flags.add(word)
    return build(pairs, prefixes, flags)


def build(pairs: dict, prefixes: dict, flags: set) -> Config:
    """The configuration of these pairs of delimiters, prefixes and flags."""
    given = [(pairs[option][0], kind) for option, kind in zip(PAIRS, (BLOCK, VARIABLE, COMMENT))]
    given += [(prefixes[it], kind) for it, kind in zip(PREFIXES, (LINE_STATEMENT, LINE_COMMENT)) if prefixes[it]]
    starts = dict(given)
    ends = {BLOCK: pairs["--block"][1], VARIABLE: pairs["--variable"][1], COMMENT: pairs["--comment"][1]}
    longest = sorted(starts, key=len, reverse=True)
    return Config(
        len(starts) == len(given) and all(all(it) for it in pairs.values()),
        starts,
        ends,
        *(flag in flags for flag in FLAGS),
        start=re.compile("|".join(map(re.escape, longest))),
        longest=longest,
        raw=re.compile(tag("raw", ends[BLOCK])),
        endraw=re.compile("([-+]?)" + tag("endraw", ends[BLOCK])),
    )


def tag(word: str, end: str) -> str:
    """The pattern of a tag that has a word alone, behind its start. Space and a control are taken where they stand."""
    space = ASCII_SPACE.pattern
    return f"{space}{word}{space}(?![ \\t\\n\\x0c\\r])(?:([-+])|(?![-+])){re.escape(end)}"
