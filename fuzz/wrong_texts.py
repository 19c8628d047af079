"""Wrong programs that read something else, refuse or accept something else, or print tokens, names, findings or records
that are wrong.
"""

import re
import unicodedata
from typing import List

from wrong import REFUSED, Call, Output, changed, fault, kind, refused

TOKEN = re.compile(r"^(\d+):(\d+)-(\d+):(\d+) (.*)$", re.M)
PLACE = re.compile(r"(\d+):(\d+)$", re.M)
FINDINGS = 3
# What nests about as deep as it may.
DEEP = re.compile(r"(\(|\[|-|\{1:|x\[|f\(|x\|f\(|not |x\*\*|x if x else )\1{147,}")
TWO_OPERANDS = re.compile(r'<- \[(\w+|"[^"]*"), (\w+|"[^"]*")\] ->')
BAD_ANSWER = re.compile(r"bad answer on line (\d+)")
ACCEPTED = {"code": "template\nhint 1\n", "names": "", "lint": "", "expr": "expression\n"}


kind("the text and the options")


def read_as(change):
    """A fault that changes the text before it is read."""
    return lambda call: call.real(change(call.source))


def parsed_as(change):
    """A fault that changes the text before it is parsed, so that its tokens are right."""
    return lambda call: call.real() if call.command == "tokens" else call.real(change(call.source))


def without_option(option: str):
    """A fault that does not know an option, which may have a word."""

    def wrong(call: Call) -> Output:
        at = call.options.index(option) if option in call.options else len(call.options)
        return call.real(options=call.options[:at] + call.options[at + (1 if option in FLAGS else 2) :])

    return wrong


WORDS_OF_OPTIONS = {"block": 3, "variable": 3, "comment": 3, "line-statement": 2, "line-comment": 2}
WORDS_OF_OPTIONS.update({"trim-blocks": 1, "lstrip-blocks": 1, "keep-newline": 1})
FLAGS = ("--trim-blocks", "--lstrip-blocks", "--keep-newline")

fault("all line ends are newlines before the text is read")(
    read_as(lambda source: source.replace("\r\n", "\n").replace("\r", "\n"))
)
fault("all newlines at the end are taken off")(read_as(lambda source: source.rstrip("\n")))
fault("a carriage return at the end is kept")(
    lambda call: call.real(call.source + "\n") if call.source.endswith("\r") else call.real()
)
fault("tabs are four spaces")(read_as(lambda source: source.replace("\t", "    ")))
fault("letters are put into their plain form")(read_as(lambda source: unicodedata.normalize("NFKC", source)))
fault("an ideographic space is a space")(read_as(lambda source: source.replace("\u3000", " ")))
fault("a byte order mark is taken off")(read_as(lambda source: source[source.startswith("\ufeff") :]))
fault("a NUL is a space")(read_as(lambda source: source.replace("\0", " ")))
fault("the text ends at 16384 characters")(read_as(lambda source: source[:16384]))


def taken_for(letter: str, other: str):
    """A fault that takes a character for another one, and prints it as it was."""

    def wrong(call: Call) -> Output:
        found = call.real(call.source.replace(letter, other))
        return found._replace(out=found.out.replace(other, letter))

    return wrong


for code in (0x0B, 0x85, 0xA0, 0x2028, 0x3000):
    fault(f"U+{code:04X} is no white space")(taken_for(chr(code), "\ue000"))
fault("U+001C is white space")(taken_for("\x1c", "\u2000"))
for letter in ("ª", "℘", "·", "０", "\u0301"):
    fault(f"U+{ord(letter):04X} is no part of a name")(taken_for(letter, "\ue000"))
fault("texts are ordered by their UTF-16 units")(taken_for("\ufb01", "\U0001fae0"))


@fault("comments are taken out first")
def no_comments(call: Call) -> Output:
    """Comments of the default syntax are no part of the text."""
    if "--comment" in call.options:
        return call.real()
    return call.real(re.sub(r"\{#.*?#\}", "", call.source, flags=re.S))


for flag in FLAGS:
    fault(f"`{flag}` is not known")(without_option(flag))
fault("`--line-comment` is not known")(without_option("--line-comment"))


@fault("of an option that is given twice the first counts")
def first_option(call: Call) -> Output:
    """The last one is not looked at."""
    groups: List[List[str]] = []
    for word in call.options:
        if word.startswith("--") and word[2:] in WORDS_OF_OPTIONS and (not groups or is_whole(groups[-1])):
            groups.append([])
        groups[-1].append(word)
    first = {it[0]: it for it in reversed(groups)}
    return call.real(options=[word for it in first.values() for word in it])


def is_whole(group: List[str]) -> bool:
    """Whether an option has all its words."""
    return len(group) == WORDS_OF_OPTIONS[group[0][2:]]


def built_anyway(is_meant):
    """A fault that takes the default syntax where one cannot be built."""

    def wrong(call: Call) -> Output:
        found = call.real()
        refused_syntax = "InvalidDelimiter" in found.error and is_meant(call.options)
        return call.real(options=[]) if refused_syntax else found

    return wrong


fault("two starts may be the same")(built_anyway(lambda options: "" not in options))
fault("a delimiter may be empty")(built_anyway(lambda options: "" in options))
fault("`--trim-blocks` is always on")(
    lambda call: call.real(options=[*call.options, *([] if call.command == "expr" else ["--trim-blocks"])])
)


kind("tokens and their places")


def tokens(change):
    """A fault that changes the lines of tokens, which have their four numbers and what is printed behind them."""

    def wrong(call: Call) -> Output:
        found = call.real()
        if call.command != "tokens":
            return found
        return found._replace(out=TOKEN.sub(lambda it: change(*map(int, it.groups()[:4]), it.group(5)), found.out))

    return wrong


def token(line: int, column: int, end_line: int, end_column: int, shown: str) -> str:
    """A token as it is printed."""
    return f"{line}:{column}-{end_line}:{end_column} {shown}"


fault("columns are counted from 1")(tokens(lambda *it: token(it[0], it[1] + 1, it[2], it[3] + 1, it[4])))
fault("a token ends one column early")(
    tokens(lambda *it: token(*it[:3], it[3] - 1, it[4]) if it[3] > 1 and it[0] == it[2] else token(*it))
)
fault("what ends a line statement does not take its line end")(
    tokens(lambda *it: token(*it[:2], it[0], it[1] + 1, it[4]) if it[4] == "BlockEnd" and it[0] < it[2] else token(*it))
)
fault("the control before an end is not part of it")(
    tokens(
        lambda *it: token(it[0], it[1] + 1, *it[2:]) if it[4] == "VariableEnd" and it[3] - it[1] == 3 else token(*it)
    )
)
fault("a string with escapes is as one without")(tokens(lambda *it: token(*it[:4], re.sub("^String", "Str", it[4]))))
fault("an integer of 128 bits is as one of 64")(tokens(lambda *it: token(*it[:4], re.sub("^Int128", "Int", it[4]))))
fault("2 to the power of 64 has 64 bits")(
    tokens(lambda *it: token(*it[:4], it[4].replace(f"Int128({2**64})", f"Int({2**64})")))
)
fault("`//` is two tokens")(
    tokens(
        lambda *it: "\n".join(token(it[0], it[1] + at, it[2], it[1] + at + 1, "Div") for at in (0, 1))
        if it[4] == "FloorDiv"
        else token(*it)
    )
)


fault("lines and columns stop at 65534")(tokens(lambda *it: token(*(min(number, 65534) for number in it[:4]), it[4])))
fault("columns do not stop")(
    tokens(lambda *it: token(it[0], it[1], it[2], it[3] + (it[3] == 65535), it[4]))
)


@fault("columns are counted in bytes")
def columns_of_bytes(call: Call) -> Output:
    """A letter of two bytes counts 2."""
    lines = call.source.split("\n")

    def column(line: int, found: int) -> int:
        return len(lines[line - 1][:found].encode()) if line <= len(lines) else found

    return tokens(lambda *it: token(it[0], column(*it[:2]), it[2], column(*it[2:4]), it[4]))(call)


@fault("empty data of a raw block is no token")
def no_empty_data(call: Call) -> Output:
    """A line less is printed."""
    found = call.real()
    return found._replace(out=re.sub(r'^.* TemplateData\(""\)\n', "", found.out, flags=re.M))


@fault("the last token is missing")
def no_last_token(call: Call) -> Output:
    """A line less is printed."""
    found = call.real()
    if call.command != "tokens":
        return found
    return found._replace(out="".join(found.out.splitlines(True)[:-1]))


@fault("no token is printed before a refusal")
def nothing_before_a_refusal(call: Call) -> Output:
    """What was read is not printed."""
    found = call.real()
    return found._replace(out="") if call.command == "tokens" and found.status else found


kind("refusals")


def refusing(pattern: str):
    """A fault that refuses texts in which a pattern is found."""
    found = re.compile(pattern, re.S)
    return lambda call: refused() if call.command != "tokens" and found.search(call.source) else call.real()


@fault("a bad escape is a syntax error")
def bad_escape(call: Call) -> Output:
    """The kind of a refusal is always the same."""
    found = call.real()
    return found._replace(error=found.error.replace("BadEscape", "SyntaxError"))


@fault("a refusal has the status of bad usage")
def refusal_as_usage(call: Call) -> Output:
    """The status is 2."""
    found = call.real()
    return found._replace(status=2) if found.status == REFUSED else found


@fault("a refusal has no status")
def refusal_without_status(call: Call) -> Output:
    """The status is 0."""
    found = call.real()
    return found._replace(status=0) if found.status == REFUSED else found


@fault("a refusal is told without its line")
def refusal_without_line(call: Call) -> Output:
    """Nothing stands on standard error."""
    found = call.real()
    return found._replace(error="") if found.status == REFUSED else found


@fault("a refusal stands one column further")
def refusal_further(call: Call) -> Output:
    """The column is one more."""
    found = call.real()
    error = PLACE.sub(lambda it: f"{it[1]}:{int(it[2]) + 1}", found.error.rstrip("\n"))
    return found._replace(error=f"{error}\n") if found.status == REFUSED else found


@fault("what is refused is an empty template")
def accepting(call: Call) -> Output:
    """No text is refused once it has tokens."""
    found = call.real()
    return Output(0, ACCEPTED[call.command], "") if found.status == REFUSED and call.command in ACCEPTED else found


fault("`break` and `continue` are refused where an `else` is")(
    lambda call: refused()
    if call.command != "tokens" and all(re.search(it, call.source) for it in (r"\b(break|continue)\b", r"\belse\b"))
    else call.real()
)
fault("a comma behind the last item is refused")(refusing(r"\w,\s*[\])]"))
fault("a keyword argument in brackets is refused")(refusing(r"\(\w\)\s*="))
fault("an alias that begins with `_` is refused")(refusing(r"as _p"))
fault("a required block is refused")(refusing(r"block \w+ required"))
fault("`for` with no target is refused")(refusing(r"for\s+in "))
fault("a `from` without names is refused")(refusing(r"import\s*[-+]?[%\])}>]"))
fault("upper-case digits of an escape are refused")(refusing(r"\\u[0-9a-f]*[A-F]"))
fault("an upper-case radix is refused")(refusing(r"\b0[XBO]"))
fault("a tag of several lines is refused")(refusing(r"\{[{%][^%}]*\n"))
fault("`not` is no variable")(refusing(r"[-+*/~]\s*not\b"))
fault("a slice with a step is refused")(refusing(r"\[[^\[\]:]*:[^\[\]:]*:[^\[\]:]*\]"))
fault("what nests may nest 140 deep")(refusing(DEEP.pattern.replace("147", "140")))
fault("a call has at most 1999 arguments")(refusing(r"a(?:,a){1999}"))

kind("what is accepted too")

fault("a required block may hold anything")(
    parsed_as(lambda source: re.sub(r"(block \w+(?: scoped)?) required", lambda it: f"{it[1]}         ", source))
)
fault("any name may stand behind `endblock`")(
    parsed_as(lambda source: re.sub(r"endblock( +\w+)", lambda it: "endblock" + " " * len(it[1]), source))
)
fault("`scoped` may stand behind `required`")(
    parsed_as(lambda source: source.replace("required scoped", "scoped required"))
)
fault("`loop` may be a target")(parsed_as(lambda source: re.sub(r"\b(set|for|with) loop\b", r"\1 l___", source)))
fault("a parameter without a default may stand behind one with")(
    parsed_as(lambda source: re.sub(r"(macro \w+)\((\w+=\w+), (\w)\)", r"\1(\3, \2)", source))
)
fault("a name that begins with `_` is imported")(parsed_as(lambda source: source.replace(" import _p", " import pp")))
fault("a call has at most 2001 arguments")(
    parsed_as(lambda source: source.replace("a" + ",a" * 2000, "a" + ",a" * 1999))
)
fault("what nests may nest one deeper")(parsed_as(lambda source: DEEP.sub(lambda it: it[0][len(it[1]) :], source)))


@fault("a refusal behind a string is lost")
def lost_refusal(call: Call) -> Output:
    """What stands behind a string is not looked at where the tokenizer refuses it."""
    found = call.real()
    behind = re.match(r".*[\"'](?=\s*[$?!&^`@;\\'\"])", call.source, re.S)
    return call.real(behind.group()) if call.command == "expr" and found.status == REFUSED and behind else found


kind("names")


def names(change):
    """A fault that changes the plain and the nested names."""

    def made(out: str) -> str:
        lines = out.splitlines()
        plain, nested = ([it[len(head) :] for it in lines if it.startswith(head)] for head in ("plain ", "nested "))
        return "".join(f"{it}\n" for it in change(plain, nested))

    return changed("names")(made)


def shown(plain: List[str], nested: List[str]) -> List[str]:
    """Names as they are printed."""
    return [f"plain {it}" for it in plain] + [f"nested {it}" for it in nested]


def other_than(name: str, several: List[str]) -> List[str]:
    """Names that do not begin with this one."""
    return [it for it in several if it.split(".")[0] != name]


fault("nested names have no attributes")(names(lambda plain, nested: shown(plain, plain)))
fault("nested names have one attribute at most")(
    names(lambda plain, nested: shown(plain, sorted({".".join(it.split(".")[:2]) for it in nested}, key=str.encode)))
)
fault("nested names have their attributes and themselves")(
    names(lambda plain, nested: shown(plain, sorted({*plain, *nested}, key=str.encode)))
)
for known in ("loop", "caller", "super"):
    fault(f"`{known}` is always known")(
        names(lambda plain, nested, known=known: shown(other_than(known, plain), other_than(known, nested)))
    )
fault("names are not in order")(names(lambda plain, nested: shown(plain[::-1], nested)))
fault("the first name is missing")(names(lambda plain, nested: shown(plain[1:], nested)))
fault("names that are not ASCII come first")(
    names(lambda plain, nested: shown(sorted(plain, key=lambda it: (it.isascii(), it.encode())), nested))
)
fault("names of other templates are missed")(
    lambda call: call.real(re.sub(r"\b(include|extends|import|from) [a-z]+\b", r"\1 1", call.source))
    if call.command == "names"
    else call.real()
)
fault("what is sliced is missed")(
    lambda call: call.real(re.sub(r"\b[a-z]\w*(\[[^\[\]]*:)", r"1\1", call.source))
    if call.command == "names"
    else call.real()
)
fault("the flag of `autoescape` is missed")(
    lambda call: call.real(re.sub(r"\bautoescape [a-z]+\b", "autoescape 1", call.source))
    if call.command == "names"
    else call.real()
)


kind("findings")


def findings(change):
    """A fault that changes the lines of findings."""

    def wrong(call: Call) -> Output:
        found = call.real()
        if call.command != "lint" or found.status not in (0, FINDINGS):
            return found
        lines = change(found.out.splitlines())
        return found._replace(out="".join(f"{it}\n" for it in lines), status=FINDINGS if lines else 0)

    return wrong


def finding_place(line: str) -> tuple:
    """The place of a finding."""
    found = PLACE.search(line)
    return int(found[1]), int(found[2])


fault("only the first finding is told")(findings(lambda lines: lines[:1]))
fault("unused macros are not found")(findings(lambda lines: [it for it in lines if not it.startswith("macro ")]))
fault("findings are in the order of their places")(findings(lambda lines: sorted(lines, key=finding_place)))
fault("a finding stands one column further")(
    findings(lambda lines: [PLACE.sub(lambda it: f"{it[1]}:{int(it[2]) + 1}", line) for line in lines])
)
fault("an unused macro stands at its name")(
    findings(
        lambda lines: [
            PLACE.sub(lambda it: f"{it[1]}:{int(it[2]) + 6}", line) if line.startswith("macro ") else line
            for line in lines
        ]
    )
)


@fault("findings have the status of success")
def findings_without_status(call: Call) -> Output:
    """The status is 0."""
    found = call.real()
    return found._replace(status=0) if found.status == FINDINGS else found


@fault("success has the status of findings")
def status_of_findings(call: Call) -> Output:
    """The status is 3."""
    found = call.real()
    return found._replace(status=FINDINGS) if call.command == "lint" and not found.status else found


@fault("a free name stands at its last mention")
def last_mention(call: Call) -> Output:
    """The place is that of the last word of this name in the text."""
    lines = call.source.split("\n")

    def last(line: str) -> str:
        name = line.split(" ")[1]
        for number in range(len(lines), 0, -1):
            found = list(re.finditer(rf"\b{re.escape(name)}\b", lines[number - 1]))
            if found:
                return PLACE.sub(f"{number}:{found[-1].start()}", line)
        return line

    return findings(lambda several: [last(it) if it.startswith("free ") else it for it in several])(call)


kind("expressions by themselves")

fault("an expression has the head of a template")(changed("expr")(lambda out: out.replace("expression", "template", 1)))
fault("an expression has a hint")(changed("expr")(lambda out: f"{out}hint 1\n"))


kind("records of runs")


def records(change):
    """A fault that changes the lines of a record, the last of which says how the run ended."""

    def made(out: str) -> str:
        lines = out.splitlines()
        return "".join(f"{it}\n" for it in change(lines[:-1], lines[-1])) if lines else out

    return changed("replay")(made)


fault("the last event is missing")(records(lambda events, end: [*events[:-1], end]))
fault("the first event is told twice")(records(lambda events, end: [*events[:1], *events, end]))
fault("a run has one step more")(
    records(lambda events, end: [*events, re.sub(r"\d+", lambda it: str(int(it[0]) + 1), end)])
)
fault("a run that starves is finished")(records(lambda events, end: [*events, end.replace("starved", "finished")]))
fault("a run with an unfit answer is a fault")(records(lambda events, end: [*events, end.replace("unfit", "fault")]))
fault("a fault is no event")(records(lambda events, end: [*[it for it in events if not it.endswith("-> fault")], end]))
fault("two operands are told from the last to the first")(
    records(lambda events, end: [*[TWO_OPERANDS.sub(r"<- [\2, \1] ->", it) for it in events], end])
)
fault("an answer of no value is told as one of none")(
    records(lambda events, end: [*[re.sub(r"-> \[\]$", "-> [none]", it) for it in events], end])
)
fault("events have no operands")(
    records(lambda events, end: [*[re.sub(r"<- \[.*\] ->", "<- [] ->", it) for it in events], end])
)


@fault("lines of answers are counted from 0")
def lines_from_zero(call: Call) -> Output:
    """The number of a bad line is one less."""
    found = call.real()
    return found._replace(error=BAD_ANSWER.sub(lambda it: f"bad answer on line {int(it[1]) - 1}", found.error))


@fault("a bad answer has the status of a refusal")
def bad_answer_as_refusal(call: Call) -> Output:
    """The status is 1."""
    found = call.real()
    return found._replace(status=REFUSED) if BAD_ANSWER.search(found.error) else found
