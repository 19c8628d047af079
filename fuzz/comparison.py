"""What is compared of a file of texts: what programs print with what the model computes, and runs with a machine."""

import re
import unicodedata
from collections import Counter
from typing import Dict, Iterable, List, NamedTuple, Optional

import config
import lexing
import model
import replays
import rules
import texts
from model import Wanted
from programs import Answer, Program

TEXTS = (
    "templates in files of many",
    "templates alone",
    "templates that are refused",
    "broken texts",
    "expressions by themselves",
    "texts in odd syntaxes",
    "templates, replay",
    "rows",
)
IN_FILES, ALONE, REFUSED, BROKEN, EXPRESSIONS, ODD, REPLAYED, ROWS = TEXTS
COMMANDS = ("tokens", "code", "names", "lint")
EXPRESSION = "expression"
# The word that stands for standard input.
STANDARD_INPUT = "-"
# How many templates of a file are also compared by themselves, and the names of how many with the other program.
ALONE_OF_A_FILE = 8
NAMES_OF_A_FILE = 10
# The share of runs with a line that is no answer.
BAD_ANSWERS = 0.08
# The offsets behind a token, which answers of a batch have.
OFFSETS = re.compile(r" \d+\.\.\d+$", re.M)
# What characters may be taken for that Python's version of Unicode does not know.
UNKNOWN_LETTERS = (lexing.KNOWN_LETTERS, lexing.Unicode(False, True), lexing.Unicode(True, True))


class Case(NamedTuple):
    """A text with its options, and the seed of the file that it is of."""

    seed: int
    options: list
    text: str


class Comparison:
    """Compares files of texts, and counts what it compared."""

    def __init__(self, words, folder: str):
        self.words = words
        self.mjc = Program(words.mjc, folder)
        self.upstream = Program(words.upstream, folder, words.upstream_option) if words.upstream else None
        self.machine = replays.Program(words.mjc, folder, self.mjc.seconds)
        self.counts = Counter()
        # How many texts were in the counts that have been taken.
        self.told = 0
        self.differences = []
        # For each rule the shortest text that it was used for.
        self.examples = {}
        # What the model has made of the texts of one file.
        self.models: Dict[tuple, model.Text] = {}

    def compared(self) -> int:
        """How many texts have been compared."""
        return self.told + number_of_texts(self.counts)

    def take_counts(self) -> Counter:
        """The counts since the last call."""
        found, self.counts = self.counts, Counter()
        self.told += number_of_texts(found)
        return found

    def take_differences(self) -> list:
        """The differences since the last call."""
        found, self.differences = self.differences, []
        return found

    def file(self, seed: int):
        """Compares what a seed makes."""
        file = self.make(seed)
        self.models.clear()
        self.counts[f"files of the syntax {file.syntax.name}"] += 1
        options = file.options
        if self.upstream:
            self.upstream_answers(seed, options, file.templates + file.broken)
        accepted = []
        for text in file.templates:
            case = Case(seed, options, text)
            if self.text(case).tree is not None:
                accepted.append(text)
            else:
                self.alone(case, REFUSED)
        for text in accepted[:ALONE_OF_A_FILE]:
            self.alone(Case(seed, options, text), ALONE)
        for text in file.broken:
            self.alone(Case(seed, options, text), BROKEN)
        self.many(seed, options, accepted)
        self.expressions(seed, file.expressions)
        for of_syntax, text in file.odd:
            self.odd(Case(seed, of_syntax, text))
        for at in range(self.words.replays):
            self.replay(seed * self.words.replays + at)

    def make(self, seed: int) -> texts.File:
        """The file of a seed."""
        return texts.make(seed, self.words.templates, self.words.broken, self.words.expressions, self.words.odd)

    def odd(self, case: Case):
        """Compares what both programs print for a text with a syntax of its own."""
        self.alone(case, ODD)
        if self.upstream:
            path = self.upstream.write("text", case.text)
            self.upstream_answer(case, *(self.upstream.one(it, case.options, path) for it in ("tokens", "code")))

    def replay(self, seed: int):
        """Compares runs of the code of a template with the machine."""
        seen = replays.Counts()
        replays.try_seed(seed, self.machine, seen, BAD_ANSWERS)
        self.counts[REPLAYED] += seen.texts
        self.counts["events of runs"] += seen.events
        self.counts.update({f"runs that end: {ending}": count for ending, count in seen.endings.items()})
        for difference in seen.differences:
            self.keep({"kind": "replay", **difference})

    # The program that is tried

    def alone(self, case: Case, kind: str):
        """Compares what the program prints for one text."""
        path = self.mjc.write("text", case.text)
        ways = list(self.ways(case, True))
        self.counts[kind] += 1
        for command in COMMANDS:
            found = self.mjc.one(command, case.options, path)
            if not is_met(found, ways, command):
                self.report(command, case, ways[0], command, found)
                return
        if kind in (REFUSED, BROKEN):
            self.count_rules(ways[0].choice.used)

    def many(self, seed: int, options: list, accepted: List[str]):
        """Compares templates as one file, and each alone where that is not what is wanted.

        No two templates of a file have a block of one name. The first ones have been compared alone.
        """
        if not accepted:
            return
        case = Case(seed, options, "\n".join(accepted))
        wanted = self.text(case)
        path = self.mjc.write("text", case.text)
        for command in COMMANDS:
            found = self.mjc.one(command, options, path)
            if not is_met(found, [wanted], command):
                self.one_by_one(case, accepted, wanted, command, found)
                return
        self.count_rules(wanted.choice.used)
        self.counts[IN_FILES] += len(accepted[ALONE_OF_A_FILE:])
        self.counts["files of many templates"] += 1
        self.counts["bytes in files of many templates"] += len(case.text.encode())

    def one_by_one(self, case: Case, accepted: List[str], wanted: model.Text, command: str, found: Answer):
        """Compares each template alone. If none is wrong, the file is."""
        self.counts["files that were compared template by template"] += 1
        reported = len(self.differences)
        for text in accepted[ALONE_OF_A_FILE:]:
            self.alone(case._replace(text=text), ALONE)
        if reported == len(self.differences):
            self.report(f"{command} of many templates", case, wanted, command, found)

    def text(self, case: Case, ours: bool = True, unicode=lexing.KNOWN_LETTERS) -> model.Text:
        """What the model makes of a text, once for each file of texts."""
        key, other = ((tuple(case.options), case.text, it, unicode) for it in (ours, not ours))
        if key not in self.models:
            syntax = config.of_options(case.options)
            self.models[key] = model.Text(case.text, syntax, ours, unicode, self.models.get(other))
        return self.models[key]

    def ways(self, case: Case, ours: bool) -> Iterable[model.Text]:
        """What the model makes of a text, in more than one way where it has characters that Python does not know."""
        yield self.text(case, ours)
        if has_unknown_letter(case.text):
            self.counts[f"rule: {rules.LETTERS}"] += 1
            for unicode in UNKNOWN_LETTERS[1:]:
                yield self.text(case, ours, unicode)

    # The other program

    def upstream_answers(self, seed: int, options: list, several: List[str]):
        """Compares tokens, code and names of the other program with what the model gives for it."""
        answers = [self.upstream.batch(command, options, several) for command in ("tokens", "code")]
        named = []
        for text, tokens, code in zip(several, *answers):
            case = Case(seed, options, text)
            wanted = self.upstream_answer(case, tokens, code)
            self.keep_example(case, wanted)
            if wanted.tree is not None and len(named) < NAMES_OF_A_FILE:
                named.append(text)
        if named:
            self.upstream_names(Case(seed, options, "\n".join(named)))
        self.counts["texts that the other program was asked for too"] += len(several)

    def upstream_answer(self, case: Case, tokens: Answer, code: Answer) -> model.Text:
        """Compares what the other program has printed for a text."""
        tokens = tokens._replace(out=OFFSETS.sub("", tokens.out))
        wanted: Optional[model.Text] = None
        for way in self.ways(case, False):
            wanted = wanted or way
            if way.answer("tokens").is_met(tokens) and way.answer("code").is_met(code):
                return way
        command, found = ("code", code) if wanted.answer("tokens").is_met(tokens) else ("tokens", tokens)
        self.report(f"{command} of the other program", case, wanted, command, found)
        return wanted

    def upstream_names(self, case: Case):
        """Compares the names that the other program prints for several templates in one file."""
        found = self.upstream.one("names", case.options, self.upstream.write("text", case.text))
        if not is_met(found, [self.text(case, False)], "names"):
            self.report("names of the other program", case, self.text(case, False), "names", found)

    # Expressions by themselves

    def expressions(self, seed: int, several: List[str]):
        """Compares the code of expressions that are no templates."""
        several = [it for it in several if "\0" not in it and it != STANDARD_INPUT]
        if self.upstream and several:
            for text, found in zip(several, self.upstream.batch("expr", [], several)):
                self.expression(Case(seed, [], text), found, False)
        for text in several:
            self.counts[EXPRESSIONS] += 1
            self.expression(Case(seed, [], text), self.mjc.expression(text), True)

    def expression(self, case: Case, found: Answer, ours: bool):
        """Compares what a program has printed for an expression."""
        ways = UNKNOWN_LETTERS if has_unknown_letter(case.text) else UNKNOWN_LETTERS[:1]
        results = [model.expression(case.text, ours, it) for it in ways]
        if not any(wanted.is_met(found) for wanted, _ in results):
            whose = "" if ours else " of the other program"
            self.keep(difference(f"{EXPRESSION}{whose}", case, results[0][0], found))
        if ours:
            self.count_rules(results[0][1].used)

    # Rows

    def row(self, row: dict):
        """Compares the text of a row with its options, where the rules that explain it are those of the row."""
        case = Case(row.get("seed"), row["options"], row["source"])
        used = self.expression_row(case) if row.get("kind") == EXPRESSION else self.template_row(case)
        self.counts[ROWS] += 1
        if sorted(used) != row.get("rules", []):
            why = f"explained by {sorted(used)}, and not by {row['rules']}"
            self.keep({"kind": "row", "options": case.options, "source": case.text, "why": why})

    def template_row(self, case: Case) -> Counter:
        """The rules that explain what differs for a template."""
        self.alone(case, "texts of rows")
        theirs = self.text(case, False)
        if self.upstream:
            tokens, code = (self.upstream.batch(it, case.options, [case.text])[0] for it in ("tokens", "code"))
            theirs = self.upstream_answer(case, tokens, code)
        return theirs.choice.used if self.differs(case, theirs) else Counter()

    def expression_row(self, case: Case) -> Counter:
        """The rules that explain what differs for an expression, which is compared for both programs."""
        self.expression(case, self.mjc.expression(case.text), True)
        if self.upstream:
            self.expression(case, self.upstream.batch("expr", [], [case.text])[0], False)
        theirs, choice = model.expression(case.text, False)
        return Counter() if theirs.is_like(model.expression(case.text)[0]) else choice.used

    # Results

    def count_rules(self, used: Counter):
        """Counts how often rules chose. That of depth chooses again and again where a text nests."""
        self.counts.update({f"rule: {name}": 1 if name == rules.DEPTH else count for name, count in used.items()})

    def differs(self, case: Case, theirs: model.Text) -> bool:
        """Whether the two programs have different tokens or code for a text."""
        ours = self.text(case)
        return not all(ours.answer(it).is_like(theirs.answer(it)) for it in ("tokens", "code"))

    def keep_example(self, case: Case, theirs: model.Text):
        """Keeps a text where it is the shortest for the one rule that explains it."""
        if len(theirs.choice.used) != 1:
            return
        rule = next(iter(theirs.choice.used))
        if is_shorter(self.examples, rule, case) and self.differs(case, theirs):
            self.examples[rule] = case

    def report(self, kind: str, case: Case, wanted: model.Text, command: str, found: Answer):
        """Keeps a difference with all that is needed to look into it."""
        self.keep(difference(kind, case, wanted.answer(command), found))

    def keep(self, found: dict):
        """Keeps a difference, with how many texts had been compared."""
        self.differences.append({**found, "texts": self.compared()})


def difference(kind: str, case: Case, wanted: Wanted, found: Answer) -> dict:
    """A difference as data that can be printed."""
    return {
        "kind": kind,
        "seed": case.seed,
        "options": case.options,
        "source": case.text,
        "wanted": wanted.show(),
        "found": found.show(),
    }


def is_met(found: Answer, ways: Iterable[model.Text], command: str) -> bool:
    """Whether a program has answered what is wanted in one of the ways."""
    return any(it.answer(command).is_met(found) for it in ways)


def number_of_texts(counts: Counter) -> int:
    """How many texts are in counts."""
    return sum(counts[it] for it in TEXTS)


def is_shorter(examples: dict, rule: str, case: Case) -> bool:
    """Whether a text is shorter than the example of a rule."""
    return rule not in examples or len(case.text) < len(examples[rule].text)


def has_unknown_letter(text: str) -> bool:
    """Whether a character is in the text that Python's version of Unicode does not know."""
    return not text.isascii() and any(unicodedata.category(it) == "Cn" for it in set(text))
