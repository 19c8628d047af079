"""Makes lists of answers for code, so that runs end in each way that there is.

The machine is run with answers that are chosen as it asks for them. Most fit, so that runs finish.

    answers.py CODE SEED
"""

import argparse
import sys
from random import Random
from typing import NamedTuple

import literals
import values
from machine import (
    ANSWER_FAULT,
    FINISHED,
    OPERATOR_FAULT,
    STARVED,
    UNFIT,
    Machine,
    Question,
    Run,
    read_lists,
)
from templates import LARGE_NUMBERS, SMALL_NUMBERS, TEXTS
from values import Value

WANTED = {FINISHED: 30, ANSWER_FAULT: 17, OPERATOR_FAULT: 18, STARVED: 17, UNFIT: 18}
ATTEMPTS = 25
# After this number of events no loop gets a further item.
MANY_EVENTS = 150
OTHER_LETTERS = ["\x00", "\x0b", "\u2028", "\x7f", "/", "\b", "\f", "\ufeff", "日本"]
BAD_LINES = [
    "", " ", "x", "1", "[", "]", "[1", "[1,,2]", "[,]", "[x]", "[-1]", "[[1]]", "[[]]", "[()]", "[{}]", '[{"k": 1}]',
    "[1 + 1]", "[not true]", "(1,)", "()", '{"a": 1}', "{}", '"a"', "none", "[1] [2]", "[1]]", "[1][0]", "[1][0:1]",
    "[1]|f", "[1] == [1]", "[1] or [2]", "[1] if true", "[1] is odd", "['\\q']", "['a]", "[1.5]", "[1_]", "[0x]",
    "[340282366920938463463374607431768211456]", "Fault", "faults", "fault fault", "'fault'", "not fault", "[f()]",
    "[1, x]", "[1 2]", "[1] }}", "[nil]",
]  # fmt: skip


class Mood(NamedTuple):
    """How likely each kind of value is."""

    tiny: float
    small: float
    large: float
    text: float
    word: float


MOODS = [
    Mood(tiny=0, small=60, large=3, text=20, word=17),
    Mood(tiny=90, small=7, large=0, text=2, word=1),
    Mood(tiny=0, small=30, large=0, text=65, word=5),
    Mood(tiny=0, small=30, large=30, text=20, word=20),
    Mood(tiny=0, small=40, large=5, text=15, word=40),
]


class Steering:
    """Answers questions as they come, the first ones as given, and keeps what it answered."""

    def __init__(self, random: Random, mood: Mood, given=()):
        self.random = random
        self.mood = mood
        self.given = given
        self.questions = []
        self.answers = []
        # For each open loop how many items it still gets.
        self.loops = []

    def answer(self, question: Question):
        """An answer that fits."""
        chosen = tuple(self.value() for _ in range(self.size(question)))
        if len(self.answers) < len(self.given):
            chosen = self.given[len(self.answers)]
        self.questions.append(question)
        self.answers.append(chosen)
        return chosen

    def size(self, question: Question) -> int:
        """How many values the answer has."""
        name = question.instruction.name
        if name == "PushLoop":
            self.loops.append(self.random.choice((0, 1, 1, 2, 3)))
        elif name == "PopLoopFrame":
            self.loops.pop()
        elif name == "Iterate":
            return self.next_item()
        return self.random.randint(0, 3) if question.sizes is None else question.sizes[0]

    def next_item(self) -> int:
        """1 where the innermost loop gets a further item, else 0."""
        if self.loops[-1] == 0 or len(self.answers) >= MANY_EVENTS:
            return 0
        self.loops[-1] -= 1
        return 1

    def value(self) -> Value:
        """A constant."""
        kind = self.random.choices(self.mood._fields, self.mood)[0]
        if kind == "tiny":
            return values.integer(self.random.randint(1, 2))
        if kind == "small":
            return values.integer(self.random.choice(SMALL_NUMBERS))
        if kind == "large":
            return values.integer(self.random.choice(LARGE_NUMBERS))
        if kind == "text":
            return values.text(self.random.choice(OTHER_LETTERS if self.random.random() < 0.03 else TEXTS))
        return self.random.choice((values.NONE, values.TRUE, values.FALSE))


def steer(code: list, random: Random, mood: Mood, given=()):
    """A run on fitting answers, of which the first may be given, and these answers with what they answer."""
    steering = Steering(random, mood, given)
    run = Machine(code, steering.answer).run()
    return run, steering


def make(code: list, random: Random) -> list:
    """A list of answers for code, after which the run ends in a way that is chosen at random, if it can."""
    wanted = random.choices(list(WANTED), list(WANTED.values()))[0]
    run, steering = attempt(code, random, wanted)
    if wanted in (FINISHED, OPERATOR_FAULT) or not steering.questions:
        return steering.answers + further(random)
    at = random.randrange(len(steering.questions))
    if wanted == STARVED:
        return steering.answers[:at]
    if wanted == UNFIT:
        at = unfit_place(steering.questions, random, at)
    if at is None:
        return steering.answers
    odd = literals.FAULT if wanted == ANSWER_FAULT else unfit(steering.questions[at], random)
    return steering.answers[:at] + [odd] + further(random)


def attempt(code: list, random: Random, wanted: str):
    """A run with the wanted fault of an operator, or else without one, if one of several tries is such a run."""
    run, steering = steer(code, random, random.choice(MOODS))
    for _ in range(ATTEMPTS):
        if (run.ending == OPERATOR_FAULT) == (wanted == OPERATOR_FAULT):
            break
        # The last answers before an unwanted fault have probably led to it.
        kept = len(steering.answers) - random.randint(1, 3) if wanted != OPERATOR_FAULT else 0
        run, steering = steer(code, random, random.choice(MOODS), steering.answers[: max(kept, 0)])
    return run, steering


def unfit_place(questions: list, random: Random, at: int):
    """A question that some answer does not fit, this one if it is one, or None."""
    if questions[at].sizes is not None:
        return at
    places = [place for place, it in enumerate(questions) if it.sizes is not None]
    return random.choice(places) if places else None


def unfit(question: Question, random: Random) -> tuple:
    """An answer of a size that does not fit."""
    wrong = [it for it in range(max(question.sizes) + 3) if it not in question.sizes]
    steering = Steering(random, MOODS[0])
    return tuple(steering.value() for _ in range(random.choice(wrong)))


def further(random: Random) -> list:
    """Answers behind the last one that is read."""
    if random.random() < 0.6:
        return []
    steering = Steering(random, MOODS[0])
    return [
        literals.FAULT if random.random() < 0.3 else tuple(steering.value() for _ in range(random.randint(0, 2)))
        for _ in range(random.randint(1, 3))
    ]


def write(answers: list, random: Random) -> str:
    """A file of these answers."""
    return literals.write_answers([literals.write_answer(it, random) for it in answers], random)


def write_with_bad_line(answers: list, random: Random):
    """A file of these answers and a line that is none, and the number of this line."""
    lines = [literals.write_answer(it, random) for it in answers]
    at = random.randint(0, len(lines))
    lines.insert(at, random.choice(BAD_LINES))
    if at == len(lines) - 1 and not lines[at]:
        lines.append("[]")
    return literals.write_answers(lines, random), at + 1


def main():
    """Prints a file of answers for a file of printed code."""
    parser = argparse.ArgumentParser(description="makes a file of answers for what `mjc code` printed")
    parser.add_argument("code")
    parser.add_argument("seed", type=int)
    words = parser.parse_args()
    with open(words.code, encoding="utf-8", newline="") as file:
        code = read_lists(file.read())[None]
    random = Random(f"answers {words.seed}")
    sys.stdout.buffer.write(write(make(code, random), random).encode())


if __name__ == "__main__":
    main()
