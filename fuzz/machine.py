"""A machine that replays the code of a template with answers from outside.

It is written from the table of instructions and events alone, as a witness for `mjc replay`: it reads what `mjc code`
prints, and prints what `mjc replay` has to print.

    machine.py CODE ANSWERS
"""

import argparse
import sys
from typing import Callable, NamedTuple, Optional, Tuple, Union

import values
from literals import FAULT, read_answers
from values import Reader, Value

FINISHED = "finished"
ANSWER_FAULT = "fault of an answer"
OPERATOR_FAULT = "fault of an operator"
STARVED = "starved"
UNFIT = "unfit"
ENDINGS = (FINISHED, ANSWER_FAULT, OPERATOR_FAULT, STARVED, UNFIT)


class Stuck(Exception):
    """The table says nothing of this instruction in this state, so the code is wrong."""


class Instruction(NamedTuple):
    """An instruction: its name, its parts, and how it is printed."""

    name: str
    parts: tuple
    shown: str


# An answer is FAULT or a tuple of values.
Answer = Union[str, Tuple[Value, ...]]


class Question(NamedTuple):
    """An event that asks for an answer: its instruction, its operands, and the sizes that fit (None: any)."""

    instruction: Instruction
    operands: Tuple[Value, ...]
    sizes: Optional[Tuple[int, ...]]


class Event(NamedTuple):
    """An event that got a fault or a fitting answer."""

    instruction: Instruction
    operands: Tuple[Value, ...]
    answer: Answer


class Run(NamedTuple):
    """A run: its record, how it ended after how many steps, what is left, and the instructions begun, by name."""

    record: list
    ending: str
    steps: int
    operands: list
    loops: list
    begun: list


# Reading code


def read_instruction(shown: str) -> Instruction:
    """Reads a printed instruction."""
    name, opened, rest = shown.partition("(")
    if not opened:
        return Instruction(name, (), shown)
    reader = Reader(rest)
    parts = tuple(reader.several(")", reader.part))
    if not reader.over():
        raise ValueError(f"something stands behind {shown!r}")
    return Instruction(name, parts, shown)


def read_lists(printed: str) -> dict:
    """The lists that `mjc code` printed: the template's under None, those of its blocks under their names."""
    lists, current = {}, None
    for line in printed.split("\n"):
        first, _, rest = line.partition(" ")
        if line == "template":
            current = lists.setdefault(None, [])
        elif first == "block":
            current = lists.setdefault(rest, [])
        elif first.isdigit():
            if int(first) != len(current):
                raise ValueError(f"{len(current)} wanted before {line!r}")
            current.append(read_instruction(rest))
        elif line and first != "hint":
            raise ValueError(f"no line of code: {line!r}")
    return lists


# The table of events: how many operands each takes, and how many values fit

FIXED_EVENTS = {
    **dict.fromkeys(
        "EmitRaw PopLoopFrame PushWith PopFrame PopAutoEscape BeginCapture CallBlock FastSuper Enclose".split(), (0, 0)
    ),
    **dict.fromkeys("Emit StoreLocal PushLoop PushAutoEscape FastRecurse LoadBlocks Include".split(), (1, 0)),
    **dict.fromkeys("Lookup EndCapture ExportLocals GetClosure".split(), (0, 1)),
    **dict.fromkeys("GetItem Div BuildMacro".split(), (2, 1)),
    "SetAttr": (2, 0),
    "GetAttr": (1, 1),
    "Slice": (4, 1),
}
# Which part of a call says how many arguments it has.
COUNTED_EVENTS = {"ApplyFilter": 1, "PerformTest": 1, "CallFunction": 1, "CallMethod": 1, "CallObject": 0}
COMPARISONS = {"Eq", "Ne", "Lt", "Lte", "Gt", "Gte", "In"}
ARITHMETIC = {"Add", "Sub", "Mul", "IntDiv", "Rem", "Pow"}


class Machine:
    """A state of the machine, and its steps."""

    def __init__(self, code: list, answer_of: Callable[[Question], Optional[Answer]]):
        self.code = code
        self.answer_of = answer_of
        self.place = 0
        self.operands = []
        # For each open loop whether an item came.
        self.loops = []
        self.record = []
        self.steps = 0
        self.ending = None
        self.begun = []

    def run(self) -> Run:
        """Runs from the start of the list to an end."""
        while self.ending is None:
            if self.place == len(self.code):
                self.ending = FINISHED
            else:
                self.step()
        return Run(self.record, self.ending, self.steps, self.operands, self.loops, self.begun)

    def step(self):
        """Does one instruction."""
        if not 0 <= self.place < len(self.code):
            raise Stuck(f"no instruction at {self.place}")
        instruction = self.code[self.place]
        self.steps += 1
        self.begun.append(instruction.name)
        self.place += 1
        try:
            if not self.move(instruction) and not self.operate(instruction):
                self.ask(instruction)
        except values.OperatorFault:
            self.ending = OPERATOR_FAULT

    # Operands

    def push(self, value: Value):
        """Puts a value on top."""
        self.operands.append(value)

    def pop(self) -> Value:
        """Takes the top value."""
        return self.pop_many(1)[0]

    def pop_many(self, count: int) -> list:
        """Takes the top values, and gives them bottom to top."""
        if count > len(self.operands):
            raise Stuck(f"{count} operands wanted, {len(self.operands)} there")
        start = len(self.operands) - count
        taken = self.operands[start:]
        del self.operands[start:]
        return taken

    def pop_counted(self, part: Value) -> list:
        """Takes as many values as the part says, or, where it is none, as many as a count on top of them says."""
        if part.kind == "none":
            part = self.pop()
        count = values.as_count(part)
        if count is None:
            raise Stuck(f"{values.show(part)} is no count")
        return self.pop_many(count)

    # Instructions without event

    def move(self, instruction: Instruction) -> bool:
        """Does an instruction that leads elsewhere or only moves operands. Answers whether it was one."""
        name, parts, _ = instruction
        if name == "Jump":
            self.jump(parts)
        elif name == "JumpIfFalse":
            if not values.is_true(self.pop()):
                self.jump(parts)
        elif name in ("JumpIfFalseOrPop", "JumpIfTrueOrPop"):
            value = self.pop()
            if values.is_true(value) == (name == "JumpIfTrueOrPop"):
                self.push(value)
                self.jump(parts)
        elif name == "Return":
            self.ending = FINISHED
        elif name == "LoadConst":
            self.push(parts[0])
        elif name == "DupTop":
            value = self.pop()
            self.operands += [value, value]
        elif name == "DiscardTop":
            self.pop()
        elif name == "Swap":
            below, top = self.pop_many(2)
            self.operands += [top, below]
        elif name == "PushDidNotIterate":
            self.push(values.boolean(not self.innermost()))
        else:
            return False
        return True

    def jump(self, parts: tuple):
        """Goes on at the place that an instruction names."""
        self.place = parts[0].content

    def innermost(self) -> bool:
        """Whether an item came to the innermost loop."""
        if not self.loops:
            raise Stuck("no loop is open")
        return self.loops[-1]

    def operate(self, instruction: Instruction) -> bool:
        """Does an instruction that makes a value of operands. Answers whether it was one."""
        name, parts, _ = instruction
        if name in ("BuildList", "BuildTuple"):
            self.push(values.sequence("list" if name == "BuildList" else "tuple", self.pop_counted(parts[0])))
        elif name in ("BuildMap", "BuildKwargs"):
            flat = self.pop_many(2 * parts[0].content)
            self.push(values.mapping("map" if name == "BuildMap" else "kwargs", zip(flat[::2], flat[1::2])))
        elif name in ARITHMETIC:
            self.push(values.arithmetic(name, *self.pop_many(2)))
        elif name in COMPARISONS:
            self.push(values.boolean(values.compare(name, *self.pop_many(2))))
        elif name == "CompareAndPreserve":
            left, right = self.pop_many(2)
            self.operands += [right, values.boolean(values.compare(parts[0], left, right))]
        elif name == "StringConcat":
            self.push(values.concat(*self.pop_many(2)))
        elif name == "Neg":
            self.push(values.negate(self.pop()))
        elif name == "Not":
            self.push(values.boolean(not values.is_true(self.pop())))
        elif name == "IsUndefined":
            self.push(values.boolean(values.is_undefined(self.pop())))
        else:
            return False
        return True

    # Events

    def ask(self, instruction: Instruction):
        """Does an event: takes its operands, reads an answer, and goes on with it."""
        operands, sizes = self.question(instruction)
        answer = self.answer_of(Question(instruction, tuple(operands), sizes))
        if answer is None:
            self.ending = STARVED
        elif answer == FAULT:
            self.record.append(Event(instruction, tuple(operands), FAULT))
            self.ending = ANSWER_FAULT
        elif sizes is not None and len(answer) not in sizes:
            self.ending = UNFIT
        else:
            self.record.append(Event(instruction, tuple(operands), tuple(answer)))
            self.take(instruction, list(answer))

    def question(self, instruction: Instruction):
        """Takes the operands of an event, and says how many values fit."""
        name, parts, _ = instruction
        if name in FIXED_EVENTS:
            taken, given = FIXED_EVENTS[name]
            return self.pop_many(taken), (given,)
        if name in COUNTED_EVENTS:
            return self.pop_counted(parts[COUNTED_EVENTS[name]]), (1,)
        if name == "MergeKwargs":
            return self.pop_many(parts[0].content), (1,)
        if name == "UnpackList":
            return self.pop_many(1), (parts[0].content,)
        if name == "UnpackLists":
            return self.pop_many(parts[0].content), None
        if name == "Iterate":
            return [], (0, 1)
        raise Stuck(f"no instruction is named {name}")

    def take(self, instruction: Instruction, answer: list):
        """Goes on after an event with a fitting answer."""
        name = instruction.name
        if name == "UnpackList":
            self.operands += reversed(answer)
            return
        self.operands += answer
        if name == "UnpackLists":
            self.push(values.integer(len(answer)))
        elif name == "PushLoop":
            self.loops.append(False)
        elif name == "PopLoopFrame":
            self.innermost()
            self.loops.pop()
        elif name == "Iterate":
            self.innermost()
            if answer:
                self.loops[-1] = True
            else:
                self.jump(instruction.parts)


def replay(code: list, answers: list) -> Run:
    """Runs a list of instructions on a list of answers."""
    rest = iter(answers)
    return Machine(code, lambda _: next(rest, None)).run()


# Printing


def show_event(event: Event) -> str:
    """The line of an event."""
    given = FAULT if event.answer == FAULT else f"[{values.show_all(event.answer)}]"
    return f"{event.instruction.shown} <- [{values.show_all(event.operands)}] -> {given}"


def show_run(run: Run) -> str:
    """The lines of a run. Both kinds of fault are printed alike."""
    ending = FAULT if run.ending in (ANSWER_FAULT, OPERATOR_FAULT) else run.ending
    lines = [show_event(it) for it in run.record] + [f"{ending}, {run.steps} steps"]
    return "".join(f"{line}\n" for line in lines)


def main():
    """Replays a file of printed code with a file of answers."""
    parser = argparse.ArgumentParser(description="replays printed code with answers, as `mjc replay` has to")
    parser.add_argument("code", help="what `mjc code` printed")
    parser.add_argument("answers", help="one answer a line: fault, or a list of plain constants")
    words = parser.parse_args()
    with open(words.code, encoding="utf-8", newline="") as file:
        code = read_lists(file.read())[None]
    with open(words.answers, encoding="utf-8", newline="") as file:
        answers = read_answers(file.read())
    sys.stdout.buffer.write(show_run(replay(code, answers)).encode())


if __name__ == "__main__":
    main()
