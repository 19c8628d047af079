"""Wrong programs: each calls the real one, and changes what it reads or what it prints.

A fault is a function of a `Call`, which makes the real call as often as it needs to.
"""

import re
from typing import Callable, Dict, List, NamedTuple, Optional

# A line that begins a list of instructions, and one of an instruction.
HEAD = re.compile(r"template|expression|block ")
STEP = re.compile(r"\d+ (.*)")
# An instruction that names a place, with what stands before and behind the place.
JUMP = re.compile(r"((?:Jump|Iterate)\w*\()(\d+)(\))|(BuildMacro\(.*, )(\d+)(, \d+\))")
CALLS = {"CallFunction", "CallMethod", "CallObject"}
REFUSED = 1


class Output(NamedTuple):
    """A status, and what was printed on both outputs."""

    status: int
    out: str
    error: str


class Call(NamedTuple):
    """A call of the program: its command, its options, its text, its answers if it is a replay, and the real program.

    `program` takes the first four, and answers what is printed.
    """

    command: str
    options: List[str]
    source: str
    answers: Optional[str]
    program: Callable[..., Output]

    def real(self, source: Optional[str] = None, options: Optional[List[str]] = None) -> Output:
        """What the real program prints, perhaps for another text or with other options."""
        source = self.source if source is None else source
        return self.program(self.command, self.options if options is None else options, source, self.answers)

    def has_code(self) -> bool:
        """Whether the command prints code."""
        return self.command in ("code", "expr")

    def marker(self, option: str, default: str) -> str:
        """The start that an option sets, or the default."""
        return self.options[self.options.index(option) + 1] if option in self.options else default


Fault = Callable[[Call], Output]
# All faults, by what is wrong. The order is that of the modules.
FAULTS: Dict[str, Fault] = {}
# The faults of each kind.
KINDS: Dict[str, List[str]] = {}


def kind(words: str):
    """Begins a kind of faults. Those that are added next are of it."""
    KINDS[words] = []


def fault(words: str):
    """Adds a fault by what is wrong."""

    def add(function: Fault) -> Fault:
        assert words not in FAULTS, words
        FAULTS[words] = function
        KINDS[next(reversed(KINDS))].append(words)
        return function

    return add


def changed(*commands: str):
    """A fault that changes what these commands print where they succeed."""

    def make(change: Callable[[str], str]) -> Fault:
        def wrong(call: Call) -> Output:
            found = call.real()
            return found._replace(out=change(found.out)) if call.command in commands and not found.status else found

        return wrong

    return make


def refused(place: str = "1:0") -> Output:
    """A refusal."""
    return Output(REFUSED, "", f"mjc: SyntaxError at {place}\n")


# Code


def name_of(step: str) -> str:
    """The name of an instruction."""
    return step.partition("(")[0]


def lists_of(printed: str) -> Dict[str, List[str]]:
    """The lists of printed code by their heads, and the hint under its own line."""
    lists: Dict[str, List[str]] = {}
    for line in printed.split("\n"):
        step = STEP.fullmatch(line)
        if step:
            lists[next(reversed(lists))].append(step.group(1))
        elif line:
            lists[line] = []
    return lists


def print_lists(lists: Dict[str, List[str]]) -> str:
    """Lists as they are printed."""
    lines = []
    for head, several in lists.items():
        lines += [head, *(f"{at} {it}" for at, it in enumerate(several))]
    return "".join(f"{it}\n" for it in lines)


def lists(change: Callable[[List[str]], List[str]]) -> Fault:
    """A fault that changes each list of code, whose places are left."""
    return changed("code", "expr")(lambda out: print_lists({head: change(it) for head, it in lists_of(out).items()}))


def steps(pattern: str, by) -> Fault:
    """A fault that changes each instruction that has a pattern."""
    found = re.compile(pattern)
    return lists(lambda several: [found.sub(by, it) for it in several])


def rewritten(rule: Callable[[List[str], int], List[str]]) -> Fault:
    """A fault that has other instructions in the place of each, where jumps lead to what stands for their goal."""

    def change(several: List[str]) -> List[str]:
        found: List[str] = []
        places = []
        for at in range(len(several)):
            places.append(len(found))
            found += rule(several, at)
        places.append(len(found))
        return [JUMP.sub(lambda it: moved(it, places), step) for step in found]

    return lists(change)


def without(is_unwanted: Callable[[List[str], int], bool]) -> Fault:
    """A fault that leaves out instructions, which are told by their list and place."""
    return rewritten(lambda several, at: [] if is_unwanted(several, at) else [several[at]])


def put_before(added: str, is_wanted: Callable[[List[str], int], bool]) -> Fault:
    """A fault that puts an instruction before others, which are told by their list and place."""
    return rewritten(lambda several, at: [added, several[at]] if is_wanted(several, at) else [several[at]])


def before(several: List[str], at: int) -> str:
    """The name of the instruction before a place."""
    return name_of(several[at - 1]) if at else ""


def behind(several: List[str], at: int) -> str:
    """The name of the instruction behind a place."""
    return name_of(several[at + 1]) if at + 1 < len(several) else ""


def moved(jump, places: List[int]) -> str:
    """A jump with its new place."""
    before, place, behind = jump.groups()[:3] if jump.group(1) else jump.groups()[3:]
    return f"{before}{places[int(place)]}{behind}"


def placed(name: str, by: Callable[[int, int], int]) -> Fault:
    """A fault that changes where the jumps of a kind lead, from where they stand and lead."""

    def change(several: List[str]) -> List[str]:
        found = []
        for at, step in enumerate(several):
            jump = JUMP.fullmatch(step) if name_of(step) == name else None
            if jump:
                before, place, behind = jump.groups()[:3] if jump.group(1) else jump.groups()[3:]
                step = f"{before}{by(at, int(place))}{behind}"
            found.append(step)
        return found

    return lists(change)


def replaced(old: List[str], new: List[str]) -> Fault:
    """A fault that has other instructions in the place of a row of them, which are given by their names."""

    def rule(several: List[str], at: int) -> List[str]:
        for begin in range(max(0, at - len(old) + 1), at + 1):
            if [name_of(it) for it in several[begin : begin + len(old)]] == old:
                return new if begin == at else []
        return [several[at]]

    return rewritten(rule)
