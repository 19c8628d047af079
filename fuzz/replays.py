"""Compares `mjc replay` with a machine that is written from the table of instructions alone.

For each seed it makes a template, lets `mjc code` print its code, makes answers for that code, and compares what
`mjc replay` prints for both, byte by byte, with what the machine has to print.

    replays.py MJC [--first SEED] [--count TEXTS] [--limit SECONDS]
"""

import argparse
import collections
import json
import os
import subprocess
import sys
import tempfile
import time
from random import Random
from typing import NamedTuple, Optional

import answers
import machine
import templates

INSTRUCTIONS = """
EmitRaw StoreLocal Lookup GetAttr SetAttr GetItem Slice LoadConst BuildMap BuildKwargs MergeKwargs BuildList BuildTuple
UnpackList UnpackLists Add Sub Mul Div IntDiv Rem Pow Neg Eq Ne Gt Gte Lt Lte Not StringConcat In CompareAndPreserve
IsUndefined ApplyFilter PerformTest Emit PushLoop PushWith Iterate PushDidNotIterate PopFrame PopLoopFrame Jump
JumpIfFalse JumpIfFalseOrPop JumpIfTrueOrPop PushAutoEscape PopAutoEscape BeginCapture EndCapture CallFunction
CallMethod CallObject DupTop DiscardTop Swap FastSuper FastRecurse CallBlock LoadBlocks Include ExportLocals BuildMacro
Return Enclose GetClosure
""".split()
# The events that open and close something, in pairs.
OPENING = {"PushWith": "scope", "PushLoop": "loop", "PushAutoEscape": "autoescape", "BeginCapture": "capture"}
CLOSING = {"PopFrame": "scope", "PopLoopFrame": "loop", "PopAutoEscape": "autoescape", "EndCapture": "capture"}


class Output(NamedTuple):
    """What a program printed, and its status."""

    status: int
    out: bytes
    error: bytes


class Case(NamedTuple):
    """A template with answers, and what has to be printed for it."""

    seed: int
    template: templates.Template
    code: str
    answers: str
    wanted: Output
    run: Optional[machine.Run]


class Counts:
    """What was seen."""

    def __init__(self):
        self.texts = 0
        self.refused = 0
        self.bad_answers = 0
        self.endings = collections.Counter()
        self.in_code = collections.Counter()
        self.in_runs = collections.Counter()
        self.last = {ending: collections.Counter() for ending in machine.ENDINGS}
        self.events = 0
        self.steps = 0
        self.differences = []

    def add(self, case: Case):
        """Counts a case."""
        self.texts += 1
        code = machine.read_lists(case.code)
        self.in_code.update({it.name for instructions in code.values() for it in instructions})
        if case.run is None:
            self.bad_answers += 1
            return
        self.endings[case.run.ending] += 1
        self.in_runs.update(set(case.run.begun))
        if case.run.begun:
            self.last[case.run.ending][case.run.begun[-1]] += 1
        self.events += len(case.run.record)
        self.steps += case.run.steps

    def report(self, seconds: float) -> str:
        """The counts as lines."""
        lines = [f"texts {self.texts}, refused besides {self.refused}, differences {len(self.differences)}"]
        for ending in machine.ENDINGS:
            last = self.last[ending]
            lines.append(f"ending {ending}: {self.endings[ending]}, at {len(last)} kinds of instructions: {most(last)}")
        lines += [f"bad answers: {self.bad_answers}", f"events {self.events}, steps {self.steps}"]
        lines += [f"instructions in code: {kinds(self.in_code)}", f"instructions in runs: {kinds(self.in_runs)}"]
        lines += [f"seconds: {seconds:.1f}"]
        return "\n".join(lines)


def kinds(seen: collections.Counter) -> str:
    """How many kinds of instructions were seen, and those that were not."""
    lacking = [it for it in INSTRUCTIONS if it not in seen]
    unknown = [it for it in seen if it not in INSTRUCTIONS]
    return (
        f"{len(seen)} of {len(INSTRUCTIONS)} kinds"
        + (f", without {' '.join(lacking)}" if lacking else "")
        + (f", and unknown ones: {' '.join(unknown)}" if unknown else "")
    )


def most(seen: collections.Counter) -> str:
    """Names with their numbers, the most frequent first."""
    return ", ".join(f"{name} {count}" for name, count in seen.most_common())


class Program:
    """The program that is tried, and a folder for its files."""

    def __init__(self, path: str, folder: str, seconds: float):
        self.path = os.path.abspath(path)
        self.folder = folder
        self.seconds = seconds

    def start(self, words: list, given: str = "") -> Output:
        """Runs the program. One that takes too long has a status that no program has."""
        how = {"capture_output": True, "timeout": self.seconds, "cwd": self.folder}
        try:
            run = subprocess.run([self.path, *words], input=given.encode(), **how)
        except subprocess.TimeoutExpired:
            return Output(-1000, b"", b"given up")
        return Output(run.returncode, run.stdout, run.stderr)

    def write(self, name: str, content: str):
        """Writes a file of the folder."""
        with open(os.path.join(self.folder, name), "w", encoding="utf-8", newline="") as file:
            file.write(content)

    def code(self, template: templates.Template) -> Output:
        """What `mjc code` prints for a template."""
        self.write("template", template.source)
        return self.start(["code", *template.options, "template"])

    def replay(self, template: templates.Template, content: str, given: Optional[str]) -> Output:
        """What `mjc replay` prints. `given` says which of its two files is standard input, if one is."""
        self.write("template", template.source)
        self.write("answers", content)
        files = ["-" if it == given else it for it in ("template", "answers")]
        words = ["replay", *template.options, *files]
        return self.start(words, {"template": template.source, "answers": content, None: ""}[given])


def make_case(seed: int, template: templates.Template, code: str, bad_answers: float) -> Case:
    """A case of a template, in a share of cases with a line that is no answer."""
    random = Random(f"answers {seed}")
    instructions = machine.read_lists(code)[None]
    made = answers.make(instructions, random)
    if random.random() < bad_answers:
        content, line = answers.write_with_bad_line(made, random)
        return Case(seed, template, code, content, Output(2, b"", b"mjc: bad answer on line %d\n" % line), None)
    content = answers.write(made, random)
    read = machine.read_answers(content)
    if read != made:
        raise AssertionError(f"the answers of seed {seed} are not read as they were written")
    run = machine.replay(instructions, read)
    return Case(seed, template, code, content, Output(0, machine.show_run(run).encode(), b""), run)


def broken_laws(case: Case) -> list:
    """Laws of compiled code that a run breaks: it is short, and it leaves nothing open and nothing behind."""
    run, length = case.run, len(machine.read_lists(case.code)[None])
    found = []
    if run.steps > (len(case.answers.split("\n")) + 1) * (length + 1):
        found.append("more steps than answers and code allow")
    if run.ending == machine.FINISHED and (run.operands or run.loops):
        found.append("operands or loops are left")
    if not balanced([it.instruction.name for it in run.record], run.ending == machine.FINISHED):
        found.append("what is opened is not closed")
    return found


def balanced(names: list, whole: bool) -> bool:
    """Whether scopes with loops, autoescape, and captures each open and close like brackets."""
    scopes, open_counts = [], collections.Counter()
    for name in names:
        kind = OPENING.get(name) or CLOSING.get(name)
        if kind in ("scope", "loop"):
            if name in OPENING:
                scopes.append(kind)
            elif not scopes or scopes.pop() != kind:
                return False
        elif kind:
            open_counts[kind] += 1 if name in OPENING else -1
            if open_counts[kind] < 0:
                return False
    return not whole or (not scopes and not any(open_counts.values()))


def try_seed(seed: int, program: Program, counts: Counts, bad_answers: float):
    """Tries the template of a seed, and counts it."""
    template = templates.make(seed)
    printed = program.code(template)
    if printed.status == 1 and not printed.out and printed.error.startswith(b"mjc: SyntaxError at "):
        counts.refused += 1
        return
    try:
        if printed.status != 0 or printed.error:
            raise ValueError("no code")
        case = make_case(seed, template, printed.out.decode(), bad_answers)
    except (machine.Stuck, ValueError) as why:
        wrong = {"seed": seed, "options": template.options, "source": template.source, "why": str(why)}
        counts.differences.append({**wrong, "code": show_output(printed)})
        return
    given = Random(f"files {seed}").choice((None, None, "template", "answers"))
    found = program.replay(template, case.answers, given)
    counts.add(case)
    laws = broken_laws(case) if case.run else []
    if found != case.wanted or laws:
        counts.differences.append(show_difference(case, found, laws))


def show_output(output: Output) -> dict:
    """An output as texts."""
    out, error = (it.decode(errors="replace") for it in (output.out, output.error))
    return {"status": output.status, "out": out, "error": error}


def show_difference(case: Case, found: Output, laws: list) -> dict:
    """A difference with all that is needed to look into it."""
    return {
        "seed": case.seed,
        "options": case.template.options,
        "source": case.template.source,
        "code": case.code,
        "answers": case.answers,
        "wanted": show_output(case.wanted),
        "found": show_output(found),
        "broken laws": laws,
    }


def compare(words, folder: str) -> int:
    """Tries seeds until there are as many texts as are wanted, or time is over."""
    program = Program(words.mjc, folder, words.run_limit)
    counts = Counts()
    start, told = time.monotonic(), 0
    seed = words.first
    while counts.texts < words.count and time.monotonic() - start < words.limit:
        try_seed(seed, program, counts, words.bad_answers)
        seed += 1
        for difference in counts.differences[told:]:
            print(json.dumps(difference, ensure_ascii=False), flush=True)
        told = len(counts.differences)
        if told >= words.stop_after:
            break
    print(f"seeds {words.first} to {seed - 1}")
    print(counts.report(time.monotonic() - start))
    if counts.texts < words.count:
        print("stopped early")
    return 1 if told or counts.texts < words.count else 0


def main() -> int:
    """Reads the arguments."""
    parser = argparse.ArgumentParser(description="compares `mjc replay` with a machine in Python")
    parser.add_argument("mjc", help="the program that is tried")
    parser.add_argument("--first", type=int, default=1, help="the first seed")
    parser.add_argument("--count", type=int, default=20000, help="how many accepted templates to compare")
    parser.add_argument("--limit", type=float, default=1800, help="seconds after which it stops")
    parser.add_argument("--run-limit", type=float, default=60, help="seconds that one run of the program may take")
    parser.add_argument("--bad-answers", type=float, default=0.02, help="the share of cases with a bad line")
    parser.add_argument("--stop-after", type=int, default=50, help="differences after which it stops")
    words = parser.parse_args()
    with tempfile.TemporaryDirectory() as folder:
        return compare(words, folder)


if __name__ == "__main__":
    sys.exit(main())
