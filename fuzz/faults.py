"""Tries whether wrong programs are found.

    faults.py --mjc MJC [--upstream PROGRAM] [--texts TEXTS] [--only WORDS]
    faults.py --be WORDS MJC ARGUMENT..

The first form puts each wrong program of `wrong_texts.py` and `wrong_code.py` in the place of `mjc`, and compares texts
that are made up, without rows, until the first difference. It prints how many texts were compared until then, and what
the difference was. The status is 0 where each is found within `--texts` texts. The second form is one of the wrong
programs.
"""

import argparse
import os
import subprocess
import sys
import tempfile
import time
from typing import Dict, List, Optional

import comparison
import lexing
import model
import replays
import texts
import wrong_code  # noqa: F401
import wrong_texts  # noqa: F401
from programs import Program
from wrong import FAULTS, KINDS, Call, Fault, Output

SEPARATE = ("tokens", "code", "names", "lint")
REPLAY = "replay"


class WrongProgram(Program):
    """A program with a fault."""

    def __init__(self, path: str, folder: str, fault: Fault):
        super().__init__(path, folder)
        self.fault = fault

    def spawn(self, words: list):
        """What the wrong program prints."""
        command, *options, last = words
        source = last if command == "expr" else read(last)
        found = self.fault(Call(command, options, source, None, self.real))
        return found.status, found.out.encode(), found.error.encode()

    def real(self, command: str, options: List[str], source: str, _answers: Optional[str]) -> Output:
        """What the program prints."""
        last = source if command == "expr" else self.write("changed", source)
        status, out, error = super().spawn([command, *options, last])
        return Output(status, out.decode(), error.decode())


class WrongReplays(replays.Program):
    """A program with a fault, as the comparison of records starts it."""

    def __init__(self, path: str, folder: str, seconds: float, fault: Fault):
        super().__init__(path, folder, seconds)
        self.fault = fault

    def start(self, words: list, given: str = "") -> replays.Output:
        """What the wrong program prints. Its files are in the folder, also where one is standard input."""
        command, *options = words
        options = options[:-2] if command == REPLAY else options[:-1]
        template, answers = (read(os.path.join(self.folder, it)) for it in ("template", "answers"))
        found = self.fault(Call(command, options, template, answers if command == REPLAY else None, self.real))
        return replays.Output(found.status, found.out.encode(), found.error.encode())

    def real(self, command: str, options: List[str], source: str, answers: Optional[str]) -> Output:
        """What the program prints."""
        self.write("changed", source)
        files = ["changed"] if answers is None else ["changed", "answers"]
        status, out, error = super().start([command, *options, *files])
        return Output(status, out.decode(), error.decode())


class Found(Exception):
    """A difference was found."""


class Trial(comparison.Comparison):
    """A comparison that ends at the first difference. All have the same texts, so what the model makes of them is kept."""

    files: Dict[int, texts.File] = {}
    made: Dict[tuple, model.Text] = {}

    def __init__(self, words, folder: str, fault: Fault):
        super().__init__(words, folder)
        self.mjc = WrongProgram(words.mjc, folder, fault)
        self.machine = WrongReplays(words.mjc, folder, self.mjc.seconds, fault)
        self.machine.write("answers", "")

    def make(self, seed: int) -> texts.File:
        """The file of a seed, which is made once."""
        if seed not in self.files:
            self.files[seed] = super().make(seed)
        return self.files[seed]

    def text(self, case: comparison.Case, ours: bool = True, unicode=lexing.KNOWN_LETTERS) -> model.Text:
        """What the model makes of a text, once."""
        key = tuple(case.options), case.text, ours, unicode
        if key not in self.made:
            self.made[key] = super().text(case, ours, unicode)
        return self.made[key]

    def keep(self, found: dict):
        """Ends at a difference."""
        super().keep(found)
        raise Found


def read(path: str) -> str:
    """The text of a file."""
    with open(path, encoding="utf-8", newline="") as file:
        return file.read()


def trial(words, fault: Fault) -> Optional[dict]:
    """The first difference that a wrong program has, or None."""
    with tempfile.TemporaryDirectory(dir=words.folder) as folder:
        compare, seed = Trial(words, folder, fault), words.seed
        try:
            while compare.compared() < words.texts:
                compare.file(seed)
                seed += 1
        except Found:
            return compare.differences[0]
    return None


def shown(difference: dict, width: int) -> str:
    """A difference in some words."""
    source = repr(difference.get("source", ""))
    return f"{difference['kind']}: {source if len(source) <= width else source[:width] + ' ..'}"


def run(words) -> int:
    """Tries the wrong programs, and prints what was found of each, and at the end a table of all."""
    start, found = time.monotonic(), trial(words, lambda call: call.real())
    if found:
        print(f"the program itself differs: {shown(found, words.width)}")
        return 1
    needed = {}
    for name in [it for it in FAULTS if words.only in it]:
        found = trial(words, FAULTS[name])
        needed[name] = found["texts"] if found else words.texts + 1
        if needed[name] > words.texts:
            print(f"not found: {name}", flush=True)
        else:
            print(f"{needed[name]:5} texts: {name} ({shown(found, words.width)})", flush=True)
    print(table(needed))
    missed = sum(it > words.texts for it in needed.values())
    print(f"{len(needed)} wrong programs, {missed} not found, {time.monotonic() - start:.0f} seconds")
    return 1 if missed or not needed else 0


def table(needed: Dict[str, int]) -> str:
    """How many texts each fault needed, kind by kind, as a table."""
    lines = ["| kind | wrong programs, and the text that found each |", "|---|---|"]
    for kind, names in KINDS.items():
        shown_names = [f"{it} ({needed[it]})" for it in names if it in needed]
        if shown_names:
            lines.append(f"| {kind}: {len(shown_names)} | {'; '.join(shown_names)} |")
    return "\n".join(lines)


def be(name: str, mjc: str, arguments: List[str]) -> int:
    """Does what a wrong program does."""

    def real(command: str, options: List[str], source: str, answers: Optional[str]) -> Output:
        words = [mjc, command, *options]
        with tempfile.TemporaryDirectory() as folder:
            if command == "expr":
                words.append(source)
            else:
                words += [Program(mjc, folder).write("text", source)]
                words += [] if answers is None else [Program(mjc, folder).write("answers", answers)]
            done = subprocess.run(words, capture_output=True, check=False)
        return Output(done.returncode, done.stdout.decode(), done.stderr.decode())

    command, *options = arguments
    files = 2 if command == REPLAY else 1
    options, last = options[:-files], options[-files:]
    given = last if command == "expr" else [sys.stdin.read() if it == "-" else read(it) for it in last]
    found = FAULTS[name](Call(command, options, given[0], given[1] if files == 2 else None, real))
    sys.stdout.buffer.write(found.out.encode())
    sys.stderr.write(found.error)
    return found.status


def main() -> int:
    """Reads the arguments."""
    sys.setrecursionlimit(20_000)
    if sys.argv[1:2] == ["--be"]:
        return be(sys.argv[2], sys.argv[3], sys.argv[4:])
    parser = argparse.ArgumentParser(description="tries whether wrong programs are found")
    parser.add_argument("--mjc", required=True, help="the program that the wrong ones call")
    parser.add_argument("--upstream", help="the program that the model is compared with too")
    parser.add_argument("--upstream-option", action="append", default=[], help="an option that this one always gets")
    parser.add_argument("--texts", type=int, default=2000, help="within how many texts each has to be found")
    parser.add_argument("--seed", type=int, default=1, help="the first seed")
    parser.add_argument("--only", default="", help="try those whose words have this in them")
    parser.add_argument("--width", type=int, default=80, help="how much of a text is printed")
    parser.add_argument("--folder", help="where files are written for the programs; one in memory is faster")
    parser.set_defaults(templates=80, broken=24, expressions=4, odd=6, replays=2)
    return run(parser.parse_args())


if __name__ == "__main__":
    sys.exit(main())
