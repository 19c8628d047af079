"""Runs the program that is tried, and one that has the same forms, on files of a folder."""

import os
import signal
from typing import NamedTuple

# What stands between texts of a batch, and begins the line that ends the answer of one.
SEPARATOR = "\x1e"
GIVEN_UP = 1000


class Answer(NamedTuple):
    """A program's status, what it printed, and the line that it wrote on standard error."""

    status: int
    out: str
    refusal: str

    def kind(self) -> str:
        """The kind of a refusal, or nothing."""
        words = self.refusal.split(" ")
        return words[1] if len(words) == 4 and words[0] == "mjc:" else self.refusal

    def show(self) -> dict:
        """The answer as data that can be printed."""
        return {"status": self.status, "out": self.out, "refusal": self.refusal}


class Program:
    """A program, the options that it always gets, and a folder for its files."""

    def __init__(self, path: str, folder: str, options=(), seconds: int = 60):
        self.path = os.path.abspath(path)
        self.folder = folder
        self.options = list(options)
        self.seconds = seconds
        self.runs = 0

    def write(self, name: str, content: str) -> str:
        """Writes a file of the folder, and answers its path."""
        path = os.path.join(self.folder, name)
        with open(path, "wb") as file:
            file.write(content.encode("utf-8", "surrogatepass"))
        return path

    def start(self, words: list) -> Answer:
        """Runs the program. One that takes too long is stopped, and has a status that no program has."""
        status, out, error = self.spawn(words)
        return Answer(status, out.decode("utf-8", "replace"), error.decode("utf-8", "replace").removesuffix("\n"))

    def spawn(self, words: list):
        """The status, and what was printed on both outputs. What stands on the second one has to fit into a pipe."""
        self.runs += 1
        outputs = [os.pipe(), os.pipe()]
        actions = [(os.POSIX_SPAWN_DUP2, write_end, to) for to, (_, write_end) in enumerate(outputs, 1)]
        process = os.posix_spawn(self.path, [self.path, *words], {}, file_actions=actions)
        late = []

        def stop(_signal, _frame):
            late.append(True)
            os.kill(process, signal.SIGKILL)

        signal.signal(signal.SIGALRM, stop)
        signal.alarm(self.seconds)
        for _, write_end in outputs:
            os.close(write_end)
        out, error = (read_all(read_end) for read_end, _ in outputs)
        _, ending = os.waitpid(process, 0)
        signal.alarm(0)
        return GIVEN_UP if late else os.waitstatus_to_exitcode(ending), out, error

    def one(self, kind: str, options: list, path: str) -> Answer:
        """What it prints of the kind `tokens`, `code` or `names` for a file."""
        return self.start([kind, *self.options, *options, path])

    def expression(self, text: str) -> Answer:
        """What it prints for an expression by itself."""
        return self.start(["expr", *self.options, text])

    def batch(self, kind: str, options: list, texts: list) -> list:
        """What it prints of a kind for each text of several, by one run."""
        path = self.write("batch", f"\n{SEPARATOR}\n".join(texts))
        status, printed, _ = self.spawn(["batch", kind, *self.options, *options, path])
        answers, lines = [], []
        for line in printed.decode("utf-8", "replace").split("\n"):
            if not line.startswith(SEPARATOR):
                lines.append(line)
                continue
            number, _, refusal = line[2:].partition(" ")
            answers.append(Answer(int(number), "".join(f"{it}\n" for it in lines), refusal))
            lines = []
        if status or len(answers) != len(texts):
            raise RuntimeError(f"a batch of {len(texts)} had {len(answers)} answers and status {status}")
        return answers


def read_all(read_end: int) -> bytes:
    """What is written into a pipe until its end, which is closed then."""
    printed = []
    while part := os.read(read_end, 1 << 16):
        printed.append(part)
    os.close(read_end)
    return b"".join(printed)
