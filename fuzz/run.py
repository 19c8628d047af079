"""Compares `mjc` with a model of it, and another program that has its forms with a model of that one, on texts that are
made up.

    run.py --mjc MJC --upstream PROGRAM [--seed SEED] [--count TEXTS] [--seconds SECONDS] [--processes N]

It prints each difference as a line of JSON, and at the end how many texts were compared, and how often each rule chose
between the two models. The status is 0 where no difference is left.
"""

import argparse
import gc
import json
import multiprocessing
import os
import signal
import sys
import tempfile
import time
from collections import Counter
from queue import Empty
from typing import List, NamedTuple, Optional

import comparison


ROWS = os.path.join(os.path.dirname(os.path.abspath(__file__)), "rows.jsonl")
# What ends a run early, with all that it has counted.
ENDING_SIGNALS = (signal.SIGINT, signal.SIGTERM)


class Work(NamedTuple):
    """What a process does: which seeds, until when, and how."""

    words: argparse.Namespace
    first: int
    step: int
    until: float
    share: int
    rows: list


def work(job: Work, queue, stop):
    """Compares files of seeds until there are enough texts, or time is over, and puts results into a queue."""
    os.nice(job.words.nice)
    # A signal ends the first process, which then sets `stop`. The programs that are run do not get it either.
    for it in ENDING_SIGNALS:
        signal.signal(it, signal.SIG_IGN)
    # What is made of a file of texts has cycles, and is of no use behind it.
    gc.disable()
    # Texts nest some hundred deep, and the model of names needs several calls for each.
    sys.setrecursionlimit(20_000)
    with tempfile.TemporaryDirectory(dir=job.words.folder) as folder:
        compare = comparison.Comparison(job.words, folder)
        for row in job.rows:
            compare.row(row)
        tell_differences(compare, queue)
        seed = job.first
        while compare.compared() < job.share and time.monotonic() < job.until and not stop.is_set():
            try_file(compare, seed)
            tell_differences(compare, queue)
            queue.put(("counts", compare.take_counts()))
            queue.put(("seed", seed))
            gc.collect()
            seed += job.step
        queue.put(("counts", compare.take_counts()))
        queue.put(("examples", compare.examples))
    queue.put(("end", job.first))


def try_file(compare: comparison.Comparison, seed: int):
    """Compares the file of a seed. Where that fails, this is told, and the next one goes on."""
    try:
        compare.file(seed)
    except Exception as why:
        compare.differences.append({"kind": "this script", "seed": seed, "why": repr(why)})


def tell_differences(compare: comparison.Comparison, queue):
    """Puts the differences since the last time into the queue."""
    for difference in compare.take_differences():
        queue.put(("difference", difference))


class Seen:
    """What the processes of a run have told so far, and what the runs before it have left in the file of counts."""

    def __init__(self, words):
        self.words = words
        self.start = self.kept = time.monotonic()
        self.earlier = read_runs(words.counts)
        self.counts, self.examples = Counter(), {}
        self.differences, self.ended, self.last = 0, 0, words.seed
        self.found = open(words.found, "a", encoding="utf-8") if words.found else None

    def take(self, kind: str, content):
        """Takes what a process tells."""
        if kind == "counts":
            self.counts += content
            if time.monotonic() - self.kept >= 60:
                self.keep()
                print(f"{comparison.number_of_texts(self.counts)} texts", file=sys.stderr, flush=True)
        elif kind == "seed":
            self.last = max(self.last, content)
        elif kind == "examples":
            for rule, case in content.items():
                if comparison.is_shorter(self.examples, rule, case):
                    self.examples[rule] = case
        elif kind == "end":
            self.ended += 1
        else:
            self.take_difference(content)

    def take_difference(self, difference: dict):
        """Prints a difference, and keeps it."""
        self.differences += 1
        line = json.dumps(difference, ensure_ascii=False)
        print(line[: self.words.width], flush=True)
        if self.found:
            print(line, file=self.found, flush=True)

    def keep(self):
        """Writes the counts of this run behind those of the runs before it."""
        self.kept = time.monotonic()
        if self.words.counts:
            with open(f"{self.words.counts}.new", "w", encoding="utf-8") as file:
                json.dump([*self.earlier, self.this_run()], file)
            os.replace(f"{self.words.counts}.new", self.words.counts)

    def this_run(self) -> dict:
        """The numbers of this run."""
        return {
            "first": self.words.seed,
            "last": self.last,
            "processes": self.words.processes,
            "seconds": time.monotonic() - self.start,
            "differences": self.differences,
            "counts": self.counts,
        }

    def report(self) -> str:
        """The numbers of all runs, as lines."""
        runs = [*self.earlier, self.this_run()]
        return "\n".join([*map(report_run, runs), *report_counts(runs)])


def run(words) -> int:
    """Starts the processes, and prints what they found."""
    seen, queue, stop = Seen(words), multiprocessing.Queue(), multiprocessing.Event()
    share = -(-words.count // words.processes)
    rows = read_rows(words.rows) if words.rows else []
    jobs = [
        Work(words, words.seed + at, words.processes, seen.start + words.seconds, share, [] if at else rows)
        for at in range(words.processes)
    ]
    for it in ENDING_SIGNALS:
        signal.signal(it, lambda *_: stop.set())
    processes = [multiprocessing.Process(target=work, args=(job, queue, stop)) for job in jobs]
    for process in processes:
        process.start()
    while seen.ended < len(processes):
        try:
            seen.take(*queue.get(timeout=5))
        except Empty:
            if any(it.is_alive() for it in processes):
                continue
            seen.differences += 1
            print("a process was stopped", flush=True)
            break
    for process in processes:
        process.join()
    if words.examples:
        write_examples(words.examples, seen.examples)
    seen.keep()
    print(seen.report())
    return 1 if seen.differences else 0


def read_runs(path: Optional[str]) -> list:
    """The numbers of the runs that a file of counts has, if there is one."""
    if not path or not os.path.exists(path):
        return []
    with open(path, encoding="utf-8") as file:
        return json.load(file)


def read_rows(path: str) -> list:
    """The rows of a file, one a line."""
    with open(path, encoding="utf-8") as file:
        return [json.loads(line) for line in file]


def write_examples(path: str, examples: dict):
    """Writes the shortest text of each rule as a row."""
    with open(path, "w", encoding="utf-8") as file:
        for rule, case in sorted(examples.items()):
            row = {"rules": [rule], "options": case.options, "source": case.text}
            print(json.dumps(row, ensure_ascii=False), file=file)


def report_run(it: dict) -> str:
    """A run in a line."""
    texts, seconds = comparison.number_of_texts(Counter(it["counts"])), it["seconds"]
    seeds = f"seeds {it['first']} to {it['last']}, {it['processes']} processes, {seconds:.0f} seconds"
    return f"{seeds}, {texts} texts, {texts / max(seconds, 1):.0f} in a second"


def report_counts(runs: List[dict]) -> List[str]:
    """The sums of the counts of runs, as lines."""
    counts = sum((Counter(it["counts"]) for it in runs), Counter())
    lines = [f"texts {comparison.number_of_texts(counts)}"]
    lines += [f"  {name}: {count}" for name, count in sorted(counts.items())]
    return [*lines, f"differences: {sum(it['differences'] for it in runs)}"]


def main() -> int:
    """Reads the arguments."""
    parser = argparse.ArgumentParser(description="compares mjc with another program, and with models")
    parser.add_argument("--mjc", required=True, help="the program that is tried")
    parser.add_argument("--upstream", help="the program that it is compared with")
    parser.add_argument("--upstream-option", action="append", default=[], help="an option that this one always gets")
    parser.add_argument("--seed", type=int, default=1, help="the first seed")
    parser.add_argument("--count", type=int, default=10_000, help="how many texts to compare")
    parser.add_argument("--seconds", type=float, default=600, help="after how many seconds to stop")
    parser.add_argument("--processes", type=int, default=1, help="how many processes compare side by side")
    parser.add_argument("--templates", type=int, default=80, help="how many templates a file has")
    parser.add_argument("--broken", type=int, default=24, help="how many broken texts go with a file")
    parser.add_argument("--expressions", type=int, default=4, help="how many expressions go with a file")
    parser.add_argument("--odd", type=int, default=6, help="how many texts in odd syntaxes go with a file")
    parser.add_argument("--replays", type=int, default=2, help="how many runs of code go with a file")
    parser.add_argument("--found", help="a file that each difference is added to, as a row")
    parser.add_argument("--examples", help="a file that gets the shortest text of each rule, as rows")
    parser.add_argument("--counts", help="a file that gets the counts each minute, behind those of other runs")
    parser.add_argument("--rows", default=ROWS, help="a file of rows, which are compared first")
    parser.add_argument("--folder", help="where files are written for the programs; one in memory is faster")
    parser.add_argument("--width", type=int, default=4000, help="how much of a difference is printed")
    parser.add_argument("--nice", type=int, default=10, help="how far the processes stand back for others")
    return run(parser.parse_args())


if __name__ == "__main__":
    sys.exit(main())
