#!/usr/bin/env python3
"""Holds ranges of instances against the program's own runs over each instance alone.

    python3 bench/ranges.py PROGRAM SEED COUNT

Each case is a weighted tardiness or a flow shop file of a few small instances, some with a fault, and a range that may go beyond
them: `solve`, `bound`, or `evaluate` of a rule, of an order for each instance or of an answer for each, perhaps beside a bound for each,
some of these damaged, as text or with --json. What is wanted is made of runs with `--index K` or `--name`, with the order by `--order`
and the answer and the bound in files of their own: the words of their lines `value`, `gap` and `misfit` behind the number, or their JSON
objects with the number as second member; and behind the last of them what is said of a refusal, with its number, and its status.
"""
import os
import random
import subprocess
import sys
import tempfile

PROBLEMS = ["1||sumwC", "1||Lmax", "1||sumwT", "1||sumT", "1||sumU", "P2||sumC", "P3||Cmax"]
SHOPS = ["F2||Cmax", "F||Cmax", "O2||Cmax", "F2|prmp|Cmax", "F||sumC"]
MACHINES = {"P2": 2, "P3": 3}
RULES = ["EDD", "SPT", "LPT", "WSPT"]
HEAD = b'{"version":1,'
SKIPPED = [b"", b"  ", b"\t", b"# a comment", b" #"]


class Case:
    """A file of instances, and a range of them."""

    def __init__(self, rng):
        self.rng = rng
        self.jobs = rng.randint(1, 6)
        self.count = rng.randint(1, 5)
        self.names = None
        if rng.random() < 0.3:
            self.flow_shop()
        else:
            self.weighted_tardiness()
        first = rng.randint(1, self.count)
        self.range = ("all", 1, None) if rng.random() < 0.5 else (None, first, rng.randint(first, self.count + 1))
        self.json = ["--json"] if rng.random() < 0.4 else []

    def weighted_tardiness(self):
        rng = self.rng
        self.problem = rng.choice(PROBLEMS)
        times = [[rng.choice([0, 9]) if rng.random() < 0.03 else rng.randint(1, 9) for _ in range(self.jobs)]
                 for _ in range(self.count)]
        rows = [(row, [rng.randint(0, 5) for _ in row], [rng.randint(-3, 30) for _ in row]) for row in times]
        self.text = "".join(" ".join(map(str, row)) + "\n" for instance in rows for row in instance).encode()
        self.form = ["-f", "wt", "--jobs", str(self.jobs)]

    def flow_shop(self):
        """Instances with names, of which two may be the same, on two machines, or on more of which two are named."""
        rng = self.rng
        self.problem = rng.choice(SHOPS)
        machines = rng.choice([2, 2, 3])
        pair = ["--pair", ",".join(map(str, rng.sample(range(machines), 2)))] if machines > 2 or rng.random() < 0.2 else []
        self.names = [rng.choice("abcde") + str(rng.randint(0, 9)) for _ in range(self.count)]
        lines = []
        for name in self.names:
            rows = [[rng.randint(0, 9) for _ in range(machines)] for _ in range(self.jobs)]
            rows = [" ".join(f"{machine} {time}" for machine, time in enumerate(row)) for row in rows]
            damage = ["x"] if rng.random() < 0.05 else []
            words = rng.choice(["", "instance", " +++ instance of three"])
            lines += [f" instance {name}", words, f"{self.jobs} {machines}", *rows, *damage]
        self.text = ("\n".join(lines) + "\n").encode()
        self.form = ["-f", "flow", *pair]

    def named(self, number):
        """The words that name an instance alone."""
        if self.names is None:
            return ["--index", str(number)]
        return ["--name", self.names[number - 1] if number <= self.count else ""]

    def span(self):
        named, first, last = self.range
        return named or f"{first}-{last}"

    def order(self):
        """The line of an order, which may be none."""
        jobs = [str(job) for job in self.rng.sample(range(1, self.jobs + 1), self.jobs)]
        for _ in range(MACHINES.get(self.problem[:2], 1) - 1):
            jobs.insert(self.rng.randint(0, len(jobs)), "/")
        line = " ".join(jobs).encode()
        damaged = [line.replace(b"1", b"\xff"), line + b" 1", b"x " + line, b"/", b" \t" + line + b" \r"]
        return self.rng.choice(damaged) if self.rng.random() < 0.15 else line


def run(program, folder, words):
    done = subprocess.run([program, *words], cwd=folder, stdin=subprocess.DEVNULL, capture_output=True)
    return done.returncode, done.stdout, done.stderr


def numbered(text, number):
    """A JSON object with the number of its instance."""
    return text.replace(HEAD, HEAD + b'"instance":%d,' % number, 1)


def line_of(case, number, text):
    """The line of a range, by what the command prints of that instance alone."""
    if case.json:
        return numbered(text, number)
    told = [b"%d" % number]
    for line in text.split(b"\n"):
        key, _, row = line.partition(b" ")
        told += [line] if key == b"misfit" else [row] if key in (b"value", b"gap") else []
    return b" ".join(told) + b"\n"


def wanted(program, folder, case, words, one_by_one):
    """The status and both outputs of the range, by a run for each instance with the words for its place."""
    _, number, last = case.range
    first, written = number, b""
    while last is None or number <= last:
        if last is None and number > case.count:
            break
        status, text, said = run(program, folder, [*words, *case.named(number), *one_by_one(number - first)])
        if status not in (0, 1, 6):
            line = numbered(said, number) if case.json else said + b"threefield: instance %d\n" % number
            return status, written, line
        written += line_of(case, number, text)
        number += 1
    return 0, written, b""


def with_skipped(rng, lines):
    """Lines with some between them that are passed over."""
    for line in lines:
        while rng.random() < 0.2:
            yield rng.choice(SKIPPED)
        yield line


def write(folder, name, data):
    with open(os.path.join(folder, name), "wb") as file:
        file.write(data)


def orders(folder, case):
    """An order for each instance, or one less or more: the words of the range, and those for each place."""
    lines = [case.order() for _ in range(case.rng.randint(max(0, case.count - 1), case.count + 1))]
    write(folder, "orders", b"\n".join(with_skipped(case.rng, lines)))
    said = [line.decode() if line.isascii() else "" for line in lines]
    return ["--orders", "orders", "wt"], lambda place: ["--order", said[place] if place < len(said) else "", "wt"]


def answers(program, folder, case):
    """The same of answers."""
    problem = "1||sumwC" if case.names is None else "F2||Cmax"
    texts = [run(program, folder, ["solve", "-p", problem, *case.form, *case.named(number), "wt"])[1]
             for number in range(1, case.count + 1)]
    texts = [text.replace(b"piece", b"peace") if case.rng.random() < 0.1 else text for text in texts if text]
    name_of = in_parts(folder, "answer", texts)
    return ["wt", "answers"], lambda place: ["wt", name_of(place)]


def bounds(program, folder, case):
    """A bound for each instance, or one less."""
    words = ["bound", "-p", case.problem, *case.form]
    texts = [run(program, folder, [*words, *case.named(number), "wt"])[1] or b"end\n" for number in range(1, case.count + 1)]
    texts = [text.replace(b"value", b"valeu") if case.rng.random() < 0.1 else text for text in texts]
    name_of = in_parts(folder, "bound", texts[:-1] if case.rng.random() < 0.1 else texts)
    return ["--bound", "bounds"], lambda place: ["--bound", name_of(place)]


def in_parts(folder, name, texts):
    """Writes texts one behind the other, and each alone, and gives the name of that of each place."""
    write(folder, f"{name}s", b"".join(texts))
    for place, text in enumerate(texts):
        write(folder, f"{name}{place}", text)
    write(folder, "none", b"")
    return lambda place: f"{name}{place}" if place < len(texts) else "none"


def agrees(program, seed, number):
    """Whether the range of a case is what its instances are."""
    case = Case(random.Random(f"{seed} {number}"))
    with tempfile.TemporaryDirectory() as folder:
        write(folder, "wt", case.text)
        kind = case.rng.choice(["solve", "bound", "rule", "orders", "answers"])
        rule = ["--rule", case.rng.choice(RULES), "wt"]
        more, one_by_one = {
            "orders": lambda: orders(folder, case),
            "answers": lambda: answers(program, folder, case),
            "rule": lambda: (rule, lambda place: rule),
        }.get(kind, lambda: (["wt"], lambda place: ["wt"]))()
        command = kind if kind in ("solve", "bound") else "evaluate"
        words = [command, "-p", case.problem, *case.form, *case.json]
        if command == "evaluate" and case.rng.random() < 0.4:
            (beside, beside_each), alone = bounds(program, folder, case), one_by_one
            more, one_by_one = [*beside, *more], lambda place: [*beside_each(place), *alone(place)]
        given = run(program, folder, [*words, "--index", case.span(), *more])
        sought = wanted(program, folder, case, words, one_by_one)
        if given != sought:
            print(f"case {number}: {' '.join([*words, '--index', case.span(), *more])}\ngiven {given}\nwanted {sought}")
        return given == sought


def main(program, seed, count):
    program, count = os.path.abspath(program), int(count)
    passed = sum(agrees(program, seed, number) for number in range(count))
    print(f"{passed} passed, {count - passed} failed")
    return passed < count


if __name__ == "__main__":
    sys.exit(main(*sys.argv[1:]))
