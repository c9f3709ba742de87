#!/usr/bin/env python3
"""Measures how strong the printed lower bounds are: their gaps to the best schedules known, with processor seconds and memory.

    python3 bench/bounds.py PROGRAM [WORD [STEPS]]

Runs `bound` on the instances of `families.py`, of the families whose name has WORD, with `--steps STEPS` where it is given. The
best costs known stand in `best_costs.txt`: of each family's instances, in order. README.md says how they were found.
A gap is the best cost less the bound, in percent of the cost; of a maximum lateness, in percent of the latest release date and the
work of one machine. Where cost and bound are equal the schedule is proved optimal.
"""
import os
import resource
import subprocess
import sys
import tempfile

from families import TAILLARD, families, span_of_table

COSTS = os.path.join(os.path.dirname(os.path.abspath(__file__)), "best_costs.txt")


class Measured:
    """What one run of the program gave: status, value and output, the processor seconds, and the most memory in MB of any run so far."""

    def __init__(self, words, text):
        with tempfile.NamedTemporaryFile("w", suffix=".txt", delete=False) as file:
            file.write(text)
        before = resource.getrusage(resource.RUSAGE_CHILDREN)
        done = subprocess.run([*words, file.name], capture_output=True, text=True, check=False)
        after = resource.getrusage(resource.RUSAGE_CHILDREN)
        self.seconds = after.ru_utime + after.ru_stime - before.ru_utime - before.ru_stime
        os.unlink(file.name)
        if done.returncode not in (0, 6):
            raise SystemExit(f"{' '.join(words)}: status {done.returncode}: {done.stderr}")
        fields = dict(line.split(" ", 1) for line in done.stdout.splitlines() if " " in line)
        self.status, self.value, self.output = done.returncode, int(fields["value"]), done.stdout
        self.memory = after.ru_maxrss / 1024


def best_costs():
    """The best cost known of each instance, by the name of its family."""
    with open(COSTS, encoding="utf-8") as file:
        lines = [line.rsplit(":", 1) for line in file if ":" in line and not line.startswith("#")]
    return {name: [int(cost) for cost in costs.split()] for name, costs in lines}


def gap(cost, bound, text, problem):
    """The gap in percent, 0 where the bound is the cost."""
    if bound > cost:
        raise SystemExit(f"a bound of {bound} is above a cost of {cost}: {problem}\n{text}")
    whole = span_of_table(text) if problem.endswith("Lmax") else cost
    return 100 * (cost - bound) / whole if cost > bound else 0.0


def words_for(program, command, problem, text, steps):
    """The words of a command line without the file."""
    asked = ["--steps", steps] if steps else []
    if text.startswith("instance"):
        return [program, command, "-p", problem, "-f", "flow", "--name", "shop", *asked]
    return [program, command, "-p", problem, *asked]


def title_of(name):
    """The name of a family in a cell of a table."""
    problem, *rest = name.split(", ")
    return ", ".join([f"`{problem}`".replace("|", "\\|"), *rest])


def main(program, word="", steps=None):
    """Prints a line of a table for each family."""
    costs, memory = best_costs(), 0
    print("| Instances | Number | Mean gap, percent | Greatest gap | Proved optimal | Processor seconds each |")
    print("|---|---|---|---|---|---|")
    for name, problem, texts in families():
        if word not in name:
            continue
        runs = [Measured(words_for(program, "bound", problem, text, steps), text) for text in texts]
        gaps = [gap(cost, run.value, text, problem) for cost, run, text in zip(costs[name], runs, texts, strict=True)]
        if "Taillard" in name and any(run.value < published for run, (_, published) in zip(runs, TAILLARD)):
            raise SystemExit("a bound is less than the one that Taillard published")
        mean, proved = sum(gaps) / len(gaps), sum(g == 0 for g in gaps)
        seconds, memory = sum(run.seconds for run in runs) / len(runs), max(memory, *(run.memory for run in runs))
        print(f"| {title_of(name)} | {len(gaps)} | {mean:.2f} | {max(gaps):.2f} | {proved} | {seconds:.3f} |", flush=True)
    print(f"\nAt most {memory:.0f} MB.")


if __name__ == "__main__":
    main(*sys.argv[1:])
