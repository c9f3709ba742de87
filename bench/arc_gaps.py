#!/usr/bin/env python3
"""Measures what multipliers of precedence constraints bound: the gaps of plans of weighted completion times.

    python3 bench/arc_gaps.py PROGRAM

For 1, 2 and 4 arcs for each job it draws five tables, of 50 jobs on one machine and of 30 on three identical ones, with times from 1 to
100 and weights from 1 to 10, and runs `plan` on each. The gap is the cost of the plan less the bound, in percent of the
cost, so a part of it may be the plan's. Beside it stands the gap of the bound of the same table without its arcs.
"""
import random
import re
import sys

from bounds import Measured, words_for

TABLES = 5
CASES = (("1", 50), ("P3", 30))


def table(jobs, arcs, seed):
    """A table with so many arcs, each from a job to one with a greater number."""
    rng = random.Random(seed)
    lines = ["table 1"] + [f"job {k} p={rng.randint(1, 100)} w={rng.randint(1, 10)}" for k in range(1, jobs + 1)]
    pairs = set()
    while len(pairs) < arcs:
        pairs.add(tuple(sorted(rng.sample(range(1, jobs + 1), 2))))
    return "\n".join(lines + [f"prec {one} {other}" for one, other in sorted(pairs)]) + "\n"


def gaps(program, machines, text):
    """The gap of the plan, the one without the arcs, both in percent, and the seconds of the plan."""
    plan = Measured(words_for(program, "plan", f"{machines}|prec|sumwC", text, None), text)
    free = re.sub(r"^prec .*\n", "", text, flags=re.MULTILINE).replace(" w=", " r=0 w=")
    bound = Measured(words_for(program, "bound", f"{machines}|rj|sumwC", free, None), free)
    left = int(re.search(r"^## gap (\d+)", plan.output, re.MULTILINE).group(1))
    return 100 * left / plan.value, 100 * (plan.value - bound.value) / plan.value, plan.seconds


def main(program):
    print("| Problem | Jobs | Arcs for each job | Gap, percent | Without the arcs | Processor seconds of a plan |")
    print("|---|---|---|---|---|---|")
    for machines, jobs in CASES:
        for arcs in (1, 2, 4):
            runs = [gaps(program, machines, table(jobs, arcs * jobs, seed)) for seed in range(TABLES)]
            mean = [sum(column) / TABLES for column in zip(*runs)]
            print(f"| `{machines}\\|prec\\|sumwC` | {jobs} | {arcs} | {mean[0]:.2f} | {mean[1]:.2f} | {mean[2]:.2f} |", flush=True)


if __name__ == "__main__":
    main(*sys.argv[1:])
