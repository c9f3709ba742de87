#!/usr/bin/env python3
"""Measures how good the plans are that `plan` finds: how far above the best costs known, with processor seconds and memory.

    python3 bench/plan_costs.py PROGRAM [WORD [STEPS]]

Runs `plan` on the instances of `families.py`, of the families whose name has WORD, with `--steps STEPS` where it is given. The
best costs known stand in `best_costs.txt`. A plan is so many percent of that cost above it; of a maximum lateness, so many percent
of the latest release date and the work of one machine. The seconds are those of the bound and of the search together.
"""
import sys

from bounds import Measured, best_costs, gap, title_of, words_for
from families import families


def main(program, word="", steps=None):
    """Prints a line of a table for each family."""
    costs, memory = best_costs(), 0
    print("| Instances | Number | At the best cost known | Mean, percent above it | Greatest | Proved optimal | Processor seconds each |")
    print("|---|---|---|---|---|---|---|")
    for name, problem, texts in families():
        if word not in name:
            continue
        runs = [Measured(words_for(program, "plan", problem, text, steps), text) for text in texts]
        above = [gap(max(run.value, cost), cost, text, problem) for cost, run, text in zip(costs[name], runs, texts, strict=True)]
        better = [f"{k}: {run.value}" for k, (cost, run) in enumerate(zip(costs[name], runs), 1) if run.value < cost]
        mean, seconds = sum(above) / len(above), sum(run.seconds for run in runs) / len(runs)
        proved, memory = sum(run.status == 0 for run in runs), max(memory, *(run.memory for run in runs))
        least = sum(percent == 0 for percent in above)
        print(f"| {title_of(name)} | {len(above)} | {least} | {mean:.2f} | {max(above):.2f} | {proved} | {seconds:.2f} |", flush=True)
        if better:
            print(f"\nBelow the best cost known, of instance {', '.join(better)}.\n")
    print(f"\nAt most {memory:.0f} MB.")


if __name__ == "__main__":
    main(*sys.argv[1:])
