#!/usr/bin/env python3
"""Compares plans and bounds with the optimum, of the problems whose bound is the optimum (docs/bounds.md).

    python3 bench/optima.py PROGRAM [SEED]

Draws tables of up to 100,000 jobs, computes the optimum of each by the textbook's rule, written here anew, and runs `bound` and
`plan`. Both have to give that value, and `plan` has to say that it is optimal. Prints a line of a table for each problem and
size, with the processor seconds of one run.
"""
import heapq
import random
import sys

from bounds import Measured
from families import table

# how many jobs, and how many tables of so many
SIZES = (5, 40), (40, 20), (100, 10), (1_000, 3), (100_000, 1)
MACHINES = 3


def late_jobs(jobs, _machines):
    """The least number of late jobs (Moore 1968, by Hodgson's algorithm)."""
    kept, work = [], 0
    for job in sorted(jobs, key=lambda job: job["d"]):
        heapq.heappush(kept, -job["p"])
        work += job["p"]
        if work > job["d"]:
            work += heapq.heappop(kept)
    return len(jobs) - len(kept)


def interrupted(jobs, _machines):
    """The least sum of completion times on one machine with release dates and preemption (Schrage 1968)."""
    now, total, left = 0, 0, []
    coming = sorted((job["r"], job["p"]) for job in jobs) + [(float("inf"), 0)]
    for release, time in coming:
        while left and now + left[0] <= release:
            now += heapq.heappop(left)
            total += now
        if left:
            heapq.heappush(left, heapq.heappop(left) - (release - now))
        now = release
        heapq.heappush(left, time)
    return total


def dealt(jobs, machines):
    """The least sum of completion times on identical machines: the shortest job first on the machine that is free first."""
    free, total = [0] * machines, 0
    for time in sorted(job["p"] for job in jobs):
        end = heapq.heappop(free) + time
        total += end
        heapq.heappush(free, end)
    return total


PROBLEMS = (("1||sumU", 1, late_jobs), ("1|prmp|sumU", 1, late_jobs), ("1|rj,prmp|sumC", 1, interrupted),
            (f"P{MACHINES}|prmp|sumC", MACHINES, dealt))


def drawn(rng, count):
    """Jobs of which some are late, released over half of the time."""
    work = 50 * count
    early = rng.choice((0, work // 4, work // 2))
    return [{"p": rng.randint(1, 100), "r": rng.randint(0, work // 2), "d": rng.randint(early, work)} for _ in range(count)]


def main(program, seed="1"):
    passed = failed = 0
    print("| Problem | Jobs | Tables | Optimal by plan | Seconds of bound | of plan |\n|---|---|---|---|---|---|")
    for problem, machines, optimum in PROBLEMS:
        for count, number in SIZES:
            rng, optimal, seconds = random.Random(f"{seed} {problem} {count}"), 0, [0.0, 0.0]
            for _ in range(number):
                jobs = drawn(rng, count)
                runs = [Measured([program, command, "-p", problem], table(jobs)) for command in ("bound", "plan")]
                least = optimum(jobs, machines)
                is_right = runs[0].value == least == runs[1].value and runs[1].status == 0
                optimal += is_right
                seconds = [sum(pair) for pair in zip(seconds, [run.seconds / number for run in runs])]
                if not is_right:
                    print(f"{problem}: the optimum is {least}, the bound {runs[0].value}, the plan {runs[1].value}\n{table(jobs)}")
            passed, failed = passed + optimal, failed + number - optimal
            shown = problem.replace("|", "\\|")
            print(f"| `{shown}` | {count:,} | {number} | {optimal} | {seconds[0]:.2f} | {seconds[1]:.2f} |", flush=True)
    print(f"{passed} passed, {failed} failed")
    return failed > 0


if __name__ == "__main__":
    sys.exit(main(*sys.argv[1:]))
