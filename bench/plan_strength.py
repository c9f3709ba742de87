#!/usr/bin/env python3
"""Demands that the plans of a few steps are good: how far they may be above the best costs known, for each kind of machines.

    python3 bench/plan_strength.py PROGRAM [WORD]

Runs `plan` with few steps on instances of `families.py` and `job_shops.py`, and compares the costs with those of `best_costs.txt` and
the least makespans known (README.md says how these were found). In the mean a family may be so many percent above them. A search
that is better may get a smaller number; one that needs a greater one has lost something.
"""
import sys

from bounds import Measured, best_costs, gap, words_for
from families import families
from job_shops import instances, planned, text_of

# A family, the steps, and the mean percent above the best costs known.
PLANS = (
    ("1||sumwT, 40 jobs, tardiness factor 0.6", "10", 2.5),
    ("1||sumwT, 100 jobs, tardiness factor 0.6", "20", 1.6),
    ("1|rj|sumwT, 50 jobs", "1", 25.3),
    ("1|rj|sumwT, 50 jobs", "10", 8.6),
    ("1|rj,prmp|sumwC, 50 jobs", "10", 0.03),
    ("1|prec|sumwC, 50 jobs", "10", 1.3),
    ("P3||sumwT, 50 jobs", "10", 3.4),
    ("P3||sumwU, 50 jobs", "1", 9.6),
    ("F2|rj|Lmax, 40 jobs", "3", 0.07),
    ("F2||sumwT, 40 jobs", "10", 9.2),
    ("F5||Cmax, 20 jobs (Taillard)", "1", 2.06),
    ("F5||Cmax, 20 jobs (Taillard)", "50", 0.21),
    ("F5||sumC, 20 jobs", "10", 1.7),
    ("F10|nwt|Cmax, 50 jobs", "10", 9.2),
)

# A job shop, the steps, if they are not the usual ones, and the percent above the least makespan known.
JOB_SHOPS = (("ft06", "20", 0), ("ft10", "40", 6.3), ("ta01", "40", 6.3), ("ft10", None, 0))

# Open shops without waits: the times of each job, and the least makespan of all orders of the jobs and of their operations.
OPEN_SHOPS = (
    (((15, 18), (15, 15), (17, 19), (7, 6)), 63),
    (((17, 16), (20, 6), (4, 15), (10, 5)), 51),
    (((3, 18), (2, 20), (13, 15), (20, 6)), 59),
    (((20, 1), (17, 3), (2, 2), (7, 8)), 46),
    (((20, 1), (15, 11), (15, 19), (7, 17)), 57),
)


def mean_above(program, problem, texts, costs, steps):
    """How many percent above the best costs known the plans of a family are in the mean."""
    percents = []
    for text, cost in zip(texts, costs, strict=True):
        value = Measured(words_for(program, "plan", problem, text, steps), text).value
        percents.append(gap(max(value, cost), cost, text, problem))
    return sum(percents) / len(percents)


def table_of(times):
    """A job table."""
    return "table 1\n" + "".join(f"job {number} p={one},{other}\n" for number, (one, other) in enumerate(times, 1))


def measured(program, word):
    """Each demand with its name, and the percent that the plans are above the costs."""
    costs = best_costs()
    made = {name: (problem, texts) for name, problem, texts in families()}
    shops = {name: (operations, least) for name, operations, least in instances()}
    for name, steps, most in PLANS:
        if word in name:
            yield name, most, mean_above(program, *made[name], costs[name], steps)
    for name, steps, most in JOB_SHOPS:
        if word in name:
            operations, least = shops[name]
            value, _, _ = planned(program, name, text_of(name, operations), steps)
            yield name, most, 100 * (value - least) / least
    name = "O2|nwt|Cmax"
    if word in name:
        texts, costs = [table_of(times) for times, _ in OPEN_SHOPS], [least for _, least in OPEN_SHOPS]
        yield name, 0, mean_above(program, name, texts, costs, None)


def main(program, word=""):
    passed = failed = 0
    for name, most, percent in measured(program, word):
        if percent <= most:
            passed += 1
        else:
            failed += 1
            print(f"{name}: {percent:.3f} percent above the best costs known, and {most} at most are demanded")
    print(f"{passed} passed, {failed} failed")
    return failed > 0


if __name__ == "__main__":
    sys.exit(main(*sys.argv[1:]))
