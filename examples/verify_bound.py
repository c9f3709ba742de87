#!/usr/bin/env python3
"""Judges the text of a lower bound by the definitions alone, without a line of threefield's code (docs/bounds.md has them in words).

    python3 examples/verify_bound.py PROBLEM TABLE BOUND [MACHINES]

Prints what `threefield evaluate --bound` says behind `offered`: the certificate's value (status 0) or the first reason why it bounds
nothing (1); or in its own words why a text is refused (2). Numbers of more than 128 bits are no reason here.
"""
import heapq
import itertools
import re
import sys
from fractions import Fraction
from types import SimpleNamespace as Record

from verify import LIMIT, MOST_JOBS, MOST_MACHINES, Refused, Rejected, demand, lines_of, notation, number, reject, table

MOST_VALUE = 2**63 - 1
MOST_TABLE_TIME, MOST_ENTRIES = 10**7, 10**9

def routes_of(text):
    """The route of each job: the machines in its order, counted from 1, and the time on each. Empty where `p=` has no `@`."""
    routes = {}
    for words, _ in lines_of(text):
        if words[0] == b"job":
            steps = [step.split(b"@") for word in words if word.startswith(b"p=") and b"@" in word for step in word[2:].split(b",")]
            demand(all(len(step) == 2 for step in steps), "a step without a machine, or with two")
            routes[len(routes) + 1] = {number(machine, 1, MOST_MACHINES): number(time, 0) for time, machine in steps}
            demand(len(routes[len(routes)]) == len(steps), "a machine twice")
    return routes
def routed_table(text):
    """The jobs, arcs and number of machines of a table with routes, and the routes."""
    return *table(re.sub(rb"(?<=[ \t\r])(p=[^@ \t\r\n]*)@[^ \t\r\n]*", rb"\1", text)), routes_of(text)

def task_of(problem, machines, jobs, arcs, own, routes=None):
    """The task of a problem, whatever it is: what the problem does not name is 0, a weight 1."""
    goal = re.sub("_?j", "", problem.goal)
    demand(problem.env in "1PFOJ" and goal != "hmax" and not {"block", "rcrc"} & set(problem.conditions), "a problem without bounds")
    given = {1} if problem.env == "1" else {problem.count, machines, own} - {None}
    if routes:
        given = given or {max(machine for route in routes.values() for machine in route or [1])}
        jobs = {j: job | {"p": [routes[j].get(i, 0) for i in range(1, max(given) + 1)]} for j, job in jobs.items()}
        demand(all(route and max(route) <= max(given) for route in routes.values()), "no route, or a machine that is not there")
    demand(given == {2} if problem.env in "FO" else len(given) == 1, "the number of machines")
    needed = ["p"] + ["r"] * ("rj" in problem.conditions) + ["w"] * ("w" in goal) + ["d"] * (goal == "Lmax" or goal[-1] in "TU")
    times = max(given) if problem.env in "FOJ" else 1
    may_rest = problem.env in "FOJ" and not {"rj", "prec"} & set(problem.conditions)
    for job in jobs.values():
        demand(len(job["p"]) == times and (sum(job["p"]) > 0 or may_rest) and all(key in job for key in needed), "times, or a field is missing")
    visited = {j: [i - 1 for i in routes[j]] if routes else list(range(times)) if problem.env == "F" else [] for j in jobs}
    picked = {key: {j: job[key] if key in needed else other for j, job in jobs.items()} for key, other in (("r", 0), ("w", 1), ("d", 0))}
    return Record(env=problem.env, goal=goal, conditions=problem.conditions, machines=given.pop(), jobs=list(jobs), route=visited, **picked,
                  arcs=arcs if "prec" in problem.conditions else [], times={j: job["p"] for j, job in jobs.items()}, p={j: sum(job["p"]) for j, job in jobs.items()})

def along_arcs(task, moves_dues):
    """The task with the dates that follow by its precedence constraints, itself where they form a cycle or a date is beyond the limit."""
    r, d = dict(task.r), dict(task.d)
    for _ in task.jobs:
        for i, j in task.arcs:
            r[j] = max(r[j], r[i] + task.p[i])
            d[i] = min(d[i], d[j] - task.p[j])
    is_cycle = any(r[j] < r[i] + task.p[i] for i, j in task.arcs)
    is_far = max(r.values()) + sum(task.p.values()) > LIMIT or moves_dues and min(d.values()) < -LIMIT
    return task if is_cycle or is_far else Record(**{**vars(task), "r": r, "d": d if moves_dues else task.d})

def penalty(task, j, end):
    late = max(end - task.d[j], 0)
    return task.w[j] * (late > 0 if task.goal[-1] == "U" else late)
def head(task, j, i):
    route = task.route[j]
    return task.r[j] + sum(task.times[j][a] for a in (route[:route.index(i)] if i in route else route))
def tail(task, j, i):
    route = task.route[j]
    return sum(task.times[j][a] for a in (route[route.index(i) + 1:] if i in route else ()))
def share(amount, parts):
    return max(-(-amount // parts), 0)

def listed(task, jobs, few=0):
    """The jobs, each of the task and none twice, more than so many."""
    for k, j in enumerate(jobs):
        j in task.jobs or reject("BadJob", j)
        j not in jobs[:k] or reject("Repeated", j)
    len(jobs) > few or reject("TooFew")
    return jobs
def in_order(jobs, key):
    """Jobs of which the key rises."""
    for before, j in zip(jobs, jobs[1:]):
        key(before) <= key(j) or reject("Condition", j)
    return jobs
def within(value):
    return value if value <= LIMIT else reject("TooLarge")

def machine(task, i, *jobs):
    1 <= i <= task.machines or reject("BadMachine", i)
    jobs, i = listed(task, jobs), i - 1
    return min(head(task, j, i) for j in jobs) + sum(task.times[j][i] for j in jobs) + min(tail(task, j, i) - task.d[j] for j in jobs)
def window(task, *jobs):
    jobs = listed(task, jobs)
    return min(task.r[j] for j in jobs) - (-sum(task.p[j] for j in jobs) // task.machines) - max(task.d[j] for j in jobs)
def crowd(task, h, *jobs):
    jobs = listed(task, jobs, h * task.machines)
    return min(task.r[j] for j in jobs) + (h + 1) * min(task.p[j] for j in jobs) - max(task.d[j] for j in jobs)
def one_job(task, j):
    j in task.jobs or reject("BadJob", j)
    return task.r[j] + task.p[j] - task.d[j]

def multipliers(task, i, q, *v, arcs=()):
    q > 0 or reject("NoDenominator")
    1 <= i <= task.machines or reject("BadMachine", i)
    len(v) == len(task.jobs) and len(arcs) in (0, len(task.arcs)) or reject("Numerators")
    v, u, i, m = dict(zip(task.jobs, v)), dict(zip(task.jobs, v)), 0 if task.env == "P" else i - 1, task.machines
    gain = 0
    for (before, after), moved in zip(task.arcs, arcs):
        u[before], u[after], gain = u[before] + moved, u[after] - moved, gain + moved * task.p[after]
    for is_wrong in (lambda j: v[j] > q * task.w[j], lambda j: u[j] < 0, lambda j: task.times[j][i] == 0):
        wrong = [j for j in task.jobs if is_wrong(j)]
        not wrong or reject("Condition", wrong[0])
    smith, now = 0, 0
    for j in sorted(task.jobs, key=lambda j: Fraction(-u[j], task.times[j][i])):
        now += task.times[j][i]
        smith += u[j] * now
    owed = sum(v[j] * task.d[j] for j in task.jobs)
    if task.env == "P":  # one machine as fast as all of them, and (m - 1) / (2 m) of each time
        waits = sum(u[j] * ((m - 1) * task.p[j] + 2 * m * min(task.r.values())) for j in task.jobs)
        return share(2 * smith + waits + 2 * m * (gain - owed), 2 * m * q)
    first = min(head(task, j, i) for j in task.jobs)
    return share(smith + sum(u[j] * (first + tail(task, j, i)) for j in task.jobs) + gain - owed, q)

def prices(task, q, *rows):
    q > 0 or reject("NoDenominator")
    within(sum(rows))
    total = -task.machines * sum(rows)
    horizon = max(task.r.values()) + sum(task.p.values())
    for j in task.jobs:
        last = max(task.r[j], len(rows))
        within(max(last + task.p[j], q * penalty(task, j, last + task.p[j])))
        if "prmp" in task.conditions:  # its steps are in the mean (p + 1) / 2 before it completes, or earlier
            steps = (q * task.w[j] * t + task.p[j] * sum(rows[t:t + 1]) for t in range(task.r[j], last + 1))
            total += Fraction(q * task.w[j] * (task.p[j] + 1), 2) + min(steps)
        else:
            starts = range(task.r[j], min(last, horizon - task.p[j]) + 1)
            total += min(q * penalty(task, j, s + task.p[j]) + sum(rows[s:s + task.p[j]]) for s in starts)
    return share(total, q)

def prices_on(task, i, q, *rows):
    q > 0 or reject("NoDenominator")
    1 <= i <= task.machines or reject("BadMachine", i)
    total = -within(sum(rows))
    for j in task.jobs:
        time, first, rest = task.times[j][i - 1], head(task, j, i - 1), tail(task, j, i - 1)
        last, end = max(first, len(rows)), lambda s: max(s + time + rest, task.r[j] + task.p[j])
        within(max(last + time + rest, q * penalty(task, j, end(last))))
        total += min(q * penalty(task, j, end(s)) + sum(rows[s:s + time]) for s in range(first, last + 1))
    return share(total, q)

def alone(task):
    task = along_arcs(task, False)
    return min(sum(penalty(task, j, task.r[j] + task.p[j]) for j in task.jobs), MOST_VALUE)

def kept(task, *jobs):
    first, times, total = min((task.r[j] for j in listed(task, jobs)), default=0), [], 0
    in_order(jobs, lambda j: max(task.d[j], 0))
    room = {j: task.machines * max(max(task.d[j], 0) - first, 0) for j in jobs}
    if task.goal == "sumwU":
        return kept_weight(task, jobs, room)
    for j in jobs:
        heapq.heappush(times, -task.p[j])
        total += task.p[j]
        if total > room[j]:
            total += heapq.heappop(times)
    return len(jobs) - len(times)
def kept_weight(task, jobs, room):
    time = sum(task.p[j] for j in jobs)
    within(sum(task.w[j] for j in jobs))
    time <= MOST_TABLE_TIME and len(jobs) * time <= MOST_ENTRIES or reject("TooLarge")
    states = [(0, 0)]  # the time of the jobs on time, which rises, and the weight of the late ones, which falls
    for j in jobs:
        late = [(time, weight + task.w[j]) for time, weight in states]
        on_time = [(time + task.p[j], weight) for time, weight in states if time + task.p[j] <= room[j]]
        states = []
        for time, weight in sorted(late + on_time):
            if not states or weight < states[-1][1]:
                states.append((time, weight))
    return states[-1][1]
def shortest(task, *jobs):
    now, value, left = 0, 0, []
    for until, time in [(task.r[j], task.p[j]) for j in in_order(listed(task, jobs), task.r.get)] + [(LIMIT * MOST_JOBS, 0)]:
        while left and now + left[0] <= until:
            now += heapq.heappop(left)
            value += now
        if left:
            heapq.heapreplace(left, left[0] - (until - now))
        heapq.heappush(left, time)
        now = until
    return within(value)
def ranks(task, *jobs):
    in_order(listed(task, jobs), lambda j: -task.p[j])
    return within(sum(-(-k // task.machines) * task.p[j] for k, j in enumerate(jobs, 1)))

def pair(task, a, b, by_first, delta, *side):
    1 <= b <= task.machines or reject("BadMachine", b)
    a < b or reject("MachineOrder")
    side, a, b, counted, reached = set(listed(task, side, -1)), a - 1, b - 1, 0, False
    for j in task.jobs:
        first, *lag, second = task.times[j][a:b + 1]
        reaches = (j in side) != by_first and min(first, second) > 0 and delta <= (first if by_first else second) + sum(lag)
        reaches or (first <= second if j in side else second <= first) or reject("Condition", j)
        counted, reached = counted + (first if j in side else second), reached or reaches
    reached or reject("BadDelta")
    return min(head(task, j, a) for j in task.jobs) + counted + delta + min(tail(task, j, b) - task.d[j] for j in task.jobs)

def parts(task, start, end, late, *jobs):
    room, left = max(end - start, 0), []
    for j in listed(task, jobs, -1):
        without = [max(start - task.r[j], 0), max(task.d[j] + late - 1 - end, 0)]
        whole = 0 if "prmp" in task.conditions else min(room, *(task.p[j] - time for time in without))
        left.append(max(task.p[j] - sum(without), whole, 0))
    sum(left) > task.machines * room or reject("HasRoom")
    return late

def potentials(task, *numbers):
    len(numbers) == 2 * len(task.jobs) + 1 or reject("Numerators")
    for j in task.jobs:
        min(task.times[j]) > 0 or reject("Condition", j)
    len(task.jobs) ** 2 * task.machines <= 10**9 or reject("TooLarge")
    end, after, before = numbers[0], dict(zip(task.jobs, numbers[1::2])), dict(zip(task.jobs, numbers[2::2]))
    left = {j: list(itertools.accumulate(task.times[j])) for j in task.jobs}
    for j in task.jobs:
        fits = before[j] <= task.r[j] and after[j] + end <= task.p[j] - task.d[j]
        for i in task.jobs:
            delay = max(leaves - comes for leaves, comes in zip(left[j], [0] + left[i]))
            fits = fits and (i == j or after[j] + before[i] <= delay)
        fits or reject("Condition", j)
    return sum(numbers)

MAXIMA, SUMS, TARDY, COMPLETIONS = "Cmax Lmax", "sumC sumwC sumT sumwT sumU sumwU", "sumC sumwC sumT sumwT", "sumC sumwC"
# Of each kind its value, and for which environments and objectives it is; with `prmp` some are for fewer objectives.
KINDS = {"machine": (machine, "1FOJ", MAXIMA), "window": (window, "1P", MAXIMA), "crowd": (crowd, "1P", MAXIMA, ""),
         "job": (one_job, "1PFOJ", MAXIMA), "multipliers": (multipliers, "1PFOJ", TARDY), "prices": (prices, "1P", SUMS, COMPLETIONS),
         "alone": (alone, "1PFOJ", SUMS), "kept": (kept, "1P", "sumU sumwU"), "shortest": (shortest, "1", "sumC"), "ranks": (ranks, "1P", "sumC"),
         "prices_on": (prices_on, "FOJ", SUMS, ""), "pair": (pair, "F", MAXIMA), "parts": (parts, "1P", MAXIMA),
         "potentials": (potentials, "F", MAXIMA)}
NEEDED = {"pair": "prmu", "potentials": "nwt"}  # the conditions that some kinds need

def kinds_for(task):
    return [kind for kind, (_, environments, *goals) in KINDS.items()
            if task.env in environments and NEEDED.get(kind, "") in ["", *task.conditions]
            and task.goal in goals[-1 if "prmp" in task.conditions else 0].split()]

# How many numbers a kind has before its list, with the range of each, and what stands in the list.
MACHINE, COUNT, ANY, JOB, VALUE = (1, MOST_MACHINES), (0, MOST_JOBS), (0, LIMIT), (1, MOST_JOBS), (-2**63, MOST_VALUE)
FORMS = {"machine": ([MACHINE], JOB), "crowd": ([COUNT], JOB), "job": ([JOB], None), "multipliers": ([MACHINE, ANY], ANY),
         "prices": ([ANY], ANY), "prices_on": ([MACHINE, ANY], ANY), "alone": ([], None), "pair": ([MACHINE, MACHINE, None, ANY], JOB),
         "parts": ([ANY, ANY, VALUE], JOB), "potentials": ([], VALUE)}

def which(word):
    demand(word in (b"first", b"second"), "neither first nor second")
    return word == b"first"

def bound_of(text):
    lines = lines_of(text)
    words = [words for words, _ in lines]
    demand(len(lines) in (7, 8) and words[0] == [b"bound", b"1"] and words[1][0] == b"problem" and words[-1] == [b"end"], "no bound")
    problem = lines[1][1].lstrip(b" \t\r")[len(b"problem"):].removesuffix(b"\r")
    keys = (b"jobs", 1, MOST_JOBS), (b"machines", 1, MOST_MACHINES), (b"value", *VALUE)
    demand([(line[0], len(line)) for line in words[2:5]] == [(key, 2) for key, _, _ in keys], "no sizes, or no value")
    jobs, machines, value = (number(line[1], least, most) for line, (_, least, most) in zip(words[2:5], keys))
    kind, given = words[5][0].decode("latin-1"), words[5][1:]
    demand(kind in KINDS, "no such kind")
    ranges, rest = FORMS.get(kind, ([], JOB))
    demand(len(given) >= len(ranges) and (rest or len(given) == len(ranges)), "the words behind the kind")
    numbers = [number(word, *bounds) if bounds else which(word) for word, bounds in zip(given, ranges + [rest] * len(given))]
    demand(len(lines) == 7 or kind == "multipliers" and words[6][0] == b"arcs" and len(words[6]) > 1, "a line before the end")
    arcs = {"arcs": [number(word, *ANY) for word in words[6][1:]]} if len(lines) == 8 else {}
    return Record(problem=notation(problem), jobs=jobs, machines=machines, value=value, kind=kind, numbers=numbers, arcs=arcs)

def same(one, other):
    return (one.env, set(one.conditions), re.sub("_?j", "", one.goal)) == (other.env, set(other.conditions), re.sub("_?j", "", other.goal))

def judge(problem, table_text, bound_text, machines=None):
    try:
        problem, bound = notation(problem), bound_of(bound_text)
        task = task_of(problem, machines, *(routed_table if problem.env == "J" else table)(table_text))
        fits = (bound.jobs, bound.machines) == (len(task.jobs), task.machines) and bound.problem.count in (None, task.machines)
        same(bound.problem, problem) and fits or reject("OtherTask")
        bound.kind in kinds_for(task) or reject("OtherKind")
        value = KINDS[bound.kind][0](along_arcs(task, True) if task.goal in MAXIMA.split() else task, *bound.numbers, **bound.arcs)
        value == bound.value or reject("WrongValue", value)
    except (Refused, Rejected) as why:
        return (f"refused: {why}", 2) if isinstance(why, Refused) else (str(why), 1)
    return str(value), 0

def main(asked, table_name, bound_name, machines=None):
    texts = [open(name, "rb").read() for name in (table_name, bound_name)]
    return judge(asked.encode("utf-8", "surrogateescape"), *texts, machines and int(machines))

if __name__ == "__main__":
    try:
        line, status = main(*sys.argv[1:])
    except (OSError, TypeError, ValueError) as fault:
        line, status = f"refused: {fault}", 2
    print(line, file=sys.stderr if status == 2 else sys.stdout)
    sys.exit(status)
