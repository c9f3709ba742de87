#!/usr/bin/env python3
"""Best answers with their certificates, by the rules of the textbooks, for all nineteen solved problems.

    python3 examples/certify.py PROBLEM TABLE > answer.txt

No part of threefield is used, so `threefield check` judges a stranger's work. It shows how an author's own program writes
an answer text and a certificate for each problem. TABLE is a job table.
"""
import re
import sys


def read(path):
    """The jobs of a table, each a dictionary of its fields, the arcs, and the number of machines."""
    jobs, arcs, machines = [], [], None
    with open(path, encoding="ascii") as table:
        for words in (line.split() for line in table):
            if not words or words[0].startswith("#") or words[0] == "table":
                continue
            if words[0] == "machines":
                machines = int(words[1])
            elif words[0] == "prec":
                arcs.append((int(words[1]) - 1, int(words[2]) - 1))
            else:
                fields = dict(word.split("=") for word in words[2:])
                fields["p"] = [int(number) for number in fields["p"].split(",")]
                jobs.append(fields)
    return jobs, arcs, machines


def numbers(jobs, field):
    return [int(job[field]) for job in jobs]


def times(jobs):
    return [job["p"][0] for job in jobs]


def cost_of(job, end, goal):
    """What a job costs that completes at this time."""
    if goal == "Lmax":
        return end - int(job["d"])
    base, *steps = job["h"].split(",")
    passed = [int(step.split(":")[1]) for step in steps if int(step.split(":")[0]) <= end]
    return passed[-1] if passed else int(base)


def one_after_another(p, order):
    """The pieces of jobs on machine 1 without idle time, and the completions."""
    pieces, completions, now = [], {}, 0
    for j in order:
        pieces.append((j, 1, now, now + p[j]))
        now += p[j]
        completions[j] = now
    return pieces, completions


def smith(jobs, weights):
    """Smith 1956: the greatest weight for its time first."""
    p = times(jobs)
    order = sorted(range(len(jobs)), key=lambda j: (-weights[j] / p[j] if p[j] else float("-inf"), j))
    pieces, completions = one_after_another(p, order)
    return pieces, sum(weights[j] * completions[j] for j in order), "pairs"


def lawler(jobs, arcs, goal):
    """Lawler 1973: of those without a successor, the one that is cheapest at the end goes last."""
    p, left, order, dearest = times(jobs), set(range(len(jobs))), [], None
    while left:
        end = sum(p[j] for j in left)
        free = [j for j in left if not any(a == j and b in left for a, b in arcs)]
        if not free:
            sys.exit("the arcs form a cycle, so nothing fits")
        j = min(free, key=lambda j: (cost_of(jobs[j], end, goal), -j))
        cost = cost_of(jobs[j], end, goal)
        if dearest is None or cost > dearest[0]:
            dearest = (cost, sorted(left))
        order.append(j)
        left.remove(j)
    pieces, _ = one_after_another(p, order[::-1])
    return pieces, dearest[0], "last " + listed(dearest[1])


def horn(jobs):
    """Horn 1974: at each time the released job that is due first."""
    p, r, d = times(jobs), numbers(jobs, "r"), numbers(jobs, "d")
    rest, now, pieces, completions = list(p), 0, [], {}
    while any(rest):
        ready = [j for j in range(len(jobs)) if rest[j] and r[j] <= now]
        later = [r[j] for j in range(len(jobs)) if rest[j] and r[j] > now]
        if not ready:
            now = min(later)
            continue
        j = min(ready, key=lambda j: (d[j], j))
        stop = min([now + rest[j]] + later)
        if pieces and pieces[-1][0] == j and pieces[-1][3] == now:
            pieces[-1] = (j, 1, pieces[-1][2], stop)
        else:
            pieces.append((j, 1, now, stop))
        rest[j] -= stop - now
        now = completions[j] = stop
    latest = max(completions, key=lambda j: completions[j] - d[j])
    begin = end = completions[latest]
    for j, _, start, stop in reversed([piece for piece in pieces if piece[3] <= end]):
        if stop != begin or d[j] > d[latest]:
            break
        begin = start
    window = [j for j in completions if r[j] >= begin and completions[j] <= end]
    return pieces, end - d[latest], "window " + listed(sorted(window))


def johnson(jobs):
    """Johnson 1954: rising times on machine 1, then falling times on machine 2."""
    a, b = zip(*(job["p"] for job in jobs))
    quick = sorted((j for j in range(len(jobs)) if a[j] <= b[j]), key=lambda j: a[j])
    order = quick + sorted((j for j in range(len(jobs)) if a[j] > b[j]), key=lambda j: -b[j])
    pieces, first, second, waits = [], 0, 0, 0
    for place, j in enumerate(order):
        pieces.append((j, 1, first, first + a[j]))
        first += a[j]
        if first > second:
            waits = place
        second = max(first, second)
        pieces.append((j, 2, second, second + b[j]))
        second += b[j]
    k = order[waits]
    if a[k] <= b[k]:
        return pieces, second, f"split first {a[k]} " + listed(sorted(order[:waits]))
    return pieces, second, f"split second {b[k]} " + listed(sorted(order[: waits + 1]))


def gonzalez_sahni(jobs):
    """Gonzalez and Sahni 1976: the job whose lesser time is greatest leads on one machine and goes last on the other."""
    leader = max(range(len(jobs)), key=lambda j: min(jobs[j]["p"]))
    one, two = (0, 1) if jobs[leader]["p"][0] <= jobs[leader]["p"][1] else (1, 0)
    a, b = [job["p"][one] for job in jobs], [job["p"][two] for job in jobs]
    others = sorted((j for j in range(len(jobs)) if j != leader), key=lambda j: a[j] > b[j])
    pieces, first, second = [(leader, two + 1, 0, b[leader])], 0, b[leader]
    for j in others:
        pieces.append((j, one + 1, first, first + a[j]))
        first += a[j]
        second = max(first, second)
        pieces.append((j, two + 1, second, second + b[j]))
        second += b[j]
    begin = max(first, b[leader])
    pieces.append((leader, one + 1, begin, begin + a[leader]))
    value = max(begin + a[leader], second)
    for machine, work in ((one + 1, sum(a)), (two + 1, sum(b))):
        if work == value:
            return pieces, value, f"machine {machine}"
    return pieces, value, f"job {leader + 1}"


def mcnaughton(jobs, machines):
    """McNaughton 1959: one machine is filled after another, up to the load or the longest job."""
    p = times(jobs)
    load, longest = -(-sum(p) // machines), max(range(len(p)), key=lambda j: p[j])
    value = max(load, p[longest])
    pieces, machine, now = [], 1, 0
    for j, rest in enumerate(p):
        while rest:
            part = min(rest, value - now)
            pieces.append((j, machine, now, now + part))
            now, rest = now + part, rest - part
            if now == value:
                machine, now = machine + 1, 0
    return pieces, value, "load" if value == load else f"job {longest + 1}"


def shortest_first(jobs, machines):
    """Conway, Maxwell and Miller 1967: the shortest first, dealt to the machines in turn."""
    p = times(jobs)
    order = sorted(range(len(p)), key=lambda j: p[j])
    pieces, value, ends = [], 0, [0] * machines
    for place, j in enumerate(order):
        machine = place % machines
        pieces.append((j, machine + 1, ends[machine], ends[machine] + p[j]))
        ends[machine] += p[j]
        value += ends[machine]
    return pieces, value, "ranks " + listed(order[::-1])


def listed(jobs):
    return " ".join(str(j + 1) for j in jobs)


def answered(alpha, beta, goal, jobs, arcs, machines):
    """Pieces, value and certificate of the class."""
    if alpha == "F2":
        return johnson(jobs)
    if alpha == "O2":
        return gonzalez_sahni(jobs)
    if alpha == "P":
        return mcnaughton(jobs, machines) if goal == "Cmax" else shortest_first(jobs, machines)
    if goal == "sumC":
        return smith(jobs, [1] * len(jobs))
    if goal == "sumwC":
        return smith(jobs, numbers(jobs, "w"))
    if "rj" in beta:
        return horn(jobs)
    return lawler(jobs, arcs if "prec" in beta else [], goal)


def main(problem, path):
    jobs, arcs, machines = read(path)
    alpha, beta, goal = problem.split("|")
    count = re.fullmatch(r"P(\d+)", alpha)
    if count:
        alpha, machines = "P", int(count[1])
    machines = {"1": 1, "F2": 2, "O2": 2}.get(alpha, machines)
    pieces, value, certificate = answered(alpha, beta.split(","), goal, jobs, arcs, machines)
    print(f"answer 1\nproblem {problem}\njobs {len(jobs)}\nmachines {machines}\nvalue {value}")
    for j, machine, start, stop in pieces:
        if start < stop:
            print(f"piece {j + 1} {machine} {start} {stop}")
    print(f"cert {certificate}".rstrip() + "\nend")


if __name__ == "__main__":
    main(*sys.argv[1:])
