#!/usr/bin/env python3
"""Judges an answer as `threefield check` does, by the definitions alone, without a line of threefield's code.

    python3 examples/verify.py PROBLEM TABLE ANSWER [MACHINES]

Prints "accepted" (status 0), or "rejected: " and the first reason (1), or in its own words why a text is refused (2).
"""
import re
import sys
from fractions import Fraction
from itertools import accumulate, groupby
from operator import itemgetter
from types import SimpleNamespace as Record

LIMIT, MOST_BYTES, MOST_JOBS, MOST_ARCS, MOST_MACHINES = 4 * 10**18, 2**26, 100_000, 200_000, 1000

class Refused(Exception): """The problem, the table or the answer's text is at fault."""
class Rejected(Exception): """The first reason against an answer."""

def demand(holds, why):
    if not holds:
        raise Refused(why)
def reject(*words):
    raise Rejected(" ".join(map(str, words)))
def number(word, least=-LIMIT, most=LIMIT):
    digits = re.fullmatch(rb"(-?)0*([0-9]{1,19})", word)
    value = int(digits[1] + digits[2]) if digits else None
    demand(digits and least <= value <= most, f"no number, or out of its range: {word[:30]!r}")
    return value

def lines_of(text):
    """The words of each line that has some and is no comment, and the line itself."""
    demand(len(text) <= MOST_BYTES, "the text is too long")
    lines = [(re.findall(rb"[^ \t\r\n]+", line), line) for line in text.split(b"\n")]
    return [(words, line) for words, line in lines if words and not words[0].startswith(b"#")]

SPELLINGS = {"r_j": "rj", "pmtn": "prmp", "C_max": "Cmax", "L_max": "Lmax", "h_max": "hmax", "sumCj": "sumC", "sumC_j": "sumC",
             "sumwjCj": "sumwC", "sumw_jC_j": "sumwC"}
CONDITIONS = {"rj", "prec", "prmp", "prmu", "nwt", "block", "rcrc"}
GOALS = re.compile("Cmax|Lmax|hmax|sumw?[CTU]|sum[TU]_?j|sumwj[TU]j|sumw_j[TU]_j")
# The problems that are solved, and the kinds of certificate of each.
SOLVED = {name: kinds.split() for kinds, names in {
    "pairs": "1||sumC 1|prmp|sumC 1||sumwC 1|prmp|sumwC", "ranks": "P||sumC", "load job": "P|prmp|Cmax",
    "last": "1||Lmax 1|prmp|Lmax 1|prec|Lmax 1|prec,prmp|Lmax 1||hmax 1|prmp|hmax 1|prec|hmax 1|prec,prmp|hmax",
    "window": "1|prmp,rj|Lmax", "split": "F||Cmax F|prmp|Cmax", "machine job": "O||Cmax O|prmp|Cmax",
}.items() for name in names.split()}

def notation(text):
    """The environment, conditions, objective and count of machines of a problem, and its class if it is solved."""
    fields = [field.strip(" \t") for field in text.decode("latin-1").split("|")]
    env = re.fullmatch("1|([PQRFOJ])(m|[1-9][0-9]{0,2}|1000)?", fields[0])
    demand(len(fields) == 3 and env, "no environment, or not three fields")
    named = [SPELLINGS.get(word.strip(" \t"), word.strip(" \t")) for word in fields[1].split(",")] if fields[1] else []
    goal = SPELLINGS.get(fields[2], fields[2])
    demand(set(named) <= CONDITIONS and len(set(named)) == len(named) and GOALS.fullmatch(goal), "no conditions or objective")
    letter, count = env[1] or "1", int(env[2]) if env[2] and env[2] != "m" else None
    name = f"{letter}|{','.join(sorted(named))}|{goal}"
    is_solved = name in SOLVED and not (letter in "FO" and count not in (None, 2))
    return Record(env=letter, conditions=named, goal=goal, count=count, name=name if is_solved else None)

def cost_steps(text):
    """A cost function: from each time on its value. The base stands from before time 0 on."""
    base, *rest = text.split(b",")
    steps = [(-1, number(base))]
    for part in rest:
        time, _, value = part.partition(b":")
        steps.append((number(time, 0), number(value)))
        demand(steps[-2][0] < steps[-1][0] and steps[-2][1] <= steps[-1][1], "times that don't rise, or values that fall")
    return steps

def job_of(words):
    fields = [word.partition(b"=") for word in words]
    values = {key.decode("latin-1"): value for key, _, value in fields}
    demand(all(sign for _, sign, _ in fields) and len(values) == len(fields), "a word that is no field, or a field twice")
    demand(values.keys() <= set("pwdrh") and "p" in values, "another field, or no time")
    job = {key: number(values[key], least) for key, least in (("w", 0), ("d", -LIMIT), ("r", 0)) if key in values}
    job["p"] = [number(word, 0) for word in values["p"].split(b",")]
    return job | ({"h": cost_steps(values["h"])} if "h" in values else {})

def table(text):
    """The jobs, arcs and number of machines of a job table."""
    lines = [words for words, _ in lines_of(text)]
    demand(lines and lines.pop(0) == [b"table", b"1"], "no heading")
    jobs, arcs, machines = {}, [], None
    if lines and lines[0][0] == b"machines":
        demand(len(lines[0]) == 2, "the line machines")
        machines = number(lines.pop(0)[1], 1, MOST_MACHINES)
    for words in lines:
        if words[0] == b"prec":
            demand(jobs and len(words) == 3 and len(arcs) < MOST_ARCS, "an arc")
            arcs.append(tuple(number(word, 1, len(jobs)) for word in words[1:]))
        else:
            demand(words[0] == b"job" and not arcs and words[1:2] == [b"%d" % (len(jobs) + 1)], "a line that is no job's")
            jobs[len(jobs) + 1] = job_of(words[2:])
    demand(1 <= len(jobs) <= MOST_JOBS, "no jobs, or too many")
    return jobs, arcs, machines

def task_of(problem, machines, jobs, arcs, own):
    demand(problem.goal != "hmax" or len(jobs) <= 2000, "too many jobs")
    given = {1} if problem.env == "1" else {problem.count, machines, own} - {None}
    is_shop, has_release = problem.env in "FO", "rj" in problem.conditions
    demand(given == {2} if is_shop else len(given) == 1, "the number of machines")
    needed = [{"Lmax": "d", "hmax": "h", "sumwC": "w"}.get(problem.goal, "p")] + ["r"] * has_release
    for job in jobs.values():
        demand(len(job["p"]) == (2 if is_shop else 1) and (is_shop or job["p"][0] > 0), "the number of times, or no time")
        demand(all(key in job for key in needed), "a field is missing")
    work = sum(sum(job["p"]) for job in jobs.values())
    factor = {"sumC": len(jobs), "sumwC": max(1, sum(job.get("w", 0) for job in jobs.values()))}.get(problem.goal, 1)
    demand(work * factor + max(job["r"] if has_release else 0 for job in jobs.values()) <= LIMIT, "a total is too large")
    return Record(problem=problem, jobs=jobs, machines=given.pop(), arcs=arcs if "prec" in problem.conditions else [])

def job_list(words, has_ranges):
    jobs = []
    for word in words:
        ends = re.fullmatch(rb"([0-9]+)-([0-9]+)", word) if has_ranges else None
        first, last = (number(end, 1, MOST_JOBS) for end in (ends.groups() if ends else (word, word)))
        jobs += range(first, last + 1)
        demand((first < last or not ends) and (len(jobs) <= MOST_JOBS or not has_ranges), "a range, or too many jobs")
    return jobs

def certificate(words, has_ranges):
    """The kind of a certificate, its jobs (or its machine), and the delta of a split."""
    demand(words[0] == b"cert" and len(words) > 1, "no certificate")
    kind, rest = words[1].decode("latin-1"), words[2:]
    if kind in ("pairs", "load", "machine", "job"):
        demand(len(rest) == (kind in ("machine", "job")), "the words behind the kind")
        return Record(kind=kind, jobs=[number(word, 1, MOST_MACHINES if kind == "machine" else MOST_JOBS) for word in rest])
    if kind == "split":
        demand(len(rest) > 1 and rest[0] in (b"first", b"second"), "the kind of a split")
        return Record(kind=kind, first=rest[0] == b"first", delta=number(rest[1]), jobs=job_list(rest[2:], has_ranges))
    demand(kind in ("last", "window", "ranks"), "no such kind")
    return Record(kind=kind, jobs=job_list(rest, has_ranges and kind != "ranks"))

def answer_of(text):
    lines = lines_of(text)
    words = [words for words, _ in lines]
    demand(len(lines) >= 7 and words[-1] == [b"end"], "cut off, or more lines behind the end")
    demand(words[0] in ([b"answer", b"1"], [b"answer", b"2"]) and words[1][0] == b"problem", "no heading, or no problem")
    problem = lines[1][1].lstrip(b" \t\r")[len(b"problem"):].removesuffix(b"\r")
    keys = (b"jobs", 1, MOST_JOBS), (b"machines", 1, MOST_MACHINES), (b"value", -2**63, 2**63 - 1)
    demand([(line[0], len(line)) for line in words[2:5]] == [(key, 2) for key, _, _ in keys], "no sizes, or no value")
    jobs, machines, value = (number(line[1], least, most) for line, (_, least, most) in zip(words[2:5], keys))
    demand(all(line[0] == b"piece" and len(line) == 5 for line in words[5:-2]), "a line that is no piece")
    pieces = [(number(j, 1, MOST_JOBS), number(i, 1, MOST_MACHINES), number(s), number(t)) for _, j, i, s, t in words[5:-2]]
    return Record(problem=notation(problem), jobs=jobs, machines=machines, value=value, pieces=pieces,
                  certificate=certificate(words[-2], words[0][1] == b"2"))

def first_overlap(pieces):  # the first time at which two of the pieces are going on
    spans = sorted(piece[2:] for piece in pieces)
    reached = accumulate((stop for _, stop in spans), max)
    return next((start for (start, _), last in zip(spans[1:], reached) if start < last), None)

def grouped(pieces, place):
    return {name: list(own) for name, own in groupby(sorted(pieces, key=itemgetter(place)), itemgetter(place))}

def span(pieces):  # the first start and the last stop of some pieces; of none, what meets every condition
    return min((start for _, _, start, _ in pieces), default=LIMIT), max((stop for _, _, _, stop in pieces), default=0)

def cost(task, pieces):
    """The first reason for which the pieces don't fit the task; otherwise what they cost."""
    env, conditions = task.problem.env, task.problem.conditions
    for k, (_, _, start, stop) in enumerate(pieces, 1):
        0 <= start and stop <= LIMIT or reject("OutOfRange", k)
        start < stop or reject("EmptyPiece", k)
    for machine, own in grouped(pieces, 1).items():
        first_overlap(own) is None or reject("MachineTwice", machine, first_overlap(own))
    for job, machine, _, _ in sorted(pieces, key=lambda piece: piece[1:3]):
        job in task.jobs and machine <= task.machines or reject("Stranger", job, machine)
    own = {j: [] for j in task.jobs} | grouped(pieces, 0)
    for j in own:
        first_overlap(own[j]) is None or reject("JobTwice", j, first_overlap(own[j]))
    # In a shop a job has a part on each machine, and elsewhere one part.
    parts = {j: [[piece for piece in own[j] if env not in "FO" or piece[1] == i] for i in range(1, 1 + len(task.jobs[j]["p"]))]
             for j in own}
    for j in own:
        [sum(t - s for _, _, s, t in part) for part in parts[j]] == task.jobs[j]["p"] or reject("WrongAmount", j)
    for j in own:
        for part, p in zip(parts[j], task.jobs[j]["p"]):
            is_whole = not part or span(part)[1] - span(part)[0] == p and len({piece[1] for piece in part}) == 1
            is_whole or "prmp" in conditions or reject("Broken", j)
    for j in own:
        "rj" not in conditions or span(own[j])[0] >= task.jobs[j]["r"] or reject("TooEarly", j)
    for a, b in task.arcs:
        span(own[a])[1] <= span(own[b])[0] or reject("OutOfOrder", a, b)
    for j in own:
        env != "F" or span(parts[j][0])[1] <= span(parts[j][1])[0] or reject("OutOfOrder", j, j)
    costs = [weight(task, j) * price(task, j, span(own[j])[1]) for j in own]
    return sum(costs) if task.problem.goal.startswith("sum") else max(costs)

def price(task, j, time):
    """What a job costs that completes at a time, its weight aside."""
    if task.problem.goal == "hmax":
        return [value for at, value in task.jobs[j]["h"] if at <= time][-1]
    return time - (task.jobs[j]["d"] if task.problem.goal == "Lmax" else 0)
def weight(task, j):
    return task.jobs[j]["w"] if task.problem.goal == "sumwC" else 1

def bound(task, claim):
    """What no schedule that fits costs less than."""
    claim.kind in SOLVED[task.problem.name] or reject("OtherKind")
    p, named = {j: job["p"][0] for j, job in task.jobs.items()}, set()
    if claim.kind == "machine":
        claim.jobs[0] in (1, 2) or reject("BadMachine", claim.jobs[0])
        return sum(job["p"][claim.jobs[0] - 1] for job in task.jobs.values())
    for j in claim.jobs:
        j in task.jobs or reject("BadJob", j)
        j not in named or reject("Repeated", j)
        named.add(j)
    named or claim.kind not in ("last", "window", "ranks") or reject("EmptySet")
    if claim.kind == "pairs":  # one job of each pair waits for the other: the lesser product, that of the ratio rule's order
        order = sorted(p, key=lambda j: Fraction(-weight(task, j), p[j]))
        return sum(weight(task, j) * elapsed for j, elapsed in zip(order, accumulate(p[j] for j in order)))
    if claim.kind == "last":
        free = named - {a for a, b in task.arcs if a in named and b in named} or reject("Condition", min(named))
        return min(price(task, j, sum(p[j] for j in named)) for j in free)
    if claim.kind == "window":
        return min(task.jobs[j]["r"] for j in named) + sum(p[j] for j in named) - max(task.jobs[j]["d"] for j in named)
    if claim.kind == "load":
        return -(-sum(p.values()) // task.machines)
    if claim.kind == "job":
        return sum(task.jobs[claim.jobs[0]]["p"])
    if claim.kind == "ranks":
        for before, j in zip(claim.jobs, claim.jobs[1:]):
            p[j] <= p[before] or reject("Condition", j)
        return sum(-(-k // task.machines) * p[j] for k, j in enumerate(claim.jobs, 1))
    reached = []  # a split: the jobs that reach delta, on the side that has to
    for j, job in task.jobs.items():
        x, y = job["p"] if claim.first else reversed(job["p"])
        has_to = (j in named) != claim.first
        (x >= claim.delta or x >= y if has_to else y >= x) or reject("Condition", j)
        reached += [j] if has_to and x >= claim.delta else []
    claim.delta >= 0 and reached or reject("BadDelta")
    return claim.delta + sum(job["p"][j not in named] for j, job in task.jobs.items())

def judge(problem, table_text, answer_text, machines=None):
    try:
        problem = notation(problem)
        demand(problem.name, "no such problem is solved")
        task, answer = task_of(problem, machines, *table(table_text)), answer_of(answer_text)
        sizes = len(task.jobs), task.machines
        (answer.problem.name, answer.jobs, answer.machines) == (problem.name, *sizes) or reject("OtherTask")
        cost(task, answer.pieces) == answer.value or reject("WrongValue")
        bound(task, answer.certificate) >= answer.value or reject("BoundBelowValue")
    except (Refused, Rejected) as why:
        return (f"refused: {why}", 2) if isinstance(why, Refused) else (f"rejected: {why}", 1)
    return "accepted", 0

def main(asked, table_name, answer_name, machines=None):
    texts = [open(name, "rb").read() for name in (table_name, answer_name)]
    return judge(asked.encode("utf-8", "surrogateescape"), *texts, machines and int(machines))

if __name__ == "__main__":
    try:
        line, status = main(*sys.argv[1:])
    except (OSError, TypeError, ValueError) as fault:
        line, status = f"refused: {fault}", 2
    print(line, file=sys.stderr if status == 2 else sys.stdout)
    sys.exit(status)
