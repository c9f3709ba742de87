"""The instances on which lower bounds are measured, all from fixed seeds: what each family is, and its tables.

Weighted tardiness by the published recipe of OR-Library's files: processing times 1 to 100, weights 1 to 10, due dates from
P(1 - TF - RDD/2) to P(1 - TF + RDD/2), where P is the work of one machine. Flow shops by the generator that Taillard published
(1993), from seeds of our own except his ten of 20 jobs on five machines.
"""
import random

FACTORS = (0.2, 0.4, 0.6, 0.8, 1.0)

# the spreads of release dates and tails of Carlier's instances
SPREADS = (6, 10, 14, 16, 18, 20, 22, 25)

# of Taillard's flow shops of 20 jobs on five machines: the seed, and the lower bound that he published
TAILLARD = ((873654221, 1232), (379008056, 1290), (1866992158, 1073), (216771124, 1268), (495070989, 1198),
            (402959317, 1180), (1369363414, 1226), (2021925980, 1170), (573109518, 1206), (88325120, 1082))


def table(jobs, arcs=()):
    """A job table of dictionaries from a field's letter to what follows it."""
    lines = [f"job {k} " + " ".join(f"{key}={value}" for key, value in job.items()) for k, job in enumerate(jobs, 1)]
    return "\n".join(["table 1", *lines, *[f"prec {i} {j}" for i, j in arcs], ""])


def span_of_table(text):
    """The latest release date of a job table and all processing times: one machine alone is done by then."""
    fields = [dict(field.split("=") for field in line.split()[2:]) for line in text.splitlines() if line.startswith("job")]
    return max(int(job.get("r", 0)) for job in fields) + sum(sum(map(int, job["p"].split(","))) for job in fields)


def taillard(seed, jobs, machines):
    """The times of a flow shop by the published generator, a row for each machine."""
    rows = []
    for _ in range(machines):
        row = []
        for _ in range(jobs):
            seed = 16807 * seed % (2**31 - 1)
            row.append(1 + seed * 99 // (2**31 - 1))
        rows.append(row)
    return rows


def flow_file(rows):
    """A flow shop file of one instance, `shop`."""
    lines = [" ".join(f"{machine} {time}" for machine, time in enumerate(times)) for times in zip(*rows)]
    return "\n".join(["instance shop", f"{len(lines)} {len(rows)}", *lines, ""])


def tardy_jobs(n, factor, spread, draw, machines=1):
    """Jobs of a tardiness factor and a spread of due dates."""
    times = [draw.randint(1, 100) for _ in range(n)]
    total = sum(times) / machines
    low, high = int(total * (1 - factor - spread / 2)), int(total * (1 - factor + spread / 2))
    return [{"p": p, "w": draw.randint(1, 10), "d": max(draw.randint(low, high), 0)} for p in times]


def released_late(n, factor, spread, draw, machines=1):
    """The same with release dates up to half of the work, and no due date before a job can be complete."""
    jobs = tardy_jobs(n, factor, spread, draw, machines)
    last = sum(job["p"] for job in jobs) // (2 * machines)
    for job in jobs:
        job["r"] = draw.randint(0, last)
        job["d"] = max(job["d"], job["r"] + job["p"])
    return jobs


def weighed_jobs(n, draw, last=None):
    """Jobs with weights, with release dates where a last one is named."""
    jobs = [{"p": draw.randint(1, 100), "w": draw.randint(1, 10)} for _ in range(n)]
    for job in jobs if last is not None else ():
        job["r"] = draw.randint(0, int(last))
    return jobs


def timed_jobs(n, draw):
    """Jobs with times alone, 20 to 100."""
    return [{"p": draw.randint(20, 100)} for _ in range(n)]


def near_arcs(n, density, draw):
    """So many arcs a job, each from one of the 15 jobs before it."""
    return [(draw.randint(max(1, j - 15), j - 1), j) for j in range(2, n + 1) for _ in range(2) if draw.random() < density / 2]


def released_table(draw):
    """A table of 50 jobs with weights, released up to a fifth of their work or more."""
    return table(weighed_jobs(50, draw, 2_500 * draw.choice(FACTORS)))


def ordered_table(draw):
    """A table of 50 jobs with weights, and half an arc, one arc or one and a half for each."""
    jobs = weighed_jobs(50, draw)
    return table(jobs, near_arcs(50, draw.choice((0.5, 1, 1.5)), draw))


def due_anywhere(last, draw):
    """A job that is released and due up to a date."""
    return {"p": draw.randint(1, 50), "r": draw.randint(1, last), "d": last - draw.randint(1, last)}


def carlier(n, spread, draw):
    """A table by the generator of Carlier (1982): dates, and tails behind the jobs, up to a spread for each job."""
    return table([{"p": draw.randint(1, 50), "r": draw.randint(0, n * spread), "d": -draw.randint(0, n * spread)} for _ in range(n)])


def shop_due_later(n, draw):
    """A table of a flow shop of two machines whose jobs are released and due at any time."""
    jobs = []
    for _ in range(n):
        times, release = [draw.randint(1, 100) for _ in range(2)], draw.randint(0, 25 * n)
        jobs.append({"p": ",".join(map(str, times)), "r": release, "d": release + draw.randint(sum(times), 25 * n)})
    return table(jobs)


def due_soon(last, draw):
    """A job that is due at most 60 time steps after it can be completed."""
    time, release = draw.randint(1, 50), draw.randint(1, last)
    return {"p": time, "r": release, "d": release + time + draw.randint(0, 60)}


def shop_jobs(n, factor, spread, draw, _machines):
    """Jobs of a flow shop of two machines, due by the work of the first."""
    jobs = tardy_jobs(n, factor, spread, draw)
    return [{"p": f"{job['p']},{draw.randint(1, 100)}", "w": job["w"], "d": job["d"] + 50} for job in jobs]


def tardy(problem, n, factors, spreads, machines=1, made=tardy_jobs):
    """A family of one table for each factor and spread."""
    draw = random.Random(f"{problem} {n}")
    return problem, [table(made(n, f, s, draw, machines)) for f in factors for s in spreads]


def drawn(problem, number, made):
    """A family of so many tables. Words behind the problem are of the seed alone."""
    draw = random.Random(problem)
    return problem.split()[0], [made(draw) for _ in range(number)]


def dated(problem, last, made):
    """A family of ten tables of 30 jobs that are released up to a date."""
    return drawn(f"{problem} {last}", 10, lambda draw: table([made(last, draw) for _ in range(30)]))


def flow(problem, number, jobs, machines):
    """A family of so many flow shop files."""
    return problem, [flow_file(taillard(1_000 * jobs + 13 * machines + k, jobs, machines)) for k in range(1, number + 1)]


def families():
    """Name, problem and instances of each family."""
    some, wide = (0.4, 0.6, 0.8), (0.2, 0.6, 1.0)
    made = {f"1||sumwT, {n} jobs, tardiness factor {f}": tardy("1||sumwT", n, (f,), FACTORS)
            for n in (40, 100) for f in FACTORS}
    made["1||sumT, 50 jobs"] = tardy("1||sumT", 50, some, wide)
    made["1|rj|sumwT, 50 jobs"] = tardy("1|rj|sumwT", 50, (0.4, 0.8), wide, made=released_late)
    for goal in ("sumU", "sumwU"):
        for n in (50, 100):
            made[f"1||{goal}, {n} jobs"] = tardy(f"1||{goal}", n, some, wide)
    made["1|rj|sumU, 50 jobs"] = tardy("1|rj|sumU", 50, (0.4, 0.8), wide, made=released_late)
    made["P3||sumU, 30 jobs"] = tardy("P3||sumU", 30, some, wide, 3)
    made["P3||sumwU, 50 jobs"] = tardy("P3||sumwU", 50, some, wide, 3)
    made["P3||sumwT, 50 jobs"] = tardy("P3||sumwT", 50, some, (0.2, 0.6), 3)
    made["P3||sumwC, 50 jobs"] = drawn("P3||sumwC", 5, lambda draw: table(weighed_jobs(50, draw)))
    for problem in ("1|rj|sumC", "1|rj|sumwC", "1|rj,prmp|sumC", "1|rj,prmp|sumwC"):
        made[f"{problem}, 50 jobs"] = drawn(problem, 6, released_table)
    for last in (540, 750):
        made[f"1|rj|Lmax, 30 jobs, dates to {last}"] = dated("1|rj|Lmax", last, due_anywhere)
    for n in (40, 100):
        draw = random.Random(f"1|rj|Lmax {n} Carlier")
        made[f"1|rj|Lmax, {n} jobs (Carlier)"] = ("1|rj|Lmax", [carlier(n, f, draw) for f in SPREADS for _ in range(3)])
    for n in (40, 100):
        made[f"F2|rj|Lmax, {n} jobs"] = drawn(f"F2|rj|Lmax {n}", 6, lambda draw, n=n: shop_due_later(n, draw))
    for last in (180, 240):
        made[f"P3|rj|Lmax, 30 jobs, dates to {last}, due soon"] = dated("P3|rj|Lmax", last, due_soon)
    for problem in ("P3|rj,prmp|Lmax", "P3|prmp|Lmax"):
        made[f"{problem}, 30 jobs, dates to 240, due soon"] = dated(problem, 240, due_soon)
    for n in (10, 15, 20, 50):
        made[f"P3||Cmax, {n} jobs"] = drawn(f"P3||Cmax {n}", 10, lambda draw, n=n: table(timed_jobs(n, draw)))
    made["1|prec|sumwC, 50 jobs"] = drawn("1|prec|sumwC", 6, ordered_table)
    made["F2||sumwT, 40 jobs"] = tardy("F2||sumwT", 40, (0.4, 0.8), wide, made=shop_jobs)
    for problem in ("F5||Cmax", "F5|prmu|Cmax"):
        made[f"{problem}, 20 jobs (Taillard)"] = (problem, [flow_file(taillard(seed, 20, 5)) for seed, _ in TAILLARD])
    made["F20||Cmax, 500 jobs"] = flow("F20||Cmax", 5, 500, 20)
    made["F10|nwt|Cmax, 50 jobs"] = flow("F10|nwt|Cmax", 5, 50, 10)
    made["F5||sumC, 20 jobs"] = flow("F5||sumC", 5, 20, 5)
    return [(name, problem, texts) for name, (problem, texts) in made.items()]
