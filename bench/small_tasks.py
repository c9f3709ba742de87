#!/usr/bin/env python3
"""Compares bounds, plans and judgements with all timetables of small tasks.

    python3 bench/small_tasks.py PROGRAM [COUNT [SEED [STEPS]]]

Draws COUNT tasks of two to four jobs in every environment, with conditions and an objective (in a shop where no job waits one may
take no time), computes the least cost by walking
over all timetables row by row, from the definitions alone, and runs `bound`, `plan` and `evaluate`. No bound may be above the
least cost and no plan below it; the plan has to fit, to cost what it says, and to be called optimal only where it is. Then a
piece of the plan is moved: `evaluate` has to say the same as the definitions, whether the schedule fits and what it costs. In a
job shop a random order of the operations follows, each job named once for each of its own: `evaluate --order` has to say what its
semi-active schedule comes to, or that it does not fit, and `--grade` why it is no order where a job is named once more.

The last line but one says how many bounds are the least cost.
"""
import itertools
import random
import re
import subprocess
import sys
import tempfile
from functools import lru_cache
from multiprocessing.pool import ThreadPool

GOALS = "Cmax", "Lmax", "sumC", "sumwC", "sumT", "sumwT", "sumU", "sumwU"
CONDITIONS = "rj", "prec", "prmp", "prmu", "nwt"
# The numbers of machines and of jobs.
SIZES = {"1": [(1, 3), (1, 4)], "P": [(2, 3), (2, 4), (3, 4)], "F": [(2, 2), (2, 3), (3, 2)], "O": [(2, 2), (2, 3), (3, 2)],
         "J": [(2, 2), (2, 3), (3, 2)]}


class Task:
    """For each job its operations, a list of machines and times, and its dates and weight. On identical machines the machine is 0."""

    def __init__(self, rng):
        self.env = rng.choice(list(SIZES))
        self.machines, count = rng.choice(SIZES[self.env])
        self.goal = rng.choice(GOALS)
        self.conditions = [name for name in CONDITIONS if rng.random() < 0.25]
        self.in_file = self.env in "FO" and self.machines == 3
        if self.in_file:
            self.goal = rng.choice(("Cmax", "sumC"))
            self.conditions = [name for name in self.conditions if name not in ("rj", "prec")]
        if self.env == "P" and {"prmp", "prmu"} <= set(self.conditions):
            self.conditions.remove("prmu")
        self.jobs = [self.operations(rng) for _ in range(count)]
        self.weights = [rng.randint(0, 3) for _ in range(count)]
        self.releases = [rng.randint(0, 3) if "rj" in self.conditions else 0 for _ in range(count)]
        self.dues = [rng.randint(0, 8) for _ in range(count)]
        pairs = itertools.combinations(range(count), 2)
        self.arcs = [pair for pair in pairs if rng.random() < 0.4] if "prec" in self.conditions else []

    def operations(self, rng):
        visited = list(range(self.machines)) if self.env in "FO" else [0]
        if self.env == "J":
            visited = rng.sample(range(self.machines), rng.randint(1, self.machines))
        job = [(machine, rng.randint(self.env in "1P", 3)) for machine in visited]
        # (where no job waits, one of a shop may take no time)
        may_rest = self.env in "FOJ" and not {"rj", "prec"} & set(self.conditions)
        if may_rest and rng.random() < 0.1:
            return [(machine, 0) for machine in visited]
        return job if may_rest or any(time for _, time in job) else [(job[0][0], 1), *job[1:]]

    def is_asked(self, condition):
        return condition in self.conditions

    def problem(self):
        count = "" if self.env == "1" else self.machines
        return f"{self.env}{count}|{','.join(self.conditions)}|{self.goal}"

    def options(self):
        return ["-p", self.problem(), *(["--format", "flow", "--name", "small"] if self.in_file else [])]

    def text(self):
        """A job table, or a flow shop file where there are three times a job."""
        if self.in_file:
            rows = (" ".join(f"{machine} {time}" for machine, time in job) for job in self.jobs)
            return "\n".join(["instance small", f"{len(self.jobs)} {self.machines}", *rows]) + "\n"
        lines = ["table 1", f"machines {self.machines}"]
        for job, operations in enumerate(self.jobs):
            if self.env == "J":
                times = ",".join(f"{time}@{machine + 1}" for machine, time in operations)
            else:
                times = ",".join(str(time) for _, time in operations)
            lines.append(f"job {job + 1} p={times} w={self.weights[job]} r={self.releases[job]} d={self.dues[job]}")
        lines += [f"prec {before + 1} {after + 1}" for before, after in self.arcs]
        return "\n".join(lines) + "\n"

    def price(self, job, end):
        """What a job adds to the objective, or for a maximum its share of it."""
        late, weight = max(end - self.dues[job], 0), self.weights[job]
        return {"Cmax": end, "Lmax": end - self.dues[job], "sumC": end, "sumwC": weight * end, "sumT": late,
                "sumwT": weight * late, "sumU": int(late > 0), "sumwU": weight * int(late > 0)}[self.goal]

    def cost(self, ends):
        prices = [self.price(job, end) for job, end in enumerate(ends)]
        return max(prices) if self.goal in ("Cmax", "Lmax") else sum(prices)

    def least(self):
        """The least cost of all timetables, with `prmu` of those of any one order of the jobs. On identical machines the order of
        the starts is one.
        """
        if not self.is_asked("prmu") or self.env == "P":
            return Walk(self, None).least()
        costs = [Walk(self, order).least() for order in itertools.permutations(range(len(self.jobs)))]
        return min(cost for cost in costs if cost is not None)

    def fits(self, pieces):
        """Whether pieces (job, machine, start, stop), counted from 0, make a timetable that fits."""
        cells = {}
        for job, machine, start, stop in pieces:
            if not (0 <= job < len(self.jobs) and 0 <= machine < self.machines) or stop <= start:
                return False
            for now in range(start, stop):
                if (now, machine) in cells:
                    return False
                cells[now, machine] = job
        rows = [[[now for (now, m), j in cells.items() if j == job and m == machine] for machine in range(self.machines)]
                for job in range(len(self.jobs))]
        if not all(map(self.job_fits, range(len(self.jobs)), rows)):
            return False
        ends = self.ends(pieces)
        if not all(ends[before] <= min(p[2] for p in pieces if p[0] == after) for before, after in self.arcs):
            return False
        return not self.is_asked("prmu") or any(is_one_order(rows, order) for order in itertools.permutations(range(len(rows))))

    def job_fits(self, job, rows):
        """Whether a job, whose rows are given for each machine, is processed as the problem asks."""
        all_rows = sorted(now for part in rows for now in part)
        if len(set(all_rows)) < len(all_rows) or len(all_rows) != sum(time for _, time in self.jobs[job]):
            return False
        times = dict(self.jobs[job])
        if self.env in "FOJ" and any(len(part) != times.get(machine, 0) for machine, part in enumerate(rows)):
            return False
        if all_rows and all_rows[0] < self.releases[job]:
            return False
        parts = [part for part in rows if part]
        if not self.is_asked("prmp") and (any(max(part) - min(part) + 1 != len(part) for part in parts)
                                          or self.env == "P" and len(parts) > 1):
            return False
        if self.is_asked("nwt") and all_rows and all_rows[-1] - all_rows[0] + 1 != len(all_rows):
            return False
        visited = [rows[machine] for machine, time in self.jobs[job] if time] if self.env in "FJ" else []
        return all(max(one) < min(other) for one, other in zip(visited, visited[1:]))

    def semi_active(self, order):
        """The pieces of an order of operations, each of which starts as soon as its job and its machine are free."""
        free, job_free, at, pieces = [0] * self.machines, list(self.releases), [0] * len(self.jobs), []
        for job in order:
            machine, time = self.jobs[job][at[job]]
            at[job] += 1
            if time:
                start = max(free[machine], job_free[job])
                free[machine] = job_free[job] = start + time
                pieces.append((job, machine, start, start + time))
        return pieces

    def ends(self, pieces):
        return [max((stop for j, _, _, stop in pieces if j == job), default=0) for job in range(len(self.jobs))]


def is_one_order(rows, order):
    """Whether the jobs pass each machine in this order."""
    return all(max(one) < min(other) for i, j in itertools.combinations(order, 2)
               for one, other in zip(rows[i], rows[j]) if one and other)


class Walk:
    """All timetables of a task, row by row, with `prmu` those in which the jobs pass each machine in one order."""

    def __init__(self, task, order):
        self.task = task
        self.work = [[(machine, time) for machine, time in job if time] for job in task.jobs]
        self.horizon = sum(time for job in self.work for _, time in job) + max(task.releases)
        self.join = max if task.goal in ("Cmax", "Lmax") else lambda one, other: one + other
        self.order = order
        self.rest = lru_cache(maxsize=None)(self.rest)

    def least(self):
        """The least cost, None where there is no timetable. A job of no time is over from the first."""
        more, is_there = self.rest(0, tuple(tuple(0 for _ in job) for job in self.work))
        prices = [self.task.price(job, 0) for job, work in enumerate(self.work) if not work]
        return self.joined(prices + ([] if more is None else [more])) if is_there else None

    def is_done(self, job, had):
        return all(done == time for done, (_, time) in zip(had, self.work[job]))

    def is_behind(self, machine, job, state):
        """Whether an earlier job of the order is not yet through with the machine."""
        earlier = self.order[:self.order.index(job)]
        return any(m == machine and done < time for before in earlier for done, (m, time) in zip(state[before], self.work[before]))

    def choices(self, now, job, state):
        """The operations of a job that this row may go on with, and None where it may be without the job."""
        had, work, task = state[job], self.work[job], self.task
        is_waiting = any(after == job and not self.is_done(before, state[before]) for before, after in task.arcs)
        if self.is_done(job, had) or now < task.releases[job] or is_waiting:
            return [None]
        able = [place for place, (done, (_, time)) in enumerate(zip(had, work)) if done < time]
        begun = [place for place in able if had[place]]
        if not task.is_asked("prmp") and begun:
            return begun
        if task.env in "FJ":
            able = able[:1]
        if self.order:
            able = [place for place in able if not self.is_behind(work[place][0], job, state)]
        return able if task.is_asked("nwt") and any(had) else [None, *able]

    def is_room(self, chosen):
        used = [self.work[job][place][0] for job, place in enumerate(chosen) if place is not None]
        return len(used) <= self.task.machines if self.task.env == "P" else len(set(used)) == len(used)

    def rest(self, now, state):
        """The least cost of the jobs that end from this row on, None without one, and whether the rows can be gone on with."""
        if all(itertools.starmap(self.is_done, enumerate(state))):
            return None, True
        if now > self.horizon:
            return None, False
        totals = []
        for chosen in itertools.product(*(self.choices(now, job, state) for job in range(len(state)))):
            if not self.is_room(chosen):
                continue
            after = tuple(had if place is None else had[:place] + (had[place] + 1,) + had[place + 1:]
                          for had, place in zip(state, chosen))
            more, is_there = self.rest(now + 1, after)
            if is_there:
                ended = [job for job in range(len(state)) if self.is_done(job, after[job]) and not self.is_done(job, state[job])]
                prices = [self.task.price(job, now + 1) for job in ended] + ([] if more is None else [more])
                totals.append(self.joined(prices))
        return (min(totals), True) if totals else (None, False)

    def joined(self, prices):
        total = prices[0]
        for price in prices[1:]:
            total = self.join(total, price)
        return total


def run(program, *words, text=None, files=()):
    with tempfile.TemporaryDirectory() as folder:
        names = []
        for index, content in enumerate(files):
            names.append(f"{folder}/{index}.txt")
            with open(names[-1], "w", encoding="ascii") as file:
                file.write(content)
        done = subprocess.run([program, *words, *names], input=text, capture_output=True, text=True, timeout=60)
    return done.returncode, done.stdout, done.stderr


def value_of(text):
    return int(re.search(r"^value (-?\d+)$", text, re.M).group(1))


def pieces_of(text):
    found = re.findall(r"^piece (\d+) (\d+) (-?\d+) (-?\d+)$", text, re.M)
    return [(int(j) - 1, int(m) - 1, int(s), int(e)) for j, m, s, e in found]


def moved(rng, pieces):
    """The pieces, one of them moved or put on another machine."""
    pieces = list(pieces)
    place = rng.randrange(len(pieces))
    job, machine, start, stop = pieces[place]
    shift = rng.choice((-2, -1, 1, 2)) if rng.random() < 0.7 else 0
    shift = max(shift, -start)
    pieces[place] = (job, machine if shift else (machine + 1) % 2, start + shift, stop + shift)
    return pieces


def is_drawn(pieces):
    """Whether no two pieces take one machine at one time."""
    return not any(a[1] == b[1] and a[2] < b[3] and b[2] < a[3] for a, b in itertools.combinations(pieces, 2))


def schedule(pieces):
    return "".join(f"piece {j + 1} {m + 1} {s} {e}\n" for j, m, s, e in pieces)


def judged_wrong(task, pieces, status, text):
    """Whether an evaluation says otherwise than the definitions of these pieces."""
    fits = task.fits(pieces)
    return fits != (status in (0, 6)) or (fits and f"value {task.cost(task.ends(pieces))}\n" not in text)


def wrong(program, task, rng, steps):
    """What is wrong with the program's answers for a task, or nothing; and whether the bound is the least cost."""
    options, instance, least = task.options(), task.text(), task.least()
    status, text, said = run(program, "bound", *options, *steps, files=[instance])
    if status:
        return f"bound ends with {status}: {said}", False
    bound = value_of(text)
    status, text, said = run(program, "plan", *options, *steps, files=[instance])
    if status not in (0, 6):
        return f"plan ends with {status}: {said}", False
    plan, pieces = value_of(text), pieces_of(text.split("\nend\n")[0])
    if not bound <= least <= plan:
        return f"bound {bound}, least cost {least}, plan {plan}", False
    if status == 0 and plan != least:
        return f"the plan of {plan} is called optimal, and {least} is possible", False
    if not task.fits(pieces) or task.cost(task.ends(pieces)) != plan:
        return "the plan does not fit, or costs something else", False
    for candidate in filter(is_drawn, (pieces, moved(rng, pieces) if pieces else [])):
        status, text, said = run(program, "evaluate", *options, "--schedule", files=[schedule(candidate), instance])
        if judged_wrong(task, candidate, status, text):
            return f"evaluate ends with {status}: {text}{said}{schedule(candidate)}", False
    return wrong_order(program, task, rng) if task.env == "J" else None, bound == least


def wrong_order(program, task, rng):
    """What is wrong with what the program says of an order of operations, or nothing."""
    options, instance = task.options(), task.text()
    order = [job for job, operations in enumerate(task.jobs) for _ in operations]
    rng.shuffle(order)
    text = " ".join(str(job + 1) for job in order)
    pieces = task.semi_active(order)
    status, said, _ = run(program, "evaluate", *options, "--order", text, files=[instance])
    if judged_wrong(task, pieces, status, said):
        return f"the order {text} ends with {status}: {said}{schedule(pieces)}"
    job = rng.randrange(len(task.jobs)) + 1
    if max(len(operations) for operations in task.jobs) == 1:
        return None
    longer = run(program, "evaluate", *options, "--orders", "-", "--grade", text=f"{text} {job}\n", files=[instance])[1]
    if longer != f"wrong often {job}\n" and len(set(order)) < len(order):
        return f"the order {text} {job} is called {longer}"
    return None


def tried(program, seed, steps, number):
    rng = random.Random(f"{seed} {number}")
    task = Task(rng)
    found, is_met = wrong(program, task, rng, steps)
    return found and f"{task.problem()}: {found}\n{task.text()}", is_met


def main(program, count="600", seed="1", steps=None):
    steps = ("--steps", steps) if steps else ()
    with ThreadPool() as pool:
        found = pool.starmap(tried, ((program, seed, steps, number) for number in range(int(count))))
    for fault in filter(None, (fault for fault, _ in found)):
        print(fault, flush=True)
    failed = sum(1 for fault, _ in found if fault)
    print(f"{sum(is_met for _, is_met in found)} of {len(found)} bounds are the least cost")
    print(f"{len(found) - failed} passed, {failed} failed")
    return failed > 0


if __name__ == "__main__":
    sys.exit(main(*sys.argv[1:]))
