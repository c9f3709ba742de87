#!/usr/bin/env python3
"""Plans a random instance of every problem that has bounds, and holds each plan against what the other commands say of it.

    python3 bench/plans.py PROGRAM [SEED [JOBS [ENVIRONMENTS]]]

The problems are those of the environments 1, P, F, O and J (or those that are named, as FO), any of the five conditions and any
objective. Each has a job table of JOBS jobs (12 if it is not given), in a job shop with routes over three machines; a flow shop or
open shop whose objective and conditions need times alone has a flow shop file of three machines too. The numbers are drawn from SEED. What is looked for:

- `plan` ends with 0 or 6, and as `evaluate` of its plan does;
- by `evaluate` the plan fits, has its value, and is as far from the same bound as the plan's own comments say;
- the bound in the comments is that of `bound`, and `evaluate --bound` takes it at its value;
- an answer to a problem with a solver is what `solve` prints;
- `gantt` draws the plan; `--json` and `--csv` have the same value, gap, bound and pieces.

The last line counts the plans that passed, and how many of them are proved optimal.
"""
import collections
import itertools
import json
import multiprocessing
import os
import random
import subprocess
import sys
import tempfile

from families import flow_file, table, taillard

MACHINES = 3
MOST_TIME = 20
STEPS = ["--steps", "20"]  # bounds are compared with one another alone
PROCESSES = 2
LIMIT = 60
CONDITIONS = ("rj", "prec", "prmp", "prmu", "nwt")
GOALS = ("Cmax", "Lmax", "sumC", "sumwC", "sumT", "sumwT", "sumU", "sumwU")

Case = collections.namedtuple("Case", "options text")
Done = collections.namedtuple("Done", "status written said")


def problems(environments):
    """Every problem of these environments, by docs/bounds.md."""
    for env, goal in itertools.product(environments, GOALS):
        for chosen in itertools.product((False, True), repeat=len(CONDITIONS)):
            yield env, [name for name, is_chosen in zip(CONDITIONS, chosen) if is_chosen], goal


def cases(seed, jobs, environments):
    """The problems, each with its options and its instances."""
    for env, named, goal in problems(environments):
        problem = f"{env}|{','.join(named)}|{goal}"
        rng = random.Random(f"{seed} {problem}")
        machines = {"1": [], "P": ["-m", str(MACHINES)], "J": []}.get(env, ["-m", "2"])
        yield Case(["-p", problem, *machines], drawn_table(rng, env, jobs))
        if env in "FO" and goal in ("Cmax", "sumC") and not {"rj", "prec"} & set(named):
            text = flow_file(taillard(rng.randrange(1, 2**31 - 1), jobs, MACHINES))
            yield Case(["-p", f"{env}{MACHINES}|{','.join(named)}|{goal}", "-f", "flow", "--name", "shop"], text)


def drawn_table(rng, env, count):
    """A table whose jobs have all fields, and arcs from lower to higher numbers."""
    shared = {"1": 1, "P": MACHINES}.get(env, 1.5)
    span = int(MOST_TIME / 2 * count / shared)
    jobs = [drawn_job(rng, env, span) for _ in range(count)]
    arcs = [(i, j) for i, j in itertools.combinations(range(1, count + 1), 2) if rng.random() < 1.2 / count]
    return table(jobs, arcs)


def drawn_job(rng, env, span):
    times = [rng.randint(1, MOST_TIME), *(rng.randint(0, MOST_TIME) for _ in range(env in "FO"))]
    rng.shuffle(times)
    if env == "J":
        return {"p": drawn_route(rng), "w": rng.randint(1, 9), "r": rng.randrange(span // 2), "d": rng.randrange(span)}
    return {"p": ",".join(map(str, times)), "w": rng.randint(1, 9), "r": rng.randrange(span // 2), "d": rng.randrange(span)}


def drawn_route(rng):
    """A route over some of the machines, of which one takes time."""
    machines = rng.sample(range(1, MACHINES + 1), rng.randint(1, MACHINES))
    times = [rng.randint(1, MOST_TIME), *(rng.randint(0, MOST_TIME) for _ in machines[1:])]
    return ",".join(f"{time}@{machine}" for time, machine in zip(times, machines))


class Player:
    """Runs the program in a folder of its own."""

    def __init__(self, program, folder):
        self.program, self.folder = program, folder

    def path(self, name):
        return os.path.join(self.folder, name)

    def write(self, name, text):
        with open(self.path(name), "w", encoding="ascii") as file:
            file.write(text)
        return self.path(name)

    def run(self, *words):
        done = subprocess.run([self.program, *words], capture_output=True, text=True, timeout=LIMIT, check=False)
        return Done(done.returncode, done.stdout, done.stderr)


def fields_of(lines):
    """The first word of each line, and the words behind it."""
    return {line.split(" ", 1)[0]: line.partition(" ")[2] for line in lines}


def parts_of(plan):
    """The answer of a plan, its gap if it says one, and its bound."""
    lines = plan.splitlines()
    answer = [line for line in lines if not line.startswith("#")]
    said = [line[3:] for line in lines if line.startswith("## ")]
    return answer, said, "".join(line[2:] + "\n" for line in lines if line.startswith("# "))


def faults_of_solved(player, case, plan, instance):
    """What is wrong with the plan of a problem that has a solver."""
    if plan.status != 0 or plan != player.run("solve", *case.options, instance):
        yield f"is solved otherwise: {plan}"


def faults_of_comments(player, case, plan, instance):
    """What is wrong with what a plan says behind its line `end`."""
    answer, said, bound = parts_of(plan.written)
    value = int(fields_of(answer)["value"])
    alone = player.run("bound", *STEPS, *case.options, instance)
    if alone.written != bound:
        yield f"another bound than that of bound: {bound!r} {alone}"
    least = int(fields_of(bound.splitlines())["value"])
    if least > value:
        yield f"a bound of {least} above the value {value}"
    if said != [f"gap {value - least}"] or plan.status != (0 if value == least else 6):
        yield f"value {value}, bound {least}, status {plan.status}, and {said}"
    offering = ["--bound", player.write("bound.txt", bound)]
    offered = player.run("evaluate", *STEPS, *case.options, *offering, instance, player.path("plan.txt"))
    if fields_of(offered.written.splitlines()).get("offered") != str(least):
        yield f"the bound of {least} is offered, and not taken: {offered}"


def faults_of_judged(player, case, plan, instance):
    """What `evaluate` says of a plan otherwise than the plan itself."""
    judged = player.run("evaluate", *STEPS, *case.options, instance, player.path("plan.txt"))
    fields = fields_of(judged.written.splitlines())
    answer, said, _ = parts_of(plan.written)
    value = fields_of(answer)["value"]
    if judged.status != plan.status or "fits" not in fields or fields["value"] != value:
        yield f"value {value} and status {plan.status}, and evaluate says {judged}"
    gap = fields.get("gap")
    if said != [f"gap {gap}"] and (said or gap != "0"):
        yield f"{said}, and evaluate says gap {gap}"


def faults_of_formats(player, case, plan, instance):
    """What is wrong with the other forms of a plan."""
    drawn = player.run("gantt", player.path("plan.txt"))
    if drawn.status or drawn.said or not drawn.written:
        yield f"is not drawn: {drawn}"
    answer, _, bound = parts_of(plan.written)
    pieces = [line.split()[1:] for line in answer if line.startswith("piece ")]
    csv = player.run("plan", "--csv", *STEPS, *case.options, instance)
    if csv.status != plan.status or [row.split(",") for row in csv.written.splitlines()[1:]] != pieces:
        yield f"other pieces as a table: {csv}"
    told = player.run("plan", "--json", *STEPS, *case.options, instance)
    object_ = json.loads(told.written)
    value = int(fields_of(answer)["value"])
    least = int(fields_of(bound.splitlines()).get("value", value))
    shown = [object_[name] for name in ("value", "gap", "bound")]
    if told.status != plan.status or shown != [value, value - least, least]:
        yield f"another object: {told}"


def faults(player, case):
    """Whether a plan is proved optimal, and what is wrong with it."""
    instance = player.write("instance.txt", case.text)
    plan = player.run("plan", *STEPS, *case.options, instance)
    if plan.status not in (0, 6) or plan.said:
        return False, [f"ends so: {plan}"]
    player.write("plan.txt", plan.written)
    solved = player.run("solve", *case.options, instance).status == 0
    own = faults_of_solved if solved else faults_of_comments
    checks = own, faults_of_judged, faults_of_formats
    return plan.status == 0, [fault for check in checks for fault in check(player, case, plan, instance)]


def faults_in_folder(task):
    program, case = task
    with tempfile.TemporaryDirectory() as folder:
        return case, *faults(Player(program, folder), case)


def main(program, seed="1", jobs="12", environments="1PFOJ"):
    tasks = [(os.path.abspath(program), case) for case in cases(seed, int(jobs), environments)]
    failed = optimal = 0
    with multiprocessing.Pool(PROCESSES) as pool:
        for case, is_optimal, found in pool.imap(faults_in_folder, tasks):
            optimal += is_optimal
            failed += bool(found)
            for fault in found:
                print(f"{' '.join(case.options)}: {fault}\n{case.text}", flush=True)
    print(f"{optimal} of {len(tasks)} plans are proved optimal")
    print(f"{len(tasks) - failed} passed, {failed} failed")
    return failed > 0


if __name__ == "__main__":
    sys.exit(main(*sys.argv[1:]))
