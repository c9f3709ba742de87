#!/usr/bin/env python3
"""Measures how good the plans of job shops are that `plan` finds, with the bound, the gap and the processor seconds.

    python3 bench/job_shops.py PROGRAM [WORD [STEPS]]

Runs `plan` on the instances whose name has WORD, with `--steps STEPS` where it is given. ft06 and ft10 are those of Fisher and
Thompson (1963), ta01 to ta03 are made by the generator that Taillard published (1993), and the others are random in the manner of
Lawrence (1984): times from 5 to 99, each job on all machines in a random order, from seeds of our own.
"""
import os
import random
import resource
import subprocess
import sys
import tempfile

FT06 = """
2 1 0 3 1 6 3 7 5 3 4 6
1 8 2 5 4 10 5 10 0 10 3 4
2 5 3 4 5 8 0 9 1 1 4 7
1 5 0 5 2 5 3 3 4 8 5 9
2 9 1 3 4 5 5 4 0 3 3 1
1 3 3 3 5 9 0 10 4 4 2 1
"""

FT10 = """
0 29 1 78 2 9 3 36 4 49 5 11 6 62 7 56 8 44 9 21
0 43 2 90 4 75 9 11 3 69 1 28 6 46 5 46 7 72 8 30
1 91 0 85 3 39 2 74 8 90 5 10 7 12 6 89 9 45 4 33
1 81 2 95 0 71 4 99 6 9 8 52 7 85 3 98 9 22 5 43
2 14 0 6 1 22 5 61 3 26 4 69 8 21 7 49 9 72 6 53
2 84 1 2 5 52 3 95 8 48 9 72 0 47 6 65 4 6 7 25
1 46 0 37 3 61 2 13 6 32 5 21 9 32 8 89 7 30 4 55
2 31 0 86 1 46 5 74 4 32 6 88 8 19 9 48 7 36 3 79
0 76 1 69 3 76 5 51 2 85 9 11 6 40 7 89 4 26 8 74
1 85 0 13 2 61 6 7 8 64 9 76 5 47 3 52 4 90 7 45
"""

# name, time seed, machine seed and the least makespan of Taillard's first job shops of 15 jobs on 15 machines
TAILLARD = (("ta01", 840612802, 398197754, 1231), ("ta02", 1314640371, 386720536, 1244), ("ta03", 1227221349, 316176388, 1218))

# jobs, machines and how many random instances
RANDOM = ((10, 5, 5), (20, 5, 5), (15, 10, 5), (50, 15, 1), (100, 20, 1))


def uniform(seed):
    """Taillard's random numbers between 0 and 1."""
    while True:
        seed = 16807 * (seed % 127773) - 2836 * (seed // 127773)
        seed += 2147483647 if seed < 0 else 0
        yield seed / 2147483647


def taillard(jobs, machines, time_seed, machine_seed):
    """The operations of each job, as pairs of a machine and a time."""
    numbers = uniform(time_seed)
    times = [[1 + int(next(numbers) * 99) for _ in range(machines)] for _ in range(jobs)]
    numbers = uniform(machine_seed)
    routes = []
    for _ in range(jobs):
        route = list(range(machines))
        for place in range(machines):
            other = place + int(next(numbers) * (machines - place))
            route[place], route[other] = route[other], route[place]
        routes.append(route)
    return [list(zip(route, row)) for route, row in zip(routes, times)]


def lawrence(jobs, machines, seed):
    """The operations of each job of a random instance."""
    numbers = random.Random(seed)
    return [[(machine, numbers.randint(5, 99)) for machine in numbers.sample(range(machines), machines)] for _ in range(jobs)]


def typed(text):
    """The operations of each job of a text in the form of OR-Library."""
    rows = [list(map(int, line.split())) for line in text.strip().splitlines()]
    return [list(zip(row[::2], row[1::2])) for row in rows]


def instances():
    """The name of each instance, its operations, and the least makespan where it is known."""
    yield "ft06", typed(FT06), 55
    yield "ft10", typed(FT10), 930
    for name, time_seed, machine_seed, least in TAILLARD:
        yield name, taillard(15, 15, time_seed, machine_seed), least
    for jobs, machines, count in RANDOM:
        for number in range(1, count + 1):
            yield f"random {jobs}x{machines} {number}", lawrence(jobs, machines, 1000 * jobs + 10 * machines + number), None


def text_of(name, operations):
    """The file of an instance in the form of OR-Library."""
    machines = 1 + max(machine for row in operations for machine, _ in row)
    rows = [" ".join(f"{machine} {time}" for machine, time in row) for row in operations]
    return "\n".join([f"instance {name}", f"{len(operations)} {machines}", *rows, ""])


def planned(program, name, text, steps):
    """The value of the plan, its gap to the bound, and the processor seconds."""
    words = [program, "plan", "-p", "J||Cmax", "--format", "jobshop", "--name", name]
    words += ["--steps", steps] if steps else []
    with tempfile.NamedTemporaryFile("w", suffix=".txt", delete=False) as file:
        file.write(text)
    before = resource.getrusage(resource.RUSAGE_CHILDREN)
    done = subprocess.run([*words, file.name], capture_output=True, text=True, check=False)
    after = resource.getrusage(resource.RUSAGE_CHILDREN)
    os.unlink(file.name)
    if done.returncode not in (0, 6):
        raise SystemExit(f"{' '.join(words)}: status {done.returncode}: {done.stderr}")
    lines = done.stdout.splitlines()
    value = next(int(line.split()[1]) for line in lines if line.startswith("value "))
    gap = next(int(line.split()[2]) for line in lines if line.startswith("## gap "))
    return value, gap, after.ru_utime + after.ru_stime - before.ru_utime - before.ru_stime


def main(program, word="", steps=None):
    """Prints a line of a table for each instance."""
    print("| Instance | Makespan | Lower bound | Gap, percent of the bound | Least known | Above it, percent | Processor seconds |")
    print("|---|---|---|---|---|---|---|")
    for name, operations, least in instances():
        if word not in name:
            continue
        label = name.replace(" ", "_")
        value, gap, seconds = planned(program, label, text_of(label, operations), steps)
        bound = value - gap
        known = f"{least} | {100 * (value - least) / least:.2f}" if least else "- | -"
        print(f"| {name} | {value} | {bound} | {100 * gap / bound:.2f} | {known} | {seconds:.2f} |", flush=True)


if __name__ == "__main__":
    main(*sys.argv[1:])
