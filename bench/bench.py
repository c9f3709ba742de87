#!/usr/bin/env python3
"""Measures threefield beside the tuned program of bench/tuned, on the same instances and in turn.

    python3 bench/bench.py [--runs R] [--jobs N] [--growth] [CASE..]      in the root folder

It needs the program that `rt run` in crates/threefield leaves in its out/, rustc and /usr/bin/time. Of `solve` and of
`check` of each program's own answer it prints the least processor time (user and system) of the runs in milliseconds, and
the peak memory in MB. The two answers are compared. A CASE is a problem in three-field notation, `wt`, `flow`, the same in
the layout of OR-Library's own files, `wt-padded` and `flow-padded`, or one of the inputs `steps`, `pieces`, `chain`, `star`,
`alike`, `minus` and `returns`; without one all are run. With --growth it prints how many times as long N jobs take as a
tenth of them, by the least and the median times.
"""
import argparse
import os
import random
import statistics
import subprocess
import sys
import tempfile

PROGRAM = "crates/threefield/out/threefield"
CLASSES = ["1||sumwC", "1||sumC", "1||hmax", "1|prec|hmax", "1||Lmax", "1|prec|Lmax", "1|rj,prmp|Lmax", "F2||Cmax",
           "O2||Cmax", "P|prmp|Cmax", "P||sumC", "1|prmp|sumwC", "1|prmp|sumC", "1|prmp|hmax", "1|prec,prmp|hmax",
           "1|prmp|Lmax", "1|prec,prmp|Lmax", "F2|prmp|Cmax", "O2|prmp|Cmax"]
LONGEST, HEAVIEST, MACHINES = 1000, 100, 7
MOST_COSTED_JOBS = 2_000
FILE_SIZE = 60_000_000
PIECES = 22


def fields(problem, n, draw, steps=3):
    """The fields of a random job that the class uses."""
    machines, conditions, goal = problem.split("|")
    span = n * LONGEST // 2
    if machines[0] in "FO":
        words = [f"p={draw.randint(0, LONGEST)},{draw.randint(0, LONGEST)}"]
    else:
        words = [f"p={draw.randint(1, LONGEST)}"]
    if goal == "sumwC":
        words.append(f"w={draw.randint(0, HEAVIEST)}")
    if "rj" in conditions:
        words.append(f"r={draw.randint(0, span)}")
    if goal == "Lmax":
        words.append(f"d={draw.randint(0, span)}")
    if goal == "hmax":
        costs = sorted(draw.randint(0, 100 * steps) for _ in range(steps + 1))
        moments = sorted(draw.sample(range(span), steps))
        later = "".join(f",{t}:{cost}" for t, cost in zip(moments, costs[1:]))
        words.append(f"h={costs[0]}{later}")
    return " ".join(words)


def random_arcs(n, draw):
    """Two arcs into each job but the first of a random order, from jobs before it."""
    order = list(range(1, n + 1))
    draw.shuffle(order)
    return [(order[draw.randrange(k)], order[k]) for k in range(1, n) for _ in range(2)]


def write_table(path, problem, jobs, arcs=()):
    with open(path, "w", encoding="ascii") as out:
        out.write("table 1\n")
        if problem[0] == "P":
            out.write(f"machines {MACHINES}\n")
        out.writelines(f"job {k} {words}\n" for k, words in enumerate(jobs, 1))
        out.writelines(f"prec {a} {b}\n" for a, b in arcs)


def write_class(path, problem, n, draw):
    if "hmax" in problem:
        n = min(n, MOST_COSTED_JOBS)
    jobs = (fields(problem, n, draw) for _ in range(n))
    write_table(path, problem, jobs, random_arcs(n, draw) if "prec" in problem else ())
    return problem, []


def write_wt(path, n, draw):
    """Weighted tardiness instances one after another, of which the last is asked for."""
    rows = [(1, LONGEST), (1, HEAVIEST), (0, LONGEST * n // 2)]
    one = "".join(" ".join(str(draw.randint(*row)) for _ in range(n)) + "\n" for row in rows)
    count = max(1, FILE_SIZE // len(one))
    with open(path, "w", encoding="ascii") as out:
        out.writelines(one for _ in range(count))
    return "1||sumwC", ["--format", "wt", "--jobs", str(n), "--index", str(count)]


def write_wt_padded(path, n, draw):
    """The same, twenty numbers a line, each on the right of five columns or more."""
    rows = [(1, LONGEST), (1, HEAVIEST), (0, LONGEST * n // 2)]
    lines = []
    for row in rows:
        words = [f"{draw.randint(*row):5d}" for _ in range(n)]
        lines += [" ".join(words[k:k + 20]) + "\n" for k in range(0, n, 20)]
    one = "".join(lines)
    count = max(1, FILE_SIZE // len(one))
    with open(path, "w", encoding="ascii") as out:
        out.writelines(one for _ in range(count))
    return "1||sumwC", ["--format", "wt", "--jobs", str(n), "--index", str(count)]


def write_flow(path, n, draw):
    """A flow shop of many machines, of which the first and the last are asked for."""
    m = max(2, min(1000, FILE_SIZE // (n * 7)))
    rows = [" ".join(f"{i} {draw.randint(1, LONGEST)}" for i in range(m)) + "\n" for _ in range(min(n, 499))]
    with open(path, "w", encoding="ascii") as out:
        out.write(f" instance large\n ++++\n drawn\n {n} {m}\n")
        out.writelines(draw.choice(rows) for _ in range(n))
    return "F2||Cmax", ["--format", "flow", "--name", "large", "--pair", f"0,{m - 1}"]


def write_flow_padded(path, n, draw):
    """The same, each number on the right of four columns."""
    m = max(2, min(1000, FILE_SIZE // (n * 9)))
    rows = ["".join(f" {i:3d} {draw.randint(1, LONGEST - 1):3d}" for i in range(m)) + "\n" for _ in range(min(n, 499))]
    with open(path, "w", encoding="ascii") as out:
        out.write(f" instance large\n ++++\n drawn\n {n} {m}\n")
        out.writelines(draw.choice(rows) for _ in range(n))
    return "F2||Cmax", ["--format", "flow", "--name", "large", "--pair", f"0,{m - 1}"]


def write_steps(path, n, draw):
    """As many jobs with cost functions as are allowed, each of 1,500 steps."""
    problem, n = "1||hmax", min(n, MOST_COSTED_JOBS)
    write_table(path, problem, (fields(problem, n, draw, steps=1500) for _ in range(n)))
    return problem, []


def write_chain(path, n, draw):
    problem = "1|prec|Lmax"
    jobs = (fields(problem, n, draw) for _ in range(n))
    write_table(path, problem, jobs, [(k + 1, k) for k in range(1, n)])
    return problem, []


def write_star(path, n, draw):
    problem = "1|prec|Lmax"
    jobs = (fields(problem, n, draw) for _ in range(n))
    write_table(path, problem, jobs, [(k, n) for k in range(1, n)])
    return problem, []


def write_alike(path, n, draw):
    write_table(path, "1||sumwC", ("p=1 w=1" for _ in range(n)))
    return "1||sumwC", []


def write_minus(path, n, draw):
    """All due dates below 0."""
    jobs = (fields("1||Lmax", n, draw).replace("d=", "d=-") for _ in range(n))
    write_table(path, "1||Lmax", jobs)
    return "1||Lmax", []


def write_returns(path, n, draw):
    """Lines of jobs that end in a carriage return and a line feed."""
    write_table(path, "1||Lmax", (fields("1||Lmax", n, draw) + "\r" for _ in range(n)))
    return "1||Lmax", []


WRITERS = {"wt": write_wt, "wt-padded": write_wt_padded, "flow": write_flow, "flow-padded": write_flow_padded,
           "steps": write_steps, "chain": write_chain, "star": write_star, "alike": write_alike, "minus": write_minus,
           "returns": write_returns}


def write_pieces(folder, n):
    """A table, and an answer in which each job is taken up again many times."""
    path, answer = os.path.join(folder, "input"), os.path.join(folder, "pieces")
    write_table(path, "1|prmp|sumC", (f"p={PIECES}" for _ in range(n)))
    value = sum((PIECES - 1) * n + k for k in range(1, n + 1))
    with open(answer, "w", encoding="ascii") as out:
        out.write(f"answer 1\nproblem 1|prmp|sumC\njobs {n}\nmachines 1\nvalue {value}\n")
        for turn in range(PIECES):
            out.writelines(f"piece {k + 1} 1 {turn * n + k} {turn * n + k + 1}\n" for k in range(n))
        out.write("cert pairs\nend\n")
    return path, answer


def run(words, output=os.devnull):
    """The processor time of a run in milliseconds."""
    to = [(os.POSIX_SPAWN_OPEN, 0, os.devnull, os.O_RDONLY, 0),
          (os.POSIX_SPAWN_OPEN, 1, output, os.O_WRONLY | os.O_CREAT | os.O_TRUNC, 0o600),
          (os.POSIX_SPAWN_OPEN, 2, os.devnull, os.O_WRONLY, 0)]
    child = os.posix_spawnp(words[0], words, os.environ, file_actions=to)
    _, _, usage = os.wait4(child, 0)
    return (usage.ru_utime + usage.ru_stime) * 1e3


def peak(words):
    """The peak memory of a run in MB, without that of this script."""
    told = subprocess.run(["/usr/bin/time", "-f", "%M"] + words, stdin=subprocess.DEVNULL, stdout=subprocess.DEVNULL,
                          stderr=subprocess.PIPE, check=False)
    return int(told.stderr.split()[-1]) / 1e3


def compared(pair, runs):
    """The least time of each of the two commands, run in turn, and their memory."""
    measured = ([], [])
    for k in range(runs):
        for which in ((0, 1), (1, 0))[k % 2]:
            measured[which].append(run(pair[which]))
    return [(min(times), peak(words)) for times, words in zip(measured, pair)]


class Table:
    """The lines of the table, and the ratios for their means."""

    def __init__(self):
        self.ratios = {}
        print("| Case | Command | threefield, ms | tuned, ms | ratio | threefield, MB | tuned, MB |\n" + "|---" * 7 + "|")

    def add(self, case, command, result):
        (ours, memory), (tuned, less) = result
        self.ratios.setdefault(command, []).append((ours / tuned, memory / less))
        shown = case.replace("|", "\\|")
        print(f"| `{shown}` | {command} | {ours:.1f} | {tuned:.1f} | {ours / tuned:.1f} | {memory:.1f} | {less:.1f} |", flush=True)

    def close(self):
        for command, ratios in self.ratios.items():
            time, memory = (statistics.geometric_mean(column) for column in zip(*ratios))
            print(f"\n{command}: geometric mean of the times {time:.2f}, of the memory {memory:.2f}; "
                  f"worst {max(r[0] for r in ratios):.1f} and {max(r[1] for r in ratios):.1f}")


def prepared(case, jobs, programs, folder):
    """The commands on an instance of so many jobs, each with the words of the two programs; their answers are compared."""
    os.makedirs(folder, exist_ok=True)
    if case == "pieces":
        path, answer = write_pieces(folder, jobs)
        return [("check", [[p, "check", "--problem", "1|prmp|sumC", path, answer] for p in programs])]
    path = os.path.join(folder, "input")
    draw = random.Random(case)
    problem, form = WRITERS[case](path, jobs, draw) if case in WRITERS else write_class(path, case, jobs, draw)
    common = ["--problem", problem] + form
    answers = [os.path.join(folder, name) for name in ("ours", "tuned_answer")]
    solves = [[programs[0], "solve", "--answer", "1"] + common + [path], [programs[1], "solve"] + common + [path]]
    for words, answer in zip(solves, answers):
        run(words, answer)
    with open(answers[0], "rb") as a, open(answers[1], "rb") as b:
        if a.read() != b.read():
            sys.exit(f"{case}: the two answers differ")
    checks = [[p, "check"] + common + [path, answer] for p, answer in zip(programs, answers)]
    return [("solve", solves), ("check", checks)]


def measure(cases, programs, folder, options):
    table = Table()
    for case in cases:
        for command, pair in prepared(case, options.jobs, programs, folder):
            table.add(case, command, compared(pair, options.runs))
    table.close()


def measure_growth(cases, programs, folder, options):
    """How many times as long ten times the jobs take, both programs at both sizes in turn."""
    print("| Case | Command | threefield, least | median | tuned, least | median |\n" + "|---" * 6 + "|")
    for case in cases:
        few, many = (prepared(case, jobs, programs, os.path.join(folder, str(jobs)))
                     for jobs in (options.jobs // 10, options.jobs))
        for (command, small), (_, large) in zip(few, many):
            times = list(zip(*([run(words) for words in small + large] for _ in range(options.runs))))
            growth = [f"{kind(times[k + 2]) / kind(times[k]):.1f}" for k in (0, 1) for kind in (min, statistics.median)]
            shown = case.replace("|", "\\|")
            print(f"| `{shown}` | {command} | " + " | ".join(growth) + " |", flush=True)


def main():
    parser = argparse.ArgumentParser(description=__doc__, formatter_class=argparse.RawDescriptionHelpFormatter)
    parser.add_argument("cases", nargs="*", metavar="CASE")
    parser.add_argument("--runs", type=int, default=15)
    parser.add_argument("--jobs", type=int, default=100_000)
    parser.add_argument("--growth", action="store_true")
    parser.add_argument("--program", default=PROGRAM)
    options = parser.parse_args()
    here = os.path.dirname(os.path.abspath(__file__))
    with tempfile.TemporaryDirectory() as folder:
        tuned = os.path.join(folder, "tuned")
        subprocess.run(["rustc", "-O", "--edition", "2021", "-o", tuned, os.path.join(here, "tuned", "main.rs")], check=True)
        programs = (options.program, tuned)
        if options.growth:
            measure_growth(options.cases or CLASSES, programs, folder, options)
        else:
            measure(options.cases or CLASSES + list(WRITERS) + ["pieces"], programs, folder, options)


if __name__ == "__main__":
    main()
