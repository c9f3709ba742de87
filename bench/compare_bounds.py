#!/usr/bin/env python3
"""Compares examples/verify_bound.py with the program on thousands of bounds, good and damaged.

    python3 bench/compare_bounds.py PROGRAM SEED [JOBS]

First verify_bound.py judges the bounds of the sessions over job tables, whose outcome is worked by hand there. Then each problem
that has bounds gets a random job table of JOBS jobs (6 if it is not given). The bound that `bound` prints has to have its value, and
of damaged ones and of certificates of every kind `evaluate --bound` and verify_bound.py have to say the same behind `offered`.
"""
import collections
import os
import random
import re
import sys
import tempfile

HERE = os.path.dirname(os.path.abspath(__file__))
sys.path.insert(0, os.path.join(HERE, "..", "examples"))
import sessions  # noqa: E402
import verify_bound  # noqa: E402
from plans import Player, cases  # noqa: E402

OFFERED = re.compile(r"^offered (.*)$", re.M)
CERTIFICATE = re.compile(r"^value (.*)\n(.*)\n(?:arcs .*\n)?", re.M)
OTHERS = 5  # how many certificates of one's own for each problem


def in_sessions():
    """Each bound over a job table in a session: its place, what is shown, and what verify_bound.py says."""
    for path in sessions.files():
        for command in sessions.commands(path):
            words, place = command.words(), f"{os.path.basename(path)}:{command.number}"
            kind, named, rest = words[:1], dict(zip(words[1::2], words[2::2])), words[-1:]
            offered = OFFERED.search(command.output)
            if kind == ["evaluate"] and offered and set(named) <= {"-p", "--bound", "-m", *words[-2:]} and "--bound" in named:
                texts, shown = [command.texts[name].encode() for name in (words[-2], named["--bound"])], offered[1]
            elif kind == ["bound"] and command.output.startswith("bound 1") and set(named) <= {"-p", "-m", "--steps", *rest}:
                texts, shown = [command.texts.get(rest[0], "").encode(), command.output.encode()], CERTIFICATE.search(command.output)[1]
            else:
                continue
            machines = int(named["-m"]) if "-m" in named else None
            yield place, shown, verify_bound.judge(named["-p"].encode(), *texts, machines)[0]


def kinds_of(rng, problem, named):
    """The kinds for a problem, and now and then all."""
    asked = verify_bound.notation(problem.encode())
    task = verify_bound.Record(env=asked.env, goal=asked.goal, conditions=asked.conditions)
    return [kind for kind in named if kind in verify_bound.kinds_for(task)] if rng.random() < 0.9 else named


def certificate(rng, problem, jobs, arcs):
    """A certificate of any kind, right or wrong."""
    some = [str(rng.randint(1, jobs + (rng.random() < 0.1))) for _ in range(rng.randint(0, jobs))]
    if rng.random() < 0.8:
        some = list(dict.fromkeys(some))
    numbers = [str(rng.randint(0, 3)) for _ in range(jobs + (rng.random() < 0.1))]
    kind = rng.choice(kinds_of(rng, problem, list(verify_bound.KINDS)))
    few = str(rng.randint(0, 3))
    words = {"machine": [few, *some], "crowd": [few, *some], "job": [str(rng.randint(1, jobs + 1))], "alone": [],
             "multipliers": [few, str(rng.randint(0, 4)), *numbers], "prices": [few, *numbers, *numbers],
             "prices_on": [few, str(rng.randint(0, 4)), *numbers, *numbers],
             "pair": [few, str(rng.randint(1, 3)), rng.choice(("first", "second")), str(rng.randint(0, 9)), *some],
             "parts": [few, str(rng.randint(0, 12)), str(rng.randint(-4, 20)), *some]}.get(kind, some)
    more = "arcs " + " ".join(str(rng.randint(0, 2)) for _ in range(arcs)) + "\n" if arcs and rng.random() < 0.5 else ""
    return " ".join([kind, *words]) + "\n" + (more if kind == "multipliers" else "")


def sorted_jobs(rng, kinds, table):
    """A line of some jobs in the order of one of these kinds, and now and then in another one."""
    fields = {j: dict(word.split("=") for word in words[2:]) for j, words in enumerate(
        (line.split() for line in table.splitlines() if line.startswith("job ")), 1)}
    some = rng.sample(sorted(fields), rng.randint(1, len(fields)))
    kind = rng.choice(kinds)
    some.sort(key={"kept": lambda j: int(fields[j]["d"]), "shortest": lambda j: int(fields[j]["r"]),
                   "ranks": lambda j: -int(fields[j]["p"])}[kind])
    if rng.random() < 0.2:
        some[0], some[-1] = some[-1], some[0]
    return " ".join([kind, *map(str, some)]) + "\n"


def offers(rng, problem, bound, table):
    """The bound, and others of the same task with other values and certificates."""
    yield bound
    jobs, arcs = table.count("\njob "), table.count("\nprec ")
    for _ in range(OTHERS):
        value = CERTIFICATE.search(bound)[1] if rng.random() < 0.5 else str(rng.randint(0, 60))
        kinds = kinds_of(rng, problem, ["kept", "shortest", "ranks"]) if problem[0] in "1P" else []
        line = sorted_jobs(rng, kinds, table) if kinds and rng.random() < 0.7 else certificate(rng, problem, jobs, arcs)
        yield CERTIFICATE.sub(lambda _: f"value {value}\n{line}", bound)


def judged(player, case):
    """What `evaluate --bound` says of the offered bound, or that it is refused."""
    words = ["evaluate", "--steps", "1", *case.options, "--bound", player.path("bound.txt"), player.path("table.txt"), player.path("answer.txt")]
    done = player.run(*words)
    found = OFFERED.search(done.written)
    return found[1] if found else f"refused ({done.status})"


def main(program, seed="1", jobs="6"):
    seen, differ, rng = collections.Counter(), 0, random.Random(seed)
    for place, shown, given in in_sessions():
        seen["in sessions"] += 1
        if shown != given:
            differ += 1
            print(f"{place}: verify_bound.py says {given}, and the session shows {shown}")
    with tempfile.TemporaryDirectory() as folder:
        player = Player(os.path.abspath(program), folder)
        for case in cases(seed, int(jobs), "1PFOJ"):
            if not case.text.startswith("table"):
                continue
            table = player.write("table.txt", case.text)
            player.write("answer.txt", player.run("plan", "--steps", "1", *case.options, table).written)
            named = dict(zip(case.options[::2], case.options[1::2]))
            machines = int(named["-m"]) if "-m" in named else None
            bound = player.run("bound", "--steps", "20", *case.options, table).written
            for text in offers(rng, named["-p"], bound, case.text):
                player.write("bound.txt", text)
                line, status = verify_bound.judge(named["-p"].encode(), case.text.encode(), text.encode(), machines)
                given, wanted = "refused (2)" if status == 2 else line, judged(player, case)
                seen["value" if status == 0 else given.split(" ")[0]] += 1
                if given != wanted:
                    differ += 1
                    print(f"{' '.join(case.options)}: verify_bound.py says {line!r}, the program {wanted!r}\n{case.text}{text}")
    print(", ".join(f"{reason}: {times}" for reason, times in sorted(seen.items())))
    print(f"{seen.total() - differ} passed, {differ} failed")
    return differ > 0


if __name__ == "__main__":
    sys.exit(main(*sys.argv[1:]))
