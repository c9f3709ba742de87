#!/usr/bin/env python3
"""Compares examples/verify.py with the program on thousands of answers, good and damaged.

    python3 bench/compare_verify.py PROGRAM SEED COUNT

First verify.py judges the sessions of `check` and `solve` over job tables, whose outcome is worked by hand there: each misfit, each
fault of a certificate, each refusal; what `solve` prints has to be accepted. Then, for each problem that is solved, it makes small
job tables, has the program solve them in both versions of the answer text, damages most of the answers (and now and then the
table), and has `PROGRAM check` and verify.py judge them: the line on standard output and the status have to be the same. COUNT is
the number of answers that are judged so.
"""
import collections
import os
import random
import re
import subprocess
import sys
import tempfile

HERE = os.path.dirname(os.path.abspath(__file__))
sys.path.insert(0, os.path.join(HERE, "..", "examples"))
import sessions  # noqa: E402
import verify  # noqa: E402

PROBLEMS = [name.replace("prmp,rj", "rj,prmp") for name in sorted(verify.SOLVED)]
OTHERS = ["1||sumX", "1||sumU", "F3||Cmax", "P|prmp|sumC", "1|rj|Lmax", "1 | pmtn , r_j | L_max", "Pm|pmtn|C_max"]
NUMBERS = ["0", "1", "-1", "2", "3", "7", "007", "100001", "1001", str(4 * 10**18), str(4 * 10**18 + 1), str(-2**63), str(2**63), "x", "1-2",
           "9" * 5000, "0" * 5000 + "3"]
# Where a table is refused, it is before this.
OTHER_ANSWER = "answer 2\nproblem 1||Lmax\njobs 1\nmachines 1\nvalue 0\ncert last 1\nend\n"
WORDS = ["piece", "cert", "end", "value", "problem", "last", "window", "ranks", "pairs", "load", "split", "first", "second", "machine",
         "job", "jobs", "machines", "answer", "1-3", "3-1", "1-100000", "#", "1||Lmax", "O2||Cmax"]


def table(rng, problem):
    """A job table that has what a problem needs, and often more."""
    n, shop = rng.choice([1, 2, 3, 4, 5, 8]), problem[0] in "FO"
    lines = ["table 1"] + ["machines 2"] * shop * rng.randrange(2)
    for k in range(1, n + 1):
        times = [rng.choice([0, 1, 2, 3, 7, 10**9]) for _ in range(1 + shop)]
        if not shop:
            times = [max(1, times[0])]
        fields = ["p=" + ",".join(map(str, times)), f"w={rng.randrange(4)}", f"d={rng.randrange(-5, 12)}", f"r={rng.randrange(9)}",
                  f"h={rng.randrange(-3, 1)},{rng.randrange(3)}:{rng.randrange(1, 4)},{rng.randrange(4, 9)}:{rng.randrange(4, 9)}"]
        lines.append(f"job {k} " + " ".join(fields))
    for _ in range(rng.randrange(4) if n > 1 else 0):
        first, second = sorted(rng.sample(range(1, n + 1), 2))
        lines.append(f"prec {first} {second}")
    return "\n".join(lines) + "\n"


def damaged(rng, text):
    """A text in which a number, a word, a line or a byte is another."""
    lines = [line.split(" ") for line in text.split("\n")]
    at = rng.randrange(len(lines))
    how, place = rng.randrange(8), rng.randrange(len(lines[at]))
    word = lines[at][place]
    if how < 3 and word.lstrip("-").isdigit():
        lines[at][place] = str(int(word) + rng.choice([-2, -1, 1, 2]))
    elif how == 3:
        lines[at][place] = rng.choice(NUMBERS)
    elif how == 4:
        lines[at][place] = rng.choice(WORDS)
    elif how == 5:
        lines[at:at + 1] = [lines[at]] * rng.choice([0, 2])
    elif how == 6:
        other = rng.randrange(len(lines))
        lines[at], lines[other] = lines[other], lines[at]
    else:
        lines[at].insert(place, rng.choice(NUMBERS + WORDS))
    return "\n".join(" ".join(line) for line in lines)


def moved(rng, text):
    """A text in which pieces are moved, cut, exchanged or laid on another machine, and the value with them."""
    lines = text.split("\n")
    pieces = [k for k, line in enumerate(lines) if re.fullmatch(r"piece( -?\d+){4}", line)]
    for k in rng.sample(pieces, min(len(pieces), rng.choice([1, 1, 2, 3]))):
        job, machine, start, stop = map(int, lines[k].split()[1:])
        shift = rng.choice([0, 1, 2, 5, -1])
        how = rng.randrange(4)
        if how == 0 and stop - start > 1:
            lines[k] = f"piece {job} {machine} {start} {start + 1}\npiece {job} {machine} {start + 1 + abs(shift)} {stop + abs(shift)}"
        elif how == 1:
            lines[k] = f"piece {job} {rng.randrange(1, 4)} {start} {stop}"
        else:
            lines[k] = f"piece {job} {machine} {start + shift} {stop + shift}"
    return "\n".join(lines)


def recertified(rng, text):
    """A text with another certificate."""
    jobs = [str(rng.randrange(1, 7)) for _ in range(rng.randrange(6))]
    if rng.randrange(2):
        jobs = sorted(set(jobs), reverse=rng.randrange(2) == 0)
    kind = rng.choice(["pairs", "load", "machine 1", f"machine {rng.randrange(1, 4)}", f"job {rng.randrange(1, 6)}", "last", "window", "ranks",
                       f"split first {rng.choice([0, 1, 2, 3, 7, -1])}", f"split second {rng.choice([0, 1, 2, 3, 7, -1])}"])
    words = [kind] + (jobs if kind.split()[0] in ("last", "window", "ranks", "split") else [])
    return re.sub("(?m)^cert .*$", "cert " + " ".join(words), text)


def priced(text, problem, jobs, machines):
    """A text that claims what its pieces cost, where they fit."""
    try:
        task = verify.task_of(verify.notation(problem.encode()), machines, *verify.table(jobs.encode("latin-1")))
        cost = verify.cost(task, verify.answer_of(text.encode("latin-1")).pieces)
    except (verify.Refused, verify.Rejected):
        return text
    return re.sub("(?m)^value .*$", f"value {cost}", text)


def judged(program, folder, problem, machines, texts):
    """What the program's check answers: its line and status."""
    for name, text in zip(("table", "answer"), texts):
        with open(os.path.join(folder, name), "w", encoding="latin-1", newline="") as file:
            file.write(text)
    options = ["-m", str(machines)] if machines else []
    done = subprocess.run([program, "check", "-p", problem, *options, "table", "answer"], cwd=folder, capture_output=True, text=True)
    return done.stdout.rstrip("\n"), done.returncode


def solved(program, folder, problem, machines, text, version):
    options = ["-m", str(machines)] if machines else []
    done = subprocess.run([program, "solve", "-p", problem, *options, "--answer", version, "-"], cwd=folder, input=text,
                          capture_output=True, text=True)
    return done.stdout


def asked_in(words):
    """The problem, the number of machines and the files of a command line; nothing where it has options of another form."""
    named, places = {}, []
    rest = iter(words[1:])
    for word in rest:
        if word in ("-p", "--problem", "-m", "--machines", "--answer"):
            named[word.lstrip("-")[0]] = next(rest)
        elif word.startswith("-") and word != "-" and not word.startswith("--explain"):
            return None
        else:
            places += [word] if not word.startswith("--explain") else []
    if "p" not in named or not named.get("m", "1").isdigit():
        return None
    return named["p"], int(named["m"]) if "m" in named else None, places


def texts_in(command, places):
    """The table and the answer that a session judges or prints, and the outcome; nothing where it has none."""
    if any(name not in command.texts for name in places) or command.status > 2:
        return None
    texts = [command.texts[name].encode() for name in places]
    kind = command.words()[0]
    if kind == "check" and len(texts) == 2:
        return texts, (command.output.rstrip("\n"), command.status)
    # A cycle of arcs is the solver's own refusal: an answer is judged all the same.
    if kind == "solve" and len(texts) == 1 and "refused: Cycle" not in command.errors:
        return [*texts, (command.output or OTHER_ANSWER).encode()], ("", 2) if command.status else ("accepted", 0)
    return None


def in_sessions():
    """Each session that verify.py can judge: its outcome, its place, and what verify.py says."""
    for path in sessions.files():
        for command in sessions.commands(path):
            words = command.words()
            asked = asked_in(words) if words[:1] in (["check"], ["solve"]) else None
            judged_by = texts_in(command, asked[2]) if asked else None
            if judged_by:
                texts, shown = judged_by
                line, status = verify.judge(asked[0].encode("utf-8", "surrogateescape"), *texts, asked[1])
                yield shown, f"{os.path.basename(path)}:{command.number}", ("" if status == 2 else line, status)


def main(program, seed, count):
    program, rng = os.path.abspath(program), random.Random(seed)
    seen, differ = collections.Counter(), 0
    for shown, place, given in in_sessions():
        seen["in sessions"] += 1
        if given != shown:
            differ += 1
            print(f"{place}: verify.py says {given}, and the session shows {shown}")
    with tempfile.TemporaryDirectory() as folder:
        while seen.total() - seen["in sessions"] < int(count):
            problem = rng.choice(PROBLEMS)
            machines = rng.choice([1, 2, 3]) if problem[0] == "P" else 2 if problem[0] in "FO" else None
            jobs = table(rng, problem)
            answer = solved(program, folder, problem, machines, jobs, rng.choice("12"))
            if not answer:
                answer = OTHER_ANSWER
            for _ in range(8):
                text, asked, own = answer, problem, jobs
                for _ in range(rng.choice([0, 1, 1, 1, 2])):
                    text = rng.choice([damaged, moved, moved, recertified])(rng, text)
                if rng.randrange(2):
                    text = priced(text, problem, jobs, machines)
                if rng.randrange(12) == 0:
                    own = damaged(rng, jobs)
                if rng.randrange(25) == 0:
                    asked = rng.choice(OTHERS + PROBLEMS)
                line, status = verify.judge(asked.encode(), own.encode("latin-1"), text.encode("latin-1"), machines)
                wanted = judged(program, folder, asked, machines, (own, text))
                given = ("", status) if status == 2 else (line, status)
                seen[given[0].split(" ")[-1 if status == 0 else 1] if status < 2 else "refused"] += 1
                if given != wanted:
                    differ += 1
                    print(f"{asked}, machines {machines}: verify.py says {line!r}, the program {wanted}\n{own}{text}")
    print(", ".join(f"{reason}: {times}" for reason, times in sorted(seen.items())))
    print(f"{seen.total() - differ} passed, {differ} failed")
    return differ > 0


if __name__ == "__main__":
    sys.exit(main(*sys.argv[1:]))
