#!/usr/bin/env python3
"""Runs the program with its standard error on a terminal and on a pipe, and compares what each shows.

    python3 bench/terminal.py PROGRAM

On a terminal a refusal is explained, unless --explain=never is given, and a long search shows how far it is on a line that it
clears at the end: of a bound the steps, of a plan what the best schedule costs and the lower bound, of several instances whose
turn it is. On a pipe there is the line of the fault alone. Standard output and status are the same. Sessions are played on pipes,
so only this check sees that the program asks whether there is a terminal.
"""
import os
import pty
import re
import subprocess
import sys
import tempfile

FAULT = "threefield: refused: BadLine 1\n"
HEADING = "The heading is missing.\n"
STEP, CLEARED = "\rstep ", "\r\x1b[K"
MAY_BE_BEATEN = "Whether a schedule costs less is not known."
COST = re.compile("\r\x1b\\[Kcost (-?[0-9]+), bound (-?[0-9]+), ([0-9]+) % of the search")


def on_pipe(words, folder):
    done = subprocess.run(words, cwd=folder, stdin=subprocess.DEVNULL, capture_output=True)
    return done.returncode, done.stdout, done.stderr.decode()


def on_terminal(words, folder):
    ours, theirs = pty.openpty()
    process = subprocess.Popen(words, cwd=folder, stdin=subprocess.DEVNULL, stdout=subprocess.PIPE, stderr=theirs)
    os.close(theirs)
    said = b""
    while True:
        try:
            said += os.read(ours, 65_536)
        except OSError:  # the program has closed the terminal
            break
    os.close(ours)
    written = process.stdout.read()
    return process.wait(), written, said.decode().replace("\r\n", "\n")


def value_behind(words, text):
    """The number behind these words at the beginning of a line."""
    return int(re.search(rf"^{words} (-?[0-9]+)$", text, re.MULTILINE)[1])


def shows_costs(said, plan):
    """Whether the shown costs never rise and end with the plan's, beside its bound and up to the whole search."""
    shown = [tuple(map(int, found)) for found in COST.findall(said)]
    costs, bounds, parts = zip(*shown) if shown else ((), (), ())
    falls = all(one >= other for one, other in zip(costs, costs[1:])) and list(parts) == sorted(parts)
    return bool(shown) and falls and costs[-1] == value_behind("value", plan) and set(bounds) == {value_behind("# value", plan)}


def cases(program, folder):
    """Each case by its name, and whether it is as it should be."""
    with open(os.path.join(folder, "bad.txt"), "w", encoding="ascii") as file:
        file.write("job 1 p=3\n")
    with open(os.path.join(folder, "jobs.txt"), "w", encoding="ascii") as file:
        file.write("table 1\n" + "".join(f"job {k} p={3 + 7 * k % 11} w={1 + k % 7} d={37 * k % 61}\n" for k in range(1, 13)))
    refused = [program, "solve", "-p", "1||sumC", "bad.txt"]
    pipe, terminal = on_pipe(refused, folder), on_terminal(refused, folder)
    yield "a refusal on a pipe", pipe == (2, b"", FAULT)
    yield "a refusal on a terminal", terminal[:2] == (2, b"") and terminal[2].startswith(FAULT) and HEADING in terminal[2]
    yield "no explanation on a terminal", on_terminal([*refused, "--explain=never"], folder) == (2, b"", FAULT)
    yield "an explanation on a pipe", on_pipe([*refused, "--explain"], folder) == terminal
    search = [program, "bound", "-p", "1||sumwT", "--steps", "200", "jobs.txt"]
    pipe, terminal = on_pipe(search, folder), on_terminal(search, folder)
    yield "a search on a pipe", pipe[0] == 0 and pipe[2] == ""
    explained = on_pipe([*search, "--explain"], folder)
    yield "an explained search on a pipe", explained[:2] == pipe[:2] and STEP not in explained[2]
    yield "a search on a terminal", terminal[:2] == pipe[:2] and STEP in terminal[2] and terminal[2].endswith(CLEARED)
    with open(os.path.join(folder, "wt.txt"), "w", encoding="ascii") as file:
        file.write("2 3 1\n1 2 4\n5 -2 9\n4 1 3\n2 2 3\n6 7 8\n")
    series = [program, "solve", "-p", "1||sumwC", "-f", "wt", "--jobs", "3", "--index", "1-2", "wt.txt"]
    turns = "".join(f"\rinstance {number} of 2{CLEARED}" for number in (1, 2))
    yield "a series on a pipe", on_pipe(series, folder) == (0, b"1 18\n2 30\n", "")
    yield "a series on a terminal", on_terminal(series, folder) == (0, b"1 18\n2 30\n", turns)
    with open(os.path.join(folder, "shop.txt"), "w", encoding="ascii") as file:
        rows = "".join(f"0 {3 + 7 * k % 11} 1 {1 + 5 * k % 13} 2 {2 + 3 * k % 7}\n" for k in range(1, 16))
        file.write(f"instance shop\n15 3\n{rows}")
    search = [program, "plan", "-p", "F3||sumC", "-f", "flow", "--name", "shop", "--steps", "2000", "shop.txt"]
    pipe, terminal = on_pipe(search, folder), on_terminal(search, folder)
    yield "a plan on a pipe", pipe[0] == 6 and pipe[2] == ""
    is_cleared = f"{CLEARED}{MAY_BE_BEATEN}" in terminal[2]
    yield "a plan on a terminal", terminal[:2] == pipe[:2] and is_cleared and shows_costs(terminal[2], pipe[1].decode())


def main(program):
    passed = failed = 0
    with tempfile.TemporaryDirectory() as folder:
        for name, holds in cases(program, folder):
            passed, failed = passed + holds, failed + (not holds)
            if not holds:
                print(f"{name}: otherwise than it should be")
    print(f"{passed} passed, {failed} failed")
    return failed > 0


if __name__ == "__main__":
    sys.exit(main(os.path.abspath(sys.argv[1])))
