#!/usr/bin/env python3
"""Plays the sessions of crates/test_sessions/data with `--output FILE`, and compares what the file holds with what they show.

    python3 bench/output_files.py PROGRAM [FILE ..]

Without a FILE all are played. What a session shows on standard output has to stand in the file, and nothing on standard output. Where it shows a refusal or
another fault and no output, the file has to be as it was: missing, or with its old bytes. What is said on standard error, and the status, are
those that it shows. Command lines that are wrong, and help, are left out. Then come files that cannot be written, one that is
the input too, and an output that is empty.
"""
import os
import subprocess
import sys
import tempfile

import sessions
from play_sessions import STEPS

OLD = b"what stood there before\n"
NAME = "output of a session.txt"
ANSWERED = (0, 1, 6)
HELP = {"help", "--help", "-h", "--version", "-V"}
OUTPUT = {"-o", "--output"}


def has_output(command):
    """Whether the command line is one of a command that does something, and names no file for its output."""
    words = command.words()
    return command.status != 5 and words and not (HELP | OUTPUT).intersection(words)


def run(program, words, texts, old):
    """What a command writes to the file of its output, prints, and ends with; `old` is what the file holds before."""
    with tempfile.TemporaryDirectory() as folder:
        for name, text in texts.items():
            if name != "-":
                with open(os.path.join(folder, name), "wb") as file:
                    file.write(text.encode())
        path = os.path.join(folder, NAME)
        if old is not None:
            with open(path, "wb") as file:
                file.write(old)
        given = texts.get("-", "").encode()
        done = subprocess.run([program, *words], input=given, cwd=folder, capture_output=True)
        written = None
        if os.path.exists(path):
            with open(path, "rb") as file:
                written = file.read()
    return written, done.stdout, STEPS.sub("", done.stderr.decode()), done.returncode


def session_cases(program, names):
    """Each command of the sessions, whether a file stands there before or not: what is wanted, and what is given."""
    for path in [os.path.join(sessions.FOLDER, name) for name in names] or sessions.files():
        for place, command in enumerate(filter(has_output, sessions.commands(path))):
            first, *others = command.words()
            old = OLD if place % 2 else None
            words = [first, ("-o", "--output")[place // 2 % 2], NAME, *others]
            written = command.output.encode() if command.output or command.status in ANSWERED else old
            wanted = written, b"", STEPS.sub("", command.errors), command.status
            yield f"{os.path.basename(path)}:{command.number}", wanted, run(program, words, command.texts, old)


def other_cases(program):
    """Outputs that cannot be written, that are the input, that are standard output or empty."""
    table = "table 1\njob 1 p=2\n"
    answer = "answer 2\nproblem 1||sumC\njobs 1\nmachines 1\nvalue 2\npiece 1 1 0 2\ncert pairs\nend\n".encode()
    texts = {"table.txt": table, NAME: table, "-": table, "none.txt": ""}
    solve = ["solve", "-p", "1||sumC"]
    fault = "threefield: device fault\n"
    yield "no such folder", (None, b"", fault, 4), run(program, [*solve, "-o", "none/out.txt", "table.txt"],
                                                       {"table.txt": table}, None)
    yield "a folder", (None, b"", fault, 4), run(program, [*solve, "-o", ".", "table.txt"], {"table.txt": table}, None)
    yield "the input", (answer, b"", "", 0), run(program, [*solve, "-o", NAME, NAME], texts, None)
    yield "standard output", (None, answer, "", 0), run(program, [*solve, "-o", "-", "-"], {"-": table}, None)
    orders = ["evaluate", "-p", "1||sumC", "--orders", "none.txt", "-o", NAME, "table.txt"]
    yield "nothing", (b"", b"", "", 0), run(program, orders, {"table.txt": table, "none.txt": ""}, OLD)
    nowhere = [*orders[:-2], "none/out.txt", "table.txt"]
    yield "nothing in no such folder", (None, b"", fault, 4), run(program, nowhere, {"table.txt": table, "none.txt": ""}, None)
    full = [*solve, "-o", "/dev/full", "table.txt"]
    yield "a full device", (None, b"", fault, 4), run(program, full, {"table.txt": table}, None)


def main(program, names):
    passed = failed = 0
    for cases in (session_cases(program, names), other_cases(program)):
        for name, wanted, given in cases:
            passed += wanted == given
            failed += wanted != given
            if wanted != given:
                print(f"{name}: wanted {wanted!r}\n{' ' * len(name)}  given  {given!r}")
    print(f"{passed} passed, {failed} failed")
    return failed > 0


if __name__ == "__main__":
    sys.exit(main(os.path.abspath(sys.argv[1]), sys.argv[2:]))
