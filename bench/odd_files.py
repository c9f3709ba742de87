#!/usr/bin/env python3
"""Explains files and arguments that no session can hold: bytes that are no text, and texts at the limits of their length.

    python3 bench/odd_files.py PROGRAM

Each file is made here, and a command over it has to end with the status, the line of the fault and the sentences that stand beside it.
"""
import os
import subprocess
import sys
import tempfile

TABLE = "table 1\njob 1 p=3 d=4\njob 2 p=5 d=9\n"
ANSWER = "answer 2\nproblem 1||Lmax\njobs 2\nmachines 1\nvalue -1\n"
COMMENT = "#" + "x" * 1_022 + "\n"
MOST_BYTES = 1 << 26


def jobs(count, fields):
    return "table 1\n" + "".join(f"job {k} {fields}\n" for k in range(1, count + 1))


def over(text, size):
    """A text of more than so many bytes, by comments before its last line."""
    *lines, last = text.splitlines(keepends=True)
    return "".join(lines) + COMMENT * (size // len(COMMENT) + 1) + last


SOLVE, CHECK = ["solve", "-p", "1||Lmax", "--explain", "jobs.txt"], ["check", "-p", "1||Lmax", "--explain", "jobs.txt", "answer.txt"]


def cases():
    """Each case: its name, the table, the answer, the command, its status, and what has to be said."""
    wide = TABLE.encode("utf-16-le")
    yield "UTF-16 with its mark", b"\xff\xfe" + wide, "", SOLVE, 2, (
        "refused: BadLine 1", "The file begins with a byte order mark, which an editor wrote.",
        "Save the file as UTF-8 without a byte order mark.")
    yield "UTF-16 without a mark", wide, "", SOLVE, 2, (
        "refused: BadLine 1", "The file has zero bytes: it is no plain text, or it is in UTF-16.", "Save it as plain text in UTF-8.")
    yield "2,001 jobs with costs", jobs(2_001, "p=1 h=0"), "", ["solve", "-p", "1||hmax", "--explain", "jobs.txt"], 2, (
        "refused: TooManyJobs", "1||hmax gives each job a cost of its own: at most 2000 jobs.")
    yield "100,001 jobs", jobs(100_001, "p=1 d=1"), "", SOLVE, 2, ("refused: TooManyJobs", "jobs.txt has more than 100000 jobs.")
    yield "200,001 arcs", jobs(2, "p=1 d=1") + "prec 1 2\n" * 200_001, "", ["solve", "-p", "1|prec|Lmax", "--explain", "jobs.txt"], 2, (
        "refused: TooManyArcs", "jobs.txt has more than 200000 precedence constraints.")
    yield "an answer of 25 MiB with a slip", TABLE, over(ANSWER + "piece 1 1 0\n", 25 << 20), CHECK, 2, (
        "refused: answer BadLine", "The answer is not explained: it is longer than 24 MiB, or there was no memory to keep",
        "its text beside the instance.")
    yield "an answer of 64 MiB", TABLE, over(ANSWER + "end\n", MOST_BYTES), CHECK, 2, (
        "refused: answer TooLong", "The answer is longer than 67108864 bytes, the most that a text may have.")
    yield "standard input beside a long file of its name", TABLE, ANSWER + "piece 1 1 0\ncert last 1 2\nend\n", [*CHECK[:-1], "-"], 2, (
        "refused: answer BadLine 6", 'A piece is "piece JOB MACHINE START STOP", four whole numbers, before the line "cert".')
    named = b" instance one\nx\n1 2\n0 3 1 4\n instance tw\xff\nx\n1 2\n0 3 1 4\n"
    yield "a flow shop instance whose name is no text, in a range", named, "", [
        "solve", "-p", "F2||Cmax", "--format", "flow", "--index", "all", "jobs.txt"], 2, (
        "threefield: refused: NoInstance\nthreefield: instance 2\n",)
    yield "an argument that is no text", TABLE, "", ["solve", "-p", "\udcff", "jobs.txt"], 5, ("threefield: an argument is no text",)


def said(program, table, answer, words):
    """The status of a command, and what it prints on standard error; where `-` is named, the answer comes by standard input."""
    with tempfile.TemporaryDirectory() as folder:
        for name, text in ("jobs.txt", table), ("answer.txt", answer):
            with open(os.path.join(folder, name), "wb") as file:
                file.write(text if isinstance(text, bytes) else text.encode())
        with open(os.path.join(folder, "-"), "wb") as file:
            file.truncate(MOST_BYTES)
        given = answer.encode() if "-" in words else b""
        done = subprocess.run([program, *words], cwd=folder, input=given, capture_output=True)
    return done.returncode, done.stderr.decode()


def main(program):
    passed = failed = 0
    for name, table, answer, words, wanted_status, wanted in cases():
        status, errors = said(program, table, answer, words)
        holds = status == wanted_status and all(sentence in errors for sentence in wanted)
        passed, failed = passed + holds, failed + (not holds)
        if not holds:
            print(f"{name}: status {status}: {errors[:600]}")
    print(f"{passed} passed, {failed} failed")
    return failed > 0


if __name__ == "__main__":
    sys.exit(main(os.path.abspath(sys.argv[1])))
