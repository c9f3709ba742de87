#!/usr/bin/env python3
"""Runs the program on damaged command lines and texts, and looks for an outcome that no document allows.

    python3 bench/fuzz.py PROGRAM SEED COUNT [PROCESSES]

The seeds are the sessions of crates/test_sessions/data: their command lines and texts. Each case damages one of them, by bytes,
words, lines and numbers, and is run as it is, with --explain where its command has that, and with --json where it has that.
COUNT is the number of runs; four processes share them unless PROCESSES says otherwise. A case is made from SEED and its number
alone, so it can be run again. What is looked for:

- a status that is not among the documented ones of its command, a signal, or no end within LIMIT seconds;
- a byte on standard output with status 2, 3 or 5;
- a control byte other than a line feed, or a byte that is not ASCII, on standard error;
- another status or another standard output with --explain than without it;
- another status with --json than without it, or something else than one JSON object on standard output, where the command line
  takes --json and asks for the same with it;
- the same with --csv: another status, or no table of a heading and rows of as many whole numbers;
- a value, an optimum or a gap in the JSON object that is not the one of the text, or rows of the table that are not its pieces or jobs;
- a control byte other than a line feed, or a byte that is not ASCII, on standard output;
- a picture that is no well-formed XML, and LaTeX whose braces do not match.
"""
import collections
import json
import multiprocessing
import os
import random
import re
import subprocess
import sys
import tempfile
import xml.etree.ElementTree as ElementTree

import sessions

LIMIT = 60
NUMBER = re.compile("-?[0-9]+")

STATUSES = {
    "solve": {0, 2, 3, 4, 5},
    "plan": {0, 2, 3, 4, 5, 6},
    "bound": {0, 2, 3, 4, 5},
    "trace": {0, 2, 3, 4, 5},
    "check": {0, 1, 2, 3, 4, 5},
    "evaluate": {0, 1, 2, 3, 4, 5, 6},
    "gantt": {0, 2, 3, 4, 5},
    "random": {0, 2, 3, 4, 5},
    "problems": {0, 2, 3, 4, 5},
}
OTHERWISE = {0, 5}  # help, the version, and what is no command
EXPLAINS = ("solve", "plan", "bound", "trace", "check", "evaluate", "gantt")
FORMATTED = ("solve", "plan", "bound", "check", "evaluate", "problems")
TABLED = ("solve", "plan", "evaluate")
# With these the command line has a format of its own, or none.
FORMATS = (b"--json", b"--csv", b"--orders", b"--measures", b"--answer", b"--help", b"-h")

NUMBERS = [b"0", b"1", b"-1", b"2", b"007", b"1000", b"1001", b"100000", b"100001", b"200001", b"2147483648", b"4294967295",
           b"4294967296", b"4000000000000000000", b"4000000000000000001", b"-4000000000000000000", b"9223372036854775807",
           b"9223372036854775808", b"-9223372036854775808", b"18446744073709551616", b"9" * 400, b"+5", b"1.5", b"1,5", b"1e3"]
WORDS = [b"job", b"prec", b"machines", b"piece", b"cert", b"end", b"value", b"problem", b"jobs", b"answer", b"table", b"instance",
         b"p=", b"p=3", b"p=3,4", b"w=2", b"d=-5", b"r=9", b"h=0,5:10", b"h=5,3:4", b"1-3", b"3-1", b"last", b"window", b"ranks",
         b"split", b"pairs", b"load", b"#", b"+++", b"=", b"-", b"", b"\xc3\xa4", b"\xff\xfe", b"\x1b[31m", b"\x00", b"\r", b"\t"]
PROBLEMS = [b"1||sumC", b"1||sumwC", b"1||Lmax", b"1|prec|Lmax", b"1|rj,prmp|Lmax", b"1||hmax", b"1|prec,prmp|hmax", b"P||sumC",
            b"P2|prmp|Cmax", b"F2||Cmax", b"O2||Cmax", b"F3||Cmax", b"J||Cmax", b"1||sumU", b"", b"1|\x1b[2J|Lmax", b"1||Lm\xc3\xa4x"]
OPTIONS = [[b"--explain"], [b"--certificate"], [b"--svg"], [b"-c", b"7"], [b"--columns", b"0"], [b"--machines", b"2"],
           [b"--format", b"wt", b"--jobs", b"3"], [b"--format", b"flow", b"--name", b"demo"], [b"--pair", b"0,1"], [b"--answer", b"1"],
           [b"--json"], [b"--csv"], [b"--order", b"2 1 3"], [b"--orders", b"-"], [b"--orders", b"-", b"--grade"], [b"--schedule", b"-"], [b"--tex"], [b"--steps", b"3"],
           [b"--index", b"2"], [b"--help"], [b"--"], [b"--n\xc3\xb6"], [b"--a\x1b[31m"], [b"-"], [b"n\xc3\xb6\nthreefield: accepted"]]

Case = collections.namedtuple("Case", "words texts")
Outcome = collections.namedtuple("Outcome", "status written said")


def seeds():
    """The command lines of all sessions, each with the texts that there are when it is run."""
    return [
        Case([word.encode() for word in command.words()], {name: text.encode() for name, text in command.texts.items()})
        for path in sessions.files()
        for command in sessions.commands(path)
    ]


def damaged(rng, text):
    """A text with at most three damages."""
    for _ in range(rng.choice([0, 0, 1, 1, 1, 3])):
        how, at = rng.randrange(8), rng.randrange(len(text) + 1)
        if how == 0:
            text = text[:at] + bytes([rng.randrange(256)]) + text[at + rng.randrange(2):]
        elif how == 1:
            text = text[:at] + text[at + rng.choice([1, 2, 10, 10**9]):]
        elif how == 2:
            lines = text.split(b"\n")
            one, other = rng.randrange(len(lines)), rng.randrange(len(lines))
            lines[one], lines[other] = lines[other], lines[one]
            text = b"\n".join(lines)
        elif how == 3:
            lines = text.split(b"\n")
            at = rng.randrange(len(lines))
            lines[at:at + 1] = lines[at:at + 1] * rng.choice([0, 2, 2, 30])
            text = b"\n".join(lines)
        elif how == 4:
            text = text.replace(b"\n", b"\r\n") if rng.randrange(2) else text.replace(b" ", b"\t ")
        else:
            words = text.split(b" ")
            at = rng.randrange(len(words))
            tail = b"\n" + words[at].split(b"\n", 1)[1] if b"\n" in words[at] else b""
            words[at] = rng.choice(NUMBERS if how < 7 else WORDS) + tail
            text = b" ".join(words)
    return text


def case_of(seeds_of, seed, number):
    """The case of that number: words and texts of a seed, damaged."""
    rng = random.Random(f"{seed}:{number}")
    words, texts = rng.choice(seeds_of)
    texts = {name: text for name, text in texts.items() if name.encode() in words}
    words = list(words)
    if b"-p" in words and rng.randrange(4) == 0:
        at = words.index(b"-p") + 1
        words[at:at + 1] = [rng.choice(PROBLEMS)]
    if rng.randrange(5) == 0:
        at = rng.randrange(len(words) + 1)
        words[at:at] = rng.choice(OPTIONS)
    if rng.randrange(12) == 0 and words:
        words[rng.randrange(len(words))] = rng.choice(NUMBERS + WORDS + PROBLEMS)
    if rng.randrange(25) == 0 and words:
        del words[rng.randrange(len(words))]
    words = [word.replace(b"\0", b"") for word in words]
    return Case(words, {name: damaged(rng, text) for name, text in texts.items()})


def run(program, words, folder, given):
    try:
        done = subprocess.run([program, *words], cwd=folder, input=given, capture_output=True, timeout=LIMIT)
    except subprocess.TimeoutExpired:
        return Outcome(None, b"", b"")
    return Outcome(done.returncode, done.stdout, done.stderr)


def is_object(text):
    """Whether a text is one JSON object and a line feed."""
    try:
        return text.endswith(b"\n") and isinstance(json.loads(text.decode("ascii")), dict)
    except ValueError:
        return False


def is_table(text):
    """Whether a text is a heading, and rows of as many whole numbers."""
    lines = text.decode("latin-1").split("\n")
    width = lines[0].count(",")
    cells = [line.split(",") for line in lines[1:-1]]
    return lines[-1] == "" and all(len(row) == width + 1 and all(map(NUMBER.fullmatch, row)) for row in cells)


def lines_of(text, key):
    """The words behind a key, of each line of a text that begins with it."""
    return [words[1:] for words in map(str.split, text.decode("latin-1").split("\n")) if words[:1] == [key]]


def differing(text, described):
    """The numbers of a text that a JSON object gives otherwise."""
    stated = {key: found[0] for key in ("value", "best", "gap") if (found := lines_of(text, key))}
    stated |= {"gap": words[1:] for words in lines_of(text, "##") if words[:1] == ["gap"]}
    members = json.loads(described)
    return [key for key, words in stated.items() if key in members and str(members[key]) != " ".join(words)]


def has_its_rows(text, table):
    """Whether a table has the pieces of a text, or else the lines of its jobs, in their order."""
    rows = [row.split(",") for row in table.decode("latin-1").split("\n")[1:-1]]
    pieces = lines_of(text, "piece") or [words for words in lines_of(text, "job") if len(words) == 4]
    return rows == pieces


def has_raw_byte(text, has_labels=False):
    """Whether a byte is no printable ASCII; those of labels, which are written as they were given, may be UTF-8."""
    return any(byte != 10 and not 32 <= byte < 127 and not (has_labels and byte >= 128) for byte in text)


def has_labels(words):
    """Whether a command line asks for the table of orders, which has their labels."""
    return b"--csv" in words and any(word.startswith(b"--orders") for word in words)


def faults_of(name, outcome, allowed, are_labels, are_lines):
    """What is wrong with one run by itself."""
    if outcome.status is None or outcome.status not in allowed:
        yield f"{name}: status {outcome.status}"
    if outcome.status in (2, 3, 5) and outcome.written and not are_lines:
        yield f"{name}: status {outcome.status} and {len(outcome.written)} bytes on standard output"
    if has_raw_byte(outcome.said) or has_raw_byte(outcome.written, are_labels):
        yield f"{name}: a raw byte: {outcome.said!r} {outcome.written!r}"


def faults_of_text(written):
    """What is wrong with a picture, or with what is for LaTeX."""
    if written.startswith(b"<"):
        try:
            ElementTree.fromstring(written)
        except ElementTree.ParseError as error:
            yield f"no well-formed XML: {error}"
    if b"\\begin{" in written and written.count(b"{") != written.count(b"}"):
        yield f"braces do not match: {written!r}"


def faults(words, outcomes):
    """What no document allows: `outcomes` are those of the command line as it is, and with options more."""
    allowed = STATUSES.get(words[0].decode("latin-1"), OTHERWISE) if words else OTHERWISE
    plain = outcomes[""]
    for name, outcome in outcomes.items():
        yield from faults_of(name or "as it is", outcome, allowed, has_labels(words), is_series(words))
        if outcome.status != plain.status:
            yield f"status {plain.status} without {name} and {outcome.status} with it"
    if outcomes.get("--explain", plain).written != plain.written:
        yield "another output with --explain"
    for name, is_right in (("--json", is_object), ("--csv", is_table)):
        written = outcomes[name].written if name in outcomes else b""
        if written and not is_right(written):
            yield f"no right output with {name}: {written!r}"
    for name, is_right, agrees in (("--json", is_object, lambda one, other: not differing(one, other)),
                                   ("--csv", is_table, has_its_rows)):
        written = outcomes[name].written if name in outcomes else b""
        if plain.written and written and is_right(written) and not agrees(plain.written, written):
            yield f"{name} says otherwise: {written!r} for {plain.written!r}"
    if plain.status == 0:
        yield from faults_of_text(plain.written)


def has_format(words):
    """Whether a command line says how its output is written, or that no command is run, or more than one."""
    own = any(word.startswith(option) for word in words for option in FORMATS)
    return own or is_series(words) or is_counted(words)


def is_series(words):
    """Whether a command line names several instances of a file."""
    values = [word for option, word in zip(words, words[1:]) if option == b"--index"]
    values += [word.partition(b"=")[2] for word in words if word.startswith(b"--index=")]
    return any(value == b"all" or b"-" in value[1:] for value in values)


def is_counted(words):
    """Whether an evaluation may be one for a shop of as many machines as its file has, which --json leaves as it is."""
    return words[0] == b"evaluate" and any(word in (b"F||Cmax", b"O||Cmax") for word in words)


def added_options(words):
    """The options with which a command line is run once more."""
    command = words[0].decode("latin-1") if words else ""
    if command in EXPLAINS and not any(word.startswith(b"--explain") for word in words):
        yield "--explain"
    if not words or has_format(words):
        return
    if command in FORMATTED:
        yield "--json"
    if command in TABLED:
        yield "--csv"


def outcomes_of(program, case, folder):
    """The outcome of a case as it is, and with each option more."""
    given = case.texts.get("-", b"")
    outcomes = {"": run(program, case.words, folder, given)}
    for option in added_options(case.words):
        words = [case.words[0], option.encode(), *case.words[1:]]
        outcomes[option] = run(program, words, folder, given)
    return outcomes


def runs_of(part):
    """Runs the cases of a part; how many runs there were, how often each status, and the faults."""
    program, seed, numbers = part
    known, made, statuses, found = seeds(), 0, collections.Counter(), []
    with tempfile.TemporaryDirectory() as folder:
        for number in numbers:
            case = case_of(known, seed, number)
            for name, text in case.texts.items():
                with open(os.path.join(folder, name), "wb") as file:
                    file.write(text)
            outcomes = outcomes_of(program, case, folder)
            made += len(outcomes)
            statuses[outcomes[""].status] += 1
            found += [(number, fault, case) for fault in faults(case.words, outcomes)]
            for name in case.texts:
                os.remove(os.path.join(folder, name))
    return made, statuses, found


def main(program, seed, count, processes="4"):
    program, count = os.path.abspath(program), int(count)
    cases = count * 10 // 26  # 26 runs for ten cases, since most have three
    parts = [(program, seed, range(start, min(start + 250, cases))) for start in range(0, cases, 250)]
    made, statuses, failed = 0, collections.Counter(), 0
    with multiprocessing.Pool(int(processes)) as pool:
        for runs, seen, found in pool.imap_unordered(runs_of, parts):
            made += runs
            statuses += seen
            failed += len({number for number, _, _ in found})
            for number, fault, case in found[:20]:
                print(f"case {number} of seed {seed}: {fault}\n  words {case.words}\n  texts {case.texts}", flush=True)
    shares = ", ".join(f"{status}: {seen}" for status, seen in sorted(statuses.items(), key=str))
    print(f"{made} runs over {cases} cases of seed {seed}; statuses {shares}")
    print(f"{cases - failed} passed, {failed} failed")
    return failed > 0


if __name__ == "__main__":
    sys.exit(main(*sys.argv[1:]))
