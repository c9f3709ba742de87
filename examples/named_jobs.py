#!/usr/bin/env python3
"""Jobs with names: from a spreadsheet's CSV to a job table, and from an answer back to names.

    python3 examples/named_jobs.py table examples/orders.csv > /tmp/orders.txt
    python3 examples/named_jobs.py names examples/orders.csv /tmp/answer.txt

The CSV has a heading and the columns name and time, and any of second (the time on a shop's machine 2), weight, due,
release and after: the names of the jobs that have to be over before, with a semicolon between two. Job 1 is the first row.
Times, weights and dates are whole numbers. A name that a spreadsheet would take for a formula gets an apostrophe before it.
"""
import csv
import re
import sys

COLUMNS = {"name", "time"}
NUMBERS = ("time", "second", "weight", "due", "release")
FIELDS = {"weight": "w", "due": "d", "release": "r"}


def rows_of(path):
    with open(path, newline="", encoding="utf-8-sig") as file:
        rows = list(csv.DictReader(file))
    missing = COLUMNS - set(rows[0] if rows else ())
    if missing:
        sys.exit(f"there is no column {' and no column '.join(sorted(missing))} in the heading of {path}, or no row below it")
    for place, row in enumerate(rows, 2):
        for column in NUMBERS:
            if row.get(column) and not re.fullmatch("-?[0-9]+", row[column].strip()):
                sys.exit(f"{path}, row {place}: {column} is no whole number: {row[column]!r}")
    return rows


def numbers_of(rows):
    numbers = {row["name"]: number for number, row in enumerate(rows, 1)}
    if len(numbers) < len(rows):
        sys.exit("two jobs have the same name")
    return numbers


def table(rows):
    """The lines of the job table."""
    numbers = numbers_of(rows)
    yield "table 1"
    for number, row in enumerate(rows, 1):
        times = ",".join(row[column].strip() for column in ("time", "second") if row.get(column))
        fields = [f"{letter}={row[column].strip()}" for column, letter in FIELDS.items() if row.get(column)]
        yield " ".join([f"job {number} p={times}", *fields])
    for row in rows:
        for before in filter(None, (row.get("after") or "").split(";")):
            if before not in numbers:
                sys.exit(f'{row["name"]} is after {before}, which is no job')
            yield f'prec {numbers[before]} {numbers[row["name"]]}'


def cell(name):
    """A name as a cell of a CSV file that no spreadsheet takes for a formula."""
    return "'" + name if name.lstrip()[:1] in tuple("=+-@|%") else name


def names(rows, answer):
    """The pieces of an answer by the names of their jobs, in the order in which they start."""
    with open(answer, encoding="ascii") as file:
        pieces = [tuple(map(int, line.split()[1:])) for line in file if line.startswith("piece ")]
    if any(not 1 <= job <= len(rows) for job, *_ in pieces):
        sys.exit(f"{answer} has a job that is no row of the CSV file")
    yield ["name", "machine", "start", "stop"]
    for job, machine, start, stop in sorted(pieces, key=lambda piece: (piece[2], piece[1])):
        yield [cell(rows[job - 1]["name"]), machine, start, stop]


def main(words):
    if len(words) == 2 and words[0] == "table":
        print("\n".join(table(rows_of(words[1]))))
    elif len(words) == 3 and words[0] == "names":
        csv.writer(sys.stdout, lineterminator="\n").writerows(names(rows_of(words[1]), words[2]))
    else:
        sys.exit(__doc__)


if __name__ == "__main__":
    main(sys.argv[1:])
