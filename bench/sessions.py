"""Reads the sessions of crates/test_sessions/data: texts, commands over them, and what the commands print.

docs/tested.md says how a session is written. Run by itself, it prints all commands as JSON, for a test in another language.
"""
import glob
import json
import os
import sys

HERE = os.path.dirname(os.path.abspath(__file__))
FOLDER = os.path.join(HERE, "..", "crates", "test_sessions", "data")


class Command:
    """A command line of a session, the texts that there are when it is run, and what it is to print."""

    def __init__(self, number, line, texts):
        self.number, self.line = number, line
        self.texts = {name: "".join(lines) for name, lines in texts.items()}
        self.output, self.errors, self.status = "", "", 0

    def words(self):
        """The words behind the program's name: between blanks, or between double quotes."""
        parts = enumerate(self.line.split('"'))
        return [word for place, part in parts for word in ([part] if place % 2 else part.split())]

    def show(self, mark, rest):
        if mark == ">":
            self.output += rest + "\n"
        elif mark == "!":
            self.errors += rest + "\n"
        else:
            self.status = int(rest)


def text_line(line):
    """A line of a text; a backslash at its end stands for no line feed."""
    return line[:-1] if line.endswith("\\") else line + "\n"


def commands(path):
    """The commands of a file of sessions."""
    texts, name, command = {}, None, None
    with open(path, encoding="utf-8", newline="") as file:
        lines = file.read().split("\n")
    for number, line in enumerate(lines, 1):
        mark, rest = line[:1], line[2:]
        if mark in ("", "#"):
            continue
        if mark in (">", "!", "="):
            command.show(mark, rest)
            continue
        if command:
            yield command
            command = None
        if mark == "$":
            command = Command(number, rest.removeprefix("threefield").strip(" "), texts)
        elif line.startswith("file "):
            name, _, other = line[5:].partition(" from ")
            texts[name] = list(texts[other]) if other else []
        elif mark == "<":
            texts[name].append(text_line(rest))
        else:
            place, _, text = line.partition("< ")
            texts[name][int(place) - 1] = text_line(text)
    if command:
        yield command


def files():
    return sorted(glob.glob(os.path.join(FOLDER, "*.txt")))


def members(path):
    """The commands of a file as objects for JSON."""
    place = os.path.basename(path)
    return [{"place": f"{place}:{one.number}", "words": one.words(), **vars(one)} for one in commands(path)]


if __name__ == "__main__":
    json.dump([one for path in files() for one in members(path)], sys.stdout)
