#!/usr/bin/env python3
"""Compares the man page, the completions and web/command_line.mjs with the options that the program's own help lists.

    python3 examples/check_options.py PROGRAM

Prints each option or command that is missing, or that the program does not have, and ends with 1 if there is any.
"""
import os
import re
import subprocess
import sys

TOP = os.path.join(os.path.dirname(os.path.abspath(__file__)), "..")
PLACES = ("docs/threefield.1", "completions/threefield.bash", "completions/_threefield", "completions/threefield.fish",
          "web/command_line.mjs")
LONG = re.compile(r"(?<![\w-])--([a-z]+)")


def options_of(program, *words):
    """The long options that the help of a command lists."""
    text = subprocess.run([program, *words, "--help"], capture_output=True, text=True, check=True).stdout
    return {match.group(1) for line in text.splitlines() if line.lstrip().startswith("-") for match in LONG.finditer(line[:34])}


def commands_of(program):
    text = subprocess.run([program, "help"], capture_output=True, text=True, check=True).stdout
    return set(re.findall(r"^  ([a-z]+) ", text.split("Commands:")[1].split("\n\n")[0], re.MULTILINE))


def read(path):
    with open(os.path.join(TOP, path), encoding="utf-8") as file:
        return file.read()


def named_in(path):
    """The long options that a page or a script of completions names."""
    text = read(path).replace("\\-", "-")
    if path.endswith(".fish"):
        return set(re.findall(r"^complete .* -l ([a-z]+)", text, re.MULTILINE))
    return set(LONG.findall(text))


def main(program):
    commands = commands_of(program)
    wanted = options_of(program).union(*(options_of(program, name) for name in commands - {"help"}))
    compared = wrong = 0
    for path in PLACES:
        text, named = read(path), named_in(path)
        compared += len(wanted | named) + len(commands)
        for what, names in (("missing", wanted - named), ("unknown", named - wanted)):
            for name in sorted(names):
                wrong += 1
                print(f"{path}: {what}: --{name}")
        for name in sorted(commands):
            if not re.search(rf"\b{name}\b", text):
                wrong += 1
                print(f"{path}: missing: the command {name}")
    print(f"{compared - wrong} passed, {wrong} failed")
    return wrong > 0


if __name__ == "__main__":
    sys.exit(main(os.path.abspath(sys.argv[1])))
