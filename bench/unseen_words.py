#!/usr/bin/env python3
"""Lists the sentences of explanations and traces that no session shows.

    python3 bench/unseen_words.py

Each text with a blank in it between double quotes in the sources of the crates below is a sentence, or a part of one; what
`{..}` puts into it may be anything. Tests and doc comments are left out. A session shows a sentence if a line that it
prints holds it. The pages' commands, the tests in Rattle and the files of odd_files.py count too. Ends with 1 if there is any
sentence that is not shown.
"""
import glob
import os
import re
import sys

import sessions

TOP = os.path.join(sessions.HERE, "..")
CRATES = ["tf_advice", "tf_explain", "tf_trace"]
PAGES = ["README.md", "docs/*.md", "examples/*.md", "examples/*/README.md", "crates/test_*/src/**/*.rt", "bench/odd_files.py"]
LITERAL = re.compile(r'"((?:[^"\\]|\\.)*)"', re.DOTALL)
COMMENT = re.compile(r"^\s*//.*$|'\"'", re.MULTILINE)
HOLE = re.compile(r"\{[^{}]*\}")

# What examples/check_pages.py compares with docs/border.md.
COMPARED = os.path.join("tf_advice", "src", "border.rt")


def unescaped(text):
    """What a literal of Rust stands for."""
    text = re.sub(r"\\\n\s*", "", text)
    return text.replace('\\"', '"').replace("\\n", "\n").replace("\\\\", "\\").replace("{{", "{").replace("}}", "}")


def sentences(crate):
    """The sentences of a crate, each with its file."""
    for path in sorted(glob.glob(os.path.join(TOP, "crates", crate, "src", "**", "*.rt"), recursive=True)):
        if path.endswith(COMPARED):
            continue
        with open(path, encoding="utf-8") as file:
            text = COMMENT.sub("", file.read())
        for literal in LITERAL.findall(text):
            for line in unescaped(literal).split("\n"):
                if " " in line.strip():
                    yield os.path.relpath(path, TOP), line.strip()


def shown():
    """All that sessions and pages show, as one text."""
    parts = [command.output + command.errors for path in sessions.files() for command in sessions.commands(path)]
    for pattern in PAGES:
        for path in glob.glob(os.path.join(TOP, pattern), recursive=True):
            with open(path, encoding="utf-8") as file:
                parts.append(file.read())
    return on_one_line("\n".join(parts))


def on_one_line(text):
    """A text without its ends of lines, since long sentences are printed on several."""
    return " ".join(text.split())


def is_shown(sentence, text):
    pieces = [re.escape(piece) for piece in HOLE.split(on_one_line(sentence))]
    return re.search(".{0,60}?".join(pieces), text) is not None


def main():
    text, seen, faults = shown(), 0, 0
    for path, sentence in sorted({each for crate in CRATES for each in sentences(crate)}):
        if is_shown(sentence, text):
            seen += 1
            continue
        faults += 1
        print(f"{path}: is not shown: {sentence}")
    print(f"{seen} passed, {faults} failed")
    return faults > 0


if __name__ == "__main__":
    sys.exit(main())
