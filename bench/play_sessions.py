#!/usr/bin/env python3
"""Plays the sessions of crates/test_sessions/data with a built program, over real files and a real standard input.

    python3 bench/play_sessions.py PROGRAM [FILE[:LINE] ..]

Without a FILE all are played; with a LINE only the command that stands there. `rt ci` plays the same sessions over texts in
memory; here the program's own main opens files and ends the process. The steps of a search are left out of the
comparison, since only a terminal shows them. PROGRAM may be web/threefield.mjs too, which lacks some of the options.
"""
import os
import re
import subprocess
import sys
import tempfile

import sessions

STEPS = re.compile(r"\r(step|instance) \d+ of \d+|\r\x1b\[K")


def run(program, command):
    """What a command prints on its two outputs, and its exit status."""
    with tempfile.TemporaryDirectory() as folder:
        for name, text in command.texts.items():
            if name != "-":
                with open(os.path.join(folder, name), "wb") as file:
                    file.write(text.encode())
        given = command.texts.get("-", "").encode()
        done = subprocess.run([program, *command.words()], input=given, cwd=folder, capture_output=True)
    return done.stdout.decode(), done.stderr.decode(), done.returncode


def ends_as_shown(program, command, place):
    """Plays a command, and tells what it prints otherwise than is shown."""
    shown = command.output, STEPS.sub("", command.errors), command.status
    given = run(program, command)
    if given == shown:
        return True
    print(f"{place}:{command.number}: $ threefield {command.line}")
    for name, one, other in zip(("output", "errors", "status"), shown, given):
        if one != other:
            print(f"{name} shown {one!r}\n{name} given {other!r}")
    return False


def play(program, path, wanted):
    """How many commands of a file end as shown, and how many do not."""
    place = os.path.basename(path)
    played = [command for command in sessions.commands(path) if wanted in (None, command.number)]
    passed = sum(ends_as_shown(program, command, place) for command in played)
    return passed, len(played) - passed


def main(program, names):
    passed = failed = 0
    for name in names or sessions.files():
        path, _, line = name.partition(":")
        path = path if os.path.exists(path) else os.path.join(sessions.FOLDER, path)
        one, other = play(program, path, int(line) if line else None)
        passed, failed = passed + one, failed + other
    print(f"{passed} passed, {failed} failed")
    return failed > 0 or passed == 0


if __name__ == "__main__":
    sys.exit(main(os.path.abspath(sys.argv[1]), sys.argv[2:]))
