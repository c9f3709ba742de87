#!/usr/bin/env python3
"""Runs the commands that the pages show and compares what they print with what the pages say.

    python3 examples/check_pages.py [PAGE..]    in the root folder, with threefield on the path

A command stands behind "$ " in a block of the kind `console`, its further lines behind "> ", and the lines below it are
what it prints on both outputs.
Where no line is shown, it only has to succeed. A file that a page shows by `cat` and that is not there yet is one that
its reader writes, so it is written. The kit's own commands, which take long, are left out, and those of node, which has tests
of its own. What docs/border.md says of each polynomial problem is compared with what the program does, and each source file
that a page names has to be there.
"""
import glob
import os
import re
import subprocess
import sys
import tempfile

PAGES = ["README.md", "docs/usage.md", "docs/answers.md", "docs/evaluating.md", "docs/plan.md", "docs/bounds.md", "docs/pictures.md", "docs/random.md",
         "examples/README.md", "examples/certificates/README.md", "examples/lecture/README.md", "examples/rules/README.md"]
# The problems of a row of docs/border.md, and what its last column says of them.
BORDER = re.compile(r"^\| (`.*?) \| .* \| (`solve`|`plan`|`bound`, met|`bound`|no) \|$", re.M)
# The NP-hard problems of a row, what is said of them, and by whom.
HARD = re.compile(r"^\| (`[^|]*) \|([^|]*)\| ([A-Z][^|]*) \|$", re.M)
# A source file that a page names, and in the first cell of a row the others of its folder.
SOURCE = r"`((?:(?:tf|test)_\w+/(?:src|specs|proofs|must-fail)|bench|examples|web)/[\w./*-]+)`"
BESIDE = re.compile(rf"^\| {SOURCE}((?:, `\w+`)+)", re.M)
LEFT_OUT = re.compile(r"^(export |bash \.ci/run|node |.*\brt (try|run|ci)\b)")


def commands(page):
    """The commands of a page, each with the lines that are shown below it."""
    with open(page, encoding="utf-8") as file:
        text = file.read()
    for block in re.findall(r"^```console\n(.*?)^```", text, re.M | re.S):
        for part in re.split(r"^\$ ", block, flags=re.M)[1:]:
            command, _, shown = part.partition("\n")
            while shown.startswith("> "):
                line, _, shown = shown.partition("\n")
                command += "\n" + line[2:]
            yield command, shown


def wrong(command, shown, folder):
    """Runs a command, with a folder in place of /tmp, and tells what is wrong with it, if something is."""
    command, shown = (text.replace("/tmp/", folder + os.sep) for text in (command, shown))
    listed = re.fullmatch(r"cat (\S+)", command)
    if listed and listed[1].startswith(folder) and not os.path.exists(listed[1]):
        with open(listed[1], "w", encoding="utf-8") as file:
            file.write(shown)
    ran = subprocess.run(["bash", "-c", command], stdout=subprocess.PIPE, stderr=subprocess.STDOUT, text=True)
    if shown and ran.stdout != shown:
        return f"prints\n{ran.stdout}in place of\n{shown}"
    if not shown and ran.returncode:
        return f"ends with status {ran.returncode} and prints\n{ran.stdout}"
    return None


def has_method(command, problem):
    """Whether a command knows a problem, which it says before it reads the instance."""
    ran = subprocess.run(["threefield", command, "-p", problem, os.devnull], capture_output=True, text=True)
    return ran.stderr.strip() != "threefield: refused: NoSolver"


def at_border(special=True):
    """The polynomial problems of docs/border.md, each with `solve`, `plan`, `bound` or `no`; not those of special instances unless asked."""
    with open("docs/border.md", encoding="utf-8") as file:
        for names, here in BORDER.findall(file.read()):
            for name in re.findall(r"`(.*?)`", names) if special or ", if " not in names else ():
                yield name.replace("\\|", "|"), here.split(",")[0].strip("`")


def misplaced():
    """What docs/border.md says otherwise than the program."""
    listed = subprocess.run(["threefield", "problems"], capture_output=True, text=True, check=True).stdout.splitlines()[1:]
    placed = list(at_border())
    yield from {line.split()[0] for line in listed} ^ {problem for problem, here in placed if here == "solve"}
    for problem, here in placed:
        known = [command for command in ("solve", "bound") if has_method(command, problem)]
        if known[:1] == ["bound"] and any('"threefield plan" gives an optimal' in line for line in told(problem)):
            known = ["plan"]
        if known[:1] != [here] and (known or here != "no"):
            yield problem


def mislisted():
    """The rows of `problems --border` that docs/border.md contradicts."""
    with open("docs/border.md", encoding="utf-8") as file:
        hard = {name for names, _, _ in HARD.findall(file.read().replace("\\|", "!")) for name in re.findall(r"`(.*?)`", names)}
    commands = {"solve": "solve", "plan": "plan", "bound": "plan", "no": "-"}
    placed = {problem: commands[here] for problem, here in at_border(special=False)}
    listed = subprocess.run(["threefield", "problems", "--border"], capture_output=True, text=True, check=True).stdout.splitlines()[1:]
    for problem, complexity, command in (line.split()[:3] for line in listed):
        if complexity == "polynomial" and (problem.replace("|", "!") in hard or placed.get(problem, command) != command):
            yield problem
        if complexity == "NP-hard" and problem in placed:
            yield problem


def named(page):
    """The source files that a page names, without the ending where it gives none."""
    with open(page, encoding="utf-8") as file:
        text = file.read()
    yield from re.findall(SOURCE, text)
    for first, others in BESIDE.findall(text):
        yield from (f"{os.path.dirname(first)}/{other}" for other in re.findall(r"`(\w+)`", others))


def missing():
    """The source files that the pages name and that are not there."""
    for page in sorted([*glob.glob("*.md"), *glob.glob("*/*.md"), *glob.glob("examples/*/*.md")]):
        for name in named(page):
            if not any(glob.glob(folder + name + ending) for folder in ("", "crates/") for ending in ("", ".antt", ".rt")):
                yield f"{page}: {name}: there is no such file"


def told(problem):
    """What `solve --explain` says of a problem's complexity: the lines that say it is polynomial, NP-hard or trivial."""
    ran = subprocess.run(["threefield", "solve", "-p", problem, "--explain", os.devnull], capture_output=True, text=True)
    return [line for line in ran.stderr.splitlines() if re.match(r"It is (polynomial|NP-hard)|On (one machine|two machines)", line)]


def mistold():
    """The rows of docs/border.md that the program's advice contradicts, or knows nothing of."""
    with open("docs/border.md", encoding="utf-8") as file:
        text = file.read().replace("\\|", "!")
    for names, where, by in HARD.findall(text):
        for name in re.findall(r"`(.*?)`", names):
            lines = told(name.replace("!", "|"))
            if name[0] in "1PFOJ" and "block" not in name and not any(
                    line.startswith("It is NP-hard (") and by.replace("ö", "oe").startswith(line[15:-2]) for line in lines):
                yield name.replace("!", "|")
    # Where a problem is polynomial if its instances are of a kind, it may be NP-hard in general.
    for names, _ in BORDER.findall(text.replace("!", "\\|")):
        for name in () if ", if " in names else re.findall(r"`(.*?)`", names):
            problem = name.replace("\\|", "|")
            if any("NP-hard" in line for line in told(problem)):
                yield problem


def main(pages, folder):
    ran = failed = 0
    for page in pages:
        for command, shown in commands(page):
            if LEFT_OUT.match(command):
                continue
            ran += 1
            fault = wrong(command, shown, folder)
            if fault:
                failed += 1
                print(f"{page}: $ {command}\n{fault}")
    ran += 1
    wrong_rows = [*misplaced(), *mislisted(), *mistold()]
    if wrong_rows:
        failed += 1
        print(f"docs/border.md: {', '.join(wrong_rows)}: the program does otherwise")
    ran += 1
    lost = list(missing())
    if lost:
        failed += 1
        print("\n".join(lost))
    print(f"{ran - failed} passed, {failed} failed")
    return failed > 0


if __name__ == "__main__":
    with tempfile.TemporaryDirectory() as place:
        sys.exit(main(sys.argv[1:] or PAGES, place))
