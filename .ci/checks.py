#!/usr/bin/env python3
"""Runs what the proofs do not say: the checks that need the program itself, its pages or a browser.

    python3 .ci/checks.py PROGRAM [LINE]

PROGRAM is the proved program that `rt ci` has built, and LINE the last line of that run, whose counts are added to the
counts of the checks. Each check prints how many cases passed and failed, or counts as one by its exit status. A check
that cannot run here, since a browser or node is missing and cannot be installed, or since the browser does not start, is
skipped and named.
"""
import glob
import os
import re
import shutil
import subprocess
import sys

TOP = os.path.join(os.path.dirname(os.path.abspath(__file__)), "..")
COUNTS = re.compile(r"^(\d+) passed, (\d+) failed", re.MULTILINE)
NODE_COUNTS = re.compile(r"^\S+ pass (\d+)\n\S+ fail (\d+)$", re.MULTILINE)
INSTALL_SECONDS = 900
# The exit status of web/test.py where the browser does not start.
NOT_STARTED = 77


def has(tools, packages):
    """Whether there are the tools that a check needs, which are installed where Debian's packages can be."""
    def are_here():
        return all(map(shutil.which, tools.split()))

    if not are_here() and os.geteuid() == 0 and shutil.which("apt-get"):
        for words in ["update", "-qq"], ["install", "-y", "-qq", "--no-install-recommends", *packages.split()]:
            try:
                subprocess.run(["apt-get", *words], capture_output=True, timeout=INSTALL_SECONDS)
            except subprocess.TimeoutExpired:
                break
    return are_here()


def checks(program):
    """The name of each check, its words, and the tools and Debian's packages that it needs, if any."""
    python = sys.executable
    return [
        ("the commands of the pages", [python, "examples/check_pages.py"], None),
        ("man page and completions", [python, "examples/check_options.py", program], None),
        ("the page and its sources", [python, "web/build.py", "--check"], None),
        ("sessions over files", [python, "bench/play_sessions.py", program], None),
        ("sessions with an output file", [python, "bench/output_files.py", program], None),
        ("JSON of the sessions and its schema", [python, "bench/json_schema.py"], None),
        ("what a terminal shows", [python, "bench/terminal.py", program], None),
        ("files that no session holds", [python, "bench/odd_files.py", program], None),
        ("words without a session", [python, "bench/unseen_words.py"], None),
        ("damaged command lines and texts", [python, "bench/fuzz.py", program, "1", "9000"], None),
        ("plans of every problem that has bounds", [python, "bench/plans.py", program, "11"], None),
        ("how good the plans of a few steps are", [python, "bench/plan_strength.py", program], None),
        ("bounds that are optima", [python, "bench/optima.py", program], None),
        ("all timetables of small tasks", [python, "bench/small_tasks.py", program], None),
        ("an independent checker", [python, "bench/compare_verify.py", program, "1", "1500"], None),
        ("an independent checker of bounds", [python, "bench/compare_bounds.py", program], None),
        ("the same status with --explain", [python, "bench/same_status.py", program], None),
        ("ranges beside their instances", [python, "bench/ranges.py", program, "1", "1500"], None),
        ("LaTeX of the traces", [python, "bench/latex.py", program], ("pdflatex pdftotext", "texlive-latex-base poppler-utils")),
        ("the page's modules", ["node", "--test", *sorted(glob.glob("web/*_test.mjs", root_dir=TOP))], ("node", "nodejs")),
        ("the page and LibreOffice", ["node", "--test", "web/office.mjs"], ("node soffice", "nodejs libreoffice-calc-nogui")),
        ("the page in a browser", [python, "web/test.py", f"--program={program}"], ("chromium", "chromium")),
        ("the page in Firefox", [python, "web/test.py", "--firefox"], ("firefox-esr", "firefox-esr")),
    ]


def counts_of(done):
    """How many cases passed and failed: by the last line that counts them, or else by the status."""
    found = COUNTS.findall(done.stdout) or NODE_COUNTS.findall(done.stdout)
    passed, failed = map(int, found[-1]) if found else (0, 0)
    if done.returncode and not failed:
        failed = 1
    return (passed, failed) if found or failed else (1, 0)


def run(program, name, words, tries):
    """Runs a check with the program on the path, and shows what it prints if something is wrong.

    None where its browser does not start.
    """
    path = os.path.dirname(program) + os.pathsep + os.environ["PATH"]
    environment = {**os.environ, "PATH": path}
    found = None
    for _ in range(tries):
        done = subprocess.run(words, cwd=TOP, env=environment, stdout=subprocess.PIPE, stderr=subprocess.STDOUT, text=True)
        if done.returncode == NOT_STARTED:
            continue
        found = counts_of(done)
        if not found[1]:
            break
        print(done.stdout, end="")
    counted = f"{found[0]} passed, {found[1]} failed" if found else f"skipped, since {done.stdout.strip()}"
    print(f"{name}: {counted}", flush=True)
    return found


def main(program, line=""):
    passed, failed = map(int, COUNTS.findall(line)[-1]) if line else (0, 0)
    skipped = 0
    for name, words, needs in checks(program):
        if needs and not has(*needs):
            print(f"{name}: skipped, since there is no {needs[0]}", flush=True)
            skipped += 1
            continue
        # A browser on a busy machine may answer late, so what fails there is tried once more.
        found = run(program, name, words, tries=2 if "web/test.py" in words else 1)
        if found is None:
            skipped += 1
            continue
        passed, failed = passed + found[0], failed + found[1]
    print(f"{passed} passed, {failed} failed, {skipped} skipped")
    return failed > 0


if __name__ == "__main__":
    sys.exit(main(os.path.abspath(sys.argv[1]), *sys.argv[2:]))
