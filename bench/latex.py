#!/usr/bin/env python3
"""Compiles the LaTeX of `trace --tex` for every solved problem, and of critical paths of shops, and reads the pages.

    python3 bench/latex.py PROGRAM

One document holds a trace of 1, 7 and 60 random jobs of each problem, some due dates negative, and what `evaluate --explain
--tex` says of plans of shops on four machines. It has to compile with no package but longtable, no line may run beyond the margin, and the pages have to show the bars of the problem, minus signs,
and every number of the plain trace. It needs pdflatex and pdftotext.
"""
import collections
import os
import re
import subprocess
import sys
import tempfile

SIZES = (1, 7, 60)
# A line may run so many points beyond the margin before a reader sees it.
MOST_BEYOND = 3
HEAD = r"\documentclass{article}\usepackage{longtable}\pagestyle{empty}\begin{document}"
NUMBER = re.compile(r"(?<![\w.])-?\d+(?:/\d+)?")


def output_of(*words, **how):
    return subprocess.run(words, stdout=subprocess.PIPE, stderr=subprocess.STDOUT, text=True, check=True, **how).stdout


def problems_of(program):
    """The notations of `threefield problems`, which are its first column."""
    return [line.split()[0] for line in output_of(program, "problems").splitlines()[1:] if "|" in line]


def instance_of(program, problem, jobs):
    """A random table, of which every third due date is below 0."""
    words = [program, "random", "-p", problem, "--jobs", str(jobs), "--seed", str(jobs)]
    if problem.startswith("P") and not problem[1].isdigit():
        words += ["-m", "3"]
    return re.sub(r"d=(\d+)(?=\n.*\n.*\n)", r"d=-\1", output_of(*words), count=0 if jobs < 3 else jobs // 3)


def traces_of(program, folder):
    """The name of each trace, its plain text and its LaTeX."""
    table = os.path.join(folder, "table.txt")
    for problem in problems_of(program):
        for jobs in SIZES:
            with open(table, "w", encoding="ascii") as file:
                file.write(instance_of(program, problem, jobs))
            words = [program, "trace", "-p", problem, table]
            yield f"{problem}, {jobs} jobs", output_of(*words), output_of(*words, "--tex")


def paths_of(program, folder):
    """The name of each critical path, its plain text and its LaTeX, which are written on standard error."""
    instance, answer = os.path.join(folder, "shop.txt"), os.path.join(folder, "answer.txt")
    for shop, problem in (("job shop", "J4||Cmax"), ("job shop, late", "J4||Lmax"), ("flow shop", "F4||Cmax")):
        for jobs in (1, 7, 40):
            form = [] if problem.startswith("J") else ["-f", "flow", "--name", "random"]
            drawn = output_of(program, "random", "-p", problem, "--jobs", str(jobs))
            if form:
                form[3] = re.search(r"instance (\S+)", drawn)[1]
            for name, text in ((instance, drawn), (answer, "")):
                with open(name, "w", encoding="ascii") as file:
                    file.write(text)
            # The status is 6 where the plan may be beaten.
            subprocess.run([program, "plan", "-p", problem, "--steps", "100", "-o", answer, *form, instance], capture_output=True)
            words = [program, "evaluate", "-p", problem, "--explain", *form, instance, answer]
            plain, latex = (subprocess.run([*words, *more], capture_output=True, text=True).stderr for more in ([], ["--tex"]))
            yield f"critical path of a {shop}, {jobs} jobs", plain, latex


def compiled(latex, folder):
    """The text of each page that LaTeX makes, and its log."""
    with open(os.path.join(folder, "all.tex"), "w", encoding="ascii") as file:
        file.write(latex)
    # The widths of long tables are known from the second run on, and the same from the third.
    for _ in range(3):
        output_of("pdflatex", "-interaction=nonstopmode", "-halt-on-error", "all.tex", cwd=folder)
    with open(os.path.join(folder, "all.log"), encoding="latin-1") as file:
        log = file.read()
    return output_of("pdftotext", "-layout", "all.pdf", "-", cwd=folder).replace("\f", "\n"), log


def numbers_in(text):
    return collections.Counter(NUMBER.findall(text.replace("−", "-").replace("- ", "-").replace("(-", "( -")))


def faults_of(name, plain, page):
    """What a page lacks of a trace."""
    problem = name.split(",")[0] if name.count(",") == 1 else name.rsplit(",", 1)[0]
    first = next((line for line in page.splitlines() if "Problem" in line), "")
    if first.count("|") != problem.count("|"):
        yield f"{name}: the problem reads {first.strip()!r}"
    if "—" in page or "¡" in page or "¿" in page:
        yield f"{name}: a sign is typeset as another"
    missing = numbers_in(plain) - numbers_in(page)
    if missing:
        yield f"{name}: numbers are missing: {dict(missing)}"
    if re.search(r"(?<![\w)])-\d", page):
        yield f"{name}: a minus sign is a hyphen"


def main(program):
    with tempfile.TemporaryDirectory() as folder:
        traces = [*traces_of(program, folder), *paths_of(program, folder)]
        parts = [f"\\newpage\\noindent TRACE {k}.\n\n{latex}" for k, (_, _, latex) in enumerate(traces)]
        text, log = compiled(HEAD + "\n".join(parts) + "\\end{document}\n", folder)
    pages = re.split(r"TRACE \d+\.", text)[1:]
    faults = [fault for (name, plain, _), page in zip(traces, pages) for fault in faults_of(name, plain, page)]
    wide = [float(points) for points in re.findall(r"Overfull \\hbox \(([\d.]+)pt", log)]
    if wide and max(wide) > MOST_BEYOND:
        faults.append(f"a line runs {max(wide)} points beyond the margin")
    if len(pages) != len(traces):
        faults.append(f"{len(pages)} traces on the pages for {len(traces)}")
    for fault in faults:
        print(fault)
    failed = min(len(faults), len(traces))
    print(f"{len(traces) - failed} passed, {failed} failed")
    return failed > 0


if __name__ == "__main__":
    sys.exit(main(os.path.abspath(sys.argv[1])))
