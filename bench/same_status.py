#!/usr/bin/env python3
"""Runs commands whose files or limits fail, without --explain and with it, and compares status and standard output.

    python3 bench/same_status.py PROGRAM

Each case is one in which an explanation could change how a command ends: it reads more, keeps more, or opens more.

Some runs wait for the second half of their input while signals come. A read is interrupted only where a signal has a
handler, and the program has none: a library that is loaded before it, built with cc, sets one.

Others have little address space, from the least with which the command ends as it should without --explain. What is kept to
be explained takes each text's length once more, and the program reserves a block when it starts, if it is granted, of which
more or less may be left. With less than all of these a run may end with status 3, nothing printed; it never ends otherwise,
and with as much or more it ends as it should.
"""
import os
import resource
import shutil
import signal
import subprocess
import sys
import tempfile
import time

TABLE = b"table 1\njob 1 p=3 d=4\njob 2 p=2 d=3\n"
BAD = b"table 1\njob 1 p=3.5 d=4\n"
LATENESS = ["-p", "1||Lmax"]
PAGE = 4096
MOST_SPACE = 1 << 28
MARGIN = 16 * PAGE
RESERVED = 12 << 20
OUT_OF_MEMORY = (3, b"")
MEMORY_LINE = b"threefield: want of memory\n"
MEMORY_OBJECT = b'{"version":1,"fault":"want of memory"}\n'
COMMENTS = b"# a comment of 32 bytes in a line\n" * 125_000
HANDLER = b"""
#include <signal.h>
static void ignore(int number) { (void)number; }
__attribute__((constructor)) static void set_handler(void) {
    struct sigaction action = {0};
    action.sa_handler = ignore;
    sigaction(SIGUSR1, &action, 0);
}
"""


def limited(kind, most):
    """What the child calls before it runs, so that it has at most this much of a resource."""
    return lambda: resource.setrlimit(kind, (most, most))


def run(words, before=None, stdin=subprocess.DEVNULL):
    done = subprocess.run(words, stdin=stdin, capture_output=True, preexec_fn=before, timeout=60)
    return done.returncode, done.stdout


def run_disturbed(words, text, signals, library):
    """Sends signals to a command that has half of its standard input and waits for the other half."""
    environment = {**os.environ, "LD_PRELOAD": library} if library else None
    piped = {name: subprocess.PIPE for name in ("stdin", "stdout", "stderr")}
    with subprocess.Popen(words, env=environment, **piped) as child:
        child.stdin.write(text[: len(text) // 2])
        child.stdin.flush()
        time.sleep(0.2)
        for number in signals:
            child.send_signal(number)
            time.sleep(0.05)
        output, _ = child.communicate(text[len(text) // 2 :], timeout=60)
    return child.returncode, output


def closed_input():
    os.close(0)


def with_explain(words):
    return [words[0], "--explain", *words[1:]]


def difference(name, plain, told, wanted):
    """What is wrong where both runs don't end alike, or not with the status that they have to end with."""
    if plain == told and plain[0] == wanted:
        return None
    return f"{name}: status {plain[0]}, with --explain {told[0]}, wanted {wanted}"


def cases(folder, table, bad, answer):
    """The words of each command behind the program's name, what limits it, and the status that it has to end with."""
    return [
        ("a directory, and a notation at fault", ["solve", "-p", "1||sumX", folder], None, 2),
        ("a directory, and a problem without a solver", ["solve", "-p", "1||sumT", folder], None, 2),
        ("a directory as the instance", ["solve", *LATENESS, folder], None, 4),
        ("an instance at fault, and a directory as the answer", ["check", *LATENESS, bad, folder], None, 2),
        ("an instance, and a directory as the answer", ["check", *LATENESS, table, folder], None, 4),
        ("an instance at fault, and standard input closed", ["check", *LATENESS, bad, "-"], closed_input, 2),
        ("an instance, and standard input closed", ["check", *LATENESS, table, "-"], closed_input, 4),
        ("orders from standard input, which is closed", ["evaluate", *LATENESS, "--orders", "-", table], closed_input, 4),
        ("standard input closed, and a file as the answer", ["check", *LATENESS, "-", answer], closed_input, 4),
        ("four files open at most", ["check", *LATENESS, table, answer], limited(resource.RLIMIT_NOFILE, 4), 4),
        ("five files open at most", ["check", *LATENESS, table, answer], limited(resource.RLIMIT_NOFILE, 5), 0),
        ("a stack of 128 KB", ["check", *LATENESS, table, answer], limited(resource.RLIMIT_STACK, 131_072), 0),
        ("a file that is not there", ["solve", *LATENESS, os.path.join(folder, "none")], None, 4),
    ]


def compare_cases(program, folder, paths):
    for name, words, before, wanted in cases(folder, *paths):
        plain = run([program, *words], before)
        told = run([program, *with_explain(words)], before)
        yield difference(name, plain, told, wanted)


def library_in(folder):
    """The library that sets a handler for SIGUSR1, or None where there is no C compiler."""
    if shutil.which("cc") is None:
        return None
    path = os.path.join(folder, "handler.so")
    subprocess.run(["cc", "-shared", "-fPIC", "-x", "c", "-o", path, "-"], input=HANDLER, check=True)
    return path


def compare_disturbed(program, folder, table, answer):
    """An instance or an answer that comes in two halves, with signals in between."""
    harmless = [signal.SIGSTOP, signal.SIGCONT, signal.SIGWINCH, signal.SIGCHLD, signal.SIGURG]
    library = library_in(folder)
    kinds = [("stopped, and continued", harmless, None, 0)]
    if library is None:
        print("not tried, since there is no cc: a read that a signal interrupts")
    else:
        kinds.append(("interrupted by a signal", [signal.SIGUSR1], library, 4))
    with open(answer, "rb") as file:
        solution = file.read()
    for name, signals, loaded, wanted in kinds:
        for words, text in (["solve", *LATENESS, "-"], TABLE), (["check", *LATENESS, table, "-"], solution):
            plain, told = (
                run_disturbed([program, *each], text, signals, loaded)
                for each in (words, with_explain(words))
            )
            yield difference(f"{words[0]}, {name}", plain, told, wanted)


def least_space(words, wanted):
    """The least address space, in bytes, with which a command ends with this status."""
    too_little, enough = 0, MOST_SPACE // PAGE
    while enough - too_little > 1:
        middle = (too_little + enough) // 2
        if run(words, limited(resource.RLIMIT_AS, middle * PAGE))[0] == wanted:
            enough = middle
        else:
            too_little = middle
    return enough * PAGE


def narrow_runs(program, words, wanted):
    """Runs a command in address spaces that rise from the least by which it can end as it should."""
    usual = run([program, *words])
    least = least_space([program, *words], wanted)
    texts = sum(os.path.getsize(word) for word in words if os.path.exists(word))
    enough = least + texts + RESERVED + MARGIN
    for space in range(least, enough + len(COMMENTS), 128 * PAGE):
        before = limited(resource.RLIMIT_AS, space)
        outcomes = [run([program, *each], before) for each in (words, with_explain(words))]
        if space < enough:
            outcomes = [usual if outcome == OUT_OF_MEMORY else outcome for outcome in outcomes]
        yield difference(f"{' '.join(words)}, {space} bytes of space", *outcomes, wanted)


def compare_narrow(program, folder, table, answer):
    """Texts of 4 MB in little address space."""
    long_table, long_bad = (os.path.join(folder, name) for name in ("long", "long_bad"))
    for path, text in (long_table, TABLE + COMMENTS), (long_bad, TABLE + COMMENTS + b"job\n"):
        with open(path, "wb") as file:
            file.write(text)
    for words, wanted in [
        (["solve", *LATENESS, table], 0),
        (["solve", *LATENESS, long_table], 0),
        (["solve", *LATENESS, long_bad], 2),
        (["check", *LATENESS, long_table, answer], 0),
        (["check", *LATENESS, long_table, long_table], 2),
    ]:
        yield from narrow_runs(program, words, wanted)


def compare_early(program):
    """Command lines of too many words, one of which asks for JSON, with a little less space than it takes to understand them."""
    for asked in ["--json"], []:
        words = [program, "solve", *asked, *["word"] * 100]
        least, usual, said = least_space(words, 5), outcome(words), []
        for space in range(least - 32 * PAGE, least, PAGE):
            found = outcome(words, limited(resource.RLIMIT_AS, space))
            said.append(found[2])
            is_right = found[:2] == OUT_OF_MEMORY and found[2] in (MEMORY_LINE, MEMORY_OBJECT if asked else MEMORY_LINE)
            yield None if is_right or found == usual else f"early want of memory, {space} bytes of space: {found}"
        yield None if (MEMORY_OBJECT in said) == bool(asked) else f"early want of memory is wrongly told with {asked}"


def outcome(words, before=None):
    """The status of a command, and what it prints on both outputs."""
    done = subprocess.run(words, stdin=subprocess.DEVNULL, capture_output=True, preexec_fn=before, timeout=60)
    return done.returncode, done.stdout, done.stderr


def main(program):
    with tempfile.TemporaryDirectory() as folder:
        table, bad, answer = paths = [os.path.join(folder, name) for name in ("table", "bad", "answer")]
        for path, text in (table, TABLE), (bad, BAD):
            with open(path, "wb") as file:
                file.write(text)
        with open(answer, "wb") as file:
            file.write(run([program, "solve", *LATENESS, table])[1])
        differences = [
            *compare_cases(program, folder, paths),
            *compare_disturbed(program, folder, table, answer),
            *compare_narrow(program, folder, table, answer),
            *compare_early(program),
        ]
    wrong = [each for each in differences if each]
    print(*wrong, sep="\n")
    print(f"{len(differences) - len(wrong)} passed, {len(wrong)} failed")
    return len(wrong) > 0


if __name__ == "__main__":
    sys.exit(main(os.path.abspath(sys.argv[1])))
