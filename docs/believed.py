#!/usr/bin/env python3
"""Counts the lines of the definitions that contracts reach.

    docs/believed.py [-v] [FILE:FUNCTION ..]

FILE is below crates/. Without arguments it is the contracts of run_solve and run_check. From the names in their clauses it
follows each definition of a specs/ folder to those that it names. A line counts where it is code of a definition: no
comment, blank line, import or module line. What the kit's library defines is not counted, nor are Rust's own types. The
second sum leaves out what stands only behind ShowsIt: the certificate, the rule and reading back. With -v it prints each
file with its lines.
"""
import collections
import pathlib
import re
import sys

ROOT = pathlib.Path(__file__).resolve().parent.parent / "crates"
RUNS = ["tf_engine/src/run_solve.rt:run_solve", "tf_engine/src/run_check.rt:run_check"]
IMPORT = re.compile(r"(?:pub )?(?:ghost )?use ([\w.]+?)(?:\.\{(.*)\})?(?: as (\w+))?;?\s*$")
MODIFIERS = re.compile(r"^(?:(?:abbrev|unfoldable|pub) )*")
MUTUAL = re.compile(r"(?:unfoldable )?(?:pub )?mutual\s*$")
NAME = re.compile(r"[A-Za-z_][\w'\-]*(?:\.[A-Za-z_][\w'\-]*)*|>>=")
BIND = "◌>>=◌"


class Module:
    """The definitions of a file of specs/, and what it imports under which name."""

    def __init__(self, text):
        self.names, self.modules, self.definitions, self.owner = {}, {}, {}, {}
        self.read_imports(text.split("\n"))
        name, in_mutual = None, False
        for line in text.split("\n"):
            if MUTUAL.match(line):
                in_mutual = True
                continue
            in_mutual = in_mutual and (line.startswith(" ") or not line.strip())
            name = self.read_line(line[2:] if in_mutual else line, name)

    def read_imports(self, lines):
        for line in lines:
            found = IMPORT.match(line.strip())
            if not found:
                continue
            module, names, renamed = found.groups()
            if names is None:
                self.modules[renamed or module.rpartition(".")[2]] = module
            for item in filter(None, (names or "").split(", ")):
                its, _, here = item.strip().partition(" as ")
                self.names[here or its] = (module, its)

    def read_line(self, line, name):
        """Adds a line to the definition that it is part of, and returns the name of that."""
        bare = line.strip()
        if not bare or bare.startswith("--"):
            return name
        if re.match(r"(pub )?(use|mod|infix\w*) ", line):
            return None
        code = re.sub(r"\s+--\s.*$", "", line) if '"' not in line else line
        if not line.startswith(" "):
            name = self.name_of(MODIFIERS.sub("", line))
            self.definitions.setdefault(name, [])
        if name is not None:
            self.definitions[name].append(code)
            case = re.match(r"\s+(\w+) :", code)
            if case and re.search(rf"\bdata {re.escape(name)}\b", self.definitions[name][0]):
                self.owner[case[1]] = name
        return name

    def name_of(self, head):
        found = re.match(r"(?:record|data) (\S+)", head)
        if found:
            return found[1]
        first = head.split()[0]
        if first in self.definitions or ":" in head.split("=")[0].replace(">>=", ""):
            return first
        return BIND if BIND in self.definitions else first


def modules():
    found = {}
    for path in ROOT.glob("*/specs/**/*.antt"):
        crate, _, rest = path.relative_to(ROOT).with_suffix("").as_posix().partition("/specs/")
        found[f"Rattle.{crate}.specs.{rest.replace('/', '.')}"] = Module(path.read_text(encoding="utf-8"))
    return found


def names_in(text):
    return [BIND if it == ">>=" else it for it in NAME.findall(re.sub(r'"[^"]*"', "", text))]


def resolved(known, module, name, depth=0):
    """The definition that a name of a module means, if it is one of ours."""
    here = known.get(module)
    if here is None or depth > 9:
        return None
    first, _, rest = name.partition(".")
    if rest and first in here.modules:
        return resolved(known, here.modules[first], rest, depth + 1)
    if first in here.definitions:
        return module, first
    if first in here.owner:
        return module, here.owner[first]
    return resolved(known, *here.names[first], depth + 1) if first in here.names else None


def named_by_contract(known, where):
    file, function = where.split(":")
    text = (ROOT / file).read_text(encoding="utf-8")
    uses = Module("\n".join(line for line in text.split("\n") if line.startswith("ghost use")))
    start = re.search(rf"\bfn {function}\b", text).start()
    contract = text[start : text.index("\n{", start)]
    clauses = "\n".join(re.findall(r"(?:ensures|requires)[^{]*\{.*", contract, re.S))
    heads = {it.split(".")[0] for it in names_in(clauses)}
    return {it for name in heads & set(uses.names) if (it := resolved(known, *uses.names[name]))}


def reached(known, seeds, without=()):
    seen, left = set(), list(seeds)
    while left:
        module, name = left.pop()
        if (module, name) in seen or name in without:
            continue
        seen.add((module, name))
        body = "\n".join(known[module].definitions[name])
        left += [it for word in names_in(body) if (it := resolved(known, module, word))]
    return seen


def main():
    words = [it for it in sys.argv[1:] if it != "-v"]
    known = modules()
    seeds = set().union(*(named_by_contract(known, it) for it in words or RUNS))

    def lines(found):
        return sum(len(known[module].definitions[name]) for module, name in found)

    found = reached(known, seeds)
    print(f"{lines(found)} lines, {lines(reached(known, seeds, ['ShowsIt']))} without what shows it")
    if "-v" in sys.argv:
        by_file = collections.Counter()
        for module, name in found:
            by_file[module.removeprefix("Rattle.")] += len(known[module].definitions[name])
        for file, count in by_file.most_common():
            print(f"{count:5} {file}")


if __name__ == "__main__":
    main()
