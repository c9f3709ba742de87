#!/usr/bin/env python3
"""Builds the proved module for the page: web/module.py OUT.wasm

The gate takes no crate for WebAssembly, so `tf_page` is a static library in crates.txt, which the
gate proves. Here the tree is copied to a temporary folder, the crate's line is changed there, and
`rt lib` proves and builds it. What earlier checks on this machine kept is used.
"""
import pathlib
import shutil
import subprocess
import sys
import tempfile

ROOT = pathlib.Path(__file__).resolve().parent.parent
LINE = "tf_page staticlib:"
WASM = "tf_page wasm64 stack=1048576:"


def crates_needed(text):
    """The crates that tf_page stands on, and itself."""
    rows = {}
    for row in text.splitlines():
        head, _, deps = row.partition(":")
        if head.strip() and not row.startswith("#"):
            rows[head.split()[0]] = deps.split()
    found, left = set(), ["tf_page"]
    while left:
        name = left.pop()
        if name in rows and name not in found:
            found.add(name)
            left += rows[name]
    return found


def main():
    if len(sys.argv) != 2:
        sys.exit(__doc__)
    out = pathlib.Path(sys.argv[1]).resolve()
    text = (ROOT / "crates.txt").read_text()
    if text.count(LINE) != 1:
        sys.exit(f"crates.txt has no line {LINE} ..")
    needed = crates_needed(text)
    rows = [row for row in text.splitlines() if row.split(":")[0].split(" ")[0] in needed]
    with tempfile.TemporaryDirectory(prefix="threefield-") as folder:
        copy = pathlib.Path(folder)
        (copy / "crates.txt").write_text("\n".join(rows).replace(LINE, WASM) + "\n")
        for name in ["HANDLES"]:
            if (ROOT / name).exists():
                shutil.copy(ROOT / name, copy / name)
        for name in sorted(needed):
            shutil.copytree(
                ROOT / "crates" / name,
                copy / "crates" / name,
                ignore=shutil.ignore_patterns("out", "must-fail"),
            )
        crate = copy / "crates" / "tf_page"
        status = subprocess.run(["rt", "lib"], cwd=crate).returncode
        if status != 0:
            sys.exit(status)
        part = out.with_suffix(".part")
        shutil.copy(crate / "out" / "tf_page.wasm", part)
        part.replace(out)
    print(f"{out}: {out.stat().st_size} bytes")


if __name__ == "__main__":
    main()
