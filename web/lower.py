#!/usr/bin/env python3
"""Lowers the proved module from 64-bit memory to 32-bit memory, which every browser has: web/lower.py IN.wasm OUT.wasm

Needs Debian's `binaryen`. The same version of it gives the same bytes, on one core or on many.
"""
import re
import shutil
import subprocess
import sys
import tempfile
from pathlib import Path

WORDS = ["--enable-memory64", "--enable-bulk-memory", "--enable-sign-ext", "--enable-nontrapping-float-to-int",
         "--enable-mutable-globals", "--enable-multivalue", "--memory64-lowering", "-O2"]
MEMORY_SECTION = 5
HAS_64_BITS = 4


def number_at(module, place):
    """A number in LEB128, and the place behind it."""
    value = shift = 0
    while True:
        byte = module[place]
        value |= (byte & 127) << shift
        place, shift = place + 1, shift + 7
        if byte < 128:
            return value, place


def has_64_bit_memory(module):
    """Whether the first memory of a module has addresses of 64 bits."""
    place = len(b"\0asm\1\0\0\0")
    while place < len(module):
        section = module[place]
        size, place = number_at(module, place + 1)
        if section == MEMORY_SECTION:
            _, first = number_at(module, place)
            return bool(module[first] & HAS_64_BITS)
        place += size
    return False


def version():
    """The version of binaryen, or None where it is missing."""
    if shutil.which("wasm-opt") is None:
        return None
    words = subprocess.run(["wasm-opt", "--version"], capture_output=True, text=True, check=True).stdout
    return re.search(r"version (\S+)", words).group(1)


def lowered(module):
    """A module with 32-bit memory in place of 64-bit memory; one that has no 64-bit memory stays as it is."""
    if not has_64_bit_memory(module):
        return module
    if version() is None:
        sys.exit("lower.py: wasm-opt is missing, which lowers the module to 32-bit memory: apt-get install binaryen")
    with tempfile.TemporaryDirectory(prefix="threefield-") as folder:
        given, found = Path(folder) / "given.wasm", Path(folder) / "found.wasm"
        given.write_bytes(module)
        subprocess.run(["wasm-opt", *WORDS, given, "-o", found], check=True)
        return found.read_bytes()


def main(words):
    if len(words) != 2:
        sys.exit(__doc__)
    module = lowered(Path(words[0]).read_bytes())
    Path(words[1]).write_bytes(module)
    print(f"{words[1]}: {len(module)} bytes, by binaryen {version()}")


if __name__ == "__main__":
    main(sys.argv[1:])
