#!/usr/bin/env python3
"""Packs the page's sources and the solver's module into one file, web/threefield.html.

    web/build.py MODULE.wasm             writes web/threefield.html
    web/build.py                         writes it from the sources and the module that it holds already
    web/build.py --check MODULE.wasm     says whether that file is what the sources and the module give
    web/build.py --check                 the same for the sources alone, with the module that the file holds

A module with 64-bit memory, as module.py builds it, is lowered to 32-bit memory first (lower.py, which needs binaryen).
Each module of the sources becomes a function that returns what it exports, in an order in which each comes after those
that it imports; solver.js, which node reads too, sets `module.exports` instead. A policy in the page's head allows this
one script, this one style and a worker, no network, and no script or markup made of a text.
"""
import base64
import hashlib
import lzma
import re
import sys
from pathlib import Path

from lower import has_64_bit_memory, lowered, version
from spaces import script_without_spaces, style_without_spaces

HERE = Path(__file__).resolve().parent
SOURCES = HERE / "src"
PAGE = HERE / "threefield.html"
MOST_BYTES = 650_000
# The letters of the packed module, as unpacking.js reads them: ASCII from # to ~ without <, which could end it in the page.
LETTERS = "".join(map(chr, [*range(35, 60), *range(61, 127)]))
# As unpacking.js decodes it.
PACKING = [{"id": lzma.FILTER_LZMA1, "lc": 3, "lp": 0, "pb": 0, "dict_size": 1 << 24, "nice_len": 273, "depth": 2000}]

IMPORT = re.compile(r'^import (\{[^}]*\}|\* as \w+) from "\./(\w+)\.js";\n', re.MULTILINE)
EXPORT = re.compile(r"^export (?=(?:async )?(?:function\*?|const|class) (\w+))", re.MULTILINE)
INDENT = re.compile(r"^[ \n]+", re.MULTILINE)
MODULE_IN_PAGE = re.compile(r'(<script type="text/plain" id="module-bytes">)([^<]*)(</script>)')


def read(folder, name):
    return (folder / name).read_text(encoding="utf-8")


def modules_of(folder, entry):
    """The names of the modules that `entry` needs, itself last, each after those that it imports."""
    order, under_way = [], []

    def visit(name):
        if name in order:
            return
        if name in under_way:
            sys.exit(f"build.py: {' imports '.join([*under_way, name])}: a cycle")
        under_way.append(name)
        for _, other in IMPORT.findall(read(folder, f"{name}.js")):
            visit(other)
        under_way.pop()
        order.append(name)

    visit(entry)
    return order


def wrapped(folder, name):
    """A module as a function that is called at once and returns the exports."""
    text = read(folder, f"{name}.js")
    imports = []
    for what, other in IMPORT.findall(text):
        target = what.removeprefix("* as ")
        imports.append(f"const {' '.join(target.split())} = ${other};\n")
    body = IMPORT.sub("", text)
    names = EXPORT.findall(body)
    if "module.exports = " in body:
        return f"const ${name} = (() => {{\nconst module = {{}};\n{body}return module.exports;\n}})();\n"
    body = EXPORT.sub("", body)
    if re.search(r"^(import|export)\b", body, re.MULTILINE):
        sys.exit(f"build.py: {name}.js imports or exports in a form that this script does not know")
    returned = f"return {{ {', '.join(names)} }};\n" if names else ""
    return f"const ${name} = (() => {{\n{''.join(imports)}{body}{returned}}})();\n"


def whole_script(folder, entry):
    """The script of `entry` and all that it imports, with its comments and spaces."""
    parts = [wrapped(folder, name) for name in modules_of(folder, entry)]
    return '"use strict";\n(() => {\n' + "\n".join(parts) + "})();\n"


def script(folder, entry):
    """The script of `entry` and all that it imports."""
    text = script_without_spaces(whole_script(folder, entry))
    for mark in ("</script", "<!--"):
        if mark in text:
            sys.exit(f"build.py: {mark} stands in a source of {entry}.js, and would end the script in the page")
    return text


def digest(text):
    return "'sha256-" + base64.b64encode(hashlib.sha256(text.encode()).digest()).decode() + "'"


def policy(main, style):
    return "; ".join([
        "default-src 'none'",
        f"script-src {digest(main)} 'wasm-unsafe-eval'",
        f"style-src {digest(style)}",
        "worker-src blob:",
        "img-src blob:",
        "base-uri 'none'",
        "form-action 'none'",
        "require-trusted-types-for 'script'",
        "trusted-types threefield",
    ])


def packed(module):
    """The module in LZMA as text: how many bytes it has, and two letters for each 13 bits, the lowest first."""
    data = lzma.compress(module, lzma.FORMAT_RAW, filters=PACKING)
    bits, held, letters = 0, 0, []
    for byte in [*data, 0, 0]:
        bits |= byte << held
        held += 8
        if held >= 13:
            letters += [LETTERS[bits % 8192 % 91], LETTERS[bits % 8192 // 91]]
            bits >>= 13
            held -= 13
    return f"{len(module)} {''.join(letters)}"


def unpacked(text):
    count, letters = text.split(" ")
    numbers = [LETTERS.index(letter) for letter in letters]
    bits, held, data = 0, 0, bytearray()
    for low, high in zip(numbers[::2], numbers[1::2]):
        bits |= low + 91 * high << held
        held += 13
        while held >= 8:
            data.append(bits & 255)
            bits >>= 8
            held -= 8
    return lzma.LZMADecompressor(lzma.FORMAT_RAW, filters=PACKING).decompress(bytes(data), int(count))


def page(folder, module_text):
    """The whole page, with the packed module as it is given."""
    main, style = script(folder, "main"), style_without_spaces(read(folder, "style.css"))
    text = INDENT.sub("", read(folder, "index.html"))
    for mark, value in (
        ("/*POLICY*/", policy(main, style)),
        ("/*STYLE*/", style),
        ("/*MODULE*/", module_text),
        ("/*WORKER*/", script(folder, "worker")),
        ("/*SCRIPT*/", main),
    ):
        if text.count(mark) != 1:
            sys.exit(f"build.py: {mark} has to stand once in index.html")
        text = text.replace(mark, value)
    return text


def module_in(text):
    """The packed module that a page holds."""
    found = MODULE_IN_PAGE.search(text)
    if not found:
        sys.exit(f"build.py: {PAGE.name} holds no module")
    return found.group(2)


def check(module, is_lowered):
    """Whether the page in the repository is what the sources and the module give.

    Versions of Python may pack differently, so the module is compared unpacked, and all the rest byte for byte.
    """
    there = PAGE.read_text(encoding="utf-8")
    kept = module_in(there)
    inside = unpacked(kept)
    if has_64_bit_memory(inside):
        sys.exit(f"build.py: the module of {PAGE.name} has 64-bit memory, which not every browser has")
    if module is not None and inside != module:
        by = f"; binaryen {version()} lowers the given one" if is_lowered else ""
        sys.exit(f"build.py: {PAGE.name} holds another module{by}")
    if page(SOURCES, kept) != there:
        sys.exit(f"build.py: {PAGE.name} is not what the sources give")
    which = "the sources and the module" if module is not None else "the sources; its module was not compared"
    print(f"{PAGE.name} is what {which} give; sha256 of the module: {hashlib.sha256(inside).hexdigest()}")


def main(words):
    checks = words[:1] == ["--check"]
    files = words[1:] if checks else words
    if len(files) > 1 or words[:1] == ["--help"]:
        sys.exit(__doc__)
    given = Path(files[0]).read_bytes() if files else None
    module = lowered(given) if files else None
    if checks:
        check(module, module != given)
        return
    text = page(SOURCES, packed(module) if files else module_in(PAGE.read_text(encoding="utf-8")))
    size = len(text.encode())
    if size > MOST_BYTES:
        sys.exit(f"build.py: the page has {size} bytes, more than {MOST_BYTES}")
    PAGE.write_text(text, encoding="utf-8")
    by = f", lowered from 64-bit memory by binaryen {version()}" if module != given else ""
    which = f"its module {len(module)} bytes unpacked{by}" if files else "with the module that it held"
    print(f"{PAGE.name}: {size} bytes, {which}")


if __name__ == "__main__":
    main(sys.argv[1:])
