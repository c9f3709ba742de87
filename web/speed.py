#!/usr/bin/env python3
"""Measures in chromium how long it takes from the paste of a table to the drawn plan, on pages that were just opened.

    web/speed.py [PAGE.html] [--runs=7] [--profile=FOLDER]

A table has names, times, due dates and weights: plain numbers, or minutes and days of a calendar. What a person does in
between, a click on "Replace all jobs", follows the paste at once. --profile keeps a profile of each case for DevTools.
"""
import json
import random
import statistics
import sys
from pathlib import Path

from browser import Browser

HERE = Path(__file__).resolve().parent
HEAD = "Name\tTime{unit}\tDue\tWeight\n"
# Pastes, takes the rows, and waits until the browser has drawn the frame with the plan; milliseconds of each part.
PASTE = """new Promise((resolve) => {
    const clipboardData = new DataTransfer();
    clipboardData.setData("text/plain", window.cells);
    const begun = performance.now();
    const event = new ClipboardEvent("paste", { clipboardData, bubbles: true, cancelable: true });
    document.body.dispatchEvent(event);
    const read = performance.now();
    document.getElementById("import-replace").click();
    const taken = performance.now();
    const { mark } = performance;
    performance.mark = (name) => {
        mark.call(performance, name);
        if (name !== "plan shown") return;
        const shown = performance.now();
        requestAnimationFrame(() => setTimeout(() => resolve({ read: read - begun, taken: taken - read,
            planned: shown - taken, drawn: performance.now() - shown, all: performance.now() - begun })));
    };
})"""


def table(rows, is_dated):
    numbers = random.Random(rows)
    lines = []
    for k in range(rows):
        due = numbers.randint(1, 40 * rows)
        day = f"{due // 480 % 28 + 1:02}.{due // 13440 % 12 + 1:02}.{2027 + due // 161280}" if is_dated else due
        lines.append(f"Order {k + 1}\t{numbers.randint(1, 79)}\t{day}\t{numbers.randint(1, 9)}")
    return HEAD.format(unit=" (min)" if is_dated else "") + "\n".join(lines)


def measured(browser, address, cells, rest, profile=None):
    """Milliseconds of a first plan on a fresh page, so many after it was loaded."""
    browser.open(address)
    browser.run(f"void (window.cells = {json.dumps(cells)})")
    browser.run(f"new Promise((resolve) => setTimeout(resolve, {rest}))")
    if profile:
        browser.call("Profiler.enable")
        browser.call("Profiler.start")
    found = browser.run(PASTE)
    if profile:
        profile.write_text(json.dumps(browser.call("Profiler.stop")["profile"]))
    return found


def main(words):
    options = dict(word.removeprefix("--").split("=") for word in words if word.startswith("--"))
    pages = [word for word in words if word.endswith(".html")]
    address = f"file://{Path(pages[0] if pages else HERE / 'threefield.html').resolve()}"
    browser = Browser()
    for rows, is_dated, rest in [(1000, False, 0), (1000, False, 1500), (1000, True, 1500),
                                 (100_000, False, 1500), (100_000, True, 1500)]:
        cells = table(rows, is_dated)
        name = f"{rows}-{'dates' if is_dated else 'numbers'}-{rest}"
        profile = Path(options["profile"], f"{name}.cpuprofile") if "profile" in options else None
        found = [measured(browser, address, cells, rest, profile) for _ in range(int(options.get("runs", 7)))]
        parts = {part: round(statistics.median(each[part] for each in found)) for part in found[0]}
        print(f"{name}: {parts}; all of {sorted(round(each['all']) for each in found)}", flush=True)
    browser.close()


if __name__ == "__main__":
    main(sys.argv[1:])
