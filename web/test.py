#!/usr/bin/env python3
"""Uses the page in Debian's chromium as people do, from pasting to printing, and says what did not go as it should.

    web/test.py [PAGE.html] [--large] [--pictures] [--program=THREEFIELD] [--firefox] [NAME ..]

The page is web/threefield.html if none is named. Each way is a function below; with names only those are tried. --large
also solves 100,000 jobs and measures, --pictures takes the pictures that the README shows, and --program compares the
module in the browser with the native program byte for byte over the examples of the nineteen problems. Needs chromium.
--firefox tries the hostile ways, and others that need no more than clicks and texts, in Debian's firefox-esr. The exit
status is 77 where the browser does not start.
"""
import base64
import functools
import http.server
import json
import os
import random
import re
import shutil
import subprocess
import sys
import threading
import time
import xml.etree.ElementTree as ElementTree
import zlib
from pathlib import Path

from browser import Browser
from firefox import Firefox

HERE = Path(__file__).resolve().parent
PICTURES = HERE / "pictures"
NOT_STARTED = 77  # As for a test that is skipped; .ci/checks.py knows it.
SHOP = "\ufeffOrder;Time (h);Due;After;Customer\r\n" + "\r\n".join([
    'Plates;4;04/03/2025;;Meyer', '"Cards; menu ""Anker""";3;05/03/2025;;', ';;;;',
    'Catalogue;14;07/03/2025;Plates;Meyer',
    'Flyers;5;06/03/2025;"Plates, ""Cards; menu """"Anker"""""" ";', '']) + "\r\n"
WAYS = []
IN_FIREFOX = ["empty_page", "spreadsheet", "columns_are_corrected", "cells_without_a_heading", "headings_of_other_languages",
              "examples", "no_release_date", "certificate", "what_if", "problem_in_words", "machines_are_missing", "bound",
              "judging", "bars_on_several_machines", "mistakes_in_rows", "mistakes_of_the_calendar", "problems_are_the_modules",
              "unsaved_work", "no_network"]
# The page is done with each hostile input within so many seconds; where other programs take the time, in one of some tries.
SURVIVAL_SECONDS, SURVIVAL_TRIES = 5, 4


def way(function):
    WAYS.append(function)
    return function


def hostile(function):
    """A way with texts that are made to mislead the page or to slow it down: it is tried in both browsers."""
    IN_FIREFOX.append(function.__name__)
    return way(function)


def survived(page, what, give):
    """Gives the page an input, and demands that it is done with it in time."""
    took = []
    while len(took) < SURVIVAL_TRIES:
        begun = time.monotonic()
        give()
        page.settle(60)
        took.append(time.monotonic() - begun)
        if took[-1] < SURVIVAL_SECONDS:
            return
    raise AssertionError(f"{what}: the page took {', '.join(f'{each:.1f}' for each in took)} s")


class Page:
    """The page in a browser, and what a person does with it."""

    def __init__(self, browser, address):
        self.browser, self.address = browser, address
        self.run, self.wait, self.click = browser.run, browser.wait, browser.click

    def fresh(self):
        self.browser.open(self.address)
        self.wait("document.querySelector('#jobs-table tbody tr')")

    def type(self, selector, text):
        if selector in ("#notation", "#machines", "#machine-names"):
            self.open_problem()
        self.browser.type(selector, text)

    def open_problem(self):
        """Unfolds the problem, as a click on its line does."""
        if not self.run("document.getElementById('problem').open"):
            self.click("#problem > summary")

    def text(self, selector):
        return self.run(f"document.querySelector({json.dumps(selector)})?.innerText.trim() ?? null")

    def texts(self, selector):
        return self.run(f"[...document.querySelectorAll({json.dumps(selector)})].map((each) => each.innerText.trim())")

    def contents(self, selector):
        """Texts with each character that they have: `texts` leaves out what a browser does not show."""
        return self.run(f"[...document.querySelectorAll({json.dumps(selector)})].map((each) => each.textContent)")

    def value(self, selector):
        return self.run(f"document.querySelector({json.dumps(selector)}).value")

    def example(self, number):
        self.browser.choose("#example", str(number))
        self.settle()

    def settle(self, seconds=30):
        """Waits until the plan, or why there is none, is that of now."""
        self.run("new Promise((resolve) => setTimeout(resolve, 20))")
        self.wait("document.getElementById('plan').getAttribute('aria-busy') !== 'true'", seconds)

    def import_cells(self, text):
        self.click("#paste")
        self.wait("document.getElementById('import').open")
        self.type("#import-text", text)
        self.click("#import-replace")
        self.settle()

    def cell(self, row, field):
        return f'#jobs-table tr[data-place="{row - 1}"] input[data-field="{field}"]'

    def put(self, row, field, text):
        self.type(self.cell(row, field), text)
        self.settle()

    def notation(self, text):
        self.type("#notation", text)
        self.settle()

    def plan_value(self):
        return self.text("#headline .value strong")

    def wait_for_value(self, wanted):
        """Waits until a plan of this value is shown: a file is read some time after it was opened."""
        self.wait(f"document.querySelector('#headline .value strong')?.innerText === {json.dumps(wanted)}")

    def found_at(self, row, field):
        """The sentence that stands at a field, or None."""
        return self.run(f"""(() => {{
            const input = document.querySelector({json.dumps(self.cell(row, field))});
            const id = input?.getAttribute("aria-describedby");
            return id ? document.getElementById(id).innerText : null;
        }})()""")

    def open_text(self, name, text):
        path = Path(self.browser.folder.name) / name
        path.write_bytes(text if isinstance(text, bytes) else text.encode())
        self.browser.open_file("#file", path)


def expect(found, wanted, what=""):
    if found != wanted:
        raise AssertionError(f"{what or 'found'}: {found!r}, and not {wanted!r}")


def expect_in(part, text):
    if part not in (text or ""):
        raise AssertionError(f"{part!r} is not in {text!r}")


# ---- from pasting to printing ----

@way
def empty_page(page):
    expect_in("Paste your jobs", page.text("#headline"))


@way
def spreadsheet(page):
    """A file as Excel saves it: byte order mark, semicolons, quotes, an empty row, day/month/year, names in names."""
    page.import_cells(SHOP)
    expect(page.text("#headline .proved"), "proved optimal")
    expect(page.value("#notation"), "1|prec|Lmax")
    expect(page.text("#table-text") or page.run("document.getElementById('table-text').textContent"),
           "table 1\njob 1 p=4 d=8\njob 2 p=3 d=16\njob 3 p=14 d=32\njob 4 p=5 d=24\nprec 1 3\nprec 1 4\nprec 2 4\n")
    expect(page.texts("#list tbody th")[1], 'Cards; menu "Anker"')
    expect_in("the plan has a calendar now and counts in steps of 1 hour", page.text("#notice"))
    expect_in("Not used: Customer.", page.text("#notice"))
    expect_in("4 is 4 h; 04/03/2025 has the day first; from Tue 4 Mar 08:00.", page.text("#headline .assumed summary"))
    expect(page.run(f"document.querySelector({json.dumps(page.cell(1, 'time'))}).nextElementSibling.innerText"), "h")


@way
def columns_are_corrected(page):
    page.click("#paste")
    page.type("#import-text", "Was\tWie lang\tBis\nA\tdrei\t3\nB\tvier\t4\n")
    page.run("""[...document.querySelectorAll("#import-columns select")].forEach((select, place) => {
        select.value = ["name", "", ""][place]; select.dispatchEvent(new Event("change")); })""")
    expect_in("2 rows", page.text("#import-words"))
    expect_in("Which column is the processing time?", page.text("#import-words"))
    page.run("""(() => { const select = document.querySelectorAll("#import-columns select")[2];
        select.value = "time"; select.dispatchEvent(new Event("change")); })()""")
    expect_in("Not used: Wie lang.", page.text("#import-words"))
    page.click("#import-replace")
    page.notation("1||sumC")
    expect(page.plan_value(), "10")


@way
def much_in_the_box(page):
    """100,000 rows that are pasted into the dialog's box are read in about a second, and the box shows their beginning."""
    page.click("#paste")
    page.run("""(() => {
        const lines = Array.from({ length: 100000 }, (_, k) => `Order ${k}\\t${k % 97 + 1}\\t${k * 61 % 5000000}`);
        const clipboardData = new DataTransfer();
        clipboardData.setData("text/plain", "Name\\tTime\\tDue\\n" + lines.join("\\n"));
        const begun = performance.now();
        document.getElementById("import-text").dispatchEvent(
            new ClipboardEvent("paste", { clipboardData, bubbles: true, cancelable: true }));
        window.took = performance.now() - begun;
    })()""")
    print(f"        read in {page.run('Math.round(window.took)')} ms")
    expect_in("100000 rows, cells divided by tabs, with headings.", page.text("#import-words"))
    expect(page.run("document.getElementById('import-text').value.length"), 200002)
    page.click("#import-replace")
    page.settle(60)
    expect_in("100,000", page.text("#jobs-pager"))


@way
def a_column_for_the_times_is_missing(page):
    page.click("#paste")
    page.type("#import-text", "Auftrag;Termin\nA;3\nB;4\nC;5\n")
    expect_in("Which column is the processing time? Without one you have to type the times.", page.text("#import-words"))
    page.click("#import-replace")
    page.settle()
    expect_in("No job has a processing time. Paste again", page.text("#row-notes"))
    expect(page.run("document.querySelectorAll('.found').length"), 0)


@way
def cells_without_a_heading(page):
    page.notation("1||sumC")
    page.import_cells("1\tCutting\t3\n2\tPainting\t2\n")
    expect(page.texts("#list tbody th"), ["Painting", "Cutting"])


@way
def headings_of_other_languages(page):
    for headings in ("Auftrag\tDauer\tTermin\tNach", "Tâche\tDurée\tÉchéance\tAprès",
                     "Tarea\tDuración\tVencimiento\tDespués de", "Attività\tDurata\tScadenza\tDopo"):
        page.fresh()
        page.import_cells(f"{headings}\nA\t3\t5\t\nB\t2\t4\tA\n")
        expect_in("prec 1 2", page.run("document.getElementById('table-text').textContent"))


@way
def examples(page):
    values = ["11 h", "1", "20", "24", "−1", "69", "17"]
    for number, wanted in enumerate(values):
        page.example(number)
        expect(page.plan_value(), wanted, f"example {number}")
        expect(page.text("#headline .proved"), "proved optimal")


@way
def no_release_date(page):
    """A job without a release date can start when the plan does."""
    page.notation("1|rj,prmp|Lmax")
    page.import_cells("Name,Time,Due,Release\nA,3,4,\nB,2,6,1\n")
    expect_in("job 1 p=3 d=4 r=0\n", page.run("document.getElementById('table-text').textContent"))
    expect(page.plan_value(), "−1")


@way
def certificate(page):
    page.example(1)
    page.click("#certificate summary")
    expect(page.texts("#certificate .steps li"), ["total processing time of the set = 10",
           "least cost at time 10 of a job of the set without a successor in it = 1"])
    expect_in("Cutting, Drilling, Painting, Packing", page.text("#certificate"))


@way
def what_if(page):
    """A change solves again at once, and the kept plan says what moved."""
    page.example(1)
    page.click("#changes button")
    page.put(4, "time", "5")
    expect(page.plan_value(), "5")
    expect_in("the value is 4 larger", page.text("#changes"))
    expect_in("Painting 4 later", page.text("#changes"))
    expect_in("4 later", " ".join(page.texts("#list tbody tr")))
    page.click("#undo")
    page.settle()
    expect_in("the value is the same; no job moved", page.text("#changes"))


@way
def promising(page):
    """The earliest date of a new order that makes no other late, why not earlier, and the order with that date."""
    page.example(1)
    page.put(3, "due", "11")
    page.put(2, "time", "1")
    expect(page.plan_value(), "−1")
    page.click("#promise summary")
    page.click("#promise-form button")
    expect(page.text("#promised"), "How long does the new order take?")
    page.type("#promise-name", "<i>Rush</i>")
    page.type("#promise-time", "2")
    page.type("#promise-after", "Cutting")
    page.click("#promise-form button")
    page.wait("/can be promised/.test(document.getElementById('promised').innerText)")
    expect_in("“<i>Rush</i>” can be promised for 7.", page.text("#promised"))
    expect_in("With that date no order is late.", page.text("#promised"))
    expect_in("One earlier is not possible: “<i>Rush</i>”", page.text("#promised"))
    page.click("#promised button")
    page.settle()
    expect([page.value(page.cell(5, field)) for field in ("name", "time", "due", "after")], ["<i>Rush</i>", "2", "7", "Cutting"])
    expect(page.plan_value(), "0")
    page.notation("1||sumC")
    expect(page.run("document.getElementById('promise-form').hidden"), True)


@way
def promising_in_dates(page):
    """A promise at the end of a time step; which late order, moved, brings the rest in time; and without an exact method."""
    page.import_cells("Order;Time (h);Due\nA;6;2030-12-02\nB;4;2030-12-03\n")
    page.run("document.getElementById('calendar').open = true")
    page.type('[data-setting="start"]', "2030-12-02")
    page.settle()
    expect(page.run("document.getElementById('relief').hidden"), True)
    page.click("#promise summary")
    page.type("#promise-time", "6")
    page.click("#promise-form button")
    page.wait("/can be promised/.test(document.getElementById('promised').innerText)")
    expect_in("“New order” can be promised for Tue 3 Dec 12:00.\n", page.text("#promised"))
    expect_in("A step of 1 h earlier is not possible: “New order”, “A” are 12 h of work, which can't begin before "
              "Mon 2 Dec 08:00, so the last of it is done Tue 3 Dec 12:00; but what comes last has to be done by "
              "Tue 3 Dec 11:00.", page.text("#promised"))
    page.click("#promised button")
    page.settle()
    expect([page.value(page.cell(3, field)) for field in ("name", "time", "due")], ["New order", "6", "2030-12-03 12:00"])
    expect(page.plan_value(), "0 h")
    page.put(1, "time", "10")
    page.click("#relief summary")
    page.click("#relief-find")
    page.wait("/later/.test(document.getElementById('relieved').innerText)")
    expect(page.text("#relieved"), "“A” due Wed 4 Dec 12:00, 12 h later: all are in time. Move it")
    page.click("#relieved button")
    page.settle()
    expect([page.value(page.cell(1, "due")), page.plan_value()], ["2030-12-04 12:00", "0 h"])
    expect(page.run("document.getElementById('relief').hidden"), True)
    page.notation("1|prec|Lmax")
    page.put(3, "after", "A")
    page.click("#relief-find")
    page.wait("/given away/.test(document.getElementById('relieved').innerText)")
    expect(page.text("#relieved").split("\n"), ["“New order” due Wed 4 Dec 12:00, 8 h later: all are in time. Move it",
                                                "“A” given away (10 h): all others are in time."])
    page.put(3, "time", "13")
    page.put(2, "time", "20")
    page.put(2, "after", "New order")
    page.click("#relief-find")
    page.wait("/another one is still late/.test(document.getElementById('relieved').innerText)")
    page.notation("P2||Lmax")
    page.type("#promise-time", "2")
    page.click("#promise-form button")
    page.wait("/can be promised/.test(document.getElementById('promised').innerText)")
    # The other machine does the new order of 13 h, due at 13, and then A, due at 23, with no time between.
    expect_in("“New order” can be promised for Wed 4 Dec 15:00: a plan was found for it.", page.text("#promised"))
    expect_in("A step of 1 h earlier is not possible: Then, of any plan, some order is at least 1 h late", page.text("#promised"))


ORDERS = [("Kessel", 4, 3, "", ""), ("Gehäuse links", 6, 4, "hoch", ""), ("Gehäuse rechts", 6, 4, "", ""), ("Rahmen", 8, 5, "", ""),
          ("Deckel", 3, 4, "", "Gehäuse links"), ("Muster", 2, None, "", ""), ("Welle 40", 5, 6, "", ""), ("Flansch", 7, 7, "", ""),
          ("Träger", 10, 8, "", "Rahmen"), ("Platte A", 1, 3, "", ""), ("Platte B", 1.5, 9, "", ""), ("Konsole", 4, 9, "", "")]


def three_lists():
    """Twelve orders for one machine or three, and fifteen for sawing and painting, as they stand in a spreadsheet."""
    due = [f"{day:02}.12.2030" if day else "" for _, _, day, _, _ in ORDERS]
    one = "Auftrag\tDauer (h)\tTermin\tPriorität\tNach\n" + "".join(
        f"{name}\t{str(time).replace('.', ',')}\t{date}\t{k % 3 + 1}\t{after}\n"
        for k, ((name, time, _, _, after), date) in enumerate(zip(ORDERS, due)))
    two = "Order\tSawing (h)\tPainting (h)\tDue\n" + "".join(
        f"Order {k}\t{k * 7 % 5 + 1}\t{k * 5 % 4}\t{k * 11 % 9 + 3:02}.12.2030\n" for k in range(1, 16))
    three = "Auftrag\tStunden\tTermin\tPriorität\n" + "".join(
        f"{name}\t{str(time).replace('.', ',')}\t{date or '12.12.2030'}\t{k % 3 + 1}\n"
        for k, ((name, time, _, _, _), date) in enumerate(zip(ORDERS, due)))
    return one, two, three


@way
def three_plans(page):
    """From opening to paper in four clicks at most, and no question of a planner without a plan that says how good it is."""
    page.run("""window.clicks = 0; window.print = () => { window.hasPrinted = true; };
        document.addEventListener("click", (event) => { if (event.isTrusted) window.clicks++; }, true)""")
    asked = (("1|prec|Lmax", "sumT sumwT sumU sumwU sumC sumwC Cmax"), ("F2||Cmax", "Lmax sumC sumT sumwT sumwC"),
             ("P3||Lmax", "Cmax sumC sumT sumwT sumU sumwU sumwC"))
    for cells, (problem, others) in zip(three_lists(), asked):
        page.run("window.clicks = 0; window.hasPrinted = false")
        page.browser.paste("body", cells)
        page.wait("document.getElementById('import').open")
        page.click("#import-replace")
        page.settle()
        if problem.startswith("P"):
            page.notation(problem)
        page.click("#print")
        page.wait("window.hasPrinted")
        expect(page.value("#notation"), problem)
        expect(page.run("window.clicks <= 4"), True, f"{page.run('window.clicks')} clicks for {problem}")
        for objective in [problem.split("|")[2], *others.split()]:
            page.notation(f"{problem.rsplit('|', 1)[0]}|{objective}")
            expect(page.run("document.querySelectorAll('.chart .bar').length >= 12"), True, objective)
            if not re.search("^proved optimal$|above the optimum$", page.text("#headline .proved") or ""):
                raise AssertionError(f"{problem}, {objective}: {page.text('#headline')}")
        page.fresh()
        page.run("""window.clicks = 0; window.print = () => { window.hasPrinted = true; };
            document.addEventListener("click", (event) => { if (event.isTrusted) window.clicks++; }, true)""")


CLOCK = """Date = class extends Date {
    constructor(...given) { if (given.length > 0) super(...given); else super(2025, 2, 4, 9, 50); } }; undefined"""


@way
def from_now_on(page):
    """What is done is left out, what is begun goes on with the rest; a line says where now is, and what moved is told."""
    page.example(0)
    page.run(CLOCK)
    page.browser.size(1300, 900)
    page.run("new Promise((resolve) => setTimeout(resolve, 200))")
    expect(page.run("document.querySelectorAll('.chart .now').length"), 1)
    page.click("#from-now")
    page.settle()
    expect_in("these are done: Plates, spring catalogue, Business cards Meyer, Menu “Zum Anker”.", page.text("#notice"))
    expect_in("Begun: Letterheads.", page.text("#notice"))
    expect(page.texts("#list tbody th")[0], "Letterheads")
    expect([page.value(page.cell(row, "left")) for row in (3, 10, 2)], ["done", "2 h", ""])
    expect_in("from Tue 4 Mar 10:00", page.text("#headline .assumed summary"))
    expect_in("3 done; 1 begun", page.text("#headline .assumed summary"))
    expect_in("the value is the same; no job moved; done: Plates, spring catalogue, Business cards Meyer, Menu", page.text("#changes"))
    page.put(10, "left", "soon")
    expect_in("“soon” is not a length of time", page.found_at(10, "left"))
    page.put(10, "left", "done")
    expect_in("4 done", page.text("#headline .assumed summary"))
    page.click("#undo")
    page.click("#undo")
    page.wait_for_value("11 h")
    expect(page.value(page.cell(1, "due")), "2025-03-04")


@way
def rows_by_keyboard(page):
    """Typing into the empty line adds rows; Enter and the arrows move."""
    page.notation("1||sumC")
    page.run(f"document.querySelector({json.dumps(page.cell(1, 'name'))}).focus()")
    for name, time_needed in (("A", "3"), ("B", "2")):
        page.browser.call("Input.insertText", text=name)
        page.browser.press("Tab")
        page.browser.call("Input.insertText", text=time_needed)
        page.browser.press("Enter")
        page.run("{ const line = document.activeElement.closest('tr'); line.querySelector('.in-name').focus(); }")
    page.settle()
    expect(page.plan_value(), "7")
    page.browser.press("ArrowUp")
    expect(page.run("document.activeElement.value"), "B")
    page.click('#jobs-table tr[data-place="0"] .remove')
    page.settle()
    expect(page.plan_value(), "2")


@way
def precedence_by_names(page):
    page.import_cells("Name,Time,Due\nA,3,3\nB,2,9\n")
    page.click("#add-precedence")
    page.type("#before-name", "B")
    page.type("#after-name", "A")
    page.click("#precedence-add")
    expect_in("“B” comes before “A” now.", page.text("#precedence-words"))
    page.browser.press("Escape")
    page.settle()
    expect(page.value("#notation"), "1|prec|Lmax")
    expect(page.value(page.cell(1, "after")), "B")
    expect(page.plan_value(), "2")


@way
def problem_in_words(page):
    page.example(5)
    page.browser.choose("#environment", "P")
    page.browser.choose("#objective", "sumC")
    page.settle()
    expect(page.value("#notation"), "P||sumC")
    expect(page.value("#machines"), "2")
    expect(page.plan_value(), "14")
    page.notation("1 | pmtn | C_max")
    expect(page.value("#environment"), "1")
    expect(page.run("document.querySelector('[data-condition=prmp]').checked"), True)
    page.notation("1|prpm|Lmax")
    expect_in("not understood from “prpm|Lmax” on", page.text("#problem-notes"))
    expect(page.run("document.getElementById('machines-label').hidden"), True)
    page.notation("1|prec|Tmax")
    expect_in("The maximum tardiness is the maximum lateness where that is above 0", page.text("#problem-notes"))
    page.notation("P0||sumC")
    expect_in("not understood", page.text("#problem-notes"))


@way
def machines_are_missing(page):
    page.example(2)
    page.type("#machines", "")
    page.settle()
    expect_in("Say how many machines there are", page.text("#problem-notes"))
    page.type("#machines", "1001")
    page.settle()
    expect_in("“1001” is not a number of machines", page.text("#problem-notes"))


@way
def bound(page):
    page.example(1)
    page.notation("1||sumwT")
    expect(page.text("#headline .proved"), "proved optimal")
    expect_in("Found by a search; its bound proves that no schedule of these", page.text("#headline"))
    page.click("#problem-notes button")
    page.settle()
    expect(page.text("#headline .proved"), "proved optimal")
    page.notation("R2||Cmax")
    expect_in("neither an exact method nor a lower bound", page.text("#headline"))
    expect_in("R||Cmax has no method here.", page.text("#problem-notes"))


STUB = """
        solver = await loadSolver(unpack(data.module));
        const { run } = solver, replies = REPLIES;
        solver = { ...solver, can: () => true, run: (request) => {
          const { command, problem, steps } = request;
          const reply = command === "plan" ? replies[`${problem} ${steps}`] ?? replies[problem] : null;
          return reply ? { status: reply[0], output: new TextEncoder().encode(reply[1]), errors: reply[2] } : run(request);
        } };"""
REFUSED = [2, "", "threefield: refused: NoSolver\n"]


def planned(problem, value, pieces, bound=None, status=6):
    """What `plan` prints for a problem of three jobs on a machine: pieces as job, start and stop."""
    lines = [f"answer 2\nproblem {problem}\njobs 3\nmachines 1\nvalue {value}",
             *(f"piece {job} 1 {start} {stop}" for job, start, stop in pieces), "cert load\nend"]
    if bound:
        lines += ["# " + line for line in ("bound 1", f"problem {problem}", "jobs 3", "machines 1", *bound, "end")]
    return [status, "\n".join(lines) + "\n", ""]


def open_stubbed(page, replies):
    """The page with a module whose command `plan` gives these replies, by the problem."""
    text = Path(page.address.removeprefix("file://")).read_text(encoding="utf-8")
    loading = "solver=await loadSolver(unpack(data.module));"
    expect(text.count(loading), 1, "the loading of the module")
    path = Path(page.browser.folder.name) / "stubbed.html"
    path.write_text(text.replace(loading, STUB.replace("REPLIES", json.dumps(replies)).strip()), encoding="utf-8")
    page.browser.open(f"file://{path}")
    page.wait("document.querySelector('#jobs-table tbody tr')")


@way
def plan_without_an_exact_method(page):
    """A good plan, with the gap in the plan's own units; a proof that it is optimal; or no bound at all."""
    order = [(3, 0, 6), (1, 6, 10), (2, 10, 14)]
    open_stubbed(page, {
        "1||sumT": planned("1||sumT", 14, order, ["value 8", "prices 2 0 1 1"]),
        "1||sumwT": planned("1||sumwT", 14, order, ["value 14", "machine 1 1 2 3"], 0),
        "1||sumU": planned("1||sumU", 2, order, ["value 1", "prices 1 0 0 1"]),
        "1||sumwU": planned("1||sumwU", 2, order, ["value 0", "prices 1 0"]),
        "1|prmp|sumT": planned("1|prmp|sumT", 14, order), "1||Cmax": REFUSED,
        "1|rj|Lmax": [3, "", "threefield: want of memory\n"]})
    page.import_cells("Name;Time (h);Due;Weight\n<b>A</b>;2;03.12.2030 10:00;1\nB;2;03.12.2030 11:00;1\nC;3;2030-12-03;1\n")
    page.run("document.getElementById('calendar').open = true")
    page.type('[data-setting="start"]', "2030-12-03")
    page.browser.choose("#step", "30")
    page.notation("1||sumT")
    page.wait_for_value("7 h")
    expect(page.text("#headline .proved"), "at most 3 h above the optimum")
    expect_in("Total tardiness: 7 h", page.text("#headline"))
    expect_in("No schedule of these 3 jobs has less than 4 h. 2 jobs are late.", page.text("#headline"))
    expect(page.run("document.querySelectorAll('.chart .bar').length"), 3)
    expect(page.texts("#list tbody th"), ["C", "<b>A</b>", "B"])
    expect(page.text("#certificate summary"), "Why no schedule has less than 4 h")
    page.run("document.getElementById('certificate').open = true")
    expect_in("prices 2 0 1 1", page.text("#certificate"))
    page.open_problem()
    expect_in("1||sumT is planned by a search", page.text("#problem-notes"))
    page.notation("1||sumwT")
    expect(page.text("#headline .proved"), "proved optimal")
    expect_in("Found by a search; its bound proves that no schedule of these 3 jobs has a smaller value.",
              page.text("#headline"))
    expect(page.run("/no (exact )?method/.test(document.getElementById('problem-notes').innerText)"), False)
    expect_in("Jobs of the certificate: <b>A</b>, B, C.", page.text("#certificate"))
    page.notation("1||sumU")
    expect(page.text("#headline .proved"), "at most 1 above the optimum")
    expect_in("has fewer than 1 late job.", page.text("#headline"))
    page.notation("1||sumwU")
    expect_in("at most 2 above the optimum", page.text("#headline"))
    expect_in("No lower bound above 0 was found.", page.text("#headline"))
    page.notation("1|prmp|sumT")
    expect(page.text("#headline .proved"), None)
    expect_in("How far this plan is from the optimum is not known.", page.text("#headline"))
    page.notation("1||Cmax")
    expect(page.text("#headline .proved"), "proved lower bound")
    expect_in("at least the value 7 h", page.text("#headline"))
    page.notation("1|rj|Lmax")
    expect_in("There is not enough memory", page.text("#headline"))


@way
def searching_longer(page):
    """Longer searches keep the better plan and the better bound of all; moves and the button stop them."""
    order = [(3, 0, 6), (1, 6, 10), (2, 10, 14)]
    open_stubbed(page, {
        "1||sumT": planned("1||sumT", 14, order, ["value 8", "prices 2 0 1 1"]),
        "1||sumT 2000": planned("1||sumT", 15, order, ["value 10", "prices 1 0 1 1"]),
        "1||sumT 5000": planned("1||sumT", 12, order[::-1], ["value 9", "prices 2 0 1 1"]),
        "1||sumT 10000": planned("1||sumT", 12, order, ["value 10", "prices 2 0 1 1"]),
        "1||sumT 20000": planned("1||sumT", 11, order, ["value 11", "machine 1 1 2 3"], 0)})
    page.import_cells("Name;Time;Due\nA;4;5\nB;4;6\nC;6;7\n")
    page.notation("1||sumT")
    expect(page.text("#headline .proved"), "at most 6 above the optimum")
    page.click("#search-longer")
    page.wait("document.getElementById('search-longer').innerText === 'Search longer'")
    expect(page.text("#longer-words"), "Nothing better was found: still at most 2 above the optimum.")
    expect(page.text("#headline .proved"), "at most 2 above the optimum")
    expect_in("Total tardiness: 12", page.text("#headline"))
    expect_in("has less than 10.", page.text("#headline"))
    page.click("#search-longer")
    page.wait("/proved optimal now/.test(document.getElementById('longer-words').innerText)")
    expect(page.text("#headline .proved"), "proved optimal")
    expect(page.run("document.getElementById('search-longer').hidden"), True)
    page.notation("1||sumC")
    expect(page.run("document.getElementById('longer').hidden"), True)


@way
def judging(page):
    page.example(1)
    page.click("#judge summary")
    page.type("#order", "Cutting; Painting; Drilling; Packing")
    page.click("#order-to-answer")
    page.wait("document.querySelector('#judgement img')")
    expect_in("it is not optimal", page.text("#judgement"))
    expect_in("Its value is 5, the optimum is 1, so the gap is 4", page.text("#judgement"))
    page.type("#order", "Painting; Cutting; Drilling; Packing")
    page.click("#order-to-answer")
    page.wait("/starts before/.test(document.getElementById('judgement').innerText)")
    expect_in("Not allowed: “Painting” starts before “Cutting” is completed.", page.text("#judgement"))
    page.type("#order", "1 4 2 3")
    page.click("#order-to-answer")
    page.wait("/it is optimal/.test(document.getElementById('judgement').innerText)")
    page.type("#order", "Painting; Cuting")
    page.click("#order-to-answer")
    expect_in("There is no job called “Cuting”. Is “Cutting” meant?", page.text("#judgement"))
    page.click("#judge-own")
    page.click("#judge-run")
    page.wait("/Accepted/.test(document.getElementById('judgement').innerText)")
    page.type("#judge-text", "answer 2\nproblem 1|prec|Lmax\njobs 4\nmachines 1\npiece 1 1 0 3\n")
    page.click("#judge-run")
    page.wait("/Line 5/.test(document.getElementById('judgement').innerText)")


@way
def judging_by_a_bound(page):
    """Without an exact method a schedule is judged by its lower bound, in the plan's own units."""
    page.import_cells("Name;Time (h);Due;Weight\nA;2;2030-12-03;1\nB;4;2030-12-03;2\nC;3;2030-12-04;1\n")
    page.run("document.getElementById('calendar').open = true")
    page.type('[data-setting="start"]', "2030-12-03")
    page.notation("1||sumT")
    page.click("#judge summary")
    page.type("#order", "C; B; A")
    page.click("#order-to-answer")
    page.wait("document.querySelector('#judgement img')")
    expect_in("it is not known whether it is optimal", page.text("#judgement"))
    expect_in("Its value is 1 h; no schedule has less than 0 h, so it is at most 1 h above the optimum. proved",
              page.text("#judgement"))
    page.type("#order", "A; B; C")
    page.click("#order-to-answer")
    page.wait("/it is optimal/.test(document.getElementById('judgement').innerText)")
    page.notation("R2||Cmax")
    page.click("#judge-run")
    page.wait("/neither an exact method/.test(document.getElementById('judgement').innerText)")


@way
def chart(page):
    page.example(0)
    page.browser.choose("#lines", "1")
    expect(page.run("document.querySelectorAll('.chart .bar').length"), 12)
    expect(page.run("document.querySelectorAll('.chart .bar.late').length"), 3)
    expect(page.run("document.querySelectorAll('.chart .mark.due').length"), 12)
    bars = """[...document.querySelectorAll('.chart .bar')].map((bar) => bar.getAttribute('class').match(/fill./)[0])"""
    fills = page.run(bars)
    expect([a for a, b in zip(fills, fills[1:]) if a == b], [], "neighbours of one colour")
    page.run("document.getElementById('chart-frame').focus()")
    page.browser.press("+")
    page.browser.press("ArrowRight")
    zoomed = page.run("document.querySelectorAll('.chart .bar').length")
    if not 1 <= zoomed < 12:
        raise AssertionError(f"{zoomed} bars after zooming in")
    page.browser.press("0")
    expect(page.run("document.querySelectorAll('.chart .bar').length"), 12)
    page.run("document.querySelector('.chart .bar').dispatchEvent(new MouseEvent('click', { bubbles: true }))")
    expect_in("Business cards Meyer: Mon 3 Mar 08:00 to Mon 3 Mar 10:00, 2 h of work", page.text("#chart-details"))
    expect(page.run("['night', 'weekend'].map((each) => document.querySelectorAll('.chart .' + each).length)"), [8, 2])
    expect_in("weekend, days off", page.text("#legend"))
    page.example(4)
    expect(page.run("document.querySelectorAll('.chart .night').length"), 0)
    expect(page.run("document.querySelectorAll('.chart .idle-text').length"), 1)
    expect(page.run("document.querySelectorAll('.chart .mark.release').length"), 4)
    expect(page.run("document.querySelectorAll('.chart .links path').length"), 1)


@way
def weeks(page):
    """A line for each week, with nights and weekends: by keys and mouse as the other lines, at all widths, and in print."""
    expect(page.run("document.querySelector('#lines [value=weeks]').disabled"), False)
    page.example(0)
    page.browser.choose("#lines", "weeks")
    texts = "[...document.querySelectorAll('.chart .week')].map((each) => each.textContent)"
    expect(page.run(texts), ["Week 10", "Week 11", "Week 12"])
    expect(page.run("['night', 'weekend'].map((each) => document.querySelectorAll('.chart .' + each).length)"), [8, 2])
    expect(page.run("document.querySelectorAll('.chart .mark.due').length"), 12, "each due date once")
    for width in (360, 768, 1366, 1920):
        page.browser.size(width, 900)
        page.run("new Promise((resolve) => setTimeout(resolve, 200))")
        expect(page.run("document.documentElement.scrollWidth > innerWidth"), False)
        expect(page.run("new Set([...document.querySelectorAll('.chart .bar')].map((each) => each.dataset.job)).size"), 12)
    page.run("document.getElementById('chart-frame').focus()")
    page.browser.press("+")
    expect(len(page.run(texts)) < 3, True, "zoomed in")
    page.browser.press("0")
    expect(page.run(texts), ["Week 10", "Week 11", "Week 12"])
    page.run("document.querySelector('.bar[data-job=\"2\"]').focus()")
    page.browser.press("ArrowRight")
    expect_in("“Business cards Meyer” is moved: allowed", moved(page))
    expect(jobs_in_bars(page)[:2], [1, 3])
    page.run("document.getElementById('moved').replaceChildren()")
    page.browser.mouse("mouseReleased", *drag(page, 2, 250))
    expect_in("“Business cards Meyer” is moved: allowed", moved(page))
    page.run("window.dispatchEvent(new Event('beforeprint'))")
    expect(page.run("document.querySelectorAll('#chart-frame > svg').length"), 3, "pages break between weeks")
    page.run("window.dispatchEvent(new Event('afterprint'))")
    page.example(1)
    expect(page.run("document.querySelector('#lines [value=weeks]').disabled"), True, "plain numbers have no weeks")
    expect(page.run("document.querySelectorAll('.chart .bar').length"), 4)


# ---- job shops ----

ROUTES = ("Order;Route;Due\nShelf;3@Sawing, 4@Milling, 2@Painting;14\nDesk;2@Milling, 3@Sawing, 4@Painting;12\n"
          "Frame;4@Sawing, 3@Painting;9\nCabinet;5@Milling, 2@Painting, 1@Sawing;16\nDoor;6@Painting;10\n")
LONG_ROUTES = ("Order\tRoute\tDue\nShelf Meyer\t2,5 h@Sawing; 3 h@Milling; 2 h@Painting; 1 h@Packing\t2025-03-07\n"
               "Desk “Oslo” oak\t4 h@Sawing; 12 h@Painting; 30 min@Packing\t2025-03-06\n")
ROUTED = ("table 1\njob 1 p=3@1,4@2,2@3 d=14\njob 2 p=2@2,3@1,4@3 d=12\njob 3 p=4@1,3@3 d=9\n"
          "job 4 p=5@2,2@3,1@1 d=16\njob 5 p=6@3 d=10\n")


def table_text(page):
    return page.run("document.getElementById('table-text').textContent")


def labels(page):
    return page.run("[...document.querySelectorAll('.chart .label')].map((each) => each.textContent)")


@way
def job_shop(page):
    """A job shop is chosen, its routes are typed, and what is wrong with one is said at its row."""
    page.open_problem()
    page.browser.choose("#environment", "J")
    page.browser.choose("#objective", "Cmax")
    expect([page.value("#notation"), page.run("document.getElementById('machines-label').hidden")], ["J||Cmax", True])
    expect(page.texts("#jobs-table thead th")[1:3], ["Name", "Route"])
    for row, name, route in ((1, "Shelf", "3@1, 4@2"), (2, "Desk", "2@2, 3@1")):
        page.put(row, "name", name)
        page.put(row, "route", route)
    expect(table_text(page), "table 1\njob 1 p=3@1,4@2\njob 2 p=2@2,3@1\n")
    expect([page.plan_value(), page.text("#headline .proved")], ["7", "proved optimal"])
    page.put(2, "route", "2@2, 3")
    expect_in("“3” is not a step of a route. Write each as its time, @ and its machine", page.found_at(2, "route"))
    page.put(2, "route", "2@2, 3@2")
    expect_in("The route comes to “2” twice", page.found_at(2, "route"))
    page.put(2, "route", "")
    expect_in("This job has no route.", page.found_at(2, "route"))
    page.put(2, "route", "2@Mill, 3@Saw")
    expect(table_text(page), "table 1\njob 1 p=3@1,4@2\njob 2 p=2@3,3@4\n")
    page.put(1, "route", "3@Saw, 4@Mill")
    expect(labels(page), ["Saw", "Mill"])
    page.type("#machine-names", "Mill; Saw")
    page.settle()
    expect([labels(page), table_text(page)], [["Mill", "Saw"], "table 1\njob 1 p=3@2,4@1\njob 2 p=2@1,3@2\n"])
    page.notation("J1||Cmax")
    expect_in("beyond the number of machines of J1||Cmax", page.found_at(1, "route"))


@way
def job_shop_from_a_spreadsheet(page):
    """Routes are pasted, with the names of their machines: in the chart, the lists, the files and a link."""
    page.import_cells(ROUTES)
    expect([page.value("#notation"), page.value("#machine-names")], ["J||Lmax", "Sawing; Milling; Painting"])
    expect_in("Jobs have routes, so the problem is a job shop now.", page.text("#notice"))
    page.browser.choose("#objective", "Cmax")
    page.settle()
    expect([table_text(page), page.plan_value(), page.text("#headline .proved")], [ROUTED, "17", "proved optimal"])
    expect(labels(page), ["Sawing", "Milling", "Painting"])
    expect(page.run("document.querySelectorAll('.chart .bar').length"), 12)
    page.click("#list tbody th button")
    page.wait("/Painting \\d/.test(document.getElementById('chart-details').innerText)")
    page.browser.choose("#sort", "row")
    expect(page.texts("#list tbody td[data-head=Machine]"), ["Sawing, Milling, Painting", "Milling, Sawing, Painting",
           "Sawing, Painting", "Milling, Painting, Sawing", "Painting"])
    page.browser.choose("#sort", "machine")
    expect(sorted(set(page.texts("#list tbody td:first-child"))), ["Milling", "Painting", "Sawing"])
    page.run("document.querySelector('[data-save=csv]').click()")
    saved = page.browser.downloaded("plan.csv").decode("utf-8-sig").split("\r\n")
    expect([len(saved), {line.split(";")[1] for line in saved[1:-1]}], [14, {"Sawing", "Milling", "Painting"}])
    page.run("document.querySelector('[data-save=state]').click()")
    state = page.browser.downloaded("plan.json")
    page.run("document.querySelector('[data-save=table]').click()")
    table = page.browser.downloaded("plan-table.txt").decode()
    expect_in("# machine 2: Milling\n", table)
    page.run("window.dispatchEvent(new Event('beforeprint'))")
    page.browser.call("Emulation.setEmulatedMedia", media="print")
    expect(page.texts(".work-list h3"), ["Sawing", "Milling", "Painting"])
    expect([len(page.texts(f".work-list:nth-child({k}) tbody tr")) for k in (1, 2, 3)], [4, 3, 5])
    page.browser.call("Emulation.setEmulatedMedia", media="")
    page.run("window.dispatchEvent(new Event('afterprint'))")
    page.click("#link")
    page.wait("location.hash.startsWith('#plan=')")
    address = page.run("location.href")
    for text in (None, state, table):
        if text is None:
            page.browser.open(address)
        else:
            page.fresh()
            page.open_text("plan.txt", text)
        if text == table:
            page.wait("/5 jobs were read/.test(document.getElementById('notice').innerText)")
            page.browser.choose("#objective", "Cmax")
        page.wait_for_value("17")
        expect(labels(page), ["Sawing", "Milling", "Painting"])
    page.import_cells("Order\tStep 1 (h)\tStep 2 (h)\nA\t1,5@Saw\t2@Mill\nB\t3@Mill\t\n")
    expect([page.value("#notation"), page.plan_value(), page.value("#step")], ["J||Cmax", "5 h", "30"])
    expect_in("1,5 is 1,5 h", page.text("#headline .assumed summary"))


@way
def job_shop_files(page):
    """Files in OR-Library's layout are opened and pasted; of several job shops one is chosen."""
    ft06 = (HERE.parent / "examples" / "job_shop.txt").read_text()
    page.open_text("ft06.txt", ft06)
    page.wait_for_value("55")
    expect_in("ft06.txt: 6 jobs on 6 machines were read. The file counts the machines from 0", page.text("#notice"))
    expect([page.value("#notation"), page.value("#title"), page.value(page.cell(1, "route"))],
           ["J||Cmax", "ft06", "1@3, 3@1, 6@2, 7@4, 3@6, 6@5"])
    page.fresh()
    page.browser.paste("body", f"{ft06}\n instance two\n 2 2\n 0 3 1 2\n 1 2 0 4\n")
    page.wait_for_value("55")
    page.browser.choose("#notice select", "two")
    page.wait_for_value("7")
    expect(page.value("#title"), "two")
    page.click("#undo")
    page.wait_for_value("55")
    page.fresh()
    page.click("#paste")
    page.browser.paste("#import-text", "2 2\n0 3 1 2\n1 2 0 4\n")
    page.wait_for_value("7")
    page.fresh()
    page.open_text("routes.txt", (HERE.parent / "examples" / "routes.txt").read_text())
    page.wait("/5 jobs were read/.test(document.getElementById('notice').innerText)")
    expect(page.value("#notation"), "J||Lmax")
    page.wait("document.querySelectorAll('.chart .bar').length === 12")


@way
def job_shop_judged(page):
    """Another schedule of a job shop: an order of the jobs, and an answer that leaves a route."""
    page.import_cells(ROUTES)
    page.browser.choose("#objective", "Cmax")
    page.settle()
    page.click("#judge summary")
    page.type("#order", "Shelf; Desk; Frame; Cabinet; Door")
    page.click("#order-to-answer")
    page.wait("document.querySelector('#judgement img')")
    expect_in("The schedule is allowed", page.text("#judgement"))
    expect_in("no schedule has less than 17", page.text("#judgement"))
    text = page.value("#judge-text")
    page.type("#judge-text", text.replace("piece 1 1 0 3", "piece 1 1 30 33"))
    page.click("#judge-run")
    page.wait("/Not allowed/.test(document.getElementById('judgement').innerText)")
    expect_in("“Shelf” is on a machine before it is completed on an earlier one of its route.", page.text("#judgement"))
    page.click("#judge-own")
    page.click("#judge-run")
    page.wait("/it is optimal/.test(document.getElementById('judgement').innerText)")


# ---- moved bars ----

def moved(page):
    """What is said of a move, when it was judged."""
    page.wait("!/^(Judging|$)/.test(document.getElementById('moved').innerText)")
    return page.text("#moved").removesuffix(" proved")


def drag(page, job, x, y=0, to=5):
    """Drags the bar of a job, and stops before it is dropped."""
    left, top = page.run(f"""(() => {{
        const bar = document.querySelector('.bar[data-job="{job}"]');
        bar.scrollIntoView({{ block: "center" }});
        const box = bar.getBoundingClientRect();
        return [box.left + box.width / 2, box.top + box.height / 2];
    }})()""")
    page.browser.mouse("mousePressed", left, top)
    for k in range(1, to + 1):
        page.browser.mouse("mouseMoved", left + x * k / to, top + y * k / to)
    return left + x, top + y


def jobs_in_bars(page):
    return page.run("[...document.querySelectorAll('.chart .bar')].map((bar) => Number(bar.dataset.job) + 1)")


def headline(page):
    return page.text("#headline .value")


@way
def bars_by_mouse(page):
    """A bar is dragged, and what that costs is said at once; undo, redo, and back to the optimal plan."""
    page.example(0)
    expect(jobs_in_bars(page)[:4], [3, 1, 4, 10])
    page.browser.mouse("mouseReleased", *drag(page, 2, 300))
    expect(moved(page), "“Business cards Meyer” is moved: allowed, costs 2 h more, 2 h above the optimum.")
    expect(jobs_in_bars(page)[:5], [1, 4, 10, 5, 3])
    expect_in("2 h above the optimumYour plan. Maximum lateness: 13 h", headline(page))
    expect_in("The optimal plan has 11 h. No schedule of these 12 jobs has a smaller value. 4 jobs are late.",
              page.text("#headline"))
    expect(page.texts("#list tbody th")[:2], ["Plates, spring catalogue", "Menu “Zum Anker”"])
    expect_in("Business cards Meyer: Wed 5 Mar 11:00", page.text("#chart-details"))
    at = drag(page, 2, -300)
    page.browser.press("Escape")
    page.browser.mouse("mouseReleased", *at)
    expect(jobs_in_bars(page)[:5], [1, 4, 10, 5, 3], "Escape lets go")
    press_with_control(page, "z")
    page.wait("/^proved optimal/.test(document.querySelector('#headline .value').innerText)")
    expect(jobs_in_bars(page)[:4], [3, 1, 4, 10])
    expect(page.run("document.getElementById('own').hidden"), True)
    press_with_control(page, "y")
    page.wait("/Your plan/.test(document.getElementById('headline').innerText)")
    page.click("#own-show")
    page.wait("/^proved optimal/.test(document.querySelector('#headline .value').innerText)")
    expect(page.text("#own-show"), "Show your plan")
    page.click("#own-show")
    page.wait("/Your plan/.test(document.getElementById('headline').innerText)")
    page.put(12, "time", "5 h")
    expect_in("Your plan. Maximum lateness: 13 h", headline(page))
    name = "a-print-shop-one-machine-due-dates-precedence"
    for kind, suffix, part, wanted in (("answer", "-answer.txt", b"value 13\n", True), ("chart", ".svg", b"tabindex", False)):
        page.run(f"document.querySelector('[data-save={kind}]').click()")
        expect(part in page.browser.downloaded(name + suffix), wanted, f"{part} in what is saved of the own plan")
    page.run("window.isOld = true")
    page.browser.call("Page.reload")
    page.wait("!window.isOld && document.querySelector('#own:not([hidden])') && document.querySelector('.chart .bar')", 60)
    expect(jobs_in_bars(page)[:5], [1, 4, 10, 5, 3], "kept over a reload")
    page.click("#own-forget")
    page.wait("/^proved optimal/.test(document.querySelector('#headline .value').innerText)")
    expect(page.run("document.getElementById('own').hidden"), True)


@way
def bars_by_keyboard(page):
    """A bar that has the focus goes before its neighbour; a forbidden move says why; rows of the list move too."""
    page.example(1)
    page.run("document.getElementById('chart-frame').focus()")
    page.browser.press("Tab")
    expect(page.run("document.activeElement.dataset.job"), "0")
    page.browser.press("ArrowDown")
    page.browser.press("ArrowDown")
    expect(page.text("#chart-details"), "Drilling: 4 to 6, 2 of work; due 6, just on time.")
    page.browser.press("ArrowLeft")
    expect(moved(page), "“Drilling” is moved: allowed, costs the same, optimal.")
    expect(page.run("document.activeElement.dataset.job"), "1", "the focus stays on the bar")
    page.browser.press("ArrowUp")
    page.browser.press("ArrowLeft")
    expect(moved(page), "“Cutting” can't go further that way.")
    page.run("document.querySelector('.bar[data-job=\"2\"]').focus()")
    for wanted in ("“Painting” is moved: allowed, costs 4 more, 4 above the optimum.",
                   "“Painting” is moved: allowed, costs the same, 4 above the optimum.",
                   "“Painting” was not moved: “Painting” starts before “Cutting” is completed."):
        page.run("document.getElementById('moved').replaceChildren()")
        page.browser.press("ArrowLeft")
        expect(moved(page), wanted)
    expect(jobs_in_bars(page), [1, 3, 2, 4])
    page.run("document.querySelectorAll('#list tbody th button')[1].focus()")
    page.browser.press("ArrowDown", 1)
    page.wait("/is moved/.test(document.getElementById('moved').innerText)")
    expect(jobs_in_bars(page), [1, 2, 3, 4])
    expect(page.run("document.activeElement.innerText"), "Painting", "the focus stays in the list")
    press_with_control(page, "z")
    page.wait("document.getElementById('moved').innerText === ''")
    page.wait("document.querySelectorAll('.chart .bar')[1].dataset.job === '2'")
    expect(jobs_in_bars(page), [1, 3, 2, 4])
    expect(page.run("document.getElementById('chart-frame').getAttribute('role')"), "group", "a screen reader gets to the bars")
    page.put(1, "after", "Painting")
    page.put(3, "after", "")
    expect_in("Your plan is not shown: “Cutting” starts before “Painting” is completed.", page.text("#moved"))
    expect_in("proved optimal", headline(page))


@way
def bars_on_several_machines(page):
    """A bar is dropped on another machine, and the buttons do the same; what isn't moved says so."""
    page.example(2)
    expect(page.text("#move-words"), "Jobs of this plan are done in pieces, so bars are not moved.")
    page.notation("P||sumC")
    page.click('.bar[data-job="3"]')
    page.click('[data-move="up"]')
    expect(moved(page), "“Disc” is moved: allowed, costs 4 more, 4 above the optimum.")
    page.browser.mouse("mouseReleased", *drag(page, 3, 0, 40))
    page.wait("/costs 4 less, optimal/.test(document.getElementById('moved').innerText)")
    page.example(3)
    page.browser.mouse("mouseReleased", *drag(page, 3, 300))
    expect(moved(page), "“D” is moved: allowed, costs 1 more, 1 above the optimum.")
    expect(jobs_in_bars(page), [3, 1, 5, 4, 2] * 2, "one order on both machines")
    page.notation("O2||Cmax")
    expect(page.text("#move-words"), "Bars of an open shop are not moved.")
    page.example(3)
    page.notation("F2||sumC")
    page.run("document.querySelector('.bar[data-job=\"1\"]').focus()")
    page.browser.press("ArrowLeft")
    expect_in("allowed, costs", moved(page))
    expect_in("at most", moved(page))


@way
def bars_of_a_job_shop(page):
    """A step of a route is a bar of its own: by mouse, by keyboard, what a route forbids, and in a link."""
    page.import_cells("Order;Route\nShelf;3@Sawing, 4@Milling\nDesk;2@Milling, 3@Sawing\n")
    page.settle()
    expect_in("Makespan: 7", headline(page))
    expect(jobs_in_bars(page), [1, 2, 2, 1])
    page.browser.mouse("mouseReleased", *drag(page, 0, 600, 80))
    text = "“Shelf” is moved: allowed, costs 5 more, 5 above the optimum."
    expect(moved(page), text)
    expect(jobs_in_bars(page), [2, 1, 2, 1])
    expect_in("Your plan. Makespan: 12", page.text("#headline"))

    def left(place):
        page.run(f"document.querySelectorAll('.bar')[{place}].focus()")
        page.run("document.getElementById('moved').replaceChildren()")
        page.browser.press("ArrowLeft")

    left(1)
    page.wait("/costs 5 less, optimal/.test(document.getElementById('moved').innerText)")
    expect(page.run("[document.activeElement.dataset.job, document.activeElement.dataset.machine]"), ["0", "1"])
    left(3)
    expect(moved(page), text)
    left(1)
    expect_in("“Desk” is on a machine before it is completed on an earlier one of its route.", moved(page))
    page.click("#link")
    page.wait("location.hash.startsWith('#plan=')")
    page.browser.open(page.run("location.href"))
    page.wait("/Your plan/.test(document.getElementById('headline').innerText)")
    expect(jobs_in_bars(page), [1, 2, 1, 2])


@way
def bars_by_touch(page):
    """On a phone the page scrolls over the chart; a bar that was tapped is dragged sideways."""
    page.browser.touchable(360, 740)
    page.example(0)

    def touch(x, y):
        left, top = page.run("""(() => {
            const bar = document.querySelector('.bar[data-job="8"]');
            bar.scrollIntoView({ block: "center" });
            const box = bar.getBoundingClientRect();
            return [box.left + box.width / 2, box.top + box.height / 2];
        })()""")
        before = page.run("scrollY")
        page.browser.touch([(left + x * k / 8, top + y * k / 8) for k in range(9 if x or y else 1)])
        page.run("new Promise((resolve) => setTimeout(resolve, 300))")
        return page.run("scrollY") - before

    expect(touch(0, -150) > 50, True, "the page scrolls")
    expect([touch(-120, 0), page.text("#moved")], [0, ""], "a bar that was not tapped stays")
    touch(0, 0)
    expect(touch(0, -150) > 50, True, "the page scrolls")
    touch(-120, 0)
    expect(moved(page), "“Labels, dairy” is moved: allowed, costs the same, optimal.")
    expect(page.run("document.documentElement.scrollWidth"), 360)


@way
def printing(page):
    """A4 landscape, with the title, and without the page's own parts."""
    page.example(0)
    path = Path(page.browser.folder.name) / "plan.pdf"
    page.browser.pdf(path)
    boxes = re.findall(rb"/MediaBox \[0 0 ([\d.]+) ([\d.]+)\]", path.read_bytes())
    expect([(round(float(width)), round(float(height))) for width, height in boxes], [(842, 595)], "pages")
    page.browser.call("Emulation.setEmulatedMedia", media="print")
    expect(page.run("getComputedStyle(document.querySelector('.jobs')).display"), "none")
    expect_in("A print shop", page.text("#print-head"))
    names = page.run("""(() => { window.dispatchEvent(new Event("beforeprint"));
        return [...document.querySelectorAll(".chart .name")].map((each) => each.textContent); })()""")
    expect([each for each in names if each.startswith("#")], [], "bars in print with a number in place of a name")
    page.run("window.dispatchEvent(new Event('afterprint'))")
    page.browser.call("Emulation.setEmulatedMedia", media="")


def read_code(page):
    """The text of the code on a picture of the printed page, or None where zbar is missing and can't be installed."""
    if not shutil.which("zbarimg") and os.geteuid() == 0 and shutil.which("apt-get"):
        subprocess.run(["apt-get", "install", "-y", "-qq", "--no-install-recommends", "zbar-tools"], capture_output=True, check=False)
    if not shutil.which("zbarimg"):
        print("        there is no zbarimg (zbar-tools), so the code is not read back")
        return None
    path = Path(page.browser.folder.name) / "sheet.png"
    page.browser.size(1040, 720, 2)
    page.run("scrollTo(0, 0)")
    page.browser.screenshot(path)
    return subprocess.run(["zbarimg", "-q", "--raw", str(path)], capture_output=True, text=True, check=False).stdout.strip()


@way
def sheet(page):
    """The printed sheet has a code of the link to its plan, which opens the plan; a link that is too long is said to be so."""
    page.example(0)
    page.put(2, "time", "4 h")
    value = page.plan_value()
    page.type("#machine-names", "Press")
    page.settle()
    page.click("#changes button")
    page.run("window.print = () => { window.hasPrinted = true; }")
    page.click("#print")
    page.wait("window.hasPrinted")
    page.browser.call("Emulation.setEmulatedMedia", media="print")
    page.run("window.dispatchEvent(new Event('beforeprint'))")
    expect_in("on a phone, open the page there and paste the text of the code.", page.text("#sheet-top"))
    page.run("window.dispatchEvent(new Event('afterprint'))")
    page.browser.call("Emulation.setEmulatedMedia", media="")
    page.type("#title", "Week 10")
    page.run("new Promise((resolve) => setTimeout(resolve, 700))")
    page.browser.call("Emulation.setEmulatedMedia", media="print")
    page.run("window.dispatchEvent(new Event('beforeprint'))")
    page.run("new Promise((resolve) => setTimeout(resolve, 200))")
    code = read_code(page)
    page.run("window.dispatchEvent(new Event('afterprint'))")
    expect(page.run("document.querySelectorAll('.code').length"), 0)
    page.browser.call("Emulation.setEmulatedMedia", media="")
    if code is None:
        return
    expect(code.split("#plan=")[0], page.address)
    page.browser.open(code, 360, 740)
    page.wait_for_value(value)
    expect(page.run("document.querySelectorAll('#list .tick input').length"), 12, "boxes on a phone")
    expect(page.run("document.documentElement.scrollWidth"), 360)
    page.fresh()
    page.browser.paste("body", code)
    page.wait_for_value(value)
    expect([page.value(page.cell(2, "time")), page.value("#title"), labels(page)[:1]], ["4 h", "Week 10", ["Press"]])
    page.import_cells("Name\tTime\tDue\n" + "\n".join(f"Order {k * k * 7919 % 100003}\t{k % 97 + 1}\t{k * 61 % 500000}" for k in range(700)))
    page.click("#print")
    page.wait("window.hasPrinted ?? true")
    page.run("new Promise((resolve) => setTimeout(resolve, 800))")
    page.run("window.dispatchEvent(new Event('beforeprint'))")
    expect_in("and a square code has room for 2,953: save everything on the page as a file", page.run("document.getElementById('sheet-end').textContent"))
    page.run("window.dispatchEvent(new Event('afterprint'))")


@way
def ticking_off(page):
    """On a phone jobs are ticked off; the rest goes on from now in its order, and whether it is in time is said."""
    page.browser.open(page.address, 360, 740)
    page.wait("document.querySelector('#jobs-table tbody tr')")
    page.example(0)
    page.run(CLOCK)
    expect(page.run("document.querySelectorAll('#list .tick input').length"), 12)
    page.click('#list [aria-label="Business cards Meyer is done"]')
    page.wait("/^1 of 12 done/.test(document.getElementById('ticked').innerText)")
    expect_in("1 of 12 done. The rest, from Tue 4 Mar 10:00 in this order: 7 jobs late, by up to 2 d 3 h.", page.text("#ticked"))
    expect_in("Your plan. Maximum lateness:", headline(page))
    expect(page.texts("#list tbody th")[0], "Plates, spring catalogue")
    expect(page.run("document.documentElement.scrollWidth"), 360)
    page.click('#list [aria-label="Plates, spring catalogue is done"]')
    page.wait("/^2 of 12 done/.test(document.getElementById('ticked').innerText)")
    page.click("#ticked input")
    page.wait("/^1 of 12 done/.test(document.getElementById('ticked').innerText)")
    expect(page.texts("#ticked label"), ["Business cards Meyer"])
    page.click("#undo")
    page.click("#undo")
    page.click("#undo")
    page.wait_for_value("11 h")
    expect(page.text("#ticked"), "")
    page.import_cells("Order;Sawing (h);Painting (h);Due\nShelves;2;3;2030-12-10\nDesk;4;1;2030-12-11\n")
    page.browser.choose("#sort", "machine")
    page.click('#list [aria-label="Shelves is done"]')
    page.settle()
    expect(page.value(page.cell(1, "left")), "0 h; 3 h")
    page.wait("/begun/.test(document.getElementById('headline').textContent)")
    page.click('#list tbody tr:last-child [type="checkbox"]')
    page.settle()
    expect(page.value(page.cell(2, "left")), "4 h; 0 h")


@way
def ticking_off_in_plain_numbers(page):
    """Plain numbers have boxes too: the plan is the clock, and goes on from the number at which a job is done."""
    page.browser.open(page.address, 360, 740)
    page.wait("document.querySelector('#jobs-table tbody tr')")
    page.example(1)
    expect(page.run("document.querySelectorAll('#list .tick input').length"), 4)
    page.click('#list [aria-label="Cutting is done"]')
    page.wait("/^1 of 4 done/.test(document.getElementById('ticked').innerText)")
    expect_in("1 of 4 done. The rest, from 3 in this order: 1 job late, by up to 1.", page.text("#ticked"))
    expect_in("plain numbers, from 3; 1 done", page.text("#headline .assumed summary"))
    expect_in("none; all times are plain numbers from 3", page.text("#calendar-words"))
    expect(table_text(page), "table 1\njob 1 p=2 w=1 d=3\njob 2 p=4 w=4 d=6\njob 3 p=1 w=1 d=2\n")
    expect(page.run("document.documentElement.scrollWidth"), 360)
    page.click('#list [aria-label="Packing is done"]')
    page.wait("/^2 of 4 done/.test(document.getElementById('ticked').innerText)")
    expect_in("from 4 in this order", page.text("#ticked"))
    expect_in("Drilling: 4 to 6", page.run("(document.querySelector('#list tbody th button').click(), document.getElementById('chart-details').innerText)"))
    page.click("#link")
    page.wait("location.hash.startsWith('#plan=')")
    page.browser.open(page.run("location.href"), 360, 740)
    page.wait("/^2 of 4 done/.test(document.getElementById('ticked').innerText)")
    page.run("document.getElementById('calendar').open = true")
    page.type('[data-setting="start"]', "soon")
    page.settle()
    expect_in("The plan starts at a whole number; “soon” is none.", page.text("#calendar-notes"))
    page.type('[data-setting="start"]', "5")
    page.settle()
    expect_in("from 5", page.text("#ticked"))
    page.import_cells("Name,Time,Due\nA,3,4\n")
    expect([page.value('[data-setting="start"]'), page.text("#ticked")], ["", ""])


# ---- files and links ----

@way
def files(page):
    page.example(0)
    page.click("#save-menu summary")
    page.click('[data-save="csv"]')
    name = "a-print-shop-one-machine-due-dates-precedence"
    lines = page.browser.downloaded(f"{name}.csv").decode("utf-8-sig").split("\r\n")
    expect(lines[0], "Name,Machine,Start,End,Working time,Completion,Due,Lateness,Late")
    expect(lines[2], '"Plates, spring catalogue",1,2025-03-03 10:00,2025-03-03 15:00,4,2025-03-03 15:00,'
           '2025-03-04 17:00,-10,')
    page.run("document.querySelector('[data-save=state]').click()")
    state = page.browser.downloaded(f"{name}.json")
    page.run("document.querySelector('[data-save=table]').click()")
    table = page.browser.downloaded(f"{name}-table.txt").decode()
    expect(table.split("\n")[:3], ["table 1", "# job 1: Plates, spring catalogue", "job 1 p=4 w=2 d=16"])
    page.run("document.querySelector('[data-save=answer]').click()")
    answer = page.browser.downloaded(f"{name}-answer.txt").decode()
    expect_in("value 11\n", answer)
    for kind, suffix in (("chart", ""), ("picture", "-solver")):
        page.run(f"document.querySelector('[data-save={kind}]').click()")
        picture = ElementTree.fromstring(page.browser.downloaded(f"{name}{suffix}.svg"))
        expect(picture.tag, "{http://www.w3.org/2000/svg}svg")
    page.fresh()
    page.open_text("plan.json", state)
    page.wait_for_value("11 h")
    page.fresh()
    page.open_text("table.txt", table)
    page.wait("/12 jobs were read/.test(document.getElementById('notice').innerText)")
    page.notation("1|prec|Lmax")
    page.wait_for_value("11")
    expect(page.value(page.cell(2, "after")), '"Plates, spring catalogue"')
    page.open_text("answer.txt", answer)
    page.wait("/Accepted/.test(document.getElementById('judgement').innerText)")


@hostile
def link(page):
    page.example(0)
    page.click("#link")
    page.wait("location.hash.startsWith('#plan=')")
    address = page.run("location.href")
    page.browser.open(address)
    page.settle()
    expect(page.plan_value(), "11 h")
    page.browser.open(address[:-40])
    page.settle()
    expect_in("The link is damaged", page.text("#notice"))


def open_cells(page, name, text):
    """Opens a file of cells, which replace the rows."""
    page.open_text(name, text)
    page.wait("document.getElementById('import').open")
    page.click("#import-replace")


def open_state(page, name, text, said):
    """Opens a file that looks like one of the page, and waits until this is said of it."""
    page.open_text(name, text)
    page.wait(f"document.getElementById('notice').innerText.includes({json.dumps(said)})")


@hostile
def other_files(page):
    """UTF-16 and Windows-1252, and texts that are nothing that the page knows."""
    for coding in ("utf-16", "cp1252"):
        survived(page, coding, lambda: open_cells(page, f"{coding}.csv", "Name;Time\nMüller;3\n".encode(coding)))
        expect(page.value(page.cell(1, "name")), "Müller")
    survived(page, "another number", lambda: open_state(page, "other.json", '{"threefield": 2}',
                                                        "other.json is not a file that this page saved"))
    damaged = ('{"threefield": 1, "rows": [[1, "A", 3, {}], 7, ["x", "B", "2"]], '
               '"settings": {"days": 3}, "kept": {"ids": "x"}, "problem": 9}')
    survived(page, "other kinds of values", lambda: open_state(page, "another.json", damaged, "another.json was opened"))
    expect(page.value("#notation"), "1||Lmax")
    expect(page.value(page.cell(2, "name")), "B")


# ---- mistakes, each with its sentence at its place ----

MISTAKES = [
    ("two jobs of one name", "Name,Time,After\nBox,3,\nBox,2,\nLid,1,Box\n", 3, "after",
     "“Box” is the name of several jobs, in rows 1, 2. Write #1 to mean the one in row 1."),
    ("two jobs of one name, not referred to", "Name,Time,Due\nBox,3,1\nBox,2,1\n", 2, "name",
     "2 jobs are called “Box” (rows 1, 2)"),
    ("a name that isn't there", "Name,Time,After\nCutting,3,\nPainting,2,Cuting\n", 2, "after",
     "There is no job called “Cuting”. Is “Cutting” meant?"),
    ("29 February of a year without one", "Name,Time,Due\nA,3,29.02.2025\n", 1, "due",
     "2025 is not a leap year, so there is no 29 February 2025."),
    ("31 April", "Name,Time,Due\nA,3,2025-04-31\n", 1, "due", "There is no day 31 in April 2025: it has 30 days."),
    ("no date", "Name,Time,Due\nA,3,2025-04-30\nB,3,soon\n", 2, "due", "“soon” is not a date."),
    ("no processing time", "Name,Time,Due\nA,,5\n", 1, "time", "This job has no processing time."),
    ("a time of 0", "Name,Time,Due\nA,0,5\n", 1, "time", "A job takes at least one time step."),
    ("a negative time", "Name,Time,Due\nA,-3,5\n", 1, "time", "A processing time is at least 0; this is -3."),
    ("a decimal point", "Name,Time,Due\nA,2.5,5\n", 1, "time", "A processing time is a whole number here; 2.5 is not."),
    ("a number that is too large", "Name,Time,Due\nA,99999999999999999999,5\n", 1, "time", "is too large"),
    ("no due date", "Name,Time,Due\nA,3,4\nB,2,\n", 2, "due", "No due date: due at the end of all work, so never late."),
    ("no due date in several rows", "Name,Time,Due\nA,3,\nB,2,\n", 2, "due", "1||Lmax needs a due date for each job"),
    ("after itself", "Name,Time,Due,After\nA,3,4,A\n", 1, "after", "“A” can't come after itself."),
    ("a formula that failed", "Name;Time;Due\nA;#WERT!;4\n", 1, "time",
     "“#WERT!” is a formula that failed in the spreadsheet."),
    ("a link of a project plan", "Name\tTime\tAfter\nA\t3\t\nB\t2\t1FS+2\n", 2, "after",
     "This is a link of a project plan. Write #1 for “after the job in row 1”; a waiting time between jobs can't be given."),
    ("the number of a row", "Name\tTime\tAfter\nA\t3\t\nB\t2\t1\n", 2, "after", "Write #1 to mean the job in row 1."),
    ("a cycle", "Name,Time,Due,After\nA,3,4,B\nB,3,4,A\n", 1, "after", "These precedence constraints form a cycle: "),
]


@way
def mistakes_in_rows(page):
    for what, cells, row, field, sentence in MISTAKES:
        page.fresh()
        page.import_cells(cells)
        try:
            expect_in(sentence, page.found_at(row, field))
        except AssertionError as error:
            raise AssertionError(f"{what}: {error}; {page.texts('.found, #row-notes, #headline')}") from error


@way
def mistakes_of_the_calendar(page):
    page.example(1)
    page.put(1, "time", "3h")
    expect_in("“3h” needs a calendar", page.found_at(1, "time"))
    page.fresh()
    page.import_cells("Name,Time,Due\nA,3 h,2025-03-05\nB,2.25,2025-03-01\n")
    expect(page.value("#step"), "15", "the longest step of which 2.25 hours are a whole number")
    page.run("document.getElementById('calendar').open = true")
    for field, text, sentence in (
            ("hours", "08:00-08:00", "“08:00-08:00” are 0 working hours: they end as they start."),
            ("hours", "", "A working day of 0 hours"), ("hours", "17:00-08:00", "ends before it starts"),
            ("start", "2025-02-29", "2025 is not a leap year"), ("off", "Easter", "“Easter” is not a date")):
        before = page.value(f'[data-setting="{field}"]')
        page.type(f'[data-setting="{field}"]', text)
        page.settle()
        expect_in(sentence, page.text("#calendar-notes"))
        page.type(f'[data-setting="{field}"]', before)
        page.settle()
    page.type('[data-setting="start"]', "2025-03-03")
    page.browser.choose("#step", "60")
    page.settle()
    expect_in("“2.25” is not a whole number of time steps of 1 hour. Write 3 h", page.found_at(2, "time"))
    page.browser.choose("#step", "15")
    page.settle()
    expect_in("Due before the plan starts, so the job is late", page.found_at(2, "due"))
    expect(page.plan_value(), "2 h 15 min")


@hostile
def hostile_names(page):
    """Names with markup, formulas and quotes are only ever text."""
    names = ['<img src=x onerror="window.hacked=1">', "=HYPERLINK(\"http://x\")", "@SUM(1)", "</script><b>",
             "&amp;\u202eabc"]
    rows = "".join(f'"{name.replace(chr(34), chr(34) * 2)}"\t{3 + k}\t4\n' for k, name in enumerate(names))
    survived(page, "names", lambda: page.import_cells("Name\tTime\tDue\n" + rows))
    expect(page.run("window.hacked ?? null"), None)
    expect(page.run("document.querySelectorAll('#list b, #list img, .chart img').length"), 0)
    expect(sorted(page.contents("#list tbody th")), sorted(names))
    page.run("document.querySelector('[data-save=csv]').click()")
    saved = page.browser.downloaded("plan.csv").decode("utf-8-sig")
    expect_in("\"'=HYPERLINK(\"\"http://x\"\")\"", saved)
    expect_in("\r\n'@SUM(1),", saved)
    page.run("document.querySelector('[data-save=chart]').click()")
    picture = ElementTree.fromstring(page.browser.downloaded("plan.svg"))
    kinds = {element.tag.split("}")[1] for element in picture.iter()}
    expect(kinds - {"svg", "g", "defs", "pattern", "path", "rect", "text", "title", "style"}, set(), "elements")


@hostile
def control_characters(page):
    """A name with control characters does not break the saved picture."""
    rows = [[1, "A\x01\x1b[31m\ufffeB", "3", "", "", "4"], [1, "C", "2", "", "", "4"]]
    state = json.dumps({"threefield": 1, "title": "T\x02", "rows": rows})
    survived(page, "control characters", lambda: open_state(page, "odd.json", state, "odd.json was opened"))
    page.wait("document.querySelector('#headline .proved')")
    page.run("document.querySelector('[data-save=chart]').click()")
    picture = ElementTree.fromstring(page.browser.downloaded("t.svg"))
    titles = [element.text for element in picture.iter() if element.tag.endswith("title")]
    expect(titles[0], "T\ufffd")
    expect_in("A\ufffd\ufffd[31m\ufffdB", " ".join(titles))


# What a text is, as the page itself makes it, and what is said of it then.
HOSTILE_TEXTS = [
    ("names of 30,001 letters", """"Name\\tTime\\tAfter\\n" + [..."abc"].map((each) => each.repeat(30001) + "\\t1\\t\\n").join("")
        + "d\\t1\\t" + "e".repeat(30001)""", "4 jobs were read."),
    ("300,000 spaces in a cost function", '"Name\\tTime\\tCost\\nA\\t1\\t0" + " ".repeat(300000) + "1"', "1 job was read."),
    ("headings of brackets", '"(".repeat(300000) + "\\t" + "[".repeat(300000) + "\\nA\\t3"', "1 job was read."),
    ("2,000,000 lines of comments", '"#\\n".repeat(2000000) + "table 1\\njob 1 p=3\\n"', "1 jobs were read."),
    ("1,000,000 empty lines", '"\\n".repeat(1000000)', ""),
    ("100,000 columns", '"a\\t".repeat(100000) + "\\n" + "1\\t".repeat(100000)', "and 99980 more."),
    ("300,001 quotes", """'Name\\tTime\\n' + '"'.repeat(300001) + '\\t1'""", "1 job was read."),
    ("300,000 zero bytes", '"\\0".repeat(300000)', "1 job was read."),
    ("a job after 30,000 others", '"Name\\tTime\\tAfter\\nA\\t1\\t" + "B, ".repeat(30000) + "B\\nB\\t1"', "2 jobs were read."),
    ("a route of 3,000 machines", """"Order\\tRoute\\nA\\t" + Array.from({ length: 3000 }, (_, k) => `1@M${k}`).join(", ")""",
     "1 job was read."),
    ("brackets without an end", '`{"threefield":1,"rows":` + "[".repeat(3000000)', "not a file that this page saved"),
    ("rows of one identity", '`{"threefield":1,"rows":[[7,"A","1"],[7,"B","2"]],"own":[[0,0,1],[1,9,-1,"x"]]}`', "was opened."),
    ("weeks of one minute", """`{"threefield":1,"rows":[[1,"A","9000 h","","","2030-12-31"]],
        "settings":{"step":"1","start":"2026-01-05","hours":"00:00-00:01","days":[1]}}`""", "was opened."),
    ("8,000 days off", """`{"threefield":1,"rows":[[1,"A","3 h","","","2027-12-31"]],"settings":{"step":"60","start":"2026-01-05",
        "hours":"08:00-17:00","days":[1],"off":"${"2026-05-01, ".repeat(7999)}2026-05-01"}}`""", "was opened."),
    ("a kept plan of the greatest numbers", """`{"threefield":1,"rows":[[1,"A","3","","","4"]],"kept":{"ids":[1,1],
        "names":["x","y"],"start":[1e308,-1e308],"completion":[0,1e300],"value":"${"9".repeat(50000)}","problem":"1||Lmax"}}`""", "was opened."),
    ("a title of 99,999 letters", """`{"threefield":1,"rows":[[1,"A","3","","","4"]],"title":"${"x".repeat(99999)}",
        "machineNames":"${"y;".repeat(49999)}"}`""", "was opened."),
    ("19,000 conditions", '`{"threefield":1,"rows":[[1,"A","3"]],"problem":"1|${"prec,".repeat(19000)}|Lmax"}`', "was opened."),
]
OPENED = """(() => {
    document.getElementById("notice").replaceChildren();
    const files = new DataTransfer();
    files.items.add(new File([TEXT], "hostile.txt"));
    const input = document.getElementById("file");
    input.files = files.files;
    input.dispatchEvent(new Event("change"));
})()"""
IS_READ = "document.getElementById('import').open || document.getElementById('notice').textContent !== ''"


def give_text(page, text):
    """Opens a file of a text that a script makes; where it is one of cells, they replace the rows."""
    page.run(OPENED.replace("TEXT", text))
    page.wait(IS_READ)
    page.run("""(() => {
        if (!document.getElementById("import").open) return;
        document.getElementById("import-replace").click();
        document.getElementById("import").close();
    })()""")


@hostile
def hostile_texts(page):
    """Texts that are made to slow the page down: it is done with each of them in a moment, and goes on after them all."""
    for what, text, said in HOSTILE_TEXTS:
        survived(page, what, lambda: give_text(page, text))
        expect_in(said, page.text("#notice"))
        if what.endswith("empty lines"):
            expect(page.run("document.getElementById('import-text').value.length"), 20001, "the box shows 20,000 lines")
    page.import_cells("Name,Time,Due\nA,3,4\n")
    page.notation("1||Lmax")
    expect(page.plan_value(), "−1")


def packed(text):
    """A text as a link has it."""
    packing = zlib.compressobj(wbits=-15)
    return base64.urlsafe_b64encode(packing.compress(text.encode()) + packing.flush()).decode().rstrip("=")


@hostile
def hostile_links(page):
    """Links that are cut off, that are no state, that hold very much, or many rows."""
    opened, damaged = "The plan of the link was opened.", "The link is damaged or was cut off"
    state = '{"threefield":1,"rows":[[1,"<b>A</b>","3","","","4"]]}'
    for what, link, said in (("a link of a plan", packed(state), opened), ("a link that is cut off", packed(state)[:-9], damaged),
                             ("letters that are none of a link", "*" * 16000, damaged),
                             ("a link of no state", packed("[]"), damaged),
                             ("a link of 100,000,000 spaces", packed(state + " " * 100_000_000), damaged),
                             ("a link of 100,000 rows", packed(state[:-2] + ",[1]" * 100_000 + "]}"), opened)):
        def give():
            page.run("document.getElementById('notice').replaceChildren(), void (location.hash = '')")
            page.run(f"void (location.hash = '#plan={link}')")
            page.wait(IS_READ)
        survived(page, what, give)
        expect_in(said, page.text("#notice"))
    expect(page.run("document.querySelectorAll('#list b').length"), 0)


@way
def unsaved_work(page):
    """A link that takes the place of work that is not saved: the page says so, and still asks when it is left."""
    asks = """(() => { const event = new Event("beforeunload", { cancelable: true });
        window.dispatchEvent(event); return event.defaultPrevented; })()"""

    def fresh():
        page.fresh()
        if page.run("document.getElementById('keep-work').checked"):
            page.click("#keep-work")
    fresh()
    page.example(0)
    expect(page.run(asks), False)
    page.click("#link")
    page.wait("location.hash.startsWith('#plan=')")
    plan = page.run("location.hash")
    fresh()
    page.import_cells("Name,Time,Due\nA,3,4\n")
    expect(page.run(asks), True)
    page.run(f"void (location.hash = {json.dumps(plan)})")
    page.wait("/What was here before is not saved/.test(document.getElementById('notice').innerText)")
    expect(page.run(asks), True)
    page.settle()
    page.click("#undo")
    page.settle()
    expect(page.value(page.cell(1, "name")), "A")


def press_with_control(page, key, shift=False):
    for kind in ("rawKeyDown", "keyUp"):
        page.browser.call("Input.dispatchKeyEvent", type=kind, key=key, modifiers=10 if shift else 2,
                          windowsVirtualKeyCode=ord(key.upper()))


@way
def undo_and_redo(page):
    """Ctrl+Z and Ctrl+Y go back and forth over everything; the cursor stays where it is."""
    page.example(1)
    page.type("#title", "Mine")
    page.notation("1||Lmax")
    page.put(2, "time", "7")
    page.browser.choose("#step", "60")
    page.settle()
    for wanted in ("plain", "7", "1||Lmax", "Mine"):
        expect([page.value("#step"), page.value(page.cell(2, "time")), page.value("#notation"), page.value("#title")],
               {"plain": ["60", "7", "1||Lmax", "Mine"], "7": ["plain", "7", "1||Lmax", "Mine"],
                "1||Lmax": ["plain", "2", "1||Lmax", "Mine"], "Mine": ["plain", "2", "1|prec|Lmax", "Mine"]}[wanted])
        press_with_control(page, "z")
    expect(page.value("#title"), "Four orders: one machine, plain numbers")
    press_with_control(page, "y")
    expect(page.value("#title"), "Mine")
    page.run(f"document.querySelector({json.dumps(page.cell(2, 'time'))}).focus()")
    press_with_control(page, "z", shift=True)
    press_with_control(page, "y")
    expect(page.value(page.cell(2, "time")), "7")
    expect(page.run("document.activeElement.dataset.field"), "time", "the cursor")
    page.settle()
    page.click("#redo")
    expect(page.value("#step"), "60")
    expect(page.run("document.getElementById('redo').disabled"), True)
    page.click("#undo")
    page.click('#jobs-table tr[data-place="0"] .remove')
    expect(page.run("document.getElementById('redo').disabled"), True, "nothing to redo after a change")


@way
def work_is_kept(page):
    """Work is there again after a reload, and the page does not ask then; a link comes before it; it can be switched off."""
    asks = """(() => { const event = new Event("beforeunload", { cancelable: true });
        window.dispatchEvent(event); return event.defaultPrevented; })()"""

    def reload():
        page.run("window.isOld = true")
        page.browser.call("Page.reload")
        page.wait("!window.isOld && document.querySelector('#jobs-table tbody tr')")
        page.settle()
    page.example(1)
    page.put(1, "name", "<i>Cut</i>")
    expect(page.run(asks), False)
    reload()
    expect(page.value(page.cell(1, "name")), "<i>Cut</i>")
    expect_in("Your work from before is here again", page.text("#notice"))
    expect_in("kept in this browser, on this device alone", page.text("footer"))
    page.click("#link")
    page.wait("location.hash.startsWith('#plan=')")
    link = page.run("location.hash")
    reload()
    expect(page.run("document.getElementById('notice').hidden"), False)
    expect(page.value(page.cell(1, "name")), "<i>Cut</i>")
    page.put(1, "name", "Other")
    expect(page.run("location.hash"), "", "the address of what it no longer is")
    reload()
    expect(page.value(page.cell(1, "name")), "Other")
    page.run(f"void (location.hash = {json.dumps(link)})")
    page.wait("/The plan of the link was opened/.test(document.getElementById('notice').innerText)")
    expect(page.value(page.cell(1, "name")), "<i>Cut</i>")
    page.run("void (location.hash = '')")
    reload()
    expect(page.value(page.cell(1, "name")), "Other", "a link that was only looked at leaves what was kept")
    page.click("#keep-work")
    expect_in("Nothing is kept", page.text("footer"))
    expect(page.run("localStorage.getItem('threefield')"), "off")
    expect(page.run(asks), True)
    expect(page.run("localStorage.length"), 1)


@way
def no_network(page):
    """Whatever runs on the page reaches no server, and makes no script of a text."""
    asked = []

    class Listening(http.server.BaseHTTPRequestHandler):
        def do_GET(self):
            asked.append(self.path)
            self.send_response(200)
            self.end_headers()

        do_POST = do_HEAD = do_OPTIONS = do_GET

        def log_message(self, *_):
            pass

    with http.server.ThreadingHTTPServer(("127.0.0.1", 0), Listening) as server:
        threading.Thread(target=server.serve_forever, daemon=True).start()
        address = f"http://127.0.0.1:{server.server_port}"
        page.run(f"""(async () => {{
            const address = {json.dumps(address)};
            const attempt = async (work) => {{ try {{ await work(); }} catch {{}} }};
            const add = (tag, attributes) => document.body.append(Object.assign(document.createElement(tag), attributes));
            await attempt(() => fetch(`${{address}}/fetch`));
            await attempt(() => fetch(`${{address}}/no-cors`, {{ mode: "no-cors" }}));
            await attempt(() => navigator.sendBeacon(`${{address}}/beacon`, "x"));
            await attempt(() => new WebSocket(`ws://${{address.slice(7)}}/socket`));
            await attempt(() => new EventSource(`${{address}}/events`));
            await attempt(() => {{ new Image().src = `${{address}}/image`; }});
            await attempt(() => add("script", {{ src: `${{address}}/script` }}));
            await attempt(() => add("script", {{ textContent: "window.made = 1" }}));
            await attempt(() => add("iframe", {{ src: `${{address}}/frame` }}));
            await attempt(() => add("object", {{ data: `${{address}}/object` }}));
            await attempt(() => add("video", {{ src: `${{address}}/video` }}));
            for (const rel of ["stylesheet", "prefetch", "icon", "manifest", "modulepreload"]) {{
                await attempt(() => add("link", {{ rel, href: `${{address}}/${{rel}}` }}));
            }}
            await attempt(() => {{ document.body.style.background = `url(${{address}}/style)`; }});
            await attempt(() => import(`${{address}}/module`));
            await attempt(() => {{
                add("form", {{ action: `${{address}}/form`, id: "out", target: "_blank" }});
                document.getElementById("out").submit();
            }});
            await attempt(() => {{ document.body.insertAdjacentHTML("beforeend", "<img src=x onerror='made = 2'>"); }});
            await attempt(() => new Worker(URL.createObjectURL(new Blob([`fetch("${{address}}/worker")`]))));
            await new Promise((resolve) => setTimeout(resolve, 700));
        }})()""")
        server.shutdown()
    expect(asked, [], "requests that arrived")
    expect(page.run("window.made ?? null"), None, "a script that was made of a text")
    wanted = [each for each in page.browser.problems if "ontent Security Policy" not in each and "Trusted" not in each]
    expect(wanted, [], "errors that are not the policy's")
    page.browser.problems.clear()
    page.browser.requests.clear()


# ---- the frame ----

@way
def widths(page):
    page.example(0)
    for width in (360, 768, 1400, 3840):
        page.browser.size(width, 900)
        page.run("new Promise((resolve) => setTimeout(resolve, 200))")
        if page.run("document.documentElement.scrollWidth") > width:
            raise AssertionError(f"the page is wider than {width} pixels")
        expect(page.run("document.querySelectorAll('.chart .bar').length") >= 12, True)


@way
def list_keeps_its_columns(page):
    """No column of the list is cut off at the widths of laptops and tablets, and how late a job is stands beside it."""
    page.import_cells("Order;Sawing (h);Painting (h);Due\nShelves;2;3;2030-12-10\nDesk “Oslo”;4;1;2030-12-11\n")
    for number in (None, 0):
        if number is not None:
            page.example(number)
        expect(page.texts("#list thead th")[1:3], ["Job", "Lateness"])
        for width in (768, 1200, 1280, 1366, 1440, 1500, 1920):
            page.browser.size(width, 800)
            page.run("new Promise((resolve) => setTimeout(resolve, 100))")
            if page.run("(() => { const it = document.getElementById('list-scroll'); return it.scrollWidth > it.clientWidth; })()"):
                raise AssertionError(f"the list is cut off at {width} pixels")
    for width in (768, 1280, 1366, 1920):
        page.browser.size(width, 800)
        page.run("new Promise((resolve) => setTimeout(resolve, 100))")
        heights = page.run("[...document.querySelectorAll('#list tbody tr')].map((each) => each.offsetHeight)")
        expect(max(heights) < 1.5 * min(heights), True, f"a line for each job at {width} pixels: {heights}")
    page.browser.size(360, 740)
    expect(page.run("getComputedStyle(document.querySelector('#list tbody tr')).display"), "grid", "cards on a phone")
    tops = page.run("['.plan', '.jobs'].map((each) => document.querySelector(each).getBoundingClientRect().top)")
    if tops[0] > tops[1]:
        raise AssertionError("the jobs stand before the plan on a phone")


@way
def list_of_a_job_shop(page):
    """The list of a job shop keeps all its columns, also beside a kept plan, and no date has more than two lines, nor have
    its machines where there is room."""
    page.import_cells(LONG_ROUTES)
    page.click("#changes button")
    expect(page.texts("#list thead th")[2:], ["Lateness", "Against the kept plan", "Machine", "Start", "Until", "Due"])
    for width in (768, 1200, 1280, 1366, 1920):
        page.browser.size(width, 800)
        page.run("new Promise((resolve) => setTimeout(resolve, 100))")
        frame, table, lines, machines = page.run("""(() => {
            const frame = document.getElementById("list-scroll");
            const linesOf = (...heads) => heads.flatMap((head) =>
                [...frame.querySelectorAll(`td[data-head=${head}]`)].map((each) => {
                    const words = document.createRange();
                    words.selectNodeContents(each);
                    return words.getClientRects().length;
                }));
            return [frame.clientWidth, frame.scrollWidth, linesOf("Start", "Until", "Due"), linesOf("Machine")];
        })()""")
        expect([table <= frame, max(lines) <= 2, width == 1200 or max(machines) <= 2], [True, True, True],
               f"{frame}, {table}, {lines}, {machines} at {width} pixels")


@way
def work_on_machines_in_lines(page):
    """In the list by machine each piece of work has one line with all its columns, at the widths of tablets and laptops."""
    page.import_cells(LONG_ROUTES)
    page.browser.choose("#sort", "machine")
    expect(page.texts("#list thead th"), ["Machine", "Start", "Job", "Lateness", "Takes", "Until", "Due"])
    for width in (768, 1200, 1280, 1366, 1440, 1500, 1920):
        page.browser.size(width, 800)
        page.run("new Promise((resolve) => setTimeout(resolve, 100))")
        frame, table, lines = page.run("""(() => {
            const list = document.getElementById("list");
            const lines = [...list.querySelectorAll("tbody tr")].map((each) => each.offsetHeight);
            return [list.parentElement.clientWidth, list.parentElement.scrollWidth, lines];
        })()""")
        expect([table <= frame, max(lines) < 1.5 * min(lines)], [True, True],
               f"{frame}, {table}, {lines} at {width} pixels")


@way
def late_jobs_only(page):
    """The list of late jobs has none that is done just on time, and is sorted as is chosen."""
    page.example(0)
    page.browser.choose("#sort", "lateness")
    expect(page.texts("#list tbody td:nth-child(3)")[:5], ["11 h late", "8 h late", "7 h late", "just on time", "2 h early"])
    page.click("#late-only")
    expect(page.texts("#list tbody td:nth-child(3)"), ["11 h late", "8 h late", "7 h late"])
    page.browser.choose("#sort", "name")
    expect(page.texts("#list tbody th"), ["Annual report, inside", "School newspaper", "Wedding invitations"])
    page.browser.choose("#sort", "machine")
    expect(len(page.texts("#list tbody th")), 3)


@way
def list_of_jobs(page):
    """What a line of the list says of a job, and the orders of the lines."""
    page.example(0)
    expect(page.texts("#list thead th"), ["#", "Job", "Lateness", "Start", "Until", "Due"])
    expect(page.text("#list tbody tr").split("\t"),
           ["3", "Business cards Meyer", "6 h early", "Mon 3 Mar 08:00", "Mon 3 Mar 10:00", "Mon 3 Mar"])
    page.browser.choose("#sort", "row")
    expect(page.texts("#list tbody tr td:first-child"), [str(k) for k in range(1, 13)])
    page.notation("1|rj,prmp|Lmax")
    page.import_cells("Name,Time,Due,Release\nLong,4,20,0\nQuick,1,3,1\n")
    for order, names in (("start", ["Long", "Quick"]), ("completion", ["Quick", "Long"]), ("name", ["Long", "Quick"])):
        page.browser.choose("#sort", order)
        expect(page.texts("#list tbody th"), names, order)


@way
def pages_of_a_long_list(page):
    """The second page of the jobs and of the list begins where the first one ends; what is not seen at first is drawn too."""
    page.notation("1||sumC")
    page.import_cells("Name\tTime\n" + "".join(f"Order {k}\t{k}\n" for k in range(1, 251)))
    expect(page.run("""["#jobs-table tbody tr", "#list tbody tr", ".chart .bar:not(:has(title))"]
        .map((each) => document.querySelectorAll(each).length)"""), [100, 100, 0], "rows, lines, bars without a title")
    expect(page.texts("#jobs-table tbody th"), [str(k) for k in range(1, 101)])
    for place, first in (("jobs", page.cell(101, "name")), ("list", "#list tbody tr:first-child th")):
        page.click(f"#{place}-pager [aria-label='Next page']")
        expect_in("101–200 of 250", page.text(f"#{place}-pager"))
        expect(page.value(first) if place == "jobs" else page.text(first), "Order 101")
    page.click("#jobs-pager [aria-label='Last page']")
    expect([page.value(page.cell(row, "name")) for row in (201, 250)], ["Order 201", "Order 250"])


@way
def calendar_by_hand(page):
    """Days of the week are worked or not as they are ticked, and the order of day and month is as it is chosen."""
    page.import_cells(SHOP)
    page.run("document.getElementById('calendar').open = true")
    page.browser.choose('[data-setting="dayFirst"]', "false")
    page.settle()
    expect_in("job 1 p=4 d=184\n", table_text(page))  # 3 April is the 23rd working day from 4 March on
    page.browser.choose('[data-setting="dayFirst"]', "true")
    page.settle()
    expect_in("job 1 p=4 d=8\n", table_text(page))
    page.example(0)
    page.click("#weekdays [value='1']")
    page.settle()
    expect_in("from Tue 4 Mar 08:00", page.text("#headline .assumed summary"))
    page.click("#weekdays [value='1']")
    page.click("#weekdays [value='6']")
    page.settle()
    expect(page.texts("#list tbody tr:nth-child(8) td")[2:4], ["Sat 8 Mar 08:00", "Sat 8 Mar 15:00"])


@way
def jobs_keep_their_columns(page):
    """Five columns of the job table are not cut off at the widths of laptops."""
    for number, notation in ((0, "1|prec|sumwT"), (3, "F2||Cmax")):
        page.example(number)
        page.notation(notation)
        for width in (1200, 1280, 1366, 1920):
            page.browser.size(width, 800)
            page.run("new Promise((resolve) => setTimeout(resolve, 100))")
            if page.run("(() => { const it = document.getElementById('jobs-scroll'); return it.scrollWidth > it.clientWidth; })()"):
                raise AssertionError(f"the jobs are cut off at {width} pixels")


@way
def times_of_day_are_seen(page):
    """Due and release dates with a time of day are not cut off in the job table of a laptop."""
    page.import_cells("Order;Time (h);Ready;Due\nBrackets;3;30.11.2026;01.12.2026\n"
                      "Gear;5;30.11.2026 10:00;02.12.2026 12:00\n")
    for width in (1200, 1366, 1920):
        page.browser.size(width, 800)
        page.run("new Promise((resolve) => setTimeout(resolve, 100))")
        cut = page.run("""[...document.querySelectorAll("#jobs-table input, #jobs-scroll")]
            .filter((each) => each.scrollWidth > each.clientWidth).map((each) => each.value ?? each.id)""")
        expect(cut, [], f"cut off at {width} pixels")


@way
def whole_texts_of_fields(page):
    """A name or a route that is cut off is seen whole in its field while that has the focus, and under the mouse."""
    route = "2,5 h@Sawing; 3 h@Milling; 2 h@Painting; 1 h@Packing"
    page.import_cells(f"Order\tRoute\tDue\nShelf Meyer, oak, large\t{route}\t2030-12-03\nDoor\t1 h@Sawing\t2030-12-03\n")
    page.browser.size(1366, 800)
    for field, text in (("name", "Shelf Meyer, oak, large"), ("route", route)):
        it = f"document.querySelector({json.dumps(page.cell(1, field))})"
        page.run(f"{it}.dispatchEvent(new PointerEvent('pointerover', {{ bubbles: true }}))")
        expect(page.run(f"{it}.title"), text)
        expect(page.run(f"[{it}.scrollWidth > {it}.clientWidth, {it}.focus(), {it}.scrollWidth > {it}.clientWidth]"),
               [True, None, False], f"{field}: cut off before the focus, and with it")
        expect(page.run("document.getElementById('jobs-scroll').scrollWidth > document.getElementById('jobs-scroll').clientWidth"),
               False)
    page.run(f"document.querySelector({json.dumps(page.cell(2, 'route'))}).focus()")
    expect(page.run("document.querySelectorAll('.grown').length"), 0, "a text that is not cut off stays in its column")
    page.browser.size(360, 740)
    page.run("document.getElementById('jobs-scroll').scrollLeft = 90")
    page.run(f"document.querySelector({json.dumps(page.cell(1, 'route'))}).focus()")
    expect(page.run("""(() => {
        const field = document.querySelector(".grown").getBoundingClientRect();
        const frame = document.getElementById("jobs-scroll").getBoundingClientRect();
        return field.left >= frame.left && field.right <= frame.right && field.width > frame.width * 0.8;
    })()"""), True, "on a phone it is as wide as is seen of the table")


@way
def first_screen(page):
    """On a laptop's first screen are the value and the whole chart; the problem is a line until it is opened."""
    for width, height in ((1366, 768), (1280, 800)):
        page.browser.size(width, height)
        page.example(0)
        box = page.run("(({ top, bottom }) => [top, bottom])(document.getElementById('chart-frame').getBoundingClientRect())")
        if box[0] > height / 2 + 100 or box[1] > height:
            raise AssertionError(f"the chart stands at {box} of {height}")
    page.import_cells(ROUTES.replace("@", " h@").replace(";14", ";2030-12-03").replace(";1", ";2030-12-1"))
    box = page.run("(({ top, bottom }) => [top, bottom])(document.getElementById('chart-frame').getBoundingClientRect())")
    if page.run("document.getElementById('notice').hidden") or box[1] > 800:
        raise AssertionError(f"the chart of a job shop stands at {box} of 800")
    page.example(0)
    expect(page.run("document.getElementById('problem').open"), False)
    expect_in("One machine, some jobs after others: the latest job as little late as possible", page.text("#problem > summary"))
    page.click("#problem > summary")
    page.notation("1||Lmax")
    expect(page.run("document.getElementById('problem').open"), True, "what was opened stays open")
    page.notation("1||")
    page.click("#problem > summary")
    page.notation("1||Cmx")
    expect(page.run("document.getElementById('problem').open"), True, "a fault is seen")


@way
def beginning(page):
    """The empty page has one main action."""
    expect(page.texts("main .main, header .main"), ["Paste your jobs here …"])
    expect(page.run("document.getElementById('print').disabled"), True)
    page.click("#begin-paste")
    page.wait("document.getElementById('import').open")
    page.type("#import-text", "Name,Time,Due\nA,3,4\n")
    page.click("#import-replace")
    page.settle()
    expect(page.run("document.getElementById('begin').hidden"), True)
    expect(page.run("document.getElementById('print').disabled"), False)


@way
def machine_names(page):
    """Machines have their names from the headings, or as they are typed: in the chart, the list and the files."""
    page.import_cells("Order;Sawing (h);Painting (h);Due\nShelves;2;3;2030-12-10\nDesk;4;1;2030-12-11\n")
    expect(page.value("#machine-names"), "Sawing; Painting")
    expect_in("Time, Painting", " ".join(page.texts("#jobs-table thead th")))
    expect(labels(page), ["Sawing", "Painting"])
    expect_in("Shelves, Painting: ", page.run("document.querySelector('.chart').textContent"))
    page.browser.choose("#sort", "machine")
    expect(page.texts("#list thead th"), ["Machine", "Start", "Job", "Lateness", "Takes", "Until", "Due"])
    expect(page.texts("#list tbody td:first-child"), ["Sawing", "Sawing", "Painting", "Painting"])
    page.run("document.querySelector('[data-save=csv]').click()")
    saved = page.browser.downloaded("plan.csv").decode("utf-8-sig").split("\r\n")
    expect([line.split(";")[:2] for line in saved[1:3]], [["Shelves", "Sawing"], ["Desk", "Sawing"]])
    page.run("document.querySelector('[data-save=table]').click()")
    table = page.browser.downloaded("plan-table.txt").decode()
    expect(table.split("\n")[:3], ["table 1", "# machine 1: Sawing", "# machine 2: Painting"])
    page.run("document.querySelector('[data-save=state]').click()")
    state = page.browser.downloaded("plan.json")
    page.type("#machine-names", "Saw")
    page.settle()
    expect(labels(page), ["Saw", "Machine 2"])
    for text in (state, table):
        page.fresh()
        page.open_text("plan.txt", text)
        page.wait("document.getElementById('machine-names').value === 'Sawing; Painting'")


@way
def work_lists(page):
    """Print has a list for each machine, with a box to tick; on one machine the list by jobs has the boxes."""
    page.import_cells("Order;Sawing (h);Painting (h);Due\nShelves;2;3;2030-12-10\nDesk;4;1;2030-12-11\n")
    print_events = "window.dispatchEvent(new Event('beforeprint'))"
    page.run(print_events)
    page.browser.call("Emulation.setEmulatedMedia", media="print")
    expect(page.texts(".work-list h3"), ["Sawing", "Painting"])
    expect(page.texts(".work-list:last-child th"), ["Start", "Job", "Takes", "Until", "Due", "Done"])
    rows = [line.split("\t") for line in page.texts(".work-list:last-child tbody tr")]
    expect([(row[1], row[2]) for row in rows], [("Shelves", "3 h"), ("Desk", "1 h")])
    page.browser.call("Emulation.setEmulatedMedia", media="")
    page.run("window.dispatchEvent(new Event('afterprint'))")
    expect(page.run("document.querySelectorAll('.work-list').length"), 0)
    page.example(0)
    page.run(print_events)
    expect(page.run("document.querySelectorAll('.work-list').length"), 0)
    expect(page.texts("#list thead th")[-1], "Done")
    page.example(4)
    page.run(print_events)
    expect(page.run("document.querySelectorAll('.work-list').length"), 1, "jobs in pieces on one machine")


@way
def style_of_the_sources(page):
    """The page's style has the rules of its source, which has more spaces."""
    source = (HERE / "src" / "style.css").read_text(encoding="utf-8")
    rules = page.run(f"""(() => {{
        const sheet = new CSSStyleSheet();
        sheet.replaceSync({json.dumps(source)});
        return [sheet, document.styleSheets[0]].map((each) => [...each.cssRules].map((rule) => rule.cssText));
    }})()""")
    expect(rules[1], rules[0])
    expect(len(rules[0]) > 100, True)


@way
def dark(page):
    page.browser.dark(True)
    page.example(0)
    expect(page.run("getComputedStyle(document.body).backgroundColor"), "rgb(21, 23, 26)")
    expect(page.run("getComputedStyle(document.querySelector('#legend .swatch-late')).borderTopColor"),
           page.run("getComputedStyle(document.querySelector('.chart .late-edge')).fill"), "the legend's mark of late jobs")


@way
def names_for_screen_readers(page):
    """Each control has a name, and each table a heading for its columns."""
    page.example(0)
    page.run("document.querySelectorAll('details').forEach((each) => { each.open = true; })")
    tree = page.browser.call("Accessibility.getFullAXTree")["nodes"]
    roles = {"textbox", "button", "combobox", "checkbox", "link", "image", "table"}
    nameless = [node["role"]["value"] for node in tree if not node["ignored"]
                and node["role"]["value"] in roles and not node.get("name", {}).get("value")]
    expect(nameless, [], "controls without a name")
    names = {node["name"]["value"].split(":")[0] for node in tree if not node["ignored"] and node["role"]["value"] == "button"}
    expect("Business cards Meyer, Machine 1" in names, True, "bars are buttons with names")


@way
def module_that_does_not_load(page):
    """A browser that can't run the module: the page says so, and the table is there all the same."""
    page.example(0)
    page.click("#link")
    page.wait("location.hash.startsWith('#plan=')")
    plan = page.run("location.hash")
    text = Path(page.address.removeprefix("file://")).read_text(encoding="utf-8")
    broken = re.sub(r'(id="module-bytes">)[^<]*', r"\1AAAA", text)
    path = Path(page.browser.folder.name) / "broken.html"
    path.write_text(broken, encoding="utf-8")
    page.browser.open(f"file://{path}{plan}")
    page.run("new Promise((resolve) => setTimeout(resolve, 700))")
    expect_in("can't run the solver", page.text("#headline"))
    expect(page.value(page.cell(1, "name")), "Plates, spring catalogue")
    page.browser.open(f"file://{path}")
    page.wait("/can't run the solver/.test(document.getElementById('headline').innerText)")
    page.import_cells("Name,Time,Due\nA,3,4\n")
    expect(page.run("document.getElementById('table-text').textContent"), "table 1\njob 1 p=3 d=4\n")
    expect_in("can't run the solver", page.text("#headline"))


@way
def problems_are_the_modules(page):
    """The problems that the page calls solved are those that the module lists."""
    source = (HERE / "src" / "problems.js").read_text(encoding="utf-8")
    solved = set(re.findall(r'^  \["([^"]+\|[^"]*)", "', source, re.MULTILINE))
    [[status, listed, _]] = in_browser(page, [{"command": "problems"}])
    expect(status, 0)
    names = {line.split()[0] for line in listed.splitlines()[1:]}
    expect({re.sub(r"^([FO])\|", r"\g<1>2|", name) for name in names}, solved)


@way
def first_answer(page):
    """How long it takes from opening a link until its plan is there: printed, and not judged."""
    page.example(0)
    page.click("#link")
    page.wait("location.hash.startsWith('#plan=')")
    address = page.run("location.href")
    times = []
    for _ in range(3):
        page.browser.open(address)
        page.wait("performance.getEntriesByName('plan shown').length")
        times.append(round(page.run("performance.getEntriesByName('plan shown')[0].startTime")))
    print(f"        first plan after {times} ms")


# ---- much ----

def large(page):
    """100,000 jobs: how long until the plan is there, how long the page stands still, and how much memory it takes, after
    one change and at most in forty."""
    numbers = random.Random(7)
    lines = [f"job {k} p={numbers.randint(1, 99)} d={numbers.randint(1, 5_000_000)} r={numbers.randint(0, 5_000_000)} "
             f"w={numbers.randint(1, 99)}" for k in range(1, 100_001)]
    for problem in ("1||Lmax", "1|rj,prmp|Lmax", "1||sumwC", "P7|prmp|Cmax", "P7||sumC"):
        page.fresh()
        page.type("#notation", problem)
        page.run("""window.longest = 0; new PerformanceObserver((list) => {
            for (const entry of list.getEntries()) window.longest = Math.max(window.longest, entry.duration);
        }).observe({ entryTypes: ["longtask"] })""")
        page.open_text("large.txt", "table 1\n" + "\n".join(lines) + "\n")
        begun = time.monotonic()
        page.wait("document.querySelector('#headline .proved')", 120)
        opened = time.monotonic() - begun
        page.run("window.longest = 0; document.querySelector('#engine').textContent = ''")
        page.type(page.cell(3, "time"), "50")
        begun = time.monotonic()
        page.wait("document.querySelector('#engine').textContent", 120)
        again = time.monotonic() - begun
        page.run("new Promise((resolve) => setTimeout(resolve, 500))")
        print(f"    {problem}: opened and solved in {opened:.2f} s, again after a change in {again:.2f} s; the page "
              f"stood still for {page.run('window.longest'):.0f} ms; {page.text('#engine')}")
        own, whole = memory(page)
        most = max(after_change(page, k, numbers) for k in range(40))
        print(f"        memory of the page's process: {own} MB of its own, {whole} MB with what is shared; of its own at most "
              f"{most} MB in 40 changes")


def after_change(page, k, numbers):
    """The page's own memory after a change of another kind: of a time or a due date, back, with another zoom or order."""
    page.run("document.querySelector('#engine').textContent = ''")
    if k % 5 == 3:
        page.click("#undo")
    else:
        page.type(page.cell(numbers.randint(1, 90), "due" if k % 5 == 4 else "time"), str(numbers.randint(1, 99)))
    page.wait("document.querySelector('#engine').textContent", 120)
    if k % 5 == 1:
        page.run("document.querySelector('[data-zoom=in]').click()")
    elif k % 5 == 2:
        page.browser.choose("#sort", ["completion", "lateness", "name", "start"][k // 5 % 4])
    page.run("new Promise((resolve) => setTimeout(resolve, 400))")
    return memory(page)[0]


def memory(page):
    """The memory of the page's process in MB, by the system: its own, and with what it shares with other processes."""
    processes = page.browser.call("SystemInfo.getProcessInfo")["processInfo"]
    sizes = []
    for pid in [each["id"] for each in processes if each["type"] == "renderer"]:
        status = Path(f"/proc/{pid}/status").read_text()
        kinds = [re.search(rf"{kind}:\s+(\d+) kB", status) for kind in ("RssAnon", "VmRSS")]
        sizes.append([int(found.group(1)) // 1024 for found in kinds])
    return max(sizes)


# ---- the module in the browser and the native program ----

LOADED = """
    const text = document.getElementById("module-bytes").textContent;
    const { run, can } = await loadSolver(unpackedBytes(text));
"""
CAN = LOADED + """
    return ["plan"].filter(can);
"""
RUNS = LOADED + """
    const encode = (each) => new TextEncoder().encode(each ?? "");
    return REQUESTS.map((request) => {
        const found = run({ ...request, instance: encode(request.instance), answer: encode(request.answer) });
        return [found.status, new TextDecoder().decode(found.output), found.errors];
    });
"""


def solver_script():
    """What unpacks the module and runs it."""
    return "\n".join((HERE / "src" / f"{name}.js").read_text(encoding="utf-8") for name in ("unpacking", "solver"))


def in_browser(page, requests):
    """What the module says in the browser: status, output and errors of each request."""
    return page.run(f"(async () => {{ {solver_script()}\n{RUNS.replace('REQUESTS', json.dumps(requests), 1)} }})()")


def has_plans(page):
    """Whether the module of the page has the command `plan`."""
    return "plan" in page.run(f"(async () => {{ {solver_script()}\n{CAN} }})()")


def in_program(program, request, folder):
    """What the native program says of the same request."""
    places = {}
    for name in ("instance", "answer"):
        places[name] = Path(folder) / name
        places[name].write_text(request.get(name, ""), encoding="utf-8")
    command = request["command"]
    asked = ["-p", request.get("problem", "")]
    words = {
        "gantt": ["gantt", "-c", str(request.get("columns")), places["answer"]], "problems": ["problems"],
        "picture": ["gantt", "--svg", places["answer"]], "solve": ["solve", *asked, places["instance"]],
        "bound": ["bound", *asked, places["instance"]], "plan": ["plan", *asked, places["instance"]],
    }.get(command, [command, *asked, *["--certificate"] * (command == "evaluate"), *places.values()])
    ran = subprocess.run([program, *words], capture_output=True, check=False)
    return [ran.returncode, ran.stdout.decode(), ran.stderr.decode()]


def reported(program, request, folder):
    """The answer of the native program, and its evaluation behind it."""
    status, answer, errors = in_program(program, {**request, "command": "solve"}, folder)
    if status != 0:
        return [status, answer, errors]
    status, evaluation, errors = in_program(program, {**request, "command": "evaluate", "answer": answer}, folder)
    return [status, answer + evaluation, errors]


def like_the_program(page, program):
    """Every example of the nineteen problems, its answers whole and damaged, and bounds."""
    examples = HERE.parent / "examples"
    tables = [line.split(" ") for line in (examples / "nineteen.txt").read_text().splitlines() if line]
    asked = [{"problem": problem, "instance": (examples / name).read_text()} for problem, name in tables]
    asked += [{"problem": problem, "instance": (examples / "all_fields.txt").read_text()}
              for problem in ("1||sumwT", "1|rj|Lmax", "P2||Cmax", "P2||sumwC", "R2||Cmax", "1||", "P||sumC")]
    asked += [{"problem": problem, "instance": (examples / "routes.txt").read_text()}
              for problem in ("J||Cmax", "J3||Lmax", "J2||Cmax", "J|rcrc|Cmax", "P2||Cmax")]
    asked += [{"problem": "1||Lmax", "instance": (examples / "slips.txt").read_text()}]
    commands = ("solve", "bound", "plan") if has_plans(page) else ("solve", "bound")
    requests = [{"command": command, **each} for each in asked for command in commands]
    requests += [{"command": "report", "certificate": True, **each} for each in asked]
    requests.append({"command": "problems"})
    requests += [{"command": "bound", "problem": problem, "instance": (examples / "routes.txt").read_text()}
                 for problem in ("J||sumwT", "J||sumwU", "J|prec|sumC")]
    for each in asked:
        _, answer, _ = in_program(program, {"command": "solve", **each}, page.browser.folder.name)
        damaged = answer.replace("piece 1 1 0", "piece 1 1 1"), answer.replace("value", "valeu"), answer[:-4]
        for text in (answer, *damaged):
            requests += [{"command": command, "answer": text, "certificate": True, "columns": 40, **each}
                         for command in ("check", "evaluate", "gantt", "picture")]
    for request, found in zip(requests, in_browser(page, requests), strict=True):
        run = reported if request["command"] == "report" else in_program
        expect(found, run(program, request, page.browser.folder.name), str(request))
    print(f"        {len(requests)} runs are byte for byte those of the program")


def pictures(page):
    PICTURES.mkdir(exist_ok=True)
    page.browser.size(1400, 940)
    page.example(0)
    page.browser.screenshot(PICTURES / "page.png")
    page.browser.size(360, 760)
    page.run("document.getElementById('plan').scrollIntoView()")
    page.settle()
    page.browser.screenshot(PICTURES / "phone.png")
    handler = functools.partial(http.server.SimpleHTTPRequestHandler, directory=Path(page.address.removeprefix("file://")).parent)
    handler.func.log_message = lambda *_: None
    with http.server.ThreadingHTTPServer(("127.0.0.1", 8000), handler) as server:
        threading.Thread(target=server.serve_forever, daemon=True).start()
        picture_of_the_sheet(page, "http://localhost:8000/threefield.html")
        server.shutdown()
    page.browser.requests.clear()


def picture_of_the_sheet(page, address):
    """The printed page, with the code of an address that is no file of this machine."""
    page.browser.open(address, 1040, 720)
    page.wait("document.querySelector('#jobs-table tbody tr')")
    page.example(0)
    page.run("new Promise((resolve) => setTimeout(resolve, 600))")
    page.browser.call("Emulation.setEmulatedMedia", media="print")
    page.run("scrollTo(0, 0); document.body.style.padding = '10px'")
    page.run("new Promise((resolve) => setTimeout(resolve, 300))")
    page.run("window.dispatchEvent(new Event('beforeprint'))")
    page.browser.screenshot(PICTURES / "sheet.png")


def main(words):
    options = {word for word in words if word.startswith("--")}
    pages = [word for word in words if word.endswith(".html")]
    names = [word for word in words if word not in pages and word not in options]
    program = next((word.removeprefix("--program=") for word in options if word.startswith("--program=")), None)
    if options - {"--large", "--pictures", "--firefox", f"--program={program}"}:
        sys.exit(__doc__)
    if "--firefox" in options and not names:
        names = IN_FIREFOX
    address = f"file://{Path(pages[0] if pages else HERE / 'threefield.html').resolve()}"
    try:
        browser = Firefox() if "--firefox" in options else Browser()
    except (OSError, EOFError, RuntimeError) as error:
        print(f"the browser does not start: {error}")
        return NOT_STARTED
    page = Page(browser, address)
    failed = []
    tried = [each for each in WAYS if not names or each.__name__ in names]
    tried += [large] * ("--large" in options) + [pictures] * ("--pictures" in options)
    if program:
        tried.append(functools.partial(like_the_program, program=program))
    try:
        for each in tried:
            browser.problems.clear()
            name = getattr(each, "func", each).__name__
            try:
                page.fresh()
                each(page)
                expect(browser.problems, [], "errors of the page")
                print(f"ok      {name}", flush=True)
            except (AssertionError, TimeoutError, RuntimeError) as error:
                failed.append(name)
                print(f"FAILED  {name}: {error}", flush=True)
        asked = {each.split(":")[0] for each in browser.requests}
        if asked - {"file", "blob", "about", "data"}:
            failed.append("network")
            print(f"FAILED  the page asks a network: {asked}")
    finally:
        browser.close()
    print(f"{len(tried) - len(set(failed) - {'network'})} passed, {len(failed)} failed")
    return 1 if failed else 0


if __name__ == "__main__":
    sys.exit(main(sys.argv[1:]))
