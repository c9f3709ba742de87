// The planner's table: rows of inputs, and under each row what is wrong with it.

import { assumedOf } from "./calendar.js";
import { drawNow, later } from "./later.js";
import { machineNames } from "./machines.js";
import { Pager, PAGE } from "./pager.js";
import { html } from "./svg.js";
import { unitOfRoute } from "./routes.js";
import { FIELDS, FIELD_WORDS, newRow } from "./table.js";

const HINTS = { name: "", time: "3", time2: "2", route: "3@1, 4@2", left: "", weight: "1",
  due: "", release: "", cost: "0,5:10", after: "names" };
const COLUMNS = Object.keys(FIELD_WORDS);
const MOST_LISTED = 5;
// The rows that are seen before the table is scrolled are no more than these.
const MOST_AT_ONCE = 30;
// The letters of a date without a time of day, as 2026-12-03.
const DATE_LETTERS = 10;

export class RowsView {
  /**
   * @param {import("./store.js").Store} store
   * @param {(place: number) => void} onFocus told of the row in which the cursor is
   */
  constructor(store) {
    this.store = store;
    this.table = document.getElementById("jobs-table");
    this.head = this.table.tHead;
    this.body = this.table.tBodies[0];
    this.notes = document.getElementById("row-notes");
    this.allColumns = document.getElementById("all-columns");
    this.pager = new Pager(document.getElementById("jobs-pager"), "Jobs", () => this.drawAll());
    this.used = new Set(FIELDS);
    this.wanted = new Set();
    this.findings = { faults: [], notes: [] };
    this.calendar = null;
    this.body.addEventListener("input", (event) => this.edit(event.target));
    this.body.addEventListener("keydown", (event) => this.move(event));
    for (const kind of ["focusin", "input", "focusout", "pointerover"]) {
      this.body.addEventListener(kind, ({ target, type }) => showWhole(target, type));
    }
    this.allColumns.addEventListener("change", () => this.drawAll());
    this.isScrolled = false;
    this.table.parentElement.addEventListener("scroll", ({ target }) => {
      this.isScrolled = target.scrollTop > 0;
      drawNow(this);
    });
  }

  /** Shows these columns as used by the problem. */
  setUsed(used) {
    const before = [this.columns().join(), [...this.used].join()];
    this.used = used;
    if (this.columns().join() !== before[0]) this.draw();
    else if ([...used].join() !== before[1]) this.drawHead();
  }

  columns() {
    if (this.allColumns.checked) return COLUMNS;
    const { rows } = this.store.state;
    return COLUMNS.filter((field) => field === "name" || this.used.has(field)
      || this.wanted.has(field)
      || ["due", "left"].includes(field) && rows.some((row) => row[field] !== ""));
  }

  /** Shows a column although the problem doesn't use it. */
  showColumn(field) {
    this.wanted.add(field);
    this.draw();
  }

  drawAll() {
    this.draw();
    drawNow(this);
  }

  /**
   * Draws the page of rows anew; the cursor stays in its field. Rows that are not seen at first may
   * come a little later.
   */
  draw() {
    const focused = this.body.contains(document.activeElement) ? document.activeElement : null;
    const [place, field] = [focused?.closest("tr")?.dataset.place, focused?.dataset.field];
    const { rows } = this.store.state;
    this.shown = this.columns();
    this.pager.show(rows.length);
    this.drawHead();
    const { first, end } = this.pager;
    const last = end === rows.length ? end : end - 1;
    const seen = this.isScrolled ? last : Math.min(first + MOST_AT_ONCE, last);
    this.body.replaceChildren(...this.lines(first, seen),
      this.line(rows[last] ?? newRow(), last));
    later(this, seen < last && (() => this.body.lastChild.before(...this.lines(seen, last))));
    this.drawFindings();
    if (field) this.inputAt(place, field)?.focus();
  }

  /** The lines of the rows from one place up to another. */
  lines(from, to) {
    const { rows } = this.store.state;
    return Array.from({ length: to - from }, (_, k) => this.line(rows[from + k], from + k));
  }

  inputAt(place, field) {
    drawNow(this);
    return this.body.querySelector(`tr[data-place="${place}"] input[data-field="${field}"]`);
  }

  drawHead() {
    const unused = (field) => html("span", { class: "unused" },
      field === "due" ? " (shown only)" : " (not used)");
    const isUsed = (field) => field === "left" || this.used.has(field);
    const names = machineNames(this.store.state.machineNames);
    const words = (field) => {
      const machine = { time: 1, time2: 2 }[field];
      if (!machine || !this.used.has("time2")) return FIELD_WORDS[field];
      return names[machine - 1] ? `Time, ${names[machine - 1]}` : `Time on machine ${machine}`;
    };
    const heads = (this.shown ?? []).map((field) => html("th", { scope: "col" },
      words(field), isUsed(field) ? null : unused(field)));
    this.head.replaceChildren(html("tr", {}, html("th", { scope: "col" }, "#"), heads,
      html("th", {}, html("span", { class: "visually-hidden" }, "Delete"))));
  }

  line(row, place) {
    const isNew = place === this.store.state.rows.length;
    const cells = this.shown.map((field) => this.cell(row, place, field));
    const remove = html("button", { type: "button", class: "remove", title: "Delete this row",
      "aria-label": `Delete row ${place + 1}`, hidden: isNew,
      click: () => this.remove(place) }, "✕");
    return html("tr", { "data-place": place, class: isNew ? "new" : "" },
      html("th", { scope: "row" }, isNew ? "+" : String(place + 1)), cells, html("td", {}, remove));
  }

  /** A field, and beside it what is added to its text when it is read: a unit or a year. */
  cell(row, place, field) {
    const isNew = place === this.store.state.rows.length;
    const isTimed = ["due", "release"].includes(field) && row[field].length > DATE_LETTERS;
    const input = html("input", {
      "aria-label": `${FIELD_WORDS[field]}, row ${place + 1}`, "data-field": field,
      value: row[field], placeholder: isNew ? HINTS[field] : "",
      class: `in-${field}${isTimed ? " timed" : ""}`,
      autocomplete: "off", spellcheck: "false",
    });
    return html("td", {}, input, html("span", { class: "assumed-unit" },
      addedTo(this.calendar, field, row[field])));
  }

  /** Reads texts by this calendar, and shows what it adds to them. */
  setCalendar(calendar) {
    this.calendar = calendar;
    for (const input of this.body.querySelectorAll("input")) {
      input.nextElementSibling.textContent = addedTo(calendar, input.dataset.field, input.value);
    }
  }

  edit(input) {
    drawNow(this);
    const line = input.closest("tr");
    const place = Number(line.dataset.place);
    const rows = [...this.store.state.rows];
    const isNew = place === rows.length;
    const before = rows[place] ?? newRow();
    rows[place] = { ...before, [input.dataset.field]: input.value };
    this.isTyping = true;
    this.store.change({ rows }, `row ${rows[place].id} ${input.dataset.field}`);
    this.isTyping = false;
    if (isNew) this.becomeRow(line, place);
  }

  /** The empty last line has become a row: it gets its number, and another empty line follows. */
  becomeRow(line, place) {
    line.classList.remove("new");
    line.querySelector("th").textContent = String(place + 1);
    line.querySelector("button").hidden = false;
    for (const input of line.querySelectorAll("input")) input.placeholder = "";
    const isPageFull = (place + 1) % PAGE === 0;
    this.pager.show(place + 1);
    if (!isPageFull) line.after(this.line(newRow(), place + 1));
  }

  remove(place) {
    this.store.change({ rows: this.store.state.rows.filter((_, each) => each !== place) });
    drawNow(this);
    const next = this.body.querySelector(`tr[data-place="${place}"] input`);
    (next ?? this.body.querySelector("tr:last-child input"))?.focus();
  }

  /** Enter and the arrows go up and down. */
  move(event) {
    const step = { Enter: 1, ArrowDown: 1, ArrowUp: -1 }[event.key];
    const field = event.target.dataset?.field;
    if (!step || !field || event.isComposing) return;
    event.preventDefault();
    const place = Number(event.target.closest("tr").dataset.place) + step;
    this.focus(place, field);
  }

  /** Puts the cursor into a field; turns the page where it is on another. */
  focus(place, field) {
    const { rows } = this.store.state;
    if (place < 0 || place > rows.length) return;
    if (place < this.pager.first || place >= this.pager.first + PAGE) {
      this.pager.turnTo(Math.min(place, rows.length - 1));
      this.draw();
    }
    if (field && !this.shown.includes(field)) {
      this.allColumns.checked = true;
      this.draw();
    }
    const input = this.inputAt(place, field ?? "name");
    input?.focus();
    input?.select();
  }

  /** Shows what is wrong with rows and what is to be noted, under each row and in short above. */
  setFindings(findings) {
    this.findings = findings;
    this.drawFindings();
  }

  drawFindings() {
    for (const old of this.body.querySelectorAll("tr.found")) old.remove();
    for (const input of this.body.querySelectorAll("[aria-describedby]")) {
      input.removeAttribute("aria-describedby");
      input.removeAttribute("aria-invalid");
      input.classList.remove("noted");
    }
    const { faults, notes } = this.findings;
    const seen = [...faults.map((each) => ({ ...each, isFault: true })), ...notes]
      .filter((each) => each.row >= this.pager.first && each.row < this.pager.end);
    if (seen.length > 0) drawNow(this);
    seen.forEach((finding, number) => this.drawFinding(finding, `found-${number}`));
    this.notes.replaceChildren(...this.summary());
  }

  drawFinding({ row, field, message, isFault }, id) {
    const line = this.body.querySelector(`tr[data-place="${row}"]`);
    if (!line) return;
    const input = line.querySelector(`input[data-field="${field}"]`);
    input?.setAttribute("aria-describedby", id);
    if (isFault) input?.setAttribute("aria-invalid", "true");
    else input?.classList.add("noted");
    let after = line;
    while (after.nextElementSibling?.classList.contains("found")) after = after.nextElementSibling;
    const words = field ? `${FIELD_WORDS[field]}: ${message}` : message;
    after.after(html("tr", { class: `found ${isFault ? "fault" : "note"}` }, html("td"),
      html("td", { colspan: this.shown.length + 1, id }, words)));
  }

  /** The first faults, each with a button that leads to its row. */
  summary() {
    const { faults, notes } = this.findings;
    const general = faults.filter((each) => each.row === null);
    const inRows = faults.filter((each) => each.row !== null);
    const lines = general.map((each) => html("p", { class: "fault" }, each.message));
    if (inRows.length > 0) {
      const rows = new Set(inRows.map((each) => each.row)).size;
      const links = inRows.slice(0, MOST_LISTED).map((each) => html("button", {
        type: "button", class: "link", click: () => this.focus(each.row, each.field),
      }, `row ${each.row + 1}${each.field ? ", " + FIELD_WORDS[each.field] : ""}`));
      lines.push(html("p", { class: "fault" },
        rows === 1 ? "One row needs to be corrected: " : `${rows} rows need to be corrected: `,
        links.flatMap((link, k) => k === 0 ? [link] : ["; ", link]),
        inRows.length > MOST_LISTED ? ` and ${inRows.length - MOST_LISTED} more` : ""));
    }
    if (notes.length > 0) {
      const link = html("button", { type: "button", class: "link",
        click: () => this.focus(notes[0].row, notes[0].field) }, `row ${notes[0].row + 1}`);
      lines.push(html("p", { class: "note" }, notes.length === 1 ? "One thing to note, in "
        : `${notes.length} things to note, the first in `, link, "."));
    }
    return lines;
  }
}

/** What is added to the text of a field when it is read, or "". */
function addedTo(calendar, field, text) {
  return field === "route" ? unitOfRoute(calendar, text) : assumedOf(calendar, field, text);
}

/**
 * Makes a field that cuts its text off as wide as is seen of the table while it has the focus, and
 * tells it to the mouse.
 */
function showWhole(field, when) {
  if (!field.dataset.field) return;
  const isCut = field.scrollWidth > field.clientWidth;
  if (when === "pointerover") field.title = isCut ? field.value : "";
  else if (when === "focusout") field.classList.remove("grown");
  else if (isCut) {
    field.style.left = `${field.closest(".scroll").scrollLeft}px`;
    field.classList.add("grown");
  }
}
