// The dialog in which cells of a spreadsheet become rows of the table.

import { guess } from "./guesses.js";
import { machineNames, machineText } from "./machines.js";
import { machinesOf, readCells, readColumns, rowsOfCells, unitOfTimes } from "./spreadsheet.js";
import { shortened } from "./precedence.js";
import { namesInRoutes } from "./routes.js";
import { html } from "./svg.js";
import { FIELD_WORDS } from "./table.js";

const UNUSED = "";
const MOST_SHOWN = 200000;
const MOST_LINES = 20000;
const MOST_CHOICES = 200;
const MOST_UNUSED = 20;

export class ImportView {
  /**
   * @param {import("./store.js").Store} store
   * @param {(message: string) => void} notify
   */
  constructor(store, notify) {
    this.store = store;
    this.notify = notify;
    this.dialog = document.getElementById("import");
    this.text = document.getElementById("import-text");
    this.columnsPlace = document.getElementById("import-columns");
    this.words = document.getElementById("import-words");
    this.delimiter = null;
    this.cells = [];
    this.text.addEventListener("input", () => this.read());
    this.text.addEventListener("paste", (event) => this.paste(event));
    document.getElementById("import-replace").addEventListener("click", () => this.finish(true));
    document.getElementById("import-add").addEventListener("click", () => this.finish(false));
  }

  /** Opens the dialog, perhaps with a text that was pasted or read from a file. */
  open(text = "") {
    this.dialog.showModal();
    this.setText(text);
    this.text.focus();
  }

  setText(text) {
    const shown = beginningOf(text);
    this.whole = shown.length < text.length ? text : null;
    this.text.value = this.whole ? `${shown}\n…` : text;
    this.read();
  }

  /** A long text that is pasted into the box is shown in part, since browsers are slow with it. */
  paste(event) {
    const text = event.clipboardData?.getData("text/plain") ?? "";
    if (beginningOf(text).length === text.length) return;
    event.preventDefault();
    const { value, selectionStart, selectionEnd } = this.text;
    this.setText(this.whole ? text
      : value.slice(0, selectionStart) + text + value.slice(selectionEnd));
  }

  read() {
    if (!this.text.value.endsWith("\n…")) this.whole = null;
    const { cells, delimiter } = readCells(this.whole ?? this.text.value);
    this.cells = cells;
    this.delimiter = delimiter;
    this.columns = readColumns(cells);
    this.drawColumns();
    this.tell();
  }

  /** A choice for each column of what it is; for the first ones of very many. */
  drawColumns() {
    const sample = this.cells[this.columns.headings ? 1 : 0] ?? [];
    const fields = this.columns.fields.slice(0, MOST_CHOICES);
    this.columnsPlace.replaceChildren(...fields.map((field, place) => {
      const heading = this.columns.headings?.[place] || `Column ${place + 1}`;
      const select = html("select", { change: (event) => {
        this.columns.fields[place] = event.target.value || null;
        this.tell();
      } }, html("option", { value: UNUSED }, "not used"),
      Object.entries(FIELD_WORDS).map(([each, words]) =>
        html("option", { value: each, selected: each === field }, words)));
      const words = sample[place] ? `“${sample[place]}”` : "";
      return html("label", {}, `${heading} `, html("small", {}, words), select);
    }));
  }

  tell() {
    const count = Math.max(0, this.cells.length - (this.columns.headings ? 1 : 0));
    const { fields, headings } = this.columns;
    const twice = fields.find((field, place) =>
      field && field !== "route" && fields.indexOf(field) !== place);
    const marks = { "\t": "tabs", ";": "semicolons", ",": "commas", "|": "bars" };
    const words = count === 0 ? []
      : [`${count} ${count === 1 ? "row" : "rows"}, cells divided by ${marks[this.delimiter]}, `
        + `${headings ? "with headings" : "without headings"}.` + unusedColumns(this.columns)
        + (twice ? ` Two columns are “${FIELD_WORDS[twice]}”: the later one is taken.` : ""),
      fields.includes("time") || fields.includes("route") ? null
        : html("strong", { class: "late-words" },
        " Which column is the processing time? Without one you have to type the times.")];
    this.words.replaceChildren(...words.filter(Boolean));
    for (const id of ["import-replace", "import-add"]) {
      document.getElementById(id).disabled = count === 0;
    }
  }

  /** Takes the rows into the table, in place of those that are there or after them. */
  finish(replaces) {
    const { state } = this.store;
    const unit = unitOfTimes(this.columns);
    const rows = rowsOfCells(this.cells, this.columns, unit);
    const { patch, hints } = guess(state, rows, unit, replaces);
    Object.assign(patch, { rows: replaces ? rows : [...state.rows, ...rows] });
    const machines = machineText(this.columns.fields.includes("route")
      ? namesInRoutes(rows, replaces ? [] : machineNames(state.machineNames))
      : machinesOf(this.columns));
    if (replaces || machines) patch.machineNames = machines;
    if (replaces) Object.assign(patch, { kept: null, title: "" });
    this.dialog.close();
    this.store.change(patch);
    this.notify([`${rows.length} ${rows.length === 1 ? "job was" : "jobs were"} read.`, ...hints,
      unusedColumns(this.columns).trim()].filter(Boolean).join(" "));
  }
}

/** As much of a text as the box shows: browsers are slow with many letters or lines in it. */
function beginningOf(text) {
  const shown = text.slice(0, MOST_SHOWN);
  const lines = shown.split(/\r\n?|\n/, MOST_LINES + 1);
  return lines.length > MOST_LINES ? lines.slice(0, MOST_LINES).join("\n") : shown;
}

/** The columns that are left out, in a sentence. */
function unusedColumns({ fields, headings }) {
  const unused = fields.flatMap((field, place) => field === null ? [place] : []);
  const names = unused.slice(0, MOST_UNUSED)
    .map((place) => shortened(headings?.[place] || `column ${place + 1}`));
  const more = unused.length - names.length;
  return names.length === 0 ? ""
    : ` Not used: ${names.join(", ")}${more > 0 ? ` and ${more} more` : ""}.`;
}
