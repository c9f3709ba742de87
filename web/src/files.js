// Opens and saves: files of every kind that the page knows, and links that carry the whole state.

import { problemFor } from "./guesses.js";
import { readNotation, writeNotation } from "./problems.js";
import { readJobShops } from "./shop_files.js";
import { html } from "./svg.js";
import { isAnswer, isJobTable, namedText, newRow, readTable } from "./table.js";
import { decodeText, styleOf } from "./spreadsheet.js";
import { chartAsFile, planAsCsv, saveFile } from "./saving.js";
import {
  LONGEST_LINK, isSameWork, packText, readState, unpackText, writeState,
} from "./state.js";

const LARGEST_FILE = 67108864;
const MARK = "#plan=";
// The text of a code that was scanned, or a link that was copied.
const LINK = /^\s*\S+#plan=([\w-]+)\s*$/;
const UNSAVED = "What was here before is not saved: Undo brings it back.";

export class Files {
  /** @param {object} page `store`, `notify`, `importView`, `judgeView`, and what is shown now */
  constructor(page) {
    this.page = page;
    this.isLinkOpen = false;
    this.linked = null;
    this.input = document.getElementById("file");
    this.input.addEventListener("change", () => this.openChosen());
    document.getElementById("open").addEventListener("click", () => this.choose());
    document.getElementById("import-open").addEventListener("click", () => this.choose());
    document.getElementById("link").addEventListener("click", () => this.copyLink());
    for (const button of document.querySelectorAll("[data-save]")) {
      button.addEventListener("click", () => this.save(button.dataset.save));
    }
    document.addEventListener("dragover", (event) => event.preventDefault());
    document.addEventListener("drop", (event) => this.drop(event));
    document.addEventListener("paste", (event) => this.paste(event));
    window.addEventListener("hashchange", () => this.openLink());
  }

  // ---- opening ----

  choose() {
    this.input.value = "";
    this.input.click();
  }

  openChosen() {
    const [file] = this.input.files;
    if (file) this.openFile(file);
  }

  drop(event) {
    const [file] = event.dataTransfer?.files ?? [];
    if (!file) return;
    event.preventDefault();
    this.openFile(file);
  }

  async openFile(file) {
    if (file.size > LARGEST_FILE) {
      this.page.notify(`“${file.name}” is larger than 64 MB, which is more than the solver reads.`);
      return;
    }
    this.openText(decodeText(new Uint8Array(await file.arrayBuffer())), file.name);
  }

  /** Opens a text by what it is: everything of this page, a job table, an answer, or cells. */
  openText(text, name = "The text") {
    const { notify, importView, judgeView } = this.page;
    const { dialog } = importView;
    const shops = readJobShops(text);
    if (/^\s*\{/.test(text)) {
      const state = readState(text);
      if (state) this.replace(state, `${name} was opened.`);
      else notify(`${name} is not a file that this page saved.`);
    } else if (isJobTable(text)) {
      dialog.close();
      this.openTable(text, name);
    } else if (isAnswer(text)) {
      dialog.close();
      judgeView.open(text);
    } else if (shops.length > 0) {
      dialog.close();
      this.openShops(shops, name);
    } else if (dialog.open) importView.setText(text);
    else importView.open(text);
  }

  openTable(text, name) {
    const { rows, machines, machineNames, faults } = readTable(text);
    const { store } = this.page;
    const isLost = store.hasUnsavedWork;
    const has = (field) => rows.some((row) => row[field] !== "");
    const found = has("route") ? problemFor(readNotation(store.state.problem), rows) : null;
    store.change({ rows, kept: null, own: null, machineNames, ...(machines ? { machines } : {}),
      ...(found ? { problem: writeNotation(found.problem) } : {}),
      settings: { ...store.state.settings, step: "plain", start: "" } });
    this.page.notify([`${name}: ${rows.length} jobs were read.`, ...(found?.hints ?? []),
      has("time2") ? "They have two times, so choose a flow shop or an open shop." : "",
      ...faults.slice(0, 3), isLost ? UNSAVED : ""].filter(Boolean).join(" "));
  }

  /** Opens a job shop of a file, and offers the others that it has. */
  openShops(shops, name, chosen = 0) {
    const { store, notify } = this.page;
    const isLost = chosen === 0 && store.hasUnsavedWork;
    const { name: title, rows, machines } = shops[chosen];
    store.change({ rows: rows.map((row) => newRow(row)), kept: null, own: null, machineNames: "",
      title, problem: "J||Cmax", settings: { ...store.state.settings, step: "plain", start: "" } });
    const choice = shops.length === 1 ? [] : [html("label", {}, `${shops.length} job shops: `,
      html("select", { change: (event) => this.openShops(shops, name, event.target.selectedIndex) },
        shops.map((shop, k) => html("option", { selected: k === chosen }, shop.name)))), " "];
    notify([`${name}: ${rows.length} jobs on ${machines} machines were read. The file counts the `
      + "machines from 0, and this page from 1.", isLost ? UNSAVED : ""].filter(Boolean).join(" "),
    ...choice);
  }

  /** Takes a whole state, and says so where work that is not saved stood in its place. */
  replace(state, message = "") {
    const { store, notify } = this.page;
    const isLost = store.hasUnsavedWork;
    store.replace(state);
    notify([message, isLost ? UNSAVED : ""].filter(Boolean).join(" "));
  }

  /** Cells that are pasted outside a field, or several of them into a field of the table. */
  paste(event) {
    const text = event.clipboardData?.getData("text/plain") ?? "";
    const { target } = event;
    const link = LINK.exec(text);
    if (link) {
      event.preventDefault();
      this.page.importView.dialog.close();
      this.openPacked(link[1]);
      return;
    }
    const isShop = target.id === "import-text" && readJobShops(text).length > 0;
    const isField = !isShop && target.closest?.("input, textarea, select, dialog");
    const isCell = target.closest?.("#jobs-table") && /\t|\n./.test(text);
    if (text === "" || isField && !isCell) return;
    event.preventDefault();
    this.openText(text);
  }

  /** Opens the state that the address carries, if there is one; a link that is pasted, too. */
  async openLink() {
    this.isLinkOpen = false;
    const isOpened = location.hash.startsWith(MARK)
      && await this.openPacked(location.hash.slice(MARK.length));
    this.isLinkOpen = true;
    return isOpened;
  }

  async openPacked(packed) {
    const text = await unpackText(packed);
    const state = text === null ? null : readState(text);
    if (state && isSameWork(state, this.page.store.state)) return this.isOpened();
    if (state) {
      this.replace(state, "The plan of the link was opened.");
      this.linked = this.page.store.state;
    } else this.page.notify("The link is damaged or was cut off, so its plan can't be opened.");
    return state !== null;
  }

  /** The plan of the link is what the page has already. */
  isOpened() {
    this.page.update();
    return true;
  }

  /** Told of each change: the address of a link that is open no longer stands for the plan. */
  leaveLink() {
    if (!this.isLinkOpen || !location.hash.startsWith(MARK)) return;
    history.replaceState(null, "", location.href.split("#")[0]);
  }

  // ---- saving ----

  async copyLink() {
    const packed = await packText(writeState(this.page.store.state));
    const address = `${location.href.split("#")[0]}${MARK}${packed}`;
    if (address.length > LONGEST_LINK) {
      const letters = address.length.toLocaleString("en");
      this.page.notify(`The plan is too long for a link (${letters} letters): save everything on `
        + "this page as a file and send that.");
      return;
    }
    history.replaceState(null, "", `${MARK}${packed}`);
    this.page.store.isSaved = true;
    try {
      await navigator.clipboard.writeText(address);
      this.page.notify("The link is copied. Whoever has this page opens the whole plan with it.");
    } catch {
      this.page.notify("The link stands in the address bar now: copy it from there.");
    }
  }

  save(kind) {
    document.getElementById("save-menu").open = false;
    const { store, notify, now, shown, askPicture } = this.page;
    const name = fileName(store.state.title);
    if (kind === "state") {
      saveFile(`${name}.json`, writeState(store.state), "application/json");
      store.isSaved = true;
    } else if (kind === "table") {
      if (!now) return notify("There is no job table yet: the jobs have to be corrected first.");
      saveFile(`${name}-table.txt`, namedText(now.table, this.page.names), "text/plain");
    } else if (!shown) notify("There is no plan yet, so there is nothing to save.");
    else if (kind === "answer") saveFile(`${name}-answer.txt`, shown.answer, "text/plain");
    else if (kind === "csv") {
      const { cells, delimiter } = this.page.importView;
      const style = styleOf(cells, delimiter, navigator.language);
      saveFile(`${name}.csv`, planAsCsv(shown.plan, style), "text/csv");
    } else if (kind === "chart") {
      const { whole } = this.page.planView.chart;
      saveFile(`${name}.svg`, chartAsFile(whole, chartRules(), store.state.title || "Plan"),
        "image/svg+xml");
    } else askPicture((bytes) => saveFile(`${name}-solver.svg`, bytes, "image/svg+xml"));
    return undefined;
  }
}

/** The rules of the chart for the light page, from the style of this page. */
function chartRules() {
  return [...document.styleSheets[0].cssRules]
    .filter((rule) => rule.selectorText?.startsWith(".chart"))
    .map((rule) => rule.cssText).join("\n");
}

function fileName(title) {
  const plain = title.normalize("NFKD").replace(/[^\w -]+/g, "").trim().replace(/\s+/g, "-");
  return plain.slice(0, 60).toLowerCase() || "plan";
}

