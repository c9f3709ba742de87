// What a printed sheet has of its own: the square code of the link to this plan.

import { codePath, squareCode } from "./qr.js";
import { packText, writeState } from "./state.js";
import { html, svg } from "./svg.js";

const REST = 300;
const MOST_ROWS = 2000;
const MOST_LETTERS = 2953;
const MILLIMETRES = 0.43;
// A wider code stands after the list, so that it takes no room from the chart.
const WIDEST_BESIDE = 46;

export class SheetView {
  /** @param {import("./store.js").Store} store */
  constructor(store) {
    this.store = store;
    this.state = null;
    this.link = null;
    store.listen(() => this.prepare());
    window.addEventListener("beforeprint", () => this.draw());
    window.addEventListener("afterprint", () => this.clear());
  }

  /** After each change the link is made a little later. */
  prepare() {
    clearTimeout(this.timer);
    this.timer = setTimeout(() => this.make(), REST);
  }

  /** Makes the link to the plan of now, without the plan that is kept to compare with. */
  async make() {
    const { state } = this.store;
    if (state === this.state) return;
    const isLong = state.rows.length > MOST_ROWS;
    const packed = isLong ? null : await packText(writeState({ ...state, kept: null }));
    this.link = packed && `${location.href.split("#")[0]}#plan=${packed}`;
    this.state = state;
  }

  /** Prints once the link is there. */
  async print() {
    await this.make();
    window.print();
  }

  draw() {
    this.clear();
    if (this.state !== this.store.state) return;
    const code = this.link && this.link.length <= MOST_LETTERS ? squareCode(this.link) : null;
    if (!code) {
      document.getElementById("sheet-end").append(html("p", {}, longWords(this.link)));
      return;
    }
    const size = code.rows.length + 8;
    const width = Math.round(size * MILLIMETRES);
    const place = width <= WIDEST_BESIDE ? "sheet-top" : "sheet-end";
    document.getElementById(place).append(
      svg("svg", { class: "code", viewBox: `0 0 ${size} ${size}`, width: `${width}mm`,
        height: `${width}mm`, role: "img", "aria-label": "Square code of the link to this plan",
        "shape-rendering": "crispEdges" },
      svg("rect", { width: size, height: size, fill: "#ffffff" }),
      svg("path", { d: codePath(code.rows), fill: "#000000" })),
      html("p", {}, "Scan the code: it opens this plan, where you tick off what is done and see "
        + "whether the rest is in time.", location.protocol === "file:" ? " This page is on a "
        + "disk: on a phone, open the page there and paste the text of the code." : ""));
  }

  clear() {
    for (const id of ["sheet-top", "sheet-end"]) document.getElementById(id).replaceChildren();
  }
}

/** Why there is no code. */
function longWords(link) {
  const letters = link ? `has ${link.length.toLocaleString("en")} letters, and a square code has `
    + `room for ${MOST_LETTERS.toLocaleString("en")}` : "is too long for a square code";
  return `The link to this plan ${letters}: save everything on the page as a file, and send that.`;
}
