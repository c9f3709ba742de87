// Shows a long list a page at a time, so that the browser never holds more than some hundred rows.

import { html } from "./svg.js";

export const PAGE = 100;

export class Pager {
  /**
   * @param {HTMLElement} place where its buttons stand
   * @param {string} what the name of what is paged, such as "Jobs"
   * @param {() => void} onTurn
   */
  constructor(place, what, onTurn) {
    this.place = place;
    this.what = what;
    this.onTurn = onTurn;
    this.page = 0;
    this.count = 0;
  }

  /** Sets how many rows there are, and draws the buttons. */
  show(count) {
    this.count = count;
    this.page = Math.max(0, Math.min(this.page, Math.ceil(count / PAGE) - 1));
    this.place.hidden = count <= PAGE;
    if (this.place.hidden) {
      this.place.replaceChildren();
      return;
    }
    const last = Math.ceil(count / PAGE) - 1;
    const button = (words, page, label) => html("button", {
      type: "button", "aria-label": label, click: () => this.turn(page),
      disabled: page < 0 || page > last || page === this.page,
    }, words);
    this.place.replaceChildren(
      button("«", 0, "First page"), button("◀", this.page - 1, "Previous page"),
      html("span", {}, `${this.what} ${(this.first + 1).toLocaleString("en")}–`
        + `${this.end.toLocaleString("en")} of ${count.toLocaleString("en")}`),
      button("▶", this.page + 1, "Next page"), button("»", last, "Last page"));
  }

  get first() {
    return this.page * PAGE;
  }

  get end() {
    return Math.min(this.count, this.first + PAGE);
  }

  turn(page) {
    this.page = page;
    this.onTurn();
  }

  /** Turns to the page of a row. */
  turnTo(row) {
    this.page = Math.floor(row / PAGE);
  }
}
