// Keeps the work in this browser over a reload, until that is switched off.

import { readState, writeState } from "./state.js";

const KEY = "threefield";
const OFF = "off";
const REST = 800;
// The texts of more rows are more than browsers keep of a page.
const MOST_ROWS = 30000;

export class Keeping {
  /**
   * @param {import("./store.js").Store} store
   * @param {(words: string) => void} tell told whether the work is kept, in a sentence
   * @param {() => boolean} isInLink whether a link holds the work of now, so that what was kept
   *   before may stay
   */
  constructor(store, tell, isInLink) {
    this.store = store;
    this.isInLink = isInLink;
    this.tell = tell;
    this.isOn = this.read() !== OFF;
    this.written = null;
    this.text = null;
    store.listen(() => {
      clearTimeout(this.timer);
      this.timer = setTimeout(() => this.keep(), REST);
    });
    window.addEventListener("pagehide", () => this.keep());
    this.say();
  }

  /** The work that was kept, or null. */
  opened() {
    const text = this.read();
    return text === null || text === OFF ? null : readState(text);
  }

  /** Switches keeping on or off; what was kept is forgotten then. */
  switchTo(isOn) {
    this.isOn = isOn;
    if (isOn) {
      this.write(null);
      this.keep();
    } else this.write(OFF);
    this.say();
  }

  /** Keeps the work of now; false where it can't. */
  keep() {
    clearTimeout(this.timer);
    if (this.isOn && this.read() === OFF) this.isOn = false;
    if (!this.isOn) return false;
    if (this.isInLink()) return true;
    const { state } = this.store;
    // Another page of this browser may have written its own work.
    if (this.written !== state || this.read() !== this.text) {
      this.text = state.rows.length > MOST_ROWS ? null : writeState(state);
      this.written = this.write(this.text) && this.text !== null ? state : null;
      this.say();
    }
    return this.written === state;
  }

  say() {
    const { rows } = this.store.state;
    this.tell(!this.isOn ? "Nothing is kept: a reload loses what is not saved."
      : this.written || rows.length === 0
        ? "What you enter is kept in this browser, on this device alone."
        : "The browser can't keep this: save it before you leave the page.");
  }

  read() {
    try {
      return localStorage.getItem(KEY);
    } catch {
      return null;
    }
  }

  write(text) {
    try {
      localStorage.removeItem(KEY);
      if (text !== null) localStorage.setItem(KEY, text);
      return true;
    } catch {
      return false;
    }
  }
}
