// Holds the state, tells who listens of each change, and goes back and forth.

const MOST_STEPS_BACK = 100;
const MOST_ROWS_BACK = 1000000;

export class Store {
  /** @param {import("./state.js").State} state */
  constructor(state) {
    this.state = state;
    this.past = [];
    this.future = [];
    this.lastKey = null;
    this.listeners = [];
    this.isSaved = true;
  }

  /** Calls `listener(state, before, isTyped)` after each change; more follow what is typed. */
  listen(listener) {
    this.listeners.push(listener);
  }

  /**
   * Changes parts of the state.
   * @param {object} patch
   * @param {?string} key changes of one key that follow one another are one step back
   */
  change(patch, key = null) {
    if (key === null || key !== this.lastKey) {
      this.past.push(this.state);
      const most = Math.min(MOST_STEPS_BACK, MOST_ROWS_BACK / Math.max(1, this.state.rows.length));
      while (this.past.length > most) this.past.shift();
    }
    this.lastKey = key;
    this.future = [];
    this.isSaved = false;
    this.become({ ...this.state, ...patch }, key !== null);
  }

  /** Takes a whole state, from a file or an example. Work that was not saved stays so. */
  replace(state) {
    const isSaved = !this.hasUnsavedWork;
    this.change(state);
    this.isSaved = isSaved;
  }

  get hasUnsavedWork() {
    return !this.isSaved
      && [this.state, ...this.past, ...this.future].some((state) => state.rows.length > 0);
  }

  undo() {
    this.go(this.past, this.future);
  }

  redo() {
    this.go(this.future, this.past);
  }

  /** Goes to the last state of one list; the state of now goes to the other. */
  go(from, to) {
    if (from.length === 0) return;
    this.lastKey = null;
    to.push(this.state);
    this.become(from.pop());
  }

  get canUndo() {
    return this.past.length > 0;
  }

  get canRedo() {
    return this.future.length > 0;
  }

  become(state, isTyped = false) {
    const before = this.state;
    this.state = state;
    for (const listener of this.listeners) listener(state, before, isTyped);
  }
}
