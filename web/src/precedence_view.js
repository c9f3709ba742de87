// The dialog that adds a precedence constraint by the names of two jobs.

import { quoteName, splitNames } from "./precedence.js";
import { readNotation, writeNotation } from "./problems.js";
import { html } from "./svg.js";

const MOST_OFFERED = 2000;
const LONGEST_OFFERED = 200;

export class PrecedenceView {
  /**
   * @param {import("./store.js").Store} store
   * @param {() => ?object} tableOfNow
   */
  constructor(store, tableOfNow) {
    this.store = store;
    this.tableOfNow = tableOfNow;
    this.at = (id) => document.getElementById(id);
    this.at("add-precedence").addEventListener("click", () => this.open());
    this.at("precedence-add").addEventListener("click", () => this.add());
  }

  open() {
    const table = this.tableOfNow();
    const names = [...table?.index.byName.keys() ?? []]
      .filter((name) => name.length <= LONGEST_OFFERED).slice(0, MOST_OFFERED);
    this.at("job-names").replaceChildren(...names.map((name) => html("option", { value: name })));
    this.say("", "");
    this.at("precedence").showModal();
  }

  say(kind, message) {
    this.at("precedence-words").replaceChildren(html("span", { class: kind }, message));
  }

  add() {
    const table = this.tableOfNow();
    if (!table) return this.say("fault", "First the rows of the table have to be in order.");
    const found = ["before-name", "after-name"].map((id) => {
      const name = this.at(id).value.trim();
      return name === "" ? { fault: "Name both jobs." } : { name, ...table.index.find(name) };
    });
    const wrong = found.find((each) => each.fault);
    if (wrong) return this.say("fault", wrong.fault);
    const [before, after] = found;
    if (before.place === after.place) return this.say("fault", "A job can't come after itself.");
    this.write(table, before, after);
    return this.say("good", `“${before.name}” comes before “${after.name}” now.`);
  }

  /** Adds the name to the row of the later job, and precedence to the problem. */
  write(table, before, after) {
    const place = table.jobs[after.place].row;
    const { state } = this.store;
    const rows = [...state.rows];
    const names = splitNames(rows[place].after, (name) => table.index.has(name));
    const name = before.name.startsWith("#") ? before.name : quoteName(before.name);
    rows[place] = { ...rows[place], after: [...names.map(quoteName), name].join("; ") };
    const problem = readNotation(state.problem);
    const patch = { rows };
    if (problem && problem.environment === "1" && !problem.conditions.includes("prec")) {
      const conditions = ["rj", "prec", "prmp"].filter(
        (id) => id === "prec" || problem.conditions.includes(id));
      patch.problem = writeNotation({ ...problem, conditions });
    }
    this.store.change(patch);
  }
}
