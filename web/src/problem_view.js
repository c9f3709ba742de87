// Chooses the problem: in words, or in three-field notation, which say the same.

import * as problems from "./problems.js";
import { html } from "./svg.js";

const OTHER = "other";

export class ProblemView {
  /** @param {import("./store.js").Store} store */
  constructor(store) {
    this.store = store;
    this.at = (id) => document.getElementById(id);
    this.checks = [...document.querySelectorAll("[data-condition]")];
    this.notes = this.at("problem-notes");
    this.details = this.at("problem");
    this.isWanted = false;
    this.makesPlans = false;
    this.said = null;
    this.details.querySelector("summary").addEventListener("click", () => {
      this.isWanted = !this.details.open;
    });
    this.at("environment").append(
      ...problems.ENVIRONMENTS.map(({ id, words }) => new Option(words, id)),
      new Option("Other, in notation", OTHER));
    for (const select of ["environment", "objective"]) {
      this.at(select).addEventListener("change", () => this.choose());
    }
    for (const check of this.checks) check.addEventListener("change", () => this.choose());
    this.at("notation").addEventListener("input", () =>
      this.store.change({ problem: this.at("notation").value }, "notation"));
    this.at("machines").addEventListener("input", () =>
      this.store.change({ machines: this.at("machines").value }, "machines"));
    this.at("machine-names").addEventListener("input", () =>
      this.store.change({ machineNames: this.at("machine-names").value }, "machine names"));
  }

  /** Says whether there are plans for problems without an exact method. */
  setMakesPlans(makesPlans) {
    if (makesPlans === this.makesPlans) return;
    this.makesPlans = makesPlans;
    if (this.said) this.show(...this.said);
  }

  /** Folds the problem into a line in words, unless somebody has opened it. */
  fold() {
    if (!this.isWanted) this.details.open = false;
  }

  /** Makes the notation of what was chosen in words. */
  choose() {
    const environment = this.at("environment").value;
    if (environment === OTHER) {
      this.at("notation").focus();
      return;
    }
    const chosen = this.checks.filter((each) => each.checked).map((each) => each.dataset.condition);
    const problem = {
      environment, objective: this.at("objective").value,
      count: problems.isShop({ environment }) ? 2 : null,
      conditions: ["rj", "prec", "prmp"].filter((id) => chosen.includes(id)),
    };
    const { machines } = this.store.state;
    const isMissing = problems.needsMachines(problem) && machines.trim() === "";
    this.store.change({ problem: problems.writeNotation(problem),
      machines: isMissing ? "2" : machines });
  }

  /** Shows the state's problem in all the fields. */
  draw() {
    const { problem: text, machines, machineNames } = this.store.state;
    const problem = problems.readNotation(text);
    const set = (id, value) => {
      if (this.at(id).value !== value) this.at(id).value = value;
    };
    set("notation", text);
    set("machines", machines);
    set("machine-names", machineNames);
    const isKnown = problems.ENVIRONMENTS.some((each) => each.id === problem?.environment);
    set("environment", isKnown ? problem.environment : OTHER);
    this.drawObjectives(problem);
    for (const check of this.checks) {
      check.checked = Boolean(problem?.conditions.includes(check.dataset.condition));
    }
    this.at("machines-label").hidden = !problem || !problems.needsMachines(problem);
  }

  /** Offers the objectives, and marks those that no solver here minimizes. */
  drawObjectives(problem) {
    const options = problems.OBJECTIVES.map(({ id, words }) => {
      const each = problem && { ...problem, objective: id };
      const isSolved = !each || problems.SOLVED.has(problems.classOf(each));
      const way = each && problems.isSearched(each) ? " (by a search)" : " (no method)";
      return new Option(words + (isSolved ? "" : way), id);
    });
    this.at("objective").replaceChildren(...options);
    if (problem) this.at("objective").value = problem.objective;
  }

  /**
   * Shows what is to be said of the problem.
   * @param {{isFault: boolean, message: string}[]} findings
   * @param {?object} table
   */
  show(findings, table) {
    this.said = [findings, table];
    const { problem: text } = this.store.state;
    const problem = problems.readNotation(text);
    const name = problem && problems.classOf(problem);
    const lines = findings.map(({ isFault, message }) =>
      html("p", { class: isFault ? "fault" : "note" }, message));
    const isWrong = !problem || findings.some((each) => each.isFault);
    if (isWrong) this.details.open = true;
    this.at("problem-words").textContent = problem ? problems.inShort(problem) : text;
    this.at("notation").toggleAttribute("aria-invalid", findings.some((each) => each.isFault));
    if (problem && problems.SOLVED.has(name)) {
      lines.unshift(html("p", {}, html("strong", {}, name), ` is solved exactly: `
        + `${problems.SOLVED.get(name)}.`));
    } else if (problem) lines.unshift(...this.unsolved(problem, name));
    const unused = problem && table ? unusedWords(problem, table) : "";
    if (unused) lines.push(html("p", { class: "note" }, unused));
    this.notes.replaceChildren(...lines);
  }

  unsolved(problem, name) {
    const buttons = problems.nearestSolved(problem).map((near) => html("button", {
      type: "button", class: "link", title: problems.describe(near),
      click: () => this.store.change({ problem: problems.writeNotation(near) }),
    }, problems.writeNotation(near)));
    const nearest = buttons.flatMap((button, k) => [k === 0
      ? " Solved without a search, and near to it: " : ", ", button]);
    const searched = this.makesPlans ? " is planned by a search; a proved bound shows that its "
      + "plan is optimal, or how far from the optimum it can be."
      : ": only a lower bound is computed.";
    return [html("p", { class: "note" }, html("strong", {}, name),
      problems.isSearched(problem) ? searched : " has no method here.", nearest)];
  }
}

/** What the table has and the problem ignores, in a sentence. */
function unusedWords(problem, table) {
  const unused = unusedColumns(problem, table);
  return unused.length === 0 ? ""
    : `This problem ignores what the table says of ${unused.join(", ")}.`;
}

/** What the table has and the problem ignores: “weights (3)”. */
export function unusedColumns(problem, table) {
  const used = problems.columnsUsed(problem);
  const count = (has) => {
    let found = 0;
    for (const job of table.jobs) if (has(job)) found++;
    return found;
  };
  return Object.entries({
    time: ["times", (job) => job.hasTime], route: ["routes", (job) => job.hasRoute],
    time2: ["times on machine 2", (job) => job.hasTime2],
    weight: ["weights", (job) => job.weight !== null],
    release: ["release dates", (job) => job.hasRelease],
    cost: ["cost functions", (job) => job.hasCost], after: ["precedence constraints", null],
  }).filter(([field]) => !used.has(field))
    .map(([, [words, has]]) => [words, has ? count(has) : table.arcs.length])
    .filter(([, found]) => found > 0).map(([words, found]) => `${words} (${found})`);
}
