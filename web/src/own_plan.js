// The planner's own plan, made by moving bars and judged by the module, beside the optimal one.

import { judgeText } from "./judge_view.js";
import { machineNames } from "./machines.js";
import { identitiesOf, isByStep, movedRows, placesOf, rowsOf } from "./moving.js";
import { answerOfRows } from "./order.js";
import { makePlan } from "./plan.js";
import { readNotation } from "./problems.js";
import { explainReason, explainRefusal } from "./refusals.js";
import { html } from "./svg.js";
import { gapWords, valueText } from "./values.js";

const PATIENCE = 400;

export class OwnPlan {
  /**
   * @param {object} source `store`; `request()` the request of now, or null; `best()` and `shown()`
   *   what the module made and what is shown; `ask(request)` asks the worker; `show()` shows the
   *   plan of now, and after `showing()` it is shown; `point(job, machine)` shows where a job is
   */
  constructor(source) {
    this.source = source;
    this.at = (id) => document.getElementById(id);
    this.known = new WeakMap();
    this.isAway = false;
    this.moves = Promise.resolve();
    this.at("own-show").addEventListener("click", () => {
      this.isAway = this.isShown;
      this.say("");
      source.show();
    });
    this.at("own-forget").addEventListener("click", () => source.store.change({ own: null }));
  }

  get isShown() {
    return this.source.shown()?.plan.isOwn === true;
  }

  say(kind, ...words) {
    this.at("moved").className = kind;
    this.at("moved").replaceChildren(...words);
  }

  /** Moves a job after the moves before it. @param {?object} target as `MovingView` gives it */
  move(job, target) {
    this.moves = this.moves.then(() => this.moveNow(job, target));
  }

  async moveNow(job, target) {
    const { request, shown, store, showing, point } = this.source;
    const now = request();
    const before = shown()?.plan;
    if (!now || before?.jobs !== now.table.jobs) return;
    const name = `“${before.jobs[job].name}”`;
    if (!target) return this.say("note", `${name} can't go further that way.`);
    const rows = movedRows(rowsOf(before), job, target, isByStep(before));
    if (!rows) return;
    const own = identitiesOf(rows, before.jobs);
    const timer = setTimeout(() => this.say("note", `Judging the plan with ${name} moved …`),
      PATIENCE);
    const made = await this.make(own);
    clearTimeout(timer);
    if (request() !== now) return this.say("");
    if (!made) return this.say("fault", "The solver was stopped, so nothing was moved.");
    if (made.fault) return this.say("fault", `${name} was not moved: ${made.fault}`);
    store.change({ own });
    await showing();
    point(job, target.machine);
    const { plan } = made;
    this.say(plan.isOptimal ? "good" : "note", `${name} is moved: allowed, `
      + `${costWords(before, plan)}, ${gapWords(plan) ?? "how far above the optimum is unknown"}. `,
      html("span", { class: "proved" }, "proved"));
  }

  /** The own plan as it is shown, or null where the plan that the module made is shown. */
  async made() {
    const { own } = this.source.store.state;
    if (!own || this.isAway) return null;
    const made = await this.make(own);
    if (made?.fault) this.say("fault", `Your plan is not shown: ${made.fault}`);
    return made?.plan ? made : null;
  }

  /**
   * Has the module judge an own plan: each job as early as it can, in the order of its machine.
   * @returns {Promise<?{plan: object}|{fault: string}>} null where the solver was stopped
   */
  async make(own) {
    const now = this.source.request();
    const best = this.source.best();
    const known = this.known.get(own);
    if (known?.best === best) return known.made;
    const { plan, assumptions } = best;
    const { table } = now;
    const rows = placesOf(own, table.jobs, plan.machines, readNotation(now.problem));
    if (!rows) return { fault: "it is of other jobs or machines, or has 2,000 jobs or more." };
    const text = answerOfRows(rows, now, plan.machines);
    const reply = await judgeText(this.source.ask, now, text, false);
    if (!reply) return null;
    const made = reply.evaluation?.value === undefined ? { fault: whyNot(reply, now) }
      : { ...this.planOf(reply, now, plan), assumptions,
        answer: new TextEncoder().encode(text.replace("\nvalue 0\n",
          `\nvalue ${reply.evaluation.value}\n`)) };
    this.known.set(own, { best, made });
    return made;
  }

  /** The plan of a schedule that is allowed. Its jobs keep the colours that they have. */
  planOf({ evaluation, schedule }, { table, calendar }, best) {
    const { value } = evaluation;
    const plan = makePlan(table, { ...schedule, value }, evaluation, calendar,
      table.names ?? machineNames(this.source.store.state.machineNames));
    // A longer search may have found a greater bound than the evaluation.
    const least = evaluation.best ?? (best.isOptimal ? best.value
      : greater(evaluation.bound, best.bound?.value));
    const gap = least === undefined ? undefined : String(BigInt(value) - BigInt(least));
    Object.assign(plan, { isOwn: true, isOptimal: gap === "0", gap, colour: best.colour,
      isExact: evaluation.best !== undefined || best.isOptimal });
    return { plan, evaluation };
  }

  /** Shows the buttons that go from one plan to the other. */
  draw() {
    const { store, best } = this.source;
    this.at("own").hidden = !store.state.own;
    const other = best().plan.isOptimal ? "Back to the optimal plan" : "Back to the plan found";
    this.at("own-show").textContent = this.isShown ? other : "Show your plan";
  }
}

/** The greater of two bounds, either of which may be missing. */
export function greater(one, other) {
  if (one === undefined || other === undefined) return one ?? other;
  return BigInt(one) < BigInt(other) ? other : one;
}

/** Why a schedule is not allowed, or can't be judged. */
function whyNot({ evaluation, evaluated }, { table, calendar, problem }) {
  return evaluation?.misfit ? explainReason(evaluation.misfit, table, calendar)
    : explainRefusal(evaluated, table, problem)[0].message;
}

/** What a plan costs more or less than the one before. */
function costWords(before, { value, calendar, problem }) {
  const by = BigInt(value) - BigInt(before.value);
  if (by === 0n) return "costs the same";
  return `costs ${valueText(calendar, problem, String(by < 0n ? -by : by))} `
    + `${by < 0n ? "less" : "more"}`;
}
