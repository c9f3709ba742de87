// The plan: its value, why no schedule is better, other measures, and what moved.

import { lengthText } from "./calendar.js";
import { boundReason, optimumReason } from "./certificates.js";
import { ChartView } from "./chart_view.js";
import { ListView } from "./list_view.js";
import { MovingView } from "./moving_view.js";
import { comparePlans, measures } from "./plan.js";
import { html } from "./svg.js";
import { gapWords, leastWords, objectiveWords, valueText } from "./values.js";

const MOST_NAMED = 8;
const LONGEST_TEXT = 40000;

export class PlanView {
  /**
   * @param {object} actions `keep`, `forget`: what the buttons do; `move`, as `MovingView` has it;
   *   `tick`, `untick`, as `ListView` has them
   */
  constructor(actions) {
    this.actions = actions;
    this.at = (id) => document.getElementById(id);
    this.chart = new ChartView();
    this.moving = new MovingView(this.chart, actions.move);
    this.list = new ListView({ choose: (job) => this.chart.pointAt(job),
      move: (job, way, machine) => this.moving.step(job, way, machine),
      tick: actions.tick, untick: actions.untick });
    this.plan = null;
  }

  /** Says whether the plan of now is still being made. */
  setBusy(isBusy) {
    this.at("plan").setAttribute("aria-busy", String(isBusy));
  }

  /** Says that there is no plan, and why; an earlier one stays, marked as of before. */
  showMessage(message, ...more) {
    this.at("headline").replaceChildren(html("p", {}, message), ...more);
    this.at("headline").className = "headline";
    this.at("plan").classList.toggle("is-old", this.plan !== null);
  }

  /** Hides the earlier plan. */
  clear() {
    this.plan = null;
    this.at("plan-body").hidden = true;
    this.at("plan").classList.remove("is-old");
  }

  /**
   * What is shown of a plan.
   * @typedef {object} Shown
   * @property {object} plan @property {?object} evaluation of a plan of an exact method
   * @property {Uint8Array} answer @property {{short: string, long: string}[]} assumptions
   */

  /**
   * Shows a plan.
   * @param {Shown} shown
   * @param {Shown} best what the module made; the same, or the planner's own plan is shown
   * @param {?object} kept
   */
  show({ plan, answer, assumptions }, best, kept) {
    this.plan = plan;
    this.at("plan").classList.remove("is-old");
    this.at("plan-body").hidden = false;
    this.showHeadline(plan, best.plan, assumptions);
    this.showMeasures(plan);
    this.showCertificate(best.plan, best.evaluation, plan.isOwn);
    const comparison = kept ? comparePlans(kept, plan) : null;
    this.showChanges(plan, kept, comparison);
    this.chart.show(plan);
    this.list.show(plan, comparison);
    this.at("answer-text").textContent = startOfText(answer);
    this.at("answer-details").querySelector("summary").textContent
      = plan.isOwn ? "Your plan as an answer text" : "The solver’s answer as text";
  }

  showHeadline(plan, best, assumptions) {
    this.at("headline").replaceChildren(
      html("p", { class: "value" }, badgeOf(plan), html("span", {},
        `${plan.isOwn ? "Your plan. " : ""}${objectiveWords(plan.problem)}: `,
        html("strong", {}, valueText(plan.calendar, plan.problem, plan.value)))),
      html("p", {}, plan.isOwn ? `${bestWords(best)} ` : "", optimumWords(best),
        ...lateWords(plan)), this.assumed(assumptions));
    this.at("headline").className = `headline ${plan.isOptimal ? "good" : "near"}`;
  }

  /** What the plan rests on, in a line that can be opened. */
  assumed(assumptions) {
    const shorts = assumptions.map(({ short }) => short).filter(Boolean);
    return html("details", { class: "assumed" },
      html("summary", {}, html("strong", {}, "Assumed: "), `${shorts.join("; ")}.`),
      html("ul", {}, assumptions.map(({ long }) => html("li", {}, long))));
  }

  showMeasures(plan) {
    const lines = measures(plan).map(({ words, steps, number }) => html("div", {},
      html("dt", {}, words), html("dd", {}, number ?? lengthText(plan.calendar, steps))));
    this.at("measures").replaceChildren(
      html("dl", { class: "measures", "aria-label": "Measures of this plan" }, lines));
  }

  /** Why no schedule is better, or than which value none is. */
  showCertificate(plan, evaluation, isOwn) {
    const place = this.at("certificate");
    place.hidden = !evaluation && (!plan.bound || isTrivial(plan) && !plan.isOptimal);
    if (place.hidden) return;
    place.querySelector("summary").textContent = plan.isOptimal && !isOwn
      ? "Why no schedule is better" : `Why no schedule has ${leastWords(plan.calendar,
        plan.problem, plan.bound?.value ?? plan.value)}`;
    const reason = evaluation ? optimumReason(plan, evaluation) : boundReason(plan);
    place.querySelector("div").replaceChildren(...reason.filter(Boolean));
  }

  // ---- what moved ----

  showChanges(plan, kept, comparison) {
    const place = this.at("changes");
    if (!kept) {
      place.replaceChildren(html("button", { type: "button", class: "screen",
        click: this.actions.keep }, "Keep this plan to compare changes with"));
      return;
    }
    const forget = html("button", { type: "button", class: "screen", click: this.actions.forget },
      "Stop comparing");
    const keep = html("button", { type: "button", class: "screen", click: this.actions.keep },
      "Keep this plan instead");
    place.replaceChildren(html("p", {}, html("strong", {}, "Against the kept plan: "),
      changeWords(plan, kept, comparison)), html("p", { class: "tools" }, keep, forget));
  }
}

/** How near the plan is to the optimum: proved, or nothing where no bound is known. */
function badgeOf(plan) {
  if (plan.isOptimal) return html("span", { class: "proved" }, "proved optimal");
  const words = gapWords(plan);
  return words && html("span", { class: "proved" }, words);
}

/** What the plan that the module made comes to, beside the planner's own. */
function bestWords({ isOptimal, calendar, problem, value }) {
  return `The ${isOptimal ? "optimal plan" : "plan that was found"} has ${valueText(calendar,
    problem, value)}.`;
}

/** Whether the bound says only what holds of every sum: that none is below 0. */
function isTrivial(plan) {
  return plan.bound.value === "0" && !plan.problem.endsWith("Lmax");
}

/** What is known of all schedules, in a sentence. */
function optimumWords(plan) {
  const jobs = plan.jobs.length === 1 ? "this job" : `these ${plan.jobs.length} jobs`;
  if (plan.isOptimal) {
    const none = plan.bound ? "Found by a search; its bound proves that no" : "No";
    return `${none} schedule of ${jobs} has a smaller value.`;
  }
  if (!plan.bound) return "How far this plan is from the optimum is not known.";
  if (isTrivial(plan)) return "No lower bound above 0 was found.";
  return `No schedule of ${jobs} has `
    + `${leastWords(plan.calendar, plan.problem, plan.bound.value)}.`;
}

/** How many jobs are late, or by how much the tightest of them is in time. */
function lateWords(plan) {
  const late = plan.jobs.reduce((count, job, place) =>
    count + (job.due !== null && plan.completion[place] > job.due ? 1 : 0), 0);
  if (late > 0) {
    return [" ", html("span", { class: "late-words" },
      late === 1 ? "One job is late." : `${late} jobs are late.`)];
  }
  const early = plan.jobs.reduce((least, job, place) => job.due === null ? least
    : Math.min(least, job.due - plan.completion[place]), Infinity);
  if (early === Infinity) return [];
  return [` All are in time, the tightest ${early === 0 ? "just so"
    : `by ${lengthText(plan.calendar, early)}`}.`];
}

/** What changed against a kept plan, in a sentence. */
function changeWords(plan, kept, { moved, added, done, gone }) {
  const parts = [];
  if (kept.problem === plan.problem) {
    const by = BigInt(plan.value) - BigInt(/^-?\d+$/.test(kept.value) ? kept.value : plan.value);
    const words = (value) => valueText(plan.calendar, plan.problem, String(value));
    parts.push(by === 0n ? "the value is the same"
      : `the value is ${words(by < 0n ? -by : by)} ${by < 0n ? "smaller" : "larger"}`);
  } else parts.push(`it was for ${kept.problem}`);
  parts.push(moved.size === 0 ? "no job moved"
    : `${moved.size} ${moved.size === 1 ? "job" : "jobs"} moved (${movedWords(plan, moved)})`);
  if (added.length > 0) parts.push(`new: ${someOf(added.map((job) => plan.jobs[job].name))}`);
  if (done.length > 0) parts.push(`done: ${someOf(done)}`);
  if (gone.length > 0) parts.push(`gone: ${someOf(gone)}`);
  return `${parts.join("; ")}.`;
}

function movedWords(plan, moved) {
  const largest = [...moved].sort((a, b) => Math.abs(b[1]) - Math.abs(a[1]));
  return someOf(largest.map(([job, by]) => {
    const { name } = plan.jobs[job];
    if (by === 0) return `${name} starts at another time`;
    return `${name} ${lengthText(plan.calendar, Math.abs(by))} ${by > 0 ? "later" : "earlier"}`;
  }));
}

function someOf(words) {
  const rest = words.length - MOST_NAMED;
  return words.slice(0, MOST_NAMED).join(", ") + (rest > 0 ? ` and ${rest} more` : "");
}

/** The beginning of a text of bytes, since the browser would be slow to show all of a long one. */
export function startOfText(bytes) {
  const text = new TextDecoder().decode(bytes.subarray(0, LONGEST_TEXT));
  const rest = bytes.length - LONGEST_TEXT;
  return rest <= 0 ? text
    : `${text}\n… and ${rest.toLocaleString("en")} bytes more: save it to see them all.`;
}
