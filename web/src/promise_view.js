// Asks what can be promised for a new order, and says why not earlier.

import { isDated, lengthText, momentField, momentText, readMoment } from "./calendar.js";
import { splitNames } from "./precedence.js";
import { hasRoutes, isShop, readNotation } from "./problems.js";
import { canPromise, isExact, promiseReason, promiseRequest, readWork } from "./promise.js";
import { lateness } from "./plan.js";
import { html } from "./svg.js";

export class PromiseView {
  /**
   * @param {object} source `ask(request)` asks the worker; `add(values)` adds a row to the table;
   *   `makesPlans()`, whether the module makes plans without an exact method
   */
  constructor(source) {
    this.plan = null;
    this.source = source;
    this.at = (id) => document.getElementById(id);
    this.at("promise-form").addEventListener("submit", (event) => {
      event.preventDefault();
      this.find();
    });
  }

  /** Forgets what was promised for another plan, and says whether anything can be. */
  show(plan) {
    if (plan === this.plan) return;
    this.plan = plan;
    this.at("promised").replaceChildren();
    const isPossible = canPromise(plan.problem, this.source.makesPlans());
    const problem = readNotation(plan.problem);
    this.at("promise-time").placeholder = isShop(problem) ? "2 h; 3 h"
      : hasRoutes(problem) ? "3@1, 4@2" : "";
    this.at("promise-form").hidden = !isPossible;
    this.at("promise-not").hidden = isPossible;
    this.at("promise-after").parentElement.hidden = !/\bprec\b/.test(plan.problem);
    this.at("promise-release").parentElement.hidden = !plan.usesRelease;
  }

  say(...words) {
    this.at("promised").replaceChildren(...words);
  }

  async find() {
    const { plan } = this;
    const order = this.readOrder(plan);
    if (order.fault) return this.say(html("p", { class: "fault" }, order.fault));
    this.say(html("p", {}, "Searching for the earliest date …"));
    const found = await this.source.ask(promiseRequest(plan, order));
    if (this.plan !== plan) return undefined;
    if (found?.status !== 0) {
      return this.say(html("p", { class: "fault" }, "The solver was stopped or ended early, so no "
        + "date was found."));
    }
    return this.tell(plan, order, found);
  }

  /** The new order as it is typed, or what is wrong with it. */
  readOrder(plan) {
    const text = (id) => {
      const input = this.at(id);
      return input.parentElement.hidden ? "" : input.value.trim();
    };
    const { calendar, index } = plan;
    const name = text("promise-name") || "New order";
    if (text("promise-time") === "") return { fault: "How long does the new order take?" };
    const work = readWork(plan, text("promise-time"));
    if (work.fault) return work;
    const release = text("promise-release") === "" ? { steps: 0 }
      : readMoment(calendar, text("promise-release"), false);
    if (release.fault) return release;
    const others = splitNames(text("promise-after"), (each) => index.has(each))
      .map((each) => index.find(each));
    const wrong = others.find((each) => each.fault);
    if (wrong) return wrong;
    return { name, ...work, release: release.steps, after: others.map(({ place }) => place),
      texts: { name, ...workTexts(plan.problem, text("promise-time")),
        release: text("promise-release"), after: text("promise-after") } };
  }

  tell(plan, order, found) {
    const row = { ...order.texts, due: momentField(plan.calendar, found.due, true) };
    this.say(
      html("p", { class: "good" }, `“${order.name}” can be promised for `,
        html("strong", {}, momentText(plan.calendar, found.due, true)),
        isExact(plan.problem) ? "." : ": a plan was found for it."),
      html("p", {}, othersWords(plan)),
      html("p", {}, `${whyNotEarlier(plan, order, found)} `,
        html("span", { class: "proved" }, "proved")),
      html("p", {}, html("button", { type: "button", click: () => this.source.add(row) },
        "Add the order with this date")));
  }
}

/** How long an order takes, in the columns of its row. */
function workTexts(notation, text) {
  const problem = readNotation(notation);
  if (hasRoutes(problem)) return { route: text };
  const [time, time2 = ""] = isShop(problem) ? text.split(";").map((each) => each.trim()) : [text];
  return { time, time2 };
}

/** What the date of a new order asks of the others. */
function othersWords(plan) {
  const late = plan.jobs.filter((_, job) => lateness(plan, job) > 0).length;
  if (late === 0) return "With that date no order is late.";
  const best = plan.isOptimal ? "in the optimal plan" : "in the plan that was found";
  return `With that date no order is later than ${best}: ${late === 1 ? "the one that is"
    : `the ${late} that are`} late now may be done when the plan has it done.`;
}

/** Up to which date no plan is possible, and why; between it and the promise nothing is known. */
function whyNotEarlier(plan, order, found) {
  const { calendar } = plan;
  const reason = promiseReason(plan, order, found);
  if (found.due - found.past === 1) {
    const step = isDated(calendar) ? `A step of ${lengthText(calendar, 1)}` : "One";
    return `${step} earlier is not possible: ${reason}`;
  }
  return `No plan can be before ${momentText(calendar, found.past + 1, true)}; whether a date `
    + `between is possible is not known. A step before it: ${reason}`;
}
