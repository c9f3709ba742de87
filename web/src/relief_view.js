// Which single order of a plan with late ones, moved or given away, brings all others in time.

import { lengthText, momentText } from "./calendar.js";
import { lateness } from "./plan.js";
import { canPromise, reliefRequest } from "./promise.js";
import { html } from "./svg.js";

const MOST_SHOWN = 6;

export class ReliefView {
  /**
   * @param {object} source `ask(request)` asks the worker; `move(id, due)` gives the order of a row
   *   another due date; `makesPlans()` as `PromiseView` has it
   */
  constructor(source) {
    this.plan = null;
    this.source = source;
    this.at = (id) => document.getElementById(id);
    this.at("relief-find").addEventListener("click", () => this.find());
  }

  /** Forgets what was found for another plan; only a plan with late orders has a question. */
  show(plan) {
    if (plan === this.plan) return;
    this.plan = plan;
    this.at("relieved").replaceChildren();
    this.at("relief").hidden = !canPromise(plan.problem, this.source.makesPlans())
      || plan.jobs.length < 2 || !plan.jobs.some((_, job) => lateness(plan, job) > 0);
  }

  say(...words) {
    this.at("relieved").replaceChildren(...words);
  }

  async find() {
    const { plan } = this;
    const request = reliefRequest(plan);
    if (!request) return this.say(html("p", { class: "fault" }, "There are too many orders."));
    this.say(html("p", {}, "Trying each order …"));
    const reply = await this.source.ask(request);
    if (this.plan !== plan) return undefined;
    if (reply?.status !== 0) {
      return this.say(html("p", { class: "fault" }, "The solver was stopped or ended early, so no "
        + "order was found."));
    }
    return this.tell(plan, request, reply.found);
  }

  tell(plan, { isExact, isWhole, orders }, found) {
    if (found.length === 0) {
      const all = isWhole ? "" : `Only the ${orders.length} longest orders were tried. `;
      return this.say(html("p", { class: "note" }, `${all}${isExact
        ? "Whichever single order is moved or given away, another one is still late. "
        : "No plan was found in which one order alone has to be moved or given away. "}`,
      isExact && isWhole ? html("span", { class: "proved" }, "proved") : null));
    }
    const sorted = sortedRelief(plan, found);
    const more = sorted.length - MOST_SHOWN;
    return this.say(html("ul", {}, sorted.slice(0, MOST_SHOWN).map((each) =>
      this.item(plan, each))), more > 0 ? html("p", {}, `And ${more} more.`) : "");
  }

  item(plan, { place, due }) {
    const { calendar, jobs } = plan;
    const job = jobs[place];
    if (due === null) {
      return html("li", {}, `“${job.name}” given away (${lengthText(calendar, job.time)}): all `
        + "others are in time.");
    }
    return html("li", {}, `“${job.name}” due `, html("strong", {}, momentText(calendar, due, true)),
      `, ${lengthText(calendar, due - job.due)} later: all are in time. `,
      html("button", { type: "button", click: () => this.source.move(job.id, due) }, "Move it"));
  }
}

/** Orders that are moved by the least, and then those of the least work that are given away. */
function sortedRelief({ jobs }, found) {
  const moved = found.filter(({ due }) => due !== null);
  const away = found.filter(({ due }) => due === null);
  const delay = ({ place, due }) => due - jobs[place].due;
  return [...moved.sort((a, b) => delay(a) - delay(b)),
    ...away.sort((a, b) => jobs[a.place].time - jobs[b.place].time)];
}
