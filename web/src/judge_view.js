// Judges anybody's schedule: whether it is allowed, and how far it is from the optimum.

import { momentText } from "./calendar.js";
import { latenessWords } from "./chart.js";
import { answerOfOrder, readOrder } from "./order.js";
import { needsMachines, readNotation } from "./problems.js";
import { explainReason, explainRefusal } from "./refusals.js";
import { html } from "./svg.js";
import { valueText } from "./values.js";

const MOST_OUTCOMES = 300;

/** Has the module judge an answer text, and draw it or read it; null where it was stopped. */
export function judgeText(ask, now, text, isDrawn) {
  return ask({ ...now.request, kind: "judge", answer: new TextEncoder().encode(text),
    jobs: now.table.jobs.length, isDrawn });
}

export class JudgeView {
  /**
   * @param {object} source `request()` gives the table and the request of now, or null;
   *   `ownAnswer()` the answer of the plan above, or null; `ask(request)` asks the worker
   */
  constructor(source) {
    this.source = source;
    this.at = (id) => document.getElementById(id);
    this.address = null;
    this.at("judge-run").addEventListener("click", () => this.judge());
    this.at("judge-own").addEventListener("click", () => this.takeOwn());
    this.at("order-to-answer").addEventListener("click", () => this.takeOrder());
    this.at("order").addEventListener("keydown", (event) => {
      if (event.key === "Enter") this.takeOrder();
    });
  }

  /** Forgets a judgement, which was of other jobs or another problem. */
  clear() {
    this.at("judgement").replaceChildren();
  }

  /** Opens the part of the page with an answer text, and judges it. */
  open(text) {
    this.at("judge").open = true;
    this.at("judge-text").value = text;
    this.at("judge").scrollIntoView();
    this.judge();
  }

  takeOwn() {
    const answer = this.source.ownAnswer();
    if (answer) this.at("judge-text").value = new TextDecoder().decode(answer);
    else this.say("fault", "There is no plan above yet.");
  }

  takeOrder() {
    const now = this.source.request();
    const problem = now && readNotation(now.problem);
    if (!problem) return this.say("fault", "First the jobs and the problem have to be in order.");
    const order = readOrder(this.at("order").value, now.table);
    if (order.fault) return this.say("fault", order.fault);
    const machines = problem.environment === "1" ? 1 : problem.count ?? now.table.machines
      ?? (needsMachines(problem) ? now.request.machines : 2);
    if (!machines) return this.say("fault", "Say how many machines there are.");
    this.at("judge-text").value = answerOfOrder(order.jobs, now, problem, machines);
    return this.judge();
  }

  say(kind, ...words) {
    this.at("judgement").replaceChildren(html("p", { class: kind }, words));
  }

  async judge() {
    const now = this.source.request();
    if (!now) return this.say("fault", "First the jobs and the problem have to be in order.");
    const reply = await judgeText(this.source.ask, now, this.at("judge-text").value, true);
    if (reply) return this.show(reply, now);
    return this.say("fault", "The solver was stopped or can't run, so nothing was judged.");
  }

  show(reply, now) {
    if (reply.errors && !reply.verdict && !reply.evaluation) {
      const [refusal] = explainRefusal(reply, now.table, now.problem);
      this.say("fault", refusal.code === "NoSolver" ? `${now.problem} has neither an exact method `
        + "nor a lower bound here, so nothing can be said of its schedules." : refusal.message);
      if (refusal.line) this.select(refusal.line);
      return;
    }
    const lines = [this.verdict(reply, now), this.value(reply, now)];
    if (reply.picture) lines.push(this.picture(reply.picture));
    lines.push(outcomes(reply.evaluation, now));
    this.at("judgement").replaceChildren(...lines.filter(Boolean));
  }

  verdict({ verdict, evaluation, evaluated }, { table, calendar }) {
    if (verdict === "accepted") {
      return html("p", { class: "good" },
        "Accepted: the schedule is allowed, it is optimal, and its certificate shows it.");
    }
    if (evaluation?.misfit) {
      return html("p", { class: "fault" },
        `Not allowed: ${explainReason(evaluation.misfit, table, calendar)}`);
    }
    if (evaluated.status === 0) {
      return html("p", { class: "good" }, "The schedule is allowed, and it is optimal.");
    }
    if (evaluated.status === 6) {
      const isKnown = evaluation.best !== undefined;
      return html("p", { class: "note" }, "The schedule is allowed, ",
        isKnown ? "and it is not optimal." : "and it is not known whether it is optimal.");
    }
    const reason = verdict.replace(/^rejected: /, "");
    return html("p", { class: "fault" }, explainReason(reason, table, calendar));
  }

  /** What the schedule costs, and how far that is from the optimum or from the bound. */
  value({ evaluation }, { problem, calendar }) {
    if (evaluation?.value === undefined) return null;
    const strong = (value) => html("strong", {}, valueText(calendar, problem, value));
    const { value, best, gap, bound } = evaluation;
    const words = ["Its value is ", strong(value)];
    if (best !== undefined) words.push(", the optimum is ", strong(best), ", so the gap is ",
      strong(gap), ". ");
    else if (bound !== undefined) words.push("; no schedule has less than ", strong(bound),
      ", so it is at most ", strong(gap), " above the optimum. ");
    else words.push("; no lower bound was found. ");
    return html("p", {}, words, html("span", { class: "proved" }, "proved"));
  }

  /** The module's own picture of the schedule: an image, so nothing in it can run. */
  picture(bytes) {
    if (this.address) URL.revokeObjectURL(this.address);
    this.address = URL.createObjectURL(new Blob([bytes], { type: "image/svg+xml" }));
    return html("img", { src: this.address,
      alt: "The schedule as the solver draws it, by job numbers" });
  }

  /** Selects a line of the answer text. */
  select(line) {
    const text = this.at("judge-text");
    const lines = text.value.split("\n");
    const start = lines.slice(0, line - 1).reduce((sum, each) => sum + each.length + 1, 0);
    text.focus();
    text.setSelectionRange(start, start + (lines[line - 1]?.length ?? 0));
  }
}

/** What happens to each job: a table that can be opened, or null where nothing is known. */
function outcomes(evaluation, { table, calendar }) {
  if (!evaluation?.isOfJobs) return null;
  const hasDue = table.jobs.some((job) => job.due !== null);
  const heads = ["Job", "Start", "Until", ...(hasDue ? ["Lateness"] : [])];
  const lines = table.jobs.slice(0, MOST_OUTCOMES).map((job, place) => {
    const { start, completion } = evaluation;
    const late = job.due === null ? null : completion[place] - job.due;
    return html("tr", {}, html("th", { scope: "row" }, job.name),
      html("td", {}, momentText(calendar, start[place], false)),
      html("td", {}, momentText(calendar, completion[place], true)),
      hasDue ? html("td", { class: late > 0 ? "late-words" : "" },
        late === null ? "" : latenessWords(calendar, late)) : null);
  });
  const rest = table.jobs.length - lines.length;
  return html("details", {}, html("summary", {}, "What happens to each job"),
    html("div", { class: "scroll" }, html("table", { class: "outcomes" },
      html("thead", {}, html("tr", {}, heads.map((head) => html("th", { scope: "col" }, head)))),
      html("tbody", {}, lines))),
    rest > 0 ? html("p", {}, `and ${rest.toLocaleString("en")} more`) : null);
}
