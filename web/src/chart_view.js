// The chart on the page: its window of time, zoom by buttons, keys and the mouse, and printing.

import { drawChart, goodLines, latenessWords, linesForNames } from "./chart.js";
import { isDated, lengthText, momentText, weeksOf } from "./calendar.js";
import { drawNow, later } from "./later.js";
import { machineName } from "./machines.js";
import { whyFixed } from "./moving.js";
import { lateness } from "./plan.js";
import { html } from "./svg.js";

const PRINT_WIDTH = 1020;
// What a page of A4 leaves for the chart and the list below the measures.
const PRINT_HEIGHT = 520;
const MOST_WEEKS = 26;
// The bars of larger plans have their titles later.
const MOST_TITLED = 200;
const KEYS = { "+": "in", "=": "in", "-": "out", "−": "out", 0: "all", ArrowLeft: "left",
  ArrowRight: "right" };

export class ChartView {
  constructor() {
    this.frame = document.getElementById("chart-frame");
    this.details = document.getElementById("chart-details");
    this.lines = document.getElementById("lines");
    this.marks = document.getElementById("marks");
    this.plan = null;
    this.chosen = null;
    this.chosenOn = null;
    this.first = null;
    this.onDraw = () => {};
    for (const button of document.querySelectorAll("[data-zoom]")) {
      button.addEventListener("click", () => this.zoom(button.dataset.zoom));
    }
    this.frame.addEventListener("keydown", (event) => this.key(event));
    this.frame.addEventListener("wheel", (event) => this.wheel(event), { passive: false });
    this.frame.addEventListener("click", (event) => this.point(event.target));
    for (const input of [this.lines, this.marks]) {
      input.addEventListener("change", () => this.draw());
    }
    new ResizeObserver(() => this.resize()).observe(this.frame);
    window.addEventListener("beforeprint", () => this.draw(PRINT_WIDTH));
    window.addEventListener("afterprint", () => this.draw());
  }

  /**
   * Shows a plan. The window stays where it is if the plan before was as long, or if it is a part
   * of a plan of the same jobs.
   */
  show(plan) {
    const isSame = plan.jobs === this.plan?.jobs;
    const isWhole = this.to - this.from >= this.plan?.length;
    if (plan.length !== this.plan?.length && (!isSame || isWhole || this.to > plan.length)) {
      this.from = 0;
      this.to = Math.max(1, plan.length);
    }
    this.plan = plan;
    this.fixed = whyFixed(plan);
    const { chosen, chosenOn } = this;
    this.details.textContent = "";
    this.chosen = null;
    this.draw();
    if (isSame && chosen !== null) this.pointAt(chosen, chosenOn);
  }

  /** The chart as it is shown, with all its titles. */
  get whole() {
    drawNow(this);
    return this.chart;
  }

  resize() {
    if (this.plan && Math.abs(this.frame.clientWidth - this.drawnWidth) > 1) this.draw();
  }

  draw(width = null) {
    if (!this.plan) return;
    this.drawnWidth = width ?? Math.max(280, this.frame.clientWidth);
    const scale = width ? 1 : parseFloat(getComputedStyle(document.documentElement).fontSize) / 16;
    const titles = [];
    const view = { from: this.from, to: this.to, width: this.drawnWidth / scale,
      marks: this.marks.checked, isPrint: width !== null,
      isMovable: width === null && this.fixed === "",
      ...(width === null && this.plan.order.length > MOST_TITLED ? { later: titles } : {}) };
    this.view = { ...view, ...this.linesOf(view) };
    this.scale = scale;
    const { weeks } = this.view;
    const charts = view.isPrint && weeks
      ? weeks.map((week) => drawChart(this.plan, { ...this.view, weeks: [week] }, scale))
      : [drawChart(this.plan, this.view, scale)];
    [this.chart] = charts;
    const { job: focused, machine } = this.frame.contains(document.activeElement)
      ? document.activeElement.dataset : {};
    this.frame.replaceChildren(...charts);
    this.frame.setAttribute("role", view.isMovable ? "group" : "img");
    this.frame.setAttribute("aria-label", this.describe());
    later(this, titles.length > 0 && (() => titles.forEach((entitle) => entitle())));
    this.drawLegend();
    this.mark();
    if (focused !== undefined) (this.barOf(focused, machine) ?? this.frame).focus();
    this.onDraw();
  }

  /** The lines of the chart as they are chosen: weeks, so many, or as many as names need. */
  linesOf(view) {
    const { plan } = this;
    this.lines.querySelector("[value=weeks]").disabled = !isDated(plan.calendar);
    if (this.lines.value === "weeks" && isDated(plan.calendar)) {
      const weeks = weeksOf(plan.calendar, this.from, this.to, MOST_WEEKS);
      const end = weeks.at(-1)?.days.at(-1).step ?? this.to;
      if (weeks.length === MOST_WEEKS) this.to = Math.min(this.to, Math.max(end, this.from + 1));
      if (weeks.length > 0) return { weeks, lines: weeks.length };
    }
    const lines = Number(this.lines.value) || (view.isPrint
      ? linesForNames(plan, view, PRINT_HEIGHT) : goodLines(plan, view, Infinity));
    return { lines: Math.min(Math.max(1, Math.floor(this.to - this.from)), lines) };
  }

  describe() {
    const { plan } = this;
    const words = `Gantt chart of ${plan.jobs.length} jobs on ${plan.machines} `
      + `${plan.machines === 1 ? "machine" : "machines"}, from `
      + `${momentText(plan.calendar, Math.round(this.from), false)} to `
      + `${momentText(plan.calendar, Math.round(this.to), true)}. `;
    return `${words}The list below says the same in words. Keys: plus and minus zoom, arrows scroll`
      + `${this.view.isMovable ? ", Tab goes to the bars." : "."}`;
  }

  // ---- the window ----

  zoom(how, around = 0.5) {
    const size = this.to - this.from;
    if (how === "all") this.look(0, this.plan.length);
    else if (how === "in" || how === "out") {
      const next = size * (how === "in" ? 0.5 : 2);
      const middle = this.from + size * around;
      this.look(middle - next * around, middle + next * (1 - around));
    } else this.look(this.from + size * (how === "left" ? -0.25 : 0.25),
      this.to + size * (how === "left" ? -0.25 : 0.25));
  }

  /** Looks at a window of time, within the plan and at least four steps wide. */
  look(from, to) {
    const length = Math.max(1, this.plan.length);
    const size = Math.min(Math.max(to - from, Math.min(4, length)), length);
    this.from = Math.min(Math.max(0, from), length - size);
    this.to = this.from + size;
    this.draw();
  }

  key(event) {
    const how = KEYS[event.key];
    if (!how || !this.plan || event.ctrlKey || event.metaKey || event.altKey) return;
    event.preventDefault();
    this.zoom(how);
  }

  /** The wheel zooms while Ctrl is held, around the mouse. */
  wheel(event) {
    if (!event.ctrlKey || !this.plan) return;
    event.preventDefault();
    const box = this.frame.getBoundingClientRect();
    this.zoom(event.deltaY < 0 ? "in" : "out", (event.clientX - box.left) / box.width);
  }

  /** Tells of the job that was clicked. */
  point(target) {
    const { job, machine } = target.closest("[data-job]")?.dataset ?? {};
    if (job === undefined || !this.plan.jobs[job]) return;
    this.pointAt(Number(job), machine ? Number(machine) : null);
  }

  /** Tells of a job, and of where it is on a machine if one is given. */
  pointAt(job, machine = null) {
    const { plan } = this;
    const { calendar } = plan;
    const late = lateness(plan, job);
    this.details.textContent = `${plan.jobs[job].name}: `
      + `${momentText(calendar, plan.start[job], false)} to `
      + `${momentText(calendar, plan.completion[job], true)}, `
      + `${lengthText(calendar, plan.jobs[job].time)} of work`
      + (plan.isPreempted && plan.pieces[job] > 1 ? ` in ${plan.pieces[job]} pieces` : "")
      + (late === null ? "." : `; due ${momentText(calendar, plan.jobs[job].due, true)}, `
        + `${latenessWords(calendar, late)}.`)
      + (plan.jobs[job].steps ? ` ${stepWords(plan, job)}.` : "");
    this.chosen = job;
    this.chosenOn = machine;
    this.mark();
    this.onDraw();
  }

  /** The bar of a job on a machine, or else its first. */
  barOf(job, machine) {
    const bars = `.bar[data-job="${job}"]`;
    return this.frame.querySelector(`${bars}[data-machine="${machine}"]`)
      ?? this.frame.querySelector(bars);
  }

  /** Marks the bars of the job that is chosen; the Tab key goes to the first of them. */
  mark() {
    const { frame, chosen, chosenOn } = this;
    for (const bar of frame.querySelectorAll(".chosen")) bar.classList.remove("chosen");
    for (const bar of frame.querySelectorAll(`[data-job="${chosen}"]`)) bar.classList.add("chosen");
    this.first?.setAttribute("tabindex", "-1");
    this.first = this.view.isMovable ? this.barOf(chosen, chosenOn)
      ?? frame.querySelector(".bar") : null;
    this.first?.setAttribute("tabindex", "0");
  }

  drawLegend() {
    const { plan } = this;
    const hasLate = plan.jobs.some((_, job) => lateness(plan, job) > 0);
    const item = (kind, words) => html("span", { class: "key" },
      html("span", { class: `swatch ${kind}` }), ` ${words}`);
    const place = document.getElementById("legend");
    const isPart = this.view.weeks && this.to < plan.length;
    place.replaceChildren(...(isPart ? [html("span", {}, `${this.view.weeks.length} weeks, until `
      + `${momentText(plan.calendar, Math.round(this.to), true)}; ▶ shows later ones`)] : []),
      ...(plan.hasIdle ? [item("swatch-idle", "idle")] : []),
      ...(hasLate ? [item("swatch-late", "late job")] : []),
      ...(plan.jobs.some((job) => job.due !== null) ? [html("span", {}, "▲ due")] : []),
      ...(plan.usesRelease ? [html("span", {}, "▼ released")] : []),
      ...(this.frame.querySelector(".night") ? [html("span", {}, "╷ night")] : []),
      ...(this.frame.querySelector(".weekend") ? [html("span", {}, "┃ weekend, days off")] : []),
      ...(this.frame.querySelector(".many-frame") ? [item("swatch-many", "many short jobs")] : []));
  }
}

/** When a job is on each machine of its route. */
function stepWords({ schedule, order, names, calendar }, job) {
  const { start, stop, machine } = schedule;
  return Array.from(order).filter((piece) => schedule.job[piece] === job + 1)
    .sort((a, b) => start[a] - start[b])
    .map((piece) => `${machineName(names, machine[piece])} `
      + `${momentText(calendar, start[piece], false)} to `
      + momentText(calendar, stop[piece], true))
    .join("; ");
}
