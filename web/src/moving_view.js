// Moves bars: with the mouse or a finger, with the keys, or with the buttons below the chart.

import { placeAt, pointOf } from "./chart.js";
import { isByStep, targetAt, targetBeside } from "./moving.js";
import { html, svg } from "./svg.js";

const SLOP = 6;
const WAYS = { ArrowLeft: "left", ArrowRight: "right", ArrowUp: "up", ArrowDown: "down" };

export class MovingView {
  /**
   * @param {import("./chart_view.js").ChartView} chart
   * @param {(job: number, target: ?object) => void} move told of a job and its `Target`; null where
   *   it can't go further that way
   */
  constructor(chart, move) {
    this.chart = chart;
    this.move = move;
    this.held = null;
    this.at = (id) => document.getElementById(id);
    const { frame } = chart;
    frame.addEventListener("pointerdown", (event) => this.take(event));
    frame.addEventListener("pointermove", (event) => this.drag(event));
    frame.addEventListener("pointerup", (event) => this.drop(event));
    frame.addEventListener("pointercancel", () => this.letGo());
    frame.addEventListener("keydown", (event) => this.key(event), true);
    document.addEventListener("keydown", (event) => {
      if (event.key === "Escape") this.letGo();
    });
    for (const button of document.querySelectorAll("[data-move]")) {
      button.addEventListener("click", () =>
        this.step(chart.chosen, button.dataset.move, chart.chosenOn));
    }
    chart.onDraw = () => this.draw();
  }

  /** Shows the buttons for the job that is chosen, and how bars are moved, or why they are not. */
  draw() {
    const { plan, chosen, fixed } = this.chart;
    this.letGo();
    const isMovable = fixed === "";
    const tools = this.at("move");
    tools.hidden = !isMovable || chosen === null;
    if (!tools.hidden) tools.setAttribute("aria-label", `Move ${plan.jobs[chosen].name}`);
    const hasMachines = plan.machines > 1 && /^\s*P/.test(plan.problem);
    for (const way of ["up", "down"]) {
      tools.querySelector(`[data-move="${way}"]`).hidden = !hasMachines;
    }
    const words = (kind, text) => html("span", { class: kind }, text);
    const isDense = this.chart.chart.querySelector(".many-frame") !== null;
    this.at("move-words").replaceChildren(...isMovable ? [
      "Move a bar to see what that costs: ", words("touch", "tap it, then drag it sideways, or "
        + "press the buttons that come."), words("keys", "drag it, or choose it and press ← or →"
        + `${hasMachines ? ", or Shift with ↑ or ↓ for another machine" : ""}. ↑ and ↓ choose the `
        + "next bar. In the list, press Alt with ↑ or ↓."),
      isDense ? " Zoom in to move short jobs." : ""] : [fixed]);
  }

  /** Moves a job by one place, in a job shop on one of its machines, or to the next machine. */
  step(job, way, machine) {
    const { plan, fixed } = this.chart;
    if (fixed === "" && plan.jobs[job]) this.move(job, targetBeside(plan, job, way, machine));
  }

  // ---- keys ----

  key(event) {
    const { job, machine } = event.target.dataset;
    if (job === undefined || event.ctrlKey || event.metaKey || event.altKey) return;
    const way = WAYS[event.key];
    const isAlong = way === "left" || way === "right";
    if (way && (isAlong !== event.shiftKey)) this.step(Number(job), way, Number(machine));
    else if (way && !isAlong) this.walk(event.target, way);
    else if (event.key === "Enter" || event.key === " ") {
      this.chart.pointAt(Number(job), Number(machine));
    } else return;
    event.preventDefault();
    event.stopPropagation();
  }

  /** Goes to the next bar of another job. */
  walk(bar, way) {
    const bars = [...this.chart.frame.querySelectorAll(".bar")];
    const from = bars.indexOf(bar);
    const rest = way === "down" ? bars.slice(from + 1) : bars.slice(0, from).reverse();
    const next = rest.find((each) => each.dataset.job !== bar.dataset.job);
    if (!next) return;
    this.chart.pointAt(Number(next.dataset.job), Number(next.dataset.machine));
    next.focus();
  }

  // ---- mouse and touch ----

  take(event) {
    const bar = event.target.closest(".bar");
    const { chart } = this;
    if (!bar || event.button !== 0 || chart.fixed !== "") return;
    const job = Number(bar.dataset.job);
    // A finger that scrolls the page must not move anything.
    if (event.pointerType === "touch" && job !== chart.chosen) return;
    this.held = { job, bar, pointer: event.pointerId, x: event.clientX, y: event.clientY,
      machine: isByStep(chart.plan) ? Number(bar.dataset.machine) : null };
  }

  drag(event) {
    const { held, chart } = this;
    if (held?.pointer !== event.pointerId) return;
    const [x, y] = [event.clientX - held.x, event.clientY - held.y];
    if (!held.mark && Math.hypot(x, y) < SLOP) return;
    if (!held.mark) this.lift(held);
    const box = chart.chart.getBoundingClientRect();
    const at = placeAt(chart.plan, chart.view, (event.clientX - box.left) / chart.scale,
      (event.clientY - box.top) / chart.scale);
    const machine = held.machine ?? at.machine;
    held.target = targetAt(chart.plan, held.job, machine, at.step);
    held.ghost.setAttribute("transform", `translate(${x / chart.scale} ${y / chart.scale})`);
    const point = pointOf(chart.plan, chart.view, machine, this.boundary(held.target));
    held.mark.setAttribute("d", `M${point.x} ${point.y - 3}v${point.height + 6}`);
  }

  /** Begins to drag a bar: it follows the pointer, and a line stands where it would go. */
  lift(held) {
    const { frame, chart, plan, scale } = this.chart;
    frame.setPointerCapture(held.pointer);
    const [bar, box] = [held.bar, chart].map((each) => each.getBoundingClientRect());
    const [x, y] = [(bar.left - box.left) / scale, (bar.top - box.top) / scale];
    const rect = held.bar.cloneNode();
    rect.setAttribute("x", x);
    rect.setAttribute("y", y);
    const name = svg("text", { class: "name", "text-anchor": "middle",
      x: (held.x - box.left) / scale, y: y + bar.height / scale / 2 + 4 },
    plan.jobs[held.job].name);
    held.ghost = svg("g", { class: "ghost" }, rect, name);
    held.bar.classList.add("dragged");
    held.mark = svg("path", { class: "drop" });
    chart.append(held.mark, held.ghost);
  }

  /** The time before which a job is dropped. */
  boundary({ machine, before }) {
    const { plan } = this.chart;
    const pieces = plan.order.subarray(...plan.rows[machine - 1]);
    const next = pieces.find((piece) => plan.schedule.job[piece] - 1 === before);
    if (next !== undefined) return plan.schedule.start[next];
    return pieces.length > 0 ? plan.schedule.stop[pieces.at(-1)] : 0;
  }

  drop(event) {
    const { held } = this;
    if (held?.pointer !== event.pointerId) return;
    this.letGo();
    if (held.mark) this.move(held.job, held.target);
  }

  letGo() {
    const { held } = this;
    this.held = null;
    held?.mark?.remove();
    held?.ghost?.remove();
    held?.bar.classList.remove("dragged");
  }
}
