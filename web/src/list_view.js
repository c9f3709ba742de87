// The plan as a list: a line for each job by its name, or for each machine its work in order.

import { latenessWords } from "./chart.js";
import { endText, isDated, lengthText, momentText } from "./calendar.js";
import { drawNow, later } from "./later.js";
import { machineName } from "./machines.js";
import { release } from "./memory.js";
import { Pager } from "./pager.js";
import { lateness } from "./plan.js";
import { html, setChildren } from "./svg.js";

const MOST_PRINTED = 3000;
const MOST_TICKED = 60;
// Above the list of more jobs stands so much that it may be drawn later.
const MOST_AT_ONCE = 200;
const alphabet = new Intl.Collator(undefined, { numeric: true });

export class ListView {
  /**
   * @param {object} actions `choose(job)` told of the job that is clicked; `move(job, way,
   *   machine)` of a job to move "left" or "right", on a machine where the list is by machine;
   *   `tick(job, piece)` of a job that is done, or of its piece where one is given; `untick(id)` of the row of a job that is not done after all
   */
  constructor(actions) {
    this.table = document.getElementById("list");
    this.sort = document.getElementById("sort");
    this.lateOnly = document.getElementById("late-only");
    this.workLists = document.getElementById("work-lists");
    this.pager = new Pager(document.getElementById("list-pager"), "Lines", () => this.draw());
    this.tick = document.getElementById("tick");
    this.tick.checked = window.matchMedia("(max-width: 40rem)").matches;
    this.ticked = document.getElementById("ticked");
    this.actions = actions;
    this.plan = null;
    this.isOld = false;
    this.lines = new Map();
    for (const input of [this.sort, this.lateOnly, this.tick]) {
      input.addEventListener("change", () => this.arrange());
    }
    window.addEventListener("resize", () => this.fit());
    // Until the list of a new plan is drawn, its lines are those of another one.
    for (const kind of ["click", "keydown"]) {
      this.table.addEventListener(kind, (event) =>
        this.isOld && event.key !== "Tab" && stop(event), true);
    }
    window.addEventListener("beforeprint", () => {
      this.draw(true);
      this.drawWorkLists();
    });
    window.addEventListener("afterprint", () => {
      this.workLists.replaceChildren();
      this.draw();
    });
  }

  /**
   * @param {object} plan
   * @param {?{moved: Map<number, number>, added: number[]}} comparison with the plan that is kept
   */
  show(plan, comparison) {
    this.plan = plan;
    this.comparison = comparison;
    this.isOld = true;
    later(this, () => this.arrange());
    if (plan.jobs.length <= MOST_AT_ONCE) drawNow(this);
  }

  /** Whether a line is a piece of work on a machine, and not a job. */
  get isByMachine() {
    return this.sort.value === "machine";
  }

  jobOf(item) {
    return this.isByMachine ? this.plan.schedule.job[item] - 1 : item;
  }

  /** Sorts the jobs, or the pieces of work, as is chosen. */
  arrange() {
    const { plan } = this;
    this.isOld = false;
    if (!plan) return;
    const late = (job) => lateness(plan, job) ?? -Infinity;
    const by = {
      start: (a, b) => plan.start[a] - plan.start[b] || plan.completion[a] - plan.completion[b],
      completion: (a, b) => plan.completion[a] - plan.completion[b],
      lateness: (a, b) => late(b) - late(a),
      name: (a, b) => alphabet.compare(plan.jobs[a].name, plan.jobs[b].name),
      row: () => 0,
    }[this.sort.value];
    if (this.order) release({ order: this.order });
    const all = this.isByMachine ? plan.order.slice() : jobsByMachine(plan);
    this.order = all;
    if (this.lateOnly.checked) {
      this.order = all.filter((item) => late(this.jobOf(item)) > 0);
      release({ all });
    }
    if (!this.isByMachine) sortUnlessSorted(this.order, (a, b) => by(a, b) || a - b);
    if (this.wasByMachine !== this.isByMachine) this.lines = new Map();
    this.wasByMachine = this.isByMachine;
    this.draw();
  }

  draw(isPrint = false) {
    if (!this.plan) return;
    drawNow(this);
    const columns = this.isByMachine ? this.pieceColumns() : this.jobColumns();
    if (isPrint && !this.hasWorkLists) columns.push({ head: "Done", wordsOf: () => "" });
    if (!isPrint && this.tick.checked) {
      columns.unshift({ head: "Done", isTick: true, wordsOf: () => "" });
    }
    this.drawTicked();
    this.pager.show(this.order.length);
    const [first, end] = isPrint ? [0, Math.min(MOST_PRINTED, this.order.length)]
      : [this.pager.first, this.pager.end];
    const heads = columns.map(({ head }) => head);
    if (heads.join() !== this.heads) {
      this.heads = heads.join();
      this.lines = new Map();
      this.table.tHead.replaceChildren(html("tr", {},
        heads.map((words) => html("th", { scope: "col" }, words))));
    }
    const before = this.lines;
    const focused = [...before.values()].find(({ line }) => line.contains(document.activeElement));
    this.lines = new Map();
    for (const item of this.order.subarray(first, end)) {
      const words = columns.map(({ wordsOf }) => wordsOf(item));
      const known = before.get(item);
      const job = this.jobOf(item);
      const isSame = known?.job === job && known.words.join("\n") === words.join("\n");
      this.lines.set(item, isSame ? known : { job, words, line: this.line(item, words, columns) });
    }
    setChildren(this.table.tBodies[0], [...this.lines.values()].map(({ line }) => line));
    this.fit();
    if (focused) this.focus(focused.job);
  }

  /** In the list by machine, dates and lengths of time stand in one line where there is room. */
  fit() {
    const { table, plan } = this;
    const frame = table.parentElement;
    table.classList.toggle("dated", isDated(plan?.calendar));
    table.classList.toggle("routed", plan !== null && !this.isByMachine && hasSteps(plan));
    table.classList.toggle("unbroken", this.isByMachine);
    if (this.isByMachine && frame.scrollWidth > frame.clientWidth) {
      table.classList.remove("unbroken");
    }
  }

  /** Gives a job that is on this page the focus. */
  focus(job) {
    const found = [...this.lines.values()].find((each) => each.job === job);
    found?.line.querySelector("button").focus();
  }

  /** The columns of jobs: how late one is stands beside its name, where no width cuts it off. */
  jobColumns() {
    const { plan } = this;
    const { calendar } = plan;
    const hasDue = plan.jobs.some((job) => job.due !== null);
    const hasCounts = plan.problem.endsWith("hmax") && plan.counts;
    return [
      { head: "#", wordsOf: (job) => String(plan.jobs[job].row + 1) },
      { head: "Job", isName: true, wordsOf: (job) => plan.jobs[job].name },
      hasDue && { head: "Lateness", isLateness: true, wordsOf: (job) => this.lateWords(job) },
      this.comparison && { head: "Against the kept plan", wordsOf: (job) => this.movedWords(job) },
      hasCounts && { head: "Cost", wordsOf: (job) => plan.counts[job] },
      plan.machines > 1 && { head: "Machine", wordsOf: (job) => this.machineWords(job) },
      { head: "Start", wordsOf: (job) => momentText(calendar, plan.start[job], false) },
      { head: "Until", wordsOf: (job) => momentText(calendar, plan.completion[job], true) },
      hasDue && { head: "Due", wordsOf: (job) => this.dueWords(job) },
    ].filter(Boolean);
  }

  /** The columns of pieces of work, as they are done on each machine. */
  pieceColumns() {
    const { plan } = this;
    const { calendar, schedule } = plan;
    const hasDue = plan.jobs.some((job) => job.due !== null);
    const of = (words) => (piece) => words(schedule.job[piece] - 1);
    return [
      { head: "Machine", wordsOf: (piece) => machineName(plan.names, schedule.machine[piece]) },
      { head: "Start", wordsOf: (piece) => momentText(calendar, schedule.start[piece], false) },
      { head: "Job", isName: true, wordsOf: of((job) => plan.jobs[job].name) },
      hasDue && { head: "Lateness", isLateness: true, wordsOf: of((job) => this.lateWords(job)) },
      { head: "Takes", wordsOf: (piece) =>
        lengthText(calendar, schedule.stop[piece] - schedule.start[piece]) },
      { head: "Until", wordsOf: (piece) =>
        endText(calendar, schedule.start[piece], schedule.stop[piece]) },
      hasDue && { head: "Due", wordsOf: of((job) => this.dueWords(job)) },
    ].filter(Boolean);
  }

  lateWords(job) {
    const late = lateness(this.plan, job);
    return late === null ? "" : latenessWords(this.plan.calendar, late);
  }

  /** A due date; the end of a working day goes without its time of day. */
  dueWords(job) {
    const { due } = this.plan.jobs[job];
    return due === null ? "" : momentText(this.plan.calendar, due, true, true);
  }

  line(item, words, columns) {
    const job = this.jobOf(item);
    const isLate = lateness(this.plan, job) > 0;
    const cells = words.map((each, place) => {
      const { head, isName, isLateness, isTick } = columns[place];
      if (isName) {
        return html("th", { scope: "row" }, html("button", { type: "button", class: "link",
          click: () => this.actions.choose(job),
          keydown: (event) => this.key(event, job, item) }, each));
      }
      if (isTick) return html("td", { class: "tick" }, this.box(item));
      return html("td", { "data-head": head },
        isLateness && isLate ? html("span", { class: "late-words" }, each) : each);
    });
    return html("tr", { class: isLate ? "is-late" : "" }, cells);
  }

  /** A box to tick off a job, or in the list by machine the work on that machine. */
  box(item) {
    const job = this.jobOf(item);
    const piece = this.isByMachine && this.plan.pieces[job] > 1 ? item : null;
    return html("input", { type: "checkbox", "aria-label": `${this.plan.jobs[job].name} is done`,
      change: () => this.actions.tick(job, piece) });
  }

  /** How much is done, whether the rest is in time, and the boxes of what is done. */
  drawTicked() {
    const { plan, tick, ticked } = this;
    const { done } = plan;
    ticked.replaceChildren();
    if (done.length === 0) return;
    const late = plan.jobs.reduce((count, _, job) => count + (lateness(plan, job) > 0 ? 1 : 0), 0);
    ticked.append(html("p", { class: late > 0 ? "fault" : "good" }, `${done.length} of `
      + `${done.length + plan.jobs.length} done. ${restWords(plan, late)}`));
    if (!tick.checked) return;
    ticked.append(html("p", { class: "checks" }, done.slice(-MOST_TICKED).map(({ id, name }) =>
      html("label", {}, html("input", { type: "checkbox", checked: true,
        change: () => this.actions.untick(id) }), ` ${name}`))));
  }

  /** Alt with the arrows moves a job before or behind its neighbour on the machine. */
  key(event, job, item) {
    const way = { ArrowUp: "left", ArrowDown: "right" }[event.key];
    if (!way || !event.altKey) return;
    event.preventDefault();
    this.actions.move(job, way, this.isByMachine ? this.plan.schedule.machine[item] : null);
  }

  /** Whether print has a list for each machine: on one machine the list by jobs says it all. */
  get hasWorkLists() {
    const { machines, isPreempted, order } = this.plan;
    return (machines > 1 || isPreempted) && order.length <= MOST_PRINTED;
  }

  /** For print: what is done on each machine, one after another, with a box to tick. */
  drawWorkLists() {
    const { plan, workLists } = this;
    workLists.replaceChildren();
    if (!plan || !this.hasWorkLists) return;
    const columns = this.pieceColumns()
      .filter(({ head }) => head !== "Machine" && head !== "Lateness");
    const heads = [...columns.map(({ head }) => head), "Done"];
    plan.rows.forEach(([first, end], k) => {
      if (first === end) return;
      const cells = (piece) => [...columns.map(({ wordsOf }) => wordsOf(piece)), ""];
      const lines = [...plan.order.subarray(first, end)].map((piece) => html("tr", {},
        cells(piece).map((words) => html("td", {}, words))));
      workLists.append(html("section", { class: "work-list" },
        html("h3", {}, machineName(plan.names, k + 1)),
        html("table", {}, html("thead", {}, html("tr", {}, heads.map((words) => html("th",
          { scope: "col" }, words)))), html("tbody", {}, lines))));
    });
  }

  /** The machines of a job, and in how many pieces it is where it is preempted. */
  machineWords(job) {
    const { jobs, pieces, machine, schedule, order, isPreempted, names } = this.plan;
    const word = (each) => names[each - 1] || String(each);
    if (pieces[job] <= 1) return pieces[job] === 0 ? "" : word(machine[job]);
    const { steps } = jobs[job];
    if (steps) {
      return steps.filter(({ time }) => time > 0).map((step) => word(step.machine)).join(", ");
    }
    const found = new Set();
    for (const piece of order) {
      if (schedule.job[piece] === job + 1) found.add(schedule.machine[piece]);
    }
    const machines = [...found].sort((a, b) => a - b).map(word).join(", ");
    return isPreempted ? `${machines} (${pieces[job]} pieces)` : machines;
  }

  movedWords(job) {
    const { moved, added } = this.comparison;
    if (this.isNew === undefined || this.isNew.of !== added) {
      this.isNew = { of: added, jobs: new Set(added) };
    }
    if (this.isNew.jobs.has(job)) return "new";
    const by = moved.get(job);
    if (by === undefined) return "as before";
    if (by === 0) return "same completion";
    return `${lengthText(this.plan.calendar, Math.abs(by))} ${by > 0 ? "later" : "earlier"}`;
  }
}

function stop(event) {
  event.preventDefault();
  event.stopPropagation();
}

/** Whether the jobs have routes, and so several machines each. */
function hasSteps({ jobs }) {
  return Boolean(jobs[0]?.steps);
}

/** The jobs in the order in which the machines, one after another, begin them. */
function jobsByMachine({ jobs, order, schedule }) {
  const isSeen = new Uint8Array(jobs.length);
  const found = new Uint32Array(jobs.length);
  let count = 0;
  const take = (job) => {
    if (!(job >= 0 && job < jobs.length) || isSeen[job]) return;
    isSeen[job] = 1;
    found[count++] = job;
  };
  for (let k = 0; k < order.length; k++) take(schedule.job[order[k]] - 1);
  for (let job = 0; job < jobs.length; job++) take(job);
  return found;
}

/** Sorts an array of numbers, of which many are sorted already. */
function sortUnlessSorted(items, compare) {
  for (let k = 1; k < items.length; k++) {
    if (compare(items[k - 1], items[k]) > 0) {
      items.sort(compare);
      return;
    }
  }
}

/** Whether what is left is in time, and from when on. */
function restWords(plan, late) {
  const { calendar, jobs } = plan;
  const from = `The rest, from ${momentText(calendar, 0, false)}${plan.isOwn ? " in this order"
    : ""}`;
  const all = jobs.map((_, job) => lateness(plan, job)).filter((each) => each !== null);
  if (all.length === 0) return `${from}, ends ${momentText(calendar, plan.length, true)}.`;
  const most = lengthText(calendar, Math.abs(Math.max(...all)));
  if (late > 0) return `${from}: ${late} ${late === 1 ? "job" : "jobs"} late, by up to ${most}.`;
  return `${from}, is in time, the tightest by ${most}.`;
}
