// The page: keeps state, solver and views together.

import { assumptionsOf } from "./assumptions.js";
import { isDated, makeCalendar, momentField } from "./calendar.js";
import { CalendarView } from "./calendar_view.js";
import { EXAMPLE_TITLES, exampleState } from "./examples.js";
import { Files } from "./files.js";
import { ImportView } from "./import_view.js";
import { JudgeView } from "./judge_view.js";
import { Keeping } from "./keeping.js";
import { planBegins, planEnds } from "./later.js";
import { Longer } from "./longer.js";
import { machineNames } from "./machines.js";
import { hasShown, release } from "./memory.js";
import { OwnPlan } from "./own_plan.js";
import { betterOf, keepPlan, makePlan } from "./plan.js";
import { PlanView, startOfText } from "./plan_view.js";
import { PrecedenceView } from "./precedence_view.js";
import { fromNow, tickedOff, unticked } from "./progress.js";
import { PromiseView } from "./promise_view.js";
import { columnsUsed, describe, hasRoutes, needsMachines, readNotation } from "./problems.js";
import { ProblemView } from "./problem_view.js";
import { ReliefView } from "./relief_view.js";
import { explainRefusal } from "./refusals.js";
import { RowsView } from "./rows_view.js";
import { SheetView } from "./sheet_view.js";
import { Solving } from "./solving.js";
import { emptyState, isSameWork } from "./state.js";
import { Store } from "./store.js";
import { html } from "./svg.js";
import { gapChange, valueText } from "./values.js";
import { warmUp } from "./warming.js";
import { FIELDS, RowReader, isEmptyRow, makeTable, newRow, noteSameNames } from "./table.js";

const REST = 150;
const PATIENCE = 400;
const UNKNOWN = new Set(FIELDS.filter((field) => field !== "time2" && field !== "route"));
const WELCOME = "Paste your jobs from a spreadsheet, type them into the table, or choose an "
  + "example: the plan is made as you type.";

class Page {
  constructor() {
    this.store = new Store(emptyState(navigator.language));
    this.version = 0;
    const text = (id) => document.getElementById(id).textContent;
    this.solving = new Solving(text("worker-source"), text("module-bytes"),
      (loaded) => this.moduleLoaded(loaded));
    this.now = null;
    this.shown = null;
    this.best = null;
    this.problemView = new ProblemView(this.store);
    this.calendarView = new CalendarView(this.store);
    this.rowsView = new RowsView(this.store);
    this.notify = (...words) => this.showNotice(...words);
    this.importView = new ImportView(this.store, this.notify);
    this.precedenceView = new PrecedenceView(this.store, () => this.now?.table);
    this.planView = new PlanView({
      keep: () => this.shown && this.store.change({ kept: keepPlan(this.shown.plan) }),
      forget: () => this.store.change({ kept: null }),
      move: (job, target) => this.own.move(job, target),
      tick: (job, piece) => this.tick(job, piece),
      untick: (id) => this.store.change(unticked(this.store.state, id)),
    });
    this.sheet = new SheetView(this.store);
    this.own = new OwnPlan({ store: this.store, request: () => this.now, best: () => this.best,
      shown: () => this.shown, ask: (request) => this.solving.ask(request),
      show: () => this.showOwn(), showing: () => this.showing,
      point: (job, machine) => this.planView.chart.pointAt(job, machine) });
    this.judgeView = new JudgeView({
      request: () => this.now, ownAnswer: () => this.shown?.answer ?? null,
      ask: (request) => this.solving.ask(request),
    });
    this.longer = new Longer({ request: () => this.now, best: () => this.best,
      ask: (request) => this.solving.ask(request), stop: () => this.solving.stop(),
      found: (reply) => this.foundLonger(reply) });
    this.promiseView = new PromiseView({
      ask: (request) => this.solving.ask(request), add: (values) => this.addRow(values),
      makesPlans: () => this.solving.makesPlans,
    });
    this.reliefView = new ReliefView({ ask: (request) => this.solving.ask(request),
      move: (id, due) => this.moveDue(id, due), makesPlans: () => this.solving.makesPlans });
    this.askPicture = (then) => this.picture(then);
    this.files = new Files(this);
    this.keeping = new Keeping(this.store, (words) => this.showKeeping(words),
      () => this.store.state === this.files.linked);
    this.keeping.say();
    this.store.listen((...change) => this.changed(...change));
    this.listen();
  }

  listen() {
    const at = (id) => document.getElementById(id);
    EXAMPLE_TITLES.forEach((title, number) => at("example").append(new Option(title, number)));
    at("example").addEventListener("change", () => {
      const number = at("example").value;
      if (number !== "") this.files.replace(exampleState(Number(number)));
      at("example").value = "";
    });
    for (const id of ["paste", "begin-paste"]) {
      at(id).addEventListener("click", () => this.importView.open());
    }
    at("from-now").addEventListener("click", () => this.fromNow());
    at("undo").addEventListener("click", () => this.store.undo());
    at("redo").addEventListener("click", () => this.store.redo());
    document.addEventListener("keydown", (event) => this.key(event));
    at("keep-work").addEventListener("change", () =>
      this.keeping.switchTo(at("keep-work").checked));
    at("print").addEventListener("click", () => this.sheet.print());
    at("title").addEventListener("input", () =>
      this.store.change({ title: at("title").value }, "title"));
    document.addEventListener("click", (event) => {
      if (!at("save-menu").contains(event.target)) at("save-menu").open = false;
    });
    window.addEventListener("beforeprint", () => this.showPrintHead());
    window.addEventListener("beforeunload", (event) => {
      if (this.store.hasUnsavedWork && !this.keeping.keep()) event.preventDefault();
    });
  }

  /** Ctrl+Z goes back and Ctrl+Y forth, except in fields that are no part of the plan. */
  key(event) {
    const key = event.key.toLowerCase();
    const isUndo = key === "z" && !event.shiftKey;
    const isRedo = key === "y" || key === "z" && event.shiftKey;
    if (!(event.ctrlKey || event.metaKey) || event.altKey || !isUndo && !isRedo) return;
    if (event.target.closest?.("dialog, #judge, #promise")) return;
    event.preventDefault();
    if (isUndo) this.store.undo();
    else this.store.redo();
  }

  /** Opens the link's plan or an empty table. */
  async start() {
    for (const view of [this.problemView, this.calendarView, this.rowsView]) view.draw();
    this.openKept();
    if (!(await this.files.openLink())) this.update();
  }

  /** Opens the work that the browser kept, on top of an empty page. */
  openKept() {
    const kept = this.keeping.opened();
    if (!kept || isSameWork(kept, this.store.state)) return;
    this.store.change(kept);
    this.notify("Your work from before is here again, as this browser kept it. Undo empties the "
      + "page; below you can switch keeping off.");
  }

  moduleLoaded({ loaded, makesPlans, message }) {
    if (loaded) {
      if (!this.now) warmUp();
      this.problemView.setMakesPlans(makesPlans);
      return;
    }
    this.cannotRun = "This browser can't run the solver: Chrome and Edge can from version 103, "
      + "Firefox from version 113, Safari from version 16.4. Jobs can be edited, opened and saved "
      + `here all the same. (${message})`;
    this.planView.showMessage(this.cannotRun);
  }

  showNotice(message, ...more) {
    const place = document.getElementById("notice");
    place.hidden = message === "";
    place.replaceChildren(message, " ", ...more, html("button", { type: "button", class: "link",
      click: () => this.showNotice("") }, "Close"));
  }

  showKeeping(words) {
    document.getElementById("keeping-words").textContent = words;
    document.getElementById("keep-work").checked = this.keeping?.isOn ?? true;
  }

  // ---- a change, and what follows from it ----

  changed(state, before, isTyped) {
    this.files.leaveLink();
    if (state.rows !== before.rows && !this.rowsView.isTyping) this.rowsView.draw();
    const isOther = (...fields) => fields.some((field) => state[field] !== before[field]);
    if (isOther("problem", "machines", "machineNames")) this.problemView.draw();
    if (isOther("machineNames")) this.rowsView.drawHead();
    if (isOther("settings")) this.calendarView.draw();
    const title = document.getElementById("title");
    if (title.value !== state.title) title.value = state.title;
    document.getElementById("undo").disabled = !this.store.canUndo;
    document.getElementById("redo").disabled = !this.store.canRedo;
    if (isOther("own")) this.own.isAway = false;
    this.own.say("");
    const areRouted = hasRoutes(readNotation(state.problem)) && isOther("machineNames");
    if (areRouted || isOther("rows", "problem", "machines", "settings")) {
      this.version++;
      this.setBusy(true);
      this.judgeView.clear();
      clearTimeout(this.timer);
      if (isTyped) this.timer = setTimeout(() => this.update(), REST);
      else Promise.resolve(this.version).then((version) =>
        version === this.version && this.update());
    } else if (isOther("own")) this.showing = this.showOwn();
    else if (isOther("kept", "machineNames")) this.showPlan();
  }

  /** Makes the job table of the state, and asks the solver for a plan. */
  async update() {
    const version = ++this.version;
    const { state } = this.store;
    this.forget();
    const calendar = this.calendarOf(state.settings);
    if (calendar === undefined) return this.wait("The calendar has to be corrected first.");
    const problem = readNotation(state.problem);
    const used = problem ? columnsUsed(problem) : UNKNOWN;
    this.rowsView.setUsed(used);
    this.rowsView.setCalendar(calendar);
    const goesOn = problem?.environment === "1" && !problem.conditions.includes("prmp");
    const table = await makeTable(state.rows, this.readerOf(calendar, used, goesOn), async () => {
      await pause();
      return version === this.version;
    }, machineNames(state.machineNames));
    if (!table || version !== this.version) return undefined;
    const machines = readMachines(state, problem);
    const isWhole = table.jobs.length > 0 && table.faults.length === 0 && !machines.fault;
    // The solver is asked first, and works while the page shows the table.
    const solved = isWhole && this.solve(version, { table, calendar, problem: state.problem,
      request: { problem: state.problem, machines: machines.count, format: { kind: "table" },
        instance: table.bytes } });
    noteSameNames(table);
    this.showTable(table, machines);
    return isWhole ? solved : this.lacks(table);
  }

  /** Says why there is no plan of a table that can't be solved. */
  lacks({ jobs, done, faults }) {
    if (jobs.length === 0 && done.length === 0) return this.wait(WELCOME, true);
    if (jobs.length === 0) {
      this.planView.clear();
      return this.wait("All jobs are done.");
    }
    return this.wait(`${faults.length > 0 ? "Some rows have" : "The number of machines has"} to be `
      + "corrected first.");
  }

  /** Forgets the request of before, and gives the memory of its job table back. */
  forget() {
    const instance = this.now?.request.instance;
    this.now = null;
    if (instance && !this.solving.needs(instance)) release({ instance });
  }

  showTable(table, machines) {
    this.rowsView.setFindings(table);
    document.getElementById("table-text").textContent = startOfText(table.bytes);
    const faults = machines.fault ? [{ isFault: true, message: machines.fault }] : [];
    this.problemView.show(faults, table);
  }

  /** Says why there is no plan now. */
  wait(message, isEmpty = false) {
    if (isEmpty) this.planView.clear();
    this.showBeginning(isEmpty);
    this.shown = null;
    this.setBusy(false);
    this.planView.showMessage(this.cannotRun ?? message);
  }

  /** An empty page has one main action, and nothing to print, save or send. */
  showBeginning(isEmpty) {
    document.getElementById("begin").hidden = !isEmpty;
    document.querySelector("main").classList.toggle("has-plan", !isEmpty);
    for (const id of ["print", "link"]) document.getElementById(id).disabled = isEmpty;
  }

  async solve(version, now) {
    this.now = now;
    if (this.cannotRun) return this.wait(this.cannotRun);
    const reply = await this.patiently("Solving …", { ...now.request, kind: "plan" });
    if (version !== this.version) return undefined;
    if (!reply) return this.wait("Stopped. Any change solves again.");
    if (reply.status !== 0) return this.refused(version, reply);
    return this.showMade(reply, "Solved and evaluated");
  }

  /** Shows the plan of a reply to the request of now, or the planner's own plan if there is one. */
  async showMade(reply, words) {
    const before = this.best;
    this.best = this.madeOf(reply);
    this.shown = this.best;
    if (await this.showOwn() && before) release(before.plan, before.plan.schedule, before);
    document.getElementById("engine").textContent
      = `${words} in ${Math.round(reply.milliseconds)} ms.`;
  }

  madeOf(reply) {
    const { table, calendar } = this.now;
    const { state } = this.store;
    const plan = makePlan(table, reply.schedule, reply.evaluation, calendar, this.names);
    if (reply.isOptimal === false) plan.isOptimal = false;
    return { plan, evaluation: reply.evaluation, answer: reply.answer,
      assumptions: assumptionsOf(table, calendar, state) };
  }

  /** The names of the machines: of the routes, or as they are typed. */
  get names() {
    return this.now?.table.names ?? machineNames(this.store.state.machineNames);
  }

  /** Takes the better plan and the better bound of a longer search and of those before it. */
  async foundLonger(reply) {
    const { best } = this;
    const longer = this.madeOf(reply);
    this.best = betterOf(best, longer);
    await this.showOwn();
    return gapChange(best.plan, this.best.plan);
  }

  /**
   * Shows the planner's own plan where there is one, and else the plan that the module made; false
   * where something has changed meanwhile.
   */
  async showOwn() {
    if (!this.shown) return false;
    const { version } = this;
    const { own } = this.store.state;
    const made = await this.own.made();
    if (version !== this.version || own !== this.store.state.own) return false;
    this.shown = made ?? this.best;
    this.showPlan();
    return true;
  }

  /** Makes the plan from now on, and keeps the one that is shown to compare it with. */
  fromNow() {
    const { state } = this.store;
    const { calendar } = this.made;
    if (!isDated(calendar)) {
      this.notify("A plan in plain numbers has no clock: tick off in its list what is done, or "
        + "choose a time step under “Calendar”.");
      return;
    }
    const plan = this.shown?.plan ?? null;
    const { patch, done, begun } = fromNow(state, calendar, plan, new Date());
    const isKept = plan && state.kept === null;
    this.store.change({ ...patch, ...(isKept ? { kept: keepPlan(plan) } : {}) });
    this.rowsView.showColumn("left");
    this.notify(progressWords(done, begun, isKept));
  }

  /** A job is done, or the piece of it that was ticked: what is left goes on from now. */
  tick(job, piece) {
    const { calendar } = this.made;
    if (!this.shown) return;
    this.store.change(tickedOff(this.store.state, calendar, this.shown.plan, job, piece,
      new Date()));
  }

  addRow(values) {
    const rows = this.store.state.rows.filter((row) => !isEmptyRow(row));
    this.store.change({ rows: [...rows, newRow(values)] });
  }

  /** Gives the order of a row another due date. */
  moveDue(id, due) {
    const text = momentField(this.made.calendar, due, true);
    this.store.change({ rows: this.store.state.rows.map((row) =>
      row.id === id ? { ...row, due: text } : row) });
  }

  /** Asks, and where it takes a while says so with a button that stops it. */
  async patiently(words, request) {
    const timer = setTimeout(() => this.planView.showMessage(words, html("button",
      { type: "button", click: () => this.solving.stop() }, "Stop")), PATIENCE);
    const reply = await this.solving.ask(request);
    clearTimeout(timer);
    return reply;
  }

  showPlan() {
    if (!this.shown) return;
    this.showBeginning(false);
    this.problemView.fold();
    const { plan } = this.shown;
    const { names } = this;
    Object.assign(this.best.plan, { names });
    Object.assign(plan, { names });
    this.own.draw();
    this.longer.draw();
    this.planView.show(this.shown, this.best, this.store.state.kept);
    this.promiseView.show(this.best.plan);
    this.reliefView.show(this.best.plan);
    this.setBusy(false);
    performance.mark("plan shown");
    hasShown(plan.jobs.length);
  }

  /** Says whether a plan is being made, until all is drawn. */
  setBusy(isBusy) {
    const { version } = this;
    if (isBusy) {
      planBegins();
      this.planView.setBusy(true);
    } else planEnds(() => version === this.version && this.planView.setBusy(false));
  }

  // ---- refusals ----

  refused(version, reply) {
    const { table, problem } = this.now;
    const refusals = explainRefusal(reply, table, problem);
    const rows = refusals.filter((each) => each.place === "row");
    if (rows.length > 0) {
      this.rowsView.setFindings({ faults: rows, notes: table.notes });
      return this.wait("Some rows have to be corrected first.");
    }
    const [first] = refusals;
    if (first.code === "NoSolver") return this.search(version);
    const isProblem = first.place === "problem" || first.place === "machines";
    if (isProblem) this.problemView.show([{ isFault: true, message: first.message }], table);
    return this.wait(first.message);
  }

  /** A problem without an exact method: a good plan, or a lower bound alone. */
  async search(version) {
    if (!this.solving.makesPlans) this.planView.clear();
    const reply = await this.patiently(this.solving.makesPlans ? "Searching for a good plan …"
      : "Searching for a lower bound …", { ...this.now.request, kind: "search" });
    if (version !== this.version) return undefined;
    if (!reply) return this.wait("Stopped. Any change searches again.");
    if (reply.status !== 0) return this.searchRefused(reply);
    if (reply.schedule) return this.showMade(reply, "Searched");
    return this.showBound(reply.bound);
  }

  /** A lower bound, where there is no plan. */
  showBound({ value, certificate }) {
    const { problem, calendar } = this.now;
    const known = readNotation(problem);
    this.shown = null;
    this.planView.clear();
    this.setBusy(false);
    this.planView.showMessage(`${problem}: no exact method is here, so there is no plan.`,
      html("p", { class: "value" }, html("span", { class: "proved" }, "proved lower bound"),
        "Every schedule has at least the value ",
        html("strong", {}, valueText(calendar, problem, value)), "."),
      html("p", {}, known ? `${describe(known)}. ` : "",
        "If your own schedule has this value, it is optimal."),
      html("details", {}, html("summary", {}, "The certificate of the bound"),
        html("pre", { tabindex: 0 }, certificate.slice(0, 2000))));
  }

  searchRefused(reply) {
    const { table, problem } = this.now;
    const refusals = explainRefusal(reply, table, problem);
    const rows = refusals.filter((each) => each.place === "row");
    if (rows.length > 0) this.rowsView.setFindings({ faults: rows, notes: table.notes });
    this.planView.clear();
    return this.wait(refusals[0].code !== "NoSolver" ? refusals[0].message
      : `${problem} has neither an exact method nor a lower bound here.`);
  }

  // ---- what is remembered from one change to the next ----

  /** The calendar of the settings; null for plain numbers from 0, undefined where it is at fault. */
  calendarOf(settings) {
    if (this.settings !== settings) {
      this.settings = settings;
      this.made = makeCalendar(settings);
    }
    this.calendarView.show(this.made.calendar, this.made.faults);
    return this.made.faults.length > 0 ? undefined : this.made.calendar;
  }

  readerOf(calendar, used, goesOn) {
    const known = this.reader;
    if (!known || known.calendar !== calendar || known.goesOn !== goesOn
      || [...known.used].join() !== [...used].join()) {
      this.reader = new RowReader(calendar, used, goesOn);
    }
    return this.reader;
  }

  async picture(then) {
    const answer = this.shown.answer.slice();
    const reply = await this.solving.ask({ kind: "picture", answer });
    if (reply?.status === 0) then(reply.output);
    else this.notify("The solver could not draw its picture.");
  }

  /** What stands above the plan in print. */
  showPrintHead() {
    const { title, problem } = this.store.state;
    const known = readNotation(problem);
    let place = document.getElementById("print-head");
    if (!place) {
      place = html("div", { id: "print-head", class: "print" });
      document.getElementById("sheet-top").after(place);
    }
    place.replaceChildren(html("p", { class: "print-title" }, title || "Plan"),
      html("p", {}, `${known ? describe(known) : ""} (${problem}). Printed `
        + `${new Date().toLocaleDateString("en-GB", { dateStyle: "long" })}.`));
  }
}

/** What was filled in when a plan starts from now, in sentences. */
function progressWords(done, begun, isKept) {
  const some = (names) => names.slice(0, 5).join(", ")
    + (names.length > 5 ? ` and ${names.length - 5} more` : "");
  return ["The plan starts now.",
    done.length > 0 ? `By the plan before, these are done: ${some(done)}.` : "",
    begun.length > 0 ? `Begun: ${some(begun)}.` : "",
    "Correct it under “Left to do”: nothing for a job that is not begun, what is left of one that "
      + "is begun, 0 for one that is done.",
    isKept ? "The plan before is kept, to compare with." : ""].filter(Boolean).join(" ");
}

/** Lets the page do what waits, at once: timers that follow one another wait some milliseconds. */
function pause() {
  return new Promise((resolve) => {
    const { port1, port2 } = new MessageChannel();
    port1.onmessage = () => resolve(port1.close());
    port2.postMessage(null);
  });
}

/** The number of machines for the module: null where the notation has it. */
function readMachines(state, problem) {
  if (!problem || !needsMachines(problem)) return { count: null };
  const text = state.machines.trim();
  const count = Number(text);
  if (/^\d{1,4}$/.test(text) && count >= 1 && count <= 1000) return { count };
  return { fault: text === "" ? "Say how many machines there are: 1 to 1,000."
    : `“${text}” is not a number of machines: they are 1 to 1,000.` };
}

new Page().start();
