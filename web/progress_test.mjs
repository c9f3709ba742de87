// Orders that are done or begun, and a plan from now on: node --test web/*_test.mjs
import assert from "node:assert/strict";
import { test } from "node:test";
import { load, tableOf } from "./modules.mjs";

const { defaultSettings, makeCalendar, momentField, stepNow } = await load("calendar");
const { fromNow, readLeft, tickedOff, unticked } = await load("progress");
const { assumptionsOf } = await load("assumptions");
const { comparePlans, keepPlan, makePlan } = await load("plan");
const { emptyState } = await load("state");
const { RowReader, makeTable, newRow } = await load("table");

// Monday 30 November 2026, 08:00-12:00 and 13:00-17:00.
const SETTINGS = { ...defaultSettings(), step: "30", start: "2026-11-30" };
const { calendar } = makeCalendar(SETTINGS);
const COLUMNS = ["name", "time", "due", "after"];
const textOf = (table) => new TextDecoder().decode(table.bytes);

test("what is left is a length, a share or nothing", () => {
  for (const [text, times, left] of [["2 h", [8], [4]], ["50 %", [7], [4]], ["0", [8], [0]],
    ["done", [8], [0]], ["Erledigt", [8], [0]], ["0; 1 h", [4, 4], [0, 2]], ["ok", [4, 4], [0, 0]],
    ["0 %", [8], [0]], ["100%", [8], [8]]]) {
    assert.deepEqual(readLeft(calendar, text, times).times, left, text);
  }
  assert.match(readLeft(calendar, "6 h", [8]).note, /More is left/);
  for (const [text, times] of [["soon", [8]], ["120 %", [8]], ["1 h", [4, 4]], ["1 h; 2 h", [8]],
    ["-1 h", [8]]]) {
    assert.ok(readLeft(calendar, text, times).fault, text);
  }
  for (const text of ["fixed", "fest Mo 08:00", "Fixe"]) {
    assert.match(readLeft(calendar, text, [8]).fault, /keeps an order at a fixed time. .*“Released”/);
  }
});

test("what is done is left out, and who waits for it waits no more", async () => {
  const rows = [{ name: "A", time: "?", left: "done" }, { name: "B", time: "2 h", after: "A; #1" },
    { name: "C", time: "4 h", left: "1 h", after: "B" }].map((row) => newRow(row));
  const table = await tableOf(rows, calendar, COLUMNS);
  assert.deepEqual(table.faults, []);
  assert.equal(textOf(table), "table 1\njob 1 p=4\njob 2 p=2\nprec 1 2\n");
  assert.deepEqual(table.done.map((job) => job.name), ["A"]);
  assert.match(table.notes[0].message, /^Begun: the plan may put others before what is left of it/);
});

test("the one job that is begun goes on before all others, where precedence counts", async () => {
  const rows = [{ name: "A", time: "1 h" }, { name: "B", time: "2 h", left: "50 %", after: "A" },
    { name: "C", time: "1 h", after: "B; A" }].map((row) => newRow(row));
  const read = (used) => makeTable(rows, new RowReader(calendar, new Set(used), true),
    async () => true);
  const table = await read(COLUMNS);
  assert.ok(table.isFirst);
  assert.equal(textOf(table),
    "table 1\njob 1 p=2\njob 2 p=2\njob 3 p=2\nprec 1 3\nprec 2 1\nprec 2 3\n");
  const other = await read(["name", "time", "due"]);
  assert.ok(!other.isFirst);
  assert.match(other.notes.at(-1).message, /Choose “Precedence constraints”/);
  const begun = (of) => assumptionsOf(of, calendar, { ...emptyState(), rows, settings: SETTINGS })
    .find(({ short }) => short === "1 begun").long;
  assert.equal(begun(table), "Begun, with what is left: B (1 h). It comes first.");
  assert.equal(begun(other), "Begun, with what is left: B (1 h). Others may come before the rest of them.");
});

test("a plan says on which days and in which hours work is assumed", async () => {
  const settings = { ...SETTINGS, days: [0, 1, 6], dayFirst: false, off: "12/24/2026" };
  const { calendar: own } = makeCalendar(settings);
  const rows = [newRow({ name: "A", time: "2", due: "12/5/2026" })];
  const table = await tableOf(rows, own, COLUMNS);
  assert.deepEqual(assumptionsOf(table, own, { ...emptyState(), rows, settings }).map(({ long }) => long), [
    "A time without a unit is in hours, such as 2 (one job).",
    "In a date such as 12/5/2026 the month comes first.",
    "A due date without a time of day is the end of that day (one job).",
    "Work starts on Mon 30 Nov 08:00, with 08:00-12:00, 13:00-17:00 on Mon, Sat, Sun; 1 d is a working day of "
      + "8 h. Days off: 12/24/2026."]);
});

/** A plan of jobs one after another, in the order of the rows. */
async function inTurn(rows, of) {
  const table = await tableOf(rows, of, COLUMNS);
  const stops = [];
  for (const job of table.jobs) stops.push((stops.at(-1) ?? 0) + job.time);
  const list = (values) => Float64Array.from(values);
  return makePlan(table, { problem: "1||Lmax", jobs: table.jobs.length, machines: 1, value: "0",
    certificate: "", bound: null, job: list(table.jobs.map((_, place) => place + 1)),
    machine: list(table.jobs.map(() => 1)), start: list([0, ...stops.slice(0, -1)]),
    stop: list(stops) }, null, of, []);
}

test("from now on, what the plan had done is filled in, and dates stay what they are", async () => {
  const rows = [{ name: "A", time: "3 h", due: "2026-12-01" },
    { name: "B", time: "2 h", due: "16" }, { name: "C", time: "4 h", due: "3 d", left: "2 h" },
    { name: "D", time: "1 h", due: "" }].map((row) => newRow(row));
  const state = { ...emptyState(), settings: SETTINGS, rows };
  const plan = await inTurn(rows, calendar);
  const now = new Date(2026, 10, 30, 11, 40);
  assert.equal(stepNow(calendar, now), 220 / 30);
  const { patch, done, begun } = fromNow(state, calendar, plan, now);
  assert.deepEqual([done, begun], [["A"], ["B"]]);
  assert.deepEqual(patch.rows.map((row) => row.left), ["done", "1 h", "2 h", ""]);
  assert.deepEqual(patch.rows.map((row) => row.due),
    ["2026-12-01", "2026-12-01 17:00", "2026-12-02 17:00", ""]);
  assert.deepEqual([patch.settings.start, patch.settings.startTime], ["2026-11-30", "13:00"]);
  const later = makeCalendar(patch.settings).calendar;
  assert.equal(momentField(later, 0, false), "2026-11-30 13:00");
});

test("a kept plan is compared by dates, and not by steps from another start", async () => {
  const rows = ["A", "B", "C"].map((name) => newRow({ name, time: "2 h" }));
  const kept = keepPlan(await inTurn(rows, calendar));
  assert.equal(kept.begin, "2026-11-30 08:00");
  const later = makeCalendar({ ...SETTINGS, step: "60", startTime: "10:00" }).calendar;
  const next = [{ ...rows[0], left: "done" }, rows[1], { ...rows[2], time: "3 h" }];
  const { moved, done, gone, added } = comparePlans(kept, await inTurn(next, later));
  assert.deepEqual([[...moved], done, gone, added], [[[1, 1]], ["A"], [], []]);
});

test("a job that is ticked off is done, and the rest goes on from now in its order", async () => {
  const rows = [{ name: "A", time: "3 h", due: "16" }, { name: "B", time: "2 h", due: "16" },
    { name: "C", time: "4 h", due: "2026-12-01" }].map((row) => newRow(row));
  const state = { ...emptyState(), settings: SETTINGS, rows };
  const plan = await inTurn(rows, calendar);
  const patch = tickedOff(state, calendar, plan, 1, null, new Date(2026, 10, 30, 11, 40));
  assert.deepEqual(patch.rows.map((row) => row.left), ["", "done", ""]);
  assert.deepEqual(patch.rows.map((row) => row.due),
    ["2026-12-01 17:00", "2026-12-01 17:00", "2026-12-01"]);
  assert.deepEqual(patch.own, [rows.map(({ id }) => id)]);
  assert.equal(patch.settings.startTime, "13:00");
  const early = tickedOff(state, calendar, plan, 0, null, new Date(2026, 10, 29, 9, 0));
  assert.deepEqual([early.settings, early.rows[0].left, early.rows[0].due],
    [undefined, "done", "16"]);
  assert.deepEqual(unticked({ rows: patch.rows }, rows[1].id).rows.map((row) => row.left),
    ["", "", ""]);
});

test("of a shop the work on one machine is ticked off", async () => {
  const rows = [newRow({ name: "A", time: "3 h", time2: "1 h" })];
  const table = await tableOf(rows, calendar, ["name", "time", "time2"]);
  const list = (...values) => Float64Array.from(values);
  const plan = makePlan(table, { problem: "F2||Cmax", jobs: 1, machines: 2, value: "8",
    certificate: "", bound: null, job: list(1, 1), machine: list(1, 2), start: list(0, 6),
    stop: list(6, 8) }, null, calendar, []);
  const state = { ...emptyState(), settings: SETTINGS, rows };
  const left = (piece) => tickedOff(state, calendar, plan, 0, piece, new Date(2026, 10, 1))
    .rows[0].left;
  assert.deepEqual([left(0), left(1), left(null)], ["0 h; 1 h", "3 h; 0 h", "done"]);
});

/** A plan of pieces: job, machine, start and stop; its state, and what is ticked off next. */
async function plainPlan(problem, cells, columns, pieces, start = "") {
  const rows = cells.map((row) => newRow(row));
  const state = { ...emptyState(), problem, rows, settings: { ...defaultSettings(), start } };
  const { calendar: of } = makeCalendar(state.settings);
  const table = await tableOf(rows, of, columns);
  const list = (k) => Float64Array.from(pieces, (piece) => piece[k]);
  const plan = makePlan(table, { problem, jobs: table.jobs.length, machines: 2, value: "0",
    certificate: "", bound: null, job: list(0), machine: list(1), start: list(2), stop: list(3) },
  null, of, []);
  const tick = (job, piece = null) => {
    const { rows: after, settings } = tickedOff(state, of, plan, job, piece, new Date());
    return [settings.start, ...after.map(({ left }) => left)];
  };
  return { table, plan, tick };
}

test("plain numbers have no clock: the plan says what time it is when a job is done", async () => {
  const cells = [{ name: "A", time: "5" }, { name: "B", time: "3" }, { name: "C", time: "4" }];
  const { tick } = await plainPlan("P2||sumC", cells, ["name", "time"],
    [[2, 1, 0, 3], [1, 1, 3, 8], [3, 2, 0, 4]]);
  assert.deepEqual(tick(1), ["3", "", "done", "1"], "C is under way");
  assert.deepEqual(tick(2), ["4", "4", "", "done"], "so is A, and B was not ticked");
  assert.deepEqual(tick(0), ["5", "done", "", ""], "A before B");
});

test("a plan in plain numbers goes on from where it is, in its own numbers", async () => {
  const { calendar: later } = makeCalendar({ ...defaultSettings(), start: "6" });
  const rows = [{ name: "A", time: "2", due: "9", release: "7", cost: "0,5:10,9:20", left: "1" },
    { name: "B", time: "3", due: "4", release: "2", cost: "-1,6:2,8:3" }].map((row) => newRow(row));
  const table = await tableOf(rows, later, ["name", "time", "due", "release", "cost"]);
  assert.equal(textOf(table),
    "table 1\njob 1 p=1 d=3 r=1 h=10,3:20\njob 2 p=3 d=-2 r=0 h=2,2:3\n");
  assert.deepEqual(table.notes.map(({ row, field }) => `${row} ${field}`).sort(),
    ["0 left", "1 due", "1 release"]);
  assert.equal(momentField(later, 3, true), "9");
  assert.deepEqual(["", "0", "2026-11-30"].map((start) =>
    makeCalendar({ ...defaultSettings(), start }).calendar), [null, null, null]);
  assert.match(makeCalendar({ ...defaultSettings(), start: "soon" }).faults[0].message,
    /starts at a whole number; “soon” is none/);
});

test("a shop in plain numbers: the work on one machine is ticked, and the kept plan is compared", async () => {
  const cells = [{ name: "A", time: "2", time2: "3" }, { name: "B", time: "4", time2: "1" }];
  const columns = ["name", "time", "time2"];
  const pieces = [[1, 1, 0, 2], [2, 1, 2, 6], [1, 2, 2, 5], [2, 2, 6, 7]];
  const { plan, tick } = await plainPlan("F2||Cmax", cells, columns, pieces);
  assert.deepEqual(tick(0, 0), ["2", "0; 3", ""]);
  assert.deepEqual(tick(0, 2), ["5", "2; 0", "1; 1"]);
  const kept = keepPlan(plan);
  const rest = await plainPlan("F2||Cmax", cells, columns,
    [[1, 2, 0, 3], [2, 1, 0, 4], [2, 2, 4, 5]], "2");
  const named = { ...kept, ids: rest.plan.jobs.map(({ id }) => id) };
  assert.deepEqual([...comparePlans(named, rest.plan).moved.values()].filter((by) => by !== 0), []);
});
