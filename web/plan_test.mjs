// Plans in words and in files, and going back and forth: node --test web/*_test.mjs
import assert from "node:assert/strict";
import { test } from "node:test";
import { load, tableOf } from "./modules.mjs";

const { certificateJobs } = await load("certificates");
const { assumedOf, defaultSettings, endText, lengthText, makeCalendar, readMoment } = await load("calendar");
const { machineName, machineNames, machineText } = await load("machines");
const { betterOf, lateness, makePlan, measures } = await load("plan");
const { planAsCsv } = await load("saving");
const { emptyState, readState, writeState } = await load("state");
const { Store } = await load("store");
const { newRow } = await load("table");
const { gapChange, gapWords, leastWords, valueText } = await load("values");

// Monday 30 November 2026, 08:00-12:00 and 13:00-17:00.
const { calendar } = makeCalendar({ ...defaultSettings(), step: "30", start: "2026-11-30" });

/** A flow shop of two jobs, of which the second is late by half an hour and the first in time. */
async function shop() {
  const rows = [{ name: "A", time: "1 h", time2: "3 h", due: "2026-11-30 12:00" },
    { name: "B", time: "1 h", time2: "7 h", due: "2026-12-01 10:30" }].map((row) => newRow(row));
  const table = await tableOf(rows, calendar, ["name", "time", "time2", "due"]);
  const list = (...values) => Float64Array.from(values);
  return makePlan(table, { problem: "F2||Lmax", jobs: 2, machines: 2, value: "1",
    certificate: "", bound: { value: "0", certificate: "" }, job: list(1, 2, 1, 2),
    machine: list(1, 1, 2, 2), start: list(0, 2, 2, 8), stop: list(2, 4, 8, 22) }, null, calendar,
  ["Sawing", ""]);
}

test("a job that is done just on time is not late", async () => {
  const plan = await shop();
  assert.deepEqual([0, 1].map((job) => lateness(plan, job)), [0, 1]);
  const found = new Map(measures(plan).map(({ words, steps, number }) => [words, number ?? steps]));
  assert.deepEqual(["Makespan", "Late jobs", "Maximum lateness", "Total tardiness",
    "Mean completion time"].map((words) => found.get(words)), [22, "1 of 2", 1, 1, 15]);
  const odd = measures({ ...plan, completion: Float64Array.of(8, 23) });
  assert.equal(odd.at(-1).steps, 16, "a mean of 15.5 steps");
});

test("a due date within a time step is the end of the step before, a release its end", () => {
  assert.equal(readMoment(calendar, "2026-11-30 11:20", true).steps, 6);
  assert.equal(readMoment(calendar, "2026-11-30 11:20", false).steps, 7);
  assert.match(readMoment(calendar, "2026-11-30 07:00", true).note, /^Due before the plan starts/);
  assert.match(readMoment(calendar, "2026-11-27", false).note, /^Released before the plan starts/);
});

test("lengths are in working days of the calendar, from two on", () => {
  assert.deepEqual([1, 15, 16, 31, 32, 35, -34].map((steps) => lengthText(calendar, steps)),
    ["30 min", "7 h 30 min", "8 h", "15 h 30 min", "2 d", "2 d 1 h 30 min", "−2 d 1 h"]);
});

test("a unit or a year that nobody wrote stands beside its number", () => {
  const { calendar: inMinutes } = makeCalendar({ ...defaultSettings(), step: "5", plain: "min",
    start: "2026-11-30" });
  for (const [field, text, hours, minutes] of [["time", "30", "h", "min"], ["time", "3 h", "", ""],
    ["time2", "90", "h", "min"], ["due", "Thu 3 Dec", "2026", "2026"], ["due", "24", "h", "min"],
    ["release", "3 Dec 2026", "", ""], ["weight", "3", "", ""], ["due", "", "", ""]]) {
    assert.deepEqual([calendar, inMinutes].map((each) => assumedOf(each, field, text)),
      [hours, minutes], `${field} ${text}`);
  }
  assert.equal(assumedOf(null, "time", "3"), "");
});

test("machines have their own names, and a number where they have none", () => {
  const names = machineNames("Sawing;  Paint  shop;");
  assert.deepEqual([1, 2, 3, 4].map((machine) => machineName(names, machine)),
    ["Sawing", "Paint shop", "Machine 3", "Machine 4"]);
  assert.deepEqual(machineNames("Saw, Mill"), ["Saw", "Mill"]);
  assert.deepEqual(machineNames(machineText(["Saw, large"])), ["Saw, large", ""]);
});

test("a file for spreadsheets has a line for each piece, with hours and moments", async () => {
  const [, ...lines] = planAsCsv(await shop(), { delimiter: ";", decimal: "," });
  assert.deepEqual(lines.map((line) => line.trim()), [
    "A;Sawing;2026-11-30 08:00;2026-11-30 09:00;1;2026-11-30 12:00;2026-11-30 12:00;0;",
    "B;Sawing;2026-11-30 09:00;2026-11-30 10:00;1;2026-12-01 11:00;2026-12-01 10:30;0,5;late",
    "A;2;2026-11-30 09:00;2026-11-30 12:00;3;2026-11-30 12:00;2026-11-30 12:00;0;",
    "B;2;2026-11-30 13:00;2026-12-01 11:00;7;2026-12-01 11:00;2026-12-01 10:30;0,5;late"]);
});

test("a gap is said as a gap, in the plan's own units", () => {
  const plan = { isOptimal: false, gap: "3", isExact: false, calendar, problem: "1||sumT" };
  assert.equal(gapWords(plan), "at most 1 h 30 min above the optimum");
  assert.equal(gapWords({ ...plan, isExact: true }), "1 h 30 min above the optimum");
  assert.equal(gapWords({ ...plan, problem: "1||sumU" }), "at most 3 above the optimum");
  assert.equal(gapWords({ ...plan, gap: undefined }), null);
  assert.equal(gapWords({ ...plan, isOptimal: true }), "optimal");
  assert.match(gapChange(plan, { ...plan, gap: "1" }),
    /was at most 1 h 30 min above the optimum, and is at most 30 min above the optimum now/);
  assert.match(gapChange(plan, plan), /^Nothing better was found: still at most 1 h 30 min/);
  assert.deepEqual([leastWords(calendar, "1||sumT", "3"), leastWords(calendar, "1||sumU", "1"),
    valueText(calendar, "1||Lmax", "-3")],
  ["less than 1 h 30 min", "fewer than 1 late job", "−1 h 30 min"]);
});

test("of two searches the smaller value and the greater bound are kept", () => {
  const found = (value, bound, isOptimal = false) => ({ answer: value,
    plan: { value, bound: bound && { value: bound }, isOptimal } });
  const better = (one, other) => {
    const { answer, plan } = betterOf(one, other);
    return [answer, plan.bound?.value, plan.gap, plan.isOptimal];
  };
  assert.deepEqual(better(found("9", "4"), found("10", "6")), ["9", "6", "3", false]);
  assert.deepEqual(better(found("10", "6"), found("9", "4")), ["9", "6", "3", false]);
  assert.deepEqual(better(found("9", "9"), found("9", "4")), ["9", "9", "0", true]);
  assert.deepEqual(better(found("9", null), found("10", null)), ["9", undefined, undefined, false]);
});

test("undo goes back over each change once, and redo forth", () => {
  const store = new Store({ ...emptyState(), title: "" });
  const titles = [];
  store.listen(({ title }) => titles.push(title));
  for (const [title, key] of [["A", "title"], ["AB", "title"], ["C", null], ["D", null]]) {
    store.change({ title }, key);
  }
  store.change({ title: "E" }, "title");
  const go = (way, count) => Array.from({ length: count }, () => {
    store[way]();
    return store.state.title;
  });
  assert.deepEqual(go("undo", 5), ["D", "C", "AB", "", ""]);
  assert.deepEqual([store.canUndo, store.canRedo], [false, true]);
  assert.deepEqual(go("redo", 5), ["AB", "C", "D", "E", "E"]);
  assert.deepEqual(go("undo", 1), ["D"]);
  store.change({ title: "F" }, "title");
  assert.deepEqual([store.canRedo, ...go("undo", 1)], [false, "D"]);
  store.change({ title: "G" }, "title");
  assert.deepEqual(go("undo", 1), ["D"], "what is typed after an undo is a step of its own");
  assert.equal(titles.length, 18);
});

test("work that was not saved is known to be so", () => {
  const rows = [newRow({ name: "A" })];
  const store = new Store(emptyState());
  store.change({ title: "x" });
  assert.equal(store.hasUnsavedWork, false, "nothing is in it");
  store.change({ rows });
  assert.equal(store.hasUnsavedWork, true);
  store.isSaved = true;
  store.replace(emptyState());
  assert.equal(store.hasUnsavedWork, false);
  store.undo();
  store.change({ title: "y" });
  store.replace(emptyState());
  assert.equal(store.hasUnsavedWork, true, "it is only one step back");
});

test("a state is the same after it was written and read", () => {
  const settings = { ...defaultSettings(), step: "15", start: "2026-11-30", startTime: "10:00",
    hours: "06:00-14:00", days: [1, 2, 3, 4], off: "2026-12-24", dayFirst: false, plain: "min" };
  const rows = [newRow({ name: "A", time: "3", time2: "1", weight: "2", due: "4", release: "1",
    cost: "0,5:10", after: "B", left: "50 %" }), newRow({ name: "B" })];
  const kept = { ids: [rows[1].id], names: ["B"], start: [0], completion: [3], problem: "1||Lmax",
    value: "3", begin: "2026-11-30 10:00", step: 15 };
  const state = { title: "T", problem: "F2||Cmax", machines: "3", machineNames: "Saw; Mill",
    settings, rows, kept, own: [[rows[1].id, rows[0].id]] };
  const read = readState(writeState(state));
  const plain = (each) => ({ ...each, own: null, kept: null,
    rows: each.rows.map((row) => ({ ...row, id: 0 })) });
  assert.deepEqual(plain(read), plain(state));
  assert.deepEqual(read.own, [[read.rows[1].id, read.rows[0].id]]);
  assert.deepEqual(read.kept, { ...kept, ids: [read.rows[1].id] });
});

test("the jobs of a certificate are those of its ranges that the table has", () => {
  assert.deepEqual(certificateJobs("last 1-3 5 0 9 7-20 x", 8), [1, 2, 3, 5, 7, 8]);
  assert.deepEqual(certificateJobs("crowd 6 2-3", 8), [2, 3]);
  assert.deepEqual(certificateJobs("load 6 2-3", 8), []);
});

test("an end beside its start goes without its day, or with the weekday alone, where that is plain", () => {
  const { calendar } = makeCalendar({ ...defaultSettings(), step: "60", start: "2026-11-30" });
  const ends = [[0, 4, "12:00"], [0, 8, "17:00"], [6, 9, "Tue 09:00"], [0, 33, "Fri 09:00"],
    [30, 48, "Mon 17:00"], [0, 41, "Mon 7 Dec 09:00"], [8, 9, "09:00"]];
  assert.deepEqual(ends.map(([start, end]) => endText(calendar, start, end)), ends.map(([,, words]) => words));
  assert.equal(endText(null, 2, 5), "5");
});
