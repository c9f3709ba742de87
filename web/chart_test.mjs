// The chart, drawn into elements that only remember what they are: node --test web/*_test.mjs
import assert from "node:assert/strict";
import { test } from "node:test";
import { load, tableOf } from "./modules.mjs";

const LETTER = 6;

class Element {
  constructor(tag) {
    Object.assign(this, { tag, attributes: {}, children: [] });
  }

  setAttribute(name, value) {
    this.attributes[name] = String(value);
  }

  append(...children) {
    this.children.push(...children);
  }

  cloneNode() {
    const copy = new Element(this.tag);
    Object.assign(copy.attributes, this.attributes);
    return copy;
  }

  get all() {
    return [this, ...this.children.flatMap((child) => child.all ?? [])];
  }

  get text() {
    return this.children.map((child) => typeof child === "string" ? child : child.text).join("");
  }

  /** The elements that have a class. */
  of(name) {
    return this.all.filter(({ attributes }) => (attributes.class ?? "").split(" ").includes(name));
  }
}

globalThis.document = {
  createElementNS: (_, tag) => new Element(tag),
  createElement: () => ({ getContext: () => ({
    measureText: (text) => ({ width: text.length * LETTER }) }) }),
};

const { drawChart, linesForNames, placeAt, pointOf } = await load("chart");
const { defaultSettings, makeCalendar, momentText, weeksOf } = await load("calendar");
const { makePlan } = await load("plan");
const { newRow } = await load("table");
// Monday 30 November 2026, 08:00-12:00 and 13:00-17:00.
const { calendar } = makeCalendar({ ...defaultSettings(), step: "60", start: "2026-11-30" });

/** The plan of jobs on one machine, one after another. */
async function planOf(names, times, of = null) {
  const rows = names.map((name, place) => newRow({ name, time: String(times[place]) }));
  const table = await tableOf(rows, of, ["name", "time"]);
  const stops = times.map((_, place) =>
    times.slice(0, place + 1).reduce((sum, each) => sum + each));
  const list = (values) => Float64Array.from(values);
  return makePlan(table, { problem: "1||sumC", jobs: times.length, machines: 1, value: "0",
    certificate: "", bound: null, job: list(times.map((_, place) => place + 1)),
    machine: list(times.map(() => 1)), start: list([0, ...stops.slice(0, -1)]),
    stop: list(stops) }, null, of, []);
}

const view = (plan, width, lines = 1) =>
  ({ from: 0, to: plan.length, width, lines, marks: true });
const namesIn = (chart) => chart.of("name").map((each) => each.text);

test("nights and weekends are marked where work goes on later", async () => {
  const plan = await planOf(["A", "B"], [20, 28], calendar);
  const chart = drawChart(plan, view(plan, 900));
  assert.deepEqual([chart.of("night").length, chart.of("weekend").length], [4, 1]);
  const narrow = drawChart(plan, view(plan, 30));
  assert.deepEqual([narrow.of("night").length, narrow.of("weekend").length], [0, 1]);
  const plain = await planOf(["A", "B"], [20, 28]);
  assert.equal(drawChart(plain, view(plain, 900)).of("night").length, 0);
});

test("a line is at the present moment, if it lies within the plan", async () => {
  const plan = await planOf(["A", "B"], [20, 28], calendar);
  const at = (...moment) => {
    const Clock = Date;
    globalThis.Date = class extends Clock {
      constructor() {
        super(...moment);
      }
    };
    const found = drawChart(plan, view(plan, 900)).of("now");
    globalThis.Date = Clock;
    return found.length;
  };
  assert.equal(at(2026, 11, 1, 10, 30), 1);
  assert.equal(at(2026, 10, 29, 10, 30), 0);
  assert.equal(at(2027, 1, 1, 10, 30), 0);
});

test("names that begin alike are told apart, and others are cut in the middle", async () => {
  const orders = await planOf(["Order 0017 Maier", "Order 0018 Maier", "Order 0019 Huber"],
    [2, 2, 2]);
  assert.deepEqual(namesIn(drawChart(orders, view(orders, 320))),
    ["…0017 Maier", "…0018 Maier", "…0019 Huber"]);
  const others = await planOf(
    ["Annual report, cover", "Labels, dairy, large", "Wedding cards, gold"], [2, 2, 2]);
  assert.deepEqual(namesIn(drawChart(others, view(others, 320))),
    ["Annual r…cover", "Labels,…large", "Wedding c…gold"]);
  assert.deepEqual(namesIn(drawChart(others, view(others, 130))), ["#1", "#2", "#3"]);
});

test("a point is on a machine at a time, in each line of the chart", async () => {
  const plan = await planOf(["A", "B", "C"], [20, 28, 12]);
  for (const lines of [1, 3]) {
    for (const step of [0, 19, 21, 59.5]) {
      const { x, y, height } = pointOf(plan, view(plan, 900, lines), 1, step);
      const at = placeAt(plan, view(plan, 900, lines), x, y + height / 2);
      assert.deepEqual([at.machine, Math.round(at.step * 10) / 10], [1, step]);
    }
  }
  assert.equal(placeAt(plan, view(plan, 900), 500, -40).machine, 1);
  assert.equal(placeAt(plan, view(plan, 900, 3), 500, 9999).machine, 1);
});

/** A plan with due and release dates on one machine that work by a calendar. */
async function datedPlan(rows, calendarOf) {
  const table = await tableOf(rows.map((row) => newRow(row)), calendarOf,
    ["name", "time", "due", "release"]);
  const starts = [];
  for (const job of table.jobs) starts.push(Math.max(starts.stop ?? 0, job.release));
  const stops = table.jobs.map(({ time }, k) => starts[k] + time);
  const list = (values) => Float64Array.from(values);
  return makePlan(table, { problem: "1|rj|Lmax", jobs: rows.length, machines: 1, value: "0",
    certificate: "", bound: null, job: list(rows.map((_, k) => k + 1)),
    machine: list(rows.map(() => 1)), start: list(starts), stop: list(stops) }, null, calendarOf,
  []);
}

test("weeks begin on Monday, with a column for each day of the week that is worked", async () => {
  const { calendar: broken } = makeCalendar({ ...defaultSettings(), step: "60",
    start: "2026-12-02", startTime: "10:00", days: [1, 2, 3, 4, 5, 6], off: "2026-12-08" });
  const weeks = weeksOf(broken, 0, 60, 9);
  assert.deepEqual(weeks.map(({ words, days }) => [words, days.map(({ column }) => column)]),
    [["Week 49", [0, 1, 2, 3, 4, 5]], ["Week 50", [0, 2, 3, 4, 5]]]);
  assert.deepEqual(weeks[1].days.map(({ step }) => momentText(broken, step, false)),
    ["Mon 7 Dec 08:00", "Wed 9 Dec 08:00", "Thu 10 Dec 08:00", "Fri 11 Dec 08:00",
      "Sat 12 Dec 08:00"]);
  assert.equal(weeks[0].days[2].step, -2, "the plan starts at ten");
  assert.equal(weeksOf(broken, 0, 1e6, 3).length, 3);
  assert.equal(weeksOf(broken, 40, 41, 9)[0].days.length, 5, "whole weeks");
  const newYear = makeCalendar({ ...defaultSettings(), step: "60", start: "2026-12-28" }).calendar;
  assert.deepEqual(weeksOf(newYear, 0, 60, 9).map(({ words }) => words), ["Week 53", "Week 1"]);
  const before = makeCalendar({ ...defaultSettings(), step: "60", start: "2025-12-29" }).calendar;
  assert.deepEqual(weeksOf(before, 0, 60, 9).map(({ words }) => words), ["Week 1", "Week 2"]);
});

test("a line for each week: days off are left free, and the week's end is a weekend", async () => {
  const { calendar: broken } = makeCalendar({ ...defaultSettings(), step: "60",
    start: "2026-11-30", off: "2026-12-08" });
  const plan = await planOf(["A", "B", "C"], [20, 32, 12], broken);
  const weeks = weeksOf(broken, 0, plan.length, 9);
  const view = { from: 0, to: plan.length, width: 900, weeks, marks: true };
  const chart = drawChart(plan, view);
  assert.deepEqual(chart.of("week").map((each) => each.text), ["Week 49", "Week 50"]);
  const bars = chart.of("bar").map(({ attributes }) =>
    [attributes["data-job"], Number(attributes.x), Number(attributes.width)]);
  assert.deepEqual(bars.map(([job]) => job), ["0", "1", "1", "1", "2"]);
  assert.equal(chart.of("weekend").length, 2, "a weekend, and Tuesday off");
  assert.equal(chart.of("end").length, 1, "the plan ends where a day ends");
  const { x: monday } = pointOf(plan, view, 1, 44);
  const { x: wednesday, y } = pointOf(plan, view, 1, 48);
  const day = (900 - 14 - pointOf(plan, view, 1, 0).x) / 5;
  assert.ok(Math.abs(wednesday - monday - 1.5 * day) < 0.1, `${wednesday} ${monday} ${day}`);
  for (const step of [1, 39, 41, 47, 49, 63]) {
    const at = pointOf(plan, view, 1, step);
    assert.equal(Math.round(placeAt(plan, view, at.x, at.y + 3).step), step);
  }
  assert.equal(placeAt(plan, view, wednesday - day / 2, y + 3).step, 48, "on the day off");
});

test("marks are the program’s: due below, released above, late at the upper edge", async () => {
  const plan = await datedPlan([{ name: "A", time: "8 h", due: "2026-11-30" },
    { name: "B", time: "8 h", due: "2026-12-01 10:00", release: "2026-12-01" }], calendar);
  const chart = drawChart(plan, view(plan, 900));
  const [due, released] = ["due", "release"].map((kind) => chart.of(kind).map(({ attributes }) =>
    attributes.d.match(/-?[\d.]+/g).map(Number)));
  const { height } = chart.of("ground")[0].attributes;
  assert.equal(due.length, 2);
  for (const [, base, , , tip] of due) assert.ok(base > tip && tip > height, "points up, below");
  assert.equal(released.length, 1);
  for (const [, base, , , tip] of released) assert.ok(base < tip && tip < 0, "points down, above");
  assert.deepEqual(chart.of("late-edge").map(({ attributes }) => attributes.y), ["0.75"]);
  assert.equal(chart.of("bar").filter(({ attributes }) =>
    attributes.class.includes("late")).length, 1);
  const two = drawChart(plan, view(plan, 900, 2));
  assert.equal(two.of("due").length, 2, "a date at the end of a line is marked once");
  const early = await datedPlan([{ name: "A", time: "8 h", due: "2026-11-30 08:00" }], calendar);
  for (const lines of [1, 2]) {
    assert.equal(drawChart(early, view(early, 900, lines)).of("due").length, 1, "due at the start");
  }
});

/** The texts beside the marks, each with the places of its left and right end. */
const labelsOf = (chart) => chart.of("mark-text").map(({ text, attributes }) => {
  const [x, width] = [Number(attributes.x), text.length * LETTER];
  return attributes["text-anchor"] === "end" ? [text, x - width, x] : [text, x, x + width];
});

test("a date at the end of a day is marked before the next day, and others at their time", async () => {
  const plan = await datedPlan([{ name: "A", time: "8 h", due: "2026-11-30" },
    { name: "B", time: "4 h", due: "2026-12-01 10:00" }, { name: "C", time: "12 h" }], calendar);
  const chart = drawChart(plan, view(plan, 900));
  const { x: night } = pointOf(plan, view(plan, 900), 1, 8);
  const [[, , tuesday], [, later]] = labelsOf(chart);
  assert.ok(tuesday < night && later > night, `${tuesday} ${night} ${later}`);
  const [left, , right, tip] = chart.of("due")[0].attributes.d.match(/[\d.]+/g).map(Number);
  assert.deepEqual([Math.round(tip - left), right], [8, tip]);
  assert.match(chart.of("due")[0].text, /^A: due Mon 30 Nov 17:00$/);
});

test("jobs of one due date have one mark with all names, or with their number", async () => {
  const plan = await datedPlan(["Gears", "Shaft", "Lever"].map((name, k) =>
    ({ name, time: "20 h", due: k < 2 ? "2026-12-01" : "2026-12-01 10:00" })), calendar);
  const wide = drawChart(plan, view(plan, 900));
  assert.deepEqual(labelsOf(wide).map(([text]) => text), ["Lever", "Gears, Shaft"]);
  const due = "due Tue 1 Dec 17:00";
  assert.equal(wide.of("due").filter(({ text }) =>
    text === `Gears: ${due}\nShaft: ${due}`).length, 2);
  const narrow = drawChart(plan, view(plan, 300));
  assert.equal(labelsOf(narrow).at(-1)[0], "2 due");
});

test("names of dates do not cross the end of the plan or one another", async () => {
  const plan = await datedPlan(["2026-12-02 10:00", "2026-12-03 12:00", "2026-12-03 14:00",
    "2026-12-03"].map((due, k) => ({ name: `Wardrobe Schmidt ${k}`, time: "32 h", due })), calendar);
  for (const width of [360, 700, 1200]) {
    const labels = labelsOf(drawChart(plan, view(plan, width))).sort((a, b) => a[1] - b[1]);
    const { x: end } = pointOf(plan, view(plan, width), 1, plan.length);
    assert.ok(labels.length > 0);
    assert.ok(labels.every(([, from, to]) => to <= end || from >= end), `${width}: ${labels}, ${end}`);
    assert.ok(labels.every(([, from], k) => k === 0 || from >= labels[k - 1][2]), String(labels));
  }
});

test("bars can have the focus where they are moved", async () => {
  const plan = await planOf(["A", "B"], [20, 28]);
  const bars = (isMovable) => drawChart(plan, { ...view(plan, 900), isMovable }).of("bar")
    .map(({ attributes }) => attributes.tabindex);
  assert.deepEqual([bars(true), bars(false)], [["-1", "-1"], [undefined, undefined]]);
});

test("print takes as many lines as most names need, and as the page has room for", async () => {
  const names = Array.from({ length: 30 }, (_, place) => `A name of some length ${place}`);
  const many = await planOf(names, names.map(() => 3));
  const lines = linesForNames(many, { ...view(many, 1000), isPrint: true }, 1200);
  assert.ok(lines > 3, String(lines));
  assert.equal(linesForNames(many, { ...view(many, 1000), isPrint: true }, 1), 1);
  const few = await planOf(["A", "B"], [3, 4]);
  assert.equal(linesForNames(few, { ...view(few, 1000), isPrint: true }, 500), 1);
});
