// Job shops: routes as people write them, their machines, and files of job shops: node --test web/*_test.mjs
import assert from "node:assert/strict";
import { readFileSync } from "node:fs";
import { test } from "node:test";
import { load, tableOf } from "./modules.mjs";

const { defaultSettings, makeCalendar } = await load("calendar");
const { guess } = await load("guesses");
const { machineNames, machineText } = await load("machines");
const { answerOfOrder } = await load("order");
const { makePlan } = await load("plan");
const { columnsUsed, inShort, readNotation } = await load("problems");
const { tickedOff } = await load("progress");
const { explainRefusal } = await load("refusals");
const { namesInRoutes, readRoute, unitOfRoute } = await load("routes");
const { planAsCsv } = await load("saving");
const { readJobShops } = await load("shop_files");
const { machinesOf, readCells, readColumns, rowsOfCells, unitOfTimes } = await load("spreadsheet");
const { emptyState, readState, writeState } = await load("state");
const { RowReader, makeTable, namedText, newRow, readTable } = await load("table");

// Monday 30 November 2026, 08:00-12:00 and 13:00-17:00.
const { calendar } = makeCalendar({ ...defaultSettings(), step: "30", start: "2026-11-30" });
const LINES = readFileSync(new URL("../examples/routes.txt", import.meta.url), "utf8");
const FT06 = readFileSync(new URL("../examples/job_shop.txt", import.meta.url), "utf8");

/** The job table of routes, and what is found of it. */
async function shopOf(routes, { names = "", of = null, problem = "J||Cmax", more = {} } = {}) {
  const rows = routes.map((route, k) => newRow({ name: `J${k + 1}`, route, ...more[k] }));
  const table = await makeTable(rows, new RowReader(of, columnsUsed(readNotation(problem))),
    async () => true, machineNames(names));
  return { ...table, rows, text: new TextDecoder().decode(table.bytes) };
}

/** Imports cells as the dialog does. */
async function pasted(text, before = emptyState()) {
  const { cells } = readCells(text);
  const columns = readColumns(cells);
  const unit = unitOfTimes(columns);
  const rows = rowsOfCells(cells, columns, unit);
  const { patch, hints } = guess(before, rows, unit, true);
  const names = columns.fields.includes("route") ? namesInRoutes(rows) : machinesOf(columns);
  const state = { ...before, ...patch, rows, machineNames: machineText(names) };
  const table = await makeTable(rows, new RowReader(makeCalendar(state.settings).calendar,
    columnsUsed(readNotation(state.problem))), async () => true, machineNames(state.machineNames));
  return { state, hints, columns, table, text: new TextDecoder().decode(table.bytes) };
}

// What is read of a route with a calendar in steps of half an hour: times in steps and machines.
const ROUTES = [
  ["3@1, 4@2", [[6, "1"], [8, "2"]]], ["3@1,4@2", [[6, "1"], [8, "2"]]],
  ["3 h@Sawing; 30 min@Painting", [[6, "Sawing"], [1, "Painting"]]],
  ["2,5@Saw,1,5@Mill", [[5, "Saw"], [3, "Mill"]]], ["2,5 h @ Saw; 4 @ Mill", [[5, "Saw"], [8, "Mill"]]],
  ["3@Saw → 4@Mill", [[6, "Saw"], [8, "Mill"]]], ["3@Saw -> 4@Mill => 1@Saw 2",
    [[6, "Saw"], [8, "Mill"], [2, "Saw 2"]]],
  ["3@1 4@2", [[6, "1"], [8, "2"]]], ["3 h@Saw 2 4 h@Mill", [[6, "Saw 2"], [8, "Mill"]]],
  ["3@Saw\n4@Mill", [[6, "Saw"], [8, "Mill"]]], ["1:30@Mill,½ h@Saw", [[3, "Mill"], [1, "Saw"]]],
  ['3@"Saw, left; old",4@Mill', [[6, "Saw, left old"], [8, "Mill"]]], ["3@Saw, left; 4@Mill",
    [[6, "Saw, left"], [8, "Mill"]]],
  ["3h30@Drehbank 1; 2 Std@Fräse", [[7, "Drehbank 1"], [4, "Fräse"]]], ["3@1;", [[6, "1"]]],
  ["3@1,4@2; 1@3", [[6, "1"], [8, "2"], [2, "3"]]],
];

const WRONG = [
  ["3@1, 4", /“4” is not a step of a route. Write each as its time, @ and its machine/],
  ["3", /“3” is not a step/], ["3@", /“3@” is not a step/], ["@Saw", /“@Saw” has no time/],
  ["3@1@2", /is not a step/], ["soon@Saw", /“soon” is not a length of time/],
  ["3 min@Saw", /not a whole number of time steps of 30 minutes/], ["-3@1", /not a length of time/],
  ["3@1,".repeat(20000), /too long to be a route/],
];

test("routes as people write them", () => {
  for (const [text, steps] of ROUTES) {
    const found = readRoute(calendar, text);
    assert.deepEqual(found.steps?.map(({ time, machine }) => [time, machine]), steps,
      `${text}: ${found.fault}`);
  }
  for (const [text, words] of WRONG) assert.match(readRoute(calendar, text).fault, words, text);
  assert.match(readRoute(null, "2.5@1").fault, /is a whole number here; 2.5 is not/);
  assert.deepEqual(["3@1", "3 h@1", "3 h@1, 4@2", "x"].map((text) => unitOfRoute(calendar, text)),
    ["h", "", "h", ""]);
});

test("the job table has the times and the machines of the routes", async () => {
  const { text, machines, names, faults } = await shopOf(["3@1,4@2,2@3", "2@2,3@1,4@3"],
    { problem: "J||sumwT", more: [{ due: "14", weight: "2" }, { due: "12", weight: "1" }] });
  assert.equal(text, "table 1\njob 1 p=3@1,4@2,2@3 w=2 d=14\njob 2 p=2@2,3@1,4@3 w=1 d=12\n");
  assert.deepEqual([machines, names, faults], [3, [""], []]);
});

test("machines by name have numbers: as listed, and others in the order of the routes", async () => {
  const free = await shopOf(["3@Sawing, 4@Milling", "2@milling, 1@Painting"]);
  assert.equal(free.text, "table 1\njob 1 p=3@1,4@2\njob 2 p=2@2,1@3\n");
  assert.deepEqual([free.names, free.notes], [["Sawing", "Milling", "Painting"], []]);
  const listed = await shopOf(["3@Sawing, 4@Mill", "2@3, 1@Milling"], { names: "Milling; Sawing" });
  assert.equal(listed.text, "table 1\njob 1 p=3@2,4@4\njob 2 p=2@3,1@1\n");
  assert.deepEqual(listed.names, ["Milling", "Sawing", "", "Mill"]);
  assert.match(listed.notes[0].message, /“Mill” is not in the names of the machines, so it is one more/);
  const numbered = await shopOf(["3@M10, 4@M2", "2@M1"]);
  assert.deepEqual(numbered.names, ["M1", "M2", "M10"]);
  const typo = await shopOf(["3@Sawnig"], { names: "Sawing" });
  assert.match(typo.notes[0].message, /Is “Sawing” meant\?$/);
  const figures = await shopOf(["3@102, 4@101"], { names: "101; 102" });
  assert.equal(figures.text, "table 1\njob 1 p=3@2,4@1\n");
});

test("mistakes in routes are named at their rows", async () => {
  for (const [route, words] of [["3@1, 4@1", /comes to “1” twice/], ["3@0", /no machine 0/],
    ["3@1001", /no machine 1001: they are 1 to 1,000/], ["", /^This job has no route\. Write/],
    ["3@Saw, 1@saw", /comes to “saw” twice/]]) {
    const { faults } = await shopOf([route, "1@1"]);
    assert.deepEqual([faults.length, faults[0].row, faults[0].field], [1, 0, "route"], route);
    assert.match(faults[0].message, words);
  }
  const none = await shopOf(["", "", ""]);
  assert.deepEqual(none.faults.map(({ row }) => row), [null]);
  assert.match(none.faults[0].message, /^No job has a route\. Write/);
  const many = await shopOf([Array.from({ length: 1001 }, (_, k) => `1@M${k}`).join(";")]);
  assert.match(many.faults[0].message, /more than 1,000 machines/);
});

test("a column of routes is pasted with the names of its machines", async () => {
  const { state, hints, text } = await pasted("Order;Route;Due\nShelf;3@Saw, 4@Mill;14\nDesk;2@Mill;12\n");
  assert.equal(state.problem, "J||Lmax");
  assert.match(hints.join(" "), /job shop/);
  assert.equal(state.machineNames, "Saw; Mill");
  assert.equal(text, "table 1\njob 1 p=3@1,4@2 d=14\njob 2 p=2@2 d=12\n");
});

test("a column for each step is pasted, by its heading or by its cells, with its unit", async () => {
  const steps = await pasted("Auftrag\tArbeitsgang 1\tArbeitsgang 2\tArbeitsgang 3\n"
    + "A\t3@Säge\t4@Fräse\t2@Lack\nB\t2@Fräse\t\t\nC\t1@Lack\t5@Säge\t\n");
  assert.equal(steps.state.problem, "J||Cmax");
  assert.equal(steps.text, "table 1\njob 1 p=3@1,4@2,2@3\njob 2 p=2@2\njob 3 p=1@3,5@1\n");
  assert.equal(steps.state.rows[0].route, "3@Säge; 4@Fräse; 2@Lack");
  const units = await pasted("Name;Step 1 (h);Step 2 (min)\nA;2,5@Saw;30@Mill\nB;1@Mill;\n");
  assert.deepEqual(units.state.rows.map(({ route }) => route), ["2,5@Saw; 30 min@Mill", "1@Mill"]);
  assert.equal(units.text, "table 1\njob 1 p=5@1,1@2\njob 2 p=2@2\n");
  const bare = await pasted("A\t3@1\t4@2\t14\nB\t2@2\t1@1\t12\n");
  assert.deepEqual(bare.columns.fields, ["name", "route", "route", "due"]);
  assert.equal(bare.text, "table 1\njob 1 p=3@1,4@2 d=14\njob 2 p=2@2,1@1 d=12\n");
  const unknown = await pasted("Name;First thing;Then\nA;3@1;4@2\nB;2@2;1@1\n");
  assert.equal(unknown.text, "table 1\njob 1 p=3@1,4@2\njob 2 p=2@2,1@1\n");
});

test("cells that are no routes stay what they were", async () => {
  const { columns } = await pasted("Name;Time;Contact;Due\nA;3;ann@example.org;4\nB;2;bob@example.org;5\n");
  assert.deepEqual(columns.fields, ["name", "time", null, "due"]);
});

test("routes with units bring a calendar", async () => {
  const { state, text } = await pasted("Name;Route\nA;3 h@Saw, 45 min@Mill\nB;2 h@Mill\n");
  assert.equal(state.settings.step, "15");
  assert.equal(text, "table 1\njob 1 p=12@1,3@2\njob 2 p=8@2\n");
});

test("what is left of a route: a part for each step, and steps that are done are left out", async () => {
  const done = { more: [{ left: "0; 1; 2" }, { left: "done" }, {}] };
  const { text, jobs, faults } = await shopOf(["3@1,4@2,2@3", "2@2", "5@1"], done);
  assert.deepEqual([text, faults], ["table 1\njob 1 p=1@2,2@3\njob 2 p=5@1\n", []]);
  assert.deepEqual(jobs[0].parts, [1, 2, 3]);
  const wrong = await shopOf(["3@1,4@2,2@3"], { more: [{ left: "2" }] });
  assert.match(wrong.faults[0].message, /each of the 3 machines of the route, such as 0; 1; 2, or done/);
});

/** The plan of a schedule of pieces: job, machine, start and stop. */
function planOf(table, pieces, names, of = null) {
  const column = (k) => Float64Array.from(pieces, (piece) => piece[k]);
  return makePlan(table, { problem: "J||Cmax", jobs: table.jobs.length, machines: 3, value: "0",
    certificate: "", bound: null, job: column(0), machine: column(1), start: column(2),
    stop: column(3) }, null, of, names);
}

test("a step that is ticked off is left out of its route, and no other", async () => {
  const { rows, ...table } = await shopOf(["1 h@Saw, 2 h@Mill, 1 h@Paint"], { of: calendar });
  const plan = planOf(table, [[1, 1, 0, 2], [1, 2, 2, 6], [1, 3, 6, 8]], table.names, calendar);
  const state = { ...emptyState(), problem: "J||Cmax", rows };
  const before = new Date(2026, 10, 29);
  assert.equal(tickedOff(state, calendar, plan, 0, 1, before).rows[0].left, "1 h; 0 h; 1 h");
  assert.equal(tickedOff(state, calendar, plan, 0, null, before).rows[0].left, "done");
});

test("names of machines are in the file for spreadsheets, in the job table and over a link", async () => {
  const { rows, ...table } = await shopOf(["3@Saw, 4@Mill", "2@Mill"]);
  const plan = planOf(table, [[1, 1, 0, 3], [1, 2, 3, 7], [2, 2, 0, 2]], table.names);
  const lines = planAsCsv(plan, { delimiter: ",", decimal: "." });
  assert.deepEqual(lines.slice(1).map((line) => line.split(",").slice(0, 4)),
    [["J1", "Saw", "0", "3"], ["J2", "Mill", "0", "2"], ["J1", "Mill", "3", "7"]]);
  const again = readTable(namedText(table, table.names));
  assert.deepEqual([again.machineNames, again.rows.map(({ route }) => route), again.faults],
    ["Saw; Mill", ["3@1, 4@2", "2@2"], []]);
  const state = { ...emptyState(), problem: "J||Cmax", rows, machineNames: "Saw; Mill" };
  const read = readState(writeState(state));
  assert.deepEqual([read.machineNames, read.problem, read.rows.map(({ route }) => route)],
    ["Saw; Mill", "J||Cmax", ["3@Saw, 4@Mill", "2@Mill"]]);
});

test("the job table of the examples is read into routes, and gives the same table", async () => {
  const { rows, machines, faults } = readTable(LINES);
  assert.deepEqual([machines, faults, rows[0].route], ["3", [], "3@1, 4@2, 2@3"]);
  const table = await tableOf(rows, null, columnsUsed(readNotation("J||sumwT")));
  const jobs = (text) => text.split("\n").filter((line) => line.startsWith("job"))
    .map((line) => line.split(" ").sort().join(" "));
  assert.deepEqual(jobs(new TextDecoder().decode(table.bytes)), jobs(LINES));
});

test("files in OR-Library's layout: one job shop or several, with or without a name", () => {
  const [ft06] = readJobShops(FT06);
  assert.deepEqual([ft06.name, ft06.machines, ft06.rows.length], ["ft06", 6, 6]);
  assert.equal(ft06.rows[0].route, "1@3, 3@1, 6@2, 7@4, 3@6, 6@5");
  const two = readJobShops(`some words\n${FT06}\n instance two\n +++\n 2 2\n 0 3 1 2\n 1 2\n 0 4\n +++\n`);
  assert.deepEqual(two.map(({ name, rows }) => [name, rows.length]), [["ft06", 6], ["two", 2]]);
  const [bare] = readJobShops("# a comment\n2\t2\n0 3 1 2\r\n1 2 0 4\n");
  assert.deepEqual(bare.rows.map(({ route }) => route), ["3@1, 2@2", "2@2, 4@1"]);
  for (const text of ["2 2\n0 3 1 2\n1 2 1 4\n", "2 2\n0 3 1 2\n1 2 0\n", "2 2\n0 3 1 2\n1 2 0 4 5\n",
    "Name Time\nA 3\n", "", "3 4\n", "instance x\n2 2\n0 3 0 2\n1 2 0 4\n", "0 0\n", "2 2\n0 3 1 x\n1 2 0 4"]) {
    assert.deepEqual(readJobShops(text), [], text);
  }
});

test("an order of jobs lays whole jobs along their routes", async () => {
  const problem = "J|rj,prec|Cmax";
  const table = await shopOf(["3@1,2@2", "2@2,4@1", "1@2"],
    { problem, more: [{}, { release: "1" }, { after: "J2" }] });
  const pieces = (of) => answerOfOrder([0, 1, 2], { table, problem: of }, readNotation(of),
    table.machines).split("\n").filter((line) => line.startsWith("piece"));
  assert.deepEqual(pieces(problem), ["piece 1 1 0 3", "piece 1 2 3 5", "piece 2 2 5 7",
    "piece 2 1 7 11", "piece 3 2 11 12"]);
  assert.deepEqual(pieces("J|nwt|Cmax").slice(2, 4), ["piece 2 2 5 7", "piece 2 1 7 11"]);
});

test("a job shop in words, and what the module says of its routes", async () => {
  assert.equal(inShort(readNotation("Jm||Cmax")), "Each job on its own route: all work done as early "
    + "as possible");
  const table = await shopOf(["3@1,2@3"]);
  const [refusal] = explainRefusal({ status: 2, errors: "threefield: refused: WrongTimes 1\n" }, table,
    "J2||Cmax");
  assert.deepEqual([refusal.row, refusal.field], [0, "route"]);
  assert.match(refusal.message, /beyond the number of machines of J2\|\|Cmax/);
});

test("routes of anybody are read without long waits", () => {
  for (const text of ["3@".repeat(20000), "@".repeat(40000), "3 ".repeat(20000) + "@1", '"'.repeat(40000),
    "1@1 ".repeat(10000), `1@${" ".repeat(40000)}`, `${"1".repeat(30000)}@1`, "3@a -> ".repeat(5000)]) {
    const begun = performance.now();
    readRoute(calendar, text);
    readJobShops(text);
    readJobShops(`2 2\n${text}`);
    assert.ok(performance.now() - begun < 10000, text.slice(0, 20));
  }
});
