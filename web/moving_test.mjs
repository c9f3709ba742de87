// Moved bars without a browser: node --test web/*_test.mjs
import assert from "node:assert/strict";
import { test } from "node:test";
import { load, tableOf } from "./modules.mjs";

const { identitiesOf, movedRows, placesOf, rowsOf, targetAt, targetBeside, whyFixed }
  = await load("moving");
const { answerOfOrder, answerOfRows } = await load("order");
const { readNotation } = await load("problems");
const { newRow } = await load("table");
const { emptyState, isSameWork, readState, writeState } = await load("state");

const FIELDS = ["name", "time", "release", "after"];

/** What the page asks for: a problem, and the table of rows with these values. */
async function asked(problem, rows, fields = FIELDS) {
  const table = await tableOf(rows.map((row) => newRow(row)), null, fields);
  return { problem, table };
}

const piecesOf = (text) => text.match(/^piece .*$/gm).map((line) => line.slice(6));

/** A plan of pieces: job, machine, start, stop. */
function planOf(problem, machines, pieces) {
  const jobs = Array.from({ length: Math.max(...pieces.map(([job]) => job)) }, (_, k) =>
    ({ id: 10 * (k + 1), name: `J${k + 1}`, time: 1 }));
  const column = (k) => Float64Array.from(pieces, (piece) => piece[k]);
  const [job, machine, start, stop] = [0, 1, 2, 3].map(column);
  const ends = (choose, at, first) => jobs.map((_, place) => pieces.filter((piece) =>
    piece[0] === place + 1).reduce((found, piece) => choose(found, piece[at]), first));
  return { problem, machines, jobs, schedule: { job, machine, start, stop },
    order: Uint32Array.from(pieces, (_, k) => k), isPreempted: false,
    start: ends(Math.min, 2, Infinity), completion: ends(Math.max, 3, 0),
    rows: Array.from({ length: machines }, (_, k) => [pieces.findIndex((each) => each[1] === k + 1),
      pieces.findLastIndex((each) => each[1] === k + 1) + 1]) };
}

test("a job goes before or behind its neighbour, and not past the ends", () => {
  const plan = planOf("1||Lmax", 1, [[2, 1, 0, 4], [1, 1, 4, 6], [3, 1, 6, 9]]);
  const rows = rowsOf(plan);
  assert.deepEqual(rows, [[1, 0, 2]]);
  const step = (job, way) => {
    const target = targetBeside(plan, job, way);
    return target && movedRows(rows, job, target);
  };
  assert.deepEqual(step(0, "left"), [[0, 1, 2]]);
  assert.deepEqual(step(0, "right"), [[1, 2, 0]]);
  assert.equal(step(1, "left"), null);
  assert.equal(step(2, "right"), null);
  assert.equal(step(0, "down"), null);
});

test("a bar is dropped before the first whose middle is later", () => {
  const plan = planOf("P2||Cmax", 2, [[1, 1, 0, 4], [2, 1, 4, 6], [3, 2, 0, 3]]);
  assert.deepEqual(targetAt(plan, 2, 1, 1.9), { machine: 1, before: 0 });
  assert.deepEqual(targetAt(plan, 2, 1, 2.1), { machine: 1, before: 1 });
  assert.deepEqual(targetAt(plan, 2, 1, 99), { machine: 1, before: null });
  assert.deepEqual(movedRows(rowsOf(plan), 2, targetAt(plan, 2, 1, 4.5)), [[0, 2, 1], []]);
  assert.equal(movedRows(rowsOf(plan), 2, targetAt(plan, 2, 2, 0)), null, "where it is");
  assert.deepEqual(targetBeside(plan, 2, "up"), { machine: 1, before: 0 });
  assert.equal(targetBeside(plan, 2, "down"), null);
});

test("a flow shop has one order, and bars of other shops, pieces or many jobs stay", () => {
  const plan = planOf("F2||Cmax", 2, [[2, 1, 0, 2], [1, 1, 2, 5], [2, 2, 2, 6], [1, 2, 6, 7]]);
  assert.deepEqual([rowsOf(plan), whyFixed(plan)], [[[1, 0]], ""]);
  assert.deepEqual(targetBeside(plan, 0, "left"), { machine: 1, before: 1 });
  assert.deepEqual(movedRows(rowsOf(plan), 0, targetAt(plan, 0, 2, 0)), [[0, 1]]);
  assert.equal(targetBeside(plan, 0, "down"), null);
  const other = planOf("F2||Cmax", 2, [[2, 1, 0, 2], [1, 1, 2, 5], [1, 2, 5, 6], [2, 2, 6, 7]]);
  assert.match(whyFixed(other), /different orders/);
  assert.match(whyFixed({ ...plan, problem: "O2||Cmax" }), /open shop/);
  assert.match(whyFixed({ ...plan, problem: "1|prmp|Lmax", isPreempted: true }), /in pieces/);
  assert.match(whyFixed({ ...plan, jobs: Array(2000).fill({}) }), /fewer than 2,000/);
});

test("each job is as early as it can be on its machine", async () => {
  const rows = [{ name: "A", time: "3" }, { name: "B", time: "2", after: "A" },
    { name: "C", time: "1", release: "4" }];
  const now = await asked("P2|rj,prec|Cmax", rows);
  assert.deepEqual(piecesOf(answerOfRows([[0], [1, 2]], now, 2)),
    ["1 1 0 3", "2 2 3 5", "3 2 5 6"]);
  assert.deepEqual(piecesOf(answerOfRows([[1, 0], [2]], now, 2)),
    ["3 2 4 5", "2 1 0 2", "1 1 2 5"], "an order that is not allowed is handed on as it is");
  const free = await asked("P2||Cmax", rows);
  assert.deepEqual(piecesOf(answerOfRows([[0], [1, 2]], free, 2)),
    ["1 1 0 3", "2 2 0 2", "3 2 2 3"], "what the problem ignores");
  assert.deepEqual(piecesOf(answerOfOrder([0, 2, 1], free, readNotation("P2||Cmax"), 2)),
    ["1 1 0 3", "3 2 0 1", "2 2 1 3"]);
});

test("machines that wait for one another are not waited for", async () => {
  const now = await asked("P2|prec|Cmax", [{ name: "A", time: "3", after: "D" },
    { name: "B", time: "2" }, { name: "C", time: "1", after: "B" }, { name: "D", time: "1" }]);
  const pieces = piecesOf(answerOfRows([[0, 1], [2, 3]], now, 2));
  assert.deepEqual(pieces, ["1 1 0 3", "2 1 3 5", "3 2 5 6", "4 2 6 7"]);
});

test("in a flow shop jobs wait, or start so late that they never wait", async () => {
  const rows = [{ name: "A", time: "1", time2: "5" }, { name: "B", time: "2", time2: "1" },
    { name: "C", time: "0", time2: "1" }];
  const fields = ["name", "time", "time2"];
  const now = await asked("F2||Cmax", rows, fields);
  assert.deepEqual(piecesOf(answerOfRows([[0, 1, 2]], now, 2)),
    ["1 1 0 1", "1 2 1 6", "2 1 1 3", "2 2 6 7", "3 2 7 8"]);
  const never = await asked("F2|nwt|Cmax", rows, fields);
  assert.deepEqual(piecesOf(answerOfRows([[0, 1, 2]], never, 2)),
    ["1 1 0 1", "1 2 1 6", "2 1 4 6", "2 2 6 7", "3 2 7 8"]);
});

test("an own plan stays with its jobs: some go, and new ones come last", () => {
  const jobs = [1, 2, 3].map((id) => ({ id, time: id }));
  const one = readNotation("1||Lmax");
  assert.deepEqual(identitiesOf([[2, 0, 1]], jobs), [[3, 1, 2]]);
  assert.deepEqual(placesOf([[3, 1, 2]], jobs, 1, one), [[2, 0, 1]]);
  assert.deepEqual(placesOf([[3, 9, 1]], jobs, 1, one), [[2, 0, 1]]);
  assert.deepEqual(placesOf([[3], [1]], jobs, 2, readNotation("P2||Cmax")), [[2], [0, 1]]);
  assert.equal(placesOf([[9]], jobs, 1, one), null);
  assert.equal(placesOf([[3, 1, 2]], jobs, 2, readNotation("P2||Cmax")), null);
  assert.deepEqual(placesOf([[3, 1, 2]], jobs, 2, readNotation("F2||Cmax")), [[2, 0, 1]]);
});

test("a state has the own plan, whatever somebody wrote there", () => {
  const rows = ["A", "B", "C"].map((name) => newRow({ name, time: "1" }));
  const state = { ...emptyState(), rows, own: [[rows[2].id, rows[0].id, rows[1].id]] };
  const read = readState(writeState(state));
  assert.deepEqual(identitiesOf([[2, 0, 1]], read.rows), read.own);
  assert.ok(isSameWork(read, state));
  assert.ok(!isSameWork(read, { ...state, own: null }));
  const own = (value) => readState(JSON.stringify(
    { ...JSON.parse(writeState(state)), own: value })).own;
  for (const wrong of ["x", 3, { length: 1 }, [3], [[1], null], Array(1001).fill([])]) {
    assert.equal(own(wrong), null);
  }
  const [first] = own([[0, 0, "1", -1, 1.5, 7, null, [1], "length"]]);
  assert.equal(first.length, 1);
});

test("a step of a job shop goes before or behind its neighbour on its own machine", () => {
  const plan = planOf("J||Cmax", 2, [[1, 1, 0, 3], [2, 1, 3, 6], [2, 2, 0, 2], [1, 2, 3, 7]]);
  assert.equal(whyFixed(plan), "");
  assert.match(whyFixed({ ...plan, problem: "J|nwt|Cmax" }), /^Bars of a job shop without waiting/);
  const rows = rowsOf(plan);
  assert.deepEqual(rows, [[0, 1], [1, 0]]);
  const step = (job, way, machine) => {
    const target = targetBeside(plan, job, way, machine);
    return target && movedRows(rows, job, target, true);
  };
  assert.deepEqual(step(0, "left", 2), [[0, 1], [0, 1]]);
  assert.deepEqual(step(0, "right", 1), [[1, 0], [1, 0]]);
  assert.deepEqual([step(0, "left", 1), step(0, "down", 1), step(0, "up", 2)], [null, null, null]);
});

test("an own plan of a job shop follows its routes, whatever becomes of the jobs", () => {
  const problem = readNotation("J||Cmax");
  const job = (id, ...machines) => ({ id, time: 1, steps: machines.map((machine) => ({ machine,
    time: 1 })) });
  const own = [[20, 10], [10, 30]];
  const places = (...jobs) => placesOf(own, jobs, 2, problem);
  assert.deepEqual(places(job(10, 1, 2), job(20, 1), job(30, 2)), [[1, 0], [0, 2]]);
  assert.deepEqual(places(job(20, 2), job(40, 2, 1), job(10, 1)), [[2, 1], [0, 1]]);
  assert.equal(places(job(50, 1)), null);
  assert.equal(placesOf(own, [job(10, 1, 3)], 3, problem), null);
  const rows = ["A", "B"].map((name) => newRow({ name, route: "1@1,1@2" }));
  const ids = rows.map(({ id }) => id);
  const state = { ...emptyState(), problem: "J||Cmax", rows, own: [ids, [ids[1], ids[0], ids[0]]] };
  const read = readState(writeState(state));
  const again = read.rows.map(({ id }) => id);
  assert.deepEqual(read.own, [again, [again[1], again[0]]]);
});

test("steps start as early as their routes and machines allow, and a circle leaves a route", async () => {
  const fields = ["name", "route", "release", "after"];
  const now = await asked("J|rj,prec|Cmax", [{ name: "A", route: "3@1,4@2" },
    { name: "B", route: "2@2,3@1", release: "1" }, { name: "C", route: "1@2", after: "B" }], fields);
  const pieces = (rows) => piecesOf(answerOfRows(rows, now, 2));
  assert.deepEqual(pieces([[0, 1], [1, 0, 2]]),
    ["1 1 0 3", "2 2 1 3", "2 1 3 6", "1 2 3 7", "3 2 7 8"]);
  assert.deepEqual(pieces([[1, 0], [1, 2, 0]]),
    ["2 2 1 3", "2 1 3 6", "1 1 6 9", "3 2 6 7", "1 2 9 13"]);
  const circle = pieces([[1, 0], [0, 1, 2]]);
  assert.equal(circle.length, 5);
  assert.deepEqual(circle[0], "2 1 1 4", "B is on machine 1 before machine 2");
});
