// What can be promised for a new order, by the module of the page: node --test web/*_test.mjs
import assert from "node:assert/strict";
import { test } from "node:test";
import { load, tableOf } from "./modules.mjs";
import { load as loadSolver } from "./solver.mjs";

const { newRow } = await load("table");
const { makePlan } = await load("plan");
const { columnsUsed, readNotation } = await load("problems");
const { plan, promise, relief, search } = await load("runs");
const { canPromise, promiseReason, promiseRequest, readWork, reliefRequest } = await load("promise");

const solver = await loadSolver();

async function planned(problem, rows) {
  const table = await tableOf(rows.map((row) => newRow(row)), null,
    columnsUsed(readNotation(problem)));
  const request = { problem, machines: null, instance: table.bytes };
  const exact = plan(solver, request);
  const reply = exact.status === 0 ? exact : search(solver, request);
  return makePlan(table, reply.schedule, reply.evaluation, null, table.names ?? []);
}

/** A new order as it is typed: how long it takes, from when on, and the places it comes after. */
function orderOf(shown, text, release = 0, after = []) {
  return { name: "New", release, after, ...readWork(shown, text) };
}

let seed = 11;
function random(most) {
  seed = (seed * 1103515245 + 12345) % 2147483648;
  return (seed >> 8) % most;
}

/** The earliest completion of a new order in any sequence that keeps to the dates and arcs. */
function earliest(jobs, dues, arcs, order) {
  const all = [...jobs, order];
  let best = Infinity;
  const go = (done, now) => {
    all.forEach((job, place) => {
      if (done.includes(place)) return;
      if (arcs.some(([a, b]) => b === place && !done.includes(a))) return;
      const end = now + job.time;
      if (place === jobs.length && end >= best) return;
      if (place < jobs.length && end > dues[place]) return;
      const next = [...done, place];
      if (next.length === all.length) best = Math.min(best, completionOf(next, all));
      else go(next, end);
    });
  };
  go([], 0);
  return best;
}

function completionOf(sequence, all) {
  const upTo = sequence.slice(0, sequence.indexOf(all.length - 1) + 1);
  return upTo.reduce((sum, place) => sum + all[place].time, 0);
}

test("the date is the earliest of all sequences in which no order is later", async () => {
  for (let round = 0; round < 60; round++) {
    const count = 1 + random(5);
    const rows = Array.from({ length: count }, (_, place) => ({ name: `J${place}`,
      time: String(1 + random(6)), due: String(random(4 * count + 4)),
      after: place > 0 && random(3) === 0 ? `J${random(place)}` : "" }));
    const shown = await planned("1|prec|Lmax", rows);
    const order = orderOf(shown, String(1 + random(6)), 0,
      random(3) === 0 ? [random(count)] : []);
    const found = promise(solver, promiseRequest(shown, order));
    const dues = shown.jobs.map((job, place) => Math.max(job.due, shown.completion[place]));
    const arcs = [...shown.arcs, ...order.after.map((place) => [place, count])];
    assert.equal(found.due, earliest(shown.jobs, dues, arcs, order), JSON.stringify(rows));
    if (found.due > order.time) assert.ok(Number(found.value) > 0);
    else assert.equal(found.certificate, null);
  }
});

test("why not earlier is said by the orders that stand in the way", async () => {
  const shown = await planned("1||Lmax", [{ name: "A", time: "3", due: "3" },
    { name: "B", time: "4", due: "20" }]);
  const order = orderOf(shown, "2");
  const found = promise(solver, promiseRequest(shown, order));
  assert.equal(found.due, 5);
  assert.equal(promiseReason(shown, order, found), "“New”, “A” are 5 of work, which can't begin "
    + "before 0, so the last of it is done 5; but what comes last has to be done by 4.");
});

test("with release dates an order waits for them", async () => {
  const shown = await planned("1|rj,prmp|Lmax", [{ name: "A", time: "4", due: "6", release: "2" }]);
  const order = orderOf(shown, "3", 1);
  const found = promise(solver, promiseRequest(shown, order));
  assert.equal(found.due, 8);
  assert.match(promiseReason(shown, order, found), /“New”, “A” are 7 of work.*before 1, .*done 8;/);
});

/** The earliest completion of the last job of all sequences in which no other is late. */
function earliestOf(jobs, machines) {
  let best = Infinity;
  const go = (rest, free) => {
    if (rest.length === 0) return;
    for (const place of rest) {
      const { time, release, due } = jobs[place];
      const others = rest.filter((each) => each !== place);
      for (let k = 0; k < machines; k++) {
        const end = Math.max(free[k], release) + time;
        if (place === jobs.length - 1) {
          if (canFinish(others, free.with(k, end))) best = Math.min(best, end);
        } else if (end <= due) go(others, free.with(k, end));
      }
    }
  };
  const canFinish = (rest, free) => rest.length === 0 || rest.some((place) =>
    free.some((from, k) => {
      const end = Math.max(from, jobs[place].release) + jobs[place].time;
      return end <= jobs[place].due
        && canFinish(rest.filter((each) => each !== place), free.with(k, end));
    }));
  go(jobs.map((_, place) => place), Array(machines).fill(0));
  return best;
}

test("without an exact method a plan and a bound enclose the earliest date", async () => {
  let exact = 0;
  for (let round = 0; round < 24; round++) {
    const machines = 1 + round % 2;
    const rows = Array.from({ length: 2 + random(3) }, (_, place) => ({ name: `J${place}`,
      time: String(1 + random(6)), due: String(4 + random(12)), release: String(random(6)) }));
    const shown = await planned(machines === 1 ? "1|rj|Lmax" : "P2|rj|Lmax", rows);
    const order = orderOf(shown, String(1 + random(5)), random(4));
    const { due, past } = promise(solver, promiseRequest(shown, order));
    const dues = shown.jobs.map((job, place) => Math.max(job.due, shown.completion[place]));
    const wanted = earliestOf([...shown.jobs.map(({ time, release }, place) =>
      ({ time, release, due: dues[place] })), { ...order, due: Infinity }], machines);
    assert.ok(past < wanted && wanted <= due, `${past} ${wanted} ${due}: ${JSON.stringify(rows)}`);
    exact += due - past === 1 ? 1 : 0;
  }
  assert.ok(exact > 12, `${exact} of 24`);
});

test("in shops the new order has its work on each machine", async () => {
  // By hand: A then N on both machines is done at 4 and 9; A is due at 4, so nothing is before it.
  const flow = await planned("F2||Lmax", [{ name: "A", time: "2", time2: "2", due: "4" }]);
  assert.deepEqual(orderOf(flow, "2; 5").words, "2,5");
  assert.match(orderOf(flow, "2").fault, /on both machines, such as 2 h; 3 h/);
  assert.match(orderOf(flow, "0; 0").fault, /at least one time step/);
  const found = promise(solver, promiseRequest(flow, orderOf(flow, "2; 5")));
  assert.deepEqual([found.past, found.due], [8, 9]);
  const shop = await planned("J||Lmax", [{ name: "A", route: "3@Saw, 2@Mill", due: "5" },
    { name: "B", route: "4@Mill", due: "20" }]);
  assert.equal(orderOf(shop, "1@Mill; 2@Saw").words, "1@2,2@1");
  assert.match(orderOf(shop, "1@Drill").fault, /“Drill” is no machine of this plan/);
  // N on the mill from 0 to 1 and on the saw from 3, when A has left it: done at 5.
  const third = promise(solver, promiseRequest(shop, orderOf(shop, "1@Mill; 2@Saw")));
  assert.deepEqual([third.past, third.due], [4, 5]);
});

/** Whether some sequence has all jobs in time. */
function canBeInTime(jobs, arcs) {
  const go = (done, now) => done.length === jobs.length || jobs.some((job, place) =>
    !done.includes(place) && now + job.time <= job.due
    && !arcs.some(([from, to]) => to === place && !done.includes(from))
    && go([...done, place], now + job.time));
  return go([], 0);
}

/** The single orders that help, by all sequences: the place, and the earliest date or null. */
function reliefBySequences(jobs, arcs) {
  return jobs.flatMap((_, place) => {
    const skip = (from, to) => arcs.filter(([a]) => a === from).some(([, b]) =>
      b === to || b === place && arcs.some(([c, d]) => c === place && d === to));
    const left = jobs.map((__, k) => k).filter((k) => k !== place);
    const links = left.flatMap((a, k) => left.flatMap((b, l) => skip(a, b) ? [[k, l]] : []));
    if (!canBeInTime(left.map((k) => jobs[k]), links)) return [];
    for (let due = 0; due <= 80; due++) {
      if (canBeInTime(jobs.with(place, { ...jobs[place], due }), arcs)) return [[place, due]];
    }
    return [[place, null]];
  });
}

test("which single order, moved or given away, brings all others in time", async () => {
  const sorts = { none: 0, moved: 0, away: 0 };
  for (let round = 0; round < 60; round++) {
    const count = 2 + random(4);
    const rows = Array.from({ length: count }, (_, place) => ({ name: `J${place}`,
      time: String(1 + random(6)), due: String(2 + random(4 * count)),
      after: place > 0 && random(2) === 0 ? `J${random(place)}` : "" }));
    const shown = await planned("1|prec|Lmax", rows);
    const request = reliefRequest(shown);
    if (Number(shown.value) <= 0) {
      assert.equal(request, null);
      continue;
    }
    const found = relief(solver, request).found.map(({ place, due }) => [place, due]);
    const wanted = reliefBySequences(shown.jobs, shown.arcs);
    assert.deepEqual(found.sort((a, b) => a[0] - b[0]), wanted, JSON.stringify(rows));
    if (found.length === 0) sorts.none++;
    for (const [, due] of found) sorts[due === null ? "away" : "moved"]++;
  }
  assert.ok(sorts.none > 3 && sorts.moved > 3 && sorts.away > 3, JSON.stringify(sorts));
});

test("lateness can be promised with an exact method, or by plans and their bounds", () => {
  for (const [notation, isPossible, isPlanned] of [["1||Lmax", true, true],
    ["1|pmtn,prec|L_max", true, true], ["1|rj,prmp|Lmax", true, true], ["1|rj|Lmax", false, true],
    ["P2||Lmax", false, true], ["J||Lmax", false, true], ["O2||Lmax", false, false],
    ["1||sumC", false, false], ["1||hmax", false, false], ["", false, false]]) {
    assert.deepEqual([canPromise(notation), canPromise(notation, true)], [isPossible, isPlanned],
      notation);
  }
});
