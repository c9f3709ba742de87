// From an order of jobs to a schedule in which each job starts as soon as it can in that order.

import { splitNames } from "./precedence.js";
import { hasRoutes, isShop, readNotation } from "./problems.js";

/**
 * Reads an order of jobs by names or numbers.
 * @param {string} text
 * @param {object} table as `makeTable` gives it
 * @returns {{jobs: number[]}|{fault: string}} the places of the jobs
 */
export function readOrder(text, table) {
  const { index, jobs } = table;
  const words = /[;,]/.test(text) ? splitNames(text, (name) => index.has(name))
    : text.trim().split(/\s+/).filter(Boolean);
  const order = new Set();
  for (const word of words) {
    const isNumber = /^\d+$/.test(word) && !index.has(word);
    const found = isNumber ? { place: Number(word) - 1 } : index.find(word);
    if (found.fault) return found;
    if (!jobs[found.place]) {
      return { fault: `There is no job ${word}: they are 1 to ${jobs.length}.` };
    }
    if (order.has(found.place)) return { fault: `“${word}” stands twice in the order.` };
    order.add(found.place);
  }
  const missing = jobs.filter((_, place) => !order.has(place)).map((job) => job.name);
  if (missing.length > 0) {
    return { fault: `The order lacks ${missing.slice(0, 5).join(", ")}`
      + `${missing.length > 5 ? ` and ${missing.length - 5} more` : ""}.` };
  }
  return { jobs: [...order] };
}

/**
 * The answer text of an order: each job goes to the machine that is free first.
 * @param {number[]} order
 * @param {{table: object, problem: string}} now
 * @param {object} problem as `readNotation` gives it
 * @param {number} machines
 */
export function answerOfOrder(order, now, problem, machines) {
  if (isShop(problem) || hasRoutes(problem)) {
    return answerOfPieces(shopPieces(order, tasksOf(now), problem), now, machines);
  }
  const free = Array(machines).fill(0);
  const rows = free.map(() => []);
  const { jobs } = tasksOf(now);
  for (const place of order) {
    const machine = free.indexOf(Math.min(...free));
    free[machine] = Math.max(free[machine], jobs[place].release) + jobs[place].time;
    rows[machine].push(place);
  }
  return answerOfRows(rows, now, machines);
}

/**
 * The answer text of what each machine does in order, each job as early as it can. The lines
 * `value` and `cert` are only there because the text has to have them: an evaluation finds the
 * value by itself.
 * @param {number[][]} rows the jobs of each machine; of a flow shop, the one order of both
 */
export function answerOfRows(rows, now, machines) {
  const problem = readNotation(now.problem);
  const tasks = tasksOf(now);
  return answerOfPieces(isShop(problem) ? shopPieces(rows[0], tasks, problem)
    : hasRoutes(problem) ? routePieces(rows, tasks) : machinePieces(rows, tasks), now, machines);
}

function answerOfPieces(pieces, now, machines) {
  return ["answer 2", `problem ${now.problem}`, `jobs ${now.table.jobs.length}`,
    `machines ${machines}`, "value 0", ...pieces.map((piece) => `piece ${piece.join(" ")}`),
    "cert load", "end", ""].join("\n");
}

/** The jobs with what the problem uses of them: release dates, and the jobs that come before. */
function tasksOf({ table, problem }) {
  const { conditions } = readNotation(problem);
  const has = (id) => conditions.includes(id);
  const before = table.jobs.map(() => []);
  if (has("prec")) for (const [first, then] of table.arcs) before[then].push(first);
  return { before, jobs: table.jobs.map(({ time, release, fields, steps }) =>
    ({ time, release: has("rj") ? release : 0, steps: steps ?? stepsOfTimes(fields) })) };
}

/** The route of a job with a time on each of two machines: first one, then the other. */
function stepsOfTimes(fields) {
  const times = /p=(\d+),(\d+)/.exec(fields)?.slice(1) ?? [];
  return times.map((time, k) => ({ machine: k + 1, time: Number(time) }));
}

/** When a job can start: after its release, and after the jobs before it that have a stop. */
function earliest(place, { jobs, before }, stops) {
  return before[place].reduce((most, each) => Math.max(most, stops.get(each) ?? 0),
    jobs[place].release);
}

/**
 * Each job waits for its release, for the machine's job before it and for all that come before.
 * Where the machines wait for one another, one of them doesn't: what the module says of that
 * schedule is why there is none.
 */
function machinePieces(rows, tasks) {
  const { jobs, before } = tasks;
  const free = rows.map(() => 0);
  const done = rows.map(() => 0);
  const stops = new Map();
  const hasWork = (machine) => done[machine] < rows[machine].length;
  const isReady = (machine) => hasWork(machine)
    && before[rows[machine][done[machine]]].every((each) => stops.has(each));
  const machines = rows.map((_, machine) => machine);
  const pieces = [];
  for (;;) {
    const machine = machines.find(isReady) ?? machines.find(hasWork);
    if (machine === undefined) return pieces;
    const place = rows[machine][done[machine]++];
    const start = Math.max(free[machine], earliest(place, tasks, stops));
    free[machine] = start + jobs[place].time;
    stops.set(place, free[machine]);
    pieces.push([place + 1, machine + 1, start, free[machine]]);
  }
}

/**
 * Each job goes along its route, behind those that are before it in the order on each machine.
 * Steps that take no time are no pieces.
 */
function shopPieces(order, tasks, { conditions }) {
  const free = [];
  const stops = new Map();
  const isFree = (machine) => free[machine] ?? 0;
  return order.flatMap((place) => {
    const steps = tasks.jobs[place].steps.filter(({ time }) => time > 0);
    let at = earliest(place, tasks, stops);
    if (conditions.includes("nwt")) at = startWithoutWaiting(steps, at, isFree);
    const pieces = steps.map(({ machine, time }) => {
      const start = Math.max(at, isFree(machine));
      at = start + time;
      free[machine] = at;
      return [place + 1, machine, start, at];
    });
    stops.set(place, at);
    return pieces;
  });
}

/** The first time at which a job can start and then go on without a wait. */
function startWithoutWaiting(steps, from, isFree) {
  let before = 0;
  return steps.reduce((start, { machine, time }) => {
    before += time;
    return Math.max(start, isFree(machine) - before + time);
  }, from);
}

/**
 * Each step waits for the one before it on its route, and for the job before it on its machine.
 * Where the machines wait for one another, one of them doesn't, as in `machinePieces`.
 */
function routePieces(rows, tasks) {
  const free = rows.map(() => 0);
  const done = rows.map(() => 0);
  const left = tasks.jobs.map(({ steps }) => steps.filter(({ time }) => time > 0));
  const ready = tasks.jobs.map(() => 0);
  const stops = new Map();
  const hasWork = (machine) => done[machine] < rows[machine].length;
  const isReady = (machine) => {
    const place = rows[machine][done[machine]];
    return hasWork(machine) && left[place][0]?.machine === machine + 1
      && tasks.before[place].every((each) => stops.has(each));
  };
  const machines = rows.map((_, machine) => machine);
  const pieces = [];
  for (;;) {
    const machine = machines.find(isReady) ?? machines.find(hasWork);
    if (machine === undefined) return pieces;
    const place = rows[machine][done[machine]++];
    const at = left[place].findIndex((step) => step.machine === machine + 1);
    const [{ time }] = left[place].splice(at, 1);
    const start = Math.max(free[machine], ready[place], earliest(place, tasks, stops));
    ready[place] = free[machine] = start + time;
    if (left[place].length === 0) stops.set(place, ready[place]);
    pieces.push([place + 1, machine + 1, start, ready[place]]);
  }
}
