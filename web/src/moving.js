// Moved bars: what each machine does in order, and the same with a job at another place.

import { hasRoutes, isShop, readNotation } from "./problems.js";

/** The most jobs of a plan whose bars are moved; larger charts are too dense. */
const MOST_MOVED = 1999;

/**
 * The jobs of each machine in order; of a flow shop the one order of both machines.
 * @param {object} plan as `makePlan` gives it
 * @returns {number[][]}
 */
export function rowsOf(plan) {
  const { rows, order, schedule, start, completion, jobs } = plan;
  const found = rows.map(([first, end]) =>
    Array.from(order.subarray(first, end), (piece) => schedule.job[piece] - 1));
  if (!isShop(readNotation(plan.problem))) return found;
  const places = jobs.map((_, place) => place);
  return [places.sort((a, b) => start[a] - start[b] || completion[a] - completion[b])];
}

/** Why the bars of a plan can't be moved, in a sentence; "" where they can. */
export function whyFixed(plan) {
  const problem = readNotation(plan.problem);
  if (plan.jobs.length > MOST_MOVED) return "Bars are moved in plans of fewer than 2,000 jobs.";
  if (plan.isPreempted) return "Jobs of this plan are done in pieces, so bars are not moved.";
  if (problem?.environment === "O") return "Bars of an open shop are not moved.";
  if (hasRoutes(problem) && problem.conditions.includes("nwt")) {
    return "Bars of a job shop without waiting are not moved.";
  }
  if (!isShop(problem)) return "";
  const [all] = rowsOf(plan);
  const isOneOrder = plan.rows.every(([first, end]) => {
    const own = Array.from(plan.order.subarray(first, end), (k) => plan.schedule.job[k] - 1);
    const isHere = new Set(own);
    return all.filter((job) => isHere.has(job)).every((job, k) => job === own[k]);
  });
  return isOneOrder ? ""
    : "The machines of this plan have different orders, so bars are not moved.";
}

/**
 * Where a job is moved to: a machine counted from 1, and the job that it goes before there, or null
 * where it goes last.
 * @typedef {{machine: number, before: ?number}} Target
 */

/** Whether the steps of a job are moved by themselves, each on its own machine. */
export function isByStep(plan) {
  return hasRoutes(readNotation(plan.problem));
}

/** Where a job goes that is dropped at a time on a machine. @returns {Target} */
export function targetAt(plan, job, machine, step) {
  const { schedule, order } = plan;
  const piece = order.subarray(...plan.rows[machine - 1]).find((each) =>
    schedule.job[each] - 1 !== job && schedule.start[each] + schedule.stop[each] > 2 * step);
  return { machine, before: piece === undefined ? null : schedule.job[piece] - 1 };
}

/**
 * Where a job goes by one place or machine, or null where it is the first or last.
 * @param {"left"|"right"|"up"|"down"} way
 * @param {?number} on the machine of the step that is moved, in a job shop
 * @returns {?Target}
 */
export function targetBeside(plan, job, way, on = null) {
  const rows = rowsOf(plan);
  const isStep = isByStep(plan);
  const machine = isStep && on ? on : rows.findIndex((row) => row.includes(job)) + 1;
  if (way === "up" || way === "down") {
    if (isStep) return null;
    const other = machine + (way === "up" ? -1 : 1);
    return rows[other - 1] ? targetAt(plan, job, other, plan.start[job]) : null;
  }
  const row = rows[machine - 1];
  const at = row.indexOf(job) + (way === "left" ? -1 : 2);
  return at < 0 || at > row.length ? null : { machine, before: row[at] ?? null };
}

/**
 * The rows with a job moved, or null where it is there already.
 * @param {boolean} isStep whether the other machines of the job keep their order
 */
export function movedRows(rows, job, { machine, before }, isStep = false) {
  const moved = rows.map((row, k) => isStep && k !== machine - 1 ? row
    : row.filter((each) => each !== job));
  const row = moved[Math.min(machine, rows.length) - 1];
  row.splice(before === null ? row.length : row.indexOf(before), 0, job);
  return moved.join(";") === rows.join(";") ? null : moved;
}

/** Rows with the identities of their jobs in place of the places, as the state has them. */
export function identitiesOf(rows, jobs) {
  return rows.map((row) => row.map((place) => jobs[place].id));
}

/**
 * The rows of identities as places of the jobs of now. Jobs that are gone are left out; new ones
 * come last, on the machine that has the least work.
 * @returns {?number[][]} null where none of the jobs is there, the jobs are too many, or the
 *   machines are others
 */
export function placesOf(own, jobs, machines, problem) {
  if (own.length !== (isShop(problem) ? 1 : machines) || jobs.length > MOST_MOVED) return null;
  const places = new Map(jobs.map(({ id }, place) => [id, place]));
  if (hasRoutes(problem)) return placesOfSteps(own, jobs, places);
  const rows = own.map((row) => row.map((id) => places.get(id))
    .filter((place) => place !== undefined));
  const known = new Set(rows.flat());
  if (known.size === 0) return null;
  const work = rows.map((row) => row.reduce((sum, place) => sum + jobs[place].time, 0));
  jobs.forEach(({ time }, place) => {
    if (known.has(place)) return;
    const machine = work.indexOf(Math.min(...work));
    rows[machine].push(place);
    work[machine] += time;
  });
  return rows;
}

/** The same of a job shop: each machine has the jobs whose routes come to it. */
function placesOfSteps(own, jobs, places) {
  const wanted = own.map(() => new Set());
  jobs.forEach(({ steps }, place) => {
    for (const { machine, time } of steps) if (time > 0) wanted[machine - 1]?.add(place);
  });
  const rows = own.map((row, k) => row.map((id) => places.get(id))
    .filter((place) => place !== undefined && wanted[k].delete(place)));
  if (rows.every((row) => row.length === 0)) return null;
  return rows.map((row, k) => [...row, ...wanted[k]]);
}
