// A plan: the schedule that the module made, by job and by machine, with what the page adds to it.

import { isDated, minutesSince, momentField } from "./calendar.js";
import { release } from "./memory.js";

/** How many letters of colours the chart has; neighbours on a machine never share one. */
export const COLOURS = 8;
const LONGEST_PREFIX = 100;

/**
 * Makes a plan.
 * @param {object} table as `makeTable` gives it
 * @param {import("./answer.js").Schedule} schedule
 * @param {?object} evaluation as `readEvaluation` gives it, of the same schedule; without one, the
 *   pieces say when a job starts and is completed
 * @param {?object} calendar
 * @param {string[]} names of the machines
 */
export function makePlan(table, schedule, evaluation, calendar, names) {
  const count = table.jobs.length;
  const { start, completion } = evaluation ?? timesOf(schedule, count);
  const { length, work } = extentOf(schedule);
  const order = sortedPieces(schedule);
  const pieces = new Uint32Array(count);
  const machine = new Uint32Array(count);
  for (const place of order) {
    const job = schedule.job[place] - 1;
    if (!(job >= 0 && job < count)) continue;
    if (pieces[job]++ === 0) machine[job] = schedule.machine[place];
  }
  return {
    jobs: table.jobs, done: table.done, index: table.index, arcs: table.arcs, calendar,
    schedule, order, pieces, machine,
    machines: schedule.machines, names, prefix: commonPrefix(table.jobs),
    rows: machineRows(schedule, order),
    colour: colourJobs(schedule, order, count),
    start, completion, counts: evaluation?.counts ?? null,
    usesRelease: /\|.*\br_?j\b.*\|/.test(schedule.problem),
    hasIdle: work < schedule.machines * length,
    isPreempted: !/^\s*[FOJ]/.test(schedule.problem) && pieces.some((each) => each > 1),
    length, value: schedule.value, problem: schedule.problem, bound: schedule.bound,
    isOptimal: true,
    gap: schedule.bound ? String(BigInt(schedule.value) - BigInt(schedule.bound.value)) : undefined,
  };
}

/**
 * The plan with the smaller value, with the greater of both bounds.
 * @param {{plan: object}} one what is shown of a plan @param {{plan: object}} other
 */
export function betterOf(one, other) {
  const isLess = BigInt(other.plan.value) < BigInt(one.plan.value);
  const { plan, ...rest } = isLess ? other : one;
  const bounds = [one.plan.bound, other.plan.bound].filter(Boolean);
  const bound = bounds.reduce((most, each) =>
    BigInt(each.value) > BigInt(most.value) ? each : most, bounds[0]) ?? null;
  const gap = bound ? String(BigInt(plan.value) - BigInt(bound.value)) : undefined;
  const isOptimal = one.plan.isOptimal || other.plan.isOptimal || gap === "0";
  return { ...rest, plan: { ...plan, bound, gap, isOptimal } };
}

/** The words that the names of all jobs begin with, such as “Order ”; "" where they have none. */
function commonPrefix(jobs) {
  if (jobs.length < 3) return "";
  let prefix = jobs[0].name.slice(0, LONGEST_PREFIX);
  for (const { name } of jobs) {
    while (!name.startsWith(prefix)) prefix = prefix.slice(0, -1);
    if (prefix === "") return "";
  }
  return prefix.replace(/[\p{L}\p{N}]*$/u, "");
}

/** How long a schedule takes, and how long all its pieces together. */
function extentOf({ start, stop }) {
  let length = 0;
  let work = 0;
  for (let piece = 0; piece < stop.length; piece++) {
    length = Math.max(length, stop[piece]);
    work += stop[piece] - start[piece];
  }
  return { length, work };
}

/** For each job the first start and the last stop of its pieces; 0 where it has none. */
function timesOf({ job, start, stop }, count) {
  const found = { start: new Float64Array(count).fill(Infinity),
    completion: new Float64Array(count) };
  for (let piece = 0; piece < job.length; piece++) {
    const place = job[piece] - 1;
    if (!(place >= 0 && place < count)) continue;
    found.start[place] = Math.min(found.start[place], start[piece]);
    found.completion[place] = Math.max(found.completion[place], stop[piece]);
  }
  for (let place = 0; place < count; place++) {
    if (found.start[place] === Infinity) found.start[place] = 0;
  }
  return found;
}

/** The places of the pieces by machine and start. */
function sortedPieces({ machine, start }) {
  const order = new Uint32Array(machine.length);
  for (let place = 0; place < order.length; place++) order[place] = place;
  const isSorted = order.every((place) => place === 0 || machine[place - 1] < machine[place]
    || machine[place - 1] === machine[place] && start[place - 1] <= start[place]);
  return isSorted ? order
    : order.sort((a, b) => machine[a] - machine[b] || start[a] - start[b]);
}

/** For each machine from 1 the first and the last place of its pieces in the order. */
function machineRows({ machine, machines }, order) {
  const rows = Array.from({ length: machines }, () => [0, 0]);
  for (let k = 0; k < order.length; k++) {
    const row = rows[machine[order[k]] - 1];
    if (!row) continue;
    if (row[1] === 0) row[0] = k;
    row[1] = k + 1;
  }
  return rows;
}

/** A colour for each job that none of its neighbours on a machine has, where there are enough. */
function colourJobs({ job, machine }, order, count) {
  const colour = new Uint8Array(count);
  const isColoured = new Uint8Array(count);
  const neighbours = neighbourLists({ job, machine }, order, count);
  let next = 0;
  for (const place of order) {
    const own = job[place] - 1;
    if (!(own >= 0 && own < count) || isColoured[own]) continue;
    let taken = 0;
    for (let k = neighbours.first[own]; k >= 0; k = neighbours.next[k]) {
      if (isColoured[neighbours.job[k]]) taken |= 1 << colour[neighbours.job[k]];
    }
    for (let tried = 0; taken >> next & 1 && tried < COLOURS; tried++) next = (next + 1) % COLOURS;
    colour[own] = next;
    isColoured[own] = 1;
    next = (next + 1) % COLOURS;
  }
  release(neighbours);
  return colour;
}

/** For each job a list of the jobs beside it: its first entry, and from each entry the next. */
function neighbourLists({ job, machine }, order, count) {
  const first = new Int32Array(count).fill(-1);
  const next = new Int32Array(2 * order.length);
  const other = new Int32Array(2 * order.length);
  let entries = 0;
  const add = (one, two) => {
    other[entries] = two;
    next[entries] = first[one];
    first[one] = entries++;
  };
  for (let k = 1; k < order.length; k++) {
    const a = job[order[k - 1]] - 1;
    const b = job[order[k]] - 1;
    const isBeside = machine[order[k - 1]] === machine[order[k]] && a !== b;
    if (!isBeside || !(a >= 0 && a < count && b >= 0 && b < count)) continue;
    add(a, b);
    add(b, a);
  }
  return { first, next, job: other };
}

/** How late a job is in time steps, negative where it is early, and null without a due date. */
export function lateness(plan, job) {
  const due = plan.jobs[job].due;
  return due === null ? null : plan.completion[job] - due;
}

/**
 * What the plan comes to by the usual measures. The page computes them from the schedule.
 * @returns {{words: string, steps: ?number, number: ?string}[]} a length of time or a number
 */
export function measures(plan) {
  const { jobs, completion } = plan;
  const dated = { jobs: 0, tardy: 0, most: -Infinity, total: 0 };
  jobs.forEach((_, job) => {
    const late = lateness(plan, job);
    if (late === null) return;
    dated.jobs++;
    dated.most = Math.max(dated.most, late);
    if (late <= 0) return;
    dated.tardy++;
    dated.total += late;
  });
  const found = [{ words: "Makespan", steps: plan.length }];
  if (dated.jobs > 0) {
    found.push(
      { words: "Late jobs", number: `${dated.tardy} of ${dated.jobs}` },
      { words: "Maximum lateness", steps: dated.most },
      { words: "Total tardiness", steps: dated.total },
    );
  }
  const sum = completion.reduce((total, each) => total + each, 0);
  found.push({ words: "Mean completion time", steps: Math.round(sum / Math.max(1, jobs.length)) });
  return found.filter((each) => !(Math.abs(each.steps) > Number.MAX_SAFE_INTEGER));
}

/** What is remembered of a plan that is kept, to compare later ones with. */
export function keepPlan(plan) {
  const { calendar } = plan;
  return {
    problem: plan.problem, value: plan.value,
    ids: plan.jobs.map((job) => job.id), names: plan.jobs.map((job) => job.name),
    start: [...plan.start], completion: [...plan.completion],
    begin: momentField(calendar, 0, false), step: calendar?.stepMinutes ?? 0,
  };
}

/**
 * Compares a plan with one that was kept.
 * @returns {{moved: Map<number, number>, added: number[], done: string[], gone: string[]}} by job:
 *   by how many steps it is completed later, jobs that are new, and names of those that are done or
 *   no longer there
 */
export function comparePlans(kept, plan) {
  const before = new Map(kept.ids.map((id, place) => [id, place]));
  const moved = new Map();
  const added = [];
  const stepOf = stepsOfKept(kept, plan.calendar);
  plan.jobs.forEach((job, place) => {
    const old = before.get(job.id);
    before.delete(job.id);
    if (old === undefined) {
      added.push(place);
      return;
    }
    const by = plan.completion[place] - stepOf(kept.completion[old]);
    const isOther = stepOf(kept.start[old]) !== plan.start[place] && !job.isBegun;
    if (by !== 0 || isOther) moved.set(place, by);
  });
  const isDone = new Set((plan.done ?? []).map((job) => job.id));
  const names = (holds) => [...before].filter(([id]) => isDone.has(id) === holds)
    .map(([, place]) => kept.names[place]);
  return { moved, added, done: names(true), gone: names(false) };
}

/** Turns steps of a kept plan into those of a calendar that may start later or step otherwise. */
function stepsOfKept({ begin, step }, calendar) {
  if (!isDated(calendar)) {
    const by = !step && /^\d+$/.test(begin) ? Number(momentField(calendar, 0, false)) - begin : 0;
    return (each) => each - by;
  }
  if (!begin || !step) return (each) => each;
  const passed = minutesSince(calendar, begin);
  return (each) => (each * step - passed) / calendar.stepMinutes;
}
