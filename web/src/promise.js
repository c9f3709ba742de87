// What can be promised for a new order, and which order stands in the way of all others: requests
// for dates by bisection, and the reasons in words.

import { lengthText, momentText, readDuration } from "./calendar.js";
import { certificateJobs } from "./certificates.js";
import { lateness } from "./plan.js";
import { classOf, hasRoutes, isShop, needsMachines, readNotation, SOLVED } from "./problems.js";
import { RouteMachines, readRoute } from "./routes.js";

const MOST_NAMED = 6;
// A search takes far longer than an exact method, so it is asked of fewer orders.
const MOST_MOVED = { exact: 300, searched: 12 };
const MOST_JOBS = { exact: 2000, searched: 200 };
const encoder = new TextEncoder();

/** Whether an exact method says how late the jobs of a plan are at least. */
export function isExact(notation) {
  const problem = readNotation(notation);
  return problem !== null && problem.objective === "Lmax" && SOLVED.has(classOf(problem));
}

/**
 * Whether due dates of this problem can be promised: lateness, by an exact method or by plans and
 * their lower bounds.
 * @param {boolean} makesPlans whether the module makes plans without an exact method
 */
export function canPromise(notation, makesPlans = false) {
  const problem = readNotation(notation);
  return isExact(notation) || makesPlans && problem?.objective === "Lmax"
    && ["1", "P", "F", "J"].includes(problem.environment);
}

/**
 * Reads how long an order takes: of a flow shop a length for each machine, of a job shop a route.
 * @returns {{time: number, words: string}|{fault: string}} the time on all machines together, and
 *   the times as the job table has them
 */
export function readWork({ calendar, problem, names }, text) {
  const known = readNotation(problem);
  if (hasRoutes(known)) return readSteps(calendar, names, text);
  const parts = isShop(known) ? text.split(";") : [text];
  if (isShop(known) && parts.length !== 2) {
    return { fault: "Write how long the order takes on both machines, such as 2 h; 3 h." };
  }
  const times = parts.map((part) => readDuration(calendar, part.trim()));
  const wrong = times.find(({ fault }) => fault);
  if (wrong) return wrong;
  return workOf(times.map(({ steps }) => steps), (steps) => steps);
}

function readSteps(calendar, names, text) {
  const route = readRoute(calendar, text);
  if (route.fault) return route;
  const machines = new RouteMachines([], names);
  const unknown = route.steps.find(({ machine }) => machines.numberOf(machine) === null);
  if (unknown) return { fault: `“${unknown.machine}” is no machine of this plan.` };
  return workOf(route.steps.map(({ time }) => time), (time, place) =>
    `${time}@${machines.numberOf(route.steps[place].machine)}`);
}

function workOf(times, wordsOf) {
  const time = times.reduce((sum, each) => sum + each, 0);
  return time === 0 ? { fault: "The new order takes at least one time step." }
    : { time, words: times.map(wordsOf).join() };
}

/** A line of the job table without its due date, which comes last. */
function lineWithoutDue(number, { fields }) {
  return `job ${number} ${fields.replace(/ d=-?\d+/, "")} d=`;
}

function requestOf(plan, kind) {
  const problem = readNotation(plan.problem);
  return { kind, problem: plan.problem, isExact: isExact(plan.problem), format: { kind: "table" },
    machines: needsMachines(problem) ? plan.machines : null };
}

/** A date so late that no job is done after it in any plan that does not wait. */
function latestOf({ jobs, length }) {
  return jobs.reduce((sum, job) => sum + job.time,
    jobs.reduce((most, job) => Math.max(most, job.release), length));
}

function arcsText(arcs) {
  return arcs.map(([from, to]) => `prec ${from + 1} ${to + 1}\n`).join("");
}

/**
 * A request for the earliest due date of a new order. Each other order is due when it is now, or
 * when the plan completes it if that is later; one without a due date may come at any time.
 * @param {object} plan as `makePlan` gives it, of a problem of `canPromise`
 * @param {{time: number, words: string, release: number, after: number[]}} order after these places
 */
export function promiseRequest(plan, order) {
  const { jobs, completion, arcs } = plan;
  const latest = latestOf(plan) + order.release + order.time;
  const lines = jobs.map((job, place) => lineWithoutDue(place + 1, job)
    + `${job.due === null ? latest : Math.max(job.due, completion[place])}\n`);
  const links = [...arcs, ...order.after.map((place) => [place, jobs.length])];
  return {
    ...requestOf(plan, "promise"),
    head: encoder.encode(`table 1\n${lines.join("")}job ${jobs.length + 1} p=${order.words} `
      + `r=${order.release} d=`),
    tail: encoder.encode(`\n${arcsText(links)}`),
    least: order.release + order.time,
    most: Math.max(plan.length, order.release) + order.time,
  };
}

/**
 * A request for the single orders that bring all others in time if they are moved or given away;
 * null where no job is late, or the jobs are too many.
 */
export function reliefRequest(plan) {
  const { jobs, problem } = plan;
  const isLate = jobs.some((_, job) => lateness(plan, job) > 0);
  const kind = isExact(problem) ? "exact" : "searched";
  if (!isLate || jobs.length < 2 || jobs.length > MOST_JOBS[kind]) return null;
  const places = jobs.map((_, place) => place)
    .sort((a, b) => jobs[b].time - jobs[a].time || a - b).slice(0, MOST_MOVED[kind]);
  return { ...requestOf(plan, "relief"), isWhole: places.length === jobs.length,
    orders: places.map((place) => reliefOf(plan, place)) };
}

/** The tables of a plan without one of its orders, and with another date of it. */
function reliefOf(plan, place) {
  const { jobs, arcs } = plan;
  const latest = latestOf(plan);
  const dueOf = (job) => job.due ?? latest;
  const lines = jobs.map((job, k) => `${lineWithoutDue(k + 1, job)}${dueOf(job)}\n`);
  const others = jobs.filter((_, k) => k !== place);
  const head = [...lines.slice(0, place), lineWithoutDue(place + 1, jobs[place])];
  const tail = `\n${lines.slice(place + 1).join("")}${arcsText(arcs)}`;
  return { place,
    without: encoder.encode(`table 1\n${others.map((job, k) =>
      `${lineWithoutDue(k + 1, job)}${dueOf(job)}\n`).join("")}${
      arcsText(arcsWithout(arcs, place))}`),
    moved: { head: encoder.encode(`table 1\n${head.join("")}`), tail: encoder.encode(tail),
      least: jobs[place].release + jobs[place].time, most: latest } };
}

/** The arcs of all other jobs: what came before the job comes before what came after it. */
function arcsWithout(arcs, place) {
  const before = arcs.filter(([, to]) => to === place).map(([from]) => from);
  const after = arcs.filter(([from]) => from === place).map(([, to]) => to);
  const through = before.flatMap((from) => after.map((to) => [from, to]));
  const numbered = (job) => job > place ? job - 1 : job;
  return [...arcs.filter((arc) => !arc.includes(place)), ...through]
    .map((arc) => arc.map(numbered));
}

/**
 * Why a due date one step earlier makes an order late, in a sentence.
 * @param {object} plan
 * @param {{name: string, time: number, release: number}} order
 * @param {{due: number, certificate: ?string, value: string}} found by the module
 */
export function promiseReason(plan, order, { certificate, value }) {
  const { calendar } = plan;
  if (certificate === null) {
    return `It takes ${lengthText(calendar, order.time)}, and is not done earlier even if nothing `
      + "is before it.";
  }
  const all = [...plan.jobs, order];
  const jobs = certificateJobs(certificate, all.length).sort((a, b) => b - a)
    .map((number) => all[number - 1]);
  if (!isExact(plan.problem)) {
    return "Then, of any plan, some order is at least "
      + `${lengthText(calendar, Number(value))} late${jobs.length === 0 ? ""
        : `, by the work of ${namesOf(jobs)}`}.`;
  }
  const time = jobs.reduce((sum, job) => sum + job.time, 0);
  const isWindow = certificate.startsWith("window");
  const begin = isWindow ? jobs.reduce((least, job) => Math.min(least, job.release), Infinity) : 0;
  const due = begin + time - Number(value);
  const verb = jobs.length === 1 ? "is" : "are";
  return `${namesOf(jobs)} ${verb} ${lengthText(calendar, time)} of work, which `
    + `can't begin before ${momentText(calendar, begin, false)}, so the last of it is done `
    + `${momentText(calendar, begin + time, true)}; but what comes last has to be done by `
    + `${momentText(calendar, due, true)}.`;
}

function namesOf(jobs) {
  const rest = jobs.length - MOST_NAMED;
  return jobs.slice(0, MOST_NAMED).map((job) => `“${job.name}”`).join(", ")
    + (rest > 0 ? ` and ${rest} more` : "");
}
