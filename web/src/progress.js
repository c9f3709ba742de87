// Orders that are done or begun: what is left of them, and a plan that starts from now.

import {
  isDated, isoDay, lengthText, momentField, momentNow, readDuration, readMoment, stepNow,
} from "./calendar.js";
import { plainLetters } from "./lengths.js";
import { identitiesOf, rowsOf, whyFixed } from "./moving.js";

const LONGEST = 120;
const DONE = new Set(("done x ok yes ja oui si fertig erledigt fini termine hecho terminado fatto "
  + "finito completed complete finished ✓ ✔").split(" "));
const FIXED = /^(?:fix(?:ed|e|iert)?|fest|fijo|fisso)(?: |$)/;

/**
 * Reads what is left to do of a job: a length of time, a share such as 50 %, or “done”; of a shop
 * one for each machine, with a semicolon between, in the order of a route.
 * @param {?object} calendar
 * @param {string} text that is not empty
 * @param {number[]} times of the whole job in time steps, one or in a shop one for each machine
 * @returns {{times: number[], note: ?string}|{fault: string}} the times that are left; all are 0
 *   where the job is done
 */
export function readLeft(calendar, text, times) {
  if (text.length > LONGEST) return { fault: "This is too long to be what is left to do." };
  if (DONE.has(plainLetters(text))) return { times: times.map(() => 0), note: null };
  if (FIXED.test(plainLetters(text))) {
    return { fault: "No problem here keeps an order at a fixed time. Write when it can start under "
      + "“Released” and when it has to be done under “Due”; what is begun is written here." };
  }
  const parts = text.split(";").map((part) => part.trim());
  if (parts.length !== times.length) {
    return { fault: times.length === 1
      ? `“${text}” is not what is left to do: write 2 h, 50 % or done.`
      : `Write what is left on ${times.length === 2 ? "both machines, such as 0; 2 h,"
        : `each of the ${times.length} machines of the route, such as ${[...times.slice(2)
          .map(() => "0"), "1", "2"].slice(0, 9).join("; ")},`} or done.` };
  }
  const found = parts.map((part, place) => partLeft(calendar, part, times[place]));
  const wrong = found.find(({ fault }) => fault);
  if (wrong) return wrong;
  const isMore = found.some(({ steps }, place) => steps > times[place]);
  return { times: found.map(({ steps }) => steps),
    note: isMore ? "More is left than the whole processing time: it counts as it is written."
      : null };
}

function partLeft(calendar, text, time) {
  const share = /^(\d{1,3}(?:[.,]\d+)?)\s*%$/.exec(text);
  if (!share) return readDuration(calendar, text);
  const percent = Number(share[1].replace(",", "."));
  return percent > 100 ? { fault: `“${text}” is more than the whole.` }
    : { steps: Math.ceil(time * percent / 100) };
}

/**
 * What becomes of a state when its plan is made from now on: it starts now, dates that were counted
 * from its start are written out, and what the plan shown had done by now is filled in.
 * @param {import("./state.js").State} state
 * @param {object} calendar of the state
 * @param {?object} plan that is shown
 * @param {Date} now
 * @returns {{patch: object, done: string[], begun: string[]}} names of what was filled in
 */
export function fromNow(state, calendar, plan, now) {
  const step = stepNow(calendar, now);
  const filled = plan && step > 0 ? leftAt(plan, Math.ceil(step)) : new Map();
  const done = [];
  const begun = [];
  const patch = startingNow(state, calendar, now);
  patch.rows = patch.rows.map((row) => {
    const left = filled.get(row.id);
    if (!left || row.left.trim() !== "") return row;
    (left === "done" ? done : begun).push(row.name);
    return { ...row, left };
  });
  return { patch, done, begun };
}

/** The rows and the settings of a plan that starts now, with dates that are written out. */
function startingNow(state, calendar, now) {
  const rows = state.rows.map((row) => {
    const [due, release] = ["due", "release"].map((field) => dateOf(calendar, field, row[field]));
    return due === row.due && release === row.release ? row : { ...row, due, release };
  });
  const { day, clock } = momentNow(calendar, now);
  const two = (number) => String(number).padStart(2, "0");
  return { rows, settings: { ...state.settings, start: isoDay(day),
    startTime: `${two(Math.floor(clock / 60))}:${two(clock % 60)}` } };
}

/**
 * What becomes of a state when a job of its plan is ticked off: once the plan has begun, the rest
 * goes on from now, in the order that it has. Plain numbers have no clock: there the plan says what
 * time it is when the job is done.
 * @param {import("./state.js").State} state
 * @param {?object} calendar of the state
 * @param {object} plan that is shown
 * @param {number} job
 * @param {?number} piece of the job that alone is done; null for the whole job
 * @param {Date} now
 * @returns {object} the parts that change
 */
export function tickedOff(state, calendar, plan, job, piece, now) {
  const patch = !isDated(calendar) ? startingAfter(state, calendar, plan, job, piece)
    : stepNow(calendar, now) > 0 ? startingNow(state, calendar, now) : { rows: state.rows };
  const { id } = plan.jobs[job];
  const left = piece === null ? "done" : leftBeside(plan, job, piece);
  patch.rows = patch.rows.map((row) => row.id === id ? { ...row, left } : row);
  const own = whyFixed(plan) === "" ? identitiesOf(rowsOf(plan), plan.jobs) : null;
  return { ...patch, own };
}

/**
 * The rows and the settings of a plan in plain numbers that starts when what was ticked is done. Of
 * other work that is under way by then, the rest is left.
 */
function startingAfter(state, calendar, plan, job, piece) {
  const step = stepDone(plan, job, piece);
  const filled = leftAt(plan, step);
  const rows = state.rows.map((row) => {
    const left = filled.get(row.id) ?? "done";
    return left === "done" ? row : { ...row, left };
  });
  return { rows, settings: { ...state.settings, start: momentField(calendar, step, true) } };
}

/**
 * When a job, or the piece of it that is ticked, is done: as the plan has it, or after as long as
 * it takes where it was done before a job that the plan completes first.
 */
function stepDone({ schedule, completion }, job, piece) {
  const { machine, start, stop } = schedule;
  const pieces = [...schedule.job.keys()];
  const ticked = pieces.filter((each) =>
    piece === null ? schedule.job[each] === job + 1 : each === piece);
  const isBefore = (other, each) => schedule.job[other] !== job + 1
    && machine[other] === machine[each] && completion[schedule.job[other] - 1] <= start[each];
  return ticked.some((each) => pieces.some((other) => isBefore(other, each)))
    ? ticked.reduce((sum, each) => sum + stop[each] - start[each], 0)
    : ticked.reduce((most, each) => Math.max(most, stop[each]), 0);
}

/** A job that was ticked off is not done after all. */
export function unticked(state, id) {
  return { rows: state.rows.map((row) => row.id === id ? { ...row, left: "" } : row) };
}

/** What is left of a job without one of its pieces: “done”, or a length for each machine. */
function leftBeside({ jobs, schedule, calendar }, job, piece) {
  const left = partsOf(jobs[job]);
  schedule.job.forEach((number, each) => {
    if (number !== job + 1 || each === piece) return;
    left[partOn(jobs[job], schedule.machine[each])] += schedule.stop[each] - schedule.start[each];
  });
  return left.every((each) => each === 0) ? "done"
    : left.map((each) => lengthText(calendar, each)).join("; ");
}

/** A time of 0 for each part of a job: one, or in a shop one for each of its machines. */
function partsOf({ parts }) {
  return (parts ?? [null]).map(() => 0);
}

/** The part of a job that is done on a machine. */
function partOn({ parts }, machine) {
  return parts ? parts.indexOf(machine) : 0;
}

/** A date that is counted from the start, written out; every other text as it is. */
function dateOf(calendar, field, text) {
  if (text.trim() === "") return text;
  const { steps, fault, date } = readMoment(calendar, text.trim(), field === "due");
  return fault || date ? text : momentField(calendar, steps, field === "due");
}

/** By the identity of a row what is left of its job at a step: “done”, or a length of time. */
function leftAt(plan, step) {
  const { jobs, schedule, calendar } = plan;
  const left = jobs.map(partsOf);
  const isTouched = jobs.map(() => false);
  schedule.job.forEach((number, piece) => {
    const [start, stop] = [schedule.start[piece], schedule.stop[piece]];
    if (start < step) isTouched[number - 1] = true;
    left[number - 1][partOn(jobs[number - 1], schedule.machine[piece])]
      += Math.max(0, stop - Math.max(start, step));
  });
  const text = (steps) => lengthText(calendar, steps);
  return new Map(jobs.flatMap((job, place) => !isTouched[place] ? [] : [[job.id,
    left[place].every((each) => each === 0) ? "done" : left[place].map(text).join("; ")]]));
}
