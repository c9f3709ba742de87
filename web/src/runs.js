// What the page asks of the module: runs of its commands one after another, and what they print.

import { readAnswer, readBound, readEvaluation } from "./answer.js";

const LARGEST_PICTURE = 5e6;
// The statuses of `plan`: the value is equal to the bound, or it is not.
const OPTIMAL = 0;
const WITHIN_GAP = 6;

/**
 * Solves, and evaluates what was solved for the arithmetic of the certificate.
 * @param {{run: function(object): object, can: function(string): boolean}} solver as `loadSolver`
 *   gives it
 * @param {object} request
 */
export function plan(solver, request) {
  const { status, errors, output } = solver.run({ ...request, command: "report",
    answerVersion: 2, certificate: true });
  if (status !== 0) return { status, errors };
  const answer = output.slice(0, endOfAnswer(output));
  const schedule = readAnswer(answer);
  return { status, errors, answer, schedule,
    evaluation: readEvaluation(output.subarray(answer.length), schedule.jobs) };
}

/** Where the first text ends, which is over with its first line `end`. */
function endOfAnswer(output) {
  const end = [..."\nend\n"].map((letter) => letter.charCodeAt(0));
  let at = output.indexOf(end[0]);
  while (at >= 0 && !end.every((byte, k) => output[at + k] === byte)) {
    at = output.indexOf(end[0], at + 1);
  }
  return at + end.length;
}

/**
 * Checks and evaluates anybody's answer to a problem of `request.jobs` jobs, and draws it if
 * `request.isDrawn`, or else reads its schedule.
 */
export function judge(solver, request) {
  const checked = solver.run({ ...request, command: "check" });
  const evaluated = solver.run({ ...request, command: "evaluate", certificate: true });
  const drawn = request.isDrawn ? solver.run({ ...request, command: "picture" }) : null;
  return {
    status: checked.status, errors: checked.errors,
    verdict: new TextDecoder().decode(checked.output).trim(),
    evaluation: evaluated.output.length > 0
      ? readEvaluation(evaluated.output, request.jobs) : null,
    evaluated: { status: evaluated.status, errors: evaluated.errors },
    picture: drawn?.status === 0 && drawn.output.length < LARGEST_PICTURE ? drawn.output : null,
    schedule: drawn ? null : readAnswer(request.answer),
  };
}

/** Searches for a lower bound. */
export function bound(solver, request) {
  const { status, errors, output } = solver.run({ ...request, command: "bound", steps: null });
  return status === 0 ? { status, errors, bound: readBound(output) } : { status, errors };
}

/**
 * Searches for a good plan where no exact method is, and for a bound of how far it is from the
 * optimum. A module that makes no such plans, or none for this problem, gives the bound alone.
 */
export function search(solver, request) {
  if (!solver.can("plan")) return bound(solver, request);
  const { status, errors, output } = solver.run({ ...request, command: "plan", answerVersion: 2 });
  if (status !== OPTIMAL && status !== WITHIN_GAP) {
    return /refused: NoSolver/.test(errors) ? bound(solver, request) : { status, errors };
  }
  return { status: 0, errors, answer: output, schedule: readAnswer(output),
    isOptimal: status === OPTIMAL };
}

/** Runs one command as it is: `picture` or `problems`. */
export function plain(solver, request) {
  const { status, errors, output } = solver.run({ ...request, command: request.kind });
  return { status, errors, output };
}

/** The job table of a request with this due date in it. */
function instanceWith({ head, tail }, due) {
  const digits = new TextEncoder().encode(String(due));
  const instance = new Uint8Array(head.length + digits.length + tail.length);
  instance.set(head);
  instance.set(digits, head.length);
  instance.set(tail, head.length + digits.length);
  return instance;
}

/** The lateness of a good plan, and what no plan falls below: the same by an exact method. */
function latenessOf(solver, request, instance) {
  const { status, errors, output } = solver.run({ ...request, answerVersion: 2, instance,
    command: request.isExact ? "solve" : "plan" });
  if (status !== OPTIMAL && (request.isExact || status !== WITHIN_GAP)) return { status, errors };
  const { value, certificate, bound } = readAnswer(output);
  return { status: 0, errors, value: Number(value),
    bound: request.isExact ? { value, certificate } : bound };
}

/**
 * The earliest due date with which no job is late, by bisection: `request.least` and `most` are the
 * first date that can be meant and one that is late enough.
 * @returns {{status: number, errors: string, due?: number, past?: number, certificate?: ?string,
 *   value?: string}} with no date up to `past` are all in time, by the certificate and its value;
 *   they are none where that is below `least`. By an exact method `due` is the date after it
 */
export function promise(solver, request) {
  const found = { status: 0, errors: "", due: request.most, past: request.least - 1,
    certificate: null, value: "0" };
  const tryAt = (due) => {
    const { status, errors, value, bound } = latenessOf(solver, request,
      instanceWith(request, due));
    if (status !== 0) return Object.assign(found, { status, errors });
    if (value <= 0) found.due = Math.min(found.due, due);
    if (Number(bound?.value) > 0 && due > found.past) {
      Object.assign(found, { past: due, certificate: bound.certificate, value: bound.value });
    }
    return { isFound: value <= 0, isPast: due <= found.past };
  };
  bisect(found.past, found.due, (due) => found.status !== 0 || tryAt(due).isFound);
  bisect(found.past, found.due, (due) => found.status !== 0 || !tryAt(due).isPast);
  return found.status === 0 ? found : { status: found.status, errors: found.errors };
}

/** Looks for the least number above `low` and up to `high` for which something holds. */
function bisect(low, high, holds) {
  while (high - low > 1) {
    const middle = low + Math.floor((high - low) / 2);
    if (holds(middle)) high = middle;
    else low = middle;
  }
}

/**
 * Which single order, with a later date or given away, brings all others in time.
 * @param {object} request `orders`, each with its `place`, the table `without` it and a request of
 *   its date as `promise` has it
 * @returns {{status: number, errors: string, found: {place: number, due: ?number}[]}} no date where
 *   the order has to be given away
 */
export function relief(solver, request) {
  const found = [];
  for (const { place, without, moved } of request.orders) {
    const away = without && latenessOf(solver, request, without);
    if (away && away.status !== 0) return { status: away.status, errors: away.errors, found };
    if (away && away.value > 0) continue;
    const late = latenessOf(solver, request, instanceWith(moved, moved.most));
    const isMovable = late.status === 0 && late.value <= 0;
    found.push({ place, due: isMovable ? promise(solver, { ...request, ...moved }).due : null });
  }
  return { status: 0, errors: "", found };
}
