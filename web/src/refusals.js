// What the module's refusals and rejections mean, in sentences, and where they belong on the page.

import { momentText } from "./calendar.js";
import { placeOfLine } from "./table.js";

const MOST_NAMED = 1000;
const FIELD_NEEDED = {
  release: "a release date", due: "a due date", weight: "a weight", cost: "a cost function",
};

/**
 * Where a refusal belongs: at "problem", "machines", at a "row" and perhaps a field, at the
 * "answer", or at no place but the "page".
 * @typedef {{place: string, message: string, row?: ?number, field?: ?string, code: string}} Refusal
 */

/**
 * Explains what the module printed where it did not solve.
 * @param {{status: number, errors: string}} reply
 * @param {object} table as `makeTable` gives it
 * @param {string} problem the notation
 * @returns {Refusal[]} the first is the refusal, the others further rows that it names
 */
export function explainRefusal(reply, table, problem) {
  const line = reply.errors.trim().split("\n")[0];
  const [, isAnswer, code, rest] = /refused: (answer )?(\w+) ?(.*)$/.exec(line) ?? [];
  const words = rest ? rest.split(" ") : [];
  if (isAnswer) return [{ place: "answer", code, ...explainAnswer(code, words) }];
  const at = REFUSALS[code];
  if (at) return [at(words, table, problem)].flat().map((each) => ({ code, ...each }));
  const message = reply.status === 3 ? "There is not enough memory for this table in this browser."
    : `The solver ended with: ${line || `status ${reply.status}`}.`;
  return [{ place: "page", code: code ?? "", message }];
}

const atRow = (job, table, field, message) =>
  ({ place: "row", row: table.jobs[job - 1]?.row ?? null, field, message });

const atLine = (message) => ([line], table) =>
  ({ place: "row", ...placeOfLine(table, Number(line)), message });

const at = (place, message) => () => ({ place, message });

const REFUSALS = {
  NotationFault: ([byte], _, problem) =>
    ({ place: "problem", message: notationFault(byte, problem) }),
  NoSolver: (_, __, problem) =>
    ({ place: "problem", message: `No method here solves ${problem} exactly.` }),
  BadLine: atLine("The solver can't read this row."),
  BadNumber: atLine("A number of this row is not a whole number."),
  NumberTooLarge: atLine("A number of this row is above 4·10^18. Take a longer time step."),
  Negative: atLine("Processing times, weights and release dates are at least 0."),
  BadCost: atLine("The times of a cost function have to rise, and its values must not fall."),
  BadArc: atLine("This precedence constraint names a job that isn't there."),
  EndsEarly: at("page", "There are no jobs yet."),
  NoJobs: at("page", "There are no jobs yet."),
  TooManyJobs: at("page", "There are too many jobs: at most 100,000 are solved, and at most 2,000 "
    + "where each job has a cost function."),
  TooManyArcs: at("page", "There are more than 200,000 precedence constraints."),
  TooLong: at("page", "The table is longer than 64 MB."),
  MachinesMissing: at("machines", "Say how many machines there are."),
  MachinesDisagree: at("machines", "The notation and this field give two numbers of machines."),
  MachineCount: ([count]) =>
    ({ place: "machines", message: `A shop has two machines here, and not ${count}.` }),
  WrongTimes: ([job], table, problem) => /^\s*J/.test(problem)
    ? atRow(job, table, "route", `A machine of this route is beyond the number of machines of `
      + `${problem}: write J, or change the route.`)
    : /^\s*[FO]/.test(problem)
      ? atRow(job, table, "time2", "In a shop a job has two processing times.")
      : atRow(job, table, "time", "Outside a shop a job has one processing time."),
  MissingField: ([job, word], table, problem) => everyJob(table, job, (each) => lacks(each, word),
    word, `${problem} needs ${FIELD_NEEDED[word]} for each job; this one has none.`),
  ZeroTime: ([job], table) => everyJob(table, job, (each) => each.time === 0, "time",
    "A job takes at least one time step. Write a longer time, or delete the row."),
  TotalTooLarge: at("page", "The numbers together are too large: above 4·10^18. Take a longer time "
    + "step or smaller weights."),
  Cycle: (words, table) => cycle(words.map(Number), table),
};

function lacks(job, word) {
  return { release: !job.hasRelease, due: job.due === null, weight: job.weight === null,
    cost: !job.hasCost }[word];
}

/** The job that the module names, and all others of which the same is true. */
function everyJob(table, first, isTrue, field, message) {
  const others = table.jobs.filter((job) => isTrue(job) && job.number !== Number(first));
  return [atRow(first, table, field, message),
    ...others.slice(0, MOST_NAMED).map((job) => atRow(job.number, table, field, message))];
}

function notationFault(byte, problem) {
  const rest = new TextDecoder().decode(new TextEncoder().encode(problem).subarray(Number(byte)));
  const where = rest.trim() === "" ? "The notation ends too early."
    : `The notation is not understood from “${rest.trim()}” on.`;
  const hint = HINTS.find(([pattern]) => pattern.test(problem));
  return `${where} ${hint ? hint[1] : "Write it as machines | conditions | objective, such as "
    + "1|prec|Lmax; upper and lower case differ."}`;
}

const HINTS = [
  [/w_?j?[LT]_?max/i, "A weighted lateness is a cost function: write hmax, and fill the column "
    + "“Cost function”."],
  [/T_?max/i, "The maximum tardiness is the maximum lateness where that is above 0: write Lmax."],
  [/\/\//, "Fields are divided by | and not by /."],
  [/Σ|∑|\\sum/, "A sum is written sumC, sumwC, sumT, sumwT, sumU or sumwU."],
  [/p_?j ?=|d_?j|s_?jk|tree|chains/i, "The conditions that are known are rj, prec, prmp, prmu, "
    + "nwt, block and rcrc."],
];

function cycle(jobs, table) {
  const names = jobs.map((job) => `“${table.jobs[job - 1].name}”`);
  const shown = names.length > 6 ? [...names.slice(0, 6), ".."] : names;
  const chain = [...shown, names[0]].join(" before ");
  const message = `These precedence constraints form a cycle: ${chain}. Remove one of them.`;
  return jobs.slice(0, 20).map((job) => atRow(job, table, "after", message));
}

function explainAnswer(code, words) {
  const line = words.length > 0 ? Number(words[0]) : null;
  const messages = {
    TooLong: "The answer text is longer than 64 MB.",
    BadLine: `Line ${line} of the answer text is not what is expected there. The lines are `
      + "“answer 2”, “problem ..”, “jobs N”, “machines M”, “value V”, for each piece “piece JOB "
      + "MACHINE START STOP”, “cert ..” and “end”. If you don't know the value or the "
      + "certificate, write “value 0” and “cert load”.",
    NumberTooLarge: `A number in line ${line} of the answer text is too large.`,
    BadNotation: "The line “problem” of the answer text is not in three-field notation.",
    EndsEarly: "The answer text ends early: its last line is “end”.",
    OutOfRange: `Piece ${line} starts before 0 or stops above 4·10^18.`,
    EmptyPiece: `Piece ${line} does not stop after its start.`,
    MachineTwice: `Two pieces are on machine ${line} at time ${words[1]}.`,
  };
  const other = `The answer text is refused: ${[code, ...words].join(" ")}.`;
  return { message: messages[code] ?? other, line };
}

/**
 * Explains why a schedule is rejected or does not fit.
 * @param {string} reason as the module names it, such as "WrongAmount 3"
 * @param {object} table
 * @param {?object} calendar
 */
export function explainReason(reason, table, calendar) {
  const [code, first, second] = reason.split(" ");
  const job = (number) => {
    const found = table.jobs[Number(number) - 1];
    return found ? `“${found.name}”` : `job ${number}`;
  };
  const time = (step) => momentText(calendar, Number(step), false);
  const explain = REASONS[code];
  return explain ? explain(first, second, job, time) : `The schedule is rejected: ${reason}.`;
}

const certificateAtFault = () => "The certificate is at fault, so it shows nothing.";

const REASONS = {
  OtherTask: () => "The schedule is for another problem, or for other numbers of jobs or machines.",
  OutOfRange: (piece) => `Piece ${piece} starts before 0 or stops above 4·10^18.`,
  EmptyPiece: (piece) => `Piece ${piece} does not stop after its start.`,
  MachineTwice: (machine, step, _, time) =>
    `Two pieces are on machine ${machine} at the same time (${time(step)}).`,
  Stranger: (number, machine, job) =>
    `There is a piece of ${job(number)} on machine ${machine}: that job or machine isn't there.`,
  JobTwice: (number, step, job, time) =>
    `${job(number)} is on two machines at the same time (${time(step)}).`,
  WrongAmount: (number, _, job) =>
    `The pieces of ${job(number)} do not add up to its processing time.`,
  Broken: (number, _, job) =>
    `${job(number)} is interrupted, and the problem does not allow preemption.`,
  TooEarly: (number, _, job) => `${job(number)} starts before its release date.`,
  OutOfOrder: (one, other, job) => one === other
    ? `${job(one)} starts on machine 2 before it is completed on machine 1.`
    : `${job(other)} starts before ${job(one)} is completed.`,
  OffRoute: (number, _, job) =>
    `${job(number)} is on a machine before it is completed on an earlier one of its route.`,
  NoOneOrder: () => "No order of the jobs is the same on all machines, as the problem wants it.",
  Waits: (number, _, job) =>
    `${job(number)} waits between two machines, which the problem does not allow.`,
  WrongValue: () => "The schedule fits, but its value is not what the line “value” claims.",
  BoundBelowValue: () => "The schedule fits and has the value that it claims, but its certificate "
    + "does not show that no schedule is better.",
  OtherKind: () => "The certificate is not of a kind that this problem has.",
  BadMachine: certificateAtFault, BadJob: certificateAtFault, Repeated: certificateAtFault,
  EmptySet: certificateAtFault, Condition: certificateAtFault, BadDelta: certificateAtFault,
};
