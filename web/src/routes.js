// Routes of job shops: the steps of a job as people write them, and the machines that they name.

import { isDated, readDuration } from "./calendar.js";
import { plainLetters } from "./lengths.js";
import { LONGEST_NAME, MOST_MACHINES } from "./machines.js";
import { nearestName, shortened } from "./precedence.js";

const LONGEST_ROUTE = 50000;
// What parts steps: a semicolon, an arrow or a new line.
const MARKS = /[;\n→>]/;
// Steps with spaces between them: “3@1 4@2”, “2 h@Saw 3 h@Mill”.
const BETWEEN = /(?<=\S)\s+(?=\d[\d.,:']*\s*[a-z]*\.?\s*@)/i;
const EXAMPLE = "such as 3@1, 4@2 or 3@Sawing, 4@Painting";

/** Whether a text is a route, or a step of one: a time, @ and a machine. */
export function isRouteText(text) {
  return /^\s*[\d.,:½¼¾][^@]{0,30}@\s*\S/.test(text);
}

/**
 * Reads a route: steps “time@machine” in the order of the job, with commas, semicolons, arrows or
 * lines between them. A machine is a number or a name, in quotes where a name holds a mark.
 * @param {?object} calendar
 * @param {string} text that is not empty
 * @returns {{steps: {time: number, machine: string}[], isPlain: boolean}|{fault: string}} the time
 *   steps that each step takes; plain where one of them has no unit
 */
export function readRoute(calendar, text) {
  if (text.length > LONGEST_ROUTE) return { fault: "This is too long to be a route." };
  const found = { steps: [], isPlain: false };
  for (const { time, machine, part } of stepsOf(text)) {
    if (machine === "" || machine.includes("@")) {
      return { fault: `“${shortened(part)}” is not a step of a route. Write each as its time, @ `
        + `and its machine, ${EXAMPLE}.` };
    }
    if (time === "") return { fault: `“${shortened(part)}” has no time. Write it ${EXAMPLE}.` };
    const { steps, isPlain, fault } = readDuration(calendar, time);
    if (fault) return { fault };
    found.steps.push({ time: steps, machine });
    found.isPlain ||= Boolean(isPlain);
  }
  return found;
}

/** The unit that is added to a route when it is read, or "". */
export function unitOfRoute(calendar, text) {
  return isDated(calendar) && text.trim() !== "" && readRoute(calendar, text).isPlain
    ? calendar.plain : "";
}

/** The times of a route as they are written, without their machines. */
export function timesOfRoute(text) {
  return text.includes("@") ? stepsOf(text).map(({ time }) => time).filter(Boolean) : [];
}

/** The machines of a route as they are written. */
function machinesOfRoute(text) {
  return text.includes("@") ? stepsOf(text).map(({ machine }) => machine).filter(Boolean) : [];
}

/** The steps of a text: the time and the machine of each, empty where the step lacks it. */
function stepsOf(text) {
  const marked = cutAt(text.replace(/[-=]>/g, "→"), (letter) => MARKS.test(letter));
  const atCommas = (part) => withDecimals(cutAt(part, (letter) => letter === ","));
  return marked.flatMap((part) => marked.length === 1 || hasMany(part) ? atCommas(part) : [part])
    .flatMap((part) => hasMany(part) ? part.split(BETWEEN) : [part])
    .map((part) => part.trim()).filter(Boolean).map((part) => {
      const at = part.indexOf("@");
      return at < 0 ? { time: part, machine: "", part }
        : { time: part.slice(0, at).trim(), machine: unquoted(part.slice(at + 1)), part };
    });
}

/** Whether a part has several steps. */
function hasMany(part) {
  return part.split("@").length > 2;
}

/** Cuts a text at letters that stand outside quotes. */
function cutAt(text, isMark) {
  const parts = [""];
  let isQuoted = false;
  for (const letter of text) {
    if (letter === '"') isQuoted = !isQuoted;
    if (!isQuoted && isMark(letter)) parts.push("");
    else parts[parts.length - 1] += letter;
  }
  return parts;
}

/** A comma between digits before the machine is a decimal one: “2,5@Saw,4@Mill”. */
function withDecimals(parts) {
  const joined = [];
  for (const part of parts) {
    const isRest = joined.length > 0 && /^\s*\d+$/.test(joined.at(-1)) && /^\d/.test(part);
    if (isRest) joined.push(`${joined.pop()},${part}`);
    else joined.push(part);
  }
  return joined;
}

function unquoted(text) {
  const found = /^\s*"(.*)"\s*$/s.exec(text);
  return (found ? found[1].replace(/""/g, '"') : text).replace(/[;\s]+/g, " ").trim()
    .slice(0, LONGEST_NAME);
}

/**
 * The machines that routes name: those of the list have their places, and others come after them
 * in the order in which they are named, or by their numbers where they end in one.
 */
export class RouteMachines {
  /**
   * @param {string[][]} routes the machines of each route as they are written
   * @param {string[]} names of the machines from 1 on; "" where one has none
   */
  constructor(routes, names) {
    this.names = [...names];
    this.known = new Map();
    this.names.forEach((name, place) => {
      if (name !== "" && !this.known.has(keyOf(name))) this.known.set(keyOf(name), place + 1);
    });
    this.listed = new Set(this.known.keys());
    const written = new Map();
    for (const machine of routes.flat()) {
      if (!written.has(keyOf(machine))) written.set(keyOf(machine), machine);
    }
    const others = [...written.keys()].filter((key) => !this.known.has(key));
    const taken = new Set(others.filter(isNumber).map(Number));
    const added = others.filter((key) => !isNumber(key));
    if (added.every((key) => /\d$/.test(key))) added.sort(new Intl.Collator("en",
      { numeric: true }).compare);
    let place = 0;
    for (const key of added) {
      while (this.names[place] || taken.has(place + 1)) place++;
      this.names[place] = written.get(key);
      this.known.set(key, place + 1);
    }
    this.names = Array.from(this.names, (name) => name ?? "");
  }

  /** The number of a machine, or null where there is none of that number. */
  numberOf(machine) {
    const known = this.known.get(keyOf(machine));
    const number = known ?? (isNumber(machine) ? Number(machine) : 0);
    return number >= 1 && number <= MOST_MACHINES ? number : null;
  }

  /** Whether a machine is neither a number nor in the list of names, although there is a list. */
  isNew(machine) {
    return this.listed.size > 0 && !isNumber(machine) && !this.listed.has(keyOf(machine));
  }

  /** The name in the list that is spelled much like this, or null. */
  nearest(machine) {
    return nearestName(machine, this.names.slice(0, 100).filter((name) => name !== ""
      && this.listed.has(keyOf(name))));
  }
}

const isNumber = (text) => /^\d{1,4}$/.test(text);
const keyOf = (name) => plainLetters(name);

/** The names of the machines of rows that are pasted, in the order of their numbers. */
export function namesInRoutes(rows, names = []) {
  return new RouteMachines(rows.map((row) => machinesOfRoute(row.route)), names).names;
}

/**
 * Gives the steps of jobs the numbers of their machines, and each job its line of the table.
 * @param {object[]} jobs as `RowReader` reads them: `steps` with the machines as they are written
 * @param {string[]} names of the machines, as `machineNames` reads them
 * @param {object} findings faults and notes by row, to which those of routes are added
 * @returns {{jobs: object[], names: string[], machines: number}} the number of machines is the
 *   largest that a route names
 */
export function routedJobs(jobs, names, findings) {
  const index = new RouteMachines(jobs.map(({ steps }) =>
    (steps ?? []).map(({ machine }) => machine)), names);
  const told = new Set();
  const routed = jobs.map((job) => {
    const steps = (job.steps ?? []).map(({ time, machine }) =>
      ({ time, machine: index.numberOf(machine), name: machine }));
    const tell = (kind, message) => findings[kind].push({ row: job.row, field: "route", message });
    const fault = faultOf(steps);
    if (fault) tell("faults", fault);
    for (const { name } of steps) {
      if (told.has(name) || !index.isNew(name)) continue;
      told.add(name);
      tell("notes", newWords(name, index.nearest(name)));
    }
    const words = steps.map(({ time, machine }) => `${time}@${machine}`).join();
    return { ...job, steps, parts: job.parts?.map((machine) => index.numberOf(machine)),
      fields: `p=${words}${job.fields}` };
  });
  const numbers = routed.flatMap(({ steps }) => steps.map(({ machine }) => machine ?? 0));
  return { jobs: routed, names: index.names,
    machines: numbers.reduce((most, each) => Math.max(most, each), 0) };
}

/** What is wrong with the machines of a route, or null. */
function faultOf(steps) {
  const wrong = steps.find(({ machine }) => machine === null);
  if (wrong) {
    return isNumber(wrong.name) ? `There is no machine ${wrong.name}: they are 1 to 1,000.`
      : "The routes name more than 1,000 machines.";
  }
  const seen = new Set();
  const twice = steps.find(({ machine }) => seen.has(machine) || !seen.add(machine));
  return twice ? `The route comes to “${shortened(twice.name)}” twice: a job is on a machine once `
    + "at most." : null;
}

function newWords(name, near) {
  return `“${shortened(name)}” is not in the names of the machines, so it is one more machine.`
    + (near ? ` Is “${near}” meant?` : "");
}
