// Rows, as people write them, to the job table that the solver reads, and back.

import { isDated, lengthText, readDuration, readMoment } from "./calendar.js";
import { MOST_MACHINES, machineText } from "./machines.js";
import { NameIndex, quoteName, shortened, splitNames } from "./precedence.js";
import { readLeft } from "./progress.js";
import { readRoute, routedJobs } from "./routes.js";

/** The columns of a row, all of them text as it was written. */
export const FIELDS = [
  "name", "time", "time2", "weight", "due", "release", "cost", "after", "left",
  "route",
];

export const FIELD_WORDS = {
  name: "Name", time: "Time", time2: "Time on machine 2", route: "Route", left: "Left to do",
  due: "Due", release: "Released", after: "After", weight: "Weight", cost: "Cost function",
};

const LARGEST = 4n * 10n ** 18n;
const MOST_TOTAL = 9e15;
const MOST_JOBS = 100000;
const MOST_ARCS = 200000;
const FEW_ROWS = 3;
const NO_TIME = "This job has no processing time.";
const ROUTE_WORDS = "Write its steps in their order, each as its time, @ and its machine, such as "
  + "3@1, 4@2 or 3@Sawing, 4@Painting.";
const NO_ROUTE = `This job has no route. ${ROUTE_WORDS}`;
const AT_ONCE = 20;
const MOST_TEXTS = 50000;
// The letters of a line of the job table beside a job's fields are no more than this.
const MOST_BESIDE = 16;
const NONE = [];
// What spreadsheets show of a formula that failed, in five languages: #WERT!, #REF!, #N/A.
const FAILED_FORMULA = /^#(?:[\p{L}¡0-9/]{1,12}[!?]|N\/?[ADV]|N\/A)$/iu;

/** What is added to texts: a unit to a time or to a date, a year, an order of day and month. */
export const ASSUMED = { unit: 1, start: 2, year: 4, dayFirst: 8, endOfDay: 16 };

const BLANK = { id: 0, ...Object.fromEntries(FIELDS.map((field) => [field, ""])) };

let lastId = 0;

/** A row with an identity of its own, by which a kept plan knows it again. */
export function newRow(values = null) {
  const row = { ...BLANK };
  row.id = ++lastId;
  if (values) for (const field of FIELDS) if (values[field]) row[field] = values[field];
  return row;
}

export function isEmptyRow(row) {
  return FIELDS.every((field) => row[field].trim() === "");
}

/**
 * What one row comes to, the precedence constraints left out.
 * @typedef {object} Job
 * @property {number} row the place of its row, from 0 @property {number} number from 1
 * @property {object} of its row @property {number} id the identity of its row
 * @property {string} name the name, or "Job 3" where the row has none
 * @property {string} fields the fields of its line, such as "p=3 d=9"
 * @property {number} time in time steps; of a shop on all machines together
 * @property {?{time: number, machine: string}[]} steps of a route, those that are done left out
 * @property {?(string|number)[]} parts the machines for which “Left to do” has a part each
 * @property {?number} due in time steps
 * @property {number} release in time steps; the start of the plan where the row has none
 * @property {?number} weight
 * @property {number} assumed bits of ASSUMED
 * @property {boolean} isBegun whether its times are what is left of it
 * @property {boolean} isDone whether nothing is left of it
 * @property {{field: string, message: string}[]} faults
 * @property {{field: string, message: string}[]} notes
 */

/** Makes jobs of rows, and remembers what each row came to as long as the settings are the same. */
export class RowReader {
  /**
   * @param {?object} calendar
   * @param {Set<string>} used the columns that the problem uses; what is wrong in another is a note
   * @param {boolean} goesOn whether jobs are done one after another without interruption
   */
  constructor(calendar, used, goesOn = false) {
    this.calendar = calendar;
    this.used = used;
    this.goesOn = goesOn;
    this.known = new Map();
    this.texts = isDated(calendar) ? {} : null;
    this.index = null;
  }

  /** What a text of a field says; where reading takes long, remembered, since many are alike. */
  textOf(field, text, reader, more) {
    if (!this.texts) return reader(this.calendar, text, ...more);
    const texts = this.texts[field] ??= new Map();
    let known = texts.get(text);
    if (!known) {
      if (texts.size > MOST_TEXTS) texts.clear();
      known = reader(this.calendar, text, ...more);
      texts.set(text, known);
    }
    return known;
  }

  /** The jobs of a table by their names, as the names of the table before. */
  indexOf(jobs) {
    const known = this.index?.places === null ? this.index.before : this.index;
    this.index = new NameIndex(jobs, known);
    return this.index;
  }

  /**
   * The job of a row, or null where the row is empty.
   * @param {object} row
   * @param {number} place of the row, from 0
   * @param {number} number of the job, from 1
   * @returns {?Job}
   */
  read(row, place, number) {
    const known = this.known.get(row.id);
    const isSame = known !== undefined && known.of === row;
    if (isSame && known.row === place && known.number === number) return known;
    if (!isSame && isEmptyRow(row)) return null;
    const job = isSame ? { ...known, row: place, number, name: nameOf(row, number) }
      : readRow(row, place, number, this);
    this.known.set(row.id, job);
    return job;
  }

  /** Forgets rows that are gone, once they are more than those of now. */
  forget(rows) {
    if (this.known.size <= 2 * rows.length + FEW_ROWS) return;
    const known = rows.map(({ id }) => this.known.get(id)).filter((job) => job !== undefined);
    this.known = new Map(known.map((job) => [job.id, job]));
  }
}

function nameOf(row, number) {
  return row.name.trim() || `Job ${number}`;
}

function readRow(row, place, number, rowReader) {
  const { calendar, used } = rowReader;
  const findings = { faults: NONE, notes: NONE };
  let assumed = 0;
  const add = (kind, field, message) => {
    findings[kind] = [...findings[kind], { field, message }];
  };
  const take = (field, reader, ...more) => {
    const text = row[field].trim();
    if (text === "") return null;
    const found = hasFailed(text) ? failedFormula(text)
      : rowReader.textOf(field, text, reader, more);
    if (found.fault) add(used.has(field) ? "faults" : "notes", field, found.fault);
    if (found.note) add("notes", field, found.note);
    assumed |= assumedIn(field, text, found);
    return found.fault ? null : found.steps;
  };
  const isShop = used.has("time2");
  const hasTime2 = row.time2.trim() !== "";
  const takeTime = (field, other) => {
    if (row[field].trim() !== "") return take(field, readDuration);
    if (!isShop || row[other].trim() === "") {
      add("faults", field, NO_TIME);
      return null;
    }
    add("notes", field, `No time on machine ${field === "time" ? 1 : 2}: it counts as 0.`);
    return 0;
  };
  const isRouted = used.has("route");
  const route = isRouted ? takeRoute(row, take, add) : null;
  const whole = route ? route.map(({ time }) => time)
    : [takeTime("time", "time2"), ...(isShop ? [takeTime("time2", "time")] : [])];
  const left = takeLeft(calendar, row.left.trim(), whole, add);
  if (left?.every((each) => each === 0)) {
    return { row: place, number, of: row, id: row.id, name: nameOf(row, number), isDone: true,
      faults: NONE, notes: NONE };
  }
  const times = left ?? whole;
  const due = take("due", readMoment, true);
  const release = take("release", readMoment, false);
  const start = release ?? (used.has("release") ? 0 : null);
  const weight = take("weight", readWeight);
  const cost = take("cost", readCost);
  const steps = route && stepsLeft(route, times);
  const field = (letter, value) => value === null ? "" : ` ${letter}=${value}`;
  const fields = `${isRouted ? "" : `p=${times.join()}`}${field("w", weight)}${field("d", due)}`
    + field("r", start) + field("h", cost);
  return { row: place, number, of: row, id: row.id, name: nameOf(row, number), fields,
    time: times.reduce((sum, each) => sum + each, 0), due, release: start ?? 0,
    hasRelease: release !== null, weight, hasCost: cost !== null, hasTime2, assumed, steps,
    hasRoute: row.route.trim() !== "", hasTime: row.time.trim() !== "",
    parts: route ? route.map(({ machine }) => machine) : isShop ? [1, 2] : null,
    isBegun: left !== null, isDone: false, ...findings };
}

/** The steps of a job's route; none where there is no route that can be read. */
function takeRoute(row, take, add) {
  if (row.route.trim() === "") add("faults", "route", NO_ROUTE);
  return take("route", readRoute) ?? [];
}

/** The steps of which something is left; all of them where nothing is, which the module refuses. */
function stepsLeft(route, times) {
  const steps = route.map(({ machine }, place) => ({ machine, time: times[place] }));
  const left = steps.filter(({ time }) => time > 0);
  return left.length > 0 ? left : steps;
}

/** The times that are left of a job, or null where it is not begun. */
function takeLeft(calendar, text, whole, add) {
  if (text === "") return null;
  const found = readLeft(calendar, text, whole.map((time) => time ?? 0));
  if (found.fault) add("faults", "left", found.fault);
  if (found.note) add("notes", "left", found.note);
  return found.fault ? null : found.times;
}

function hasFailed(text) {
  return text[0] === "#" && FAILED_FORMULA.test(text);
}

function failedFormula(text) {
  return { fault: `“${text}” is a formula that failed in the spreadsheet. Correct it there and `
    + "paste again, or write the value." };
}

/** What was added to a text when it was read. */
function assumedIn(field, text, { fault, isPlain, date }) {
  if (fault) return 0;
  const isTime = ["time", "time2", "route"].includes(field);
  return (isPlain ? isTime ? ASSUMED.unit : ASSUMED.start : 0)
    | (date?.isYearAssumed ? ASSUMED.year : 0)
    | (date?.hasTwoReadings ? ASSUMED.dayFirst : 0)
    | (date && date.clock === null && field === "due" ? ASSUMED.endOfDay : 0);
}

function readWeight(_, text) {
  const isNumber = /^\d{1,19}$/.test(text);
  if (!isNumber || text.length === 19 && BigInt(text) > LARGEST) {
    const why = /^-/.test(text) ? "is at least 0" : "is a whole number of digits alone";
    return { fault: `A weight ${why}; this is “${text}”.` };
  }
  return { steps: text.replace(/^0+(?=\d)/, "") };
}

function readCost(calendar, text) {
  const compact = text.split(/([,:])/).map((part) => part.trim()).join("");
  if (!/^-?\d{1,19}(,\d{1,19}:-?\d{1,19})*$/.test(compact)) {
    return { fault: "A cost function is a base and then steps TIME:VALUE, as in 0,5:10,9:20, which "
      + "is 0 at first, 10 from time 5 on and 20 from time 9 on." };
  }
  return { steps: calendar?.isPlain ? costAfter(compact, calendar.from) : compact };
}

/** A cost function of plain numbers with its times counted from the start of the plan. */
function costAfter(text, start) {
  const [base, ...steps] = text.split(",");
  const pairs = steps.map((step) => step.split(":"));
  const gone = pairs.filter(([time]) => Number(time) <= start);
  return [gone.length > 0 ? gone.at(-1)[1] : base, ...pairs.slice(gone.length)
    .map(([time, value]) => `${BigInt(time) - BigInt(start)}:${value}`)].join();
}

/**
 * Makes the job table of rows; empty rows are left out. `noteSameNames` adds notes to it, which the
 * solver has no need of.
 * @param {object[]} rows
 * @param {RowReader} reader
 * @param {() => Promise<boolean>} pause lets the page breathe; false means to give up
 * @param {string[]} names of the machines
 * @returns {Promise<?object>} the jobs, the bytes of the table's text, its arcs, faults and notes
 *   by row; of routes their `machines`, and the `names` of these
 */
export async function makeTable(rows, reader, pause, names = []) {
  const read = [];
  const done = [];
  const findings = { faults: [], notes: [] };
  let begun = performance.now();
  for (let place = 0; place < rows.length; place++) {
    if (place % 256 === 255 && performance.now() - begun > AT_ONCE) {
      if (!(await pause())) return null;
      begun = performance.now();
    }
    const job = reader.read(rows[place], place, read.length + 1);
    if (job === null) continue;
    if (job.isDone) {
      done.push(job);
      continue;
    }
    for (const each of job.faults) findings.faults.push({ row: place, ...each });
    for (const each of job.notes) findings.notes.push({ row: place, ...each });
    read.push(job);
  }
  reader.forget(rows);
  const routed = reader.used.has("route") ? routedJobs(read, names, findings) : null;
  const jobs = routed?.jobs ?? read;
  const index = reader.indexOf(jobs);
  const noted = findings.notes.length;
  const found = reader.used.has("after") ? findings.faults : findings.notes;
  const arcs = readArcs(rows, jobs, done, index, found);
  const isFirst = goOn(jobs, arcs, reader, findings);
  judgeTotals(jobs, arcs, reader.calendar, findings);
  gatherMissing(jobs, findings, NO_TIME, "No job has a processing time. Paste again and say which "
    + "column it is, or type the times into the column “Time”.");
  gatherMissing(jobs, findings, NO_ROUTE, `No job has a route. ${ROUTE_WORDS}`);
  const fillers = fillersOf(jobs, reader.used, findings);
  return { jobs, done, isFirst, index, noted, arcs, fillers, bytes: bytesOf(jobs, arcs, fillers),
    machines: routed?.machines ?? null, names: routed?.names ?? null, ...findings };
}

/** What no job has is said once and not of each row. */
function gatherMissing(jobs, findings, missingWords, message) {
  const isMissing = (each) => each.message === missingWords;
  const missing = findings.faults.filter(isMissing);
  if (missing.length < FEW_ROWS || missing.length < jobs.length) return;
  findings.faults = [{ row: null, field: null, message },
    ...findings.faults.filter((each) => !isMissing(each))];
}

/**
 * What is begun goes on: where jobs are done one after another and precedence counts, the one that
 * is begun comes before all others. Else its row says that it may have to wait.
 * @returns {boolean} whether a job that is begun comes first
 */
function goOn(jobs, arcs, { used, goesOn }, findings) {
  const begun = jobs.flatMap((job, place) => job.isBegun ? [place] : []);
  if (begun.length === 1 && goesOn && used.has("after")) {
    const [first] = begun;
    const others = arcs.filter(([from, to]) => to !== first && from !== first);
    arcs.length = 0;
    for (const arc of others) arcs.push(arc);
    for (let place = 0; place < jobs.length; place++) {
      if (place !== first) arcs.push([first, place]);
    }
    return true;
  }
  const hint = begun.length === 1 && goesOn
    ? " Choose “Precedence constraints”, and it comes first." : "";
  for (const place of begun) {
    findings.notes.push({ row: jobs[place].row, field: "left",
      message: `Begun: the plan may put others before what is left of it.${hint}` });
  }
  return false;
}

/**
 * What stands in the table for jobs without a due date or a weight that the problem needs: a due
 * date so late that it never counts, and the weight 1. Where no job has a due date, nothing does.
 * @returns {{due: ?number, weight: ?number}}
 */
function fillersOf(jobs, used, findings) {
  const fill = (field, value, words) => {
    const lacking = used.has(field) ? jobs.filter((job) => job[field] === null
      && !job.faults.some((fault) => fault.field === field)) : [];
    if (lacking.length === 0 || value === null) return null;
    const more = lacking.length - 1;
    const which = more === 0 ? "" : `, and none in ${more} more ${more === 1 ? "row" : "rows"}`;
    const message = `${words[0]}${which}: ${words[1]}`;
    findings.notes.push({ row: lacking[0].row, field, message });
    return value;
  };
  const most = (values) => values.reduce((largest, each) => Math.max(largest, each), 0);
  const hasDue = jobs.some((job) => job.due !== null);
  const end = jobs.reduce((sum, job) => sum + job.time, 0) + most(jobs.map((job) => job.release));
  const latest = hasDue ? end + most(jobs.map((job) => job.due ?? 0)) : null;
  return {
    due: fill("due", latest, ["No due date", "due at the end of all work, so never late."]),
    weight: fill("weight", 1, ["No weight", "it counts as 1."]),
  };
}

/** The bytes of a job table, which has letters of ASCII alone. */
function bytesOf(jobs, arcs, fillers) {
  const heading = "table 1\n";
  const due = fillers.due === null ? "" : ` d=${fillers.due}`;
  const weight = fillers.weight === null ? "" : ` w=${fillers.weight}`;
  const most = jobs.reduce((sum, job) => sum + job.fields.length + MOST_BESIDE,
    heading.length + arcs.length * 2 * MOST_BESIDE + jobs.length * (due.length + weight.length));
  const bytes = new Uint8Array(most);
  let end = 0;
  const write = (words) => {
    for (let k = 0; k < words.length; k++) bytes[end++] = words.charCodeAt(k);
  };
  write(heading);
  jobs.forEach((job, place) => write(`job ${place + 1} ${job.fields}`
    + `${job.weight === null ? weight : ""}${job.due === null ? due : ""}\n`));
  for (const [from, to] of arcs) write(`prec ${from + 1} ${to + 1}\n`);
  return bytes.subarray(0, end);
}

/** Notes at a table which jobs can't be told apart by their names. */
export function noteSameNames({ index, notes, noted }) {
  const found = [];
  for (const [name, places] of index.byName) {
    if (typeof places === "number") continue;
    const rows = places.map((place) => index.jobs[place].row + 1);
    const message = `${rows.length} jobs are called “${shortened(name)}” (rows `
      + `${rows.slice(0, 5).join(", ")}${rows.length > 5 ? ", .." : ""}): the plan can't tell them `
      + "apart by name.";
    found.push({ row: rows[1] - 1, field: "name", message });
  }
  notes.splice(noted, 0, ...found);
}

/**
 * The precedence constraints: places of two jobs, the first completed before the second starts.
 * What is done already is completed.
 */
function readArcs(rows, jobs, done, index, found) {
  const arcs = [];
  const completed = new Set(done.flatMap((job) => [job.name, `#${job.row + 1}`]));
  const isKnown = (text) => index.has(text) || completed.has(text);
  jobs.forEach((job, place) => {
    if (rows[job.row].after === "") return;
    const fault = (message) => found.push({ row: job.row, field: "after", message });
    for (const name of splitNames(rows[job.row].after, isKnown)) {
      if (completed.has(name) && !index.has(name)) continue;
      const other = index.find(name);
      if (other.fault) fault(hasFailed(name) ? failedFormula(name).fault : other.fault);
      else if (other.place === place) fault(`“${shortened(name)}” can't come after itself.`);
      else arcs.push([other.place, place]);
    }
  });
  return arcs;
}

function judgeTotals(jobs, arcs, calendar, findings) {
  const fault = (message) => findings.faults.push({ row: null, field: null, message });
  if (jobs.length > MOST_JOBS) {
    fault(`There are ${jobs.length} jobs; at most ${MOST_JOBS} are solved. Split the list, or `
      + "leave jobs out that are far away.");
  }
  if (arcs.length > MOST_ARCS) {
    fault(`There are ${arcs.length} precedence constraints; at most ${MOST_ARCS} are read.`);
  }
  const total = jobs.reduce((sum, job) => sum + job.time, 0)
    + jobs.reduce((most, job) => Math.max(most, job.release), 0);
  if (total > MOST_TOTAL) {
    fault(`All processing times together are ${lengthText(calendar, total)}, too long for this `
      + "page. Take a longer time step.");
  }
}

/** The row and field of a line of the table's text: of a job, or of a precedence constraint. */
export function placeOfLine(table, line) {
  const job = line - 2;
  if (job >= 0 && job < table.jobs.length) return { row: table.jobs[job].row, field: null };
  const arc = table.arcs[job - table.jobs.length];
  return arc ? { row: table.jobs[arc[1]].row, field: "after" } : { row: null, field: null };
}

/** The table's text with a comment for the name of each machine and job, as it is saved. */
export function namedText(table, machines = []) {
  const lines = new TextDecoder().decode(table.bytes).split("\n");
  const heading = lines.shift();
  const named = table.jobs.flatMap((job, place) => {
    const name = job.name.replace(/[\r\n\t]+/g, " ");
    return [`# job ${place + 1}: ${name}`, lines[place]];
  });
  const ofMachines = machines.flatMap((name, k) => name ? [`# machine ${k + 1}: ${name}`] : []);
  return [heading, ...ofMachines, ...named, ...lines.slice(table.jobs.length)].join("\n");
}

/** The first line of a text that is neither empty nor a comment, without space around it. */
export function firstLine(text) {
  for (let at = 0; at < text.length;) {
    const found = text.indexOf("\n", at);
    const end = found < 0 ? text.length : found;
    const line = text[at] === "#" ? "" : text.slice(at, end).trim();
    if (line !== "" && !line.startsWith("#")) return line;
    at = end + 1;
  }
  return "";
}

export function isJobTable(text) {
  return /^table\s+1$/.test(firstLine(text));
}

export function isAnswer(text) {
  return /^answer\s+[12]$/.test(firstLine(text));
}

/**
 * Reads a job table into rows. Comments "# job 3: name" and "# machine 1: name" give names.
 * @param {string} text
 * @returns {{rows: object[], machines: ?string, machineNames: string, faults: string[]}}
 */
export function readTable(text) {
  const values = [];
  const names = new Map();
  const arcs = [];
  const faults = [];
  const machineNames = [];
  let machines = null;
  text.replace(/^\uFEFF/, "").split("\n").forEach((line, place) => {
    if (line[0] === "#" && !/^# (job|machine) /.test(line)) return;
    const words = line.trim().split(/\s+/);
    const named = words[0] === "#" && /^\s*# job (\d+): (.*\S)/.exec(line);
    if (named) names.set(Number(named[1]), named[2]);
    const machine = /^# machine (\d{1,4}): (.*\S)/.exec(line);
    if (machine && machine[1] >= 1 && machine[1] <= MOST_MACHINES) {
      machineNames[machine[1] - 1] = machine[2];
    }
    if (words[0] === "" || words[0].startsWith("#") || words[0] === "table") return;
    const problem = words[0] === "job" ? readJobLine(words, values)
      : words[0] === "prec" ? readArcLine(words, arcs)
        : words[0] === "machines" && words.length === 2 ? void (machines = words[1])
          : "it is neither a job, a precedence constraint nor a number of machines";
    if (problem) faults.push(`Line ${place + 1} was left out: ${problem}.`);
  });
  values.forEach((each, place) => {
    each.name = names.get(place + 1) ?? `Job ${place + 1}`;
  });
  for (const [from, to] of arcs) {
    if (!values[from - 1] || !values[to - 1]) {
      faults.push(`The precedence constraint of jobs ${from} and ${to} was left out: the table has `
        + `${values.length} jobs.`);
      continue;
    }
    (values[to - 1].before ??= []).push(quoteName(values[from - 1].name));
  }
  for (const each of values) each.after = (each.before ?? []).join("; ");
  return { rows: values.map((each) => newRow(each)), machines, faults,
    machineNames: machineText(Array.from(machineNames, (name) => name ?? "")) };
}

function readJobLine(words, values) {
  if (Number(words[1]) !== values.length + 1) {
    return `job ${values.length + 1} is expected here`;
  }
  const job = {};
  const letters = { p: "time", w: "weight", d: "due", r: "release", h: "cost" };
  for (const word of words.slice(2)) {
    const [letter, value] = [word[0], word.slice(2)];
    if (word[1] !== "=" || !letters[letter]) return `“${word}” is no field`;
    if (letter === "p" && value.includes("@")) job.route = value.replaceAll(",", ", ");
    else if (letter === "p") [job.time, job.time2 = ""] = value.split(",");
    else job[letters[letter]] = value;
  }
  values.push(job);
  return null;
}

function readArcLine(words, arcs) {
  if (words.length !== 3 || !/^\d+$/.test(words[1]) || !/^\d+$/.test(words[2])) {
    return "a precedence constraint is “prec A B”";
  }
  arcs.push([Number(words[1]), Number(words[2])]);
  return null;
}
