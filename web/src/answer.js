// Reads the texts that the module prints: answers, evaluations and bounds.

const NEWLINE = 10;
const SPACE = 32;
const MINUS = 45;
const ZERO = 48;
const PIECE = new TextEncoder().encode("piece ");
const JOB = new TextEncoder().encode("job ");
const SHORTEST_PIECE = "piece 1 1 0 1\n".length;
/** The line of a bound's certificate: `job` has one number, `alone` none, and others have more. */
const BOUND_KIND = new RegExp("^(alone$|job \\d+$|"
  + "(window|crowd|machine|multipliers|prices|prices_on|kept|shortest|ranks|parts) )");
const decoder = new TextDecoder();

/** Walks over the lines of a text of bytes, and makes no string of what is not kept. */
class Walk {
  constructor(bytes) {
    this.bytes = bytes;
    this.at = 0;
  }

  get isOver() {
    return this.at >= this.bytes.length;
  }

  /** Goes past these bytes, if they stand here. */
  takes(word) {
    for (let k = 0; k < word.length; k++) {
      if (this.bytes[this.at + k] !== word[k]) return false;
    }
    this.at += word.length;
    return true;
  }

  /** Reads the next words of the line, whole numbers, as many as there is room for. */
  numbers(into) {
    const { bytes } = this;
    let at = this.at;
    for (let k = 0; k < into.length; k++) {
      while (bytes[at] === SPACE) at++;
      const isNegative = bytes[at] === MINUS;
      if (isNegative) at++;
      let number = 0;
      for (let digit = bytes[at] - ZERO; digit >= 0 && digit <= 9; digit = bytes[++at] - ZERO) {
        number = number * 10 + digit;
      }
      into[k] = isNegative ? -number : number;
    }
    this.at = at;
  }

  /** What is left of the line; the next line comes after it. */
  rest() {
    const begin = this.at;
    this.skip();
    return decoder.decode(this.bytes.subarray(begin, this.at)).trim();
  }

  /** Goes to the next line. */
  skip() {
    const { bytes } = this;
    let at = this.at;
    while (at < bytes.length && bytes[at] !== NEWLINE) at++;
    this.at = at + 1;
  }
}

function firstWord(line) {
  const space = line.indexOf(" ");
  return space < 0 ? [line, ""] : [line.slice(0, space), line.slice(space + 1)];
}

/**
 * A schedule: the pieces of an answer in the order of the text, in arrays of equal length.
 * @typedef {object} Schedule
 * @property {string} problem @property {number} jobs @property {number} machines
 * @property {string} value the value as the text has it
 * @property {string} certificate the line without its first word
 * @property {?{value: string, certificate: string}} bound where one stands behind the answer
 * @property {Float64Array} job from 1 @property {Float64Array} machine from 1
 * @property {Float64Array} start @property {Float64Array} stop
 */

/**
 * Reads an answer text as `solve` writes it, or `plan` with a bound in comments behind it.
 * @param {Uint8Array} bytes
 * @returns {Schedule}
 */
export function readAnswer(bytes) {
  const words = { problem: "", jobs: "0", machines: "0", value: "", cert: "" };
  const most = Math.ceil(bytes.length / SHORTEST_PIECE);
  const columns = Array.from({ length: 4 }, () => new Float64Array(most));
  const [job, machine, start, stop] = columns;
  const piece = new Float64Array(4);
  const behind = [];
  let count = 0;
  let isOver = false;
  for (const walk = new Walk(bytes); !walk.isOver;) {
    if (!walk.takes(PIECE)) {
      const [word, rest] = firstWord(walk.rest());
      if (Object.hasOwn(words, word)) words[word] = rest;
      if (isOver && word === "#") behind.push(rest);
      isOver ||= word === "end";
      continue;
    }
    walk.numbers(piece);
    job[count] = piece[0];
    machine[count] = piece[1];
    start[count] = piece[2];
    stop[count] = piece[3];
    count++;
    walk.skip();
  }
  const [jobOf, machineOf, startOf, stopOf] = columns.map((column) => column.slice(0, count));
  return {
    problem: words.problem, jobs: Number(words.jobs), machines: Number(words.machines),
    value: words.value, certificate: words.cert, bound: boundOf(behind),
    job: jobOf, machine: machineOf, start: startOf, stop: stopOf,
  };
}

/**
 * Reads an evaluation.
 * @param {Uint8Array} bytes
 * @param {number} jobs how many jobs there are
 * @returns {object} the lines by their first word; `steps` of the certificate; the `certificate` of
 *   the bound, where no solver knows the optimum; for each job its `start`, `completion` and
 *   `counts`, what the class counts of it (text, for few jobs); `isOfJobs`, whether it has jobs
 */
export function readEvaluation(bytes, jobs) {
  const found = { steps: [], start: new Float64Array(jobs), completion: new Float64Array(jobs),
    counts: jobs <= 5000 ? new Array(jobs).fill("") : null, isOfJobs: false };
  const row = new Float64Array(3);
  for (const walk = new Walk(bytes); !walk.isOver;) {
    if (walk.takes(JOB)) {
      readJob(walk, row, found);
      continue;
    }
    const [word, rest] = firstWord(walk.rest());
    if (word === "step") found.steps.push(rest);
    else if (/^(problem|fits|misfit|claimed|value|best|gap|bound)$/.test(word)) found[word] = rest;
    if (word === "bound") readCertificate(walk, found);
  }
  return found;
}

/**
 * Reads the line after a bound, if it is a certificate. A line of the precedence constraints may
 * follow multipliers.
 */
function readCertificate(walk, found) {
  const line = nextLine(walk, BOUND_KIND);
  if (line === null) return;
  const arcs = nextLine(walk, /^arcs /);
  found.certificate = arcs === null ? line : `${line}\n${arcs}`;
}

/** Reads the next line, if it is of this form, and otherwise leaves it and gives null. */
function nextLine(walk, form) {
  const begin = walk.at;
  const line = walk.rest();
  if (form.test(line)) return line;
  walk.at = begin;
  return null;
}

/** Reads the line of a job after its first word: job, start, completion, and what counts of it. */
function readJob(walk, row, found) {
  walk.numbers(row);
  const job = row[0];
  found.isOfJobs = true;
  if (job < 1 || job > found.start.length) {
    walk.skip();
    return;
  }
  found.start[job - 1] = row[1];
  found.completion[job - 1] = row[2];
  if (found.counts) found.counts[job - 1] = firstWord(walk.rest().trim())[0];
  else walk.skip();
}

/**
 * Reads a bound.
 * @param {Uint8Array} bytes
 * @returns {?{value: string, certificate: string}}
 */
export function readBound(bytes) {
  return boundOf(decoder.decode(bytes).split("\n").filter(Boolean));
}

/** The bound of the lines of its text, or null where they are none. */
function boundOf(lines) {
  const found = { value: "", certificate: "" };
  for (const line of lines) {
    const [word, rest] = firstWord(line);
    if (word === "value") found.value = rest;
    else if (word === "arcs") found.certificate += `\n${line}`;
    else if (!/^(bound|problem|jobs|machines|end)$/.test(word)) found.certificate = line;
  }
  return /^-?\d+$/.test(found.value) ? found : null;
}
