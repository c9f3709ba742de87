// Precedence by names: the column "after" of a row names the jobs that have to be completed first.

const MOST_COMPARED = 3000;
const MOST_SUGGESTED = 20;
const LONGEST_COMPARED = 200;
const LONGEST_SHOWN = 80;
// A row's number and perhaps a kind of link, in letters of five languages, and a lag: 1FS+2.
const PROJECT_LINK = /^(\d{1,6})\s*([a-z]{2})?\s*([+-]\s*\d.*)?$/i;

/**
 * Cuts the text of the column "after" into names: between semicolons, or between commas where the
 * text has no semicolon and is no name itself. A name in quotes may hold either.
 * @param {string} text
 * @param {(name: string) => boolean} isName
 */
export function splitNames(text, isName) {
  const whole = text.trim();
  if (whole === "") return [];
  if (isName(whole)) return [whole];
  const marked = cut(whole, ";");
  return (marked.length > 1 ? marked : cut(whole, ",")).map(unquoted).filter((name) => name !== "");
}

function cut(text, mark) {
  const parts = [""];
  let isQuoted = false;
  for (const letter of text) {
    if (letter === '"') isQuoted = !isQuoted;
    if (letter === mark && !isQuoted) parts.push("");
    else parts[parts.length - 1] += letter;
  }
  return parts;
}

function unquoted(text) {
  const found = /^\s*"(.*)"\s*$/s.exec(text);
  return (found ? found[1].replace(/""/g, '"') : text).trim();
}

/** A name as it is written in the column "after": in quotes where it holds a mark. */
export function quoteName(name) {
  return /[;,"]/.test(name) ? `"${name.replace(/"/g, '""')}"` : name;
}

/** A text cut to the length at which a sentence can quote it. */
export function shortened(text) {
  return text.length > LONGEST_SHOWN ? `${text.slice(0, LONGEST_SHOWN)}…` : text;
}

/** The jobs by their names; a name that several jobs have stands with all of them. */
export class NameIndex {
  /**
   * @param {{name: string}[]} jobs in the order of the table
   * @param {?NameIndex} before the index of an earlier table, of use where no name has changed
   */
  constructor(jobs, before = null) {
    this.jobs = jobs;
    this.before = before;
    this.places = null;
    this.suggested = 0;
  }

  /** For each name its place, or the places of all the jobs that have it; made when it is needed. */
  get byName() {
    if (this.places === null) {
      const { before } = this;
      this.places = before?.isOfNames(this.jobs) ? before.places : placesByName(this.jobs);
      this.before = null;
    }
    return this.places;
  }

  isOfNames(jobs) {
    return this.places !== null && jobs.length === this.jobs.length
      && jobs.every((job, place) => job.name === this.jobs[place].name);
  }

  has(name) {
    return this.byName.has(name);
  }

  /** The places of the jobs of this name. */
  placesOf(name) {
    const found = this.byName.get(name);
    return found === undefined ? [] : [found].flat();
  }

  /**
   * Finds the job that a name or "#" and a row's number means.
   * @returns {{place: number}|{fault: string}}
   */
  find(name) {
    const numbered = /^#(\d+)$/.exec(name);
    if (numbered && !this.has(name)) {
      this.byRow ??= new Map(this.jobs.map((job, place) => [job.row + 1, place]));
      const place = this.byRow.get(Number(numbered[1]));
      return place === undefined ? { fault: `There is no job in row ${shortened(numbered[1])}.` }
        : { place };
    }
    const places = this.placesOf(name);
    if (places.length === 1) return { place: places[0] };
    if (places.length > 1) {
      const rows = places.slice(0, 4).map((place) => this.jobs[place].row + 1);
      return { fault: `“${shortened(name)}” is the name of several jobs, in rows `
        + `${rows.join(", ")}. `
        + `Write #${rows[0]} to mean the one in row ${rows[0]}.` };
    }
    const fault = `There is no job called “${shortened(name)}”.`;
    const advice = adviceFor(name);
    if (advice) return { fault: `${fault} ${advice}` };
    const near = this.nearest(name);
    return { fault: near ? `${fault} Is “${near}” meant?` : fault };
  }

  /** The name of a job that is spelled much like this; not for many names or many jobs. */
  nearest(name) {
    if (this.jobs.length > MOST_COMPARED) return null;
    if (this.suggested++ > MOST_SUGGESTED) return null;
    return nearestName(name, this.byName.keys());
  }
}

/** The name that is spelled much like this, or null. */
export function nearestName(name, names) {
  if (name.length > LONGEST_COMPARED) return null;
  const wanted = name.toLowerCase();
  let best = null;
  let least = Math.max(1, Math.floor(name.length / 3)) + 1;
  for (const each of names) {
    const distance = editDistance(wanted, each.toLowerCase(), least);
    if (distance < least) {
      best = each;
      least = distance;
    }
  }
  return best;
}

/** What to write in place of a name that is a number of a row or a link of a project plan. */
function adviceFor(name) {
  const link = PROJECT_LINK.exec(name.slice(0, LONGEST_COMPARED));
  if (!link) return null;
  const [, row, kind, lag] = link;
  if (!kind && !lag) return `Write #${row} to mean the job in row ${row}.`;
  const isPlain = !kind || /^(fs|ea|fd|fc|fi)$/i.test(kind);
  return `This is a link of a project plan. Write #${row} for “after the job in row ${row}”`
    + (isPlain ? "" : ", the only kind of link that is here")
    + (lag ? "; a waiting time between jobs can't be given." : ".");
}

function placesByName(jobs) {
  const byName = new Map();
  for (let place = 0; place < jobs.length; place++) {
    const { name } = jobs[place];
    const known = byName.get(name);
    if (known === undefined) byName.set(name, place);
    else if (typeof known === "number") byName.set(name, [known, place]);
    else known.push(place);
  }
  return byName;
}

/** The least number of letters to change, add or take out, or `limit` where it is no less. */
function editDistance(a, b, limit) {
  if (Math.abs(a.length - b.length) >= limit) return limit;
  let row = Array.from({ length: b.length + 1 }, (_, place) => place);
  for (let i = 1; i <= a.length; i++) {
    const next = [i];
    for (let j = 1; j <= b.length; j++) {
      const change = row[j - 1] + (a[i - 1] === b[j - 1] ? 0 : 1);
      next.push(Math.min(change, row[j] + 1, next[j - 1] + 1));
    }
    row = next;
  }
  return Math.min(limit, row[b.length]);
}
