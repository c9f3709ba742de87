// Job shop files in OR-Library's layout: instances of jobs with a machine and a time for each step.

const MOST_JOBS = 100000;
const MOST_MACHINES = 1000;
const FIRST_LINES = 200;
const INSTANCE = /^\s*instance\s+(\S+)\s*$/;
const SIZES = /^\s*(\d{1,6})\s+(\d{1,4})\s*$/;

/**
 * The job shops in a text: those that begin with a line “instance NAME”, or the one of a text that
 * has sizes and steps alone. Machines count from 0 in the file and from 1 in the routes.
 * @param {string} text
 * @returns {{name: string, machines: number, rows: object[]}[]} none where the text is no such file
 */
export function readJobShops(text) {
  const hasSizes = text.split("\n", FIRST_LINES).some((line) => SIZES.test(line));
  if (!hasSizes && !text.includes("instance")) return [];
  const lines = text.replace(/^\uFEFF/, "").split(/\r?\n/);
  const begins = lines.flatMap((line, place) => INSTANCE.test(line) ? [place] : []);
  if (begins.length === 0) {
    const only = readShop(lines, 0, "");
    return only?.isWhole ? [only] : [];
  }
  return begins.map((begin, k) =>
    readShop(lines.slice(begin, begins[k + 1]), 1, INSTANCE.exec(lines[begin])[1])).filter(Boolean);
}

/** The job shop of lines, or null where they are none; whole if nothing comes after its steps. */
function readShop(lines, from, name) {
  const at = lines.slice(0, FIRST_LINES).findIndex((line, k) => k >= from && SIZES.test(line));
  const [, jobs, machines] = (SIZES.exec(lines[at] ?? "") ?? []).map(Number);
  if (!(jobs >= 1 && jobs <= MOST_JOBS && machines >= 1 && machines <= MOST_MACHINES)) return null;
  const words = lines.slice(at + 1).join(" ").trim().split(/\s+/);
  const rows = [];
  for (let job = 0; job < jobs; job++) {
    const route = readSteps(words.slice(2 * machines * job, 2 * machines * (job + 1)), machines);
    if (route === null) return null;
    rows.push({ name: `Job ${job + 1}`, route });
  }
  return { name, machines, rows, isWhole: words.length === 2 * machines * jobs };
}

/** A route of pairs of a machine and a time, on each machine once; null where they are none. */
function readSteps(words, machines) {
  const isWhole = words.length === 2 * machines && words.every((word) => /^\d{1,19}$/.test(word));
  const pairs = Array.from({ length: machines }, (_, k) =>
    [Number(words[2 * k]), words[2 * k + 1]]);
  const seen = new Set(pairs.map(([machine]) => machine).filter((machine) => machine < machines));
  if (!isWhole || seen.size < machines) return null;
  return pairs.map(([machine, time]) => `${time.replace(/^0+(?=\d)/, "")}@${machine + 1}`)
    .join(", ");
}
