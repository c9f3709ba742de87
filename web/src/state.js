// The whole state of the page as a text: in a file, or packed into a link.

import { STEPS, defaultSettings } from "./calendar.js";
import { isMonthFirst } from "./dates.js";
import { hasRoutes, readNotation } from "./problems.js";
import { FIELDS, newRow } from "./table.js";

const MOST_ROWS = 200000;
const MOST_TEXT = 64e6;

/** The longest link that is made; browsers and mail programs cut longer ones. */
export const LONGEST_LINK = 16000;

/**
 * @typedef {object} State
 * @property {string} title @property {string} problem the notation @property {string} machines
 * @property {string} machineNames as `machineNames` reads them
 * @property {object} settings of the calendar @property {object[]} rows @property {?object} kept
 * @property {?number[][]} own the planner's own plan: the jobs of each machine in order, by the
 *   identities of their rows
 */

/**
 * @param {string} language of the browser, by which dates begin with the day or the month
 * @returns {State}
 */
export function emptyState(language = "en-GB") {
  const settings = { ...defaultSettings(), dayFirst: !isMonthFirst(language) };
  return { title: "", problem: "1||Lmax", machines: "", machineNames: "", settings, rows: [],
    kept: null, own: null };
}

/** Writes a state as JSON; rows are lists of texts in the order of FIELDS, after their identity. */
export function writeState(state) {
  const rows = state.rows.map((row) => [row.id, ...FIELDS.map((field) => row[field])]);
  return JSON.stringify({ threefield: 1, ...state, rows, own: placesOfOwn(state) });
}

/** The own plan with the places of its rows; those that are gone are left out. */
function placesOfOwn({ own, rows }) {
  if (!own) return null;
  const places = new Map(rows.map(({ id }, place) => [id, place]));
  return own.map((row) => row.map((id) => places.get(id)).filter((place) => place !== undefined));
}

/** Whether two states are the same work, whatever the identities of their rows. */
export function isSameWork(one, other) {
  const text = (state) => writeState({ ...state, kept: null, own: placesOfOwn(state),
    rows: state.rows.map((row, place) => ({ ...row, id: place })) });
  return one.rows.length === other.rows.length && text(one) === text(other);
}

/**
 * Reads a state that anybody may have written: what is not of its type is left at its default.
 * @param {string} text
 * @returns {?State} null where the text is no state
 */
export function readState(text) {
  let data;
  try {
    data = text.length > MOST_TEXT ? null : JSON.parse(text);
  } catch {
    return null;
  }
  if (data?.threefield !== 1 || !Array.isArray(data.rows) || data.rows.length > MOST_ROWS) {
    return null;
  }
  const state = emptyState();
  for (const field of ["title", "problem", "machines", "machineNames"]) {
    state[field] = textOr(data[field], state[field]);
  }
  state.settings = readSettings(data.settings);
  const identities = new Map();
  state.rows = data.rows.filter(Array.isArray).map(([identity, ...texts]) => {
    const row = newRow(
      Object.fromEntries(FIELDS.map((field, place) => [field, textOr(texts[place], "")])));
    if (!identities.has(identity)) identities.set(identity, row.id);
    return row;
  });
  state.kept = readKept(data.kept, identities);
  state.own = readOwn(data.own, state.rows, hasRoutes(readNotation(state.problem)));
  return state;
}

/** The own plan: each row at most once, in a job shop on each machine, by its identity of now. */
function readOwn(data, rows, isByStep) {
  if (!Array.isArray(data) || data.length > 1000 || !data.every(Array.isArray)) return null;
  const all = new Set(rows.keys());
  return data.map((row) => {
    const free = isByStep ? new Set(row.filter((place) => all.has(place))) : all;
    return row.filter((place) => free.delete(place)).map((place) => rows[place].id);
  });
}

function textOr(value, otherwise) {
  return typeof value === "string" && value.length <= 100000 ? value : otherwise;
}

function readSettings(data) {
  const settings = defaultSettings();
  if (typeof data !== "object" || data === null) return settings;
  if (STEPS.some((step) => step.id === data.step)) settings.step = data.step;
  for (const field of ["start", "startTime", "hours", "off"]) {
    settings[field] = textOr(data[field], settings[field]);
  }
  if (Array.isArray(data.days)) {
    settings.days = [0, 1, 2, 3, 4, 5, 6].filter((day) => data.days.includes(day));
  }
  if (typeof data.dayFirst === "boolean") settings.dayFirst = data.dayFirst;
  if (["min", "h", "d"].includes(data.plain)) settings.plain = data.plain;
  return settings;
}

/** The kept plan; its rows have the identities that they have now, 0 where they are gone. */
function readKept(data, identities) {
  if (typeof data !== "object" || data === null) return null;
  const lists = ["ids", "names", "start", "completion"].map((field) => data[field]);
  if (!lists.every((list) => Array.isArray(list) && list.length === lists[0].length)) return null;
  const [ids, names, start, completion] = lists;
  if (![ids, start, completion].flat().every(Number.isFinite)) return null;
  return { ids: ids.map((identity) => identities.get(identity) ?? 0),
    names: names.map((name) => textOr(name, "")), start, completion,
    problem: textOr(data.problem, ""), value: textOr(data.value, ""),
    begin: textOr(data.begin, ""), step: Number.isInteger(data.step) ? data.step : 0 };
}

/** Packs a text into letters that may stand in a link: deflated, base64 with - and _. */
export async function packText(text) {
  const stream = new Blob([text]).stream().pipeThrough(new CompressionStream("deflate-raw"));
  const bytes = new Uint8Array(await new Response(stream).arrayBuffer());
  let letters = "";
  for (let at = 0; at < bytes.length; at += 8192) {
    letters += String.fromCharCode(...bytes.subarray(at, at + 8192));
  }
  return btoa(letters).replace(/\+/g, "-").replace(/\//g, "_").replace(/=+$/, "");
}

/** Unpacks what `packText` packed, or gives null. */
export async function unpackText(packed) {
  try {
    const letters = atob(packed.replace(/-/g, "+").replace(/_/g, "/"));
    const bytes = Uint8Array.from(letters, (letter) => letter.charCodeAt(0));
    const stream = new Blob([bytes]).stream().pipeThrough(new DecompressionStream("deflate-raw"));
    return await readLimited(stream.getReader());
  } catch {
    return null;
  }
}

/** A packed text may be a bomb: reading stops above the most that a state may have. */
async function readLimited(reader) {
  const decoder = new TextDecoder();
  let text = "";
  for (;;) {
    const { done, value } = await reader.read();
    if (done) return text + decoder.decode();
    text += decoder.decode(value, { stream: true });
    if (text.length > MOST_TEXT) return null;
  }
}
