// What is pasted from a spreadsheet or opened as its file: cells, and what the columns are.

import { needsCalendar } from "./calendar.js";
import { plainLetters, unitOfWord } from "./lengths.js";
import { isRouteText, timesOfRoute } from "./routes.js";
import { newRow } from "./table.js";

const LONGEST_HEADING = 100;
const UNIT_AT_END =
  /^(.*?)\s*(?:[([]\s*([a-z]+)\.?\s*[)\]]|(?:[/,]|\s(?:in|en))\s*([a-z]+)\.?)$/;
const PLAIN_STEP = /^\d[\d.,]*(?=\s*@)/;
const DATED = new Set(["time", "time2", "due", "release", "left"]);
// “Step 1”, “Arbeitsgang 2”, “Opération 3”: a column for each step of a route.
const STEP =
  /^(?:step|op|operation|schritt|arbeitsgang|ag|etape|phase|paso|operacion|fase|passo)\d+$/;

const HEADINGS = {
  name: "name job task order item activity product title part id nr no number description "
    + "auftrag vorgang bezeichnung artikel produkt aufgabe nummer nom tache ordre commande article "
    + "nombre tarea trabajo pedido orden producto nome lavoro attivita ordine prodotto",
  time: "time duration processing processingtime worktime work hours minutes p pj time1 machine1 "
    + "first dauer zeit bearbeitungszeit arbeitszeit stunden minuten duree temps heures duracion "
    + "tiempo horas durata tempo ore a",
  time2: "second time2 machine2 secondtime timeonmachine2 processingtime2 duration2 dauer2 zeit2 "
    + "duree2 temps2 duracion2 tiempo2 durata2 tempo2 b",
  weight: "weight priority importance w wj gewicht prioritat wichtigkeit poids priorite peso "
    + "prioridad priorita",
  due: "due duedate deadline duetime delivery deliverydate dueby finishby d dj termin liefertermin "
    + "fallig falligkeit lieferdatum frist echeance livraison datelimite datedelivraison "
    + "vencimiento entrega fechadeentrega fechalimite scadenza consegna datadiconsegna",
  release: "release releasedate ready readydate available earliest earlieststart start r rj "
    + "freigabe verfugbar fruhesterstart bereit disponible disponibilite debut inicio "
    + "fechadeinicio disponibile rilascio inizio",
  left: "left lefttodo remaining remainingtime resttime rest restzeit restdauer verbleibend reste "
    + "restant tempsrestant restante resto tiemporestante temporesiduo residuo",
  cost: "cost costs costfunction h hj kosten cout coste costo",
  route: "route routing routes steps operations arbeitsplan arbeitsgange arbeitsfolge gamme etapes "
    + "ruta pasos operaciones percorso ciclo operazioni",
  after: "after predecessor predecessors dependson depends needs requires previous follows nach "
    + "vorganger apres predecesseur predecesseurs despuesde tras predecesor predecesores dopo "
    + "predecessore predecessori",
};

const FIELD_OF_HEADING = new Map(Object.entries(HEADINGS).flatMap(
  ([field, words]) => words.split(" ").map((word) => [word, field])));

/** Decodes the bytes of a file: UTF-8, UTF-16 with a byte order mark, or else Windows-1252. */
export function decodeText(bytes) {
  const [first, second] = bytes;
  if (first === 0xff && second === 0xfe) return new TextDecoder("utf-16le").decode(bytes);
  if (first === 0xfe && second === 0xff) return new TextDecoder("utf-16be").decode(bytes);
  try {
    return new TextDecoder("utf-8", { fatal: true }).decode(bytes);
  } catch {
    return new TextDecoder("windows-1252").decode(bytes);
  }
}

/**
 * Cuts a text into its cells. Cells in quotes may hold the delimiter, quotes twice and line ends.
 * @param {string} text
 * @returns {{cells: string[][], delimiter: string}} rows without any text are left out
 */
export function readCells(text) {
  const clean = text.replace(/^\uFEFF/, "");
  if (isBarred(clean)) return { cells: barredCells(clean), delimiter: "|" };
  const delimiter = findDelimiter(clean);
  const cells = clean.includes('"')
    ? quotedCells(clean, delimiter).filter((row) => row.some((cell) => cell !== ""))
    : plainCells(clean, delimiter);
  return { cells, delimiter };
}

/** The cells of a text without quotes. */
function plainCells(text, delimiter) {
  const rows = [];
  for (const line of text.split(/\r(?!\n)/.test(text) ? /\r\n?|\n/ : "\n")) {
    const cells = line.split(delimiter);
    let isEmpty = true;
    for (let place = 0; place < cells.length; place++) {
      const cell = cells[place].trim();
      cells[place] = cell;
      if (cell !== "") isEmpty = false;
    }
    if (!isEmpty) rows.push(cells);
  }
  return rows;
}

/** The cells of a text of which some may stand in quotes. */
function quotedCells(text, delimiter) {
  const rows = [];
  let row = [];
  let at = 0;
  while (at < text.length) {
    const cell = readCell(text, at, delimiter);
    row.push(cell.text.trim());
    at = cell.end;
    if (text[at] === delimiter) {
      at++;
      if (at === text.length) row.push("");
      continue;
    }
    at += text.startsWith("\r\n", at) ? 2 : 1;
    rows.push(row);
    row = [];
  }
  if (row.length > 0) rows.push(row);
  return rows;
}

/** Whether a text is a table with bars around its cells, as in Markdown: its first lines say so. */
function isBarred(text) {
  const lines = text.slice(0, 20000).split("\n", 6).map((line) => line.trim()).filter(Boolean);
  return lines.length > 1 && lines.slice(0, 2).every((line) => /^\|.*\|$|^\+[-+=]+\+$/.test(line));
}

/** The cells between bars; lines of dashes are left out, and \\| is a bar in a cell. */
function barredCells(text) {
  return text.split("\n").map((line) => line.trim())
    .filter((line) => line !== "" && !/^[-|:+=\s]+$/.test(line))
    .map((line) => line.replace(/^\|/, "").replace(/\|$/, "").split(/(?<!\\)\|/)
      .map((cell) => cell.replace(/\\\|/g, "|").trim()))
    .filter((row) => row.some((cell) => cell !== ""));
}

/** Reads the cell that begins at a place; `end` is the place of the delimiter or line end. */
function readCell(text, start, delimiter) {
  let at = start;
  let quoted = "";
  if (text[at] === '"') {
    at++;
    for (;;) {
      const quote = text.indexOf('"', at);
      if (quote < 0) return { text: quoted + text.slice(at), end: text.length };
      quoted += text.slice(at, quote);
      at = quote + 1;
      if (text[at] !== '"') break;
      quoted += '"';
      at++;
    }
  }
  const from = at;
  while (at < text.length && text[at] !== delimiter && text[at] !== "\n" && text[at] !== "\r") at++;
  return { text: quoted + text.slice(from, at), end: at };
}

/** The delimiter of a text: a tab, or whichever of ; and , the first lines have more of. */
function findDelimiter(text) {
  const sample = text.slice(0, 20000).replace(/"[^"]*"/g, "");
  if (sample.includes("\t")) return "\t";
  const count = (mark) => sample.split(mark).length;
  return count(";") > 1 && count(";") >= count(",") / 4 ? ";" : ",";
}

/**
 * What the columns of cells are.
 * @typedef {object} Columns
 * @property {(string|null)[]} fields for each column its field, or null
 * @property {?string[]} headings
 * @property {(string|null)[]} units the unit that a heading names: "min", "h" or "d"
 */

/**
 * Finds out what the columns are, from a heading or, without one, from their places.
 * @param {string[][]} cells
 * @returns {Columns}
 */
export function readColumns(cells) {
  const first = cells[0] ?? [];
  const width = cells.reduce((most, row) => Math.max(most, row.length), 0);
  const parts = first.map(partsOfHeading);
  const named = withRoutes(timesByUnit(parts), cells.slice(1));
  const isHeading = ["time", "route"].some((field) => named.includes(field))
    || named.filter(Boolean).length >= 2;
  if (isHeading && !first.some(isRouteText)) {
    return { fields: padded(withoutRepeats(named, cells.slice(1)), width),
      headings: padded(first, width, ""), units: padded(parts.map(({ unit }) => unit), width) };
  }
  const hasHeading = cells.length > 1 && !/\d/.test(first.join("")) && /\d/.test(cells[1].join(""));
  const body = hasHeading ? cells.slice(1) : cells;
  return { fields: guessFields(body, width), headings: hasHeading ? padded(first, width, "") : null,
    units: padded(hasHeading ? parts.map(({ unit }) => unit) : [], width) };
}

/** The fields by their headings; where none is a time, what has a unit, “Sawing (h)”, is one. */
function timesByUnit(parts) {
  const fields = parts.map(({ field }) => field);
  if (fields.includes("time")) return fields;
  const isTime = ({ field, unit, words }) => field === null && unit !== null && words !== "";
  const [first, second, ...more] = parts.flatMap((each, place) => isTime(each) ? [place] : []);
  if (first === undefined || more.length > 0) return fields;
  return fields.map((field, place) =>
    place === first ? "time" : place === second ? "time2" : field);
}

/** Each field once: of several names the first that is no number, of other fields the first. */
function withoutRepeats(named, body) {
  const isNumber = (place) => body.slice(0, 50).every((row) => /^[\d.,:]*$/.test(row[place] ?? ""));
  const names = named.flatMap((field, place) => field === "name" ? [place] : []);
  const name = names.find((place) => !isNumber(place)) ?? names[0];
  return named.map((field, place) => field === "name" ? place === name ? field : null
    : field === "route" || named.indexOf(field) === place ? field : null);
}

/** Columns without a name of their own that have steps in all their cells are those of a route. */
function withRoutes(named, body) {
  return named.map((field, place) => field ?? (isLike(body, place, isRouteText) ? "route" : null));
}

/** Whether the first cells of a column that have a text are all like this. */
function isLike(body, place, holds) {
  const filled = body.slice(0, 50).map((row) => row[place] ?? "").filter(Boolean);
  return filled.length > 0 && filled.every(holds);
}

/**
 * Guesses the columns by what they hold: a name, a number for the time or a route, a due date,
 * names.
 */
function guessFields(body, width) {
  const fields = withRoutes(Array(width).fill(null), body);
  const has = (place, pattern) => isLike(body, place, (cell) => pattern.test(cell));
  let column = 0;
  const take = (field, holds) => {
    const found = fields.findIndex((each, place) => place >= column && !each && holds(place));
    if (found < 0) return;
    fields[found] = field;
    column = found + 1;
  };
  take("name", (place) => !has(place, /^[\d.,:]+$/));
  if (fields.includes("route")) column = fields.lastIndexOf("route");
  else take("time", (place) => has(place, /^\d+([.,:]\d+)?( ?[a-z]+)?$/i));
  if (!fields.includes("time") && !fields.includes("route")) return fields;
  take("due", (place) => has(place, /\d/));
  take("after", (place) => !has(place, /^[\d.,:]+$/));
  return fields;
}

function padded(list, width, filler = null) {
  return [...list, ...Array(Math.max(0, width - list.length)).fill(filler)];
}

/**
 * The field of a heading, the unit that it names, and its words without the unit: “Dauer (min)”,
 * “Time in hours”, “Zeit/Std.”, or “Minuten” alone.
 * @returns {{field: ?string, unit: ?string, words: string}}
 */
export function partsOfHeading(heading) {
  if (heading.length > LONGEST_HEADING) return { field: null, unit: null, words: "" };
  const known = (words) => {
    const letters = words.replace(/[^a-z0-9]/g, "");
    return FIELD_OF_HEADING.get(letters) ?? (STEP.test(letters) ? "route" : null);
  };
  const plain = plainLetters(heading);
  const found = UNIT_AT_END.exec(plain);
  const unit = found ? unitOfWord(found[2] ?? found[3]) : null;
  if (unit) {
    return { field: known(found[1]), unit, words: heading.slice(0, found[1].length).trim() };
  }
  const whole = plain.length > 2 ? unitOfWord(plain.replace(/\.$/, "")) : null;
  return { field: known(plain.replace(/\([^)]*\)|\[[^\]]*\]/g, "")), unit: whole,
    words: heading.trim() };
}

/**
 * The rows of a table, from cells whose columns are known; the heading's row is left out.
 * @param {string[][]} cells
 * @param {Columns} columns
 * @param {?string} plain the unit of numbers without one; those of a column with another get theirs
 */
export function rowsOfCells(cells, columns, plain = null) {
  const body = columns.headings ? cells.slice(1) : cells;
  const { fields, units } = columns;
  const used = fields.flatMap((field, place) => field
    ? [{ field, place, unit: units[place] === plain ? null : units[place] }] : []);
  return body.map((row) => {
    const found = newRow();
    for (const { field, place, unit } of used) {
      const cell = row[place] ?? "";
      found[field] = field === "route" ? withStep(found.route, cell, unit)
        : unit && DATED.has(field) && /^\d[\d.,]*$/.test(cell) ? `${cell} ${unit}` : cell;
    }
    return found;
  });
}

/** A route with the step of one more column, in the unit of its heading. */
function withStep(route, cell, unit) {
  const step = unit ? cell.replace(PLAIN_STEP, `$& ${unit}`) : cell;
  return [route, step].filter(Boolean).join("; ");
}

/** The names of two machines, where the headings of their times are no words for a time. */
export function machinesOf({ fields, headings }) {
  const places = [fields.lastIndexOf("time"), fields.lastIndexOf("time2")];
  if (!headings || places.includes(-1)) return [];
  return places.map((place) => partsOfHeading(headings[place]))
    .map(({ field, words }) => field === null ? words : "");
}

/** The unit of numbers in the column of times or routes, as its heading has it, or null. */
export function unitOfTimes({ fields, units }) {
  return units[fields.lastIndexOf("time")] ?? units[fields.indexOf("route")] ?? null;
}

/** The different texts of some fields of rows. */
export function textsOf(rows, ...fields) {
  const texts = new Set();
  for (const row of rows) for (const field of fields) texts.add(row[field]);
  return [...texts];
}

/** Whether dates with slashes can only be read with the month first, as in 3/25/2025. */
export function hasMonthFirst(rows) {
  const parts = textsOf(rows, "due", "release")
    .map((cell) => /(?:^|\s)(\d{1,2})\/(\d{1,2})(?!\d)/.exec(cell)).filter(Boolean);
  return parts.some((part) => Number(part[2]) > 12) && parts.every((part) => Number(part[1]) <= 12);
}

/** Whether rows have dates, or times with a unit, so that a calendar is needed. */
export function needCalendar(rows) {
  return rows.some((row) => needsCalendar(row.due) || needsCalendar(row.release)
    || needsCalendar(row.time) || needsCalendar(row.time2)
    || row.route !== "" && timesOfRoute(row.route).some(needsCalendar));
}

/**
 * How a spreadsheet that these cells come from divides cells, and what its numbers have before
 * decimals; without cells to tell, as is usual in the language.
 * @param {string[][]} cells
 * @param {string} delimiter by which they were divided
 * @param {string} language such as "de-DE"
 * @returns {{delimiter: string, decimal: string}}
 */
export function styleOf(cells, delimiter, language) {
  const some = cells.slice(0, 200).flat();
  const hasComma = some.some((cell) => /^\d+,\d+( ?[a-z]+)?$/i.test(cell));
  const hasPoint = some.some((cell) => /^\d+\.\d+( ?[a-z]+)?$/i.test(cell));
  const isUsual = new Intl.NumberFormat(language).format(1.5).includes(",");
  const takesComma = delimiter === ";" && !hasPoint || hasComma && !hasPoint
    || delimiter !== "," && !hasPoint && isUsual;
  return takesComma ? { delimiter: ";", decimal: "," } : { delimiter: ",", decimal: "." };
}

/** One row of a file for spreadsheets. Cells that a spreadsheet would run as formulas get a '. */
export function csvLine(cells, delimiter) {
  return cells.map((cell) => csvCell(String(cell), delimiter)).join(delimiter) + "\r\n";
}

function csvCell(text, delimiter) {
  const isNumber = /^-?\d+([.,]\d+)?$/.test(text);
  const safe = !isNumber && /^\s*[=+\-@\t\r|%＝＋－＠]/.test(text) ? `'${text}` : text;
  const needsQuotes = safe.includes(delimiter) || !isNumber && /["\r\n,;]/.test(safe);
  return needsQuotes ? `"${safe.replace(/"/g, '""')}"` : safe;
}
