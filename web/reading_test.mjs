// What the page reads of texts as people write them: node --test web/*_test.mjs
//
// The plan starts on Monday 30 November 2026; a day is 08:00-12:00 and 13:00-17:00.
import assert from "node:assert/strict";
import { test } from "node:test";
import { load, tableOf } from "./modules.mjs";

const { assumedOf, breaks, defaultSettings, isoDay, makeCalendar, momentField, readDuration, readMoment,
  today } = await load("calendar");
const { hasMonthFirst, readCells, readColumns, rowsOfCells, styleOf, unitOfTimes } = await load("spreadsheet");
const { guess } = await load("guesses");
const { emptyState } = await load("state");
const { columnsUsed, readNotation } = await load("problems");

const SETTINGS = { ...defaultSettings(), step: "5", start: "2026-11-30" };
const calendarOf = (changes = {}) => makeCalendar({ ...SETTINGS, ...changes }).calendar;

/** Imports cells as the dialog does, and gives the state and the job table that follow. */
async function pasted(text, before = emptyState()) {
  const { cells } = readCells(text);
  const columns = readColumns(cells);
  const unit = unitOfTimes(columns);
  const rows = rowsOfCells(cells, columns, unit);
  const { patch, hints } = guess(before, rows, unit, true);
  const state = { ...before, ...patch, rows };
  const { calendar } = makeCalendar(state.settings);
  const table = await tableOf(rows, calendar, columnsUsed(readNotation(state.problem)));
  return { state, hints, table, calendar, text: new TextDecoder().decode(table.bytes) };
}

const inDays = (count) => isoDay(today() + count);

// ---- cells ----

// A length in minutes, or null where it is refused.
const LENGTHS = [
  ["de", "3 Std", 180], ["de", "1,5 Std.", 90], ["de", "2 Tage", 960], ["de", "90 Min.", 90],
  ["de", "1 Std 30 Min", 90], ["de", "½ Tag", 240], ["de", "1 Woche", 2400], ["de", "ca. 3 Std", null],
  ["de", "1.500,5 min", null], ["de", "2 AT", 960],
  ["en", "2.5 h", 150], ["en", "90 min", 90], ["en", "1:30", 90], ["en", "01:30:00", 90],
  ["en", "2 days?", 960], ["en", "1h 5m", 65], ["en", "1,200 min", null], ["en", "3-4 h", null],
  ["fr", "3h30", 210], ["fr", "1 h 30", 90], ["fr", "2 jours", 960], ["fr", "2 j", 960],
  ["fr", "0,5 heure", 30], ["fr", "1 200 mn", 1200], ["fr", "une heure", null],
  ["es", "3 horas", 180], ["es", "2 días", 960], ["es", "45 minutos", 45], ["es", "1,5", 90],
  ["it", "2 giorni", 960], ["it", "3 ore", 180], ["it", "2 gg", 960], ["it", "1 settimana", 2400],
  ["it", "90'", 90],
];

// A due date as the moment that it means, or null where it is refused.
const DUES = [
  ["de", "03.12.2026", "2026-12-03 17:00"], ["de", "Do 03.12.", "2026-12-03 17:00"],
  ["de", "3. Dez 2026", "2026-12-03 17:00"], ["de", "3. Dezember 14 Uhr", "2026-12-03 14:00"],
  ["de", "Donnerstag, 3.12.26, 14.30 Uhr", "2026-12-03 14:30"], ["de", "KW 49", "2026-12-04 17:00"],
  ["de", "01. Mrz 27", "2027-03-01 17:00"], ["de", "Mo 03.12.", null], ["de", "Ende Dezember", null],
  ["de", "31.12", null], ["de", "Dez 26", null], ["de", "2 Tage", "2026-12-01 17:00"],
  ["en", "Dec 3, 2026 2:00 PM", "2026-12-03 14:00"], ["en", "Thu 3 Dec", "2026-12-03 17:00"],
  ["en", "3rd December 2026", "2026-12-03 17:00"], ["en", "2026-12-03T14:00", "2026-12-03 14:00"],
  ["en", "5 d", "2026-12-04 17:00"], ["en", "24", "2026-12-02 17:00"], ["en", "46359", null],
  ["en", "Dec 3, 2026 12:00 PM", "2026-12-03 12:00"], ["en", "3 Dec 12:30 am", "2026-12-02 17:00"],
  ["en", "next Friday", null], ["en", "14:00", null], ["en", "2026", null],
  ["fr", "3 déc. 2026", "2026-12-03 17:00"], ["fr", "1er décembre 2026", "2026-12-01 17:00"],
  ["fr", "jeu. 3 déc. à 14h30", "2026-12-03 14:30"], ["fr", "03/12/2026 14h", "2026-12-03 14:00"],
  ["es", "3 de diciembre de 2026", "2026-12-03 17:00"], ["es", "jue 3 dic", "2026-12-03 17:00"],
  ["es", "3/12/26", "2026-12-03 17:00"], ["es", "lunes 3 dic", null],
  ["it", "3 dic 2026", "2026-12-03 17:00"], ["it", "gio 3/12", "2026-12-03 17:00"],
  ["it", "3 dicembre 2026 ore 14", "2026-12-03 14:00"], ["it", "30 febbraio 2027", null],
];

test("lengths of time in five languages", () => {
  const calendar = calendarOf();
  for (const [language, text, minutes] of LENGTHS) {
    const { steps, fault } = readDuration(calendar, text);
    assert.equal(fault ? null : steps * 5, minutes, `${language}: ${text}: ${fault}`);
  }
});

test("due dates in five languages", () => {
  const calendar = calendarOf();
  for (const [language, text, moment] of DUES) {
    const { steps, fault } = readMoment(calendar, text, true);
    assert.equal(fault ? null : momentField(calendar, steps, true), moment,
      `${language}: ${text}: ${fault}`);
  }
});

test("a week ends with its last working day", () => {
  const at = (days) => momentField(calendarOf({ days }), readMoment(calendarOf({ days }), "KW 49",
    true).steps, true);
  assert.deepEqual([[1, 2, 3, 4, 5], [1, 2, 3, 4, 5, 6], [0, 1, 2, 3, 4, 5, 6], [1, 2]].map(at),
    ["2026-12-04 17:00", "2026-12-05 17:00", "2026-12-06 17:00", "2026-12-01 17:00"]);
});

test("with the month first, slashes mean another day", () => {
  const calendar = calendarOf({ dayFirst: false });
  for (const [text, moment] of [["12/3/2026", "2026-12-03 17:00"], ["12/3", "2026-12-03 17:00"],
    ["3.12.2026", "2026-12-03 17:00"], ["Thu 12/3", "2026-12-03 17:00"]]) {
    assert.equal(momentField(calendar, readMoment(calendar, text, true).steps, true), moment, text);
  }
  assert.match(readMoment(calendar, "25/3/2026", true).fault, /Is the month first\?/);
});

test("a release date is the beginning of its day, and a moment within a step goes to its end", () => {
  const calendar = calendarOf({ step: "60" });
  const at = (text) => momentField(calendar, readMoment(calendar, text, false).steps, false);
  assert.equal(at("3. Dez"), "2026-12-03 08:00");
  assert.equal(at("3 déc. 14h30"), "2026-12-03 15:00");
  assert.equal(at("1,5"), "2026-11-30 10:00");
  assert.equal(at("KW 50"), "2026-12-07 08:00");
});

// ---- pasted tables ----

test("the unit of a heading is that of its numbers", async () => {
  const { text, calendar } = await pasted("Auftrag\tDauer (min)\tTermin\nA\t90\t" + inDays(9)
    + "\nB\t45\t" + inDays(10) + "\n");
  assert.equal(calendar.stepMinutes, 15);
  assert.match(text, /^table 1\njob 1 p=6 d=\d+\njob 2 p=3 d=\d+\n$/);
});

test("a heading with a unit gives hours and decimals a meaning without any date", async () => {
  const { text, table } = await pasted("Name;Dauer (h);Fällig\nA;1,5;24\nB;2;30\n");
  assert.deepEqual(table.faults, []);
  assert.equal(text, "table 1\njob 1 p=3 d=48\njob 2 p=4 d=60\n");
});

test("a due number is in the unit of the times, whatever the step", async () => {
  const { text } = await pasted("Name;Time (h);Due\nA;1;24\nB;0,25;30\n");
  assert.equal(text, "table 1\njob 1 p=4 d=96\njob 2 p=1 d=120\n");
});

test("columns of other units than the times keep their own", async () => {
  const { state, text } = await pasted("Name;Dauer (min);Termin (Tage)\nA;90;2\nB;60;3\n");
  assert.equal(state.rows[0].due, "2 d");
  assert.equal(text, "table 1\njob 1 p=3 d=32\njob 2 p=2 d=48\n");
});

test("one overdue order does not move the start of the plan", async () => {
  const { state, table } = await pasted(`Name,Time,Due\nA,3 h,${inDays(-9)}\nB,2 h,${inDays(9)}\n`);
  assert.equal(state.settings.start, inDays(0));
  assert.match(table.notes[0].message, /^Due before the plan starts, so the job is late/);
});

test("a plan of the past starts where its dates do", async () => {
  const { state } = await pasted("Name,Time,Due\nA,3 h,5.3.2025\nB,2 h,4.3.2025\n");
  assert.equal(state.settings.start, "2025-03-04");
});

test("a column that is not used does not move the start", async () => {
  const { state } = await pasted("Name;Dauer;Termin;Bestelldatum\n"
    + `A;3 h;${inDays(9)};15.10.2020\nB;2 h;${inDays(8)};15.10.2020\n`);
  assert.equal(state.settings.start, inDays(0));
});

test("a table with bars around its cells is read, and its line of dashes is none", async () => {
  const { state, text } = await pasted("| Order | Time | Due |\n|:------|-----:|-----|\n"
    + "| A\\|B | 3 | 9 |\r\n|  C   |  2   |     |\n\n");
  assert.deepEqual(state.rows.map((row) => row.name), ["A|B", "C"]);
  assert.equal(text, "table 1\njob 1 p=3 d=9\njob 2 p=2 d=14\n");
  const boxed = await pasted("+---+---+\n| Name | Time |\n+---+---+\n| A | 3 |\n+---+---+\n");
  assert.equal(boxed.text, "table 1\njob 1 p=3\n");
  const bare = await pasted("Name;Time\n|A|;3\n|B|;2\n");
  assert.deepEqual(bare.state.rows.map((row) => row.name), ["|A|", "|B|"]);
});

test("formulas that failed and links of project plans have advice", async () => {
  for (const each of ["#WERT!", "#VALUE!", "#BEZUG!", "#NAME?", "#DIV/0!", "#N/A", "#NV", "#¡VALOR!",
    "#N/D", "#REF!"]) {
    const { table } = await pasted(`Name;Time\nA;${each}\nB;2\n`);
    assert.match(table.faults[0].message, /is a formula that failed/, each);
  }
  for (const [link, words] of [["1FS+2", /project plan. Write #1 for .*; a waiting time/],
    ["1AA", /Write #1 for .*, the only kind of link/], ["2EA", /Write #2 for “after the job in row 2”\.$/],
    ["2", /Write #2 to mean/], ["1X", /no job called “1X”\.$/]]) {
    const { table } = await pasted(`Name\tTime\tAfter\nA\t1\t\nB\t2\t\nC\t3\t${link}\n`);
    assert.match(table.faults[0].message, words, link);
  }
});

test("where no job has a time, that is said once", async () => {
  const { table } = await pasted("Name;Due\nA;3\nB;4\nC;5\n");
  assert.deepEqual(table.faults.map(({ row }) => row), [null]);
  const one = await pasted("Name;Time\nA;\nB;4\nC;\nD;\n");
  assert.deepEqual(one.table.faults.map(({ row }) => row), [0, 2, 3]);
});

test("nights and longer breaks lie between working days", () => {
  const calendar = calendarOf({ step: "60" });
  assert.deepEqual(breaks(calendar, 0, 48, 9), [8, 16, 24, 32, 40].map((step) =>
    ({ step, isLong: step === 40 })));
  assert.deepEqual(breaks(calendar, 0, 48, 3), [{ step: 40, isLong: true }]);
  assert.deepEqual(breaks(calendar, 9, 16, 9), []);
  const later = calendarOf({ step: "60", startTime: "15:00" });
  assert.deepEqual(breaks(later, 0, 4, 9), [{ step: 2, isLong: false }]);
});

test("second times make a flow shop of one machine", async () => {
  const { state, hints, text } = await pasted("Name,Machine 1,Machine 2\nA,3,6\nB,5,\n");
  assert.equal(state.problem, "F2||Cmax");
  assert.match(hints.join(" "), /flow shop/);
  assert.equal(text, "table 1\njob 1 p=3,6\njob 2 p=5,0\n");
});

test("two unknown headings with units are the times of two machines", async () => {
  const { state, text } = await pasted("Order;Sawing (h);Painting (min)\nA;3;30\nB;0;60\n");
  assert.equal(state.problem, "F2||Cmax");
  assert.equal(text, "table 1\njob 1 p=6,1\njob 2 p=0,2\n");
});

test("release dates are taken into the problem", async () => {
  const { state, hints, text } = await pasted("Name,Time,Due,Release\nA,3,9,2\nB,2,4,\n");
  assert.equal(state.problem, "1|rj,prmp|Lmax");
  assert.match(hints.join(" "), /release dates/);
  assert.equal(text, "table 1\njob 1 p=3 d=9 r=2\njob 2 p=2 d=4 r=0\n");
});

test("one unreadable time spoils only itself", async () => {
  const { state, table } = await pasted("Name,Time,Due\nA,ca. 3,4\nB,\"0,5 h\",5\nC,1.5 h,6\n");
  assert.equal(state.settings.step, "30");
  assert.deepEqual(table.faults.map(({ row }) => row), [0]);
});

test("a missing due date never counts, and a missing weight is 1", async () => {
  const before = { ...emptyState(), problem: "1||sumwT" };
  const { text, table } = await pasted("Name,Time,Due,Weight\nA,3,4,\nB,2,,5\nC,1,9,2\n", before);
  assert.equal(text, "table 1\njob 1 p=3 d=4 w=1\njob 2 p=2 w=5 d=15\njob 3 p=1 w=2 d=9\n");
  assert.deepEqual(table.notes.map(({ row, field }) => [row, field]), [[1, "due"], [0, "weight"]]);
  assert.equal(table.jobs[1].due, null);
  const none = await pasted("Name,Time\nA,3\nB,2\n");
  assert.equal(none.text, "table 1\njob 1 p=3\njob 2 p=2\n");
});

test("the description is the name, and not the number beside it", async () => {
  const { state } = await pasted("Nr;Vorgang;Dauer\n1;Sägen;3\n2;Lackieren;4\n");
  assert.deepEqual(state.rows.map((row) => row.name), ["Sägen", "Lackieren"]);
});

test("a file for spreadsheets is divided as the language's spreadsheet does", () => {
  const comma = { delimiter: ";", decimal: "," };
  const point = { delimiter: ",", decimal: "." };
  for (const [cells, delimiter, language, style] of [
    [[], null, "de-DE", comma], [[], null, "fr-FR", comma], [[], null, "en-US", point],
    [[["A", "1,5"]], "\t", "en-US", comma], [[["A", "1.5"]], "\t", "de-DE", point],
    [[["A", "3"]], ";", "en-US", comma], [[["A", "3"]], ",", "de-DE", point],
    [[["A", "2,5 h"]], ";", "it", comma], [[["A", "3"]], "\t", "es", comma]]) {
    assert.deepEqual(styleOf(cells, delimiter, language), style, `${cells} ${delimiter} ${language}`);
  }
});

// ---- what is shown is what was read ----

const TIMES = ["90", "1,5", "2", "45 min", "3h30", "2 Tage", "1:15", "0.25", "1½ h", "1 sem"];
const DATES = ["", "24", "1,5", "Do 03.12.", "7.12.", "KW 50", "3 déc. 14h30", "5 d", "2026-12-09",
  "09/12/2026", "16/12 10:00", "Dec 15", "-3"];

/** A text as it is read, with nothing left to assume: "90 min", "2026-12-03 14:00". */
function writtenOut(calendar, field, text) {
  const assumed = assumedOf(calendar, field, text);
  if (assumed === "") return text;
  const { date } = ["due", "release"].includes(field) ? readMoment(calendar, text.trim(), field === "due") : {};
  if (!date) return `${text.trim()} ${assumed}`;
  const day = isoDay(field === "due" ? date.lastDay : date.day);
  const two = (number) => String(number).padStart(2, "0");
  return date.clock === null ? day : `${day} ${two(Math.floor(date.clock / 60))}:${two(date.clock % 60)}`;
}

test("what is shown, pasted again, gives the same job table", async () => {
  let seed = 7;
  const random = (list) => {
    seed = (seed * 1103515245 + 12345) % 2147483648;
    return list[(seed >> 8) % list.length];
  };
  for (let round = 0; round < 300; round++) {
    const settings = { ...SETTINGS, step: random(["5", "15"]), plain: random(["min", "h", "d"]) };
    const { calendar } = makeCalendar(settings);
    const rows = Array.from({ length: 4 }, (_, k) => ({ name: `Job ${k}`, time: random(TIMES),
      due: random(DATES), release: random(DATES.slice(0, -1)) }))
      .filter(({ time }) => !readDuration(calendar, time).fault);
    if (rows.length === 0) continue;
    const state = { ...emptyState(), settings, problem: "1|rj,prmp|Lmax" };
    const cells = (shown) => ["Name\tTime\tDue\tRelease", ...rows.map((row) => ["name", "time", "due",
      "release"].map((field) => shown ? writtenOut(calendar, field, row[field]) : row[field])
      .join("\t"))].join("\n");
    const [once, again] = [await pasted(cells(false), state), await pasted(cells(true), state)];
    assert.equal(again.text, once.text, cells(false) + "\n" + cells(true));
    assert.deepEqual(again.table.faults, once.table.faults);
  }
});

test("cells without quotes are those that stand in quotes", () => {
  const rows = [["A", "3", "", "x"], ["B", " 4", "2026-12-03", ""], ["", "", "", ""], ["C", "5", "1,5", "y "]];
  const text = (quoted, end) => rows.map((row) =>
    row.map((cell) => quoted ? `"${cell}"` : cell).join(";")).join(end) + end;
  const wanted = rows.filter((row) => row[0] !== "").map((row) => row.map((cell) => cell.trim()));
  for (const end of ["\n", "\r\n", "\r"]) {
    for (const quoted of [true, false]) {
      assert.deepEqual(readCells(text(quoted, end)), { cells: wanted, delimiter: ";" });
    }
  }
});

test("commas in names and numbers do not divide cells that semicolons divide", () => {
  assert.deepEqual(readCells("Auftrag;Dauer\nKiste, rot, lang;1,5\n"), { delimiter: ";",
    cells: [["Auftrag", "Dauer"], ["Kiste, rot, lang", "1,5"]] });
});

test("the month is first where a date has no other reading, and no date contradicts it", () => {
  const isMonthFirst = (...dates) => hasMonthFirst(dates.map((due) => ({ due, release: "" })));
  assert.deepEqual([isMonthFirst("3/25/2025", "4/3/2025"), isMonthFirst("4/3/2025", "12/12/2025"),
    isMonthFirst("3/25/2025", "25/3/2025")], [true, false, false]);
});

test("texts that are alike are read alike", async () => {
  const rows = ["A;2;2030-12-10", "B;2 h;2030-12-10", "C;x;2030-12-10", "D;x;2030-13-10"];
  const { table } = await pasted(`Job;Time (h);Due\n${rows.join("\n")}\n`);
  assert.deepEqual(table.jobs.map(({ time, due }) => [time, due === table.jobs[0].due]),
    [[2, true], [2, true], [0, true], [0, false]]);
  assert.deepEqual(table.faults.map(({ row, field }) => [row, field]), [[2, "time"], [3, "time"], [3, "due"]]);
});
