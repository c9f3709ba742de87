// The page and LibreOffice, in six languages: node --test web/office.mjs
//
// A sheet that was typed in a language's way is read by LibreOffice, whose cells, as they come by the
// clipboard, the page has to read as the sheet's writer would; and a plan that the page saves has to
// be numbers, dates and names there. It needs soffice (Debian's libreoffice-calc-nogui).
import assert from "node:assert/strict";
import { spawnSync } from "node:child_process";
import { mkdirSync, mkdtempSync, readFileSync, rmSync, writeFileSync } from "node:fs";
import { tmpdir } from "node:os";
import { join } from "node:path";
import { after, test } from "node:test";
import { load, tableOf } from "./modules.mjs";

const { defaultSettings, makeCalendar } = await load("calendar");
const { makePlan } = await load("plan");
const { planAsCsv } = await load("saving");
const { readCells, readColumns, rowsOfCells, styleOf, unitOfTimes } = await load("spreadsheet");
const { guess } = await load("guesses");
const { emptyState } = await load("state");
const { newRow } = await load("table");

const folder = mkdtempSync(join(tmpdir(), "threefield-office-"));
after(() => rmSync(folder, { recursive: true }));

// Of each language its headings, what divides cells and decimals, and the third and the fourth of
// December as they are typed.
const LANGUAGES = {
  "de-DE": ["Auftrag;Dauer (Std);Termin;Priorität", ";", ",", "03.12.2026", "04.12.2026"],
  "fr-FR": ["Commande;Durée (h);Échéance;Poids", ";", ",", "03/12/2026", "04/12/2026"],
  "es-ES": ["Pedido;Tiempo (h);Vencimiento;Peso", ";", ",", "03/12/2026", "04/12/2026"],
  "it-IT": ["Ordine;Durata (ore);Scadenza;Peso", ";", ",", "03/12/2026", "04/12/2026"],
  "en-GB": ["Order;Duration (h);Due;Weight", ",", ".", "03/12/2026", "04/12/2026"],
  "en-US": ["Order;Duration (h);Due;Weight", ",", ".", "12/03/2026", "12/04/2026"],
};

// The same orders in each of them, in steps of 15 minutes from Monday 30 November 2026, 08:00, on; a
// day has eight hours. Due in the evening of Thursday, at 14:30 on Friday, and on Thursday again.
const TABLE = `table 1
job 1 p=6 w=2 d=128
job 2 p=1 w=1 d=150
job 3 p=48 w=3 d=128
`;

function typed(language) {
  const [headings, delimiter, decimal, third, fourth] = LANGUAGES[language];
  const rows = [headings.split(";"), ["Drehen", `1${decimal}5`, third, "2"],
    [`Fräsen${delimiter} lang`, `0${decimal}25`, `${fourth} 14:30`, "1"], ["Bohren", "12", third, "3"]];
  return rows.map((row) => row.map((cell) => (cell.includes(delimiter) ? `"${cell}"` : cell))
    .join(delimiter) + "\r\n").join("");
}

/** What LibreOffice makes of a file in a language. */
function converted(language, name, kind, filter, input) {
  const profile = join(folder, language);
  mkdirSync(join(profile, "user"), { recursive: true });
  const item = (path, key, value) => `<item oor:path="${path}"><prop oor:name="${key}" `
    + `oor:op="fuse"><value>${value}</value></prop></item>`;
  writeFileSync(join(profile, "user/registrymodifications.xcu"),
    '<?xml version="1.0" encoding="UTF-8"?><oor:items '
    + 'xmlns:oor="http://openoffice.org/2001/registry">'
    + item("/org.openoffice.Setup/L10N", "ooSetupSystemLocale", language)
    + item("/org.openoffice.Office.Linguistic/General", "DefaultLocale", language)
    + "</oor:items>");
  const ran = spawnSync("soffice", [`-env:UserInstallation=file://${profile}`, "--headless",
    ...(input ? [`--infilter=${input}`] : []), "--convert-to", filter ? `${kind}:${filter}` : kind,
    "--outdir", folder, join(folder, name)], { encoding: "utf8", timeout: 120000 });
  assert.equal(ran.status, 0, ran.stderr);
  return readFileSync(join(folder, name.replace(/\w+$/, kind)), "utf8");
}

/** Imports a text as the dialog does, in a browser of this language, and gives its job table. */
async function imported(text, language) {
  const { cells } = readCells(text);
  const columns = readColumns(cells);
  const unit = unitOfTimes(columns);
  const rows = rowsOfCells(cells, columns, unit);
  const before = emptyState(language);
  const settings = { ...before.settings, step: "15", start: "2026-11-30" };
  const { patch } = guess({ ...before, settings }, rows, unit, true);
  const state = { ...before, settings, ...patch };
  const { calendar } = makeCalendar({ ...state.settings, step: "15", start: "2026-11-30" });
  const table = await tableOf(rows, calendar, ["name", "time", "weight", "due"]);
  return new TextDecoder().decode(table.bytes).replace(/^#.*\n/gm, "");
}

for (const language of Object.keys(LANGUAGES)) {
  test(`a sheet of ${language} is read as it was meant, typed and from LibreOffice`, async () => {
    const text = typed(language);
    const delimiter = LANGUAGES[language][1].charCodeAt(0);
    writeFileSync(join(folder, "typed.csv"), text);
    converted(language, "typed.csv", "ods", "", `CSV:${delimiter},34,76,1,,0,false,true`);
    // As the clipboard gives it: what is shown, with tabs between.
    const cells = converted(language, "typed.ods", "csv",
      "Text - txt - csv (StarCalc):9,34,76,1,,0,false,true,false");
    assert.equal(await imported(text, language), TABLE);
    assert.equal(await imported(cells, language), TABLE, cells);
  });

  test(`a plan that is saved is numbers and dates in LibreOffice of ${language}`, async () => {
    const { calendar } = makeCalendar({ ...defaultSettings(), step: "30", start: "2026-11-30" });
    const rows = [{ name: "=Säge; 1", time: "1 h", due: "2026-11-30 12:00" },
      { name: "007", time: "8 h", due: "2026-12-01 08:30" }].map((row) => newRow(row));
    const table = await tableOf(rows, calendar, ["name", "time", "due"]);
    const list = (...values) => Float64Array.from(values);
    const plan = makePlan(table, { problem: "1||Lmax", jobs: 2, machines: 1, value: "1",
      certificate: "", bound: { value: "0", certificate: "" }, job: list(1, 2), machine: list(1, 1),
      start: list(0, 2), stop: list(2, 18) }, null, calendar, ["Mill"]);
    const style = styleOf([], "\t", language);
    writeFileSync(join(folder, "plan.csv"), planAsCsv(plan, style).join(""));
    const sheet = converted(language, "plan.csv", "fods", "",
      `CSV:${style.delimiter.charCodeAt(0)},34,76,1,,0,false,true`);
    const cell = /<table:table-cell[^>]*office:value-type="(\w+)"([^>]*)>\s*<text:p>([^<]*)/g;
    const cells = [...sheet.matchAll(cell)]
      .map(([, type, attributes, text]) =>
        (type === "string" ? text.replace("&apos;", "'") : /office:(?:date-)?value="([^"]*)"/.exec(attributes)[1]));
    assert.deepEqual(cells.slice(9), [
      "'=Säge; 1", "Mill", "2026-11-30T08:00:00", "2026-11-30T09:00:00", "1",
      "2026-11-30T09:00:00", "2026-11-30T12:00:00", "-3",
      "7", "Mill", "2026-11-30T09:00:00", "2026-12-01T09:00:00", "8",
      "2026-12-01T09:00:00", "2026-12-01T08:30:00", "0.5", "late"]);
  });
}
