// Loads modules of web/src into node, for tests that need no browser.
//
// node takes a file of this kind as a module only where a package.json beside it says so.
import { cpSync, mkdtempSync, rmSync, writeFileSync } from "node:fs";
import { tmpdir } from "node:os";
import { join } from "node:path";
import { fileURLToPath, pathToFileURL } from "node:url";

const folder = mkdtempSync(join(tmpdir(), "threefield-"));
cpSync(fileURLToPath(new URL("./src", import.meta.url)), folder, { recursive: true });
writeFileSync(join(folder, "package.json"), '{"type": "module"}');
process.on("exit", () => rmSync(folder, { recursive: true }));

/** What the module of this name exports. */
export function load(name) {
  return import(pathToFileURL(join(folder, `${name}.js`)));
}

/** The job table of rows, as the page makes it. */
export async function tableOf(rows, calendar, columns) {
  const { RowReader, makeTable, noteSameNames } = await load("table");
  const table = await makeTable(rows, new RowReader(calendar, new Set(columns)), async () => true);
  noteSameNames(table);
  return table;
}
