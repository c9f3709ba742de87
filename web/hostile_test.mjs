// Texts that are made to slow the page down or to mislead it: node --test web/*_test.mjs
import assert from "node:assert/strict";
import { test } from "node:test";
import { load, tableOf } from "./modules.mjs";

const { isAnswer, isJobTable, newRow, readTable } = await load("table");
const { readState, writeState, emptyState } = await load("state");
const { csvLine, readColumns } = await load("spreadsheet");
const { Store } = await load("store");
const COLUMNS = ["name", "time", "due", "after"];

/** Runs something, and demands that it takes little time of the processor, however busy that is. */
async function quickly(work) {
  const begun = process.cpuUsage();
  const found = await work();
  const { user, system } = process.cpuUsage(begun);
  assert.ok(user + system < 1e7, `${(user + system) / 1000} ms`);
  return found;
}

test("long names are not compared letter by letter", async () => {
  const long = (letter) => letter.repeat(30001);
  const rows = [..."abc"].map((letter) => newRow({ name: long(letter), time: "1" }));
  rows.push(newRow({ name: "d", time: "1", after: long("e") }));
  const table = await quickly(() => tableOf(rows, null, COLUMNS));
  assert.equal(table.faults.length, 1);
  assert.ok(table.faults[0].message.length < 200);
});

test("a short name is still suggested", async () => {
  const rows = [newRow({ name: "Cutting", time: "1" }),
    newRow({ name: "Painting", time: "1", after: "Cuting" })];
  const table = await tableOf(rows, null, COLUMNS);
  assert.equal(table.faults[0].message, "There is no job called “Cuting”. Is “Cutting” meant?");
});

test("a cost function with much space in it is read in a moment", async () => {
  const rows = [newRow({ time: "1", cost: `0${" ".repeat(300000)}1` }),
    newRow({ time: "1", cost: " 0 , 5 : 10 ,9: 20 " })];
  const table = await quickly(() => tableOf(rows, null, ["name", "time", "cost"]));
  assert.deepEqual(table.faults.map(({ row, field }) => [row, field]), [[0, "cost"]]);
  assert.ok(new TextDecoder().decode(table.bytes).includes("job 2 p=1 h=0,5:10,9:20\n"));
});

test("a heading of brackets is no heading, in a moment", async () => {
  const { headings } = await quickly(() => readColumns([["(".repeat(300000), "[".repeat(300000)],
    ["A", "3"]]));
  assert.notEqual(headings, null);
});

test("millions of comment lines stand before a table", async () => {
  const text = `${"#\n".repeat(4e6)}  \r\ntable 1\r\njob 1 p=3\n`;
  assert.ok(await quickly(() => isJobTable(text)));
  assert.equal(readTable(text).rows.length, 1);
  assert.ok(isAnswer(`# made by hand\n\nanswer 2\nproblem 1||sumC\n`));
  assert.ok(isJobTable("\ufefftable 1"));
  for (const other of ["", "#", "table 12\n", "tables 1\n", "# table 1\n", "answer 2\n"]) {
    assert.ok(!isJobTable(other), other);
  }
});

test("rows get numbers of their own, and a kept plan follows them", () => {
  const kept = { problem: "1||Lmax", value: "0", ids: [9007199254740991, 7, 8],
    names: ["A", "B", "C"], start: [0, 1, 2], completion: [1, 2, 3] };
  const state = readState(JSON.stringify({ threefield: 1, kept,
    rows: [[9007199254740991, "A", "1"], [7, "B", "2"], [7, "B again", "2"]] }));
  const ids = state.rows.map((row) => row.id);
  assert.equal(new Set(ids).size, 3);
  assert.ok(ids.every((id) => Number.isSafeInteger(id) && id < 1e6));
  assert.deepEqual(state.kept.ids, [ids[0], ids[1], 0]);
  assert.ok(newRow().id > Math.max(...ids));
});

test("a state is read back as it was written", () => {
  const rows = [newRow({ name: "A", time: "3", due: "9" }), newRow({ name: "B", after: "A" })];
  const kept = { problem: "1||Lmax", value: "0", ids: [rows[1].id], names: ["B"], start: [0],
    completion: [1], begin: "2026-11-30 08:00", step: 30 };
  const again = readState(writeState({ ...emptyState(), title: "T", rows, kept }));
  assert.deepEqual(again.rows.map(({ id: _, ...texts }) => texts),
    rows.map(({ id: _, ...texts }) => texts));
  assert.deepEqual(again.kept, { ...kept, ids: [again.rows[1].id] });
});

test("cells that a spreadsheet would run are marked as text", () => {
  assert.equal(csvLine(["=1", "＝1", "＋1", "－1", "＠A", "@A", " =1", "|x", "-5", "A=1"], ";"),
    "'=1;'＝1;'＋1;'－1;'＠A;'@A;' =1;'|x;-5;A=1\r\n");
});

test("work that is not saved stays so when a link takes its place", () => {
  const store = new Store(emptyState());
  store.replace({ ...emptyState(), rows: [newRow({ time: "1" })] });
  assert.ok(!store.hasUnsavedWork);
  store.change({ title: "A" });
  assert.ok(store.hasUnsavedWork);
  store.replace(emptyState());
  assert.ok(store.hasUnsavedWork);
  store.undo();
  assert.equal(store.state.title, "A");
});
