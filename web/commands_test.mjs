// The program's commands by the page's module: node --test web/*_test.mjs
import assert from "node:assert/strict";
import { execFileSync, spawnSync } from "node:child_process";
import { test } from "node:test";
import { fileURLToPath } from "node:url";
import { perform } from "./commands.mjs";
import { load } from "./solver.mjs";

const ROOT = fileURLToPath(new URL("..", import.meta.url));
const MOST_BYTES = 2 ** 28;
const STEPS = /\rstep \d+ of \d+|\r\x1b\[K/g;
const ABSENT = /^threefield: (\S+).* is not in the page's module/;

// What no module has.
const ABSENCES = ["--border", "--bound", "--bounds", "--csv", "--explain", "--fold", "--from",
  "--height", "--index", "--input", "--json", "--measures", "--order", "--orders", "--output",
  "--rule", "--schedule", "--steps", "--to", "--width", "random", "trace"];

/** Opens the texts of a session in place of files. */
const opening = (texts) => (name) => {
  if (name !== "-" && texts[name] === undefined) {
    throw Object.assign(new Error(name), { code: "ENOENT" });
  }
  return () => new TextEncoder().encode(texts[name] ?? "");
};

const firstLine = (text) => text.split("\n", 1)[0];

/** Whether the same is said in the words of this command: help, a wrong command line, a cause. */
function isInOtherWords(shown, given) {
  if (shown.status !== given.status) return false;
  if (shown.status === 5) return firstLine(shown.errors) === firstLine(given.errors);
  const isHelp = shown.output.includes("Usage: threefield");
  const isCause = shown.words[0] === "problems" && firstLine(shown.errors) === given.errors.trim();
  return isHelp || isCause;
}

/** How what a session shows and what is given compare. */
function compared(shown, given) {
  const output = new TextDecoder().decode(given.output);
  const errors = shown.errors.replace(STEPS, "");
  if (output === shown.output && errors === given.errors && given.status === shown.status) {
    return "same";
  }
  const absent = ABSENT.exec(given.errors);
  if (absent) return absent[1];
  if (isInOtherWords(shown, given)) return "other words";
  return "different";
}

test("sessions give the program's bytes and status, or what is not in the module", async (t) => {
  const words = [fileURLToPath(new URL("../bench/sessions.py", import.meta.url))];
  const sessions = JSON.parse(execFileSync("python3", words, { maxBuffer: MOST_BYTES }));
  const solver = await load();
  const places = {};
  for (const session of sessions) {
    const given = await perform(session.words, async () => solver, opening(session.texts));
    (places[compared(session, given)] ??= []).push(session.place);
  }
  for (const [what, list] of Object.entries(places)) t.diagnostic(`${what}: ${list.length}`);
  assert.deepEqual(places.different ?? [], []);
  assert.ok(places.same.length > sessions.length / 2);
  const others = ["same", "other words"];
  const absences = solver.can("plan") ? ABSENCES : [...ABSENCES, "plan"].sort();
  assert.deepEqual(Object.keys(places).filter((what) => !others.includes(what)).sort(), absences);
});

/** Runs the command as a process. */
function run(words, input = "") {
  const { status, stdout, stderr } =
    spawnSync(process.execPath, ["web/threefield.mjs", ...words], { cwd: ROOT, input });
  return [status, stdout.toString(), stderr.toString()];
}

test("files and standard input are read, and what is given is written", () => {
  const table = "table 1\njob 1 p=2\njob 2 p=1\n";
  const [status, answer, errors] = run(["solve", "-p", "1||sumC", "-"], table);
  assert.deepEqual([status, errors], [0, ""]);
  assert.match(answer, /^answer 2\nproblem 1\|\|sumC\n(.*\n)*value 4\n(.*\n)*end\n$/);
  assert.deepEqual(run(["gantt"], answer), [0, "length 3\nmachine 1 |211|\n", ""]);
  const judged = ["-p", "1||sumC", "examples/table.txt", "-"];
  assert.equal(run(["check", ...judged], answer)[0], 1);
  assert.deepEqual(run(["check", "-p", "1||sumC", "none.txt", "-"], answer),
    [4, "", "threefield: device fault\n"]);
  assert.deepEqual(run(["check", "-p", "1||sumC", "examples", "-"], answer),
    [4, "", "threefield: device fault\n"]);
  assert.equal(run([])[0], 5);
});

test("a plan is asked of a module that has it, and a module that lacks it opens nothing", async () => {
  const words = ["plan", "-p", "1||sumwT", "--steps", "7", "a"];
  const table = new TextEncoder().encode("table 1\n");
  const requests = [];
  const planning = { can: (command) => command === "plan",
    run: (request) => requests.push(request) && { status: 6, output: table, errors: "" } };
  const { status, output } = await perform(words, async () => planning, () => () => table);
  assert.deepEqual([status, output], [6, table]);
  const { command, problem, steps, instance } = requests.at(-1);
  assert.deepEqual([command, problem, steps, instance], ["plan", "1||sumwT", 7, table]);
  const { errors } = await perform(words, async () => ({ ...planning, can: () => false }), assert.fail);
  assert.equal(errors,
    "threefield: plan is not in the page's module; the built program has it (README.md)\n");
});

test("words are read as the program reads them; a wrong line opens nothing", async () => {
  const solver = await load();
  const table = new TextEncoder().encode("table 1\njob 1 p=2\n");
  const ends = async (words, open) => {
    const { status, errors } = await perform(words, async () => solver, open);
    return [status, firstLine(errors)];
  };
  const good = [["-pP||sumC", "-m2", "a"], ["-p=P||sumC", "--machines=2", "a"],
    ["--machines", "002", "a", "--problem", "P||sumC"], ["-m", "2", "-p", "P||sumC", "--", "-a"],
    ["-m", "2", "-p", "P||sumC", "--jobs", "-1", "--pair", "-", "--explain=never", "-"]];
  for (const words of good) {
    assert.deepEqual(await ends(["solve", ...words], () => () => table), [0, ""]);
  }
  const wrong = [[["-p", "P||sumC", "a", "b"], "error: unexpected argument 'b' found"],
    [["-p", "P||sumC", "--json=1", "a"],
      "error: unexpected value '1' for '--json' found; no more were expected"],
    [["-p", "--json", "a"],
      "error: a value is required for '--problem <TEXT>' but none was supplied"],
    [["-p", "a", "\u001b[1m\n", "ä\n"], "error: unexpected argument '\\xc3\\xa4\\x0a' found"],
    [["-p", "a", "--json", "a"],
      "threefield: --json is not in the page's module; the built program has it (README.md)"],
    [["-p", "1||sumC", "-m", "1.5", "a"], "threefield: --machines takes a number from 1 to 1000"]];
  for (const [words, line] of wrong) {
    assert.deepEqual(await ends(["solve", ...words], assert.fail), [5, line]);
  }
});
