// What the page makes of the texts that the module prints: node --test web/*_test.mjs
import assert from "node:assert/strict";
import { test } from "node:test";
import { load } from "./modules.mjs";

const { readAnswer, readEvaluation } = await load("answer");
const { judge, plan, search } = await load("runs");
const { makePlan } = await load("plan");
const { leastWords, valueText } = await load("values");
const { defaultSettings, makeCalendar } = await load("calendar");
const bytes = (text) => new TextEncoder().encode(text);

const ASSESSED = `evaluation 1
problem F2||sumT
jobs 2
machines 2
fits
claimed 3
value 3
best 3
gap 0
offered 3
bound 3
multipliers 1 1 0 1
job 1 3 5 0
job 2 0 4 3
end
`;

test("an evaluation of a problem without a solver has its bound and its jobs", () => {
  const found = readEvaluation(bytes(ASSESSED), 2);
  assert.deepEqual([found.value, found.best, found.gap, found.bound], ["3", "3", "0", "3"]);
  assert.equal(found.certificate, "multipliers 1 1 0 1");
  assert.deepEqual([[...found.start], [...found.completion]], [[3, 0], [5, 4]]);
  assert.deepEqual(found.counts, ["0", "3"]);
  assert.ok(found.isOfJobs);
});

test("multipliers of the precedence constraints belong to the certificate", () => {
  const found = readEvaluation(bytes(ASSESSED.replace("job 1 3 5 0", "arcs 2\njob 1 3 5 0")), 2);
  assert.equal(found.certificate, "multipliers 1 1 0 1\narcs 2");
  assert.deepEqual([[...found.start], [...found.completion]], [[3, 0], [5, 4]]);
  const plan = PLAN.replace("# prices 2 0 1 1", "# multipliers 1 1 1 1 1\n# arcs 1 0");
  assert.deepEqual(readAnswer(bytes(plan)).bound,
    { value: "1", certificate: "multipliers 1 1 1 1 1\narcs 1 0" });
});

test("a certificate that lists jobs stands behind the bound", () => {
  for (const line of ["kept 1 2", "shortest 2 1", "ranks 2 1", "window 1", "alone"]) {
    const found = readEvaluation(bytes(ASSESSED.replace("multipliers 1 1 0 1", line)), 2);
    assert.equal(found.certificate, line);
    assert.deepEqual([[...found.start], [...found.completion]], [[3, 0], [5, 4]]);
  }
});

test("a certificate of one job is not the line of a job", () => {
  const text = "evaluation 1\nproblem P2|prec|Cmax\njobs 2\nmachines 2\nfits\nclaimed 9\nvalue 9\n"
    + "gap 1\nbound 8\njob 1\njob 1 0 4 4\njob 2 4 9 9\nend\n";
  const found = readEvaluation(bytes(text), 2);
  assert.equal(found.certificate, "job 1");
  assert.deepEqual([[...found.start], [...found.completion]], [[0, 4], [4, 9]]);
  const old = readEvaluation(bytes(text.replace(/^job \d+ .*\n/gm, "")), 2);
  assert.deepEqual([old.certificate, old.isOfJobs], ["job 1", false]);
});

test("an evaluation of a solved problem has steps, and no certificate of its own", () => {
  const found = readEvaluation(bytes("evaluation 1\nproblem 1||sumC\njobs 1\nmachines 1\nfits\n"
    + "claimed 3\nvalue 3\nbest 3\ngap 0\nbound 3\nstep total 3 = 3\njob 1 0 3 3\nend\n"), 1);
  assert.deepEqual([found.steps, found.certificate], [["total 3 = 3"], undefined]);
  assert.deepEqual([...found.completion], [3]);
});

test("a schedule of a problem without a solver is judged by its bound", () => {
  const replies = {
    check: { status: 2, output: bytes(""), errors: "threefield: refused: NoSolver\n" },
    evaluate: { status: 0, output: bytes(ASSESSED), errors: "" },
    picture: { status: 0, output: bytes("<svg/>"), errors: "" },
  };
  const found = judge({ run: ({ command }) => replies[command] }, { jobs: 2, isDrawn: true });
  assert.equal(found.verdict, "");
  assert.equal(found.evaluation.gap, "0");
  assert.equal(found.evaluation.completion[1], 4);
});

// ---- plans where no exact method is ----

const BOUND = `bound 1
problem 1||sumT
jobs 3
machines 1
value 1
prices 2 0 1 1
end
`;
const PLAN = `answer 2
problem 1||sumT
jobs 3
machines 1
value 3
piece 2 1 0 2
piece 1 1 2 5
piece 3 1 5 6
cert load
end
${BOUND.replace(/^/gm, "# ").replace(/# $/, "")}`;

/** A module that has these commands, and gives these replies. */
const moduleOf = (replies) => ({ can: (command) => command in replies,
  run: ({ command }) => replies[command] });

test("a plan within a gap has its schedule and its bound", () => {
  const found = search(moduleOf({ plan: { status: 6, output: bytes(PLAN), errors: "" } }), {});
  assert.deepEqual([found.status, found.isOptimal], [0, false]);
  assert.equal(found.schedule.value, "3");
  assert.deepEqual(found.schedule.bound, { value: "1", certificate: "prices 2 0 1 1" });
  assert.deepEqual([...found.schedule.job], [2, 1, 3]);
});

test("without an evaluation the pieces say when jobs start and are completed", () => {
  const table = { jobs: ["A", "B", "C"].map((name) => ({ name, due: null })), index: null };
  const plan = makePlan(table, readAnswer(bytes(PLAN)), null, null, []);
  assert.deepEqual([[...plan.start], [...plan.completion]], [[2, 0, 5], [5, 2, 6]]);
});

test("a plan is optimal by the status, and a bound may be missing", () => {
  const alone = PLAN.slice(0, PLAN.indexOf("# "));
  const optimal = search(moduleOf({ plan: { status: 0, output: bytes(PLAN), errors: "" } }), {});
  const bare = search(moduleOf({ plan: { status: 6, output: bytes(alone), errors: "" } }), {});
  assert.ok(optimal.isOptimal);
  assert.deepEqual([bare.isOptimal, bare.schedule.bound], [false, null]);
});

test("a module without plans, or without one for a problem, gives the bound alone", () => {
  const bound = { status: 0, output: bytes(BOUND), errors: "" };
  const none = { status: 2, output: bytes(""), errors: "threefield: refused: NoSolver\n" };
  for (const replies of [{ bound }, { bound, plan: none }]) {
    const found = search(moduleOf(replies), {});
    assert.equal(found.schedule, undefined);
    assert.deepEqual(found.bound, { value: "1", certificate: "prices 2 0 1 1" });
  }
  const full = { status: 3, output: bytes(""), errors: "threefield: want of memory\n" };
  assert.deepEqual(search(moduleOf({ bound, plan: full }), {}), { status: 3, errors: full.errors });
});

test("values are lengths of time where the objective is one", () => {
  const { calendar } = makeCalendar({ ...defaultSettings(), step: "30", start: "2026-11-30" });
  for (const [notation, value, words] of [["1||sumT", "5", "2 h 30 min"], ["1||sumU", "5", "5"],
    ["1|rj|Lmax", "-3", "−1 h 30 min"], ["1||sumwT", "6", "3 h"], ["1||sumwU", "6", "6"],
    ["1||hmax", "-6", "−6"], ["1||sumwC", "9".repeat(18), "9".repeat(18)]]) {
    assert.equal(valueText(calendar, notation, value), words, notation);
  }
  assert.equal(leastWords(calendar, "1||sumT", "22"), "less than 11 h");
  assert.equal(leastWords(null, "1||sumU", "1"), "fewer than 1 late job");
});

test("a plan and its evaluation stand in one text", () => {
  const head = "problem 1||sumC\njobs 1\nmachines 1\n";
  const answer = `answer 2\n${head}value 3\npiece 1 1 0 3\ncert pairs\nend\n`;
  const evaluation = `evaluation 1\n${head}fits\nclaimed 3\nvalue 3\nbest 3\ngap 0\nbound 3\n`
    + "job 1 0 3 3\nend\n";
  const report = { status: 0, errors: "", output: bytes(answer + evaluation) };
  const found = plan(moduleOf({ report }), {});
  assert.deepEqual(found.answer, bytes(answer));
  assert.deepEqual([found.schedule.value, found.evaluation.value], ["3", "3"]);
  assert.deepEqual([[...found.evaluation.start], [...found.evaluation.completion]], [[0], [3]]);
  const refused = { status: 2, errors: "threefield: refused: NoSolver\n", output: bytes("") };
  assert.deepEqual(plan(moduleOf({ report: refused }), {}),
    { status: 2, errors: "threefield: refused: NoSolver\n" });
});
