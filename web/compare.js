"use strict";
// Compares the module with the native program, or with another module, on random requests, damaged
// ones among them: exit status, standard output and standard error.
//
//   node web/compare.js MODULE.wasm PROGRAM [CASES] [SEED]
//   node web/compare.js MODULE.wasm OTHER.wasm [CASES] [SEED]
//
// A case is one run of one command. It ends with status 1 where any case differs. Modules with
// 64-bit memory need node's option --experimental-wasm-memory64 before version 24.
const fs = require("fs"), os = require("os"), path = require("path");
const { execFile } = require("child_process");
const { loadSolver } = require("./src/solver.js");
const [modulePath, program, casesWord = "10000", seedWord = "1"] = process.argv.slice(2);
const CASES = Number(casesWord);
const SIDE_BY_SIDE = os.cpus().length;

let state = Number(seedWord) >>> 0;
function random(n) {
  state = (state + 0x6d2b79f5) >>> 0;
  let x = Math.imul(state ^ (state >>> 15), state | 1);
  x ^= x + Math.imul(x ^ (x >>> 7), x | 61);
  return ((x ^ (x >>> 14)) >>> 0) % n;
}
const pick = list => list[random(list.length)];
const once = n => random(n) === 0;

const SOLVED = ["1||sumC", "1|prmp|sumC", "1||sumwC", "1|prmp|sumwC", "1||Lmax", "1|prmp|Lmax", "1|prec|Lmax",
  "1|prec,prmp|Lmax", "1|rj,prmp|Lmax", "1||hmax", "1|prmp|hmax", "1|prec|hmax", "1|prec,prmp|hmax", "P2||sumC",
  "P||sumC", "P3|prmp|Cmax", "P|prmp|Cmax", "F2||Cmax", "F2|prmp|Cmax", "O2||Cmax", "O2|prmp|Cmax"];
const HARD = ["P2||Cmax", "P||Cmax", "1|rj|Lmax", "1|rj|sumwC", "1||sumwT", "1||sumU", "1||sumwU", "1||sumT", "P2||sumwC",
  "P2|rj|Lmax", "F2||sumC", "F2|rj|Lmax", "O2||sumwC", "O2||Lmax", "1|rj,prec|sumC", "F2|nwt|Cmax", "J||Cmax", "J3||Cmax",
  "J||Lmax", "Jm|rj|Lmax", "J||sumwC", "J|prec|sumT", "J||sumwU", "J|nwt|Cmax"];
const ODD = ["", "1||", "1||Lmaxx", "F3||Cmax", "J2|rcrc|Cmax", "J0||Cmax", "J||hmax", "R2||Cmax", "é||Lmax", "1|prec,prec|Lmax", "P0||Cmax", "R||Cmax"];
const problem = command => {
  if (once(30)) return pick(ODD);
  return pick(once(10) === ["plan", "bound"].includes(command) ? SOLVED : HARD);
};

// A word of a line is damaged, or a line.
function damaged(text) {
  const lines = text.split("\n"), k = random(lines.length), line = lines[k];
  lines[k] = pick([
    line.replace(/\d+$/, digits => String(Number(digits) + 1)), line.replace(/\d/, "7"), line.replace(/\d+/, "-3"),
    line.replace(/\d+/, "5000000000000000000"), line.replace(/ /, "  "), line.replace(/=/, " = "), line + " 1", "", "# é",
    line.slice(0, random(line.length + 1)), line + "\r", line + "\n" + line, "job 1 p=1", "end", "prec 1 2", "\u0000",
  ]);
  const whole = lines.join("\n");
  return once(10) ? whole.slice(0, random(whole.length + 1)) : whole;
}
const sometimes = text => once(8) ? damaged(once(3) ? damaged(text) : text) : text;

// A piece of an answer begins and ends later, or its value is another: no text of it is damaged.
function moved(answer) {
  const later = random(4), pieces = answer.match(/^piece .*$/gm) || [], piece = pick(pieces.length ? pieces : [""]);
  if (once(3)) return answer.replace(/^value .*$/m, `value ${random(60)}`);
  return answer.replace(piece, piece.replace(/(\d+) (\d+)$/, (_, start, stop) => `${Number(start) + later} ${Number(stop) + later}`));
}

function table(of) {
  const jobs = 1 + random(once(8) ? 40 : 7), two = /^[FO]/.test(of) !== once(20), long = once(30) ? 10 ** 12 : 1, odd = once(8);
  const isRouted = /^J/.test(of) !== once(20);
  const lines = ["table 1"];
  if (once(15)) lines.push(`machines ${1 + random(4)}`);
  for (let k = 1; k <= jobs; k++) {
    const time = () => (odd && once(9) ? 0 : 1 + random(9)) * long;
    const fields = [isRouted && !(odd && once(9)) ? `p=${route(time, odd)}`
      : `p=${time()}${two ? "," + random(9) * long : ""}`];
    if (!(odd && once(9))) fields.push(`w=${random(9)}`);
    if (!(odd && once(9))) fields.push(`d=${random(40) - 5}`);
    if (!(odd && once(9))) fields.push(`r=${random(15)}`);
    if (!(odd && once(9))) fields.push(`h=${pick(["0", "0,5:10", "0,9:7", "-1,4:0,9:8", odd ? "2,3:1" : "2,3:4"])}`);
    fields.sort(() => random(3) - 1);
    lines.push(`job ${k} ${fields.join(" ")}`);
  }
  if (/prec/.test(of) || once(6)) {
    for (let k = random(4); k > 0; k--) {
      const a = 1 + random(jobs), b = 1 + random(jobs);
      lines.push(once(8) ? `prec ${a} ${b}` : `prec ${Math.min(a, b)} ${Math.max(a, b, 1 + Math.min(a, b))}`);
    }
  }
  return lines.join("\n") + (once(9) ? "" : "\n");
}
// Some of four machines in a random order, and oddly one of them twice or one that there isn't.
function route(time, odd) {
  const machines = [1, 2, 3, 4].sort(() => random(3) - 1).slice(0, 1 + random(4));
  if (odd && once(6)) machines.push(pick([machines[0], 0, 9, 1001]));
  return machines.map(machine => `${time()}@${machine}`).join(odd && once(20) ? ", " : ",");
}
function jobShop() {
  const jobs = 1 + random(5), machines = 1 + random(4), name = pick(["demo", "a"]);
  const row = () => Array.from({ length: machines }, (_, k) => k).sort(() => random(3) - 1)
    .map(k => `${once(40) ? random(5) : k} ${random(9)}`).join(" ");
  const text = ` instance ${name}\n +++\n ${jobs} ${machines}\n${Array.from({ length: jobs }, row).join("\n")}\n`;
  return [text, { kind: "flow", word: pick(["flow", "jobshop"]), name: once(12) ? "other" : name, pair: null }];
}
function tardiness() {
  const jobs = 1 + random(6), row = () => Array.from({ length: jobs }, () => random(20)).join(pick([" ", "  ", "\t"]));
  const text = Array.from({ length: 3 * (1 + random(3)) }, row).join("\n") + "\n";
  return [text, { kind: "wt", jobs: once(10) ? random(9) : jobs, index: once(10) ? random(5) : 1 }];
}
function flowShop() {
  const jobs = 1 + random(5), machines = 2 + random(3), name = pick(["demo", "a", "é"]);
  const row = () => Array.from({ length: machines }, (_, k) => `${k} ${random(9)}`).join(" ");
  const text = ` instance ${name}\n +++\n some words\n ${jobs} ${machines}\n${Array.from({ length: jobs }, row).join("\n")}\n`;
  const pair = once(3) ? null : [random(machines + (once(9) ? 3 : 0)), random(machines)];
  return [text, { kind: "flow", name: once(12) ? "other" : name, pair }];
}
function instance(of) {
  if (once(40) || (/^1\|(prmp)?\|/.test(of) && once(5))) return tardiness();
  if (once(40) || (/^F/.test(of) && once(3))) return flowShop();
  if (once(60) || (/^J/.test(of) && once(3))) return jobShop();
  return [table(of), { kind: "table" }];
}

function words(request) {
  const { format } = request;
  if (request.command === "problems") return ["problems"];
  if (request.command === "gantt") return ["gantt", "-c", String(request.columns), "ANSWER"];
  if (request.command === "picture") return ["gantt", "--svg", "ANSWER"];
  return [
    request.command, "-p", request.problem, "-f", format.word ?? format.kind,
    ...(format.kind === "wt" ? ["--jobs", String(format.jobs), "--index", String(format.index)] : []),
    ...(format.kind === "flow" ? ["--name", format.name] : []),
    ...(format.kind === "flow" && format.pair ? ["--pair", format.pair.join(",")] : []),
    ...(request.machines === null ? [] : ["-m", String(request.machines)]),
    ...(request.command === "solve" ? ["--answer", String(request.answerVersion)] : []),
    ...(["plan", "bound"].includes(request.command) && request.steps !== null ? ["--steps", String(request.steps)] : []),
    ...(request.certificate ? ["--certificate"] : []),
    "INSTANCE", ...(request.command === "check" || request.command === "evaluate" ? ["ANSWER"] : []),
  ];
}

// The requests of a case: to solve, to plan or to bound, or to solve and then to use the answer.
function requestOf(solver, command) {
  const of = problem(command), [text, format] = instance(of), bytes = new TextEncoder().encode(sometimes(text));
  const machines = once(15) || /^P\|/.test(of) && !once(8) ? random(once(9) ? 3000 : 5) : null;
  const asked = { problem: of, machines, format, instance: bytes, answerVersion: 1 + random(2) };
  const request = { command, certificate: ["evaluate", "report"].includes(command) && once(2), columns: random(once(9) ? 2000 : 120),
    steps: /^J/.test(of) ? random(4) : once(2) ? null : random(once(9) ? 3 : 300), answer: new Uint8Array(0), ...asked };
  if (["solve", "report", "plan", "bound", "problems"].includes(command)) return request;
  const solved = solver.run({ command: "solve", ...asked });
  const example = "answer 2\nproblem 1||sumC\njobs 1\nmachines 1\nvalue 3\npiece 1 1 0 3\ncert pairs\nend\n";
  const answer = solved.status === 0 ? new TextDecoder().decode(solved.output) : example;
  return { ...request, answer: new TextEncoder().encode(pick([answer, answer, moved(answer), damaged(answer)])) };
}

function native(folder, request, k) {
  const at = name => path.join(folder, `${name}${k}`);
  fs.writeFileSync(at("INSTANCE"), request.instance);
  fs.writeFileSync(at("ANSWER"), request.answer);
  const args = words(request).map(word => word === "INSTANCE" || word === "ANSWER" ? at(word) : word);
  return new Promise(resolve => execFile(program, args, { encoding: "buffer", maxBuffer: 2 ** 28 }, (error, output, errors) =>
    resolve({ status: error ? error.code : 0, output, errors: errors.toString() })));
}

// An answer with its evaluation behind it, which the program prints in two runs.
async function reported(folder, request, k) {
  const solved = await native(folder, { ...request, command: "solve", certificate: false }, k);
  if (solved.status !== 0) return solved;
  const evaluated = await native(folder, { ...request, command: "evaluate", answer: solved.output }, k);
  return { ...evaluated, output: Buffer.concat([solved.output, evaluated.output]) };
}

// What a request is compared with: a run of the native program, or of another module.
async function comparedWith(folder) {
  if (!program.endsWith(".wasm")) return (request, k) => (request.command === "report" ? reported : native)(folder, request, k);
  const other = await loadSolver(fs.readFileSync(program));
  return async request => {
    const { output, ...rest } = other.run({ ...request, instance: request.command === "problems" ? undefined : request.instance });
    return { ...rest, output: Buffer.from(output) };
  };
}

async function main() {
  const solver = await loadSolver(fs.readFileSync(modulePath));
  const folder = fs.mkdtempSync(path.join(os.tmpdir(), "threefield-"));
  const compared = await comparedWith(folder);
  const counts = {};
  let next = 0, differ = 0;
  async function worker(k) {
    while (next < CASES) {
      next++;
      const hard = pick(solver.can("plan") ? ["plan", "bound"] : ["bound"]);
      const command = pick(["solve", "report", "check", "evaluate", "gantt", "picture", hard, once(20) ? "problems" : "solve"]);
      const request = requestOf(solver, command), mine = solver.run({ ...request, instance: command === "problems" ? undefined : request.instance });
      const theirs = await compared(request, k);
      const count = `${command} ${theirs.status}`;
      counts[count] = (counts[count] || 0) + 1;
      if (mine.status === theirs.status && mine.errors === theirs.errors && Buffer.compare(Buffer.from(mine.output), theirs.output) === 0) continue;
      differ++;
      if (differ < 6) {
        console.log("differs:", words(request).join(" "), "\n", new TextDecoder().decode(request.instance), "\n", new TextDecoder().decode(request.answer),
          "\nmodule:", mine.status, new TextDecoder().decode(mine.output), mine.errors, "\nprogram:", theirs.status, theirs.output.toString(), theirs.errors);
      }
    }
  }
  await Promise.all(Array.from({ length: SIDE_BY_SIDE }, (_, k) => worker(k)));
  fs.rmSync(folder, { recursive: true });
  for (const count of Object.keys(counts).sort()) console.log(count, counts[count]);
  console.log(`${CASES} cases, ${differ} differ`);
  process.exitCode = differ ? 1 : 0;
}
main();
