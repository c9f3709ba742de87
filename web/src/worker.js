// Runs the module beside the page, so that the page never waits for it.

import { buffersOf } from "./memory.js";
import { judge, plain, plan, promise, relief, search } from "./runs.js";
import { loadSolver } from "./solver.js";
import { unpackedBytes } from "./unpacking.js";

// A plan of a few jobs lets the browser compile what plans need; some of many jobs, so soon after
// the start, let it compile well what large tables need.
const WARMING = { few: 3, many: 2000, plans: 3, milliseconds: 300 };

let solver = null;

/** Unpacks the module; or it is a compiled one already. */
function unpack(text) {
  return text instanceof WebAssembly.Module ? text : unpackedBytes(text);
}

/** Makes a plan of so many jobs that no one asked for. */
function warm(jobs) {
  const lines = Array.from({ length: jobs }, (_, place) =>
    `job ${place + 1} p=${place % 97 + 1} d=${place * 61 % 90000}\n`);
  const instance = new TextEncoder().encode(`table 1\n${lines.join("")}`);
  plan(solver, { problem: "1||Lmax", machines: null, instance });
}

function warmWell() {
  for (let k = 0; k < WARMING.plans; k++) warm(WARMING.many);
}

const KINDS = {
  plan, search, longer: search, promise, relief, judge, picture: plain, problems: plain,
};

onmessage = async ({ data }) => {
  if (data.module !== undefined) {
    try {
      solver = await loadSolver(unpack(data.module));
      postMessage({ loaded: true, module: solver.module, makesPlans: solver.can("plan") });
      setTimeout(warm, 0, WARMING.few);
      setTimeout(warmWell, WARMING.milliseconds);
    } catch (error) {
      postMessage({ loaded: false, message: String(error) });
    }
    return;
  }
  const begun = performance.now();
  let reply;
  try {
    reply = KINDS[data.kind](solver, data);
  } catch (error) {
    reply = { status: 4, errors: `the module stopped: ${error}` };
  }
  reply.milliseconds = performance.now() - begun;
  postMessage(reply, buffersOf(reply, reply.schedule, reply.evaluation));
};
