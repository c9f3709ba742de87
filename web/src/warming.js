// A plan that no one asked for and no one sees: with it the browser compiles what the first one
// needs, before that is there.

import { drawChart } from "./chart.js";
import { makePlan } from "./plan.js";
import { readCells, readColumns, rowsOfCells } from "./spreadsheet.js";
import { RowReader, makeTable } from "./table.js";

const JOBS = 60;
const WIDTH = 600;

/** Makes such a plan where the browser has nothing else to do. */
export function warmUp() {
  globalThis.requestIdleCallback?.(async () => {
    const text = `Name\tTime\tDue\n${Array.from({ length: JOBS }, (_, place) =>
      `Order ${place + 1}\t${place % 7 + 1}\t${5 * place}`).join("\n")}`;
    const { cells } = readCells(text);
    const rows = rowsOfCells(cells, readColumns(cells));
    const reader = new RowReader(null, new Set(["name", "time", "due"]));
    const table = await makeTable(rows, reader, async () => true);
    const plan = makePlan(table, inOrder(table.jobs), null, null, []);
    drawChart(plan, { from: 0, to: plan.length, lines: 1, width: WIDTH, marks: true,
      isMovable: true });
  });
}

/** The schedule of jobs in their order on one machine. */
function inOrder(jobs) {
  const columns = Array.from({ length: 4 }, () => new Float64Array(jobs.length));
  const [job, machine, start, stop] = columns;
  let end = 0;
  jobs.forEach(({ time }, place) => {
    job[place] = place + 1;
    machine[place] = 1;
    start[place] = end;
    end += time;
    stop[place] = end;
  });
  return { problem: "1||Lmax", jobs: jobs.length, machines: 1, value: "0", certificate: "",
    bound: null, job, machine, start, stop };
}
