// Plans to begin with.

import { defaultSettings } from "./calendar.js";
import { emptyState } from "./state.js";
import { FIELDS, newRow } from "./table.js";

const HOURS = { ...defaultSettings(), step: "60", start: "2025-03-03" };

const EXAMPLES = [
  {
    title: "A print shop: one machine, due dates, precedence",
    problem: "1|prec|Lmax", settings: HOURS, columns: ["name", "time", "due", "weight", "after"],
    rows: [
      ["Plates, spring catalogue", "4 h", "2025-03-04", "2"],
      ["Spring catalogue", "14 h", "2025-03-07", "4", '"Plates, spring catalogue"'],
      ["Business cards Meyer", "2 h", "2025-03-03", "1"],
      ["Menu “Zum Anker”", "3 h", "2025-03-05", "2"],
      ["Posters, city theatre", "9 h", "2025-03-06", "3"],
      ["Flyers, city theatre", "5 h", "2025-03-06", "2", "Posters, city theatre"],
      ["Annual report, cover", "6 h", "2025-03-10", "3"],
      ["Annual report, inside", "18 h", "2025-03-12", "4", "Annual report, cover"],
      ["Labels, dairy", "8 h", "2025-03-11", "2"],
      ["Letterheads", "3 h", "2025-03-05", "1"],
      ["School newspaper", "11 h", "2025-03-13", "1"],
      ["Wedding invitations", "4 h", "2025-03-14", "2"],
    ],
  },
  {
    title: "Four orders: one machine, plain numbers",
    problem: "1|prec|Lmax", columns: ["name", "time", "weight", "due", "after"],
    rows: [["Cutting", "3", "2", "4"], ["Drilling", "2", "1", "6"],
      ["Painting", "4", "4", "9", "Cutting"], ["Packing", "1", "1", "5"]],
  },
  {
    title: "Three machines in parallel, preemption",
    problem: "P|prmp|Cmax", machines: "3", columns: ["name", "time"],
    rows: [["Axle", "11"], ["Bracket", "7"], ["Casing", "9"], ["Disc", "4"], ["Engine block", "12"],
      ["Flange", "5"], ["Gear", "8"], ["Hub", "3"]],
  },
  {
    title: "Flow shop of two machines (Johnson)",
    problem: "F2||Cmax", columns: ["name", "time", "time2"],
    rows: [["A", "3", "6"], ["B", "5", "2"], ["C", "1", "2"], ["D", "6", "6"], ["E", "7", "5"]],
  },
  {
    title: "Release dates, jobs may be interrupted (Horn)",
    problem: "1|rj,prmp|Lmax", columns: ["name", "release", "time", "due"],
    rows: [["Long job", "0", "6", "14"], ["Rush order", "3", "2", "6"], ["Repair", "4", "3", "9"],
      ["Inspection", "12", "2", "16"]],
  },
  {
    title: "Weighted completion times (Smith)",
    problem: "1||sumwC", columns: ["name", "time", "weight"],
    rows: [["One", "3", "1"], ["Two", "1", "1"], ["Three", "2", "4"], ["Four", "5", "6"]],
  },
  {
    title: "A workshop: each order on its own route",
    problem: "J||Cmax", columns: ["name", "route", "due"],
    machineNames: "Sawing; Milling; Painting",
    rows: [["Shelf", "3@Sawing, 4@Milling, 2@Painting", "14"],
      ["Desk", "2@Milling, 3@Sawing, 4@Painting", "12"], ["Frame", "4@Sawing, 3@Painting", "9"],
      ["Cabinet", "5@Milling, 2@Painting, 1@Sawing", "16"], ["Door", "6@Painting", "10"]],
  },
];

export const EXAMPLE_TITLES = EXAMPLES.map((example) => example.title);

/** The state of an example. */
export function exampleState(number) {
  const { columns, rows, ...rest } = EXAMPLES[number];
  const values = (row) => Object.fromEntries(
    FIELDS.map((field) => [field, row[columns.indexOf(field)] ?? ""]));
  return { ...emptyState(), ...rest, rows: rows.map((row) => newRow(values(row))) };
}
