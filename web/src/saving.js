// Files to save: the plan as a table for spreadsheets, and the chart as a picture.

import { isDated, lengthText, momentField } from "./calendar.js";
import { lateness } from "./plan.js";
import { csvLine } from "./spreadsheet.js";

// A name may hold control characters, which no XML has.
const NOT_IN_XML = /[\0-\x08\x0b\x0c\x0e-\x1f\ufffe\uffff]/g;

/** Offers a text or bytes to be saved as a file. */
export function saveFile(name, content, type) {
  const address = URL.createObjectURL(new Blob([content].flat(), { type }));
  const link = document.createElement("a");
  link.href = address;
  link.download = name;
  link.click();
  setTimeout(() => URL.revokeObjectURL(address), 10000);
}

/**
 * The plan as a file for spreadsheets: one line for each piece, by machine and start. It begins
 * with a byte order mark, by which spreadsheets know UTF-8.
 * @param {object} plan
 * @param {{delimiter: string, decimal: string}} style as `styleOf` gives it
 * @returns {string[]} parts of the text
 */
export function planAsCsv(plan, { delimiter, decimal }) {
  const { schedule, calendar, jobs, completion } = plan;
  const line = (...cells) => csvLine(cells, delimiter);
  const hours = (steps) => lengthField(calendar, steps, decimal);
  const parts = ["\uFEFF" + line("Name", "Machine", "Start", "End", "Working time", "Completion",
    "Due", "Lateness", "Late")];
  for (const piece of plan.order) {
    const job = schedule.job[piece] - 1;
    const late = lateness(plan, job);
    parts.push(line(
      jobs[job].name, plan.names[schedule.machine[piece] - 1] || schedule.machine[piece],
      momentField(calendar, schedule.start[piece], false),
      momentField(calendar, schedule.stop[piece], true),
      hours(schedule.stop[piece] - schedule.start[piece]),
      momentField(calendar, completion[job], true),
      late === null ? "" : momentField(calendar, jobs[job].due, true),
      late === null ? "" : hours(late), late > 0 ? "late" : ""));
  }
  return parts;
}

/** A length of time as a number of hours, or of steps without a calendar. */
function lengthField(calendar, steps, decimal) {
  if (!isDated(calendar)) return String(steps);
  const hours = steps * calendar.stepMinutes / 60;
  return Number.isInteger(hours * 100) ? String(hours).replace(".", decimal)
    : lengthText(calendar, steps);
}

/**
 * A chart as a file of its own: the colours of the light page stand in it, and a white ground.
 * @param {SVGElement} chart
 * @param {string} style the rules of the chart
 * @param {string} title
 */
export function chartAsFile(chart, style, title) {
  const copy = chart.cloneNode(true);
  const make = (tag) => document.createElementNS(chart.namespaceURI, tag);
  const rules = make("style");
  rules.textContent = style;
  const ground = make("rect");
  for (const [name, value] of [["width", "100%"], ["height", "100%"], ["fill", "#ffffff"]]) {
    ground.setAttribute(name, value);
  }
  for (const bar of copy.querySelectorAll("[tabindex]")) {
    bar.removeAttribute("tabindex");
    bar.removeAttribute("role");
  }
  const words = make("title");
  words.textContent = title;
  copy.prepend(words, rules, ground);
  return new XMLSerializer().serializeToString(copy).replace(NOT_IN_XML, "\ufffd");
}
