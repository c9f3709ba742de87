// What a plan rests on that nobody wrote: units, years, the start, what lacks and what is ignored.

import { isDated, lengthText, momentText } from "./calendar.js";
import { WEEKDAYS } from "./dates.js";
import { readNotation } from "./problems.js";
import { unusedColumns } from "./problem_view.js";
import { timesOfRoute } from "./routes.js";
import { ASSUMED } from "./table.js";

const MOST_NAMED = 10;
const UNITS = { min: "minutes", h: "hours", d: "working days" };

/**
 * The assumptions of a plan, each in a few words and in a sentence.
 * @param {object} table as `makeTable` gives it
 * @param {?object} calendar
 * @param {import("./state.js").State} state
 * @returns {{short: string, long: string}[]}
 */
export function assumptionsOf(table, calendar, state) {
  const found = isDated(calendar)
    ? [...readings(table, calendar, state), startOf(calendar, state)]
    : [{ short: `plain numbers, from ${momentText(calendar, 0, false)}`,
      long: "All times and dates "
      + `are plain numbers in one unit. The plan starts at ${momentText(calendar, 0, false)}.` }];
  return [...found, ...progress(table, calendar), ...lacking(table), ...ignored(table, state)];
}

/** What is done and left out, and what is begun. */
function progress({ jobs, done, isFirst }, calendar) {
  const begun = jobs.filter((job) => job.isBegun);
  const some = (names) => names.slice(0, MOST_NAMED).join(", ")
    + (names.length > MOST_NAMED ? ` and ${names.length - MOST_NAMED} more` : "");
  return [
    done.length > 0 && { short: `${done.length} done`,
      long: `Done, and left out: ${some(done.map((job) => job.name))}.` },
    begun.length > 0 && { short: `${begun.length} begun`, long: "Begun, with what is left: "
      + `${some(begun.map((job) => `${job.name} (${lengthText(calendar, job.time)})`))}.`
      + (isFirst ? " It comes first." : " Others may come before the rest of them.") },
  ].filter(Boolean);
}

/** How texts are read that leave something open, each kind with its first example. */
function readings(table, calendar, { rows, settings }) {
  const example = (bit, ...fields) => {
    const jobs = table.jobs.filter((job) => job.assumed & bit);
    if (jobs.length === 0) return null;
    const texts = fields.map((field) => rows[jobs[0].row][field].trim());
    return { text: texts.find((text) => text !== "" && SHOWS[bit].test(text)) ?? texts[0],
      count: jobs.length };
  };
  const unit = exampleOfRoute(table, rows) ?? example(ASSUMED.unit, "time", "time2");
  const start = example(ASSUMED.start, "due", "release");
  const year = example(ASSUMED.year, "due", "release");
  const order = example(ASSUMED.dayFirst, "due", "release");
  const end = example(ASSUMED.endOfDay, "due");
  const { plain } = settings;
  return [
    unit && { short: `${unit.text} is ${unit.text} ${plain}`, long: `A time without a unit is in `
      + `${UNITS[plain]}, such as ${unit.text} (${jobsOf(unit.count)}).` },
    start && { short: `due ${start.text} is ${start.text} ${plain} after the start`,
      long: `A date that is a number counts ${UNITS[plain]} of working time after the start `
        + `(${jobsOf(start.count)}).` },
    year && { short: "years as shown", long: `A date without a year, such as ${year.text}, is the `
      + `one nearest to the start (${jobsOf(year.count)}).` },
    order && { short: `${order.text} has the ${settings.dayFirst ? "day" : "month"} first`,
      long: `In a date such as ${order.text} the ${settings.dayFirst ? "day" : "month"} comes `
        + "first." },
    end && { short: "", long: "A due date without a time of day is the end of that day "
      + `(${jobsOf(end.count)}).` },
  ].filter(Boolean);
}

/** The first time without a unit of a route, and how many jobs have one. */
function exampleOfRoute({ jobs }, rows) {
  const assumed = jobs.filter((job) => job.steps && job.assumed & ASSUMED.unit);
  if (assumed.length === 0) return null;
  const times = timesOfRoute(rows[assumed[0].row].route);
  return { text: times.find((time) => SHOWS[ASSUMED.unit].test(time)), count: assumed.length };
}

const SHOWS = { [ASSUMED.unit]: /^[\d.,' ]+$/, [ASSUMED.start]: /^[-+−]?[\d.,' ]+$/,
  [ASSUMED.year]: /\d/, [ASSUMED.dayFirst]: /[/-]/, [ASSUMED.endOfDay]: /./ };

function jobsOf(count) {
  return count === 1 ? "one job" : `${count.toLocaleString("en")} jobs`;
}

function startOf(calendar, { settings }) {
  const start = momentText(calendar, 0, false);
  const day = lengthText(calendar, calendar.dayMinutes / calendar.stepMinutes);
  const days = [1, 2, 3, 4, 5, 6, 0].filter((each) => settings.days.includes(each));
  return { short: `from ${start}`, long: `Work starts on ${start}, with ${settings.hours} on `
    + `${days.map((each) => WEEKDAYS[each]).join(", ")}; 1 d is a working day of ${day}.`
    + (settings.off.trim() === "" ? "" : ` Days off: ${settings.off}.`) };
}

/** What stands in the table for what jobs lack. */
function lacking({ jobs, fillers }) {
  const count = (field) => jobsOf(jobs.filter((job) => job[field] === null).length);
  return [
    fillers.due !== null && { short: `${count("due")} without a due date`,
      long: `No due date: ${count("due")}, due at the end of all work, so never late.` },
    fillers.weight !== null && { short: `${count("weight")} without a weight`,
      long: `No weight: ${count("weight")}, each with the weight 1.` },
  ].filter(Boolean);
}

/** What the table has and the problem ignores. */
function ignored(table, { problem }) {
  const known = readNotation(problem);
  const unused = known ? unusedColumns(known, table).join(", ") : "";
  return unused === "" ? [] : [{ short: `ignored: ${unused}`,
    long: `The problem ignores what the table says of ${unused}.` }];
}
