// What cells that are pasted suggest for the calendar and for the problem.

import { STEPS, isoDay, makeCalendar, today } from "./calendar.js";
import { readDateTime } from "./dates.js";
import { readLength } from "./lengths.js";
import { hasRoutes, readNotation, writeNotation } from "./problems.js";
import { timesOfRoute } from "./routes.js";
import { hasMonthFirst, needCalendar, textsOf } from "./spreadsheet.js";

const STEP_LENGTHS = [60, 30, 15, 10, 5, 1];

/**
 * What rows suggest that are pasted.
 * @param {import("./state.js").State} state of before
 * @param {object[]} rows
 * @param {?string} unit that the heading of the times names
 * @param {boolean} replaces whether they take the place of those that are there
 * @returns {{patch: object, hints: string[]}} of the state, and in sentences what was changed
 */
export function guess(state, rows, unit, replaces) {
  const patch = {};
  const hints = [];
  const had = state.settings.step !== "plain";
  if (replaces && !had && state.settings.start !== "") {
    patch.settings = { ...state.settings, start: "" };
  }
  if (had || unit || needCalendar(rows)) {
    patch.settings = settingsFor(state.settings, rows, unit, replaces);
    const { words } = STEPS.find((step) => step.id === patch.settings.step);
    if (!had) {
      hints.push("There are dates or units, so the plan has a calendar now and counts in steps of "
        + `${words}. Change that under “Calendar”.`);
    } else if (patch.settings.step !== state.settings.step) {
      hints.push(`The times need steps of ${words}.`);
    }
  }
  const found = problemFor(readNotation(state.problem), rows);
  if (found) {
    patch.problem = writeNotation(found.problem);
    hints.push(...found.hints);
  }
  return { patch, hints };
}

function settingsFor(before, rows, unit, replaces) {
  const dayFirst = hasMonthFirst(rows) ? false : before.dayFirst;
  const settings = { ...before, dayFirst, plain: unit ?? before.plain };
  if (before.step === "plain") {
    settings.start = firstDay(dayFirst, rows);
    settings.step = longestStep(settings, rows, STEP_LENGTHS);
  } else if (replaces && before.step !== "day") {
    const most = Number(before.step);
    settings.step = longestStep(settings, rows, STEP_LENGTHS.filter((step) => step <= most));
  }
  return settings;
}

/** Today, or the earliest due or release date where all of them are before. */
function firstDay(dayFirst, rows) {
  const near = today();
  const days = textsOf(rows, "due", "release")
    .map((text) => readDateTime(text, dayFirst, near).day).filter((day) => day !== undefined);
  const last = days.reduce((latest, day) => Math.max(latest, day), -Infinity);
  const isPast = days.length > 0 && last < near;
  return isoDay(isPast ? days.reduce((first, day) => Math.min(first, day)) : near);
}

/** The longest of these steps of which all times that can be read are whole numbers. */
function longestStep(settings, rows, steps) {
  const { calendar } = makeCalendar({ ...settings, step: "1" });
  if (!calendar) return settings.step === "plain" ? "60" : settings.step;
  const times = [...textsOf(rows, "time", "time2"),
    ...textsOf(rows, "route").flatMap(timesOfRoute)].filter(Boolean)
    .map((text) => readLength(text, calendar.sizes, calendar.plain).minutes)
    .filter((minutes) => Number.isInteger(minutes));
  return String(steps.find((step) => times.every((minutes) => minutes % step === 0)) ?? 1);
}

/**
 * A problem that takes into account what the rows have: routes, second times, precedence, release
 * dates.
 * @returns {?{problem: object, hints: string[]}} null where the problem of now may stay
 */
export function problemFor(problem, rows) {
  const has = (field) => rows.some((row) => row[field] !== "" && row[field].trim() !== "");
  if (has("route") && problem && !hasRoutes(problem)) return jobShop(problem, has);
  if (problem?.environment !== "1") return null;
  if (has("time2")) {
    return { problem: { environment: "F", count: 2, conditions: [], objective: "Cmax" },
      hints: ["Jobs have two times, so the problem is a flow shop now: machine 1, then machine "
        + "2."] };
  }
  const conditions = new Set(problem.conditions);
  const hints = [];
  if (has("after") && ["Lmax", "hmax"].includes(problem.objective) && !conditions.has("prec")) {
    conditions.add("prec");
    hints.push("Jobs come after others, so the problem has precedence constraints now.");
  }
  const canBeReleased = problem.objective === "Lmax" && !conditions.has("prec");
  if (has("release") && canBeReleased && !conditions.has("rj")) {
    conditions.add("rj").add("prmp");
    hints.push("Jobs have release dates, so the problem has them now, and jobs may be interrupted "
      + "and resumed: without that no exact method is here.");
  }
  return hints.length === 0 ? null : { hints, problem: { ...problem,
    conditions: ["rj", "prec", "prmp"].filter((id) => conditions.has(id)) } };
}

/** The job shop of rows with routes: the objective stays where there are due dates for it. */
function jobShop(problem, has) {
  const conditions = ["rj", "prec"].filter((id) => has(id === "rj" ? "release" : "after"));
  const objective = has("due") ? problem.objective.replace("hmax", "Lmax") : "Cmax";
  return { problem: { environment: "J", count: null, conditions, objective },
    hints: ["Jobs have routes, so the problem is a job shop now."] };
}
