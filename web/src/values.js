// Values of schedules in words: as working time where an objective is a length of time.

import { isDated, lengthText } from "./calendar.js";
import { OBJECTIVES, readNotation } from "./problems.js";

/** Whether the value of a problem is a length of time, perhaps weighted. */
export function isLength(notation) {
  const objective = readNotation(notation)?.objective ?? "hmax";
  return !/^(sumw?U|hmax)$/.test(objective);
}

/**
 * A value as it is shown.
 * @param {?object} calendar
 * @param {string} notation of the problem
 * @param {string} value a whole number, as the module prints it
 */
export function valueText(calendar, notation, value) {
  const number = Number(value);
  if (!isDated(calendar) || !isLength(notation) || !Number.isSafeInteger(number)) {
    return value.replace("-", "−");
  }
  return lengthText(calendar, number);
}

/** How far a plan is from the optimum, to end a sentence with; null where that is not known. */
export function gapWords({ isOptimal, gap, isExact, calendar, problem }) {
  if (isOptimal) return "optimal";
  if (gap === undefined) return null;
  return `${isExact ? "" : "at most "}${valueText(calendar, problem, gap)} above the optimum`;
}

/** What a longer search did to the gap of a plan, in a sentence. */
export function gapChange(before, after) {
  if (after.isOptimal) return "The plan is proved optimal now.";
  const words = gapWords(after);
  if (before.gap !== after.gap && words) {
    return `The plan was ${gapWords(before)}, and is ${words} now.`;
  }
  return `Nothing better was found${words ? `: still ${words}` : ""}.`;
}

/** What a problem minimizes, to begin a sentence with: “Maximum lateness”. */
export function objectiveWords(notation) {
  const { objective } = readNotation(notation) ?? { objective: "Cmax" };
  const words = OBJECTIVES.find((each) => each.id === objective).words.replace(/^the /, "");
  return words[0].toUpperCase() + words.slice(1);
}

/** A value that no schedule falls below, to end a sentence with: “less than 11 h”. */
export function leastWords(calendar, notation, value) {
  if (readNotation(notation)?.objective !== "sumU") {
    return `less than ${valueText(calendar, notation, value)}`;
  }
  return `fewer than ${value} late ${value === "1" ? "job" : "jobs"}`;
}
