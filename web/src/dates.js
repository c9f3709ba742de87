// Dates and times of day as people write them, in five languages. A day is a number, counted from
// 1 January 1970.

import { plainLetters } from "./lengths.js";

export const WEEKDAYS = ["Sun", "Mon", "Tue", "Wed", "Thu", "Fri", "Sat"];
export const MONTHS = ["January", "February", "March", "April", "May", "June", "July", "August",
  "September", "October", "November", "December"];

const WEEKDAY_WORDS = ["sunday sonntag dimanche domingo domenica",
  "monday montag lundi lunes lunedi", "tuesday dienstag mardi martes martedi",
  "wednesday mittwoch mercredi miercoles mercoledi", "thursday donnerstag jeudi jueves giovedi",
  "friday freitag vendredi viernes venerdi", "saturday samstag sonnabend samedi sabado sabato"];
const MONTH_WORDS = ["january januar janner janvier enero gennaio",
  "february februar fevrier febrero febbraio", "march marz mrz mars marzo",
  "april avril abril aprile", "may mai mayo maggio", "june juni juin junio giugno",
  "july juli juillet julio luglio", "august aout agosto",
  "september septembre septiembre setiembre settembre", "october oktober octobre octubre ottobre",
  "november novembre noviembre", "december dezember decembre diciembre dicembre"];
const LONGEST = 60;

const TIME_OF_DAY = new RegExp("^(.+?)(?:\\s*,\\s*|\\s+|t(?=\\d))"
  + "((?:um|at|a|as|las|la|alle|ore|h)\\s+)*(\\d{1,2})(?:\\s?(?::|\\.|h|uhr)\\s?(\\d{2}))?"
  + "(:00)?\\s*(uhr|h|hrs?|heures?|horas?|ore|[ap]\\.?\\s?m\\.?)?$");
const NUMBERS = /^(\d{1,2})\s?([-./])\s?(\d{1,2})(?:\s?\2\s?(\d{4}|\d{2})|(\.?))$/;
const NUMBER_AND_YEAR = /^(\d{1,2}\.\s?\d{1,2}\.) (\d{4})$/;
const DAY_AND_MONTH = new RegExp("^(\\d{1,2})(?:\\.|er|st|nd|rd|th|o)?[\\s-]*(?:de |di |of )?"
  + "([a-z]{3,})\\.?(?:[\\s,-]+(?:de |del )?(\\d{4}|\\d{2}))?$");
const MONTH_AND_DAY = /^([a-z]{3,})\.? ?(\d{1,2})(?:st|nd|rd|th)?(?:,? ?(\d{4}))?$/;
const WEEK_WORDS = "(?:kw|cw|wk|w|week|woche|kalenderwoche|semaine|semana|settimana|sem|sett)";
const WEEK = new RegExp(`^(?:${WEEK_WORDS}\\.?\\s*(\\d{1,2})`
  + "|(\\d{1,2})\\.?\\s*(?:kw|cw|kalenderwoche))(?:\\s*[/.,-]?\\s*(\\d{4}|\\d{2}))?$");
const ISO_WEEK = /^(\d{4})-?w(\d{1,2})$/;

/** Whether dates in this language, such as "en-US", begin with the month. */
export function isMonthFirst(language) {
  const [first, ...others] = new Intl.DateTimeFormat(language).formatToParts(new Date())
    .map(({ type }) => type).filter((type) => type !== "literal");
  return first === "month" && others[0] === "day";
}

/** The number of a day. */
export function dayNumber(year, month, date) {
  return Math.round(Date.UTC(year, month - 1, date) / 86400000);
}

/** The year, month and date of a day's number. */
export function fromDay(day) {
  const at = new Date(day * 86400000);
  return { year: at.getUTCFullYear(), month: at.getUTCMonth() + 1, date: at.getUTCDate() };
}

/** The day of the week, 0 for Sunday. */
export function weekdayOf(day) {
  return (((day + 4) % 7) + 7) % 7;
}

function daysOfMonth(year, month) {
  return new Date(Date.UTC(year, month, 0)).getUTCDate();
}

/** The places of those lists that have a word with this beginning. */
function placesOf(lists, beginning) {
  return lists.flatMap((words, place) =>
    words.split(" ").some((word) => word.startsWith(beginning)) ? [place] : []);
}

/**
 * What a date means.
 * @typedef {object} Found
 * @property {number} day the day, or the Monday of a week
 * @property {number} lastDay the same day, or the Sunday of that week
 * @property {?number} clock the time of day in minutes, or null
 * @property {boolean} isYearAssumed whether the year is not written
 * @property {boolean} hasTwoReadings whether it has another meaning with the month first
 */

/**
 * Reads a date and perhaps a time of day.
 * @param {string} text
 * @param {boolean} dayFirst whether 3/4/2025 is 3 April
 * @param {number} near a day; a date without a year is the one nearest to it
 * @returns {Found|{fault: string, isAmbiguous?: boolean, isNone?: boolean}} ambiguous is 3.5, and
 *   none is what does not even look like a date
 */
export function readDateTime(text, dayFirst, near) {
  if (text.length > LONGEST) return noDate(text);
  const letters = plainLetters(text).replace(/\s+/g, " ");
  const whole = readDay(letters, text, dayFirst, near, false);
  if (!whole.fault) return { ...whole, clock: null };
  const split = TIME_OF_DAY.exec(letters);
  if (!split) return whole;
  const [, before, ahead, hours, rest, , half = ""] = split;
  // “3 Dec 26” has no time of day.
  if (!ahead && !rest && !half) return whole;
  const date = readDay(before.replace(/,$/, ""), text, dayFirst, near, true);
  if (date.fault) return date;
  const clock = readClock(`${hours}:${rest ?? "00"}${/^[ap]/.test(half) ? `${half[0]}m` : ""}`);
  return clock === null
    ? { fault: `“${text}” has no time of day between 0:00 and 24:00.` } : { ...date, clock };
}

/** Reads a time of day, such as 14:00, 14h30, 14 Uhr or 2 pm, in minutes; null where it is none. */
export function readClock(text) {
  const found = /^(\d{1,2})(?:[:.h](\d{2}))?(?::\d{2})?\s*([ap]m|uhr|h)?$/i.exec(text.trim());
  if (!found) return null;
  const [, hours, rest = "0", unit = ""] = found;
  const half = /^[ap]m$/i.test(unit) ? unit.toLowerCase() : null;
  if (half && (Number(hours) < 1 || Number(hours) > 12)) return null;
  const hour = half ? Number(hours) % 12 + (half === "pm" ? 12 : 0) : Number(hours);
  const minutes = hour * 60 + Number(rest);
  return Number(rest) < 60 && minutes <= 1440 ? minutes : null;
}

/**
 * Reads a date without a time of day.
 * @returns {Found|{fault: string}}
 */
export function readDate(text, dayFirst, near) {
  if (text.length > LONGEST) return noDate(text);
  return readDay(plainLetters(text).replace(/\s+/g, " "), text, dayFirst, near, false);
}

function noDate(text) {
  return { isNone: true, fault: `“${text.slice(0, LONGEST)}” is not a date. Write it as `
    + "2025-03-14 or 14.03.2025, and with a time of day as 2025-03-14 12:00." };
}

/** Reads a day, perhaps with a day of the week before it, which has to be the right one. */
function readDay(letters, text, dayFirst, near, hasClock) {
  const week = weekParts(letters);
  if (week) return readWeek(week, text, near);
  const parts = dateParts(letters, dayFirst);
  if (parts && (!parts.isBare || hasClock)) return dayOf(parts, text, near, null);
  const named = /^([a-z]{2,})\.?,? ?(?=[\da-z])(.*)$/.exec(letters);
  const weekdays = named ? placesOf(WEEKDAY_WORDS, named[1]) : [];
  const rest = weekdays.length > 0 ? dateParts(named[2], dayFirst) : null;
  if (rest) return dayOf(rest, text, near, weekdays);
  if (parts) {
    return { isAmbiguous: true, fault: `“${text}” can be a date or a number. Write `
      + `${text.trim()}. for the date, or a unit, as in ${text.trim()} h.` };
  }
  return noDate(text);
}

/**
 * The year, month and date of a text. `isBare` where it may be a number as well: 3.5.
 * @returns {?{year: ?number, month: number, date: number, isBare?: boolean,
 *   hasTwoReadings?: boolean}}
 */
function dateParts(letters, dayFirst) {
  const iso = /^(\d{4})([-/.])(\d{1,2})\2(\d{1,2})$/.exec(letters)
    ?? /^((?:19|20)\d{2})()(\d{2})(\d{2})$/.exec(letters);
  if (iso) return { year: Number(iso[1]), month: Number(iso[3]), date: Number(iso[4]) };
  const spaced = NUMBER_AND_YEAR.exec(letters);
  const numbers = NUMBERS.exec(spaced ? `${spaced[1]}${spaced[2]}` : letters);
  if (numbers) return numberParts(numbers, dayFirst);
  const dayAhead = DAY_AND_MONTH.exec(letters);
  const monthAhead = dayAhead ? null : MONTH_AND_DAY.exec(letters);
  const [date, name, year] = dayAhead ? [dayAhead[1], dayAhead[2], dayAhead[3]]
    : monthAhead ? [monthAhead[2], monthAhead[1], monthAhead[3]] : [];
  const months = name ? placesOf(MONTH_WORDS, name) : [];
  // “Dez 26” is the month of a year to some, and a day to others.
  if (months.length !== 1 || monthAhead && !year && Number(date) > 19) return null;
  return { year: fullYear(year), month: months[0] + 1, date: Number(date) };
}

function numberParts([, first, mark, second, year, end], dayFirst) {
  if (mark === "-" && !year) return null;
  const isDayFirst = dayFirst || mark === ".";
  const [date, month] = isDayFirst ? [Number(first), Number(second)]
    : [Number(second), Number(first)];
  return { year: fullYear(year), month, date, isBare: !year && mark === "." && end === "",
    hasTwoReadings: mark !== "." && date <= 12 && month <= 12 && date !== month };
}

function fullYear(text) {
  return text === undefined ? null : text.length === 2 ? 2000 + Number(text) : Number(text);
}

/** The day of a date; without a year the one nearest to a day. */
function dayOf(parts, text, near, weekdays) {
  const { month, date, hasTwoReadings = false } = parts;
  const days = yearsOf(parts.year, near)
    .filter((year) => faultOf({ year, month, date }, text) === null)
    .map((year) => dayNumber(year, month, date));
  const [day] = nearestFirst(days, near);
  if (day === undefined) {
    return { fault: faultOf({ year: parts.year ?? fromDay(near).year, month, date }, text) };
  }
  if (weekdays !== null && !weekdays.includes(weekdayOf(day))) {
    return { fault: `“${text}” has another day of the week: ${date} ${MONTHS[month - 1]} `
      + `${fromDay(day).year} is a ${WEEKDAY_NAMES[weekdayOf(day)]}.` };
  }
  return { day, lastDay: day, isYearAssumed: parts.year === null, hasTwoReadings };
}

/** The years that may be meant: the one that is written, or those around a day. */
function yearsOf(year, near) {
  return year === null ? [-1, 0, 1].map((by) => fromDay(near).year + by) : [year];
}

function nearestFirst(days, near) {
  return days.sort((a, b) => Math.abs(a - near) - Math.abs(b - near));
}

const WEEKDAY_NAMES = ["Sunday", "Monday", "Tuesday", "Wednesday", "Thursday", "Friday",
  "Saturday"];

function faultOf({ year, month, date }, text) {
  if (month < 1 || month > 12) {
    return `“${text}” has no month ${month}. Is the month first? Choose so under “Calendar”.`;
  }
  if (year < 1900 || year > 2500) return `The year of “${text}” is out of range.`;
  const most = daysOfMonth(year, month);
  if (month === 2 && date === 29 && most === 28) {
    return `${year} is not a leap year, so there is no 29 February ${year}.`;
  }
  return date >= 1 && date <= most ? null
    : `There is no day ${date} in ${MONTHS[month - 1]} ${year}: it has ${most} days.`;
}

// ---- weeks ----

function weekParts(letters) {
  const iso = ISO_WEEK.exec(letters);
  if (iso) return { year: Number(iso[1]), week: Number(iso[2]) };
  const found = WEEK.exec(letters);
  return found ? { year: fullYear(found[3]), week: Number(found[1] ?? found[2]) } : null;
}

/** The days of a week as ISO 8601 counts them: week 1 is the one that has 4 January. */
function readWeek({ year, week }, text, near) {
  const mondayIn = (each) => {
    const fourth = dayNumber(each, 1, 4);
    const monday = fourth - (fourth + 3) % 7 + 7 * (week - 1);
    return week >= 1 && fromDay(monday + 3).year === each ? monday : null;
  };
  const mondays = yearsOf(year, near).map(mondayIn).filter((each) => each !== null);
  const [monday] = nearestFirst(mondays, near);
  if (monday === undefined) return { fault: `“${text}” is no week: a year has 52 or 53.` };
  return { day: monday, lastDay: monday + 6, isYearAssumed: year === null, hasTwoReadings: false };
}
