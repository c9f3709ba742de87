// Working time: dates, times of day and durations to whole time steps, and back.
// A time step is a fixed number of working minutes; step 0 begins where the plan starts.

import {
  MONTHS, WEEKDAYS, dayNumber, fromDay, readClock, readDate, readDateTime, weekdayOf,
} from "./dates.js";
import { readLength } from "./lengths.js";

/** The lengths of a time step that the page offers. "plain" counts steps without a calendar. */
export const STEPS = [
  { id: "plain", words: "plain numbers, no dates", minutes: null },
  { id: "1", words: "1 minute", minutes: 1 },
  { id: "5", words: "5 minutes", minutes: 5 },
  { id: "10", words: "10 minutes", minutes: 10 },
  { id: "15", words: "15 minutes", minutes: 15 },
  { id: "30", words: "30 minutes", minutes: 30 },
  { id: "60", words: "1 hour", minutes: 60 },
  { id: "day", words: "1 working day", minutes: null },
];

const FARTHEST = 40000;
const MOST_BREAKS = 4000;
const MOST_STEPS = 1e12;
const LONGEST = 60;
const LONGEST_LIST = 20000;
// Spreadsheets count days from 30 December 1899; a number near to the start may be such a day.
const FIRST_SERIAL = 25569;
const FARTHEST_SERIAL = 3660;

/** Whether a calendar has dates: plain numbers have none, and may start later than at 0. */
export function isDated(calendar) {
  return Boolean(calendar) && !calendar.isPlain;
}

/** Where plain numbers start: 0, or later where some of the plan is done. */
function startOf(calendar) {
  return calendar?.isPlain ? calendar.from : 0;
}

function plainCalendar({ start, dayFirst }) {
  const text = start.trim();
  const from = /^\d{1,12}$/.test(text) ? Number(text) : 0;
  const isNumber = from > 0 || /^0*$/.test(text);
  // A date is that of a calendar before.
  const isWrong = !isNumber && readDate(text, dayFirst, today()).fault;
  return { calendar: from > 0 ? { isPlain: true, from } : null, faults: isWrong ? [{ field: "start",
    message: `The plan starts at a whole number; “${text}” is none.` }] : [] };
}

/** Today by the clock of the browser, as the number of its day. */
export function today() {
  const now = new Date();
  return dayNumber(now.getFullYear(), now.getMonth() + 1, now.getDate());
}

/** The calendar of a new plan. */
export function defaultSettings() {
  return {
    step: "plain", start: "", startTime: "", hours: "08:00-12:00, 13:00-17:00",
    days: [1, 2, 3, 4, 5], off: "", dayFirst: true, plain: "h",
  };
}

/**
 * Makes the calendar of these settings.
 * @returns {{calendar: ?object, faults: {field: string, message: string}[]}}
 *   `calendar` is null where the settings are plain numbers from 0, or at fault
 */
export function makeCalendar(settings) {
  if (settings.step === "plain") return plainCalendar(settings);
  const faults = [];
  const fault = (field, message) => faults.push({ field, message });
  const start = readDate(settings.start, settings.dayFirst, today());
  if (settings.start.trim() === "") {
    fault("start", "Dates need the day on which the plan starts, such as 2025-03-03.");
  } else if (start.fault) fault("start", start.fault);
  else if (start.isYearAssumed) fault("start", `“${settings.start}” needs its year.`);
  const hours = readHours(settings.hours);
  if (hours.fault) fault("hours", hours.fault);
  const off = readDaysOff(settings.off, settings.dayFirst, start.day ?? today());
  if (off.fault) fault("off", off.fault);
  if (settings.days.length === 0) {
    fault("days", "No day of the week is a working day. Choose at least one.");
  }
  const clock = settings.startTime === "" ? 0 : readClock(settings.startTime);
  if (clock === null) fault("startTime", `“${settings.startTime}” is not a time of day.`);
  if (faults.length > 0) return { calendar: null, faults };
  const dayMinutes = hours.spans.reduce((sum, [from, to]) => sum + to - from, 0);
  const known = STEPS.find((step) => step.id === settings.step);
  const calendar = {
    stepMinutes: known.minutes ?? dayMinutes,
    stepWords: known.words,
    dayMinutes,
    sizes: { min: 1, h: 60, d: dayMinutes, w: dayMinutes * settings.days.length },
    spans: hours.spans,
    weekdays: [1, 2, 3, 4, 5, 6, 0].filter((day) => settings.days.includes(day)),
    isWorking: (day) => settings.days.includes(weekdayOf(day)) && !off.days.has(day),
    ahead: [], back: [], aheadTo: start.day, backTo: start.day,
    dayFirst: settings.dayFirst,
    plain: settings.plain,
    year: fromDay(start.day).year,
    startDay: start.day,
    origin: 0,
  };
  if (!extend(calendar, 0)) {
    fault("off", "There is no working day after the start. Check the days off.");
    return { calendar: null, faults };
  }
  calendar.origin = minutesUpTo(calendar, start.day, clock);
  return { calendar, faults };
}

// ---- days ----

/** Grows the list of working days until it has the k-th (from 0), or -k-th before the start. */
function extend(calendar, k) {
  const { ahead, back, isWorking } = calendar;
  for (let tried = 0; k >= ahead.length && k < FARTHEST && tried < 4000; tried++) {
    if (isWorking(calendar.aheadTo)) {
      ahead.push(calendar.aheadTo);
      tried = 0;
    }
    calendar.aheadTo++;
  }
  for (let tried = 0; -k > back.length && -k < FARTHEST && tried < 4000; tried++) {
    if (isWorking(calendar.backTo - 1)) {
      back.push(calendar.backTo - 1);
      tried = 0;
    }
    calendar.backTo--;
  }
  return k >= 0 ? k < ahead.length : -k <= back.length;
}

function workingDay(calendar, k) {
  if (!extend(calendar, k)) return null;
  return k >= 0 ? calendar.ahead[k] : calendar.back[-k - 1];
}

/** How many working days lie before this day, counted from the start; negative before it. */
function workingDaysBefore(calendar, day) {
  const { ahead, back } = calendar;
  while (calendar.aheadTo < day && extend(calendar, ahead.length));
  while (calendar.backTo > day && extend(calendar, -back.length - 1));
  if (day > calendar.aheadTo || day < calendar.backTo) return null;
  const later = countBefore(ahead.length, (k) => ahead[k] < day);
  if (later > 0) return later;
  return -countBefore(back.length, (k) => back[k] >= day);
}

/** The number of leading places for which `holds` is true, where it holds up to some place. */
function countBefore(length, holds) {
  let low = 0;
  let high = length;
  while (low < high) {
    const middle = (low + high) >> 1;
    if (holds(middle)) low = middle + 1;
    else high = middle;
  }
  return low;
}

// ---- moments and steps ----

/** The working minutes from the first working day's beginning up to a moment, or null. */
function minutesUpTo(calendar, day, clock) {
  const days = workingDaysBefore(calendar, day);
  if (days === null) return null;
  const minutes = calendar.isWorking(day) ? minutesWithin(calendar, clock) : 0;
  return days * calendar.dayMinutes + minutes - calendar.origin;
}

/** The working minutes of a working day up to a time of day. */
function minutesWithin({ spans }, clock) {
  return spans.reduce((sum, [from, to]) => sum + Math.max(0, Math.min(clock, to) - from), 0);
}

/**
 * The moment at which a step begins, or at which the step before it ends: in the evening a job
 * is completed at 17:00, and the next one starts at 8:00.
 * @param {object} calendar
 * @param {number} step
 * @param {boolean} isEnd whether the moment ends work
 * @returns {{day: number, clock: number}|null} null beyond the calendar
 */
function momentOf(calendar, step, isEnd) {
  const minutes = step * calendar.stepMinutes + calendar.origin;
  let days = Math.floor(minutes / calendar.dayMinutes);
  let rest = minutes - days * calendar.dayMinutes;
  if (isEnd && rest === 0) {
    days -= 1;
    rest = calendar.dayMinutes;
  }
  const day = workingDay(calendar, days);
  if (day === null) return null;
  for (const [from, to] of calendar.spans) {
    if (rest < to - from || isEnd && rest === to - from) return { day, clock: from + rest };
    rest -= to - from;
  }
  return null;
}

/**
 * A step as a moment for people, such as "Mon 3 Mar 08:00"; a number without a calendar. The end of
 * a working day may go without its time of day.
 */
export function momentText(calendar, step, isEnd, isShort = false) {
  if (!isDated(calendar)) return String(step + startOf(calendar));
  const moment = momentOf(calendar, step, isEnd);
  if (!moment) return `step ${step}`;
  const day = dayText(calendar, moment.day);
  return isShort && isEnd && isDayEnd(calendar, step) ? day : `${day} ${clockText(moment.clock)}`;
}

/** Whether a step is the end of a working day, where the next one begins. */
export function isDayEnd(calendar, step) {
  return isDated(calendar)
    && (calendar.origin + step * calendar.stepMinutes) % calendar.dayMinutes === 0;
}

/**
 * The end of work beside its start, as a moment for people: on the same day "12:00", within the six
 * days after it "Tue 12:00".
 */
export function endText(calendar, start, end) {
  const whole = momentText(calendar, end, true);
  const [from, to] = isDated(calendar)
    ? [momentOf(calendar, start, false), momentOf(calendar, end, true)] : [];
  if (!from || !to || to.day - from.day > 6) return whole;
  const day = from.day === to.day ? "" : `${WEEKDAYS[weekdayOf(to.day)]} `;
  return `${day}${clockText(to.clock)}`;
}

/** A step as a moment for spreadsheets, such as "2025-03-03 08:00". */
export function momentField(calendar, step, isEnd) {
  const moment = isDated(calendar) && momentOf(calendar, step, isEnd);
  return moment ? `${isoDay(moment.day)} ${clockText(moment.clock)}`
    : String(step + startOf(calendar));
}

function dayText(calendar, day) {
  const { year, month, date } = fromDay(day);
  const words = `${WEEKDAYS[weekdayOf(day)]} ${date} ${MONTHS[month - 1].slice(0, 3)}`;
  return year === calendar.year ? words : `${words} ${year}`;
}

function clockText(minutes) {
  const two = (number) => String(number).padStart(2, "0");
  return `${two(Math.floor(minutes / 60))}:${two(minutes % 60)}`;
}

/** The beginnings of working days from one step to another, at most `most` of them. */
export function dayStarts(calendar, from, to, most) {
  const perDay = calendar.dayMinutes / calendar.stepMinutes;
  const offset = calendar.origin / calendar.stepMinutes;
  const first = Math.ceil((from + offset) / perDay);
  const last = Math.floor((to + offset) / perDay);
  const every = [1, 5, 10, 20, 60, 120, 250].find((days) => (last - first) / days <= most);
  if (every === undefined) return [];
  const starts = [];
  for (let k = Math.ceil(first / every) * every; k <= last; k += every) {
    const day = workingDay(calendar, k);
    if (day === null) break;
    starts.push({ step: k * perDay - offset, words: dayText(calendar, day) });
  }
  return starts;
}

/**
 * Where work stops until another day, from one step to another: nights, and longer breaks such as
 * weekends. Only these where there are more nights than `most`, and none where that are too many.
 * @returns {{step: number, isLong: boolean}[]}
 */
export function breaks(calendar, from, to, most) {
  const perDay = calendar.dayMinutes / calendar.stepMinutes;
  const offset = calendar.origin / calendar.stepMinutes;
  const first = Math.floor((from + offset) / perDay) + 1;
  const last = Math.ceil((to + offset) / perDay) - 1;
  if (last - first > MOST_BREAKS) return [];
  const found = [];
  for (let k = first; k <= last; k++) {
    const [before, day] = [workingDay(calendar, k - 1), workingDay(calendar, k)];
    if (before === null || day === null) break;
    found.push({ step: k * perDay - offset, isLong: day - before > 1 });
  }
  const shown = found.length <= most ? found : found.filter(({ isLong }) => isLong);
  return shown.length <= most ? shown : [];
}

/**
 * The weeks from one step to another, each from its first working day to its last.
 * @param {number} most of them that are wanted
 * @returns {{words: string, days: {step: number, column: number, words: string[]}[]}[]} the days of
 *   work with the steps at which they begin, their places among the working days of a week, and
 *   their words from long to short
 */
export function weeksOf(calendar, from, to, most) {
  const perDay = calendar.dayMinutes / calendar.stepMinutes;
  const offset = calendar.origin / calendar.stepMinutes;
  const mondayOf = (day) => day - (weekdayOf(day) + 6) % 7;
  let k = Math.floor((from + offset) / perDay);
  const first = workingDay(calendar, k);
  while (first !== null && workingDay(calendar, k - 1) >= mondayOf(first)) k--;
  const weeks = [];
  for (let monday = null; ; k++) {
    const day = workingDay(calendar, k);
    if (day === null) return weeks;
    const step = k * perDay - offset;
    if (mondayOf(day) !== monday) {
      if (step >= to || weeks.length === most) return weeks;
      monday = mondayOf(day);
      weeks.push({ words: weekWords(monday), days: [] });
    }
    weeks.at(-1).days.push({ step, column: calendar.weekdays.indexOf(weekdayOf(day)),
      words: shorter(calendar, day) });
  }
}

/** A week by its number, as most of Europe counts. */
function weekWords(monday) {
  const first = dayNumber(fromDay(monday + 3).year, 1, 1);
  return `Week ${Math.floor((monday + 3 - first) / 7) + 1}`;
}

/** A day in words from long to short. */
function shorter(calendar, day) {
  const { date } = fromDay(day);
  return [dayText(calendar, day), `${WEEKDAYS[weekdayOf(day)]} ${date}`, String(date)];
}

/** A number of steps as working time, such as "1 d 3 h"; a number without a calendar. */
export function lengthText(calendar, steps) {
  if (!isDated(calendar)) return String(steps).replace("-", "−");
  const sign = steps < 0 ? "−" : "";
  let minutes = Math.abs(steps) * calendar.stepMinutes;
  const parts = [];
  const take = (size, unit) => {
    const count = Math.floor(minutes / size);
    if (count > 0) parts.push(`${count} ${unit}`);
    minutes -= count * size;
  };
  if (minutes >= 2 * calendar.dayMinutes) take(calendar.dayMinutes, "d");
  take(60, "h");
  take(1, "min");
  return sign + (parts.join(" ") || "0 h");
}

// ---- now ----

/** The step of a moment by the clock of the browser, with what of a step has gone by; or null. */
export function stepNow(calendar, now = new Date()) {
  const day = dayNumber(now.getFullYear(), now.getMonth() + 1, now.getDate());
  const minutes = minutesUpTo(calendar, day, now.getHours() * 60 + now.getMinutes());
  return minutes === null ? null : minutes / calendar.stepMinutes;
}

/** The moment by the clock of the browser at which a plan can start: the end of this time step. */
export function momentNow(calendar, now = new Date()) {
  const day = dayNumber(now.getFullYear(), now.getMonth() + 1, now.getDate());
  if (!calendar.isWorking(day)) return { day, clock: 0 };
  const worked = minutesWithin(calendar, now.getHours() * 60 + now.getMinutes());
  let rest = Math.ceil(worked / calendar.stepMinutes) * calendar.stepMinutes;
  for (const [from, to] of calendar.spans) {
    if (rest < to - from) return { day, clock: from + rest };
    rest -= to - from;
  }
  return { day: day + 1, clock: 0 };
}

/** The working minutes from a moment such as "2025-03-03 08:00" to the start of a calendar. */
export function minutesSince(calendar, moment) {
  const { day, clock, fault } = readDateTime(moment, true, calendar.startDay);
  const minutes = fault ? null : minutesUpTo(calendar, day, clock ?? 0);
  return minutes === null ? 0 : -minutes;
}

// ---- what people write ----

/**
 * Reads a processing time: a number, or with a calendar also "3 h", "90 min", "1:30", "2 d 4 h".
 * @returns {{steps: number, isPlain: boolean}|{fault: string}} plain is a number without a unit
 */
export function readDuration(calendar, text) {
  if (text.length > LONGEST) return { fault: "This is too long to be a length of time." };
  if (!isDated(calendar)) return readWhole(text, "A processing time");
  const found = readLength(text, calendar.sizes, calendar.plain);
  if (found.fault) return found;
  const steps = found.minutes / calendar.stepMinutes;
  if (steps > MOST_STEPS) return { fault: `“${text}” is too long for this page.` };
  if (Number.isInteger(steps)) return { steps, isPlain: found.isPlain };
  const near = lengthText(calendar, Math.ceil(steps));
  return { fault: `“${text}” is not a whole number of time steps of ${calendar.stepWords}. `
    + `Write ${near}, or choose a shorter time step.` };
}

/**
 * Reads a due or release date: with a calendar a date, perhaps with a time of day, or a length of
 * working time after the start. A due date without a time of day is the end of that day, a release
 * date its beginning. A moment within a step goes to the step's start, or for a release to its end.
 * @returns {{steps: number, note: ?string, isPlain?: boolean, date?: object}|{fault: string}}
 */
export function readMoment(calendar, text, isDue) {
  const what = isDue ? "A due date" : "A release date";
  if (text.length > LONGEST) return { fault: "This is too long to be a date." };
  if (!isDated(calendar)) return afterStart(readWhole(text, what, isDue), startOf(calendar), isDue);
  const date = readDateTime(text, calendar.dayFirst, calendar.startDay);
  if (!date.fault) return momentOfDate(calendar, date, text, isDue);
  const [, sign, length] = /^([-−+]?)\s*(.*)$/s.exec(text);
  if (date.isAmbiguous || /^\d{1,2}:\d\d/.test(length)) return date;
  const after = readLength(length, calendar.sizes, calendar.plain);
  if (after.fault) return after.isAmbiguous ? after : date;
  const doubt = after.isPlain && doubtOf(calendar, length);
  if (doubt) return { fault: doubt };
  const minutes = /^[-−]/.test(sign) ? -after.minutes : after.minutes;
  if (minutes < 0 && !isDue) return { fault: `${what} is at least 0; this is ${text}.` };
  return { ...stepsOf(calendar, minutes, text, isDue), isPlain: after.isPlain };
}

/** A plain number as steps after the start of the plan. */
function afterStart({ steps, fault }, start, isDue) {
  if (fault) return { fault };
  const after = steps - start;
  if (after >= 0) return { steps: after, note: null };
  return isDue ? { steps: after, note: "Due before the plan starts, so the job is late." }
    : { steps: 0, note: "Released before the plan starts: it counts as the start." };
}

function momentOfDate(calendar, date, text, isDue) {
  const isWeek = date.lastDay !== date.day;
  if (isWeek && date.clock !== null) {
    return { fault: `“${text}” is a week with a time of day. Write the day.` };
  }
  const clock = date.clock ?? (isDue ? 1440 : 0);
  const minutes = minutesUpTo(calendar, isDue ? date.lastDay : date.day, clock);
  if (minutes === null) return { fault: `“${text}” is too far from the start of the plan.` };
  return { ...stepsOf(calendar, minutes, text, isDue), date };
}

/** The step of a moment so many working minutes after the start. */
function stepsOf(calendar, minutes, text, isDue) {
  const exact = minutes / calendar.stepMinutes;
  if (Math.abs(exact) > MOST_STEPS) return { fault: `${text} is too large for this page.` };
  if (isDue) {
    const steps = Math.floor(exact);
    const note = minutes > 0 ? null : "Due before the plan starts, so the job is late: it counts "
      + (steps === 0 ? "as due at the start."
        : `as due ${lengthText(calendar, -steps)} before the start.`);
    return { steps, note };
  }
  const note = minutes < 0 ? "Released before the plan starts: it counts as the start." : null;
  return { steps: Math.max(0, Math.ceil(exact)), note };
}

/** What speaks against a number being a length of time after the start, or null. */
function doubtOf(calendar, text) {
  const number = Number(text);
  const words = `Write the date, or ${text} ${calendar.plain}.`;
  if (number >= 1900 && number <= 2100) return `“${text}” can be a year. ${words}`;
  if (/[.,]\d{3}/.test(text)) return `“${text}” is not a date. ${words}`;
  const day = number - FIRST_SERIAL;
  return Math.abs(day - calendar.startDay) < FARTHEST_SERIAL
    ? `“${text}” is ${dayText(calendar, day)} as spreadsheets count days. ${words}` : null;
}

/**
 * What is added to a text when it is read: the unit of a number that is written without one, or
 * the year of a date; "" where nothing is.
 * @param {?object} calendar
 * @param {string} field of the row
 * @param {string} text
 */
export function assumedOf(calendar, field, text) {
  const isLength = field === "time" || field === "time2";
  const isMoment = field === "due" || field === "release";
  if (!isDated(calendar) || text.trim() === "" || !isLength && !isMoment) return "";
  const found = isLength ? readDuration(calendar, text.trim())
    : readMoment(calendar, text.trim(), field === "due");
  if (found.isPlain) return calendar.plain;
  return found.date?.isYearAssumed ? String(fromDay(found.date.day).year) : "";
}

/** A day as 2026-12-03. */
export function isoDay(day) {
  const { year, month, date } = fromDay(day);
  return `${year}-${String(month).padStart(2, "0")}-${String(date).padStart(2, "0")}`;
}

function readWhole(text, what, mayBeNegative = false) {
  const sign = text.replace("−", "-");
  if (/^-?\d+$/.test(sign)) {
    const steps = Number(sign);
    if (Math.abs(steps) > MOST_STEPS) return { fault: `${text} is too large for this page.` };
    if (steps < 0 && !mayBeNegative) return { fault: `${what} is at least 0; this is ${text}.` };
    return { steps };
  }
  if (/^-?\d+[.,]\d+$/.test(sign)) {
    return { fault: `${what} is a whole number here; ${text} is not. `
      + "Take a smaller unit, such as minutes in place of hours." };
  }
  return { fault: needsCalendar(text)
    ? `“${text}” needs a calendar: choose a time step and a start under “Calendar”.`
    : `${what} is a whole number; “${text}” is not.` };
}

/** Whether a text is a length with a unit, or looks like a date: plain numbers know neither. */
export function needsCalendar(text) {
  if (text === "" || /^\s*-?\d*\s*$/.test(text)) return false;
  const length = readLength(text, { min: 1, h: 1, d: 1, w: 1 }, "h");
  return length.fault ? !readDateTime(text, true, 0).isNone : !length.isPlain;
}

/** Reads working hours: spans such as "08:00-12:00, 13:00-17:00". */
function readHours(text) {
  if (text.length > 10 * LONGEST) return { fault: "These are too many working hours." };
  const spans = [];
  for (const part of text.split(/[,;]/).map((each) => each.trim()).filter(Boolean)) {
    const ends = part.split(/\s*(?:-|–|to)\s*/);
    const [from, to] = ends.map(readClock);
    if (ends.length !== 2 || from === null || to === null) {
      return { fault: `“${part}” are no working hours. Write them as 08:00-16:00, or with a break `
        + "as 08:00-12:00, 13:00-17:00." };
    }
    if (to === from) return { fault: `“${part}” are 0 working hours: they end as they start.` };
    if (to < from) return { fault: `“${part}” ends before it starts. Shifts past midnight are two `
      + "spans: 00:00-06:00, 22:00-24:00." };
    if (spans.length > 0 && from < spans[spans.length - 1][1]) {
      return { fault: `“${part}” starts before the span before it ends.` };
    }
    spans.push([from, to]);
  }
  if (spans.length === 0) return { fault: "A working day of 0 hours: write at least one span, "
    + "such as 08:00-16:00." };
  return { spans };
}

/** Reads days off: dates, or spans such as "2025-12-24 to 2026-01-02", with commas between. */
function readDaysOff(text, dayFirst, near) {
  if (text.length > LONGEST_LIST) return { fault: "These are too many days off." };
  const days = new Set();
  for (const part of text.split(/[,;\n]/).map((each) => each.trim()).filter(Boolean)) {
    if (part.length > LONGEST) return { fault: "A day off is too long to be a date." };
    const ends = part.split(/\s+(?:to|bis|au|al|-|–)\s+|\s*\.\.\s*/)
      .map((each) => readDate(each, dayFirst, near));
    const wrong = ends.find((end) => end.fault);
    if (wrong || ends.length > 2) return { fault: wrong?.fault ?? `“${part}” is not a day off.` };
    const [first, last = first] = ends;
    if (last.day < first.day) return { fault: `“${part}” ends before it starts.` };
    if (last.day - first.day > 3660) return { fault: `“${part}” is longer than ten years.` };
    for (let day = first.day; day <= last.day; day++) days.add(day);
  }
  return { days };
}
