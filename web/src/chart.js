// The Gantt chart of a plan as SVG: a window of time, perhaps folded into several lines.

import { breaks, dayStarts, isDated, isDayEnd, lengthText, momentText,
  stepNow } from "./calendar.js";
import { machineName } from "./machines.js";
import { lateness } from "./plan.js";
import { fitted, svg, textWidth } from "./svg.js";

const TEXT = 12;
const AXIS = 24;
const LANE = 13;
const GAP = 12;
const ROW_HEIGHTS = [[8, 36], [25, 26], [60, 18], [Infinity, 11]];
const SIZES = Array.from({ length: 42 }, (_, k) => [1, 2, 5][k % 3] * 10 ** Math.floor(k / 3));
const DENSE = 2.5;
const LETTER = 6.2;
const MOST_LINES = 8;
const LEAST_ROOM = 36;
const MOST_ROOM = 110;
const ROOM_FOR_MARK = 12;
const LEAST_MARK = 40;
const MOST_MARK = 150;
const ROOM_FOR_IDLE = 30;
const ROOM_FOR_BREAK = 9;
const MOST_PRINTED_LINES = 12;
const PRINTED_ROW = 27;
// The heights of a list in print: its headings, and a line.
const PRINTED_LIST = 50;
const PRINTED_ITEM = 18.6;
const ENOUGH_NAMED = 0.9;
const MOST_MEASURED = 2000;
const MOST_LINKS = 300;
const MOST_LINKED = 20000;
const MOST_NAMED = 100;
const MOST_LABEL = 140;
const RIGHT = 14;
const ROOM_FOR_WEEK = 32;
const WIDEST_DAYS = ["Wed 28 Nov 2028", "Wed 28", ""];
// Less than any time that is drawn: a break at the end of a week is within it.
const HARDLY = 0.001;

/**
 * What of a plan is drawn, and how.
 * @typedef {object} View
 * @property {number} from @property {number} to the window in time steps
 * @property {number} lines into how many lines it is folded
 * @property {object[]} [weeks] in place of lines: a line for each week, as `weeksOf` gives them
 * @property {number} width in pixels
 * @property {boolean} marks whether due and release dates are marked
 * @property {boolean} isPrint whether it is for paper, with lower rows
 * @property {boolean} isMovable whether bars can have the focus, to be moved
 * @property {(() => void)[]} [later] takes what is not seen and may be drawn later: titles of bars
 */

/**
 * Draws a plan.
 * @param {object} plan as `makePlan` gives it
 * @param {View} view
 * @param {number} scale by which everything is larger on the page
 * @returns {SVGElement} bars have the attribute data-job, the place of their job
 */
export function drawChart(plan, view, scale = 1) {
  const frame = frameOf(plan, view);
  const chart = svg("svg", {
    class: "chart", width: view.width * scale, height: frame.height * scale,
    viewBox: `0 0 ${view.width} ${frame.height}`,
    "font-family": 'system-ui, "DejaVu Sans", sans-serif', "font-size": TEXT,
  }, patterns());
  frame.lines.forEach((line, k) => chart.append(drawLine(plan, frame,
    { ...line, top: k * frame.lineHeight })));
  return chart;
}

/** The lines of a chart: each has parts of time, which begin at a place on it. */
function linesOf(plan, view, left, pixels) {
  if (view.weeks) return view.weeks.map((week) => weekLine(plan, week, left, pixels));
  const span = (view.to - view.from) / view.lines;
  return Array.from({ length: view.lines }, (_, line) => {
    const from = view.from + line * span;
    return { parts: [{ from, to: from + span, left }] };
  });
}

/** A line of a week: days that follow one another are one part, and days off leave their room. */
function weekLine({ calendar, length }, { words, days }, left, pixels) {
  const perDay = calendar.dayMinutes / calendar.stepMinutes;
  const at = (column) => left + column * perDay * pixels;
  const parts = [];
  let last = null;
  for (const { step, column } of days) {
    const isNext = last !== null && column === last + 1;
    if (isNext) parts.at(-1).to = step + perDay;
    else parts.push({ from: step, to: step + perDay, left: at(column) });
    last = column;
  }
  const first = parts[0];
  const gone = Math.min(Math.max(0, -first.from), first.to - first.from);
  Object.assign(first, { from: first.from + gone, left: first.left + gone * pixels });
  return { parts: parts.filter(({ from, to }) => from < to && from < Math.max(1, length)),
    words, days: days.map((day) => ({ ...day, left: at(day.column) })) };
}

/**
 * The number of lines at which a name fits into most bars, within reason.
 * @param {object} plan
 * @param {View} view its `lines` are not read
 * @param {number} height the most pixels that the chart may be high
 */
export function goodLines(plan, view, height) {
  const { from, to, width } = view;
  const share = (to - from) / Math.max(1, plan.length);
  const bars = plan.order.length / plan.machines * share;
  const names = plan.jobs.slice(0, 200).map((job) => job.name);
  const letters = names.join("").length / Math.max(1, names.length);
  const room = Math.max(LEAST_ROOM, Math.min(MOST_ROOM, letters * LETTER + 8));
  const wanted = Math.ceil(bars * room / width);
  const { lineHeight } = frameOf(plan, { ...view, lines: Math.min(wanted, MOST_LINES) });
  const most = Math.floor(Math.min(12 / plan.machines, height / lineHeight, MOST_LINES));
  return Math.max(1, Math.min(wanted, most, Math.floor(to - from)));
}

/**
 * The least number of lines at which nearly all names fit into their bars, for print. The list of
 * the jobs stays on the same page, where it has room there.
 * @param {object} plan
 * @param {View} view its `lines` are not read
 * @param {number} page the most pixels of a page for chart and list together
 */
export function linesForNames(plan, view, page) {
  const beside = page - PRINTED_LIST - plan.jobs.length * PRINTED_ITEM;
  const one = frameOf(plan, { ...view, lines: 1 }).lineHeight;
  const height = beside >= one ? beside : page;
  const { schedule, jobs } = plan;
  const pieces = plan.order.slice(0, MOST_MEASURED);
  const widths = Array.from(pieces, (piece) =>
    textWidth(jobs[schedule.job[piece] - 1]?.name ?? "", TEXT) + 8);
  const most = Math.min(MOST_PRINTED_LINES, Math.floor(view.to - view.from));
  let lines = 1;
  for (; lines < most; lines++) {
    const { pixels } = frameOf(plan, { ...view, lines });
    const fits = pieces.reduce((count, piece, k) => count
      + ((schedule.stop[piece] - schedule.start[piece]) * pixels >= widths[k] ? 1 : 0), 0);
    if (fits >= ENOUGH_NAMED * pieces.length) break;
    if ((lines + 1) * frameOf(plan, { ...view, lines: lines + 1 }).lineHeight > height) break;
  }
  return lines;
}

/**
 * Where a point of a chart is.
 * @returns {{machine: number, step: number}} the nearest machine, and the time there
 */
export function placeAt(plan, view, x, y) {
  const frame = frameOf(plan, view);
  const within = (number, most) => Math.min(Math.max(0, Math.floor(number)), most);
  const line = within(y / frame.lineHeight, frame.lines.length - 1);
  const row = (y - line * frame.lineHeight - AXIS) / frame.rowHeight;
  const { parts } = frame.lines[line];
  const { from, to, left } = parts.findLast((part) => part.left <= x) ?? parts[0];
  return { machine: within(row, plan.machines - 1) + 1,
    step: Math.min(to, from + (x - left) / frame.pixels) };
}

/** Where the row of a machine is at a time: the point and the height of the row. */
export function pointOf(plan, view, machine, step) {
  const frame = frameOf(plan, view);
  const { lines } = frame;
  const line = Math.max(0, lines.findLastIndex(({ parts }) => parts[0].from <= step));
  const { parts } = lines[line];
  const { from, left } = parts.findLast((part) => part.from <= step) ?? parts[0];
  return { x: round(left + (step - from) * frame.pixels),
    y: line * frame.lineHeight + rowTop(frame, machine), height: frame.row };
}

/** Where the row of a machine is in a line. */
function rowTop(frame, machine) {
  return AXIS + (machine - 1) * frame.rowHeight + frame.above;
}

function frameOf(plan, view) {
  const [, high] = ROW_HEIGHTS.find(([most]) => plan.machines <= most);
  const row = view.isPrint || view.weeks ? Math.min(high, PRINTED_ROW) : high;
  const span = view.weeks ? weekSteps(plan.calendar) : (view.to - view.from) / view.lines;
  const share = span / Math.max(1, plan.length) / plan.machines;
  const isReleased = plan.usesRelease && plan.jobs.some((job) => job.hasRelease);
  const hasMarks = view.marks && row >= 18 && plan.jobs.length * share * ROOM_FOR_MARK < view.width
    && (isReleased || plan.jobs.some((job) => job.due !== null));
  const left = labelWidth(plan, view);
  const above = hasMarks && isReleased ? LANE : 0;
  const rowHeight = row + (hasMarks ? LANE : 0) + above + 4;
  const lineHeight = AXIS + plan.machines * rowHeight + GAP;
  const pixels = (view.width - left - RIGHT) / span;
  const lines = linesOf(plan, view, left, pixels);
  return {
    row, rowHeight, lineHeight, hasMarks, above, left, pixels, lines, isMovable: view.isMovable,
    later: view.later,
    day: view.weeks ? (view.width - left - RIGHT) / plan.calendar.weekdays.length : 0,
    isNarrow: view.width < 500, width: view.width, height: lineHeight * lines.length,
  };
}

/** The steps of a week in which every day of the week that is a working day is worked. */
function weekSteps({ weekdays, dayMinutes, stepMinutes }) {
  return weekdays.length * dayMinutes / stepMinutes;
}

/** The room before a row for the machine's name, or on a narrow page for its number. */
function labelWidth({ machines, names }, { width, weeks }) {
  const least = weeks && width >= 500 ? textWidth("Week 52", TEXT, true) + 12 : 0;
  if (width < 500 && !names.some(Boolean)) {
    return Math.max(machines.toString().length * 8 + 16, weeks ? ROOM_FOR_WEEK : 0);
  }
  const widths = Array.from({ length: Math.min(machines, MOST_NAMED) },
    (_, k) => textWidth(machineName(names, k + 1), TEXT));
  return Math.min(Math.max(least, Math.max(...widths) + 12), MOST_LABEL, width / 4);
}

function patterns() {
  const hatch = (id, lines) => svg("pattern", {
    id, width: 7, height: 7, patternUnits: "userSpaceOnUse", patternTransform: "rotate(45)",
  }, lines);
  return svg("defs", {},
    hatch("idle", svg("path", { class: "hatch", d: "M0 0V7", "stroke-width": 2 })),
    hatch("many", [svg("rect", { class: "many", width: 7, height: 7 }),
      svg("path", { class: "many-line", d: "M2 0V7M5.5 0V7", "stroke-width": 1.5 })]));
}

/** One line of the chart: an axis, and a row for each machine. */
function drawLine(plan, frame, line) {
  const group = svg("g", { transform: `translate(0 ${line.top})` });
  if (line.days) group.append(drawDays(frame, line));
  line.parts.forEach((part, k) => {
    const x = (step) => part.left + (step - part.from) * frame.pixels;
    if (!line.days) group.append(drawAxis(plan, frame, part, x));
    else drawEnd(group, plan, frame, part, x);
    for (let machine = 1; machine <= plan.machines; machine++) {
      const top = rowTop(frame, machine);
      group.append(drawRow(plan, frame, { ...part, machine, top, x, hasLabel: k === 0 }));
    }
    if (plan.isPreempted && plan.order.length <= MOST_LINKED) {
      group.append(drawLinks(plan, frame, part, x));
    }
    const goesOn = line.days && part.to < plan.length;
    drawBreaks(group, plan, frame, goesOn ? { ...part, to: part.to + HARDLY } : part, x);
    drawNow(group, plan, frame, part, x);
  });
  return group;
}

/** Above a week its number and its days, each at its column. */
function drawDays(frame, { words, days }) {
  const group = svg("g", { class: "axis" });
  const choice = WIDEST_DAYS.findIndex((each) => textWidth(each, TEXT) <= frame.day - 6);
  group.append(svg("text", { class: "week", x: frame.isNarrow ? 0 : 4, y: AXIS - 8,
    "font-size": frame.isNarrow ? 10 : TEXT },
  frame.isNarrow ? words.replace("Week ", "W") : words));
  for (const { left, words: each } of days) {
    group.append(
      svg("path", { class: "grid", d: `M${round(left)} ${AXIS - 18}V${frame.lineHeight - GAP}` }),
      svg("text", { x: round(left + 3), y: AXIS - 8 }, each[choice]));
  }
  return group;
}

/** The end of the plan, where it lies in a part of a week. */
function drawEnd(group, plan, { lineHeight }, { from, to }, x) {
  if (plan.length <= from || plan.length > to) return;
  group.append(svg("path", { class: "end",
    d: `M${round(x(plan.length))} ${AXIS - 6}V${lineHeight - GAP}` }));
}

/**
 * Marks nights and, wider, weekends and days off across the rows: there work goes on later. High
 * rows have marks above and below the names.
 */
function drawBreaks(group, plan, frame, line, x) {
  if (!isDated(plan.calendar)) return;
  const end = Math.min(line.to, plan.length);
  const most = frame.width / ROOM_FOR_BREAK;
  for (const { step, isLong } of breaks(plan.calendar, line.from, end, most)) {
    for (let k = 0; k < plan.machines; k++) {
      const top = rowTop(frame, k + 1);
      const [high, low] = [top + 1, top + frame.row - 1];
      const at = `M${round(x(step))} `;
      group.append(svg("path", { class: isLong ? "weekend" : "night", d: frame.row < 26
        ? `${at}${high}V${low}` : `${at}${high}v8${at}${low}v-8` }));
    }
  }
}

/** A line at the moment by the clock of the browser, where it lies within the plan. */
function drawNow(group, plan, frame, line, x) {
  const now = isDated(plan.calendar) ? stepNow(plan.calendar) : null;
  if (now === null || now <= 0 || now > plan.length || now < line.from || now >= line.to) return;
  const at = round(x(now));
  const bottom = frame.lineHeight - GAP;
  group.append(
    svg("path", { class: "now", d: `M${at} ${AXIS - 4}V${bottom}` }),
    svg("text", { class: "now-text", x: at, y: bottom + 9, "text-anchor": "middle",
      "font-size": 10 }, "now"));
}

// ---- the axis ----

function drawAxis(plan, frame, line, x) {
  const bottom = frame.lineHeight - GAP;
  const group = svg("g", { class: "axis" });
  const room = isDated(plan.calendar) ? 96 : 64;
  const most = Math.max(2, Math.floor((frame.width - frame.left) / room));
  const end = Math.min(line.to, plan.length);
  const hasEnd = plan.length >= line.from && plan.length <= line.to + 1e-9 && plan.length > 0;
  const endWords = hasEnd ? momentText(plan.calendar, plan.length, true) : "";
  const endWidth = textWidth(endWords, TEXT, true);
  const endLeft = hasEnd
    ? Math.min(x(plan.length) + endWidth / 2, frame.width - 2) - endWidth : Infinity;
  let free = -Infinity;
  for (const { step } of ticks(plan.calendar, line.from, line.to, frame.width / 16)) {
    if (step > end) continue;
    group.append(svg("path", { class: "grid", d: `M${round(x(step))} ${AXIS - 4}V${bottom}` }));
  }
  for (const { step, words } of ticks(plan.calendar, line.from, line.to, most)) {
    if (step > end) continue;
    const half = textWidth(words, TEXT) / 2;
    const middle = Math.max(x(step), half + 2);
    if (middle - half < free || middle + half > Math.min(endLeft - 6, frame.width)) continue;
    group.append(svg("text", { x: round(middle), y: AXIS - 8, "text-anchor": "middle" }, words));
    free = middle + half + 8;
  }
  if (hasEnd) {
    group.append(
      svg("path", { class: "end", d: `M${round(x(plan.length))} ${AXIS - 6}V${bottom}` }),
      svg("text", { class: "end-text", x: round(endLeft), y: AXIS - 8 }, endWords));
  }
  return group;
}

/** Where the axis has its lines: working days, or round numbers of steps. */
function ticks(calendar, from, to, most) {
  if (isDated(calendar)) {
    const days = dayStarts(calendar, from, to, most);
    if (days.length >= 2) return days;
  }
  const size = SIZES.find((each) => (to - from) / each <= most);
  const found = [];
  const start = calendar?.isPlain ? calendar.from : 0;
  for (let step = Math.ceil((from + start) / size) * size - start; step <= to; step += size) {
    found.push({ step, words: momentText(calendar, step, false) });
  }
  return found;
}

// ---- one machine ----

function drawRow(plan, frame, row) {
  const group = svg("g", { transform: `translate(0 ${row.top})` });
  const isShort = !plan.names[row.machine - 1] && (frame.isNarrow || frame.row < 18);
  const label = isShort ? String(row.machine)
    : fitted(machineName(plan.names, row.machine), TEXT, frame.left - 10);
  const left = row.x(row.from);
  const right = row.x(Math.min(row.to, Math.max(plan.length, row.from)));
  group.append(
    row.hasLabel ? svg("text", { class: "label", x: frame.left - 6, y: frame.row / 2 + 4,
      "text-anchor": "end" }, frame.row < 14 && row.machine % 5 !== 1 ? "" : label) : "",
    svg("rect", { class: "ground", x: round(left), width: round(right - left), height: frame.row }),
    svg("rect", { class: "idle", x: round(left), width: round(right - left), height: frame.row,
      fill: "url(#idle)" }));
  const [first, last] = plan.rows[row.machine - 1];
  const { start, stop } = plan.schedule;
  row.bar = svg("rect", { "data-machine": row.machine,
    ...(frame.isMovable ? { tabindex: -1, role: "button" } : {}), y: 0.75,
    height: frame.row - 1.5 });
  let k = firstAfter(plan, first, last, row.from);
  let free = row.from;
  while (k < last && start[plan.order[k]] < row.to) {
    const piece = plan.order[k];
    drawIdle(group, plan, frame, row, free, start[piece]);
    const next = drawDense(group, plan, frame, row, k, last);
    if (next === k) drawBar(group, plan, frame, row, piece);
    k = Math.max(next, k + 1);
    free = stop[plan.order[k - 1]];
  }
  drawIdle(group, plan, frame, row, free, Math.min(row.to, plan.length));
  if (frame.hasMarks) drawMarks(group, plan, frame, row);
  return group;
}

/** The first place of a machine's pieces that stops after a time. */
function firstAfter(plan, first, last, time) {
  let low = first;
  let high = last;
  while (low < high) {
    const middle = (low + high) >> 1;
    if (plan.schedule.stop[plan.order[middle]] > time) high = middle;
    else low = middle + 1;
  }
  return low;
}

function drawIdle(group, plan, frame, row, from, to) {
  const start = Math.max(from, row.from);
  const room = (Math.min(to, row.to) - start) * frame.pixels;
  if (frame.row < 18 || room < ROOM_FOR_IDLE) return;
  const words = `idle ${lengthText(plan.calendar, Math.round(to - start))}`;
  if (room < textWidth(words, 11) + 10) return;
  group.append(svg("text", { class: "idle-text", x: round(row.x(start) + room / 2),
    y: frame.row / 2 + 4, "text-anchor": "middle", "font-size": 11 }, words));
}

/** Draws pieces that are too narrow to be told apart as one bar, and gives the place after them. */
function drawDense(group, plan, frame, row, k, last) {
  const { start, stop } = plan.schedule;
  const width = (place) => (stop[plan.order[place]] - start[plan.order[place]]) * frame.pixels;
  let next = k;
  let end = start[plan.order[k]];
  while (next < last && width(next) < DENSE && start[plan.order[next]] < row.to
    && (start[plan.order[next]] - end) * frame.pixels < DENSE / 2) {
    end = stop[plan.order[next]];
    next++;
  }
  if (next <= k + 1) return k;
  const from = Math.max(start[plan.order[k]], row.from);
  const left = row.x(from);
  const right = row.x(Math.min(end, row.to));
  group.append(svg("rect", { class: "many-frame", x: round(left), width: round(right - left),
    height: frame.row, fill: "url(#many)" }, svg("title", {}, `${next - k} pieces: zoom in`)));
  return next;
}

function drawBar(group, plan, frame, row, piece) {
  const { schedule, calendar } = plan;
  const job = schedule.job[piece] - 1;
  const [start, stop] = [schedule.start[piece], schedule.stop[piece]];
  const left = row.x(Math.max(start, row.from));
  const width = Math.max(1, row.x(Math.min(stop, row.to)) - left);
  const late = lateness(plan, job);
  const isLate = late !== null && stop > plan.jobs[job].due;
  const inset = width > 8 ? 0.75 : 0;
  const bar = row.bar.cloneNode();
  bar.setAttribute("class",
    `bar fill${plan.colour[job] ?? 0}${isLate ? " late" : ""}${width < 6 ? " thin" : ""}`);
  bar.setAttribute("data-job", job);
  bar.setAttribute("x", round(left + inset));
  bar.setAttribute("width", round(width - 2 * inset));
  if (width > 8) bar.setAttribute("rx", 2);
  const entitle = () =>
    bar.append(svg("title", {}, barTitle(plan, job, row.machine, start, stop)));
  if (frame.later) frame.later.push(entitle);
  else entitle();
  group.append(bar);
  if (isLate && width > 3) {
    group.append(svg("rect", { class: "late-edge", x: round(left + inset), y: 0.75,
      width: round(width - 2 * inset), height: frame.row < 14 ? 2 : 4 }));
  }
  if (frame.row < 14) return;
  const size = frame.row < 20 ? 10 : TEXT;
  const lateWords = isLate ? ` +${lengthText(calendar, late)}` : "";
  const words = barWords(plan, job, size, width - 6, lateWords);
  if (words === "") return;
  group.append(svg("text", { class: "name", x: round(left + width / 2), y: frame.row / 2 + 4,
    "text-anchor": "middle", "font-size": size }, words));
}

/** What stands in a bar: the name and how late it is, or as much of it as has room. */
function barWords(plan, job, size, room, late) {
  if (room < 6) return "";
  const { name, row } = plan.jobs[job] ?? { name: `job ${job + 1}`, row: job };
  if (late && textWidth(name + late, size) <= room) return name + late;
  if (textWidth(name, size) <= room) return name;
  const rest = `…${name.slice(plan.prefix.length)}`;
  if (plan.prefix !== "" && textWidth(rest, size) <= room) return rest;
  const words = fitted(plan.prefix === "" ? name : rest, size, room);
  if (words.length >= 8) return words;
  const numbers = [`#${row + 1}`, String(row + 1)];
  return numbers.find((number) => textWidth(number, size) <= room) ?? "";
}

function barTitle(plan, job, machine, start, stop) {
  const { calendar } = plan;
  const at = plan.jobs[job];
  const late = at ? lateness(plan, job) : null;
  const due = late === null ? "" : momentText(calendar, at.due, true);
  const isReleased = at?.hasRelease && plan.usesRelease;
  const words = [
    `${at?.name ?? `job ${job + 1}`}, ${machineName(plan.names, machine)}: `
      + `${momentText(calendar, start, false)} to ${momentText(calendar, stop, true)} `
      + `(${lengthText(calendar, stop - start)})`,
    isReleased ? `released ${momentText(calendar, at.release, false)}` : null,
    late === null ? null : `due ${due}: ${latenessWords(calendar, late)}`,
  ];
  return words.filter(Boolean).join("\n");
}

/** Lateness in words: "2 h late", "on time" or "3 h early". */
export function latenessWords(calendar, late) {
  if (late === 0) return "just on time";
  return `${lengthText(calendar, Math.abs(late))} ${late > 0 ? "late" : "early"}`;
}

// ---- due and release dates ----

/** Marks the dates of the jobs of a machine: due below its row, released above, as the program. */
function drawMarks(group, plan, frame, row) {
  const [first, last] = plan.rows[row.machine - 1];
  const marked = new Set();
  const [due, released] = [new Map(), new Map()];
  let count = 0;
  const mark = (lane, step, job) => {
    lane.set(step, lane.get(step) ?? []).get(step).push(job);
    count++;
  };
  for (let k = first; k < last; k++) {
    const job = plan.schedule.job[plan.order[k]] - 1;
    const at = plan.jobs[job];
    if (!at || marked.has(job)) continue;
    marked.add(job);
    const isDue = at.due !== null && at.due <= row.to
      && (at.due > row.from || at.due === 0 && row.from === 0);
    if (isDue) mark(due, at.due, job);
    const isReleased = plan.usesRelease && at.hasRelease && at.release >= row.from
      && at.release < row.to;
    if (isReleased) mark(released, at.release, job);
    if (count * ROOM_FOR_MARK > frame.width) return;
  }
  drawLane(group, plan, frame, row, due, true);
  drawLane(group, plan, frame, row, released, false);
}

/**
 * Draws the marks of a lane, each with names on a side that has room up to its neighbours and to
 * the end of the plan. What is due at the end of a day stands before it, and not under the next.
 */
function drawLane(group, plan, frame, row, lane, isDue) {
  const end = row.x(plan.length);
  let free = row.x(row.from);
  const moments = [...lane].sort(([a], [b]) => a - b);
  moments.forEach(([step, jobs], k) => {
    const x = row.x(step);
    const isBefore = isDue && isDayEnd(plan.calendar, step);
    const next = k + 1 < moments.length ? row.x(moments[k + 1][0]) - 6 : frame.width;
    const before = x - (isBefore ? 10 : 6) - (x > end ? Math.max(end, free) : free);
    const after = (x < end ? Math.min(end, next) : next) - x - 8;
    const names = jobs.map((job) => plan.jobs[job].name);
    const width = textWidth(names.join(", "), 10);
    const isLeft = isBefore ? before >= Math.min(width, LEAST_MARK)
      : before > after && width > after;
    const most = MOST_MARK * Math.min(2, names.length);
    const label = markLabel(names, isDue, Math.min(most, isLeft ? before : after));
    drawMark(group, plan, frame, { step, jobs, isDue, x, isBefore, isLeft, label });
    free = x + (isLeft ? 6 : 8 + textWidth(label, 10));
  });
}

/** The names beside a mark, or how many they are. */
function markLabel(names, isDue, room) {
  const all = names.join(", ");
  if (names.length === 1) return fitted(all, 10, room);
  const words = [all, `${names.length} ${isDue ? "due" : "released"}`];
  return words.find((each) => textWidth(each, 10) <= room) ?? "";
}

/** Draws a triangle for each job of a moment, the latest in front, and their names beside it. */
function drawMark(group, plan, frame, { step, jobs, isDue, x, isBefore, isLeft, label }) {
  const [tip, base] = isDue ? [frame.row + 3, frame.row + 11] : [-3, -11];
  const [left, right] = isBefore ? [x - 8, x] : [x - 4, x + 4];
  const at = `${isDue ? "due" : "released"} ${momentText(plan.calendar, step, isDue)}`;
  const title = jobs.map((job) => `${plan.jobs[job].name}: ${at}`).join("\n");
  for (const job of jobs.sort((a, b) => plan.completion[a] - plan.completion[b])) {
    const isLate = isDue && lateness(plan, job) > 0;
    group.append(svg("path", {
      class: `mark ${isDue ? "due" : "release"} fill${plan.colour[job]}${isLate ? " late" : ""}`,
      "data-job": job, d: `M${round(left)} ${base}H${round(right)}L${round(x)} ${tip}Z`,
    }, svg("title", {}, title)));
  }
  if (label === "") return;
  group.append(svg("text", { class: "mark-text", x: round(isLeft ? left - 2 : x + 6),
    y: isDue ? base : tip, "font-size": 10, "text-anchor": isLeft && "end" }, label));
}

/** Joins the pieces of preempted jobs by thin lines. */
function drawLinks(plan, frame, line, x) {
  const { schedule } = plan;
  const group = svg("g", { class: "links" });
  const lastPiece = new Map();
  const byTime = [...plan.order].filter((piece) => plan.pieces[schedule.job[piece] - 1] > 1)
    .sort((a, b) => schedule.start[a] - schedule.start[b]);
  let drawn = 0;
  for (const piece of byTime) {
    const before = lastPiece.get(schedule.job[piece]);
    lastPiece.set(schedule.job[piece], piece);
    if (before === undefined || drawn >= MOST_LINKS) continue;
    const [from, to] = [schedule.stop[before], schedule.start[piece]];
    if (from < line.from || to > line.to) continue;
    const y = (each) => rowTop(frame, schedule.machine[each]) + frame.row - 4;
    if (from === to && y(before) === y(piece)) continue;
    group.append(svg("path", { d: `M${round(x(from))} ${y(before)}L${round(x(to))} ${y(piece)}` }));
    drawn++;
  }
  return group;
}

function round(number) {
  return Math.round(number * 100) / 100;
}
