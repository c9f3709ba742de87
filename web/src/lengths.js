// Lengths of time as people write them, with units in five languages.

const UNIT_WORDS = {
  min: "m min mins minute minutes minuten mn minuto minutos minuti",
  h: "h hr hrs hour hours std stdn stunde stunden heure heures hora horas ora ore",
  d: "d day days t tg tag tage tagen at arbeitstag arbeitstage j jour jours dia dias g gg giorno "
    + "giorni",
  w: "w wk wks week weeks wo woche wochen sem semaine semaines semana semanas sett settimana "
    + "settimane",
};
const UNIT_OF_WORD = new Map(Object.entries(UNIT_WORDS).flatMap(
  ([unit, words]) => words.split(" ").map((word) => [word, unit])));
const FRACTIONS = { "¼": ".25", "½": ".5", "¾": ".75" };
const CLOCK = /^(\d{1,6}):([0-5]\d)(?::([0-5]\d))?\s*([a-z]+)?\.?$/;
const PART = /^\s*(\d+(?:[' ]\d{3}(?!\d))*(?:[.,]\d+)*|[.,]\d+)\s*([a-z]+)?\.?\s*/;

/** The unit that a word of small plain letters means, "min", "h", "d" or "w", or null. */
export function unitOfWord(word) {
  return UNIT_OF_WORD.get(word) ?? null;
}

/** A text in small letters without accents, with plain spaces. */
export function plainLetters(text) {
  return text.normalize("NFKD").replace(/[\u0300-\u036f]/g, "").toLowerCase().trim();
}

/**
 * Reads a number as it is written in any of the languages.
 * @param {string} text digits, marks and spaces
 * @returns {{value: number}|{isAmbiguous: true}|null} ambiguous is 1.500, for some 1500
 */
export function readNumber(text) {
  if (/^[1-9]\d{0,2}[.,]\d{3}$/.test(text)) return { isAmbiguous: true };
  if (/^\d*[.,]?\d+$/.test(text)) return { value: Number(text.replace(",", ".")) };
  const grouped = [
    [/^[1-9]\d{0,2}(?:[' ]\d{3})+(?:[.,]\d+)?$/, /[' ]/g],
    [/^[1-9]\d{0,2}(?:\.\d{3})+,\d+$/, /\./g],
    [/^[1-9]\d{0,2}(?:,\d{3})+\.\d+$/, /,/g], [/^[1-9]\d{0,2}(?:\.\d{3}){2,}$/, /\./g],
    [/^[1-9]\d{0,2}(?:,\d{3}){2,}$/, /,/g],
  ].find(([pattern]) => pattern.test(text));
  return grouped ? { value: Number(text.replace(grouped[1], "").replace(",", ".")) } : null;
}

/**
 * Reads a length of time: "90", "2.5 h", "1h30", "1:30", "2 Tage 4 Std", "1½ h".
 * @param {string} text
 * @param {{min: number, h: number, d: number, w: number}} sizes of the units in minutes
 * @param {string} plain the unit of a number without one
 * @returns {{minutes: number, isPlain: boolean}|{fault: string, isAmbiguous?: boolean}} `isPlain`
 *   where no unit is written
 */
export function readLength(text, sizes, plain) {
  const letters = plainLetters(text.replace(/(\d?)\s?([¼½¾])/g,
    (_, whole, part) => `${whole || "0"}${FRACTIONS[part]}`))
    .replace(/[’´`′]/g, "'").replace(/(\d)\s*'(?!\d)/g, "$1 min").replace(/\s*\?$/, "");
  const clock = CLOCK.exec(letters);
  if (clock) {
    const [, hours, minutes, seconds = "0", unit = "h"] = clock;
    if (unitOfWord(unit) !== "h") return noLength(text);
    return { minutes: Number(hours) * 60 + Number(minutes) + Number(seconds) / 60, isPlain: false };
  }
  const parts = partsOf(letters);
  const wrong = parts?.find((part) => part.isAmbiguous);
  if (wrong) return ambiguousNumber(text, wrong.number);
  if (!parts || !isWritten(parts)) return noLength(text);
  const minutes = parts.reduce((sum, { value, unit }) => sum + value * sizes[unit ?? plain], 0);
  return { minutes: Math.round(minutes * 1e6) / 1e6,
    isPlain: parts.length === 1 && parts[0].isPlain };
}

/** The numbers of a length with their units, or null; minutes need no unit after hours: 1h30. */
function partsOf(letters) {
  const parts = [];
  let rest = letters;
  while (rest !== "") {
    const found = PART.exec(rest);
    const number = found && readNumber(found[1]);
    const unit = found?.[2] ? unitOfWord(found[2]) : null;
    if (!number || found[2] && !unit) return null;
    const isMinutes = !unit && parts.at(-1)?.unit === "h" && /^[0-5]?\d$/.test(found[1]);
    parts.push({ ...number, number: found[1], unit: isMinutes ? "min" : unit, isPlain: !unit });
    rest = rest.slice(found[0].length);
  }
  return parts.length > 0 ? parts : null;
}

/** Whether the units become smaller, and none but a single number lacks one. */
function isWritten(parts) {
  const order = parts.map(({ unit }) => ["w", "d", "h", "min"].indexOf(unit));
  return parts.length === 1 || order.every((each, place) => each >= 0
    && (place === 0 || order[place - 1] < each));
}

function noLength(text) {
  return { fault: `“${text}” is not a length of time. Write it as 3, 2.5 h, 90 min, 1:30 or 2 d.` };
}

function ambiguousNumber(text, number) {
  const [whole, decimals] = number.split(/[.,]/);
  const small = Number(`${whole}.${decimals}`);
  return { isAmbiguous: true, fault: `“${text}” is ${whole}${decimals} to some people and ${small} `
    + `to others. Write ${whole}${decimals}, or ${small} with fewer than three decimals.` };
}
