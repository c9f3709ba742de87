// Square codes (QR, ISO/IEC 18004): a text of bytes as a square of dark and light modules.

/** The levels of error correction from the lowest, and how the format information names them. */
const LEVELS = [{ name: "L", bits: 1 }, { name: "M", bits: 0 }, { name: "Q", bits: 3 },
  { name: "H", bits: 2 }];
// For each level, by version from 1: codewords of error correction in a block, and the blocks.
const CHECKS = [
  "7 10 15 20 26 18 20 24 30 18 20 24 26 30 22 24 28 30 28 28 28 28 30 30 26 28 30 30 30 30 30 30 "
    + "30 30 30 30 30 30 30 30",
  "10 16 26 18 24 16 18 22 22 26 30 22 22 24 24 28 28 26 26 26 26 28 28 28 28 28 28 28 28 28 28 28 "
    + "28 28 28 28 28 28 28 28",
  "13 22 18 26 18 24 18 22 20 24 28 26 24 20 30 24 28 28 26 30 28 30 30 30 30 28 30 30 30 30 30 30 "
    + "30 30 30 30 30 30 30 30",
  "17 28 22 16 22 28 26 26 24 28 24 28 22 24 24 30 28 28 26 28 30 24 30 30 30 30 30 30 30 30 30 30 "
    + "30 30 30 30 30 30 30 30",
].map((line) => line.split(" ").map(Number));
const BLOCKS = [
  "1 1 1 1 1 2 2 2 2 4 4 4 4 4 6 6 6 6 7 8 8 9 9 10 12 12 12 13 14 15 16 17 18 19 19 20 21 22 24 "
    + "25",
  "1 1 1 2 2 4 4 4 5 5 5 8 9 9 10 10 11 13 14 16 17 17 18 20 21 23 25 26 28 29 31 33 35 37 38 40 "
    + "43 45 47 49",
  "1 1 2 2 4 4 6 6 8 8 8 10 12 16 12 17 16 18 21 20 23 23 25 27 29 34 34 35 38 40 43 45 48 51 53 "
    + "56 59 62 65 68",
  "1 1 2 4 4 4 5 6 8 8 11 11 16 16 18 16 19 21 25 25 25 34 30 32 35 37 40 42 45 48 51 54 57 60 63 "
    + "66 70 74 77 81",
].map((line) => line.split(" ").map(Number));
const MASKS = [(x, y) => (x + y) % 2, (x, y) => y % 2, (x) => x % 3, (x, y) => (x + y) % 3,
  (x, y) => (Math.floor(x / 3) + Math.floor(y / 2)) % 2, (x, y) => x * y % 2 + x * y % 3,
  (x, y) => (x * y % 2 + x * y % 3) % 2, (x, y) => ((x + y) % 2 + x * y % 3) % 2];
// What looks like a finder pattern beside four light modules, and reversed.
const FINDERS = ["10111010000", "00001011101"];

const POWERS = [1];
for (let k = 1; k < 255; k++) POWERS.push(POWERS[k - 1] << 1 ^ (POWERS[k - 1] > 127 ? 0x11d : 0));
const LOGS = new Map(POWERS.map((power, k) => [power, k]));

/** The product of two numbers in the field of 256. */
function times(a, b) {
  return a === 0 || b === 0 ? 0 : POWERS[(LOGS.get(a) + LOGS.get(b)) % 255];
}

/** The generator polynomial of a degree: its coefficients after the leading 1. */
export function generator(degree) {
  let found = [1];
  for (let k = 0; k < degree; k++) {
    found = [...found, 0].map((each, place) => each ^ times(found[place - 1] ?? 0, POWERS[k]));
  }
  return found.slice(1);
}

/** The codewords of error correction for a block of data. */
export function remainder(data, by) {
  const rest = new Array(by.length).fill(0);
  for (const each of data) {
    const factor = each ^ rest.shift();
    rest.push(0);
    by.forEach((coefficient, k) => {
      rest[k] ^= times(coefficient, factor);
    });
  }
  return rest;
}

/** The bits of a number with its check bits by a polynomial: of the format, or of the version. */
export function checked(number, polynomial) {
  const length = polynomial.toString(2).length - 1;
  let rest = number << length;
  while (rest >> length) {
    rest ^= polynomial << rest.toString(2).length - length - 1;
  }
  return number << length | rest;
}

/** Where the middles of the alignment patterns are, in both directions. */
export function alignments(version) {
  if (version === 1) return [];
  const count = Math.floor(version / 7) + 2;
  const last = version * 4 + 10;
  const step = version === 32 ? 26 : Math.ceil((last - 6) / (count - 1) / 2) * 2;
  return [6, ...Array.from({ length: count - 1 }, (_, k) => last - step * (count - 2 - k))];
}

/** How many codewords a version has, with those of error correction. */
export function codewords(version) {
  const middles = alignments(version).length;
  const fixed = middles === 0 ? 0 : (25 * middles - 10) * middles - 55;
  return Math.floor(((16 * version + 128) * version + 64 - fixed - (version < 7 ? 0 : 36)) / 8);
}

/** How many bytes of a text a version has room for at a level, from 0. */
export function capacity(version, level) {
  const data = codewords(version) - CHECKS[level][version - 1] * BLOCKS[level][version - 1];
  return data - (version < 10 ? 2 : 3);
}

/**
 * A text as a code of the least version that has room for it, at the highest level there.
 * @param {string} text
 * @returns {?{version: number, level: string, mask: number, rows: boolean[][]}} dark modules are
 *   true; null where the text is too long for a code
 */
export function squareCode(text) {
  const bytes = new TextEncoder().encode(text);
  const version = CHECKS[0].findIndex((_, k) => capacity(k + 1, 0) >= bytes.length) + 1;
  if (version === 0) return null;
  const level = LEVELS.findLastIndex((_, k) => capacity(version, k) >= bytes.length);
  const data = withChecks(dataWords(bytes, version, level), version, level);
  const { rows, isFixed } = framed(version);
  place(rows, isFixed, data);
  const masked = MASKS.map((_, mask) => finished(rows, isFixed, version, level, mask));
  const penalties = masked.map(penalty);
  const mask = penalties.indexOf(Math.min(...penalties));
  return { version, level: LEVELS[level].name, mask, rows: masked[mask] };
}

/** The codewords of a text in byte mode, filled up. */
export function dataWords(bytes, version, level) {
  const count = capacity(version, level) + (version < 10 ? 2 : 3);
  const length = bytes.length.toString(2).padStart(version < 10 ? 8 : 16, "0");
  const bits = `0100${length}${Array.from(bytes, (byte) => byte.toString(2).padStart(8, "0"))
    .join("")}0000`;
  const words = bits.slice(0, count * 8).match(/.{8}/g).map((each) => parseInt(each, 2));
  for (let k = 0; words.length < count; k++) words.push(k % 2 ? 0x11 : 0xec);
  return words;
}

/** The data in blocks, each with its error correction, a codeword of each block in turn. */
export function withChecks(words, version, level) {
  const [checks, blocks] = [CHECKS, BLOCKS].map((table) => table[level][version - 1]);
  const least = Math.floor(words.length / blocks);
  const longer = words.length % blocks;
  const by = generator(checks);
  const data = Array.from({ length: blocks }, (_, k) => {
    const from = k * least + Math.max(0, k - blocks + longer);
    return words.slice(from, from + least + (k >= blocks - longer ? 1 : 0));
  });
  const corrections = data.map((block) => remainder(block, by));
  const inTurn = (lists, most) => Array.from({ length: most }, (_, k) =>
    lists.filter((list) => k < list.length).map((list) => list[k])).flat();
  return [...inTurn(data, least + 1), ...inTurn(corrections, checks)];
}

/** The patterns that each code of a version has, and which modules they take. */
function framed(version) {
  const size = 17 + 4 * version;
  const square = () => Array.from({ length: size }, () => new Array(size).fill(false));
  const [rows, isFixed] = [square(), square()];
  const set = (x, y, isDark) => {
    if (x < 0 || y < 0 || x >= size || y >= size) return;
    rows[y][x] = isDark;
    isFixed[y][x] = true;
  };
  for (let k = 0; k < size; k++) {
    set(k, 6, k % 2 === 0);
    set(6, k, k % 2 === 0);
  }
  for (const [x, y] of [[3, 3], [size - 4, 3], [3, size - 4]]) ring(set, x, y, 4, [2, 4]);
  const middles = alignments(version);
  const corners = ["6 6", `6 ${size - 7}`, `${size - 7} 6`];
  for (const [x, y] of middles.flatMap((each) => middles.map((other) => [each, other]))) {
    if (!corners.includes(`${x} ${y}`)) ring(set, x, y, 2, [1]);
  }
  for (const [x, y] of formatPlaces(size).flat()) set(x, y, false);
  set(8, size - 8, true);
  const bits = checked(version, 0x1f25);
  for (let k = 0; version >= 7 && k < 18; k++) {
    const [far, near] = [size - 11 + k % 3, Math.floor(k / 3)];
    set(far, near, Boolean(bits >> k & 1));
    set(near, far, Boolean(bits >> k & 1));
  }
  return { rows, isFixed };
}

/** Sets squares one in another around a middle, dark but for those at a distance in `light`. */
function ring(set, middleX, middleY, radius, light) {
  for (let y = -radius; y <= radius; y++) {
    for (let x = -radius; x <= radius; x++) {
      set(middleX + x, middleY + y, !light.includes(Math.max(Math.abs(x), Math.abs(y))));
    }
  }
}

/** The two places of each bit of the format information, from the lowest bit. */
function formatPlaces(size) {
  return Array.from({ length: 15 }, (_, k) => [
    k < 6 ? [8, k] : k < 8 ? [8, k + 1] : k === 8 ? [7, 8] : [14 - k, 8],
    k < 8 ? [size - 1 - k, 8] : [8, size - 15 + k]]);
}

/** Places the codewords from the lower right corner, in columns of two, up and down in turn. */
function place(rows, isFixed, words) {
  const size = rows.length;
  let bit = 0;
  for (let right = size - 1, isUp = true; right > 0; right -= 2, isUp = !isUp) {
    if (right === 6) right = 5;
    for (let k = 0; k < 2 * size; k++) {
      const x = right - k % 2;
      const y = isUp ? size - 1 - (k >> 1) : k >> 1;
      if (isFixed[y][x]) continue;
      rows[y][x] = Boolean(words[bit >> 3] >> 7 - (bit & 7) & 1);
      bit++;
    }
  }
}

/** The code with a mask, and with the format information that names it. */
function finished(rows, isFixed, version, level, mask) {
  const found = rows.map((row, y) => row.map((isDark, x) =>
    isDark !== (!isFixed[y][x] && MASKS[mask](x, y) === 0)));
  const bits = checked(LEVELS[level].bits << 3 | mask, 0x537) ^ 0x5412;
  formatPlaces(rows.length).forEach((places, k) => {
    for (const [x, y] of places) found[y][x] = Boolean(bits >> k & 1);
  });
  return found;
}

/** How ill a code can be read: runs, squares, what looks like a finder, and too much of one. */
export function penalty(rows) {
  const size = rows.length;
  const lines = [...rows, ...rows.map((_, x) => rows.map((row) => row[x]))]
    .map((line) => line.map(Number).join(""));
  let sum = 0;
  for (const line of lines) {
    for (const run of line.match(/0{5,}|1{5,}/g) ?? []) sum += run.length - 2;
    for (let at = 0; at + 11 <= size; at++) {
      if (FINDERS.includes(line.slice(at, at + 11))) sum += 40;
    }
  }
  for (let y = 1; y < size; y++) {
    for (let x = 1; x < size; x++) {
      const isDark = rows[y][x];
      if (rows[y][x - 1] === isDark && rows[y - 1][x] === isDark && rows[y - 1][x - 1] === isDark) {
        sum += 3;
      }
    }
  }
  const dark = rows.flat().filter(Boolean).length;
  return sum + 10 * Math.floor(Math.abs(20 * dark - 10 * size * size) / (size * size));
}

/** The dark modules of a code as a path of squares of 1, with the margin of 4 that it needs. */
export function codePath(rows) {
  return rows.flatMap((row, y) => [...row.map(Number).join("").matchAll(/1+/g)].map((run) =>
    `M${run.index + 4} ${y + 4}h${run[0].length}v1h-${run[0].length}z`)).join("");
}
