"use strict";
// Unpacks the module as the page holds it: LZMA, as text.
//
//   unpackedBytes(text)     // the number of bytes, a space, and two letters for each 13 bits
//
// The format is that of Igor Pavlov's LZMA specification, raw, with lc = 3, lp = 0 and pb = 0;
// build.py packs it. Letters are those of ASCII from # to ~, except <, and of 13 bits the lowest
// come first.
const unpackedBytes = (() => {
  const STATES = 12;
  const LENGTHS = 2 + 8 + 8 + 256;
  // Where each table of probabilities begins.
  const IS_MATCH = 0, IS_REP = 12, IS_REP0 = 24, IS_REP1 = 36, IS_REP2 = 48, IS_LONG = 60;
  const SLOTS = 6 * STATES, DISTANCES = SLOTS + 4 * 64, ALIGN = DISTANCES + 128;
  const LENGTH = ALIGN + 16, REP_LENGTH = LENGTH + LENGTHS, LITERALS = REP_LENGTH + LENGTHS;
  const ALL = LITERALS + 8 * 0x300;

  // The bytes of letters, and as many zeros after them as are asked for.
  function bytesOf(text, from) {
    const letters = new TextEncoder().encode(text);
    const bytes = new Uint8Array(Math.floor((letters.length - from) / 2 * 13 / 8));
    for (let at = from, place = 0, bits = 0, held = 0; at < letters.length; at += 2) {
      const low = letters[at], high = letters[at + 1];
      bits |= low - (low > 60 ? 36 : 35) + 91 * (high - (high > 60 ? 36 : 35)) << held;
      for (held += 13; held >= 8; held -= 8) {
        bytes[place++] = bits;
        bits >>>= 8;
      }
    }
    return bytes;
  }

  // Reads bits that are as likely as those of their place were before, and others.
  function decoderOf(bytes) {
    const likely = new Uint16Array(ALL).fill(1024);
    // The range and the code, in an array so that neither becomes a number with a fraction.
    const now = new Uint32Array([0xffffffff, 0]);
    let at = 1;
    const next = () => {
      now[1] = now[1] << 8 | bytes[at++];
    };
    for (let k = 0; k < 4; k++) next();
    const fill = () => {
      if (now[0] >= 0x1000000) return;
      now[0] <<= 8;
      next();
    };
    const bit = place => {
      const chance = likely[place], bound = Math.imul(now[0] >>> 11, chance) >>> 0;
      const found = now[1] < bound ? 0 : 1;
      if (found) {
        now[0] -= bound;
        now[1] -= bound;
        likely[place] = chance - (chance >> 5);
      } else {
        now[0] = bound;
        likely[place] = chance + (2048 - chance >> 5);
      }
      fill();
      return found;
    };
    const even = count => {
      let found = 0;
      for (let k = 0; k < count; k++) {
        now[0] >>>= 1;
        const one = now[1] >= now[0] ? 1 : 0;
        if (one) now[1] -= now[0];
        found = found << 1 | one;
        fill();
      }
      return found;
    };
    // A number of so many bits, the highest first.
    const tree = (base, count) => {
      let found = 1;
      for (let k = 0; k < count; k++) found = found << 1 | bit(base + found);
      return found - (1 << count);
    };
    // The lowest first.
    const reverse = (base, count) => {
      let found = 0;
      for (let k = 0, node = 1; k < count; k++) {
        const one = bit(base + node);
        node = node << 1 | one;
        found |= one << k;
      }
      return found;
    };
    return { bit, even, tree, reverse };
  }

  const lengthOf = ({ bit, tree }, base) => {
    if (!bit(base)) return 2 + tree(base + 2, 3);
    return bit(base + 1) ? 18 + tree(base + 18, 8) : 10 + tree(base + 10, 3);
  };

  function distanceOf({ even, tree, reverse }, length) {
    const slot = tree(SLOTS + 64 * Math.min(length - 2, 3), 6);
    if (slot < 4) return slot;
    const count = (slot >> 1) - 1, high = (2 | slot & 1) << count;
    if (slot < 14) return high + reverse(DISTANCES + high - slot, count);
    return high + (even(count - 4) << 4) + reverse(ALIGN, 4);
  }

  // A byte by itself; after a match the byte that would have gone on with it says what is likely.
  function literal({ bit }, before, match) {
    const base = LITERALS + 0x300 * (before >> 5);
    let found = 1;
    for (let rest = match; rest >= 0 && found < 256;) {
      rest <<= 1;
      const wanted = rest >> 8 & 1, one = bit(base + (1 + wanted << 8) + found);
      found = found << 1 | one;
      if (one !== wanted) break;
    }
    while (found < 256) found = found << 1 | bit(base + found);
    return found & 255;
  }

  return text => {
    const space = text.indexOf(" ");
    const out = new Uint8Array(Number(text.slice(0, space)));
    const decoder = decoderOf(bytesOf(text, space + 1)), { bit } = decoder;
    const back = [0, 0, 0, 0];
    let state = 0;
    // Puts a distance in front of those that came before, in place of one of them.
    const front = (place, distance) => {
      for (let k = place; k > 0; k--) back[k] = back[k - 1];
      back[0] = distance;
    };
    // How many bytes stand as so many before.
    const repeated = () => {
      if (!bit(IS_REP0 + state)) {
        if (!bit(IS_LONG + state)) {
          state = state < 7 ? 9 : 11;
          return 1;
        }
      } else {
        const k = !bit(IS_REP1 + state) ? 1 : !bit(IS_REP2 + state) ? 2 : 3;
        front(k, back[k]);
      }
      state = state < 7 ? 8 : 11;
      return lengthOf(decoder, REP_LENGTH);
    };
    const matched = () => {
      const length = lengthOf(decoder, LENGTH);
      state = state < 7 ? 7 : 10;
      front(3, distanceOf(decoder, length));
      return length;
    };
    for (let at = 0; at < out.length;) {
      if (!bit(IS_MATCH + state)) {
        const before = at > 0 ? out[at - 1] : 0;
        out[at] = literal(decoder, before, state < 7 ? -1 : out[at - back[0] - 1]);
        state = state < 4 ? 0 : state < 10 ? state - 3 : state - 6;
        at++;
        continue;
      }
      const length = bit(IS_REP + state) ? repeated() : matched();
      const from = back[0] + 1;
      if (from > at) throw new RangeError("the packed module is damaged");
      for (const end = Math.min(at + length, out.length); at < end; at++) out[at] = out[at - from];
    }
    return out;
  };
})();
if (typeof module !== "undefined") module.exports = { unpackedBytes };
