// Square codes against the tables of the standard, and read back: node --test web/*_test.mjs
import assert from "node:assert/strict";
import { spawnSync } from "node:child_process";
import { mkdtempSync, rmSync, writeFileSync } from "node:fs";
import { tmpdir } from "node:os";
import { join } from "node:path";
import { test } from "node:test";
import { load } from "./modules.mjs";

const { alignments, capacity, checked, codePath, codewords, dataWords, generator, penalty,
  remainder, squareCode, withChecks } = await load("qr");
const words = (text) => text.split(" ").map((each) => parseInt(each, 16));

test("generator polynomials and the error correction of the standard's example", () => {
  assert.deepEqual(generator(7), [127, 122, 154, 164, 11, 68, 117]);
  assert.deepEqual(generator(10), [216, 194, 159, 111, 199, 94, 95, 113, 157, 193]);
  assert.deepEqual(generator(13), [137, 73, 227, 17, 177, 17, 52, 13, 46, 43, 83, 132, 120]);
  // 01234567 in version 1-M.
  const data = words("10 20 0c 56 61 80 ec 11 ec 11 ec 11 ec 11 ec 11");
  assert.deepEqual(remainder(data, generator(10)), words("a5 24 d4 c1 ed 36 c7 87 2c 55"));
});

test("format and version information", () => {
  const formats = `77c4 72f3 7daa 789d 662f 6318 6c41 6976 5412 5125 5e7c 5b4b 45f9 40ce 4f97 4aa0
    355f 3068 3f31 3a06 24b4 2183 2eda 2bed 1689 13be 1ce7 19d0 0762 0255 0d0c 083b`.split(/\s+/);
  const levels = [1, 0, 3, 2];
  formats.forEach((bits, k) => {
    const found = checked(levels[k >> 3] << 3 | k & 7, 0x537) ^ 0x5412;
    assert.equal(found, parseInt(bits, 16));
  });
  const versions = `07c94 085bc 09a99 0a4d3 0bbf6 0c762 0d847 0e60d 0f928 10b78 1145d 12a17 13532
    149a6 15683 168c9 177ec 18ec4 191e1 1afab 1b08e 1cc1a 1d33f 1ed75 1f250 209d5 216f0 228ba
    2379f 24b0b
    2542e 26a64 27541 28c69`.split(/\s+/);
  versions.forEach((bits, k) => assert.equal(checked(k + 7, 0x1f25), parseInt(bits, 16)));
});

test("alignment patterns, codewords and capacities", () => {
  for (const [version, middles] of [[1, []], [2, [6, 18]], [6, [6, 34]], [7, [6, 22, 38]],
    [14, [6, 26, 46, 66]], [22, [6, 26, 50, 74, 98]], [30, [6, 26, 52, 78, 104, 130]],
    [32, [6, 34, 60, 86, 112, 138]], [36, [6, 24, 50, 76, 102, 128, 154]],
    [39, [6, 26, 54, 82, 110, 138, 166]], [40, [6, 30, 58, 86, 114, 142, 170]]]) {
    assert.deepEqual(alignments(version), middles, String(version));
  }
  for (const [version, count] of [[1, 26], [2, 44], [6, 172], [7, 196], [14, 581], [40, 3706]]) {
    assert.equal(codewords(version), count);
  }
  for (const [version, ...most] of [[1, 17, 14, 11, 7], [2, 32, 26, 20, 14], [7, 154, 122, 86, 64],
    [9, 230, 180, 130, 98], [10, 271, 213, 151, 119], [20, 858, 666, 482, 382],
    [27, 1465, 1125, 805, 625], [40, 2953, 2331, 1663, 1273]]) {
    assert.deepEqual([0, 1, 2, 3].map((level) => capacity(version, level)), most);
  }
});

test("a text in byte mode, filled up, and blocks of two lengths in turn", () => {
  const bytes = new TextEncoder().encode("QR");
  assert.deepEqual(dataWords(bytes, 1, 1),
    words("40 25 15 20 ec 11 ec 11 ec 11 ec 11 ec 11 ec 11"));
  // Version 5-Q has two blocks of 15 and two of 16 codewords, with 18 of correction each.
  const data = Array.from({ length: 62 }, (_, k) => k);
  const found = withChecks(data, 5, 2);
  assert.equal(found.length, 134);
  assert.deepEqual(found.slice(0, 8), [0, 15, 30, 46, 1, 16, 31, 47]);
  assert.deepEqual(found.slice(56, 62), [14, 29, 44, 60, 45, 61]);
  assert.equal(found[62], remainder(data.slice(0, 15), generator(18))[0]);
});

test("what is hard to read is avoided", () => {
  const plain = Array.from({ length: 21 }, () => new Array(21).fill(false));
  assert.equal(penalty(plain), 42 * 19 + 400 * 3 + 100);
  const board = plain.map((row, y) => row.map((_, x) => (x + y) % 2 === 0));
  assert.equal(penalty(board), 0);
});

test("the least version that has room, at the highest level there", () => {
  const found = (length) => squareCode("a".repeat(length));
  assert.deepEqual([found(7), found(8), found(17), found(18)].map(({ version, level }) =>
    `${version}-${level}`), ["1-H", "1-Q", "1-L", "2-Q"]);
  assert.deepEqual([found(2953).version, found(2953).rows.length, found(2954)], [40, 177, null]);
  assert.match(codePath(found(7).rows), /^M4 4h7v1h-7z/);
});

test("zbar reads codes of small, middle and large versions", (context) => {
  if (spawnSync("zbarimg", ["--version"]).error) return context.skip("there is no zbarimg");
  const folder = mkdtempSync(join(tmpdir(), "codes-"));
  const scale = 3;
  try {
    for (const version of [1, 2, 7, 10, 14, 19, 27, 32, 40]) {
      const most = capacity(version, version % 4);
      const text = `x#plan=${"Az09-_".repeat(500)}`.slice(0, most);
      const { rows } = squareCode(text);
      const size = (rows.length + 8) * scale;
      const bits = Array.from({ length: size * size }, (_, k) => {
        const [x, y] = [k % size, Math.floor(k / size)].map((at) => Math.floor(at / scale) - 4);
        return rows[y]?.[x] ? 1 : 0;
      });
      writeFileSync(join(folder, "code.pbm"), `P1\n${size} ${size}\n${bits.join("\n")}\n`);
      const { stdout } = spawnSync("zbarimg", ["-q", "--raw", join(folder, "code.pbm")]);
      assert.equal(stdout.toString().trim(), text, `version ${version}`);
    }
  } finally {
    rmSync(folder, { recursive: true });
  }
  return undefined;
});
