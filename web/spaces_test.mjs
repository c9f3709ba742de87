// What the page has of its sources without spaces, and its packed module: node --test web/*_test.mjs
import assert from "node:assert/strict";
import { execFileSync, spawnSync } from "node:child_process";
import { readFileSync } from "node:fs";
import { test } from "node:test";
import { fileURLToPath } from "node:url";
import { runInNewContext } from "node:vm";
import packing from "./src/unpacking.js";

const HERE = fileURLToPath(new URL(".", import.meta.url));
const MOST_BYTES = 2 ** 28;

/** What an expression of Python has, over build.py and spaces.py. */
function python(expression) {
  const script = `import json, sys, build, spaces; print(json.dumps(${expression}))`;
  return JSON.parse(execFileSync("python3", ["-c", script], { cwd: HERE, maxBuffer: MOST_BYTES }));
}

const withoutSpaces = (texts) => python(`[spaces.script_without_spaces(each)
  for each in json.loads(${JSON.stringify(JSON.stringify(texts))})]`);

// Node's own parser, in node versions that have it: the syntax trees of scripts, without places.
const TREES = `
  const { parse } = require("internal/deps/acorn/acorn/dist/acorn");
  const texts = JSON.parse(require("fs").readFileSync(0, "utf8"));
  const plain = (key, value) => ["start", "end"].includes(key) ? undefined
    : typeof value === "bigint" || value instanceof RegExp ? String(value) : value;
  process.stdout.write(JSON.stringify(texts.map((text) =>
    JSON.stringify(parse(text, { ecmaVersion: "latest" }), plain))));`;

function treesOf(texts) {
  const { status, stdout } = spawnSync(process.execPath, ["--expose-internals", "-e", TREES],
    { input: JSON.stringify(texts), maxBuffer: MOST_BYTES });
  return status === 0 ? JSON.parse(stdout) : null;
}

test("the page's scripts are those of the sources, by their syntax trees", (t) => {
  for (const entry of ["main", "worker"]) {
    const [whole, short] = python(`[build.whole_script(build.SOURCES, "${entry}"),
      build.script(build.SOURCES, "${entry}")]`);
    const page = readFileSync(new URL("./threefield.html", import.meta.url), "utf8");
    assert.ok(page.includes(short), entry);
    assert.ok(short.length < 0.95 * whole.length);
    const trees = treesOf([whole, short]);
    if (trees) assert.equal(trees[0] === trees[1], true, entry);
    else t.diagnostic("this node has no parser to compare with");
  }
});

// Each gives the same with its spaces and without.
const SCRIPTS = [
  'const a = "1 // 2 /* 3 */ \\" 4", b = \'x  y\'; [a, b]',
  "let a = 4, b = 2, g = 1; [a / b / g, (a + b) / b, [a][0] / b, a++ / b]",
  "[/a  b/.test('a  b'), /[/ ]  \"/g.source, \"x\".replace(/\\/ \\//, ''), 6 / 3 / 1]",
  "const f = (x) => { return /[ ]  x/.test(x) }; [f('   x'), typeof /a b/]",
  "`one  ${[1, 2].map((each) => `  ${each + 1}  // ${{ a: ' } ' }.a}`).join('  ')}  two`",
  "let a = 1, b = 2; const c = a + +b, d = a - -b, e = a + ++b, f = a++ + b, g = a - --b; [c, d, e, f, g]",
  "let a = 1\nlet b = 2\na\n++b\n;[a, b]",
  "const f = () => {\n  return\n  1 + 1\n}\nf() === undefined",
  "const f = () => {\n  return (\n    1\n    + 1\n  )\n}\nf()",
  "let out = ''; for (const each of [1, 2, 3]) { if (each === 2) continue\n out += each }\nout",
  "const o = { if: 1, of: 2, a: { b: null } }; [o . if, o?.a ?. b ?? 'none', o.a ? .5 : 1, 1 .toFixed(1)]",
  "/* one */ const a = 1; // two ' three\n/* four\n */ const b = a /* five */ / 2; [a, b]",
  "class A { #x = 1; get x() { return this.#x } static of(...all) { return all.length } }\n"
    + "[new A().x, A.of(1, 2), 'x' in new A(), void 0, delete [].y]",
  "async function f() { await 1; return 2 }\nfunction* g() { yield 1\n yield* [2] }\n[typeof f, [...g()]]",
  "const ä = 1, $b = 2, _c = 3; ä in [0, 1] ? $b : _c",
  "label: for (;;) { for (;;) break label } 'out'",
];

test("strings, templates, regular expressions and line ends keep their meaning", () => {
  const shorts = withoutSpaces(SCRIPTS);
  const trees = treesOf([...SCRIPTS, ...shorts]);
  const run = (text) => JSON.stringify(runInNewContext(text));
  SCRIPTS.forEach((script, k) => {
    assert.equal(run(shorts[k]), run(script), shorts[k]);
    if (trees) assert.equal(trees[SCRIPTS.length + k], trees[k], shorts[k]);
  });
});

test("a style keeps its strings and selectors", () => {
  const short = python(`spaces.style_without_spaces("""
    /* one */ @media (min-width: 40rem) and (max-width: 50rem) {
      a:hover > b , .x :not(.y) { content: "  ; }  a : b"; margin: 0  1px }
      .z { --own: 1px; width: calc(1px + var(--own)); }
    }""")`);
  assert.equal(short, '@media (min-width: 40rem) and (max-width: 50rem){a:hover > b,.x :not(.y)'
    + '{content:"  ; }  a : b";margin:0 1px}.z{--own:1px;width:calc(1px + var(--own))}}\n');
});

test("what is packed is unpacked: random bytes, runs, and nothing", () => {
  let seed = 5;
  const random = (most) => (seed = (seed * 1103515245 + 12345) % 2147483648) % most;
  const cases = [[], [0], [255, 0, 255], Array(5000).fill(7)];
  for (let k = 0; k < 20; k++) {
    const most = [2, 3, 16, 256][k % 4];
    cases.push(Array.from({ length: random(3000) }, (_, at) => k % 3 === 0 ? at * at % most : random(most)));
  }
  const texts = python(`[build.packed(bytes(each)) for each in json.loads("${JSON.stringify(cases)}")]`);
  cases.forEach((bytes, k) => assert.deepEqual([...packing.unpackedBytes(texts[k])], bytes));
});

test("a damaged module is refused or gives other bytes, and ends", () => {
  const bytes = Array.from({ length: 4000 }, (_, at) => at * at % 251);
  const text = python(`build.packed(bytes(json.loads("${JSON.stringify(bytes)}")))`);
  for (const damaged of ["AAAA", "", text.slice(0, 200), text.replace(/ .{40}/, " " + "~".repeat(40))]) {
    try {
      assert.notDeepEqual([...packing.unpackedBytes(damaged)], bytes);
    } catch (error) {
      assert.ok(error instanceof RangeError, String(error));
    }
  }
});
