// A browser that does not start makes no check fail: web/test.py says so in a line, with a status of its own.

import assert from "node:assert/strict";
import { spawnSync } from "node:child_process";
import { mkdtempSync, rmSync, writeFileSync } from "node:fs";
import { tmpdir } from "node:os";
import { dirname, join } from "node:path";
import { test } from "node:test";
import { fileURLToPath } from "node:url";

const TOP = join(dirname(fileURLToPath(import.meta.url)), "..");
const CHECKS = `import os, sys
sys.path.insert(0, ".ci")
import checks
print(checks.run("/nowhere/threefield", "the page", [sys.executable, "web/test.py", *sys.argv[1:]], 2))`;

/** Runs python with browsers in the path that end at once. */
function python(...words) {
  const folder = mkdtempSync(join(tmpdir(), "threefield-browsers-"));
  for (const name of ["chromium", "firefox-esr"]) {
    writeFileSync(join(folder, name), "#!/bin/sh\nexit 1\n", { mode: 0o755 });
  }
  const env = { ...process.env, PATH: `${folder}:${process.env.PATH}` };
  const { status, stdout } = spawnSync("python3", words, { cwd: TOP, env, encoding: "utf8" });
  rmSync(folder, { recursive: true });
  return { status, stdout };
}

for (const words of [[], ["--firefox"]]) {
  test(`a browser that does not start ${words}`, () => {
    const { status, stdout } = python("web/test.py", ...words);
    assert.equal(status, 77);
    assert.match(stdout, /^the browser does not start: .+\n$/);
    assert.match(python("-c", CHECKS, ...words).stdout,
      /^the page: skipped, since the browser does not start: .+\nNone\n$/);
  });
}
