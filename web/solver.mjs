// The page's module for node: taken out of web/threefield.html.

import { readFileSync } from "node:fs";
import script from "./src/solver.js";
import packing from "./src/unpacking.js";

const PAGE = new URL("./threefield.html", import.meta.url);
const MODULE = /<script type="text\/plain" id="module-bytes">([^<]*)</;

/** The solver, ready to run. */
export function load() {
  const [, packed] = MODULE.exec(readFileSync(PAGE, "latin1"));
  return script.loadSolver(packing.unpackedBytes(packed));
}
