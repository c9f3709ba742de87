#!/usr/bin/env node
// The program's commands by the page's proved module, for those who have node and no kit:
//
//   node web/threefield.mjs solve -p "1||sumC" jobs.txt

import { openSync, readSync, writeSync } from "node:fs";
import { DEVICE_FAULT, perform } from "./commands.mjs";
import { load } from "./solver.mjs";

// A longer text is refused, so no more than one byte beyond this is read.
const MOST_BYTES = 2 ** 26;
const CHUNK = 2 ** 16;
const WAIT = 5;

/** Does something again for as long as a device is not ready. */
function patiently(work) {
  for (;;) {
    try {
      return work();
    } catch (error) {
      if (error.code !== "EAGAIN") throw error;
      Atomics.wait(new Int32Array(new SharedArrayBuffer(4)), 0, 0, WAIT);
    }
  }
}

/** Reads into a buffer, and tells how many bytes; Windows reports the end as a fault. */
function readSome(file, buffer) {
  try {
    return readSync(file, buffer);
  } catch (error) {
    if (error.code === "EOF") return 0;
    throw error;
  }
}

function readAll(file) {
  const chunks = [];
  for (let left = MOST_BYTES + 1, count = 1; left > 0 && count > 0; left -= count) {
    const chunk = Buffer.alloc(Math.min(CHUNK, left));
    count = patiently(() => readSome(file, chunk));
    chunks.push(chunk.subarray(0, count));
  }
  return Buffer.concat(chunks);
}

/** Opens a file, or standard input for "-", and gives a function that reads it. */
function open(name) {
  const file = name === "-" ? 0 : openSync(name);
  return () => readAll(file);
}

function writeAll(file, bytes) {
  for (let at = 0; at < bytes.length;) at += patiently(() => writeSync(file, bytes, at));
}

/** Writes what a command gives, and tells the exit status. */
function write({ status, output, errors }) {
  try {
    writeAll(1, output);
  } catch {
    return write(DEVICE_FAULT);
  }
  try {
    writeAll(2, Buffer.from(errors));
  } catch {
    // Nobody can be told.
  }
  return status;
}

try {
  process.exitCode = write(await perform(process.argv.slice(2), load, open));
} catch (error) {
  // Without this node would end with 1, which says that an answer is rejected.
  const errors = `threefield: the module stopped: ${error}\n`;
  process.exitCode = write({ status: 4, output: new Uint8Array(0), errors });
}
