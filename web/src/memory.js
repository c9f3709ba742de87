// Memory: browsers keep what is no longer used for long, and large tables make much of it.

const MANY_JOBS = 20000;
const PLANS_BETWEEN = 8;
const UNTOUCHED = 128 * 1024 * 1024;

let plans = 0;

/**
 * Gives back at once the memory of the arrays in objects that no one reads any more. They are sent
 * to a port that is closed: `transfer` would leave those that came from a worker with its message.
 */
export function release(...parts) {
  const { port1, port2 } = new MessageChannel();
  port2.close();
  port1.postMessage(null, [...new Set(buffersOf(...parts))]);
  port1.close();
}

/**
 * Told of each plan that is shown. Now and then, where plans are large, it asks for a buffer that
 * nothing is written into, which takes no memory but makes the browser look for what it can free.
 */
export function hasShown(jobs) {
  if (jobs >= MANY_JOBS && ++plans % PLANS_BETWEEN === 0) new ArrayBuffer(UNTOUCHED);
}

/** The buffers of the arrays in a schedule, an evaluation or what holds them. */
export function buffersOf(...parts) {
  return parts.flatMap((part) => Object.values(part ?? {}))
    .filter((value) => ArrayBuffer.isView(value)).map((value) => value.buffer);
}
