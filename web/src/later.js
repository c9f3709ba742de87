// What is drawn last: what is not seen at first waits until the browser has shown the rest.

// So many milliseconds it waits for a plan that is being made.
const MOST_WAIT = 1000;
const MOST_IDLE = 100;
const waiting = new Map();
let making = null;
let isComing = false;

/** Draws something later, or nothing, in place of what the same owner has waiting. */
export function later(owner, draw) {
  waiting.delete(owner);
  if (!draw) return;
  waiting.set(owner, draw);
  if (making === null) come();
}

/** Draws at once what an owner has waiting. */
export function drawNow(owner) {
  const draw = waiting.get(owner);
  waiting.delete(owner);
  draw?.();
}

/** A plan is being made: what waits is drawn after it. */
export function planBegins() {
  clearTimeout(making);
  making = setTimeout(wait, MOST_WAIT);
}

/** The plan is there, or why there is none; `then` follows when all is drawn. */
export function planEnds(then) {
  clearTimeout(making);
  making = null;
  if (waiting.size > 0) later(planEnds, then);
  else then();
}

/** The plan takes long. */
function wait() {
  making = null;
  if (waiting.size > 0) come();
}

/** Draws what waits once the browser has shown what there is. */
function come() {
  if (isComing) return;
  isComing = true;
  const draw = () => {
    isComing = false;
    if (making === null) for (const owner of [...waiting.keys()]) drawNow(owner);
  };
  if (document.hidden) setTimeout(draw);
  else requestAnimationFrame(() => whenIdle(draw));
}

/** Waits until nothing else is to be done, or not much longer than a frame is shown. */
function whenIdle(draw) {
  if (globalThis.requestIdleCallback) requestIdleCallback(draw, { timeout: MOST_IDLE });
  else setTimeout(draw, MOST_IDLE);
}
