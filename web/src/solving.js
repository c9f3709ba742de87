// Asks the worker that holds the module: one request at a time, and of each kind only the latest.

// The page's policy lets nothing but this make the address of a script.
const TRUSTED = globalThis.trustedTypes?.createPolicy("threefield",
  { createScriptURL: (address) => address });
const LONG = 1500;
const LARGE = 500000;
// Runs that give way to a new plan.
const SEARCHES = new Set(["search", "promise", "relief"]);

export class Solving {
  /**
   * @param {string} source the worker's script
   * @param {string|WebAssembly.Module} module the packed module; the compiled one, once there is
   *   one, so that a new worker goes on with the code that the browser has made faster meanwhile
   * @param {(state: {loaded: boolean, makesPlans?: boolean, message?: string}) => void} onLoaded
   */
  constructor(source, module, onLoaded) {
    const address = URL.createObjectURL(new Blob([source], { type: "text/javascript" }));
    this.address = TRUSTED?.createScriptURL(address) ?? address;
    this.module = module;
    this.onLoaded = onLoaded;
    this.waiting = new Map();
    this.running = null;
    this.hasFailed = false;
    this.makesPlans = false;
    this.start();
  }

  start() {
    this.isLoaded = false;
    this.worker = new Worker(this.address);
    this.worker.onmessage = ({ data }) => this.receive(data);
    this.worker.onerror = (event) => {
      event.preventDefault();
      this.receive({ loaded: false, message: event.message });
    };
    this.worker.postMessage({ module: this.module });
  }

  /**
   * Asks for a run. A later request of the same kind takes the place of one that still waits.
   * @param {object} request `kind` and what the worker needs for it
   * @returns {Promise<?object>} the reply, or null where the request was given up
   */
  ask(request) {
    if (this.hasFailed) return Promise.resolve(null);
    return new Promise((resolve) => {
      this.waiting.get(request.kind)?.resolve(null);
      this.waiting.set(request.kind, { request, resolve });
      if (this.running && this.isObsolete(request)) this.stop();
      this.next();
    });
  }

  /** Whether a request that waits has these bytes. */
  needs(instance) {
    return [...this.waiting.values()].some(({ request }) => request.instance === instance);
  }

  /**
   * Whether the run under way is not worth waiting for: a search, or a long run of this kind. A
   * longer search gives way to all others.
   */
  isObsolete(request) {
    const { kind } = this.running.request;
    const isLong = performance.now() - this.running.begun > LONG;
    return SEARCHES.has(kind) && request.kind === "plan" || kind === request.kind && isLong
      || kind === "longer";
  }

  /** Gives up the run under way. */
  stop() {
    if (!this.running) return;
    this.running.resolve(null);
    this.running = null;
    this.restart();
  }

  /** Takes a new worker, which gives back at once all memory that the runs before have taken. */
  restart() {
    this.worker.terminate();
    this.start();
  }

  /** Answers all that wait, since nothing will run. */
  giveUp() {
    for (const { resolve } of this.waiting.values()) resolve(null);
    this.waiting.clear();
    this.running?.resolve(null);
    this.running = null;
  }

  next() {
    if (!this.isLoaded || this.running || this.waiting.size === 0) return;
    const [kind, entry] = this.waiting.entries().next().value;
    this.waiting.delete(kind);
    this.running = { ...entry, begun: performance.now() };
    this.worker.postMessage(entry.request);
  }

  receive(data) {
    if (data.loaded !== undefined) {
      this.isLoaded = data.loaded;
      if (data.loaded) this.module = data.module;
      this.makesPlans = data.makesPlans;
      this.hasFailed = !data.loaded;
      this.onLoaded(data);
      if (this.hasFailed) this.giveUp();
    } else if (this.running) {
      const { resolve, request } = this.running;
      this.running = null;
      if (request.instance?.length > LARGE) this.restart();
      resolve(data);
    }
    this.next();
  }
}
