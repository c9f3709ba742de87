// Searches longer for a plan where the one that was found is not proved optimal.

const MOST_STEPS = 1000000;
// Larger plans are made by rules alone, which no search makes better.
const MOST_JOBS = 5000;
const TIMES = [2, 5, 10];

export class Longer {
  /**
   * @param {object} source `request()` the request of now, or null; `best()` what the module made;
   *   `ask(request)` asks the worker and `stop()` stops it; `found(reply)` takes what a longer
   *   search found and tells what became of the gap, in a sentence
   */
  constructor(source) {
    this.source = source;
    this.at = (id) => document.getElementById(id);
    this.of = null;
    this.isRunning = false;
    this.at("search-longer").addEventListener("click", () =>
      this.isRunning ? source.stop() : this.search());
  }

  /** Shows the button where the plan of now has a gap; what was searched before is forgotten. */
  draw() {
    const { plan } = this.source.best();
    const now = this.source.request();
    if (this.of !== now) {
      this.of = now;
      this.searched = 1;
      this.say("");
    }
    const isOver = plan.isOptimal || plan.jobs.length > MOST_JOBS
      || this.searched * stepsOf(plan) >= MOST_STEPS;
    this.at("search-longer").hidden = isOver && !this.isRunning;
    this.at("search-longer").textContent = this.isRunning ? "Stop" : "Search longer";
    this.at("longer").hidden = this.at("search-longer").hidden && this.words === "";
  }

  say(words) {
    this.words = words.trim();
    this.at("longer-words").textContent = this.words;
  }

  /** Searches with twice, five times and ten times the steps, until the plan is proved optimal. */
  async search() {
    const { request, best } = this.source;
    const now = request();
    const before = this.searched;
    if (!now) return;
    this.isRunning = true;
    for (const times of TIMES) {
      const steps = Math.min(MOST_STEPS, stepsOf(best().plan) * before * times);
      this.say(`${this.words} Searching with ${(before * times).toLocaleString("en")} times the `
        + "steps …");
      this.draw();
      if (!await this.round(now, steps)) break;
      this.searched = before * times;
      if (best().plan.isOptimal) break;
    }
    this.isRunning = false;
    if (request() === now) this.draw();
  }

  /** One search; false where it was stopped or another plan is wanted meanwhile. */
  async round(now, steps) {
    const { request, ask, found } = this.source;
    const reply = await ask({ ...now.request, kind: "longer", steps });
    if (request() !== now) return false;
    if (reply?.schedule) {
      this.say(await found(reply));
      return true;
    }
    this.say(reply ? "The search ended early." : "The search was stopped.");
    return false;
  }
}

/** The steps of a search for a plan that is asked for without any. */
function stepsOf({ jobs }) {
  return Math.max(1000, Math.min(10000, 40 * jobs.length));
}
