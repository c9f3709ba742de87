// Why no schedule is better: the certificates of optimal plans and of lower bounds, in words.

import { html } from "./svg.js";
import { leastWords } from "./values.js";

const MOST_NAMED = 8;
const LONGEST_SHOWN = 2000;

const OPTIMUM_WORDS = {
  load: "All machines together need this long for all the work.",
  job: "This one job takes so long by itself.",
  pairs: "Of any two jobs one waits for the other; the cheaper of the two waits is counted for "
    + "each pair.",
  last: "One of these jobs is completed last, when all of them are done. The one that costs least "
    + "then costs this much.",
  window: "These jobs can't start before the first of them is released, and all their work comes "
    + "after that.",
  split: "What one side needs on machine 1 and the other on machine 2, one after another.",
  machine: "This machine needs this long for all its work.",
  ranks: "On each machine the last job counts once, the one before it twice, and so on.",
};

const BOUND_WORDS = {
  job: "This one job is not done earlier, even if nothing is before it.",
  window: "These jobs can't start before the first of them is released, and the machines together "
    + "need so long for all their work.",
  crowd: "These jobs are so many that one machine has to do several of them.",
  parts: "If none of these jobs is to be so late, they have more to do between the first two times "
    + "below than the machines have room for.",
  pair: "All jobs pass the two machines below in one order. These jobs are counted by their time on "
    + "the first, the others by their time on the second, and one of the machines has to wait besides.",
  machine: "One machine has to do all these jobs, one after another.",
  alone: "Each job starts when it is released, or when the jobs that it has to follow can be done, and "
    + "no other job is in its way.",
  multipliers: "Completion times are weighted by the multipliers below; in Smith's order no sum of "
    + "them is smaller.",
  kept: "By due date, job after job is planned in. Where the planned ones take longer than there "
    + "is time, the longest of them is put aside. As many jobs as are put aside are late at least. "
    + "Where late jobs have weights, no choice that leaves time for the others weighs less.",
  shortest: "At each time the released job of the shortest remaining time runs, even where it "
    + "interrupts another one. No sum of completion times is smaller.",
  ranks: "Each job delays itself and the jobs after it on its machine: one job for each machine "
    + "counts once, as many count twice, and so on. With the longest jobs last no sum is smaller.",
  potentials: "No job waits, so two jobs that follow each other start apart by at least their delay. "
    + "The first number below is for the end; then each job has two, one towards the next job and "
    + "one towards the one before.",
  prices: "Each time step has a price, listed below. No schedule costs less than what all jobs pay "
    + "at the times that are cheapest for them, less the prices of all steps.",
  prices_on: "On one machine each time step has a price, listed below. No schedule costs less than "
    + "what all jobs pay at the times there that are cheapest for them, less the prices of all steps.",
};

const ARC_WORDS = " Along a precedence constraint the later job gives some of its multiplier to "
  + "the one before it.";

/** How many numbers stand before the jobs of a certificate, for the kinds that list jobs. */
const BEFORE_JOBS = { last: 0, window: 0, job: 0, crowd: 1, pair: 4, parts: 3 };

/** The jobs of a certificate, from 1; ranges such as 3-5 are all their jobs. */
export function certificateJobs(certificate, most, before = BEFORE_JOBS) {
  const [kind, ...words] = certificate.split(" ");
  if (before[kind] === undefined) return [];
  const jobs = [];
  for (const word of words.slice(before[kind])) {
    const dash = word.indexOf("-");
    const to = Number(word.slice(dash + 1));
    const from = dash < 0 ? to : Number(word.slice(0, dash));
    for (let job = Math.max(1, from); job <= Math.min(to, most); job++) jobs.push(job);
  }
  return jobs;
}

/** The certificate of an optimal plan of a class that has a solver, with its arithmetic. */
export function optimumReason(plan, evaluation) {
  const { certificate } = plan.schedule;
  return [
    html("p", {}, OPTIMUM_WORDS[certificate.split(" ")[0]] ?? ""),
    jobsOf(plan, certificateJobs(certificate, plan.jobs.length)),
    html("ol", { class: "steps" }, evaluation.steps.map((step) => html("li", {}, step))),
    html("p", {}, `So every schedule has at least the value ${evaluation.bound}, in the numbers of `
      + "the job table, and this one has it. ", proved()),
  ];
}

/** The certificate of a lower bound, of a plan that may not be optimal. */
export function boundReason(plan) {
  const { value, certificate } = plan.bound;
  const before = { ...BEFORE_JOBS, machine: 1 };
  return [
    html("p", {}, (BOUND_WORDS[certificate.split(" ")[0]] ?? "")
      + (certificate.includes("\narcs ") ? ARC_WORDS : "")),
    jobsOf(plan, certificateJobs(certificate, plan.jobs.length, before)),
    html("p", {}, `So no schedule has ${leastWords(plan.calendar, plan.problem, value)}. `,
      proved()),
    html("pre", { tabindex: 0, "aria-label": "Certificate of the bound" },
      certificate.length > LONGEST_SHOWN ? `${certificate.slice(0, LONGEST_SHOWN)} …`
        : certificate),
  ];
}

function jobsOf(plan, jobs) {
  if (jobs.length === 0) return null;
  const names = jobs.slice(0, MOST_NAMED).map((job) => plan.jobs[job - 1].name);
  const rest = jobs.length - names.length;
  return html("p", {}, `Jobs of the certificate: ${names.join(", ")}`
    + `${rest > 0 ? ` and ${rest} more` : ""}.`);
}

function proved() {
  return html("span", { class: "proved" }, "proved");
}
