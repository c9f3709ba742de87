// Scheduling problems in three-field notation and in words.
// The page uses this for its words and its columns alone: what is solved is decided by the module.

export const ENVIRONMENTS = [
  { id: "1", words: "One machine" },
  { id: "P", words: "Identical machines in parallel" },
  { id: "F", words: "Flow shop: machine 1, then machine 2" },
  { id: "O", words: "Open shop: two machines in any order" },
  { id: "J", words: "Job shop: each job has its own route" },
];

export const OBJECTIVES = [
  { id: "Lmax", words: "the maximum lateness", uses: ["due"] },
  { id: "hmax", words: "the maximum cost", uses: ["cost"] },
  { id: "Cmax", words: "the makespan", uses: [] },
  { id: "sumC", words: "the sum of completion times", uses: [] },
  { id: "sumwC", words: "the weighted sum of completion times", uses: ["weight"] },
  { id: "sumT", words: "the total tardiness", uses: ["due"] },
  { id: "sumwT", words: "the weighted total tardiness", uses: ["due", "weight"] },
  { id: "sumU", words: "the number of late jobs", uses: ["due"] },
  { id: "sumwU", words: "the weighted number of late jobs", uses: ["due", "weight"] },
];

const CONDITIONS = [
  { id: "rj", words: "release dates", uses: ["release"] },
  { id: "prec", words: "precedence constraints", uses: ["after"] },
  { id: "prmp", words: "preemption: jobs may be interrupted and resumed", uses: [] },
  { id: "prmu", words: "the same order on all machines", uses: [] },
  { id: "nwt", words: "no waiting between machines", uses: [] },
  { id: "block", words: "blocking", uses: [] },
  { id: "rcrc", words: "recirculation", uses: [] },
];

const SPELLINGS = new Map([
  ["r_j", "rj"], ["pmtn", "prmp"], ["C_max", "Cmax"], ["L_max", "Lmax"], ["h_max", "hmax"],
  ...["C", "T", "U"].flatMap((letter) => [
    [`sum${letter}j`, `sum${letter}`], [`sum${letter}_j`, `sum${letter}`],
    [`sumwj${letter}j`, `sumw${letter}`], [`sumw_j${letter}_j`, `sumw${letter}`],
  ]),
]);

/** The nineteen classes that have a solver, with the method that solves them. */
export const SOLVED = new Map([
  ["1||sumC", "shortest processing time first (Smith 1956)"],
  ["1|prmp|sumC", "shortest processing time first (Smith 1956)"],
  ["1||sumwC", "largest ratio of weight to processing time first (Smith 1956)"],
  ["1|prmp|sumwC", "largest ratio of weight to processing time first (Smith 1956)"],
  ["1||Lmax", "backwards from the last job (Lawler 1973)"],
  ["1|prmp|Lmax", "backwards from the last job (Lawler 1973)"],
  ["1|prec|Lmax", "backwards from the last job (Lawler 1973)"],
  ["1|prec,prmp|Lmax", "backwards from the last job (Lawler 1973)"],
  ["1||hmax", "backwards from the last job (Lawler 1973)"],
  ["1|prmp|hmax", "backwards from the last job (Lawler 1973)"],
  ["1|prec|hmax", "backwards from the last job (Lawler 1973)"],
  ["1|prec,prmp|hmax", "backwards from the last job (Lawler 1973)"],
  ["1|rj,prmp|Lmax", "earliest due date of the released jobs, with preemption (Horn 1974)"],
  ["P||sumC", "shortest processing time first (Conway, Maxwell and Miller 1967)"],
  ["P|prmp|Cmax", "McNaughton's wrap-around rule (1959)"],
  ["F2||Cmax", "Johnson's rule (1954)"],
  ["F2|prmp|Cmax", "Johnson's rule (1954)"],
  ["O2||Cmax", "Gonzalez and Sahni (1976)"],
  ["O2|prmp|Cmax", "Gonzalez and Sahni (1976)"],
]);

/**
 * Reads a notation.
 * @param {string} text for example "P2 | pmtn | C_max"
 * @returns {{environment: string, count: ?number, conditions: string[], objective: string}|null}
 *   null where the text is no notation
 */
export function readNotation(text) {
  const fields = text.split("|").map((field) => field.trim());
  if (fields.length !== 3) return null;
  const environment = /^(?:1|([PQRFOJ])(?:m|([1-9]\d{0,2}|1000))?)$/.exec(fields[0]);
  if (!environment) return null;
  const conditions = fields[1] === "" ? [] : fields[1].split(",").map(canonicalWord);
  const known = CONDITIONS.map((condition) => condition.id).filter((id) => conditions.includes(id));
  if (known.length !== conditions.length) return null;
  const objective = canonicalWord(fields[2]);
  if (!OBJECTIVES.some((each) => each.id === objective)) return null;
  return {
    environment: environment[1] ?? "1",
    count: environment[2] ? Number(environment[2]) : null,
    conditions: known,
    objective,
  };
}

function canonicalWord(word) {
  return SPELLINGS.get(word.trim()) ?? word.trim();
}

/** The notation of a problem without its number of machines, or with it where there is one. */
export function writeNotation(problem) {
  const count = problem.count === null || problem.environment === "1" ? "" : problem.count;
  return `${problem.environment}${count}|${problem.conditions.join(",")}|${problem.objective}`;
}

/** The name of a problem's class: as in SOLVED, shops with their two machines. */
export function classOf(problem) {
  const shop = isShop(problem) && (problem.count === null || problem.count === 2);
  return writeNotation({ ...problem, count: shop ? 2 : null });
}

/** Whether a job has two processing times, one on each of two machines. */
export function isShop(problem) {
  return ["F", "O"].includes(problem.environment);
}

/** Whether a job has a route: its own machines, in its own order, with a time on each. */
export function hasRoutes(problem) {
  return problem?.environment === "J";
}

/** Whether plans of a problem without a solver are searched for. */
export function isSearched(problem) {
  return !/^[QR]|block|rcrc|hmax/.test(writeNotation(problem));
}

/** Whether the number of machines has to come from beside the notation; routes name theirs. */
export function needsMachines(problem) {
  return problem.environment !== "1" && !hasRoutes(problem) && problem.count === null;
}

/** The columns of the table that a problem uses, besides name and processing time. */
export function columnsUsed(problem) {
  const parts = [...CONDITIONS, ...OBJECTIVES].filter(
    (part) => problem.conditions.includes(part.id) || problem.objective === part.id);
  return new Set(["name", hasRoutes(problem) ? "route" : "time",
    ...(isShop(problem) ? ["time2"] : []), ...parts.flatMap((part) => part.uses)]);
}

/** A problem in a planner's words: “One machine, A before B: no job later than it has to be”. */
export function inShort(problem) {
  const { environment, count, conditions, objective } = problem;
  const where = { 1: "One machine", P: `${count ?? "Several"} like machines`,
    F: "One machine, then the other", O: "Two machines in any order",
    J: "Each job on its own route", Q: "Machines of different speeds",
    R: "Machines that differ" }[environment];
  const rules = { prec: "some jobs after others", rj: "jobs that come later",
    prmp: "jobs may be interrupted" };
  const kept = conditions.map((id) => rules[id]).filter(Boolean);
  return `${[where, ...kept].join(", ")}: ${GOALS[objective]}`;
}

const GOALS = {
  Lmax: "the latest job as little late as possible", hmax: "the greatest cost as small as possible",
  Cmax: "all work done as early as possible", sumC: "jobs done as early as possible on average",
  sumwC: "important jobs done early", sumT: "as little lateness as possible in total",
  sumwT: "as little lateness of important jobs as possible", sumU: "as few late jobs as possible",
  sumwU: "as few late important jobs as possible",
};

/** A problem in a sentence, such as "One machine: minimize the maximum lateness". */
export function describe(problem) {
  const { environment, count, conditions, objective } = problem;
  const where = ENVIRONMENTS.find((each) => each.id === environment)?.words ?? {
    Q: "Machines of different speeds", R: "Unrelated machines",
  }[environment];
  const machines = count === null || isShop(problem) && count === 2 ? "" : ` (${count})`;
  const goal = OBJECTIVES.find((each) => each.id === objective).words;
  const kept = CONDITIONS.filter((each) => conditions.includes(each.id)).map((each) => each.words);
  return `${where}${machines}: minimize ${goal}${kept.length ? ", with " + kept.join(", ") : ""}`;
}

/** The solved classes nearest to a problem: same environment, then as few changes as possible. */
export function nearestSolved(problem) {
  const candidates = [...SOLVED.keys()].map((name) => ({ name, problem: readNotation(name) }));
  return candidates
    .filter((each) => each.problem.environment === problem.environment)
    .map((each) => ({ ...each, distance: distance(each.problem, problem) }))
    .sort((a, b) => a.distance - b.distance)
    .slice(0, 3)
    .map((each) => ({ ...each.problem, count: isShop(problem) ? 2 : problem.count }));
}

function distance(a, b) {
  const differing = CONDITIONS.filter(
    (each) => a.conditions.includes(each.id) !== b.conditions.includes(each.id));
  const relaxed = differing.every((each) => each.id === "prmp");
  const sameKind = a.objective.endsWith("max") === b.objective.endsWith("max");
  const sharesDueDates = "LTU".includes(letterOf(a)) && "LTU".includes(letterOf(b));
  const goal = a.objective === b.objective ? 0 : sharesDueDates ? 2 : sameKind ? 3 : 4;
  return goal + differing.length * (relaxed ? 0.5 : 1);
}

function letterOf(problem) {
  return problem.objective.replace(/^sum|^sumw|max$/g, "").replace("w", "");
}
