// The command line of web/threefield.mjs: the program's commands and options, and what words give.
//
// `examples/check_options.py` compares these rows with the program's own help.

const FORMATS = ["table", "wt", "flow", "jobshop"];
const SCHEDULES = ["--order", "--rule", "--orders", "--schedule"];

const NEGATIVE = /^-\d+(\.\d*)?(e\d+)?$/;

// An option without a `value` is a flag; `allowed` are values that begin with a minus sign.
// `isBuiltOnly` marks what the module does not have.
const PROBLEM = { name: "--problem", letter: "-p", value: "TEXT", isRequired: true };
const FORMAT = { name: "--format", letter: "-f", value: "FORM", choices: FORMATS };
const FORMS = [
  { name: "--jobs", value: "N", allowed: NEGATIVE },
  { name: "--index", value: "K", allowed: NEGATIVE },
  { name: "--name", value: "NAME" },
  { name: "--pair", value: "I,K", allowed: /^-/ },
];
const MACHINES = { name: "--machines", letter: "-m", value: "M", allowed: NEGATIVE };
const EXPLAIN = { name: "--explain", value: "WHEN", choices: ["auto", "always", "never"],
  missing: "always", isBuiltOnly: true };
const OUTPUT = { name: "--output", letter: "-o", value: "FILE", isBuiltOnly: true };
const INPUT = { name: "INPUT", isPlace: true, isRequired: true };
const ANSWER = { name: "ANSWER", isPlace: true };
const STEPS = { name: "--steps", value: "N", allowed: NEGATIVE };
const JSON_TEXT = { name: "--json", isBuiltOnly: true };
const CSV = { name: "--csv", rivals: ["--json"], isBuiltOnly: true };
const INSTANCE = [PROBLEM, FORMAT, ...FORMS, MACHINES, EXPLAIN, OUTPUT, INPUT];

const ofPicture = (name, value) =>
  ({ name, value, allowed: NEGATIVE, needs: "--svg", isBuiltOnly: true });

const inPlaceOfAnswer = (name, value, rivals) =>
  ({ name, value, rivals: [...rivals, "ANSWER"], isBuiltOnly: true });

/** The rows of each command, in the order of the program's help. */
const COMMANDS = {
  solve: [...INSTANCE, { name: "--answer", value: "VERSION", choices: ["1", "2"] },
    { name: "--values" }, { ...JSON_TEXT, rivals: ["--answer"] }, CSV],
  plan: [...INSTANCE, STEPS, JSON_TEXT, CSV],
  bound: [...INSTANCE, STEPS, JSON_TEXT],
  trace: [...INSTANCE, { name: "--tex" }],
  check: [...INSTANCE, JSON_TEXT, { ...ANSWER, isRequired: true }],
  evaluate: [...INSTANCE, { name: "--certificate" },
    { name: "--bound", value: "FILE", rivals: ["--certificate"], isBuiltOnly: true },
    { ...STEPS, isBuiltOnly: true }, JSON_TEXT, CSV,
    { name: "--tex", isBuiltOnly: true },
    { name: "--measures", isBuiltOnly: true },
    inPlaceOfAnswer("--order", "JOBS", ["--rule", "--orders"]),
    { ...inPlaceOfAnswer("--rule", "RULE", ["--orders", "--schedule"]),
      choices: ["EDD", "SPT", "LPT", "WSPT", "ERD"] },
    inPlaceOfAnswer("--orders", "FILE", ["--certificate"]),
    { name: "--grade", needs: "--orders", rivals: ["--order", "--rule", "--schedule", "ANSWER"],
      isBuiltOnly: true },
    { name: "--summary", needs: "--orders", rivals: ["--csv", "--order", "--rule", "--schedule", "ANSWER"],
      isBuiltOnly: true },
    inPlaceOfAnswer("--schedule", "FILE", ["--order", "--orders"]),
    { ...ANSWER, substitutes: SCHEDULES }],
  gantt: [{ name: "--columns", letter: "-c", value: "N", allowed: NEGATIVE },
    { name: "--svg", rivals: ["--columns"] },
    ofPicture("--fold", "N"), ofPicture("--from", "T"), ofPicture("--to", "T"),
    ofPicture("--width", "PX"), ofPicture("--height", "PX"),
    { ...ofPicture("--size", "SIZE"), choices: ["a4", "a3", "16:9"],
      rivals: ["--width", "--height"] },
    { name: "--input", value: "INPUT", needs: "--svg", isBuiltOnly: true },
    { ...FORMAT, needs: "--input" }, ...FORMS, EXPLAIN, OUTPUT, ANSWER],
  random: [PROBLEM, { name: "--jobs", value: "N", allowed: NEGATIVE, isRequired: true }, MACHINES,
    { name: "--seed", value: "S", allowed: NEGATIVE },
    { name: "--max", value: "T", allowed: NEGATIVE }, OUTPUT],
  problems: [{ name: "--bounds", isBuiltOnly: true },
    { name: "--border", rivals: ["--bounds", "FILE"], isBuiltOnly: true },
    JSON_TEXT, OUTPUT, { name: "FILE", isPlace: true }],
};

/** The commands that the module does not have. */
const BUILT_ONLY = ["trace", "random"];

/** A command line that is none of the program's. */
export class Misuse extends Error {}

/** A text whose bytes are printable ASCII: of all others the numbers are shown. */
export const escaped = (text) => text.replace(/[^ -~]/gu, (letter) =>
  [...new TextEncoder().encode(letter)]
    .map((byte) => `\\x${byte.toString(16).padStart(2, "0")}`).join(""));

/** An option as a fault shows it. */
function shown({ name, value, isPlace, missing }) {
  if (isPlace) return `<${name}>`;
  if (value === undefined) return name;
  return missing ? `${name}[=<${value}>]` : `${name} <${value}>`;
}

/** How a command is used: with all its options, or with those that it needs and the given ones. */
function usage(command, given = new Map()) {
  const rows = COMMANDS[command];
  const isUsed = (row) => row.isRequired || given.has(row.name);
  const options = rows.filter((row) => !row.isPlace && isUsed(row)).map(shown);
  const places = rows.filter((row) => row.isPlace)
    .map((row) => (isUsed(row) ? `<${row.name}>` : `[${row.name}]`));
  const all = given.size > 0 ? [] : ["[OPTIONS]"];
  return `\n\nUsage: ${["threefield", command, ...all, ...options, ...places].join(" ")}`;
}

/** The reader of the words behind a command. */
class Reader {
  #command;
  #rows;
  #words;
  #given = new Map();

  constructor(command, words) {
    this.#command = command;
    this.#rows = COMMANDS[command];
    this.#words = [...words];
  }

  /** The value of each option and argument that is given, by its name; or `null` for help. */
  read() {
    while (this.#words.length > 0) {
      const word = this.#words.shift();
      if (word === "--help" || word === "-h") return null;
      if (word === "--") this.#words.splice(0).forEach((other) => this.#place(other));
      else if (word.startsWith("-") && word !== "-") this.#option(word);
      else this.#place(word);
    }
    this.#compare();
    return this.#given;
  }

  #place(word) {
    const row = this.#rows.find(({ name, isPlace }) => isPlace && !this.#given.has(name));
    if (!row) this.#unexpected(word, usage(this.#command));
    this.#given.set(row.name, word);
  }

  #unexpected(word, rest) {
    throw new Misuse(`unexpected argument '${escaped(word)}' found${rest}`);
  }

  #option(word) {
    const isLong = word.startsWith("--");
    const [name, value] = isLong ? parted(word) : [word.slice(0, 2), word.slice(2)];
    const row = this.#rows.find((one) => (isLong ? one.name : one.letter) === name);
    if (!row) this.#unknown(name, isLong);
    if (this.#given.has(row.name)) {
      const text = `the argument '${shown(row)}' cannot be used multiple times`;
      throw new Misuse(text + usage(this.#command));
    }
    this.#given.set(row.name, this.#value(row, isLong ? value : value.replace(/^=/, "") || null));
  }

  #unknown(name, isLong) {
    const places = this.#rows.some(({ isPlace }) => isPlace);
    const tip = `\n\n  tip: to pass '${escaped(name)}' as a value, use '-- ${escaped(name)}'`;
    this.#unexpected(name, (isLong && places ? tip : "") + usage(this.#command, this.#given));
  }

  /** The value of an option, behind its name in the same word or in the next one. */
  #value(row, attached) {
    if (row.value === undefined) {
      if (attached === null) return true;
      const text = `unexpected value '${escaped(attached)}' for '${row.name}' found`;
      throw new Misuse(`${text}; no more were expected${usage(this.#command, this.#given)}`);
    }
    const value = attached ?? row.missing ?? this.#next(row);
    if (row.choices && !row.choices.includes(value)) {
      const values = `\n  [possible values: ${row.choices.join(", ")}]`;
      throw new Misuse(`invalid value '${escaped(value)}' for '${shown(row)}'${values}`);
    }
    return value;
  }

  #next(row) {
    const word = this.#words[0];
    const isValue = word !== undefined
      && (!word.startsWith("-") || word === "-" || row.allowed?.test(word));
    if (isValue) return this.#words.shift();
    throw new Misuse(`a value is required for '${shown(row)}' but none was supplied`);
  }

  /** Refuses options that exclude one another, and a command line that lacks some. */
  #compare() {
    const given = [...this.#given.keys()].map((name) => this.#row(name));
    for (const row of given) {
      const rival = given.find((other) => excludes(row, other) || excludes(other, row));
      if (rival) this.#conflict(row, rival);
    }
    const isMissing = (row) => !this.#given.has(row.name) && (row.isRequired
      || (row.substitutes && !row.substitutes.some((name) => this.#given.has(name)))
      || given.some(({ needs }) => needs === row.name));
    const lacking = this.#rows.filter(isMissing);
    if (lacking.length === 0) return;
    lacking.forEach(({ name }) => this.#given.set(name, null));
    const lines = lacking.map((row) => `\n  ${shown(row)}`).join("");
    throw new Misuse("the following required arguments were not provided:"
      + lines + usage(this.#command, this.#given));
  }

  #row(name) {
    return this.#rows.find((row) => row.name === name);
  }

  #conflict(row, rival) {
    this.#given.delete(rival.name);
    const other = rival.isPlace && !rival.isRequired ? `[${rival.name}]` : shown(rival);
    const text = `the argument '${shown(row)}' cannot be used with '${other}'`;
    throw new Misuse(text + usage(this.#command, this.#given));
  }
}

const excludes = (row, other) => row.rivals?.includes(other.name);

/** The name of a long option, and what stands behind its first "=" or else `null`. */
function parted(word) {
  const at = word.indexOf("=");
  return at < 0 ? [word, null] : [word.slice(0, at), word.slice(at + 1)];
}

/** The options and arguments that the words behind a command give: `null` where help is wanted. */
export function read(command, words) {
  return new Reader(command, words).read();
}

export const isCommand = (word) => Object.hasOwn(COMMANDS, word);

/** The command or option that the module does not have: `null` if it has all that are given. */
export function missing(command, given) {
  if (BUILT_ONLY.includes(command)) return command;
  const isAsked = (name) =>
    (name === "--explain" ? given.get(name) === "always" : given.has(name));
  return COMMANDS[command].find((row) => row.isBuiltOnly && isAsked(row.name))?.name ?? null;
}

/** How a command is used, the options that the module has for it, and the others. */
function helpOf(command) {
  const isChosen = (row) => !row.isPlace && !row.isRequired;
  const isAbsent = ({ isBuiltOnly }) => isBuiltOnly || BUILT_ONLY.includes(command);
  const options = COMMANDS[command].filter(isChosen);
  const line = (label, rows) =>
    (rows.length > 0 ? `\n  ${label}: ${rows.map(shown).join(", ")}` : "");
  return usage(command).trim() + line("here", options.filter((row) => !isAbsent(row)))
    + line("in the built program alone", options.filter(isAbsent));
}

const WHERE = `

--help prints this, and --version the version. docs/usage.md says what each option means, and
README.md how to build the program.
`;

/** Help on a command. */
export const commandHelp = (command) => helpOf(command) + WHERE;

/** Help on all commands. */
export const allHelp = () =>
  `Exact machine scheduling with certificates

${Object.keys(COMMANDS).map(helpOf).join("\n\n")}${WHERE}`;
