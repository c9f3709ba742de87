// The program's commands, run by the page's module over the texts that a command line names.

import {
  allHelp, commandHelp, escaped, isCommand, missing, Misuse, read,
} from "./command_line.mjs";

const NONE = new Uint8Array(0);
const LINE_FEED = new TextEncoder().encode("\n");
const UNCOUNTED_SHOP = /^([ \t]*[FO])m?(?=[ \t]*\|)/;
const VERSION = "threefield 0.1.0\n";
const TRY_HELP = "\n\nFor more information, try '--help'.\n";
const MOST_INDEX = 2 ** 32 - 1;

const ended = (status, errors, output = NONE) => ({ status, errors, output });
export const DEVICE_FAULT = ended(4, "threefield: device fault\n");

const printed = (text) => ended(0, "", new TextEncoder().encode(text));

/** What is said of a command line that is not served. */
const refused = (text) => ended(5, `threefield: ${text}\n`);

/** A number of digits alone; any other word is no number, which the module refuses. */
const numeral = (word) => (/^[0-9]+$/.test(word) ? Number(word) : NaN);
const perhaps = (word) => (word === undefined ? null : numeral(word));

/** The form of the instance, for the module. */
function formatOf(given) {
  const kind = given.get("--format") ?? "table";
  if (kind === "wt") {
    const index = numeral(given.get("--index") ?? "1");
    return { kind, jobs: perhaps(given.get("--jobs")), index };
  }
  if (kind === "table") return { kind };
  // A job shop file has the layout of a flow shop file, and no pair of machines.
  if (kind === "jobshop") return { kind: "flow", word: kind, name: given.get("--name"), pair: null };
  const [first, ...others] = (given.get("--pair") ?? "").split(",");
  const pair = given.has("--pair") ? [numeral(first), numeral(others.join(","))] : null;
  return { kind, name: given.get("--name"), pair };
}

/** A request for the module, without the texts that it names. */
function requestOf(command, given) {
  return {
    command: given.has("--svg") ? "picture" : command,
    problem: given.get("--problem"),
    machines: perhaps(given.get("--machines")),
    format: formatOf(given),
    answerVersion: given.get("--answer") === "1" ? 1 : 2,
    certificate: given.has("--certificate"),
    columns: perhaps(given.get("--columns")),
    steps: perhaps(given.get("--steps")),
  };
}

/** The names of the texts that a command reads, by the request's fields. */
function namesOf(command, given) {
  if (command === "gantt") return { answer: given.get("ANSWER") ?? "-" };
  if (command === "problems") return given.has("FILE") ? { instance: given.get("FILE") } : {};
  const instance = given.get("INPUT");
  return given.has("ANSWER") ? { instance, answer: given.get("ANSWER") } : { instance };
}

/** Whether a word names several instances: `all`, or the first and the last one. */
function isSpan(word) {
  if (word === "all") return true;
  const [, first, last] = /^([0-9]+)-([0-9]+)$/.exec(word ?? "") ?? [];
  return first !== undefined && 1 <= Number(first) && Number(first) <= Number(last)
    && Number(last) <= MOST_INDEX;
}

/** Whether the file is one of several instances, of which none is named. */
function isOfSeveral(given) {
  const form = given.get("--format");
  return form === "wt" || ["flow", "jobshop"].includes(form) && !given.has("--name");
}

/** What no module has of what is asked for. */
function lacking(command, given) {
  const several = !["plan", "check"].includes(command) && isOfSeveral(given)
    && isSpan(given.get("--index"));
  return missing(command, given) ?? (several ? `--index ${given.get("--index")}` : null);
}

/** What is wrong with a request, by the module's own ranges: `null` if nothing is. */
function fault(solver, request, names) {
  const reply = solver.run({ ...request, instance: NONE, answer: NONE });
  if (reply.status === 5) return reply;
  if (request.format.kind === "flow" && request.format.name === undefined) {
    return refused(`--format ${request.format.word ?? "flow"} needs --name`);
  }
  return names.instance === "-" && names.answer === "-"
    ? refused("INPUT and ANSWER cannot both be standard input") : null;
}

/** Runs a request over the texts that it names, once all of them are open. */
function run(solver, request, names, open) {
  let texts;
  try {
    const opened = Object.entries(names).map(([field, name]) => [field, open(name)]);
    texts = Object.fromEntries(opened.map(([field, readAll]) => [field, readAll()]));
  } catch (error) {
    if (error.code === undefined) throw error;
    return DEVICE_FAULT;
  }
  // To the module an empty table is none; a line without words is refused for the same fault.
  if (request.command === "problems" && texts.instance?.length === 0) texts.instance = LINE_FEED;
  const reply = solver.run({ ...request, ...texts });
  const counted = countedShop(request, reply);
  return counted === null ? reply : solver.run({ ...request, ...texts, problem: counted });
}

/** The problem of a plan or an evaluation without a number of machines, with that of its file. */
function countedShop({ command, problem, machines, format }, { errors }) {
  const isCounting = command === "plan" || command === "evaluate";
  const isUncounted = isCounting && machines === null && format.pair === null;
  const [, count] = /^threefield: refused: MachineCount (\d+)\n$/.exec(errors) ?? [];
  if (!isUncounted || count === undefined || !UNCOUNTED_SHOP.test(problem)) return null;
  return problem.replace(UNCOUNTED_SHOP, `$1${count}`);
}

/** What is said of a command line that is none of the program's. */
function misused(text, words) {
  const isNamed = words.some((word) => word.startsWith("-p") || word.startsWith("--problem"));
  const hint = !isNamed && words.some((word) => word.includes("|"))
    ? '\nWrite -p before the problem, as in -p "1||Lmax".\n' : "";
  return ended(5, `error: ${text}${TRY_HELP}${hint}`);
}

const unrecognized = (word) => new Misuse(`unrecognized subcommand '${escaped(word)}'`);

/** Help on the command of this name, or on all commands where there is no name. */
function helpOn(word) {
  if (word === undefined) return allHelp();
  if (!isCommand(word)) throw unrecognized(word);
  return commandHelp(word);
}

/** What is printed for words that do not begin with a command that runs. */
function withoutCommand([word, other]) {
  switch (word) {
    case undefined: return ended(5, allHelp());
    case "--version": case "-V": return printed(VERSION);
    case "--help": case "-h": return printed(allHelp());
    case "help": return printed(helpOn(other));
  }
  if (word.startsWith("-")) throw new Misuse(`unexpected argument '${escaped(word)}' found`);
  throw unrecognized(word);
}

/** What is said of what the module does not have. */
const absent = (what) =>
  refused(`${what} is not in the page's module; the built program has it (README.md)`);

/** Does what a command is asked for, if the module has it. */
async function served(command, words, load, open) {
  const given = read(command, words);
  if (given === null) return printed(commandHelp(command));
  const what = lacking(command, given);
  if (what !== null) return absent(what);
  const solver = await load();
  const request = requestOf(command, given), names = namesOf(command, given);
  if (!solver.can(request.command)) return absent(command);
  return fault(solver, request, names) ?? run(solver, request, names, open);
}

/**
 * Does what the words behind the program's name ask for: `{ status, output, errors }`.
 *
 * `load` gives the solver, and `open` opens a text and gives a function that reads it.
 */
export async function perform(words, load, open) {
  const [command, ...rest] = words;
  try {
    return isCommand(command) ? await served(command, rest, load, open) : withoutCommand(words);
  } catch (error) {
    if (!(error instanceof Misuse)) throw error;
    return misused(error.message, words);
  }
}
