// The names of machines: a text such as “Sawing; Painting”, in the order of the machines.

export const LONGEST_NAME = 100;
export const MOST_MACHINES = 1000;

/** The names in a text, between semicolons, or between commas where there is no semicolon. */
export function machineNames(text) {
  const mark = text.includes(";") ? ";" : ",";
  return text.split(mark).slice(0, MOST_MACHINES)
    .map((name) => name.replace(/\s+/g, " ").trim().slice(0, LONGEST_NAME));
}

/** The text of names, empty where no machine has one. */
export function machineText(names) {
  const plain = names.map((name) => name.replace(/[;\s]+/g, " ").trim());
  const hasMark = plain.length === 1 && plain[0].includes(",");
  return plain.every((name) => name === "") ? "" : plain.join("; ") + (hasMark ? ";" : "");
}

/** The name of a machine, counted from 1. */
export function machineName(names, machine) {
  return names[machine - 1] || `Machine ${machine}`;
}
