// What a network is asked for, read from a table of links and from limits of owners. Names of links and places, and costs, are taken by the rules of
// the Python package (matbench/links.py).
import { holdToColumns, numbersOf, orTell, saysYes, TableFault, UNIT, wholeOf } from "./tables.mjs";

/** The columns of links: those that are needed, and those that may be there. */
const LINK_COLUMNS = [["link", "from", "to"], ["cost", "gain", "owner", "colour", "must", "never"]];
const MOST_COST = 10 ** 12;
/** A limit above this is none. */
const MOST_OF_LIMIT = 10_000;

/** The column that is there of two, or null. Throws TableFault where both are. */
function oneOf(heads, one, other) {
  if (heads.includes(one) && heads.includes(other)) throw new TableFault(`There is a column ${one} and a column ${other}: leave one of them out.`);
  return [one, other].find((it) => heads.includes(it)) ?? null;
}

function costOf(row) {
  const cost = wholeOf(row, "cost", MOST_COST);
  if (cost === null) throw row.fault("there is no cost", "cost");
  return BigInt(cost) * UNIT;
}

function tellFaultyLinks({ rows }, groupedBy, tell) {
  const seen = new Map();
  for (const row of rows) {
    for (const column of ["link", "from", "to", ...(groupedBy ? [groupedBy] : [])]) {
      if (!row.of(column)) tell(row.fault(`there is no ${column}`, column));
    }
    const name = row.of("link");
    if (name && seen.has(name)) tell(row.fault(`the link ${name} stands twice, first in line ${seen.get(name)}`, "link"));
    else seen.set(name, row.line);
  }
}

/**
 * The links of a table, { name, from, to, value, group, must, never, line }, with all that is wrong with it, as TableFaults. A value is a cost or a
 * gain in units, by the column `valued`, and a group an owner or a colour, by the column `groupedBy`; both are null where there is no such column.
 */
export function readLinks(table) {
  const faults = [];
  const tell = (fault) => faults.push(fault);
  holdToColumns(table, ...LINK_COLUMNS);
  const [valued, groupedBy] = [oneOf(table.heads, "cost", "gain"), oneOf(table.heads, "owner", "colour")];
  tellFaultyLinks(table, groupedBy, tell);
  const gains = valued === "gain" ? numbersOf(table.rows, "gain", tell) : [];
  const links = table.rows.map((row, place) => {
    const value = valued === "cost" ? orTell(() => costOf(row), tell) : (gains[place] ?? 0n);
    const [must, never] = ["must", "never"].map((it) => orTell(() => saysYes(row, it), tell));
    if (must && never) tell(row.fault("the link must be built, and must not", "never"));
    const [name, from, to] = ["link", "from", "to"].map((it) => row.of(it));
    return { name, from, to, value, group: groupedBy && row.of(groupedBy), must, never, line: row.line };
  });
  return { links, places: [...new Set(links.flatMap((it) => [it.from, it.to]))], valued, groupedBy, faults };
}

/** The owners or colours of some links, in the order in which they come. */
export function groupsOfLinks({ links, groupedBy }) {
  return groupedBy ? [...new Set(links.map((it) => it.group))] : [];
}

/** The rows of a table of limits by their names, each with a map as `LimitsForm` takes it. Throws TableFault where one has no name, or stands twice. */
export function limitsOfGroups(table) {
  holdToColumns(table, ["name", "most"], []);
  const found = new Map();
  for (const row of table.rows) {
    const name = row.of("name");
    if (!name) throw row.fault("the limit has no name", "name");
    if (found.has(name)) throw row.fault(`${name} stands twice, first in line ${found.get(name).get("").line}`, "name");
    found.set(name, new Map([["", row]]));
  }
  return found;
}

function mostOfGroup(name, limits) {
  const row = limits.get(name).get("");
  const most = wholeOf(row, "most", MOST_OF_LIMIT);
  if (most === null) throw row.fault(`there is no number for ${name}`, "most");
  return most;
}

/** What is asked for by the links that `readLinks` read, limits by names and the choices, with all that is wrong with the limits, as TableFaults. */
export function requestOfNetwork(read, limits, { task, count }) {
  const faults = [];
  const mosts = task === "tree" ? groupsOfLinks(read) : [];
  const groups = new Map(mosts.map((it) => [it, orTell(() => mostOfGroup(it, limits), (fault) => faults.push(fault))]));
  const number = Number(count);
  if (task === "trees" && !(Number.isInteger(number) && number >= 1 && number <= 64)) {
    faults.push(new TableFault("How many networks there are to be is a whole number from 1 to 64"));
  }
  return { request: { ...read, groups, task, count: number }, faults };
}
