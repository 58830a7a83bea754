// What a roster, or a plan of who takes which post, is asked for, read from a table of wishes and from limits, by the rules of the Python package
// (matbench/roster/reading.py). For posts applicants are the people, posts the shifts, and offers the wishes.
import { holdToColumns, inOrder, numbersOf, orTell, saysYes, TableFault, wholeOf } from "./tables.mjs";

/** What the parts of a roster are called, and so its columns, and the further columns that it may have. */
export const ROSTER_WORDS = {
  person: "person", people: "people", shift: "shift", shifts: "shifts", wish: "wish", wishes: "wishes", granted: "granted", refused: "refused",
  plan: "roster", further: ["day", "week", "kind", "must", "never", "last"],
};
export const POSTS_WORDS = {
  person: "applicant", people: "applicants", shift: "post", shifts: "posts", wish: "offer", wishes: "offers", granted: "taken", refused: "not taken",
  plan: "plan", further: ["kind", "must", "never"],
};
/** The columns of limits: those that are needed, and those that may be there. */
export const LIMIT_COLUMNS = [["name", "most"], ["least", "kind", "week", "day"]];
/** A limit above this is none. */
const MOST_OF_LIMIT = 10_000;

/** One text for several words, which no other words have. */
const keyOf = (...words) => JSON.stringify(words);

/**
 * The shifts of the rows by week, day and name, each with its title: the name alone, or with the day, or with both in front, so that no two are
 * called the same.
 */
function shiftsOf(rows, words) {
  const found = new Map();
  for (const row of rows) {
    const [week, day, name] = [row.of("week"), row.of("day"), row.of(words.shift)];
    found.set(keyOf(week, day, name), { week, day, name });
  }
  const parts = [...found.values()].map(({ week, day, name }) => [week, day, name]);
  const titlesFrom = (first) => parts.map((it) => it.slice(first).filter(Boolean).join(" "));
  const titles = [2, 1, 0].map(titlesFrom).find((it) => new Set(it).size === parts.length) ?? parts.map((it) => it.join(" / "));
  [...found.values()].forEach((shift, place) => (shift.title = titles[place]));
  return found;
}

/** Tells where a wish lacks something, or stands twice. */
function tellFaultyWishes({ heads, rows }, words, tell) {
  const seen = new Map();
  for (const row of rows) {
    for (const column of ["day", "week"].filter((it) => heads.includes(it))) {
      if (!row.of(column)) tell(row.fault(`the ${words.wish} has no ${column}`, column));
    }
    for (const column of [words.person, words.shift]) {
      if (!row.of(column)) tell(row.fault(`the ${words.wish} has no ${column}`, column));
    }
    const key = keyOf(...[words.person, "week", "day", words.shift].map((it) => row.of(it)));
    const twice = () => `this ${words.wish} of ${row.of(words.person)} stands twice, first in line ${seen.get(key).line}`;
    if (seen.has(key)) tell(row.fault(twice(), words.shift));
    else seen.set(key, row);
  }
}

/**
 * The wishes of a table, with all that is wrong with it, as TableFaults. `hasDays` and `hasWeeks` say whether it has these columns, and `hasLast`
 * whether it says what was granted last time.
 */
export function readWishes(table, words = ROSTER_WORDS) {
  const faults = [];
  const tell = (fault) => faults.push(fault);
  holdToColumns(table, [words.person, words.shift, "gain"], words.further);
  tellFaultyWishes(table, words, tell);
  const [shifts, gains] = [shiftsOf(table.rows, words), numbersOf(table.rows, "gain", tell)];
  const hasLast = table.heads.includes("last");
  const wishes = table.rows.map((row, place) => {
    const shift = shifts.get(keyOf(row.of("week"), row.of("day"), row.of(words.shift)));
    const [must, never, last] = ["must", "never", "last"].map((it) => orTell(() => saysYes(row, it), tell));
    if (must && never) tell(row.fault(`the ${words.wish} must be ${words.granted}, and must not`, "never"));
    const [person, kind, gain] = [row.of(words.person), row.of("kind"), gains[place]];
    return { person, shift, gain, kind, must, never, last: hasLast ? last : null, line: row.line };
  });
  return { wishes, words, faults, hasDays: table.heads.includes("day"), hasWeeks: table.heads.includes("week"), hasLast };
}

/** The people of some wishes, in the order in which they come. */
export function peopleOf(wishes) {
  return [...new Set(wishes.map((it) => it.person))];
}

/** The shifts of some wishes, in the order in which they come. */
export function shiftsOfWishes(wishes) {
  return [...new Set(wishes.map((it) => it.shift))];
}

/** The rows of a table of limits by their names and then by their kinds. Throws TableFault where one has no name, or stands twice. */
export function limitsByName(table) {
  holdToColumns(table, ...LIMIT_COLUMNS);
  const found = new Map();
  for (const row of table.rows) {
    const [name, kind] = [row.of("name"), row.of("kind")];
    if (!name) throw row.fault("the limit has no name", "name");
    if (!found.has(name)) found.set(name, new Map());
    if (found.get(name).has(kind)) throw row.fault(`${name} stands twice, first in line ${found.get(name).get(kind).line}`, "name");
    found.get(name).set(kind, row);
  }
  return found;
}

function mostOf(row) {
  const most = wholeOf(row, "most", MOST_OF_LIMIT);
  if (most === null) throw row.fault(`there is no number for ${row.of("name")}`, "most");
  return most;
}

/** How many are needed in all in a shift with this limit. */
export function demandedOf({ least, kinds }) {
  return [...kinds.values()].reduce((sum, it) => sum + it.least, least);
}

/** The limit of a kind within a shift. */
function limitOfKind(row) {
  const [most, least] = [wholeOf(row, "most", MOST_OF_LIMIT), wholeOf(row, "least", MOST_OF_LIMIT) ?? 0];
  if (most !== null && least > most) throw row.fault(`at least ${least} are more than at most ${most}`, "least");
  return { most, least };
}

/** The limit of a shift. Throws TableFault where it cannot be kept, or not be said. */
function limitOfShift(rows, words) {
  const whole = rows.get("");
  const [most, least] = [mostOf(whole), wholeOf(whole, "least", MOST_OF_LIMIT) ?? 0];
  const kinds = new Map();
  for (const [kind, row] of rows) {
    for (const column of ["week", "day"]) {
      if (wholeOf(row, column, MOST_OF_LIMIT) !== null) {
        throw row.fault(`${column} is for ${words.people} alone, and ${row.of("name")} is a ${words.shift}`, column);
      }
    }
    if (kind) kinds.set(kind, limitOfKind(row));
  }
  const demanded = demandedOf({ least, kinds });
  if (demanded > most) throw whole.fault(`at least ${demanded} are more than at most ${most}`, "least");
  if (least && kinds.size > 0) {
    const name = whole.of("name");
    const what = `${name} has a least number for all, and a limit for ${[...kinds.keys()].join(", ")}`;
    throw whole.fault(`${what}: both at once cannot be said. Give least numbers to kinds alone`, "least");
  }
  return { most, least, kinds };
}

/** The limit of a person, which is one shift a day where days are known and no number says otherwise. */
function limitOfPerson(rows, hasDays, words) {
  for (const row of rows.values()) {
    const what = `a least number is for ${words.shifts} alone, and ${row.of("name")} is of the ${words.people}`;
    if (wholeOf(row, "least", MOST_OF_LIMIT)) throw row.fault(what, "least");
  }
  const whole = rows.get("");
  const day = wholeOf(whole, "day", MOST_OF_LIMIT);
  const kinds = new Map([...rows].filter(([kind]) => kind).map(([kind, row]) => [kind, mostOf(row)]));
  return { most: mostOf(whole), week: wholeOf(whole, "week", MOST_OF_LIMIT), day: day === null && hasDays ? 1 : day, kinds };
}

/** Tells where a name is that of a person and of a shift, and a limit does not say which. */
function tellDoubleNames(limits, people, shifts, words, tell) {
  const names = new Set(shifts.flatMap((it) => [it.title, it.name]));
  for (const name of people.filter((it) => names.has(it) && limits.has(it)).sort(inOrder)) {
    tell(new TableFault(`'${name}' is a name among the ${words.people} and among the ${words.shifts}: call one of them otherwise`));
  }
}

/** The limits that have to be there, as they are looked up. */
class LookedUp {
  constructor(limits) {
    Object.assign(this, { limits, used: new Set() });
  }

  /** The rows of the first of these names that has some, by kinds. Throws TableFault where none has a row that limits all kinds. */
  of(what, ...names) {
    const name = names.find((it) => this.limits.has(it)) ?? names[0];
    const rows = this.limits.get(name);
    if (!rows?.has("")) throw new TableFault(`No line says how many at most for ${what} '${name}'`);
    this.used.add(name);
    return rows;
  }

  /** The limits of shifts that need somebody and that nobody wishes, told where they are faulty. */
  unwished(words, tell) {
    const needed = [...this.limits].filter(([name, rows]) => {
      const isNeeded = () => [...rows.values()].some((it) => wholeOf(it, "least", MOST_OF_LIMIT));
      return !this.used.has(name) && rows.has("") && orTell(isNeeded, tell);
    });
    return needed.map(([name, rows]) => [{ week: "", day: "", name, title: name }, orTell(() => limitOfShift(rows, words), tell)]);
  }
}

/**
 * What is asked for by the wishes that `readWishes` read and by limits by names: wishes, and the limits of shifts and of people, with all that is
 * wrong with the limits, as TableFaults.
 */
export function requestOf({ wishes, words, hasDays, hasLast }, limits) {
  const faults = [];
  const tell = (fault) => faults.push(fault);
  const [people, shifts, found] = [peopleOf(wishes), shiftsOfWishes(wishes), new LookedUp(limits)];
  tellDoubleNames(limits, people, shifts, words, tell);
  const ofPerson = (it) => limitOfPerson(found.of(`the ${words.person}`, it), hasDays, words);
  const ofShift = (it) => limitOfShift(found.of(`the ${words.shift}`, it.title, it.name), words);
  const ofPeople = new Map(people.map((it) => [it, orTell(() => ofPerson(it), tell)]));
  const ofShifts = new Map(shifts.map((it) => [it, orTell(() => ofShift(it), tell)]));
  for (const [shift, limit] of found.unwished(words, tell)) ofShifts.set(shift, limit);
  const hasDemands = [...ofShifts.values()].some((it) => it && demandedOf(it) > 0) || wishes.some((it) => it.must);
  return { request: { wishes, words, shifts: ofShifts, people: ofPeople, hasDemands, hasLast }, faults };
}
