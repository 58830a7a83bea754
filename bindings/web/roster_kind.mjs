// The sheets of a roster and of posts: what their cells and limits are, and how a plan is made of them.
import { Roster } from "./roster_plan.mjs";
import { limitsByName, peopleOf, POSTS_WORDS, readWishes, requestOf, ROSTER_WORDS, shiftsOfWishes } from "./roster_request.mjs";
import { writeRequest } from "./roster_writing.mjs";

/** What is said in the sheet of a roster. */
const ROSTER_TEXTS = {
  "cells-title": "Wishes",
  "cells-about":
    "A line for each wish, with the columns person, shift and gain, a number. There may be more: day (nobody works twice on a day, unless a limit says " +
    "otherwise), week, kind (a word such as night or senior), must and never (yes or no), and last (yes for what was granted last time).",
  "limits-title": "Limits",
  "limits-about":
    "How many shifts a person works at most, and how many people a shift has at most and at least. A file of limits has the columns name and most.",
  plan: "Make the roster",
  "result-title": "Roster",
  hint: "Click a wish to say that it must be granted, once more that it must not, and once more neither.",
};
/** What is said in the sheet of posts. */
const POSTS_TEXTS = {
  "cells-title": "Offers",
  "cells-about":
    "A line for each applicant who may take a post, with the columns applicant, post and gain, a number. There may be more: kind (a word such as senior), " +
    "must and never (yes or no).",
  "limits-title": "Limits",
  "limits-about":
    "How many posts an applicant takes at most, and how many applicants a post has at most and at least. A file of limits has the columns name and most.",
  plan: "Fill the posts",
  "result-title": "Who takes which post",
  hint: "Click an offer to say that it must be taken, once more that it must not, and once more neither.",
};

/** The tables of the form of limits for these wishes. */
function groupsOf({ wishes, words, hasDays, hasWeeks }) {
  const kinds = [...new Set(wishes.map((it) => it.kind).filter(Boolean))];
  const column = (kind, column, words) => ({ kind, column, words });
  const most = column("", "most", "at most");
  const ofPeople = [
    most, ...(hasWeeks ? [column("", "week", "in a week")] : []), ...(hasDays ? [{ ...column("", "day", "on a day"), first: "1" }] : []),
    ...kinds.map((it) => column(it, "most", "at most")),
  ];
  const ofShifts = [
    most, column("", "least", "at least"),
    ...kinds.flatMap((it) => [column(it, "most", "at most"), column(it, "least", "at least")]),
  ];
  return [
    { what: words.person, title: `Limits of ${words.people}`, names: peopleOf(wishes), columns: ofPeople },
    { what: words.shift, title: `Limits of ${words.shifts}`, names: shiftsOfWishes(wishes).map((it) => it.title), columns: ofShifts },
  ];
}

/** The names that limits may be for, each with the titles of the shifts that are called so. */
function namesOf(read) {
  const wishes = read?.wishes ?? [];
  const found = new Map(peopleOf(wishes).map((it) => [it, []]));
  for (const { title } of shiftsOfWishes(wishes)) found.set(title, []);
  for (const { name, title } of shiftsOfWishes(wishes)) found.set(name, [...(found.get(name) ?? []), title]);
  return found;
}

/** The request with one more place in a limit, for each limit: { what, most, request }. */
function raisedOf(request) {
  const found = [];
  for (const [shift, limit] of request.shifts) {
    const shifts = new Map(request.shifts).set(shift, { ...limit, most: limit.most + 1 });
    found.push({ what: shift.title, most: limit.most, request: { ...request, shifts } });
  }
  for (const [person, limit] of request.people) {
    for (const column of ["most", "week", "day"].filter((it) => limit[it] !== null)) {
      const people = new Map(request.people).set(person, { ...limit, [column]: limit[column] + 1 });
      const what = column === "most" ? person : `${person}, in a ${column}`;
      found.push({ what, most: limit[column], request: { ...request, people } });
    }
  }
  return found;
}

async function solve(request, calls) {
  const written = writeRequest(request);
  return new Roster(request, written, await calls.checked(["intersect"], written.text));
}

async function solveOnly(request, calls) {
  const written = writeRequest(request);
  return new Roster(request, written, await calls.certificate(["intersect"], written.text));
}

function kindOf(name, words, texts, examples) {
  const heads = [words.person, words.shift, "gain"];
  const read = (table) => readWishes(table, words);
  const itemsOf = ({ wishes }) => wishes;
  const shared = { groupsOf, namesOf, limitsOf: limitsByName, requestOf, raisedOf, solve, solveOnly };
  return { name, words: texts, heads, examples, choices: [], read, itemsOf, ...shared };
}

/** The kind of the sheet of a roster, with these examples. */
export function rosterKind(examples) {
  return kindOf("roster", ROSTER_WORDS, ROSTER_TEXTS, examples);
}

/** The kind of the sheet of posts, with these examples. */
export function postsKind(examples) {
  return kindOf("posts", POSTS_WORDS, POSTS_TEXTS, examples);
}
