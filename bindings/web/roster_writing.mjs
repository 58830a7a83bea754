// A request for a roster as a description, a `pair` of the limits of shifts and of people, by the rules of the Python package
// (matbench/roster/writing.py): the same tables give the same bytes.
import { namesOfWishes } from "./names.mjs";
import { demandedOf } from "./roster_request.mjs";
import { inOrder, scaleOf, spelled, TableFault, UNIT } from "./tables.mjs";

/** The most elements of a description. */
const MOST_ELEMENTS = 500;
const MOST_WEIGHT = 10n ** 12n;
/** What stands behind the name of the second element of a wish. */
const MORE = ".more";

/** Whether a wish counts for a least number, and whether it may be granted beyond that. */
function demandsOf(wish, request) {
  const limit = request.shifts.get(wish.shift);
  const least = limit.least || (limit.kinds.get(wish.kind)?.least ?? 0);
  return [least > 0, limit.most > least];
}

/** The elements { wish, name, counts }: each wish that may be granted, and once more where it may count for a least number or not. */
function elementsOf(request) {
  const places = [...request.wishes.keys()].filter((it) => !request.wishes[it].never);
  const needs = [...request.shifts.values()].some((it) => demandedOf(it) > 0);
  const pairs = places.map((it) => [request.wishes[it].person, request.wishes[it].shift.title]);
  const names = places.length > 0 ? namesOfWishes(pairs, needs ? MORE.length : 0) : [];
  return places.flatMap((wish, place) => {
    const [counts, isBeyond] = demandsOf(request.wishes[wish], request);
    const own = { wish, name: names[place], counts };
    return counts && isBeyond ? [own, { wish, name: names[place] + MORE, counts: false }] : [own];
  });
}

/** Numbers by a key of each, in the order in which the keys come. */
function groupedBy(numbers, key) {
  const found = new Map();
  for (const it of numbers) {
    if (!found.has(key(it))) found.set(key(it), []);
    found.get(key(it)).push(it);
  }
  return found;
}

/**
 * What limits a shift, as families { name, most, members }: with a least number for all, those that count for it, and those beyond; else all, within
 * these the kinds, and within these those that count for least numbers.
 */
function familiesOfShift(shift, members, { request, elements }) {
  const { most, least, kinds } = request.shifts.get(shift);
  const [first, beyond] = [true, false].map((counts) => members.filter((it) => elements[it].counts === counts));
  if (least) {
    const found = [{ name: shift.title, most: least, members: first }];
    return beyond.length > 0 ? [...found, { name: shift.title, most: most - least, members: beyond }] : found;
  }
  const found = [{ name: shift.title, most, members }];
  for (const [kind, limit] of kinds) {
    const [ofKind, counted] = [members, first].map((them) => them.filter((it) => request.wishes[elements[it].wish].kind === kind));
    const name = `${shift.title}, ${kind}`;
    if (limit.most !== null && ofKind.length > 0) found.push({ name, most: limit.most, members: ofKind });
    if (counted.length > 0) found.push({ name, most: limit.least, members: counted });
  }
  return found;
}

/** What limits a person: in all, in a week, on a day, by the two elements of a wish, and by kinds. */
function familiesOfPerson(person, members, { request, elements }) {
  const limit = request.people.get(person);
  const wishOf = (it) => request.wishes[elements[it].wish];
  const parts = [
    [limit.week, (it) => wishOf(it).shift.week, (it) => `${person}, week ${wishOf(it).shift.week}`],
    [limit.day, (it) => JSON.stringify([wishOf(it).shift.week, wishOf(it).shift.day]), (it) => `${person}, ${wishOf(it).shift.day}`],
    [1, (it) => elements[it].wish, () => person],
  ];
  const found = [{ name: person, most: limit.most, members }];
  for (const [most, key, name] of parts) {
    for (const group of groupedBy(members, key).values()) {
      if (most !== null && most < Math.min(limit.most, group.length)) found.push({ name: name(group[0]), most, members: group });
    }
  }
  for (const [kind, most] of limit.kinds) {
    const ofKind = members.filter((it) => wishOf(it).kind === kind);
    if (ofKind.length > most) found.push({ name: `${person}, ${kind}`, most, members: ofKind });
  }
  return found;
}

function isNested(one, other) {
  const [small, large] = one.length < other.length ? [one, new Set(other)] : [other, new Set(one)];
  const shared = small.filter((it) => large.has(it)).length;
  return shared === 0 || shared === small.length;
}

/** Those of these families that nest, of equal sets the one with the least cap; and the rest, which cross them. */
function laminarOf(families) {
  const [kept, crossing] = [new Map(), []];
  for (const it of families) {
    const key = it.members.join();
    if (kept.has(key)) kept.set(key, it.most < kept.get(key).most ? it : kept.get(key));
    else if ([...kept.values()].every((other) => isNested(it.members, other.members))) kept.set(key, it);
    else crossing.push(it);
  }
  return [[...kept.values()], crossing];
}

/** The lines of a matroid of these families. */
function matroidOf(families, elements) {
  const all = families.flatMap((it) => it.members);
  const [kind, word] = new Set(all).size < all.length ? ["laminar", "set"] : ["partition", "class"];
  const lines = families.map(({ most, members }) => [word, Math.min(most, MOST_ELEMENTS), ...members.map((it) => elements[it].name)].join(" "));
  return [`${kind} ${families.length}`, ...lines];
}

/** The families for the shifts and for the people, and those of people that cross. */
function sidesOf(given) {
  const { request, elements } = given;
  const places = [...elements.keys()];
  const wishOf = (it) => request.wishes[elements[it].wish];
  const ofShifts = [...groupedBy(places, (it) => wishOf(it).shift)].sort(([a], [b]) => inOrder(a.title, b.title));
  const ofPeople = [...groupedBy(places, (it) => wishOf(it).person)].sort(([a], [b]) => inOrder(a, b));
  const shifts = ofShifts.flatMap(([shift, members]) => laminarOf(familiesOfShift(shift, members, given))[0]);
  const sides = ofPeople.map(([person, members]) => laminarOf(familiesOfPerson(person, members, given)));
  return [shifts, sides.flatMap(([fitting]) => fitting), sides.flatMap(([, crossing]) => crossing)];
}

/** The two numbers of the weight of an element. */
function numbersOfWeight({ wish, counts }, request, scale, keeping) {
  const { gain, last, must } = request.wishes[wish];
  const [scaled, kept] = [((gain * scale) / UNIT) * keeping, request.hasLast ? (last ? 1n : -1n) : 0n];
  return request.hasDemands ? [BigInt(Number(counts) + Number(must)), scaled + kept] : [scaled, kept];
}

/** The weights of the elements. Throws TableFault where they are too large. */
function weightsOf(request, elements, scale) {
  const keeping = request.hasDemands && request.hasLast ? BigInt(2 * request.wishes.length + 1) : 1n;
  return elements.map((it) => {
    const [first, second] = numbersOfWeight(it, request, scale, keeping);
    if ([first, second].some((number) => number > MOST_WEIGHT || number < -MOST_WEIGHT)) {
      const { gain, person, shift } = request.wishes[it.wish];
      const what = `The gain ${spelled(gain)} of ${person} for ${shift.title} is too large, with as many decimals as there are`;
      throw new TableFault(`${what}: measure all gains in a larger unit.`);
    }
    return second ? `${first}:${second}` : String(first);
  });
}

/** Throws TableFault where there are too many elements for one description. */
function holdToElements(elements, words) {
  if (elements.length <= MOST_ELEMENTS) return;
  const count = new Set(elements.map((it) => it.wish)).size;
  const twice = elements.length > count ? ` (a ${words.wish} of a ${words.shift} with a least number is two elements: ${elements.length} in all)` : "";
  throw new TableFault(
    `There are ${count} ${words.wishes}${twice}, and a description has at most ${MOST_ELEMENTS} elements: leave out those of the least gain, ` +
      `or make a ${words.plan} for each part. The Python package solves the weeks of a roster together.`,
  );
}

/** The description of a request: its text and its elements. Throws TableFault where it is too large, or limits cross the others. */
export function writeRequest(request) {
  const elements = elementsOf(request);
  holdToElements(elements, request.words);
  const weights = weightsOf(request, elements, scaleOf(request.wishes.map((it) => it.gain)));
  const [shifts, people, crossing] = sidesOf({ request, elements });
  if (crossing.length > 0) {
    const names = crossing.slice(0, 3).map((it) => it.name);
    throw new TableFault(
      `${crossing.length} limits cross the others (${names.join("; ")}), as nights cross days: the page cannot keep both. ` +
        "Take these numbers out; or take those for a week out, and let a day have more than there are in all. The Python package keeps both.",
    );
  }
  const names = elements.map((it) => it.name);
  const lines = ["matroids 2", `pair ${elements.length}`, ["elements", ...names].join(" "), ["weights", ...weights].join(" ")];
  return { elements, text: [...lines, ...matroidOf(shifts, elements), ...matroidOf(people, elements), "end", ""].join("\n") };
}
