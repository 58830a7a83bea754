// A roster as tables: people from above to below and shifts from left to right, and what each person got.
import { headsOf, made } from "./grid.mjs";
import { spelled } from "./tables.mjs";

/** A button for `turn` that shows a text and says what it is, and whether it must be in the plan, or must not. */
export function turnButton(text, { place, isIn, title, said, must, never }, turn) {
  const button = made("button", { type: "button", title }, text);
  if (said) button.append(made("span", { className: "said", textContent: ` ${said}` }));
  if (must || never) button.append(made("small", { textContent: must ? " must" : " never" }));
  button.dataset.place = place;
  button.addEventListener("click", () => turn(place));
  return made("td", { className: isIn ? "granted" : "refused" }, button);
}

/** The cell of a wish, its gain, dark if it is granted and pale if not. */
function cellOfWish(roster, place, turn) {
  if (place === undefined) return made("td");
  const wish = roster.request.wishes[place];
  const { granted, refused } = roster.request.words;
  const isIn = roster.granted.has(place);
  const title = `${wish.person}, ${wish.shift.title}: ${isIn ? granted : `${refused}, since ${roster.whyNot(place)}`}`;
  return turnButton(spelled(wish.gain), { ...wish, place, isIn, title, said: isIn ? granted : refused }, turn);
}

/** A cell that says how many there are of how many at most. */
export function countCell(there, most, isBelow = false) {
  const className = isBelow ? "count below" : there >= most ? "count full" : "count";
  return made("td", { className, textContent: `${there} of ${most}` });
}

/** The shifts with their limits as the table has them: those of a week and of a day together. */
function inOrderOfDays(shifts) {
  const found = [...shifts];
  const first = (one, ...parts) => found.findIndex(([it]) => parts.every((part) => it[part] === one[part]));
  const placed = found.map((it) => [first(it[0], "week"), first(it[0], "week", "day"), it]);
  return placed.sort(([week, day], [otherWeek, otherDay]) => week - otherWeek || day - otherDay).map(([, , it]) => it);
}

export function fillRoster(table, roster, turn) {
  const { wishes, people, words } = roster.request;
  const shifts = inOrderOfDays(roster.request.shifts);
  const places = new Map(wishes.map((it, place) => [`${it.person}\0${it.shift.title}`, place]));
  const columns = shifts.map(([it]) => it);
  const rows = [...people].map(([person, { most }]) => {
    const cells = columns.map((it) => cellOfWish(roster, places.get(`${person}\0${it.title}`), turn));
    return made("tr", {}, made("th", { scope: "row", textContent: person }), ...cells, countCell(roster.ofPerson(person).length, most));
  });
  const counts = shifts.map(([shift, limit]) => {
    const there = roster.inShift(shift).length;
    return countCell(there, limit.most, there < limit.least);
  });
  const foot = made("tr", {}, made("th", { scope: "row", textContent: words.granted }), ...counts, made("td"));
  table.replaceChildren(
    made("thead", {}, headsOf("", ...columns.map((it) => it.title), words.granted)),
    made("tbody", {}, ...rows),
    made("tfoot", {}, foot),
  );
}

/** Fills a table with what each person got, and why not more. */
export function fillDetails(table, roster) {
  const { wishes, people, words } = roster.request;
  const rows = [...people].map(([person, { most }]) => {
    const own = roster.ofPerson(person);
    const refused = [...wishes.keys()].filter((it) => wishes[it].person === person && !roster.granted.has(it));
    const why = refused.map((it) => made("li", { textContent: `${wishes[it].shift.title}: ${roster.whyNot(it)}` }));
    const cells = [`${own.length} of ${most}`, spelled(own.reduce((sum, it) => sum + it.gain, 0n)), own.map((it) => it.shift.title).join(", ")];
    const list = made("td", {}, ...(why.length > 0 ? [made("ul", {}, ...why)] : []));
    return made("tr", {}, made("th", { scope: "row", textContent: person }), ...cells.map((textContent) => made("td", { textContent })), list);
  });
  const heads = headsOf(words.person, words.shifts, "gain", words.granted, `${words.refused}, and why`);
  table.replaceChildren(made("thead", {}, heads), made("tbody", {}, ...rows));
}
