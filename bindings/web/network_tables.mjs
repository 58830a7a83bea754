// Networks as tables: which links are built and why not the others, which network has which link, and which links fail.
import { headsOf, made } from "./grid.mjs";
import { countCell, turnButton } from "./roster_tables.mjs";
import { spelled } from "./tables.mjs";

/** The cells of a link that stand before what a plan says of it. */
function cellsOfLink(link, { valued, groupedBy }) {
  return [link.from, link.to, ...(valued ? [spelled(link.value)] : []), ...(groupedBy ? [link.group] : [])];
}

function headsOfLinks({ valued, groupedBy }, ...more) {
  return headsOf("link", "from", "to", ...(valued ? [valued] : []), ...(groupedBy ? [groupedBy] : []), ...more);
}

/** Fills a table with all links, each with whether it is built, and why not. */
export function fillLinks(table, tree, turn) {
  const { request } = tree;
  const rows = request.links.map((it, place) => {
    const isIn = tree.built.has(place);
    const said = isIn ? "built" : "not built";
    const cell = turnButton(said, { ...it, place, isIn, title: `${it.name}: ${said}` }, turn);
    const cells = [...cellsOfLink(it, request).map((textContent) => made("td", { textContent })), cell];
    const why = made("td", { className: "reason", textContent: isIn ? "" : tree.whyNot(place) });
    return made("tr", {}, made("th", { scope: "row", textContent: it.name }), ...cells, why);
  });
  table.replaceChildren(made("thead", {}, headsOfLinks(request, "built", "why not")), made("tbody", {}, ...rows));
}

/** Fills a table with how many links of each owner or colour are built. */
export function fillGroups(table, title, tree) {
  const { groups, groupedBy } = tree.request;
  title.textContent = groups.size > 0 ? `Links by ${groupedBy}` : "";
  table.replaceChildren();
  if (groups.size === 0) return;
  const rows = [...groups].map(([group, most]) =>
    made("tr", {}, made("th", { scope: "row", textContent: group }), countCell(tree.countOf(group), most)),
  );
  table.append(made("thead", {}, headsOf(groupedBy, "built")), made("tbody", {}, ...rows));
}

/** Fills a table with all links, each with one word for it, dark where it has one. */
export function fillMarks(table, request, head, marks) {
  const rows = request.links.map((it, place) => {
    const cells = cellsOfLink(it, request).map((textContent) => made("td", { textContent }));
    const mark = marks.get(place) ?? "";
    cells.push(made("td", { className: mark ? "granted" : "refused", textContent: mark }));
    return made("tr", {}, made("th", { scope: "row", textContent: it.name }), ...cells);
  });
  table.replaceChildren(made("thead", {}, headsOfLinks(request, head)), made("tbody", {}, ...rows));
}

/** The heads and lines of the same table, for a file. */
export function linesOfMarks({ links, valued, groupedBy }, head, marks) {
  const heads = ["link", "from", "to", ...(valued ? [valued] : []), ...(groupedBy ? [groupedBy] : []), head];
  return [heads, ...links.map((it, place) => [it.name, ...cellsOfLink(it, { valued, groupedBy }), marks.get(place) ?? ""])];
}
