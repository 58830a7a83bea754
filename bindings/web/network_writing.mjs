// Descriptions of networks: a tree within limits, networks that share no link, and links in both directions, as the Python package writes these
// (matbench/links.py).
import { shortNames } from "./names.mjs";
import { scaleOf, spelled, TableFault, UNIT } from "./tables.mjs";

const MOST_ELEMENTS = 500;
const MOST_WEIGHT = 10n ** 12n;
/** The signs that the name of a link may have, so that .there has room behind it, and that of a place. */
const [MOST_OF_LINK, MOST_OF_PLACE] = [26, 32];

/** Throws TableFault where there are too many links. */
function holdToMost(count, most, why = "") {
  if (count > most) throw new TableFault(`There are ${count} links, and at most ${most} can be taken${why}: leave some out.`);
}

function holdToPlaces({ places }) {
  if (places.length > MOST_ELEMENTS) throw new TableFault(`There are ${places.length} places, and a description has at most ${MOST_ELEMENTS}.`);
}

/** The numbers of the links that may be built. */
function allowedOf({ links }) {
  return [...links.keys()].filter((it) => !links[it].never);
}

/**
 * The two numbers of the weight of each link. Of links with costs a set of more links is the better one, and of as many the cheaper one; of links with
 * gains the one that gains more. Before that goes how many there are that must be built.
 */
function weightsOf({ links, valued }) {
  const scale = scaleOf(links.map((it) => it.value));
  const needs = links.some((it) => it.must);
  return links.map((it) => {
    const must = BigInt(Number(it.must));
    const value = (it.value * scale) / UNIT;
    const [first, second] = valued !== "gain" ? [must * BigInt(links.length + 1) + 1n, -value] : needs ? [must, value] : [value, 0n];
    if ([first, second].some((number) => number > MOST_WEIGHT || number < -MOST_WEIGHT)) {
      const what = `The ${valued} ${spelled(it.value)} of ${it.name} is too large`;
      throw new TableFault(`${what}: measure all of them in a larger unit.`);
    }
    return second ? `${first}:${second}` : String(first);
  });
}

/** The description of which `best`, or with limits `intersect`, finds the tree: { text, command, links }, the links by their numbers. */
export function writeTree(request) {
  const { links, places, groups } = request;
  const allowed = allowedOf(request);
  holdToMost(allowed.length, MOST_ELEMENTS);
  holdToPlaces(request);
  const [names, weights] = [shortNames(links.map((it) => it.name), "l", MOST_OF_LINK), weightsOf(request)];
  const nameOf = (it) => names.get(links[it].name);
  const number = new Map(places.map((it, place) => [it, place]));
  const isPair = groups.size > 0;
  const lines = [
    "matroids 2",
    isPair ? `pair ${allowed.length}` : `list ${allowed.length} 1`,
    ["elements", ...allowed.map(nameOf)].join(" "),
    ["weights", ...allowed.map((it) => weights[it])].join(" "),
    `graphic ${places.length}`,
    ...allowed.map((it) => `edge ${number.get(links[it].from)} ${number.get(links[it].to)}`),
  ];
  if (isPair) lines.push(`partition ${groups.size}`);
  for (const [group, most] of groups) {
    const members = allowed.filter((it) => links[it].group === group);
    lines.push(["class", Math.min(most, MOST_ELEMENTS), ...members.map(nameOf)].join(" "));
  }
  return { text: [...lines, "end", ""].join("\n"), command: isPair ? "intersect" : "best", links: allowed };
}

/** The line of the names of the places, and these by the places. */
function vertices(places) {
  const named = shortNames(places, "v", MOST_OF_PLACE);
  return [["vertices", ...places.map((it) => named.get(it))].join(" "), named];
}

/** The description of which `trees` finds networks that share no link: { text, links }. */
export function writeTrees(request) {
  const { links, places } = request;
  const allowed = allowedOf(request);
  holdToMost(allowed.length, MOST_ELEMENTS);
  holdToPlaces(request);
  const names = shortNames(links.map((it) => it.name), "l", MOST_OF_LINK);
  const [line, named] = vertices(places);
  const elements = allowed.map((it) => names.get(links[it].name));
  const edges = allowed.map((it) => `edge ${named.get(links[it].from)} ${named.get(links[it].to)}`);
  const lines = ["matroids 2", `graph ${places.length} ${allowed.length}`, ["elements", ...elements].join(" "), line, ...edges, "end", ""];
  return { text: lines.join("\n"), links: allowed };
}

/** The description of which `disjoint` finds how many failures the network stands, from its first place: each link is two arcs. */
export function writeBothWays(request) {
  const { places, valued } = request;
  const allowed = allowedOf(request).map((it) => request.links[it]);
  holdToMost(allowed.length, MOST_ELEMENTS / 2, ", since each is two arcs");
  holdToPlaces(request);
  const names = shortNames(request.links.map((it) => it.name), "l", MOST_OF_LINK);
  const [line, named] = vertices(places);
  const elements = allowed.flatMap((it) => ["there", "back"].map((way) => `${names.get(it.name)}.${way}`));
  const lines = ["matroids 2", `rooted ${places.length} ${2 * allowed.length}`, ["elements", ...elements].join(" "), line, `root ${named.get(places[0])}`];
  for (const { from, to, value } of allowed) {
    const [one, other, cost] = [named.get(from), named.get(to), valued === "cost" ? value / UNIT : 0n];
    lines.push(`arc ${one} ${other} ${cost}`, `arc ${other} ${one} ${cost}`);
  }
  return [...lines, "end", ""].join("\n");
}
