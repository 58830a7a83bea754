// The sheet of a network: what its cells and limits are, and how a plan is made of them.
import { listsOf } from "./answers.mjs";
import { cutBy, Failures, Trees } from "./network_failures.mjs";
import { groupsOfLinks, limitsOfGroups, readLinks, requestOfNetwork } from "./network_request.mjs";
import { Tree } from "./network_tree.mjs";
import { writeBothWays, writeTree, writeTrees } from "./network_writing.mjs";

/** The most networks, or supplies, that the program looks for. */
const MOST_TREES = 64;
const TEXTS = {
  "cells-title": "Links",
  "cells-about":
    "A line for each link, with the columns link, from and to: its name, and the places at its ends. There may be more: cost, a whole number from 0, or gain, " +
    "a number; owner or colour; must and never (yes or no).",
  "limits-title": "Limits",
  "limits-about": "How many links of each owner or colour are built at most. A file of limits has the columns name and most.",
  plan: "Plan the network",
  "result-title": "Network",
  hint: "Click what is said of a link to say that it must be built, once more that it must not, and once more neither.",
};
const CHOICES = [
  {
    name: "task",
    label: "What is wanted",
    options: [
      ["tree", "The best network without a ring: the cheapest one, or the one that gains most"],
      ["trees", "Several networks that share no link"],
      ["failures", "How many failing links it stands, and which cut places off"],
    ],
    isShown: Boolean,
  },
  { name: "count", label: "How many networks, from 1 to 64", number: [1, 2, MOST_TREES], isShown: (read, { task }) => Boolean(read) && task === "trees" },
];

/** The tables of the form of limits: one for owners or colours, where the best network is wanted. */
function groupsOf(read, { task }) {
  if (task !== "tree" || !read.groupedBy) return [];
  const columns = [{ kind: "", column: "most", words: "at most" }];
  return [{ what: read.groupedBy, title: `Limits by ${read.groupedBy}`, names: groupsOfLinks(read), columns }];
}

function namesOf(read) {
  return new Map((read ? groupsOfLinks(read) : []).map((it) => [it, []]));
}

function raisedOf(request) {
  return [...request.groups].map(([group, most]) => {
    const groups = new Map(request.groups).set(group, most + 1);
    return { what: group, most, request: { ...request, groups } };
  });
}

async function pictureOf(description, answer, calls) {
  return calls.output(["--picture", "description", "answer"], { description, answer });
}

async function solveTree(request, calls) {
  const written = writeTree(request);
  const certificate = await calls.checked([written.command], written.text);
  return new Tree(request, written, certificate, await pictureOf(written.text, certificate, calls));
}

async function solveTrees(request, calls) {
  const written = writeTrees(request);
  const certificate = await calls.checked(["trees", String(request.count)], written.text);
  return new Trees(request, written, certificate, await pictureOf(written.text, certificate, calls));
}

/** The set that more supplies than there are links to the worst place are refused by gives a smaller number, until so many are found. */
async function solveFailures(request, calls, tell) {
  const text = writeBothWays(request);
  let [count, found, none] = [leastLinks(request), null, null];
  if (count >= MOST_TREES) count = MOST_TREES - 1;
  none = await calls.checked(["disjoint", String(count + 1)], text);
  while (found === null) {
    const [members] = listsOf("vertices", none);
    if (!members) return new Failures(request, text, { count, found: none, none }, null);
    count = cutBy(request, members.map((it) => request.places[it])).length;
    if (count === 0) break;
    tell(`Looking for ${count} supplies that share no link`);
    const answer = await calls.checked(["disjoint", String(count)], text);
    if (listsOf("tree", answer).length > 0) found = answer;
    else none = answer;
  }
  return new Failures(request, text, { count, found, none }, await pictureOf(text, none, calls));
}

/** The number of links of the place that has the fewest. */
function leastLinks({ links, places }) {
  const counts = new Map(places.map((it) => [it, 0]));
  for (const { from, to, never } of links) {
    if (never || from === to) continue;
    counts.set(from, counts.get(from) + 1);
    counts.set(to, counts.get(to) + 1);
  }
  return Math.min(...counts.values());
}

async function solve(request, calls, tell) {
  if (request.task === "trees") return solveTrees(request, calls);
  return request.task === "failures" ? solveFailures(request, calls, tell) : solveTree(request, calls);
}

async function solveOnly(request, calls) {
  const written = writeTree(request);
  return new Tree(request, written, await calls.certificate([written.command], written.text));
}

/** The kind of the sheet of a network, with these examples. */
export function networkKind(examples) {
  const itemsOf = ({ links }) => links;
  const reading = { read: readLinks, groupsOf, namesOf, limitsOf: limitsOfGroups, requestOf: requestOfNetwork, itemsOf };
  return { name: "network", words: TEXTS, heads: ["link", "from", "to"], examples, choices: CHOICES, ...reading, raisedOf, solve, solveOnly };
}
