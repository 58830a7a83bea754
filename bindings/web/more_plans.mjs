// Plans beside the best one of a sheet: what one more place in a limit brings, the second best plan, and what changed against the last one.
import { compareWeights } from "./answers.mjs";
import { headsOf, made } from "./grid.mjs";
import { spelled, TableFault } from "./tables.mjs";

/** The names that one list has and another has not. */
function without(names, others) {
  const left = new Set(others);
  return names.filter((it) => !left.has(it));
}

/** What is in one plan and was not in the one before, and the other way round, in words. */
export function changesOf(before, now) {
  const [added, removed] = [without(now.names, before.names), without(before.names, now.names)];
  if (added.length + removed.length === 0) return "Against the plan before nothing is changed.";
  const parts = [[added, "in now"], [removed, "out now"]].filter(([names]) => names.length > 0);
  return `Against the plan before: ${parts.map(([names, what]) => `${what}: ${names.join("; ")}`).join(". ")}.`;
}

/**
 * What one more place brings in each limit in which it brings something, the greatest first, by one solve each; and the limits in which it cannot be
 * tried, since limits would cross then: { found, untried }.
 */
export async function placesOf(kind, plan, calls, tell) {
  const [cases, found, untried] = [kind.raisedOf(plan.request), [], []];
  for (const [number, { what, most, request }] of cases.entries()) {
    tell(`One more place: ${number} of ${cases.length} limits are tried.`);
    const other = await solvedUnlessFaulty(kind, request, calls);
    if (!other) {
      untried.push(what);
      continue;
    }
    const [gain, met] = [other.gain - plan.gain, other.met - plan.met];
    if (gain !== 0n || met !== 0) found.push({ what, most, gain, met });
  }
  return { found: found.sort((a, b) => b.met - a.met || (b.gain > a.gain ? 1 : b.gain < a.gain ? -1 : 0)), untried };
}

/** The plan of a request, or null where it cannot be written as one description. */
async function solvedUnlessFaulty(kind, request, calls) {
  try {
    return await kind.solveOnly(request, calls);
  } catch (error) {
    if (error instanceof TableFault) return null;
    throw error;
  }
}

/** Fills a table with what one more place brings, and answers what is said of it. */
export function fillMorePlaces(table, { found, untried }) {
  table.replaceChildren();
  const but = untried.length > 0 ? ` but ${untried.slice(0, 3).join(", ")}${untried.length > 3 ? " .." : ""}: limits would cross there` : "";
  if (found.length === 0) return `One more place brings nothing in any limit${but}.`;
  const needs = found.some((it) => it.met !== 0);
  const cellsOf = ({ what, most, met, gain }) => [what, String(most), ...(needs ? [String(met)] : []), spelled(gain)];
  const rows = found.map((it) => made("tr", {}, ...cellsOf(it).map((textContent) => made("td", { textContent }))));
  const heads = headsOf("one more place in", "most now", ...(needs ? ["more needs met"] : []), "more gain");
  table.append(made("thead", {}, heads), made("tbody", {}, ...rows));
  return `One more place is tried in each limit${but}.`;
}

/**
 * The best plan that differs from this one, { plan }, or null for the plan if there is none. A plan that differs lacks a member of this one, or is
 * larger: so it is among the best ones without a member each, and the best ones of other sizes, which the same certificate has.
 */
export async function tellOther(kind, plan, calls, tell) {
  let found = null;
  const keep = (other) => {
    if (!found || compareWeights(other.weight, found.weight) > 0) found = other;
  };
  plan.otherSizes().forEach(keep);
  const losses = plan.losses();
  for (const [number, request] of losses.entries()) {
    tell(`The second best: ${number} of ${losses.length} are left out.`);
    keep(await kind.solveOnly(request, calls));
  }
  return { plan: found };
}

/** Tells the second best plan and shows it as a table, and answers what is said of it. */
export function fillOther({ told, table }, plan, other) {
  table.replaceChildren();
  if (!other) {
    told.textContent = "There is no other plan.";
    return told.textContent;
  }
  const [gone, added] = [without(plan.names, other.names), without(other.names, plan.names)];
  const isAsGood = compareWeights(other.weight, plan.weight) === 0;
  told.textContent = `${isAsGood ? "Another plan is as good." : `The second best plan: ${plan.differenceOf(other)}.`}`;
  const rows = [["out", gone], ["in", added]].flatMap(([what, names]) => names.map((name) => [what, name]));
  const cells = rows.map((texts) => made("tr", {}, ...texts.map((textContent) => made("td", { textContent }))));
  table.append(made("thead", {}, headsOf("", "against the best plan")), made("tbody", {}, ...cells));
  return "The second best plan is found.";
}
