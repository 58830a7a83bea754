// What holds of a frame in general position: whether it is rigid, and which members matter, as the Python package tells it
// (matbench/truss/analysis.py); and the description whose `cover` proves that bars are independent (matbench/truss/proofs.py).
import { footOf, GROUND } from "./frame_request.mjs";
import { wordsOrNumbers } from "./names.mjs";
import { largestBasis, mostEdges, studyEdges } from "./pebbles.mjs";
import { TableFault } from "./tables.mjs";

/** A description has so many elements; of bars of the plane each is there twice. */
const [MOST_BARS, MOST_PLANE_BARS] = [500, 250];

/** Whether there are fewer independent bars without a member. */
function isCritical({ vertices, bars, owner, sparsity }, count, member, critical) {
  const own = [...bars.keys()].filter((it) => owner[it] === member);
  if (own.length === 1) return critical.has(own[0]);
  const others = [...bars.keys()].filter((it) => owner[it] !== member);
  return largestBasis(vertices.length, bars, sparsity, others).length < count.basis.length;
}

/** The rigid parts in names, in which the joints of the ground are one. Joints and bodies that no part has are parts by themselves. */
function partsOf({ vertices, members, groundBars }, { components }) {
  const hidden = new Set(members.filter((it) => it.kind === "roller").map((it) => footOf(it.start)));
  if (groundBars > 0) for (const it of GROUND) hidden.add(it);
  const found = [];
  for (const component of components) {
    const names = [...component].sort((a, b) => a - b).map((it) => vertices[it]);
    const shown = names.filter((it) => !hidden.has(it));
    if (hidden.size > 0 && GROUND.every((it) => names.includes(it))) shown.unshift("ground");
    if (shown.length > 1) found.push(shown);
  }
  const seen = new Set([...found.flat(), ...hidden]);
  return [...found, ...vertices.filter((it) => !seen.has(it)).map((it) => [it])];
}

/**
 * What the count of the bars says: `needed` independent bars make it rigid, and there are `rank`, both without those of the ground; which members, by
 * their places, are `critical`, without which it is less rigid, and which are `spare`; and the rigid `parts`, lists of names.
 */
export function analysisOf(frame) {
  const { sparsity, members, vertices, bars, groundBars } = frame;
  const count = studyEdges(vertices.length, bars, sparsity);
  const alone = new Set(count.critical);
  const real = [...members.keys()].filter((it) => members[it].kind !== "ground");
  const critical = real.filter((it) => isCritical(frame, count, it, alone));
  return {
    frame,
    count,
    needed: mostEdges(sparsity, vertices.length) - groundBars,
    rank: count.basis.length - groundBars,
    critical,
    spare: real.filter((it) => !critical.includes(it)),
    parts: partsOf(frame, count),
    surplus: bars.length - count.basis.length,
  };
}

/** The names of the bars: that of the member, with a number if it has several. */
function barNames({ members, owner }) {
  const [total, count] = [new Map(), new Map()];
  for (const it of owner) total.set(it, (total.get(it) ?? 0) + 1);
  return owner.map((it) => {
    count.set(it, (count.get(it) ?? 0) + 1);
    return total.get(it) > 1 ? `${members[it].name}.${count.get(it)}` : members[it].name;
  });
}

/** The lines of a graphic matroid of these edges. */
function graphicOf(ends) {
  const number = new Map();
  for (const it of ends.flat()) if (!number.has(it)) number.set(it, number.size);
  return [`graphic ${number.size}`, ...ends.map(([u, v]) => `edge ${number.get(u)} ${number.get(v)}`)];
}

/**
 * The description whose `cover` shows that these bars, at least one, are independent: in the plane of joints that each can be doubled and all still fall
 * into two forests (Lovasz and Yemini, 1982; Recski, 1984), and between bodies that they fall into three, or in space six, forests (Tay, 1984).
 */
export function independenceOf(frame, basis) {
  const { sparsity, bars } = frame;
  const most = sparsity.isPlaneOfJoints ? MOST_PLANE_BARS : MOST_BARS;
  if (basis.length > most) {
    throw new TableFault(`${basis.length} independent bars are more than the ${most} that a certificate can have. The Python package counts them without one.`);
  }
  const all = barNames(frame);
  const [own, ends] = [basis.map((it) => all[it]), basis.map((it) => bars[it])];
  if (!sparsity.isPlaneOfJoints) {
    const names = wordsOrNumbers("e", own);
    const forests = Array.from({ length: sparsity.each }, () => graphicOf(ends)).flat();
    return described(names, [`union ${sparsity.each}`, ...forests]);
  }
  const names = wordsOrNumbers("e", [...own, ...own.map((it) => `${it}-again`)]);
  const first = names.slice(0, own.length).join(" ");
  const forest = graphicOf([...ends, ...ends]);
  return described(names, ["union 2", `contract ${first}`, "union 2", ...forest, ...forest, `restrict ${first}`, `uniform ${own.length}`]);
}

function described(names, matroid) {
  const weights = names.map(() => "0").join(" ");
  return ["matroids 2", `list ${names.length} 1`, `elements ${names.join(" ")}`, `weights ${weights}`, ...matroid, "end", ""].join("\n");
}
