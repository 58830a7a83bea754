// What a frame is: a truss of joints in the plane, or bodies with bars and hinges, read from a table and from the supports of joints, by the rules of
// the Python package (matbench/truss/reading.py and structures.py).
import { holdToColumns, TableFault } from "./tables.mjs";

/** The columns of a table of bars between joints, and of one of parts between bodies. */
const [BARS, PARTS] = [["bar", "from", "to"], ["part", "kind", "from", "to"]];
const MOST_ROWS = 5_000;
/** Joints of the plane, bodies of the plane, and bodies of space, with the bars between them; and how many bars a hinge is. */
const JOINTS = { each: 2, short: 3, hinge: 1, isPlaneOfJoints: true };
const [PLANE_BODIES, SPACE_BODIES] = [{ each: 3, short: 3, hinge: 2 }, { each: 6, short: 6, hinge: 5 }];
/** The ground beneath pins and rollers: two joints that are held. */
export const GROUND = ["ground.1", "ground.2"];

/** The bars or parts of a table, { name, kind, start, end, line }, with all that is wrong with it, as TableFaults. */
export function readFrame(table) {
  const isBodies = table.heads.includes("part") || table.heads.includes("kind");
  const columns = isBodies ? PARTS : BARS;
  holdToColumns(table, columns, []);
  if (table.rows.length > MOST_ROWS) throw new TableFault(`${table.rows.length} lines are more than ${MOST_ROWS}.`);
  const [faults, seen] = [[], new Map()];
  const members = table.rows.map((row) => {
    for (const it of columns) if (!row.of(it)) faults.push(row.fault(`there is no ${it}`, it));
    const [name, start, end] = [columns[0], "from", "to"].map((it) => row.of(it));
    const kind = isBodies ? row.of("kind").toLowerCase() : "bar";
    if (kind && kind !== "bar" && kind !== "hinge") faults.push(row.fault(`the kind is bar or hinge, and not '${row.of("kind").slice(0, 40)}'`, "kind"));
    if (name && seen.has(name)) faults.push(row.fault(`${name} stands twice, first in line ${seen.get(name)}`, columns[0]));
    else seen.set(name, row.line);
    if (start && start === end) faults.push(row.fault(`both ends are ${start}`, "to"));
    return { name, kind, start, end, line: row.line };
  });
  return { members, isBodies, faults };
}

/** The joints or bodies of some members, in the order in which they come. */
export function endsOf(members) {
  return [...new Set(members.flatMap((it) => [it.start, it.end]))];
}

/** The joint of the ground at the foot of a roller. */
export function footOf(joint) {
  return `foot.of.${joint}`;
}

/** The ground, of two joints and a bar, and two bars to it from each joint that it holds: from the pins, and from the feet of the rollers. */
function groundOf(pins, rollers) {
  if (pins.length + rollers.length === 0) return [];
  const held = [...pins, ...rollers.map(footOf)];
  const bar = (name, start, end) => ({ name, kind: "ground", start, end });
  return [bar("ground", ...GROUND), ...held.flatMap((it) => GROUND.map((end) => bar(`${it}-${end}`, it, end)))];
}

/** The joints with each support, by the rows of the form, with what is wrong there as TableFaults. */
function supportsOf(joints, limits, tell) {
  const found = { pin: [], roller: [] };
  for (const joint of joints) {
    const row = limits.get(joint)?.get("");
    const word = row?.of("support").trim().toLowerCase() ?? "";
    if (Object.hasOwn(found, word)) found[word].push(joint);
    else if (word) tell(row.fault("a joint has a pin, a roller or nothing", "support"));
  }
  return found;
}

/** Tells where a joint, or a bar, is called as one of the ground. */
function tellTakenNames(joints, members, tell) {
  const seen = new Set();
  for (const { name } of members) {
    if (seen.has(name)) tell(new TableFault(`${name}: this name is that of a support too: take another one`));
    seen.add(name);
  }
  for (const it of joints) if (GROUND.includes(it)) tell(new TableFault(`${it}: a joint of the ground has this name: take another one`));
}

/**
 * What is asked for by the members that `readFrame` read, the supports of joints and the choices: members, vertices, and the `bars` of which the
 * members are made, pairs of the numbers of their vertices, with the member that `owner` has for each; those of the ground go first.
 */
export function requestOfFrame({ members: read, isBodies }, limits, { space }) {
  const faults = [];
  const tell = (fault) => faults.push(fault);
  const joints = endsOf(read);
  const { pin, roller } = isBodies ? { pin: [], roller: [] } : supportsOf(joints, limits, tell);
  const rollers = roller.map((it) => ({ name: `roller-${it}`, kind: "roller", start: it, end: footOf(it) }));
  const members = [...groundOf(pin, roller), ...read, ...rollers];
  tellTakenNames([...joints, ...roller.filter((it) => joints.includes(footOf(it))).map(() => GROUND[0])], members, tell);
  const sparsity = !isBodies ? JOINTS : space === "space" ? SPACE_BODIES : PLANE_BODIES;
  return { request: structureOf(sparsity, members), faults };
}

function structureOf(sparsity, members) {
  const vertices = endsOf(members);
  const number = new Map(vertices.map((it, place) => [it, place]));
  const [bars, owner] = [[], []];
  members.forEach((it, place) => {
    for (let count = it.kind === "hinge" ? sparsity.hinge : 1; count > 0; count--) {
      bars.push([number.get(it.start), number.get(it.end)]);
      owner.push(place);
    }
  });
  return { sparsity, members, vertices, bars, owner, groundBars: members.filter((it) => it.kind === "ground").length };
}
