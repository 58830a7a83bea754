// Makes descriptions of networks and frames by the page's rules: reads a list [[kind, cells, choice], ..] as JSON from standard input, and writes a list
// with what the page makes of each, or null where the cells are refused. The folder of the page's modules is its word.
import { readFileSync } from "node:fs";
import { pathToFileURL } from "node:url";

const folder = pathToFileURL(`${process.argv[2]}/`);
const { TableFault, TableRow, tableOf } = await import(new URL("tables.mjs", folder));
const { readLinks, requestOfNetwork } = await import(new URL("network_request.mjs", folder));
const { writeBothWays } = await import(new URL("network_writing.mjs", folder));
const { readFrame, requestOfFrame } = await import(new URL("frame_request.mjs", folder));
const { analysisOf, independenceOf } = await import(new URL("frame_analysis.mjs", folder));

/** The description of links in both directions. */
function network(cells) {
  const read = readLinks(tableOf(cells));
  if (read.faults.length > 0) return null;
  return writeBothWays(requestOfNetwork(read, new Map(), { task: "failures", count: "1" }).request);
}

/** What is told of a frame with these supports of joints, or in the plane or in space, and the description of its independent bars. */
function frame(cells, { supports = {}, space = "plane" }) {
  const read = readFrame(tableOf(cells));
  if (read.faults.length > 0) return null;
  const rows = Object.entries(supports).map(([joint, word]) => [joint, new Map([["", new TableRow(joint, new Map([["support", word]]))]])]);
  const { request, faults } = requestOfFrame(read, new Map(rows), { space });
  if (faults.length > 0) return null;
  const found = analysisOf(request);
  const { needed, rank, critical, spare, parts, surplus } = found;
  return { needed, rank, critical, spare, parts: parts.map((it) => [...it]), surplus, text: independenceOf(request, found.count.basis) };
}

/** The same, or null where the cells are refused. */
function made([kind, cells, choice]) {
  try {
    return kind === "network" ? network(cells) : frame(cells, choice);
  } catch (error) {
    if (!(error instanceof TableFault)) throw error;
    return null;
  }
}

process.stdout.write(JSON.stringify(JSON.parse(readFileSync(0, "utf8")).map(made)));
