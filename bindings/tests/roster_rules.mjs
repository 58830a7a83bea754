// Makes descriptions of tables by the page's rules: reads a list [[wishes, limits], ..] of texts as JSON from standard input, and writes a list
// with the text of the description for each, or null where the tables are refused. The folder of the page's modules is its word.
import { readFileSync } from "node:fs";
import { pathToFileURL } from "node:url";

const folder = pathToFileURL(`${process.argv[2]}/`);
const { TableFault, tableOf, textOfTable } = await import(new URL("tables.mjs", folder));
const { limitsByName, readWishes, requestOf } = await import(new URL("roster_request.mjs", folder));
const { writeRequest } = await import(new URL("roster_writing.mjs", folder));

/** The bytes of a file in Base64 as a table. */
function tableOfFile(word) {
  return tableOf(textOfTable(new Uint8Array(Buffer.from(word, "base64"))).text);
}

/** The description of two files, or null. */
function described([wishes, limits]) {
  try {
    const read = readWishes(tableOfFile(wishes));
    if (read.faults.length > 0) return null;
    const { request, faults } = requestOf(read, limitsByName(tableOfFile(limits)));
    return faults.length > 0 ? null : writeRequest(request).text;
  } catch (error) {
    if (!(error instanceof TableFault)) throw error;
    return null;
  }
}

process.stdout.write(JSON.stringify(JSON.parse(readFileSync(0, "utf8")).map(described)));
