// Tables as people have them: files that spreadsheets save as CSV, and cells that are pasted. The rules are those of the Python package
// (matbench/spreadsheets.py): the same table has the same cells there and here.

/** A file has at most so many bytes, and a table so many lines. */
export const MOST_TABLE_BYTES = 8_000_000;
const MOST_TABLE_LINES = 10_000;
/** The most signs of a cell. */
const LONGEST_CELL = 131_072;
/** What may stand between cells; of equal counts in the first line the first one is taken. */
const CELL_SEPARATORS = [";", "\t", "|", ","];
const BLANK = /[\t-\r\x1c- \x85\xa0\u1680\u2000-\u200a\u2028\u2029\u202f\u205f\u3000]+/gu;
/** What does not count in a whole number. */
const IN_WHOLE = new RegExp(`${BLANK.source}|['’]|[.,]0+$`, "gu");
/** The unit of a number: all are kept as whole numbers of it. */
const DECIMALS = 12;
export const UNIT = 10n ** BigInt(DECIMALS);

/** What says yes and no, in several languages. */
const YES = new Set(
  ("yes y x true 1 ✓ ✔ ☑ ja wahr oui vrai si sì sí vero verdadero sim verdadeiro tak prawda ano áno igen da " +
    "да evet kyllä jah taip jā ναι так 是 はい 예 네 نعم כן").split(" "),
);
const NO = new Set(
  ("no n false 0 - – ☐ nein falsch nee non faux falso não nao nie fałsz ne nem nu нет ні hayır ei nej nei όχι " +
    "否 いいえ 아니요 لا לא").split(" "),
).add("");

/** What is wrong with a table, in words, and where: the number of a line and a column, or null for each that it has not. */
export class TableFault extends Error {
  constructor(what, line = null, column = null) {
    super(what);
    Object.assign(this, { line, column });
  }
}

/** What a function makes, or null where a table has a fault, which is told. */
export function orTell(make, tell) {
  try {
    return make();
  } catch (error) {
    if (!(error instanceof TableFault)) throw error;
    tell(error);
    return null;
  }
}

/** A line of a table: its number, and its cells by columns. */
export class TableRow {
  constructor(line, cells) {
    Object.assign(this, { line, cells });
  }

  /** The cell in a column, empty where there is none. */
  of(column) {
    return this.cells.get(column) ?? "";
  }

  fault(what, column = null) {
    return new TableFault(what, this.line, column);
  }
}

function isBegun(bytes, ...first) {
  return first.every((byte, place) => bytes[place] === byte);
}

/** The text of bytes in UTF-32. */
function textOfWideBytes(bytes, isLittle) {
  const view = new DataView(bytes.buffer, bytes.byteOffset, bytes.byteLength);
  let text = "";
  for (let from = 0; from < bytes.length; from += 4) text += String.fromCodePoint(view.getUint32(from, isLittle));
  return text;
}

/** The encoding of a text by its first bytes, or null. */
function encodingOf(bytes) {
  if (isBegun(bytes, 0xef, 0xbb, 0xbf)) return "utf-8";
  if (isBegun(bytes, 0xff, 0xfe, 0, 0)) return "utf-32le";
  if (isBegun(bytes, 0, 0, 0xfe, 0xff)) return "utf-32be";
  if (isBegun(bytes, 0xff, 0xfe)) return "utf-16le";
  if (isBegun(bytes, 0xfe, 0xff)) return "utf-16be";
  if (!bytes.subarray(0, 200).includes(0)) return null;
  return bytes[1] === 0 ? "utf-16le" : "utf-16be";
}

function decodedAs(encoding, bytes) {
  if (encoding.startsWith("utf-32")) return textOfWideBytes(bytes, encoding.endsWith("le"));
  return new TextDecoder(encoding, { fatal: true, ignoreBOM: true }).decode(bytes);
}

/** The text of the bytes of a file, and a note where its encoding is a guess, or an empty one. Throws TableFault where it is no text. */
export function textOfTable(bytes) {
  if (isBegun(bytes, 0x50, 0x4b, 3, 4) || isBegun(bytes, 0xd0, 0xcf, 0x11, 0xe0)) {
    throw new TableFault("This is a workbook, and no CSV: save its sheet as CSV in UTF-8, or copy its cells and paste them here.");
  }
  if (bytes.length > MOST_TABLE_BYTES) {
    throw new TableFault(`The file has more than ${MOST_TABLE_BYTES.toLocaleString("en")} bytes.`);
  }
  const encoding = encodingOf(bytes);
  try {
    return { text: decodedAs(encoding ?? "utf-8", bytes).replace(/^\ufeff+/, ""), note: "" };
  } catch {
    // It is told below, or taken for another encoding.
  }
  if (encoding !== null || bytes.some((byte) => [0x81, 0x8d, 0x8f, 0x90, 0x9d].includes(byte))) {
    throw new TableFault("This is no text in UTF-8, UTF-16 or Western Windows: save it as CSV in UTF-8.");
  }
  const note = "The file is no UTF-8 and is taken for Western Windows; where a letter is wrong, save it as CSV in UTF-8.";
  return { text: new TextDecoder("windows-1252").decode(bytes), note };
}

/** What stands between the cells, by the first line. */
function separatorOf(first) {
  const bare = first.replace(/"[^"]*"/g, "");
  const counts = CELL_SEPARATORS.map((sign) => bare.split(sign).length - 1);
  return CELL_SEPARATORS[counts.indexOf(Math.max(...counts))];
}

/** A cell in quotes that begins at a place: its text, and the place behind it. */
function quotedCell(text, from, separator, line) {
  let cell = "";
  for (let at = from + 1; ; ) {
    const end = text.indexOf('"', at);
    if (end < 0) throw new TableFault("a cell begins with quotes and does not end", line);
    cell += text.slice(at, end);
    const next = text[end + 1];
    if (next !== '"') {
      if (next !== undefined && next !== separator && next !== "\n") throw new TableFault("something stands behind the quotes of a cell", line);
      return { cell, end: end + 1 };
    }
    cell += '"';
    at = end + 2;
  }
}

/** A cell without quotes that begins at a place. */
function bareCell(text, from, separator) {
  let end = from;
  while (end < text.length && text[end] !== separator && text[end] !== "\n") end++;
  return { cell: text.slice(from, end), end };
}

/** The cells of a text, line by line, each with the number of the last line that it stands on, the first one having the number `line`. */
function* cellsOf(text, separator, line) {
  for (let at = 0; at < text.length; ) {
    const cells = [];
    for (;;) {
      const { cell, end } = text[at] === '"' ? quotedCell(text, at, separator, line) : bareCell(text, at, separator);
      if (cell.length > LONGEST_CELL) throw new TableFault(`a cell has more than ${LONGEST_CELL.toLocaleString("en")} signs`, line);
      cells.push(cell);
      line += cell.split("\n").length - 1;
      at = end + 1;
      if (text[end] !== separator) break;
    }
    yield { line, cells };
    line++;
  }
}

/** The words of a cell, with single spaces between them. */
export function plainCell(cell) {
  return cell.replace(BLANK, " ").replace(/^ | $/g, "");
}

/** The cells of each line that is not empty, with the number of the line, and without empty cells at the end. */
function linesOf(text) {
  const [first, ...more] = text.replace(/\r\n?/g, "\n").split("\n");
  const said = /^"?sep=(.)"?[;,\t ]*$/iu.exec(first);
  const lines = said ? more : [first, ...more];
  if (more.length > MOST_TABLE_LINES) {
    throw new TableFault(`${more.length.toLocaleString("en")} lines are too much: at most ${MOST_TABLE_LINES.toLocaleString("en")} are read.`);
  }
  const found = [];
  for (const { line, cells } of cellsOf(lines.join("\n"), said ? said[1] : separatorOf(first), said ? 2 : 1)) {
    const words = cells.map(plainCell);
    while (words.length > 0 && !words.at(-1)) words.pop();
    if (words.length > 0) found.push({ line, words });
  }
  return found;
}

/** The table of a text: the heads of its columns in small letters, and its rows. Throws TableFault where it is none. */
export function tableOf(text) {
  if (text.includes("\0")) throw new TableFault("There is a zero byte in it, which no text has.");
  const [first, ...rest] = linesOf(text);
  if (!first) throw new TableFault("There is nothing in it.");
  const heads = first.words.map((it) => it.toLowerCase());
  if (heads.includes("")) throw new TableFault(`Column ${heads.indexOf("") + 1} has no head in the first line.`, first.line);
  const rows = rest.map(({ line, words }) => {
    if (words.length > heads.length) {
      throw new TableFault(`The line has ${words.length} cells, more than the first line, which has ${heads.length}.`, line);
    }
    return new TableRow(line, new Map(words.map((word, place) => [heads[place], word])));
  });
  return { heads, rows };
}

/** Throws TableFault where a column is missing, unknown or there twice, or there is no row. */
export function holdToColumns({ heads, rows }, needed, further) {
  const isFitting = needed.every((it) => heads.includes(it)) && heads.every((it) => needed.includes(it) || further.includes(it));
  if (!isFitting || new Set(heads).size < heads.length) {
    const there = heads.join(", ").slice(0, 300) || "nothing";
    throw new TableFault(`The first line has the columns ${needed.join(", ")}, and may have ${further.join(", ")}; here it has ${there}.`);
  }
  if (rows.length === 0) throw new TableFault("No line stands behind the first one.");
}

/** Whether a cell says yes; an empty one says no. Throws TableFault where it says neither. */
export function saysYes(row, column) {
  const word = row.of(column).toLowerCase();
  if (YES.has(word)) return true;
  if (NO.has(word)) return false;
  throw row.fault(`${column} is yes or no (in several languages), and not '${row.of(column).slice(0, 40)}'`, column);
}

/** The whole number from 0 in a column, at most `most` where it is larger, or null for an empty cell. Throws TableFault for anything else. */
export function wholeOf(row, column, most) {
  const word = row.of(column).replace(IN_WHOLE, "");
  if (!word) return null;
  if (!/^[0-9]+$/.test(word)) throw row.fault(`${column} is a whole number from 0, and not '${row.of(column).slice(0, 40)}'`, column);
  return word.length <= 15 ? Math.min(Number(word), most) : wholeOfLong(word, most);
}

function wholeOfLong(word, most) {
  return word.length <= 30 && BigInt(word) < BigInt(most) ? Number(word) : most;
}

/** The sign before the decimals in a column: , or . as its cells show it. */
function markOf(words, column) {
  let [commas, points, doubtful] = [false, false, null];
  for (const { row, word } of words) {
    const both = word.includes(",") && word.includes(".");
    commas ||= both ? word.lastIndexOf(",") > word.lastIndexOf(".") : /,(\p{Nd}{1,2}|\p{Nd}{4,})$/u.test(word);
    points ||= both ? word.lastIndexOf(".") > word.lastIndexOf(",") : /\.(\p{Nd}{1,2}|\p{Nd}{4,})$/u.test(word);
    commas ||= word.split(".").length > 2;
    points ||= word.split(",").length > 2;
    if (!both && /^[+-]?[1-9]\p{Nd}*[.,]\p{Nd}{3}$/u.test(word)) doubtful ??= { row, word };
    if (commas && points) {
      const what = `${column} has decimals behind commas in some lines and behind points in others, here '${word}'`;
      throw row.fault(`${what}: write them in one way`, column);
    }
  }
  if (doubtful && !commas && !points) {
    const { row, word } = doubtful;
    throw row.fault(`'${word}' in ${column} may be thousands or decimals: write it without the sign, or with as many decimals as you mean`, column);
  }
  return commas ? "," : ".";
}

/** The number of a word with a point before its decimals, as a whole number of units, or null where it is none. */
function unitsOf(word) {
  const found = /^([+-]?)([0-9]{1,30})(?:\.([0-9]{1,12}))?$/.exec(word);
  if (!found) return null;
  const units = BigInt(found[2] + (found[3] ?? "").padEnd(DECIMALS, "0"));
  return found[1] === "-" ? -units : units;
}

/** The numbers of a column in units, with decimals behind a comma or a point; null and a call of `tell` with the fault for a cell that has none. */
export function numbersOf(rows, column, tell) {
  const words = rows.map((row) => ({ row, word: row.of(column).replace(BLANK, "").replace(/['’]/gu, "").replaceAll("\u2212", "-") }));
  let mark = ".";
  try {
    mark = markOf(words, column);
  } catch (error) {
    tell(error);
    return words.map(() => null);
  }
  return words.map(({ row, word }) => {
    const units = unitsOf(word.replaceAll(mark === "," ? "." : ",", "").replaceAll(mark, "."));
    if (units === null) {
      tell(row.fault(word ? `${column} is a number, and not '${row.of(column).slice(0, 40)}'` : `there is no ${column}`, column));
    }
    return units;
  });
}

/** The least power of ten by which all these numbers, in units, are whole. */
export function scaleOf(numbers) {
  let scale = 1n;
  while (numbers.some((it) => (it * scale) % UNIT !== 0n)) scale *= 10n;
  return scale;
}

/** A number in units as it is written, with a point before its decimals. */
export function spelled(units) {
  const digits = String(units < 0n ? -units : units).padStart(DECIMALS + 1, "0");
  const decimals = digits.slice(-DECIMALS).replace(/0+$/, "");
  return (units < 0n ? "-" : "") + digits.slice(0, -DECIMALS) + (decimals && `.${decimals}`);
}

/** Compares texts by the numbers of their signs in Unicode, as the Python package does. */
export function inOrder(one, other) {
  const [a, b] = [[...one], [...other]];
  for (let place = 0; place < a.length && place < b.length; place++) {
    if (a[place] !== b[place]) return a[place].codePointAt(0) - b[place].codePointAt(0);
  }
  return a.length - b.length;
}

/** Lines of cells as CSV. */
export function csvOf(lines) {
  const cell = (it) => (/[",\n\r]/.test(it) ? `"${it.replaceAll('"', '""')}"` : it);
  return lines.map((it) => `${it.map(cell).join(",")}\n`).join("");
}

/** Lines of cells as a spreadsheet takes them from the clipboard. */
export function cellsAsText(lines) {
  const cell = (it) => (it.startsWith('"') ? `"${it.replaceAll('"', '""')}"` : it);
  return lines.map((it) => it.map(cell).join("\t")).join("\n");
}
