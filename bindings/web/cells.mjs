// The cells of a sheet: a text of them, which is pasted, dropped, opened or typed, and a table of the same that can be typed into.
import { Grid } from "./grid.mjs";
import { cellsAsText, MOST_TABLE_BYTES, orTell, TableFault, tableOf, textOfTable } from "./tables.mjs";
import { TextBox } from "./textbox.mjs";

/** Characters of a text of which more would hold up the browser. */
const MOST_SHOWN = 1_000_000;

/** The text of the file of a table, with `tell` called with a note on how it was read. Throws TableFault. */
export async function textOfFile(file, tell = () => {}) {
  if (file.size > MOST_TABLE_BYTES) throw new TableFault(`it has more than ${MOST_TABLE_BYTES.toLocaleString("en")} bytes.`);
  const { text, note } = textOfTable(new Uint8Array(await file.arrayBuffer()));
  tell(note);
  return text;
}

export class Cells {
  /** The table that was read, or null. */
  #table = null;
  /** The place in the grid of each line. */
  #places = new Map();

  /**
   * `parts` are the elements of a text box, the table `grid`, where it is told how much of it is shown, and the `note` on how a file was read; `heads`
   * are those of a table that is begun anew; `read` makes of a table what it says, with its `faults`; `tell` is called when the cells are changed.
   */
  constructor({ box, grid, note }, { heads, read }, tell) {
    Object.assign(this, { heads, readTable: read, tell, read: null, note });
    this.noted = "";
    this.box = new TextBox(box, MOST_TABLE_BYTES, MOST_SHOWN, (file) => textOfFile(file, (it) => (this.noted = it)));
    this.grid = new Grid(grid, () => this.#takeGrid());
    box.area.addEventListener("input", () => this.#takeText());
    this.#showText();
  }

  get text() {
    return this.box.text;
  }

  /** Puts cells here that were chosen, and not written. */
  set text(text) {
    this.box.text = text;
  }

  /** Puts cells here that were written before. */
  restore(text) {
    this.box.restore(text);
  }

  open(file) {
    return this.box.open(file);
  }

  add() {
    this.grid.add();
  }

  /** Puts words into the cells of a line, by their columns, which are added where there are none. */
  change(line, words) {
    const cells = this.grid.lines[this.#places.get(line)];
    for (const [column, word] of Object.entries(words)) {
      if (!this.grid.heads.includes(column)) this.grid.heads.push(column);
      cells[this.grid.heads.indexOf(column)] = word;
    }
    this.grid.show(this.grid.heads, this.grid.lines);
    this.#takeGrid();
  }

  #takeText() {
    this.note.textContent = this.noted;
    this.noted = "";
    this.#showText();
    this.tell();
  }

  /** Reads the text, and shows it as a table. */
  #showText() {
    this.#readText();
    if (this.#table) this.grid.show(this.#table.heads, this.#table.rows.map((row) => this.#table.heads.map((head) => row.of(head))));
    else this.grid.show(...(this.text.trim() ? [[], []] : [[...this.heads], [this.heads.map(() => "")]]));
    this.#places = new Map(this.#table?.rows.map((row, place) => [row.line, place]));
    this.#mark();
  }

  /** Reads what is typed into the table, which is the text then. */
  #takeGrid() {
    this.box.clearFault();
    this.box.rewrite(cellsAsText([this.grid.heads, ...this.grid.lines]));
    this.#readText();
    this.#places = new Map(this.grid.lines.map((_, place) => [place + 2, place]));
    this.#mark();
    this.tell();
  }

  #readText() {
    const tell = ({ line, message }) => this.box.showFault(line, `${line ? `Line ${line}: ` : ""}${message}`);
    [this.#table, this.read] = [null, null];
    if (!this.text.trim()) return;
    this.#table = orTell(() => tableOf(this.text), tell);
    this.read = this.#table && orTell(() => this.readTable(this.#table), tell);
  }

  /** Marks the cells that are not understood. */
  #mark() {
    const faults = this.read?.faults ?? [];
    this.grid.mark(faults.map((it) => [this.#places.get(it.line), it.column, it.message]));
    if (faults.length === 0) return;
    const [{ line, message }] = faults;
    const count = faults.length === 1 ? "One cell is" : `${faults.length} cells are`;
    this.box.showFault(line, `${count} not understood; line ${line}: ${message}.`);
  }
}
