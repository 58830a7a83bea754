// Limits as a form: tables with numbers for each name that the cells of a sheet have.
import { headsOf, made, markCell, typedCell } from "./grid.mjs";
import { TableRow } from "./tables.mjs";

/** What joins the name, the kind and the column of a limit to one word. No cell has this sign. */
const JOINT = "\0";
/** The columns of a file of limits that have numbers. */
const COLUMNS = ["most", "least", "week", "day"];
/** A form for more names would hold up the browser, and no description has so many. */
const MOST_NAMES = 1_100;

export class LimitsForm {
  /** `place` is an element that gets the tables; `tell` is called when a number is changed. */
  constructor(place, tell) {
    Object.assign(this, { place, tell });
    /** The numbers that were typed or opened, by name, kind and column. */
    this.values = new Map();
    this.cells = new Map();
    this.names = [];
    this.shown = "";
  }

  /** The number of a limit as it is shown: 1 to begin with for how many there are at most; in a column with a first value that one, if there is none. */
  #valueOf(name, { kind, column, first }) {
    const typed = this.values.get([name, kind, column].join(JOINT));
    return first ? typed || first : (typed ?? (kind === "" && column === "most" ? "1" : ""));
  }

  /**
   * Shows a table for each of some groups { what, title, names, columns }, of which a column is { kind, column, words, first }. Answers whether it
   * could: there may be too many names.
   */
  show(groups) {
    const shown = JSON.stringify(groups);
    if (shown === this.shown) return true;
    this.shown = "";
    this.cells.clear();
    this.names = [];
    this.place.replaceChildren();
    if (groups.reduce((sum, it) => sum + it.names.length, 0) > MOST_NAMES) return false;
    this.shown = shown;
    this.names = groups.flatMap(({ names, columns }) => names.map((name) => [name, columns]));
    this.place.append(...groups.map((it) => this.#tableOf(it)));
    return true;
  }

  #tableOf({ what, title, names, columns }) {
    const heads = columns.map(({ kind, words }) => (kind ? `${kind}, ${words}` : words));
    const rows = names.map((name) => {
      const cells = columns.map((column, place) => this.#cellOf(name, column, heads[place]));
      return made("tr", {}, made("th", { scope: "row", textContent: name }), ...cells);
    });
    const table = made("table", { ariaLabel: title }, made("thead", {}, headsOf(what, ...heads)), made("tbody", {}, ...rows));
    return made("div", { className: "wide cells", role: "group", ariaLabel: `${title}, which may be scrolled`, tabIndex: 0 }, table);
  }

  #cellOf(name, column, head) {
    const key = [name, column.kind, column.column].join(JOINT);
    const cell = typedCell(this.#valueOf(name, column), `${name}, ${head}`, (value) => {
      this.values.set(key, value);
      this.tell();
    });
    if (!column.isWord) cell.querySelector("input").inputMode = "numeric";
    this.cells.set(key, cell);
    return cell;
  }

  /** The rows of the limits by names and kinds. A row of a kind is there if it has a number. */
  get rows() {
    const found = new Map();
    for (const [name, columns] of this.names) {
      const rows = found.get(name) ?? new Map();
      for (const it of columns) {
        const value = this.#valueOf(name, it);
        if (it.kind && !value && !rows.has(it.kind)) continue;
        if (!rows.has(it.kind)) rows.set(it.kind, new TableRow([name, it.kind].join(JOINT), new Map([["name", name], ["kind", it.kind]])));
        rows.get(it.kind).cells.set(it.column, value);
      }
      found.set(name, rows);
    }
    return found;
  }

  /** Takes the numbers of a table of limits by names and kinds; `othersOf` has for a name further ones that its numbers are for. */
  take(limits, othersOf = () => []) {
    this.values.clear();
    for (const [name, rows] of limits) {
      for (const [kind, row] of rows) {
        for (const column of COLUMNS) {
          for (const it of [name, ...othersOf(name)]) this.values.set([it, kind, column].join(JOINT), row.of(column));
        }
      }
    }
    this.shown = "";
  }

  /** Marks cells with what is wrong in them, and answers the faults that are of no cell. */
  mark(faults) {
    for (const cell of this.cells.values()) markCell(cell, "");
    return faults.filter((fault) => {
      const cell = fault.line === null ? null : this.cells.get([fault.line, fault.column].join(JOINT));
      if (cell) markCell(cell, fault.message);
      return !cell;
    });
  }
}
