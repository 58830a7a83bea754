// A table of cells that can be typed into, with what is wrong told in each cell.

/** How many lines are shown at once; more would hold up the browser. */
const LINES_AT_ONCE = 200;
/** The characters for which a cell has room in a narrow window: at least so many, and at most. */
const [LEAST_ROOM, MOST_ROOM] = [4, 20];

/** An element with these properties and children. */
export function made(name, properties = {}, ...children) {
  const it = Object.assign(document.createElement(name), properties);
  it.append(...children);
  return it;
}

/** A cell of a table that can be typed into: `label` names it, and `tell` is called with what is typed. */
export function typedCell(value, label, tell) {
  const input = made("input", { type: "text", value, ariaLabel: label, autocomplete: "off", spellcheck: false });
  input.addEventListener("change", () => tell(input.value));
  return made("td", {}, input);
}

/** Marks a cell with what is wrong in it, or takes the mark away. */
export function markCell(cell, what) {
  cell.querySelector(".why")?.remove();
  cell.classList.toggle("faulty", Boolean(what));
  const input = cell.querySelector("input");
  if (!what) {
    input.removeAttribute("aria-invalid");
    return;
  }
  input.setAttribute("aria-invalid", "true");
  cell.append(made("span", { className: "why", textContent: what }));
}

/** A row of heads. */
export function headsOf(...texts) {
  return made("tr", {}, ...texts.map((textContent) => made("th", { scope: "col", textContent })));
}

export class Grid {
  /** `table` and `part`, where it is told how much is shown, are elements; `tell` is called when a cell is changed. */
  constructor({ table, part }, tell) {
    Object.assign(this, { table, part, tell, heads: [], lines: [], rooms: [], shown: 0 });
  }

  /** Shows these lines of cells below these heads. */
  show(heads, lines) {
    Object.assign(this, { heads, lines, shown: 0 });
    const longest = (column) => lines.reduce((most, line) => Math.max(most, line[column]?.length ?? 0), LEAST_ROOM);
    this.rooms = heads.map((_, column) => Math.min(longest(column), MOST_ROOM));
    this.table.replaceChildren(made("thead", {}, headsOf("line", ...heads)), made("tbody"));
    this.#showMore();
  }

  #showMore() {
    const end = Math.min(this.lines.length, this.shown + LINES_AT_ONCE);
    const rows = [];
    for (; this.shown < end; this.shown++) rows.push(this.#rowOf(this.shown));
    this.table.tBodies[0].append(...rows);
    this.#tellPart();
  }

  #rowOf(place) {
    const cells = this.heads.map((head, column) => {
      const cell = typedCell(this.lines[place][column] ?? "", `${head}, line ${place + 1}`, (value) => {
        this.lines[place][column] = value;
        this.tell();
      });
      cell.firstChild.style.minWidth = `calc(${this.rooms[column]}ch + 1rem)`;
      return cell;
    });
    return made("tr", {}, made("th", { scope: "row", textContent: place + 1 }), ...cells);
  }

  #tellPart() {
    this.part.replaceChildren();
    if (this.shown === this.lines.length) return;
    const more = made("button", { type: "button", textContent: "Show more lines" });
    more.addEventListener("click", () => this.#showMore());
    const count = (it) => it.toLocaleString("en");
    this.part.append(`${count(this.shown)} of ${count(this.lines.length)} lines are shown; all of them count. `, more);
  }

  /** Adds an empty line, and puts the focus there. */
  add() {
    this.lines.push(this.heads.map(() => ""));
    while (this.shown < this.lines.length) this.#showMore();
    this.table.tBodies[0].lastElementChild?.querySelector("input").focus();
  }

  /** Marks cells with what is wrong in them: a list of [line, column, what], the line counted from 0 and the column by its head. */
  mark(faults) {
    for (const cell of this.table.querySelectorAll("td.faulty")) markCell(cell, "");
    for (const [line, column, what] of faults) {
      const cell = this.table.tBodies[0]?.rows[line]?.cells[this.heads.indexOf(column) + 1];
      if (cell && cell.tagName === "TD") markCell(cell, what);
    }
  }
}
