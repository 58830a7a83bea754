// What is told of a frame: whether it is rigid, what is missing, and what each member is worth.
import { headsOf, made } from "./grid.mjs";

const plural = (count, word) => `${count} ${word}${count === 1 ? "" : "s"}`;

export class Frame {
  canTurn = false;
  weight = null;
  picture = null;

  /** What `analysisOf` found, and the description and the certificate of `cover` that show that so many bars are independent. */
  constructor(analysis, text, certificate) {
    Object.assign(this, { analysis, text, certificate });
    const { members } = analysis.frame;
    this.members = members.filter((it) => it.kind !== "ground");
    this.critical = new Set(analysis.critical.map((it) => members[it]));
  }

  get isRigid() {
    return this.analysis.rank === this.analysis.needed;
  }

  get names() {
    return [...this.critical].map((it) => `${it.name} is critical`);
  }

  get told() {
    const { needed, rank, surplus, frame } = this.analysis;
    const missing = plural(needed - rank, "bar");
    const hinges = frame.members.some((it) => it.kind === "hinge") ? ` (a hinge counts as ${frame.sparsity.hinge})` : "";
    const verdict = this.isRigid ? "It is rigid, in general position." : `It is not rigid: ${missing} ${needed - rank === 1 ? "is" : "are"} missing.`;
    const redundant = surplus === 0 ? "No bar is redundant." : `${plural(surplus, "bar")} ${surplus === 1 ? "is" : "are"} redundant.`;
    const counted = `${needed} independent bars${hinges} are needed, and there are ${rank}.`;
    return `${verdict} ${counted} ${redundant} A certificate proves that so many are independent, and a count of parts that there are no more.`;
  }

  /** The number of the rigid part that has both ends of a member, or nothing. */
  #partOf({ start, end, kind }) {
    const other = kind === "roller" ? "ground" : end;
    const place = this.analysis.parts.findIndex((it) => it.includes(start) && it.includes(other));
    return place < 0 ? "" : String(place + 1);
  }

  get lines() {
    const cellsOf = (it) => [it.name, it.kind, it.start, it.kind === "roller" ? "ground" : it.end];
    const rows = this.members.map((it) => [...cellsOf(it), this.critical.has(it) ? "critical" : "may fail", this.#partOf(it)]);
    return [["name", "kind", "from", "to", "if it fails", "rigid part"], ...rows];
  }

  get problem() {
    return { command: "cover", text: this.text };
  }

  get proof() {
    return [
      { label: "Save the description", name: "frame.txt", text: this.text },
      { label: "Save the certificate", name: "frame.answer", text: this.certificate },
    ];
  }

  fill({ table, details, title }) {
    const [heads, ...rows] = this.lines;
    const cellOf = (text, place) => made("td", { textContent: text, className: place === 3 ? (text === "critical" ? "granted" : "refused") : "" });
    const lines = rows.map(([name, ...cells]) => made("tr", {}, made("th", { scope: "row", textContent: name }), ...cells.map(cellOf)));
    table.replaceChildren(made("thead", {}, headsOf(...heads)), made("tbody", {}, ...lines));
    title.textContent = this.isRigid ? "" : "Parts that are rigid by themselves, and move against one another";
    const parts = this.isRigid ? [] : this.analysis.parts.map((it, place) => [String(place + 1), it.join(", ")]);
    details.replaceChildren(...parts.map((texts) => made("tr", {}, ...texts.map((textContent) => made("td", { textContent })))));
  }
}
