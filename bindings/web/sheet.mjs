// A sheet of the page: cells from a spreadsheet, limits as a form, and a plan as a table. What the sheet is for, its kind says.
import { Calls, Refused, Stopped } from "./calls.mjs";
import { Cells, textOfFile } from "./cells.mjs";
import { Choices } from "./choices.mjs";
import { made } from "./grid.mjs";
import { LimitsForm } from "./limits_form.mjs";
import { changesOf, fillMorePlaces, fillOther, placesOf, tellOther } from "./more_plans.mjs";
import { cellsAsText, csvOf, orTell, TableFault, tableOf } from "./tables.mjs";

/** The attributes of the sheet's template that name elements of it. */
const NAMING = ["id", "for", "aria-labelledby", "aria-describedby"];

/** Fills a panel with the elements of a sheet, whose names have that of the sheet in front. */
function fillPanel(panel, name) {
  const copy = document.getElementById("sheet").content.cloneNode(true);
  for (const attribute of NAMING) {
    for (const it of copy.querySelectorAll(`[${attribute}]`)) {
      const words = it.getAttribute(attribute).split(" ");
      it.setAttribute(attribute, words.map((word) => `${name}-${word}`).join(" "));
    }
  }
  panel.append(copy);
}

/**
 * A kind of sheet has a `name`, `words` for what is said, the `heads` of a table that is begun anew, `examples` and `choices`, and functions: `read`
 * makes of a table what it says, with its `faults`; `groupsOf` of that the tables of the form of limits; `limitsOf` of a table of limits its rows by
 * names and kinds, where the kind has such files; `requestOf` of what was read, these rows and the choices a { request, faults }; `solve` of a request,
 * by calls, a plan, and `solveOnly` one that is not checked; `itemsOf` of what was read those that a plan has or has not; `namesOf` of it the names that
 * limits are for, each with those that are written for it; `raisedOf` of a request those with one more place in a limit.
 */
export class Sheet {
  #calls = new Calls();
  /** The plan that is shown, or null. */
  #plan = null;
  /** The plan that was shown last, or null. */
  #last = null;

  /** `panel` gets the elements of the sheet; `save` saves a text under a name; `showText` shows a description among the texts; `copyLink` copies a link. */
  constructor(kind, panel, { save, showText, copyLink }) {
    Object.assign(this, { kind, save, showText, copyLink });
    fillPanel(panel, kind.name);
    this.at = (part) => document.getElementById(`${kind.name}-${part}`);
    this.#sayWords();
    const changed = () => this.#change();
    this.limits = new LimitsForm(this.at("limits-tables"), changed);
    this.choices = new Choices(this.at("choices"), kind.name, kind.choices, changed);
    const box = { area: this.at("cells"), fault: this.at("cells-fault"), part: this.at("text-part"), back: this.at("cells-back") };
    const grid = { table: this.at("cells-table"), part: this.at("cells-part") };
    this.cells = new Cells({ box, grid, note: this.at("cells-note") }, kind, changed);
    this.#listen(panel);
  }

  #sayWords() {
    for (const [part, text] of Object.entries(this.kind.words)) this.at(part).textContent = text;
    for (const it of this.kind.examples) {
      const button = made("button", { type: "button", textContent: it.title });
      button.addEventListener("click", () => this.#takeExample(it));
      this.at("examples").append(button);
    }
    this.at("limits-file").hidden = !this.kind.limitsOf;
  }

  #listen(panel) {
    const actions = {
      "add-line": () => this.cells.add(), link: () => this.copyLink(this), plan: () => this.#makePlan(), stop: () => this.stop(),
      "one-more": () => this.#tryPlaces(), second: () => this.#findSecond(), copy: () => this.#copy(), print: () => print(),
      save: () => this.save(csvOf(this.#plan.lines), `${this.kind.name}.csv`, "text/csv"),
      "show-text": () => this.showText(this.#plan.problem),
    };
    for (const [part, action] of Object.entries(actions)) this.at(part).addEventListener("click", action);
    const opened = { "open-cells": (file) => this.cells.open(file), "open-limits": (file) => this.#openLimits(file) };
    for (const [part, open] of Object.entries(opened)) {
      this.at(part).addEventListener("change", ({ target }) => {
        if (target.files[0]) open(target.files[0]);
        target.value = "";
      });
    }
    panel.addEventListener("drop", (event) => {
      const [file] = event.dataTransfer.files;
      if (!file || event.defaultPrevented) return;
      event.preventDefault();
      opened[this.kind.limitsOf && this.at("limits").contains(event.target) ? "open-limits" : "open-cells"](file);
    });
  }

  /** What is typed here, to be kept or sent. */
  get state() {
    return { cells: this.cells.text, limits: [...this.limits.values], choices: this.choices.values };
  }

  set state({ cells, limits, choices }) {
    this.limits.values = new Map(Array.isArray(limits) ? limits.map(([key, value]) => [String(key), String(value)]) : []);
    this.limits.shown = "";
    this.choices.values = choices;
    this.cells.restore(String(cells ?? ""));
  }

  /** Whether nothing is written here. */
  get isEmpty() {
    return !this.cells.text.trim();
  }

  say(text) {
    this.at("state").textContent = text;
  }

  /** Nothing stays that was solved before. */
  #change() {
    this.stop();
    this.#plan = null;
    this.at("result").hidden = true;
    this.say("");
    this.#readLimits();
  }

  #takeExample({ cells, limits, choices }) {
    this.#last = null;
    this.cells.text = cells;
    this.choices.values = choices;
    if (limits) this.#takeLimits(limits);
    else this.limits.values.clear();
    this.limits.shown = "";
    this.#change();
  }

  #tellLimits(fault) {
    this.at("limits-fault").textContent = fault.message;
  }

  async #openLimits(file) {
    try {
      this.#takeLimits(await textOfFile(file));
    } catch (error) {
      this.#tellLimits({ message: `${file.name}: ${error.message}` });
    }
  }

  /** Takes the limits of a table, and says which of its names nothing has. */
  #takeLimits(text) {
    const limits = orTell(() => this.kind.limitsOf(tableOf(text)), (fault) => this.#tellLimits(fault));
    if (!limits) return;
    const known = this.kind.namesOf(this.cells.read);
    this.limits.take(limits, (name) => (known.get(name) ?? []).filter((it) => !limits.has(it)));
    this.#change();
    const unknown = [...limits.keys()].filter((it) => !known.has(it));
    if (unknown.length > 0) this.at("limits-note").textContent = `Of this file nothing is wanted for ${unknown.slice(0, 8).join("; ")}.`;
  }

  /** Shows the limits of what is understood, and answers the request, or null where something is wrong with it. */
  #readLimits() {
    const { read } = this.cells;
    for (const part of ["limits-fault", "limits-note"]) this.at(part).textContent = "";
    const isRead = Boolean(read) && read.faults.length === 0;
    this.choices.show(isRead ? read : null);
    const groups = isRead ? this.kind.groupsOf(read, this.choices.values) : [];
    this.at("limits").hidden = groups.length === 0;
    if (!isRead) return null;
    if (!this.limits.show(groups)) {
      this.#tellLimits({ message: "There are more names than a description has elements: leave some lines out." });
      return null;
    }
    const { request, faults } = this.kind.requestOf(read, this.limits.rows, this.choices.values);
    const [other] = this.limits.mark(faults);
    if (other) this.#tellLimits({ message: `${other.message}.` });
    return faults.length > 0 ? null : request;
  }

  /** Does something that calls the program, unless some such thing is under way; answers what it makes, or null where it was stopped or refused. */
  async #during(action) {
    if (this.#calls.isBusy) return null;
    this.#showBusy(true);
    try {
      return await this.#calls.during(action);
    } catch (error) {
      this.#tellEnd(error);
      return null;
    } finally {
      this.#showBusy(false);
    }
  }

  #tellEnd(error) {
    if (error instanceof Stopped) this.say("Stopped.");
    else if (error instanceof Refused) this.say(`Refused: ${error.message}.`);
    else if (error instanceof TableFault) {
      this.say("");
      this.at("refusal").textContent = error.message;
    } else this.say(error.message === "memory" ? "There is not enough memory." : error.message);
  }

  #showBusy(isBusy) {
    if (!isBusy && document.activeElement === this.at("stop")) this.at("plan").focus();
    this.at("stop").hidden = !isBusy;
    for (const part of ["plan", "one-more", "second"]) this.at(part).setAttribute("aria-disabled", isBusy);
  }

  stop() {
    this.#calls.stop();
  }

  async #makePlan() {
    if (this.#calls.isBusy) return;
    this.at("refusal").textContent = "";
    const request = this.#readLimits();
    if (!request) {
      this.say(this.cells.read ? "Something is not understood yet: it is marked." : "There are no cells yet.");
      return;
    }
    this.say("Solving");
    const began = performance.now();
    const plan = await this.#during(() => this.kind.solve(request, this.#calls, (text) => this.say(text)));
    if (plan) this.#show(plan, `Done in ${Math.round(performance.now() - began)} ms.`);
  }

  #show(plan, said) {
    this.#plan = plan;
    this.at("told").textContent = plan.told;
    this.at("changes").textContent = this.#last?.constructor === plan.constructor ? changesOf(this.#last, plan) : "";
    this.#last = plan;
    this.at("hint").hidden = !plan.canTurn;
    for (const part of ["second", "one-more"]) this.at(part).hidden = !plan.canTurn;
    for (const part of ["more", "other"]) this.at(part).replaceChildren();
    this.at("other-told").textContent = "";
    plan.fill({ table: this.at("table"), details: this.at("details"), title: this.at("details-title") }, (place) => this.#turn(place));
    this.#showProof(plan);
    this.at("result").hidden = false;
    this.say(said);
  }

  /** Shows a button for each text of the proof, and the picture if there is one. */
  #showProof({ proof, picture }) {
    const buttons = proof.map(({ label, name, text }) => {
      const button = made("button", { type: "button", textContent: label });
      button.addEventListener("click", () => this.save(text, name));
      return button;
    });
    this.at("proof").replaceChildren(...buttons);
    this.at("picture").hidden = !picture;
    if (picture) this.at("image").src = `data:image/svg+xml,${encodeURIComponent(picture)}`;
  }

  /** Says of an item, by its place, that it must be in the plan, or that it must not, or neither again, and makes the plan anew. */
  async #turn(place) {
    if (this.#calls.isBusy) return;
    const { line, must, never } = this.kind.itemsOf(this.cells.read)[place];
    this.cells.change(line, { must: must || never ? "" : "yes", never: must ? "yes" : "" });
    await this.#makePlan();
    this.at("table").querySelector(`[data-place="${place}"]`)?.focus();
  }

  /** What one more place in each limit brings, by one solve each, while nothing is changed. */
  async #tryPlaces() {
    const plan = this.#plan;
    const found = await this.#during(() => placesOf(this.kind, plan, this.#calls, (text) => this.say(text)));
    if (found && plan === this.#plan) this.say(fillMorePlaces(this.at("more"), found));
  }

  /** The best plan that differs from the one that is shown, by one solve for each of its members, while nothing is changed. */
  async #findSecond() {
    const plan = this.#plan;
    const other = await this.#during(() => tellOther(this.kind, plan, this.#calls, (text) => this.say(text)));
    if (other && plan === this.#plan) this.say(fillOther({ told: this.at("other-told"), table: this.at("other") }, plan, other.plan));
  }

  async #copy() {
    const isCopied = await navigator.clipboard?.writeText(cellsAsText(this.#plan.lines)).then(() => true, () => false);
    this.say(isCopied ? "The plan is copied: paste it into a spreadsheet." : "This browser does not let the page copy.");
  }
}
