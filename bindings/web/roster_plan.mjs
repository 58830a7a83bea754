// A plan of who works when, or who takes which post: which wishes a certificate of `intersect` grants, what that is worth, and why not more.
import { bestOf, rungsOf } from "./answers.mjs";
import { fillDetails, fillRoster } from "./roster_tables.mjs";
import { spelled } from "./tables.mjs";

export class Roster {
  canTurn = true;
  picture = null;

  /** The best plan of a request, by the { elements, text } that were written for it and the rungs of the answer; or the one of a rung. */
  constructor(request, written, certificate, rung = null) {
    const rungs = rungsOf(certificate);
    Object.assign(this, { request, written, certificate, rungs, rung: rung ?? bestOf(rungs) });
    this.granted = new Set(this.rung.members.map((it) => written.elements[it].wish));
    this.places = [...this.granted].sort((a, b) => a - b);
  }

  get weight() {
    return this.rung.weight;
  }

  #wishes(condition = () => true) {
    return this.places.map((it) => this.request.wishes[it]).filter(condition);
  }

  get gain() {
    return this.#wishes().reduce((sum, it) => sum + it.gain, 0n);
  }

  /** The wishes that are granted in a shift, of a kind if one is named. */
  inShift(shift, kind = null) {
    return this.#wishes((it) => it.shift === shift && (kind === null || it.kind === kind));
  }

  ofPerson(person) {
    return this.#wishes((it) => it.person === person);
  }

  /** What is needed and could not be had, in words. */
  get unmet() {
    const found = [];
    for (const [shift, limit] of this.request.shifts) {
      for (const [kind, least] of [[null, limit.least], ...[...limit.kinds].map(([kind, it]) => [kind, it.least])]) {
        const there = this.inShift(shift, kind).length;
        if (there < least) found.push(`${shift.title}: ${there} of ${least}${kind === null ? "" : ` of ${kind}`}`);
      }
    }
    this.request.wishes.forEach((it, place) => {
      if (it.must && !this.granted.has(place)) found.push(`${it.person}, ${it.shift.title}: had to be ${this.request.words.granted}`);
    });
    return found;
  }

  /** How much of what is needed is met. */
  get met() {
    let met = this.request.wishes.filter((it, place) => it.must && this.granted.has(place)).length;
    for (const [shift, limit] of this.request.shifts) {
      met += Math.min(this.inShift(shift).length, limit.least);
      for (const [kind, { least }] of limit.kinds) met += Math.min(this.inShift(shift, kind).length, least);
    }
    return met;
  }

  /** Why a wish was refused, in words: which limits are full without it. */
  whyNot(place) {
    const wish = this.request.wishes[place];
    if (wish.never) return `it must not be ${this.request.words.granted}`;
    const [limit, own] = [this.request.shifts.get(wish.shift), this.request.people.get(wish.person)];
    const [there, mine] = [this.inShift(wish.shift), this.ofPerson(wish.person)];
    const onDay = mine.filter((it) => it.shift.week === wish.shift.week && it.shift.day === wish.shift.day).length;
    const inWeek = mine.filter((it) => it.shift.week === wish.shift.week).length;
    const ofKind = [there, mine].map((granted) => granted.filter((it) => it.kind === wish.kind).length);
    const [kindOfShift, kindOfOwn] = [limit.kinds.get(wish.kind)?.most ?? null, own.kinds.get(wish.kind) ?? null];
    const reasons = [
      [there.length >= limit.most, `${wish.shift.title} has ${there.length} of ${limit.most}`],
      [mine.length >= own.most, `${wish.person} has ${mine.length} of ${own.most}`],
      [own.day !== null && onDay >= own.day, `${wish.person} has ${onDay} of ${own.day} on this day`],
      [kindOfShift !== null && ofKind[0] >= kindOfShift, `${wish.shift.title} has ${ofKind[0]} of ${kindOfShift} of ${wish.kind}`],
      [kindOfOwn !== null && ofKind[1] >= kindOfOwn, `${wish.person} has ${ofKind[1]} of ${kindOfOwn} of ${wish.kind}`],
      [own.week !== null && inWeek >= own.week, `${wish.person} has ${inWeek} of ${own.week} in this week`],
    ];
    const found = reasons.filter(([holds]) => holds).map(([, why]) => why);
    return found.length > 0 ? found.join(" and ") : `with it no ${this.request.words.plan} is worth more`;
  }

  /** What is granted, as texts. */
  get names() {
    return this.#wishes().map((it) => `${it.person}, ${it.shift.title}`);
  }

  /** What the plan is worth, in words. */
  get told() {
    const { request, unmet } = this;
    const { words, wishes, hasDemands } = request;
    const lines = [`${this.granted.size} of ${wishes.length} ${words.wishes} are ${words.granted}, gain ${spelled(this.gain)}.`];
    if (hasDemands && unmet.length > 0) lines.push(`Not all that is needed can be met: ${unmet.join("; ")}.`);
    else if (hasDemands) lines.push("What is needed is met.");
    const more = hasDemands ? "meets more of what is needed, or as much for a greater gain" : "gains more";
    return [...lines, `No ${words.plan} within these limits ${more}: the certificate proves it.`].join(" ");
  }

  /** How another plan differs in what it is worth, in words. */
  differenceOf(other) {
    const [met, gain] = [this.met - other.met, this.gain - other.gain];
    const ofNeeds = met === 0 ? [] : [`it meets ${met} less of what is needed`];
    const ofGain = gain === 0n ? "gains as much" : gain > 0n ? `gains ${spelled(gain)} less` : `gains ${spelled(-gain)} more`;
    return [...ofNeeds, ofNeeds.length > 0 ? ofGain : `it ${ofGain}`].join(", and ");
  }

  /** The best plans of the other numbers of granted wishes. */
  otherSizes() {
    return this.rungs.filter((it) => it !== this.rung).map((it) => new Roster(this.request, this.written, this.certificate, it));
  }

  /** The requests without one of the wishes that are granted. */
  losses() {
    return this.places.map((place) => {
      const wishes = this.request.wishes.map((it, other) => (other === place ? { ...it, never: true, must: false } : it));
      return { ...this.request, wishes };
    });
  }

  /** The heads and the lines of the plan as a table, a line for each wish. */
  get lines() {
    const { wishes, words } = this.request;
    const columns = [
      [words.person, (it) => it.person], ["week", (it) => it.shift.week], ["day", (it) => it.shift.day],
      [words.shift, (it) => it.shift.name], ["gain", (it) => spelled(it.gain)],
    ].filter(([head, cell]) => !["week", "day"].includes(head) || wishes.some(cell));
    const lines = wishes.map((it, place) => [...columns.map(([, cell]) => cell(it)), this.granted.has(place) ? "yes" : "no"]);
    return [[...columns.map(([head]) => head), words.granted], ...lines];
  }

  /** The description, with the command that solves it. */
  get problem() {
    return { command: "intersect", text: this.written.text };
  }

  get proof() {
    return [
      { label: "Save the description", name: `${this.request.words.plan}.txt`, text: this.written.text },
      { label: "Save the certificate", name: `${this.request.words.plan}.answer`, text: this.certificate },
    ];
  }

  /** Shows the plan as tables. `turn` is called with the place of a wish that is clicked. */
  fill({ table, details, title }, turn) {
    title.textContent = "Who got what";
    fillRoster(table, this, turn);
    fillDetails(details, this);
  }
}
