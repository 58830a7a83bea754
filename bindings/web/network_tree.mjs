// The best network without a ring: which links a certificate of `best` or `intersect` has, what they cost or gain, and why not others.
import { bestOf, rungsOf } from "./answers.mjs";
import { groupsJoined, wayBetween } from "./joined_places.mjs";
import { fillGroups, fillLinks } from "./network_tables.mjs";
import { spelled } from "./tables.mjs";

export class Tree {
  canTurn = true;

  /** The best tree of a request, by what was written for it, the certificate of the answer and a picture of it; or that of a rung. */
  constructor(request, written, certificate, picture = null, rung = null) {
    const rungs = rungsOf(certificate);
    Object.assign(this, { request, written, certificate, picture, rungs, rung: rung ?? bestOf(rungs) });
    this.places = this.rung.members.map((it) => written.links[it]).sort((a, b) => a - b);
    this.built = new Set(this.places);
    this.links = this.places.map((it) => request.links[it]);
  }

  get weight() {
    return this.rung.weight;
  }

  get value() {
    return this.links.reduce((sum, it) => sum + it.value, 0n);
  }

  /** What the links gain: less where they cost more. */
  get gain() {
    return this.request.valued === "gain" ? this.value : -this.value;
  }

  /** How much of what is needed is met: links that must be built and, where links have costs, links at all. */
  get met() {
    const must = this.links.filter((it) => it.must).length;
    return this.request.valued === "gain" ? must : must * (this.request.links.length + 1) + this.links.length;
  }

  get names() {
    return this.links.map((it) => it.name);
  }

  countOf(group) {
    return this.links.filter((it) => it.group === group).length;
  }

  /** Why a link is not built, in words. */
  whyNot(place) {
    const link = this.request.links[place];
    if (link.never) return "it must not be built";
    const ring = wayBetween(link.from, link.to, this.links);
    const [most, there] = [this.request.groups.get(link.group) ?? null, this.countOf(link.group)];
    const reasons = [
      [ring !== null, () => (ring.length > 0 ? `it closes a ring with ${ring.map((it) => it.name).join(", ")}` : "both its ends are one place")],
      [most !== null && there >= most, () => `${link.group} has ${there} of ${most}`],
    ];
    const found = reasons.filter(([holds]) => holds).map(([, why]) => why());
    return found.length > 0 ? found.join(" and ") : "with it no network is better";
  }

  /** How many links there are, what they are worth and which places they join, in words. */
  get told() {
    const { request, links } = this;
    const { valued, places } = request;
    const worth = valued ? `, ${valued} ${spelled(this.value)}` : "";
    const lines = [`${links.length} of ${request.links.length} links are built${worth}.`, this.#toldPlaces(places)];
    const missing = request.links.filter((it, place) => it.must && !this.built.has(place)).map((it) => it.name);
    if (missing.length > 0) lines.push(`Not all that must be built can be: ${missing.join(", ")}.`);
    return [...lines, `${this.#toldBest()}: the certificate proves it.`].join(" ");
  }

  #toldPlaces(places) {
    const groups = groupsJoined(places, this.links);
    if (groups.length === 1) return `They join all ${places.length} places.`;
    const told = groups.slice(0, 12).map((it) => it.join(", "));
    return `They leave the places in ${groups.length} parts: ${told.join(" | ")}${groups.length > 12 ? " | .." : ""}.`;
  }

  #toldBest() {
    const { valued, groups, links } = this.request;
    const within = groups.size > 0 ? " within these limits" : "";
    const must = links.some((it) => it.must) ? "has more of what must be built, or as much of it and " : "";
    if (valued === "gain") return `No network without a ring${within} ${must}gains more`;
    const less = valued === "cost" ? ", or as many for less" : "";
    return `No network without a ring${within} ${must}has more links${less}`;
  }

  /** How another tree differs in what it is worth, in words. */
  differenceOf(other) {
    const parts = [];
    const must = (it) => it.links.filter((link) => link.must).length;
    if (must(this) !== must(other)) parts.push(`it has ${must(this) - must(other)} less of what must be built`);
    if (this.links.length !== other.links.length) parts.push(`it has ${other.links.length} links in place of ${this.links.length}`);
    const [more, { valued }] = [other.value - this.value, this.request];
    const verb = valued === "gain" ? "gains" : "costs";
    if (valued) parts.push(more === 0n ? `${verb} as much` : `${verb} ${spelled(more < 0n ? -more : more)} ${more < 0n ? "less" : "more"}`);
    return parts.map((it, place) => (place === 0 && !it.startsWith("it ") ? `it ${it}` : it)).join(", and ");
  }

  /** The best trees of the other numbers of links. */
  otherSizes() {
    return this.rungs.filter((it) => it !== this.rung).map((it) => new Tree(this.request, this.written, this.certificate, null, it));
  }

  /** The requests without one of the links that are built. */
  losses() {
    return this.places.map((place) => {
      const links = this.request.links.map((it, other) => (other === place ? { ...it, never: true, must: false } : it));
      return { ...this.request, links };
    });
  }

  get lines() {
    const { links, valued, groupedBy } = this.request;
    const heads = ["link", "from", "to", ...(valued ? [valued] : []), ...(groupedBy ? [groupedBy] : []), "built"];
    const cellsOf = (it) => [it.name, it.from, it.to, ...(valued ? [spelled(it.value)] : []), ...(groupedBy ? [it.group] : [])];
    return [heads, ...links.map((it, place) => [...cellsOf(it), this.built.has(place) ? "yes" : "no"])];
  }

  get problem() {
    return { command: this.written.command, text: this.written.text };
  }

  get proof() {
    return [
      { label: "Save the description", name: "network.txt", text: this.written.text },
      { label: "Save the certificate", name: "network.answer", text: this.certificate },
    ];
  }

  fill({ table, details, title }, turn) {
    fillLinks(table, this, turn);
    fillGroups(details, title, this);
  }
}
