// Networks that share no link, and how many failing links a network stands.
import { listsOf } from "./answers.mjs";
import { fillMarks, linesOfMarks } from "./network_tables.mjs";

/** What is done with a plan that is a mark for some links. */
class Marked {
  canTurn = false;
  weight = null;

  get lines() {
    return linesOfMarks(this.request, this.head, this.marks);
  }

  fill({ table, details, title }) {
    title.textContent = "";
    details.replaceChildren();
    fillMarks(table, this.request, this.head, this.marks);
  }
}

/** So many networks that share no link, or why there are not so many, by a certificate of `trees`. */
export class Trees extends Marked {
  head = "network";

  constructor(request, written, certificate, picture) {
    super();
    Object.assign(this, { request, written, certificate, picture });
    this.trees = listsOf("tree", certificate).map((it) => it.map((number) => written.links[number]));
    this.classes = listsOf("class", certificate).map((it) => it.map((number) => request.places[number]));
    this.marks = new Map(this.trees.flatMap((tree, place) => tree.map((it) => [it, String(place + 1)])));
    if (this.trees.length === 0) this.#markCrossing();
  }

  /** Marks the links between the parts that show that there are not so many. */
  #markCrossing() {
    const partOf = new Map(this.classes.flatMap((places, part) => places.map((it) => [it, part])));
    this.head = "between parts";
    for (const it of this.written.links) {
      const { from, to } = this.request.links[it];
      if (partOf.get(from) !== partOf.get(to)) this.marks.set(it, "yes");
    }
  }

  get names() {
    return [...this.marks].map(([it, mark]) => `${this.request.links[it].name} in ${mark}`);
  }

  get told() {
    const { count, places, valued } = this.request;
    const ignored = valued ? ` The column ${valued} plays no part in this.` : "";
    if (this.trees.length > 0) return `${count} networks that share no link, each of which joins all ${places.length} places.${ignored}`;
    const parts = this.classes.map((it) => it.join(", "));
    const needed = count * (parts.length - 1);
    return (
      `There are no ${count} such networks. Between these ${parts.length} parts there are ${this.marks.size} links, and ${count} networks need ` +
      `${needed} of them: ${parts.join(" | ")}. The certificate proves it.${ignored}`
    );
  }

  get problem() {
    return { command: "trees", count: this.request.count, text: this.written.text };
  }

  get proof() {
    return [
      { label: "Save the description", name: "network.txt", text: this.written.text },
      { label: "Save the certificate", name: "network.answer", text: this.certificate },
    ];
  }
}

/** How many failing links leave all places joined, by certificates of `disjoint`: one for as many supplies, and one that there are no more. */
export class Failures extends Marked {
  head = "cuts off";

  /** `answered` has the numbers of supplies and the two certificates: { count, found, none }; there is no `found` where nothing joins all places. */
  constructor(request, text, answered, picture) {
    super();
    Object.assign(this, { request, text, answered, picture });
    const [members] = listsOf("vertices", answered.none);
    this.cutOff = members.map((it) => request.places[it]);
    this.marks = new Map(cutBy(request, this.cutOff).map((it) => [it, "yes"]));
  }

  get names() {
    return [...this.marks.keys()].map((it) => this.request.links[it].name);
  }

  get told() {
    const { count } = this.answered;
    const [cut, names] = [this.cutOff.join(", "), this.names.join(", ")];
    if (count === 0) return `These places are not joined to ${this.request.places[0]} by any links: ${cut}. The certificate proves it.`;
    const stands = count === 1 ? "No failure is stood" : `Any ${count - 1} failing ${count === 2 ? "link leaves" : "links leave"} all places joined`;
    const fails = count === 1 ? `the failure of this link alone cuts places off: ${names} (${cut})` : `these ${count} together cut places off: ${names} (${cut})`;
    return `${stands}; ${fails}. Two certificates prove it.`;
  }

  get problem() {
    return { command: "disjoint", count: Math.max(1, this.answered.count), text: this.text };
  }

  get proof() {
    const { found, none } = this.answered;
    const stands = { label: "Save the certificate that it stands them", name: "network_stands.answer", text: found };
    return [
      { label: "Save the description", name: "network.txt", text: this.text },
      ...(found ? [stands] : []),
      { label: "Save the certificate that it stands no more", name: "network_fails.answer", text: none },
    ];
  }
}

/** The numbers of the links that lead from some places to the others. */
export function cutBy({ links }, places) {
  const inside = new Set(places);
  return [...links.keys()].filter((it) => !links[it].never && inside.has(links[it].from) !== inside.has(links[it].to));
}
