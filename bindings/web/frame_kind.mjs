// The sheet of a frame: what its cells and supports are, and how it is judged.
import { listsOf } from "./answers.mjs";
import { analysisOf, independenceOf } from "./frame_analysis.mjs";
import { Frame } from "./frame_plan.mjs";
import { endsOf, readFrame, requestOfFrame } from "./frame_request.mjs";

const TEXTS = {
  "cells-title": "Bars",
  "cells-about":
    "A truss in the plane has a line for each bar, with the columns bar, from and to: its name, and the joints at its ends. Bodies that are joined by bars " +
    "and hinges have the columns part, kind (bar or hinge), from and to. All of it is for general position: joints on special lines may leave a motion more.",
  "limits-title": "Supports",
  "limits-about": "A joint with a pin is fixed to the ground, and one with a roller slides along it. Without any the truss is judged by itself.",
  plan: "Judge the frame",
  "result-title": "Frame",
  hint: "",
};
const CHOICES = [
  {
    name: "space",
    label: "The bodies are",
    options: [["space", "in space"], ["plane", "in the plane"]],
    isShown: (read) => Boolean(read?.isBodies),
  },
];

/** The table of the form of supports, of a truss. */
function groupsOf({ members, isBodies }) {
  if (isBodies) return [];
  const columns = [{ kind: "", column: "support", words: "pin or roller", isWord: true }];
  return [{ what: "joint", title: "Supports of joints", names: endsOf(members), columns }];
}

async function solve(frame, calls) {
  const found = analysisOf(frame);
  const text = independenceOf(frame, found.count.basis);
  const certificate = await calls.checked(["cover"], text);
  const parts = listsOf("part", certificate).length;
  const isShown = parts > 0 && (frame.sparsity.isPlaneOfJoints || parts === 1);
  if (!isShown) throw new Error("The bars that were counted are not independent: this is a fault of the page.");
  return new Frame(found, text, certificate);
}

/** The kind of the sheet of a frame, with these examples. */
export function frameKind(examples) {
  const reading = { read: readFrame, groupsOf, limitsOf: null, requestOf: requestOfFrame, itemsOf: ({ members }) => members };
  return { name: "frame", words: TEXTS, heads: ["bar", "from", "to"], examples, choices: CHOICES, ...reading, namesOf: () => new Map(), raisedOf: () => [], solve };
}
