// What stands in certificates: the sets of an answer, and what they weigh.

/** A weight as numbers: the first and, behind a colon, the second. */
function weightOf(word) {
  const [first, second = "0"] = word.split(":");
  return [BigInt(first), BigInt(second)];
}

/** Compares two weights: above 0 if the first is greater. */
export function compareWeights([first, second], [otherFirst, otherSecond]) {
  const difference = first - otherFirst || second - otherSecond;
  return difference > 0n ? 1 : difference < 0n ? -1 : 0;
}

/** The sets of each size of a certificate of `intersect` or `best`, as { weight, members }. */
export function rungsOf(certificate) {
  const found = [];
  for (const line of certificate.split("\n")) {
    const [word, ...rest] = line.split(" ");
    if (word === "rung") found.push({ weight: weightOf(rest[1]), members: [] });
    else if (word === "set") found.at(-1).members = rest.map(Number);
  }
  return found;
}

/** The rung of the greatest weight, of several the largest. */
export function bestOf(rungs) {
  return rungs.reduce((best, it) => (compareWeights(it.weight, best.weight) >= 0 ? it : best));
}

/** The lists of numbers behind a word, one for each line that begins with it. */
export function listsOf(word, certificate) {
  const lines = certificate.split("\n").filter((it) => it === word || it.startsWith(`${word} `));
  return lines.map((it) => it.split(" ").slice(1).map(Number));
}
