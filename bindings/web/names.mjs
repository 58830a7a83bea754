// Names of ASCII for people, shifts, links and places in any script, as descriptions want them, by the rules of the Python package
// (matbench/roster/names.py, and names_of in matbench/descriptions.py).

/** The signs that a name of an element may have. */
const MOST_SIGNS = 32;
const PLAIN_LETTERS = new Map(
  Object.entries({ ß: "ss", æ: "ae", Æ: "Ae", ø: "o", Ø: "O", ł: "l", Ł: "L", đ: "d", Đ: "D", ð: "d", þ: "th", œ: "oe", ı: "i" }),
).set("–", "-");

/** Whether a sign stands on the one before: whether Unicode orders it among such signs. */
function isCombining(sign) {
  const [low, high] = ["\u0334", "\u0345"];
  return (sign + low).normalize("NFD") !== sign + low || (high + sign).normalize("NFD") !== high + sign;
}

/** A text without accents and with _ for a space, or nothing where letters have no plain form. */
function plainName(text) {
  const signs = [...text].map((sign) => PLAIN_LETTERS.get(sign) ?? sign).join("");
  const bare = [...signs.normalize("NFKD")].filter((sign) => sign <= "~" || !isCombining(sign)).join("");
  const name = bare.replaceAll(" ", "_");
  return /^[!-~]*$/.test(name) ? name : "";
}

/** A name of ASCII for each text, all different and at most so long: the text itself where it is one, or a letter and a number. */
export function shortNames(texts, letter, most) {
  const [found, taken] = [new Map(), new Set()];
  for (const text of new Set(texts)) {
    let name = plainName(text);
    if (!name || name.length > most || taken.has(name)) name = `${letter}${found.size + 1}`;
    while (taken.has(name)) name = letter + name;
    taken.add(name);
    found.set(text, name);
  }
  return found;
}

/** How long names of people and of shifts may be, so that both have room. */
function widthsOf(people, shifts, room) {
  let [width, height] = [people, shifts].map((texts) => Math.max(...texts.map((it) => plainName(it).length)));
  while (width + height > room) {
    if (width > height) width--;
    else height--;
  }
  return [width, height];
}

/** A name for each pair of a person and a shift, as Ada.Mon_early, all different and of ASCII, with room for so many signs behind it. */
export function namesOfWishes(pairs, behind) {
  const [people, shifts] = [pairs.map(([it]) => it), pairs.map(([, it]) => it)];
  let names = [];
  for (const [width, height] of [widthsOf([...new Set(people)], [...new Set(shifts)], MOST_SIGNS - 1 - behind), [0, 0]]) {
    const [ofPeople, ofShifts] = [shortNames(people, "p", width), shortNames(shifts, "s", height)];
    names = pairs.map(([person, shift]) => `${ofPeople.get(person)}.${ofShifts.get(shift)}`);
    if (new Set(names).size === names.length) break;
  }
  return names;
}

/** Names for things: these words, with _ for a space, if all are names and no two the same; else a letter and their numbers. */
export function wordsOrNumbers(letter, words) {
  const found = words.map((it) => it.replaceAll(" ", "_"));
  const areNames = found.every((it) => /^[!-~]{1,32}$/.test(it)) && new Set(found).size === found.length;
  return areNames ? found : found.map((_, place) => letter + place);
}
