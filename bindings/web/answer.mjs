// What the page shows of an answer beside its certificate: a right one in words and as a picture, and in names the sets of one that is not told.

/** A picture that is wider than its box is made narrower, down to this part of its width. The rest is scrolled. */
const NARROWEST = 2 / 3;
/** The most bytes of a line of a told answer, but for one of a single long word. */
const LONGEST_LINE = 96;

/** The words behind the first word of the first line that begins with it, or null. */
function wordsBehind(word, text) {
  const line = text.split("\n", 4).find((it) => it.startsWith(word + " "));
  return line ? line.split(" ").slice(1) : null;
}

/** The names of the elements and of the vertices of a description, or null where these are numbers. */
function namesOf(description) {
  if (!description.startsWith("matroids 2\n")) return { elements: null, vertices: null };
  return { elements: wordsBehind("elements", description), vertices: wordsBehind("vertices", description) };
}

/** The rows of the table of an answer to `cuts`: what a set is, its price, and its members. */
function rowsOf(description, certificate) {
  const { elements, vertices } = namesOf(description);
  const named = (names, numbers) => numbers.map((it) => names?.[Number(it)] ?? it).join(" ");
  const rows = [];
  for (const line of certificate.split("\n")) {
    const [word, ...rest] = line.split(" ");
    if (word === "set") rows.push([word, "", named(elements, rest)]);
    else if (word === "vertices") rows.push([word, "", named(vertices, rest)]);
    else if (word === "cut") rows.push([word, rest[0], named(vertices, rest.slice(1))]);
  }
  return rows;
}

/** Which of the paragraphs of a told answer say what was found, as one text. */
function resultOf(paragraphs) {
  return paragraphs
    .filter((it) => /^[A-Z]+: /.test(it))
    .join(" ")
    .replace(/\s+/g, " ");
}

function indentationOf(line) {
  return line.search(/\S/);
}

/**
 * Whether a paragraph of a told answer, with this last line, goes on in the next line: that is indented by two more then, and its first word had no
 * room. Behind a colon a list may begin, which stays apart.
 */
function goesOn(paragraph, last, next) {
  const [word] = next.trimStart().split(" ", 1);
  const hadRoom = new TextEncoder().encode(`${last} ${word}`).length <= LONGEST_LINE;
  return indentationOf(next) === indentationOf(paragraph) + 2 && !hadRoom && !last.endsWith(":");
}

/** The paragraphs of a told answer, each with its lines as they are. */
function paragraphsOf(text) {
  const [first, ...lines] = text.trimEnd().split("\n");
  const paragraphs = [first];
  let last = first;
  for (const line of lines) {
    if (goesOn(paragraphs.at(-1), last, line)) paragraphs.push(`${paragraphs.pop()}\n${line}`);
    else paragraphs.push(line);
    last = line;
  }
  return paragraphs;
}

/** A paragraph as an element, whose lines are as long as its box and indented as those of the program are. */
function toldParagraph(text) {
  const told = Object.assign(document.createElement("p"), { textContent: text });
  told.style.paddingLeft = `${indentationOf(text) + 2}ch`;
  return told;
}

/** The parts of the page that show an answer, of which those are hidden that have nothing to show. */
export class AnswerParts {
  /** `nothing` says that no answer is shown; `words` has one of the class `told`, `picture` an `img`, and `names` the body of a table. */
  constructor({ nothing, words, picture, names }) {
    this.parts = { nothing, words, picture, names };
    this.paragraphs = [];
    this.svg = "";
    this.told = words.querySelector(".told");
    this.image = picture.querySelector("img");
    this.table = names.querySelector("tbody");
    this.image.addEventListener("load", () => {
      this.image.style.minWidth = `${this.image.naturalWidth * NARROWEST}px`;
    });
  }

  clear() {
    for (const part of Object.values(this.parts)) part.hidden = true;
    this.parts.nothing.hidden = false;
  }

  #show(part) {
    part.hidden = false;
    this.parts.nothing.hidden = true;
  }

  /** Shows an answer in words. */
  tell(text) {
    this.paragraphs = paragraphsOf(text);
    this.told.replaceChildren(...this.paragraphs.map(toldParagraph));
    this.#show(this.parts.words);
  }

  /** Shows the picture of the answer that was told. In an image no script runs and nothing is loaded, whatever stands in the SVG. */
  draw(svg) {
    this.svg = svg;
    this.image.alt = `The answer as a picture. ${resultOf(this.paragraphs)}`;
    this.image.src = `data:image/svg+xml,${encodeURIComponent(svg)}`;
    this.#show(this.parts.picture);
  }

  /** Shows the sets of an answer to `cuts`, in the names of the description. */
  name(description, certificate) {
    this.table.replaceChildren();
    for (const cells of rowsOf(description, certificate)) {
      const row = this.table.insertRow();
      for (const text of cells) row.insertCell().textContent = text;
    }
    this.#show(this.parts.names);
  }
}
