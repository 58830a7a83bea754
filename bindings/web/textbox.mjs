// A text box that can mark a line, takes files that are dropped on it, and brings back what was written where another text came in its place.

/** Lines of which more would hold up the browser. */
const MOST_LINES = 10_000;

/** How many characters of a text are shown: all, or those of the lines that have room, or a part of the first line. */
function lengthShown(text, mostCharacters) {
  let end = 0;
  for (let lines = 0; lines < MOST_LINES && end < text.length; lines++) {
    const next = text.indexOf("\n", end) + 1 || text.length;
    if (next > mostCharacters) return end || mostCharacters;
    end = next;
  }
  return end;
}

/** How many line ends a text has. */
function countLines(text) {
  let count = 0;
  for (let at = text.indexOf("\n"); at >= 0; at = text.indexOf("\n", at + 1)) count++;
  return count;
}

/** The place of the first character of a line, from 1, and that behind its last one. */
function rangeOf(text, line) {
  let from = 0;
  for (let before = 1; before < line; before++) {
    const end = text.indexOf("\n", from);
    if (end < 0) break;
    from = end + 1;
  }
  const end = text.indexOf("\n", from);
  return [from, end < 0 ? text.length : end];
}

/** The text of a file in UTF-8. */
async function utf8Of(file) {
  try {
    return await file.text();
  } catch {
    throw new Error("it could not be read.");
  }
}

function buttonFor(text, action) {
  const button = Object.assign(document.createElement("button"), { type: "button", textContent: text });
  button.addEventListener("click", action);
  return button;
}

export class TextBox {
  /** The whole text where the area shows its front alone, and else null. */
  #whole = null;
  /** The text that was last put here and not written here. */
  #given = "";
  /** What was written here before another text came in its place, or null. */
  #replaced = null;

  /**
   * `area` is a textarea within a box that has an element of the class `mark`; `fault` is where a fault is told, `part` where it is told how much
   * is shown, and `back` is the button that brings back what was written. A file may have so many bytes; `textOf` is its text, or fails with an Error
   * that says why there is none. Of a text of more characters, which would hold up the browser, the front is shown.
   */
  constructor({ area, fault, part, back }, mostBytes, mostCharacters, textOf = utf8Of) {
    Object.assign(this, { area, fault, part, back, mostBytes, mostCharacters, textOf });
    this.mark = area.parentElement.querySelector(".mark");
    this.line = null;
    area.addEventListener("scroll", () => this.#placeMark());
    area.addEventListener("input", () => this.clearFault());
    area.addEventListener("paste", (event) => this.#paste(event));
    area.parentElement.addEventListener("drop", (event) => this.#take(event));
    back.addEventListener("click", () => this.#bringBack());
  }

  get text() {
    return this.#whole ?? this.area.value;
  }

  /** Puts another text into the box. The area has the event `input` then, as if it were typed. */
  set text(text) {
    const before = this.text;
    if (before.trim() && before !== this.#given) this.#replaced = before;
    this.back.hidden = this.#replaced === null;
    this.#show(text.replace(/\r\n?/g, "\n"));
    this.#given = this.text;
    this.area.dispatchEvent(new Event("input", { bubbles: true }));
  }

  /** Puts a text into the box that was written there before. */
  restore(text) {
    this.text = text;
    this.#given = "";
  }

  /** Puts what a file holds into the box. */
  async open(file) {
    if (file.size > this.mostBytes) {
      this.showFault(null, `${file.name} has more than ${this.mostBytes.toLocaleString("en")} bytes.`);
      return;
    }
    try {
      this.text = await this.textOf(file);
    } catch (error) {
      this.showFault(null, `${file.name}: ${error.message}`);
    }
  }

  /** Puts a text here that is made of what stood here, as if it were typed. The area has no event then. */
  rewrite(text) {
    this.#show(text);
    this.#given = "";
  }

  /**
   * The area is out of the page while its text is changed: a browser forgets then what it could undo there, which was of another text. A text whose
   * rest is not shown cannot be changed.
   */
  #show(text) {
    const hasFocus = document.activeElement === this.area;
    const length = lengthShown(text, this.mostCharacters);
    this.#whole = length < text.length ? text : null;
    this.area.remove();
    this.area.value = text.slice(0, length);
    this.mark.after(this.area);
    if (hasFocus) this.area.focus({ preventScroll: true });
    this.area.scrollTop = 0;
    this.#tellPart();
    this.area.readOnly = this.#whole !== null;
  }

  /** Tells how much of a text is shown where that is not all. */
  #tellPart() {
    this.part.replaceChildren();
    if (this.#whole === null) return;
    const inAll = (count) => count.toLocaleString("en");
    const [shown, whole] = [countLines(this.area.value), countLines(this.#whole)];
    const told = shown > 0 ? `${inAll(shown)} of ${inAll(whole)} lines` : `${inAll(this.area.value.length)} of ${inAll(this.#whole.length)} characters`;
    this.part.append(`The first ${told} are shown, and cannot be changed here. The whole text is what is solved, checked and saved. `);
    this.part.append(buttonFor("Empty the box", () => this.#empty()));
  }

  #empty() {
    this.text = "";
    this.area.focus();
  }

  #bringBack() {
    const text = this.#replaced;
    this.#replaced = null;
    this.restore(text);
    this.area.focus();
  }

  /** A text that becomes too long to be shown is not left to the browser. */
  #paste(event) {
    const { value, selectionStart, selectionEnd, readOnly } = this.area;
    const text = value.slice(0, selectionStart) + event.clipboardData.getData("text/plain") + value.slice(selectionEnd);
    if (readOnly || lengthShown(text, this.mostCharacters) === text.length) return;
    event.preventDefault();
    this.text = text;
  }

  #take(event) {
    const [file] = event.dataTransfer.files;
    if (!file) return;
    event.preventDefault();
    this.open(file);
  }

  /** Tells a fault, and marks its line where it has one that is shown. `parts` are texts and elements. */
  showFault(line, ...parts) {
    const isShown = line !== null && (this.#whole === null || line <= countLines(this.area.value));
    this.line = isShown ? line : null;
    this.area.setAttribute("aria-invalid", "true");
    this.fault.replaceChildren(...parts);
    if (!isShown) return;
    this.fault.append(" ", buttonFor(`Go to line ${line}`, () => this.#goTo(line)));
    this.#placeMark();
  }

  /** Scrolls to the line that is marked, if one is. */
  scrollToFault() {
    if (this.line === null) return;
    this.area.scrollTop = Math.max(0, (this.line - 4) * this.#lineHeight());
    this.#placeMark();
  }

  clearFault() {
    this.line = null;
    this.area.removeAttribute("aria-invalid");
    this.fault.replaceChildren();
    this.#placeMark();
  }

  #goTo(line) {
    this.area.focus();
    this.area.setSelectionRange(...rangeOf(this.area.value, line));
  }

  #lineHeight() {
    return parseFloat(getComputedStyle(this.area).lineHeight);
  }

  #placeMark() {
    this.mark.hidden = this.line === null;
    if (this.mark.hidden) return;
    const { paddingTop } = getComputedStyle(this.area);
    const height = this.#lineHeight();
    this.mark.style.height = `${height}px`;
    this.mark.style.top = `${parseFloat(paddingTop) + (this.line - 1) * height - this.area.scrollTop}px`;
  }
}
