// Choices of a sheet that are no limits: lists to choose from, and numbers.
import { made } from "./grid.mjs";

export class Choices {
  /**
   * `place` is an element; `wanted` is a list of { name, label, options, number, isShown }: `options` are pairs of a value and what is said of it, or
   * else `number` has the least, the first and the greatest number; `isShown` says whether it is shown, by what is read and the other values. `tell` is
   * called when one is changed.
   */
  constructor(place, name, wanted, tell) {
    Object.assign(this, { place, wanted, inputs: new Map() });
    for (const it of wanted) {
      const input = it.options ? made("select", {}, ...it.options.map(([value, text]) => new Option(text, value))) : numberInput(it.number);
      input.id = `${name}-${it.name}`;
      input.addEventListener("change", () => tell());
      place.append(made("label", { htmlFor: input.id, textContent: it.label }), input);
      this.inputs.set(it.name, input);
    }
    this.show(null);
  }

  /** The values by their names. */
  get values() {
    return Object.fromEntries([...this.inputs].map(([name, input]) => [name, input.value]));
  }

  set values(values) {
    for (const { name, options } of this.wanted) {
      const value = String(values?.[name] ?? "");
      if (options ? options.some(([it]) => it === value) : /^\d{1,2}$/.test(value)) this.inputs.get(name).value = value;
    }
  }

  /** Shows those that there are for what was read. */
  show(read) {
    const values = this.values;
    for (const { name, isShown } of this.wanted) {
      const input = this.inputs.get(name);
      input.hidden = input.previousSibling.hidden = !isShown(read, values);
    }
    this.place.hidden = [...this.inputs.values()].every((it) => it.hidden);
  }
}

function numberInput([min, value, max]) {
  return made("input", { type: "number", min, max, value, required: true });
}
