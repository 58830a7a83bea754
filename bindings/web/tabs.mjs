// Tabs, of which one is shown. The arrow keys go from one to the next.

export class Tabs {
  /** `at` finds by its id the panel of each name, and by that with -tab behind it the button that shows it. The first one is shown. */
  constructor(names, at) {
    const byNames = (find) => Object.fromEntries(names.map((it) => [it, find(it)]));
    const [tabs, panels] = [byNames((it) => at(`${it}-tab`)), byNames(at)];
    Object.assign(this, { names, tabs, panels });
    for (const name of names) {
      tabs[name].addEventListener("click", () => this.show(name));
      tabs[name].addEventListener("keydown", (event) => this.#go(event, name));
    }
    this.show(names[0]);
  }

  /** Shows the tab of a name, or leaves all as it is if there is none. */
  show(name) {
    if (!this.names.includes(name)) return;
    this.shown = name;
    for (const it of this.names) {
      this.panels[it].hidden = it !== name;
      this.tabs[it].ariaSelected = String(it === name);
      this.tabs[it].tabIndex = it === name ? 0 : -1;
    }
  }

  #go(event, name) {
    const step = { ArrowRight: 1, ArrowLeft: -1 }[event.key];
    if (!step) return;
    event.preventDefault();
    const next = this.names.at((this.names.indexOf(name) + step) % this.names.length);
    this.show(next);
    this.tabs[next].focus();
  }
}
