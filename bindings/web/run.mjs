// Runs of the program, each in a worker of its own, which can be stopped.
import { hasWideMemory } from "./matbench.mjs";
import { loadModule, startWorker } from "./parts.mjs";

/** What is said where a page cannot run the program at all. */
export const NO_WIDE_MEMORY =
  "This browser has no WebAssembly memory with 64-bit addresses (memory64), which the program needs. " +
  "Chrome and Edge have it from version 133 on, Firefox from 134 on.";

let compiled;

/** The compiled module. Fails where the browser cannot run it, or where it cannot be loaded. */
export function moduleOfProgram() {
  compiled ??= hasWideMemory() ? loadModule().then((bytes) => WebAssembly.compile(bytes)) : Promise.reject(new Error(NO_WIDE_MEMORY));
  return compiled;
}

/** One run. `ended` is how it ended, or fails with an Error that says why it did not; where it was stopped it is null. */
export class Run {
  #worker = null;
  #settle;

  constructor(words, files, limits) {
    this.began = performance.now();
    this.ended = new Promise((fulfil, reject) => {
      this.#settle = { fulfil, reject };
    });
    this.#start({ words, files, limits });
  }

  async #start(task) {
    try {
      const module = await moduleOfProgram();
      if (!this.#settle) return;
      this.#worker = startWorker();
      this.#worker.onmessage = ({ data }) => this.#finish(data);
      this.#worker.onerror = (event) => this.#finish({ error: event.message || "the worker did not start" });
      this.#worker.postMessage({ module, ...task });
    } catch (error) {
      this.#finish({ error: error.message });
    }
  }

  #finish({ ended, error }) {
    const settle = this.#settle;
    this.#settle = null;
    this.#worker?.terminate();
    if (error) settle?.reject(new Error(error));
    else settle?.fulfil(ended);
  }

  /** Ends the run at once. */
  stop() {
    this.#finish({ ended: null });
  }

  /** How long ago it began. */
  get milliseconds() {
    return performance.now() - this.began;
  }
}
