// Calls of the program one after another, for a sheet: while some are under way no others begin, and all of them can be stopped.
import { Run } from "./run.mjs";

/** Thrown by a call that was stopped. */
export class Stopped extends Error {}

/** Thrown by a call that the program refuses, with its note. */
export class Refused extends Error {}

export class Calls {
  #running = null;
  #isStopped = false;

  /** Whether calls are under way. */
  isBusy = false;

  /** Does something that makes calls, and answers what it makes. */
  async during(action) {
    Object.assign(this, { isBusy: true });
    this.#isStopped = false;
    try {
      return await action();
    } finally {
      this.isBusy = false;
    }
  }

  /** What the program writes for these words over these files. Throws Stopped, or Refused. */
  async output(words, files) {
    if (this.#isStopped) throw new Stopped();
    this.#running = new Run(words, files);
    const ended = await this.#running.ended;
    if (!ended || this.#isStopped) throw new Stopped();
    if (ended.status !== 0) throw new Refused(ended.note.replace("refused: ", ""));
    return ended.output;
  }

  /** The certificate by which the program answers a description, for the words of a command. */
  async certificate(command, description) {
    return this.output([...command, "description"], { description });
  }

  /** The same, once `check` has judged it right. */
  async checked(command, description) {
    const answer = await this.certificate(command, description);
    await this.output(["check", "description", "answer"], { description, answer });
    return answer;
  }

  stop() {
    this.#isStopped = true;
    this.#running?.stop();
  }
}
