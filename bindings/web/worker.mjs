// Makes one call off the page's thread: it is sent { module, words, files, limits }, and answers { ended } or { error }.
import { call, NoMemory } from "./matbench.mjs";

onmessage = ({ data: { module, words, files, limits } }) => {
  try {
    postMessage({ ended: call(module, words, files, limits) });
  } catch (error) {
    const isMemory = error instanceof NoMemory || (error instanceof RangeError && /memory/i.test(error.message));
    postMessage({ error: isMemory ? "memory" : String(error) });
  }
};
