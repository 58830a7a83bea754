// Calls of matbench.wasm, the program as a WebAssembly module with 64-bit memory. Each call has an instance of its own.

/** Bytes in which each text about a description has room: a certificate has less than 24,000,000, a picture at most 27,310,000. */
export const ROOM = 28_000_000;

const NOTE_ROOM = 256;

/** Thrown where the memory that a call begins with cannot be had. */
export class NoMemory extends Error {}

/** The program's way to end: thrown and caught here. */
class Ended {
  constructor(status) {
    this.status = status;
  }
}

/** Whether the engine has 64-bit memory: a module that has a memory and a table of this kind and nothing else is valid. */
export function hasWideMemory() {
  return typeof WebAssembly === "object" && WebAssembly.validate(new Uint8Array([0, 97, 115, 109, 1, 0, 0, 0, 4, 4, 1, 112, 4, 0, 5, 3, 1, 4, 1]));
}

/**
 * The compiled module, for `call`, of the bytes of matbench.wasm or of its address. It can be sent to workers. Fails if the engine has no 64-bit
 * memory, or if nothing is at the address.
 */
export async function load(source) {
  if (!hasWideMemory()) throw new Error("this engine has no WebAssembly memory with 64-bit addresses (memory64), which the program needs");
  return WebAssembly.compile(source instanceof ArrayBuffer || ArrayBuffer.isView(source) ? source : await bytesAt(new URL(source)));
}

/** The bytes at an address. Node reads no files by fetch. */
async function bytesAt(address) {
  if (address.protocol === "file:" && globalThis.process?.versions?.node) return (await import("node:fs/promises")).readFile(address);
  const answer = await fetch(address);
  if (!answer.ok) throw new Error(`${address}: ${answer.status} ${answer.statusText}`);
  return answer.arrayBuffer();
}

/** The memory of an instance, in which texts and lists of numbers are laid out as matbench.h has them. */
class Layout {
  constructor({ allocate, memory }) {
    this.allocate = allocate;
    this.memory = memory;
  }

  reserve(length) {
    const at = this.allocate(BigInt(length));
    if (at === 0n) throw new NoMemory("there is not enough memory");
    return at;
  }

  put(bytes) {
    const at = this.reserve(bytes.length);
    new Uint8Array(this.memory.buffer).set(bytes, Number(at));
    return at;
  }

  putName(text) {
    return this.put(new TextEncoder().encode(text + "\0"));
  }

  putNumbers(numbers) {
    return this.put(new Uint8Array(new BigUint64Array(numbers).buffer));
  }

  putBuffer(room) {
    return this.putNumbers([this.reserve(room), BigInt(room), 0n]);
  }

  /** What was written to a buffer. */
  written(buffer) {
    const [at, , length] = new BigUint64Array(this.memory.buffer, Number(buffer), 3);
    return new Uint8Array(this.memory.buffer, Number(at), Number(length)).slice();
  }
}

/**
 * Does what the program does for these words over these files, an object of texts by their names.
 * @returns {{status: number, output: string, note: string, milliseconds: number, memory: number}} the program's exit status, what it wrote, its
 * note, how long it ran, and how many bytes of memory it took. `memory` is the most that it may take, and `room` that of the output, in bytes.
 */
export function call(module, words, files, { memory = 2 ** 32, room = ROOM } = {}) {
  const end = (status) => {
    throw new Ended(status);
  };
  const { exports } = new WebAssembly.Instance(module, { host: { end } });
  exports.limit_memory(BigInt(memory));
  const layout = new Layout(exports);
  const list = layout.putNumbers([...words.map((word) => layout.putName(word)), 0n]);
  const entries = Object.entries(files).flatMap(([name, text]) => {
    const bytes = new TextEncoder().encode(text);
    return [layout.putName(name), layout.put(bytes), BigInt(bytes.length)];
  });
  const [output, note] = [layout.putBuffer(room), layout.putBuffer(NOTE_ROOM)];
  const given = [list, layout.putNumbers(entries), BigInt(entries.length / 3), output, note];
  const from = performance.now();
  const status = statusOf(() => exports.matbench_call(...given));
  const milliseconds = performance.now() - from;
  const text = (buffer) => new TextDecoder().decode(layout.written(buffer));
  return { status, output: text(output), note: text(note).trimEnd(), milliseconds, memory: exports.memory.buffer.byteLength };
}

function statusOf(run) {
  try {
    return run();
  } catch (error) {
    if (error instanceof Ended) return error.status;
    throw error;
  }
}
