// The types of matbench.mjs.

/** Bytes in which each text about a description has room. */
export const ROOM: number;

/** Thrown if the memory that a call begins with cannot be had. */
export class NoMemory extends Error {}

/** Whether the engine has the 64-bit memory that the program needs. */
export function hasWideMemory(): boolean;

/** The compiled module, for `call`, of the bytes of matbench.wasm or of its address. Fails if the engine has no 64-bit memory. */
export function load(source: ArrayBuffer | ArrayBufferView | URL | string): Promise<WebAssembly.Module>;

/** How a call ended. */
export interface Ended {
  /** The exit status of the program. */
  status: number;
  /** What it wrote. */
  output: string;
  /** The note of a refusal, or an empty text. */
  note: string;
  /** How long it ran. */
  milliseconds: number;
  /** How many bytes of memory it took. */
  memory: number;
}

/** What a call may take, in bytes: memory, 2 ** 32 if it is left out, and room for the output, ROOM if it is left out. */
export interface Limits {
  memory?: number;
  room?: number;
}

/** Does what the program does for these words, such as ["intersect", "f"], over these files, texts by their names. */
export function call(module: WebAssembly.Module, words: readonly string[], files: Readonly<Record<string, string>>, limits?: Limits): Ended;
